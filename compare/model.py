#!/usr/bin/env python3
"""Document 01 as a plain model that answers scripts (docs/SCRIPT.md): a third voice beside the program
and renet, to tell which of two is at fault. It follows the document's words, not anybody's code. With the
argument `limits` it says what the program `limits` must print."""
import re
import sys

SLICE = 1200
LIMIT = 1 << 62
TOP = 1 << 64
MOD = (1 << 56) - 5
NAMES = """BufferTooShort InvalidNumSlices SliceSizeAboveLimit EmptySlice InvalidAckRange InvalidPacketType
ReliableChannelMaxMemoryReached InvalidSliceMessage BadSettings BadStore TableFull TooLong BadNumber ClockBack
NoRoom WrongKind BadIndex""".split()


class Bad(Exception):
    pass


class Refused(Exception):
    pass


def refuse(number, condition=True):
    if condition:
        raise Refused(number)


def guarded(call, *args):
    try:
        return call(*args)
    except Refused as r:
        return f"refused {r.args[0]} {NAMES[r.args[0] - 1]}"


# ---- spelling

def digits(word):
    if not re.fullmatch(rb"[0-9]+", word):
        return None
    return int(word)


def number(word):
    m = re.fullmatch(rb"2\^([0-9]+)(?:([-+])([0-9]+))?", word)
    if not m:
        v = digits(word)
        if v is None:
            return "not a number"
        return v if v < TOP else "too large"
    k, d = int(m[1]), int(m[3] or b"0")
    if k > 64 or d >= TOP:
        return "too large"
    v = (1 << k) - d if m[2] == b"-" else (1 << k) + d
    if v < 0:
        return "not a number"
    return v if v < TOP else "too large"


def after(b):
    return 0 if b in (0xfa, 0xff) else b + 1


def parse_bytes(word):
    out = bytearray()
    if word == b"-":
        return out
    for part in word.split(b"."):
        m = re.fullmatch(rb"([0-9a-f]{2})([x~])([0-9]+)", part)
        if m:
            b, n = int(m[1], 16), int(m[3])
            if len(out) + n > 49152:
                return "too many bytes"
            for _ in range(n):
                out.append(b)
                b = after(b) if m[2] == b"~" else b
        elif re.fullmatch(rb"([0-9a-f]{2})+", part):
            if len(out) + len(part) // 2 > 49152:
                return "too many bytes"
            out += bytes.fromhex(part.decode())
        else:
            return "not bytes"
    return out


def spell(s):
    if not s:
        return "-"
    parts, plain, i = [], "", 0
    while i < len(s):
        e = c = i + 1
        while e < len(s) and s[e] == s[i]:
            e += 1
        while c < len(s) and s[c] == after(s[c - 1]):
            c += 1
        end, sign = (e, "x") if e - i >= 8 else (c, "~")
        if end - i >= 8:
            parts += [plain] if plain else []
            plain = ""
            parts.append(f"{s[i]:02x}{sign}{end - i}")
            i = end
        else:
            plain += f"{s[i]:02x}"
            i += 1
    return ".".join(parts + ([plain] if plain else []))


def digest(values):
    h = 0
    for v in values:
        h = (h * 251 + v % MOD) % MOD
    return h


class Args:
    def __init__(self, words):
        self.words, self.k = words, 0

    def _next(self, read):
        self.k += 1
        if self.k > len(self.words):
            raise Bad(f"argument {self.k}: missing")
        v = read(self.words[self.k - 1])
        if isinstance(v, str):
            raise Bad(f"argument {self.k}: {v}")
        return v

    def number(self, most=TOP - 1):
        v = self._next(number)
        if v > most:
            raise Bad(f"argument {self.k}: too large")
        return v

    def bytes(self):
        return bytes(self._next(parse_bytes))

    def table(self):
        words = []
        while self.k < len(self.words) and len(words) < 192:
            words.append(self.number())
        return words

    def end(self):
        if self.k < len(self.words):
            raise Bad(f"argument {self.k + 1}: one too many")


# ---- the wire

def varint(v):
    for k, n in enumerate((1, 2, 4, 8)):
        if v < 1 << (8 * n - 2):
            return (v | k << (8 * n - 2)).to_bytes(n, "big")
    raise AssertionError(v)


class Reader:
    def __init__(self, s, at=0):
        self.s, self.at = s, at

    def take(self, n):
        refuse(1, self.at > len(self.s) or self.at + n > len(self.s))
        self.at += n
        return self.s[self.at - n:self.at]

    def u8(self):
        return self.take(1)[0]

    def u16(self):
        return int.from_bytes(self.take(2), "big")

    def varint(self):
        refuse(1, self.at >= len(self.s))
        n = 1 << (self.s[self.at] >> 6)
        return int.from_bytes(self.take(n), "big") % (1 << (8 * n - 2))

    def run(self):
        n = self.varint()
        self.take(n)
        return self.at - n, n


def read_packet(s):
    """The kind, its numbers, its entries and the bytes used."""
    r = Reader(s)
    kind = r.u8()
    refuse(6, kind > 4)
    seq = r.varint()
    if kind in (0, 1):
        channel, count = r.u8(), r.u16()
        entries = []
        for _ in range(count):
            ident = r.varint() if kind == 0 else 0
            entries.append((ident, *r.run()))
        return kind, (seq, channel), entries, r.at
    if kind in (2, 3):
        channel, ident, index, num = r.u8(), r.varint(), r.varint(), r.varint()
        refuse(2, num == 0 or num > 1_000_000)
        place, n = r.run()
        if kind == 2:
            refuse(4, n == 0)
            refuse(3, n > SLICE)
        return kind, (seq, channel, ident, index, num, place, n), [], r.at
    last, less, remaining = r.varint(), r.varint(), r.varint()
    refuse(5, last < less)
    entries = [(last - less, last + 1)]
    for _ in range(remaining):
        above = entries[0][0]
        gap = r.varint()
        refuse(5, above < 2 + gap)
        end = above - gap - 1
        less = r.varint()
        refuse(5, end - 1 < less)
        entries.insert(0, (end - 1 - less, end))
    return kind, (seq,), entries, r.at


KINDS = ["SmallReliable", "SmallUnreliable", "ReliableSlice", "UnreliableSlice", "Ack"]


def packet_words(kind, head, entries):
    name = KINDS[kind]
    if kind in (0, 1):
        text = f"{name} sequence {head[0]} channel {head[1]} messages {len(entries)}"
        for ident, place, n in entries:
            text += f", id {ident} at {place} length {n}" if kind == 0 else f", at {place} length {n}"
        return text
    if kind in (2, 3):
        seq, channel, ident, index, num, place, n = head
        return f"{name} sequence {seq} channel {channel} message {ident} slice {index} of {num} at {place} length {n}"
    return f"Ack sequence {head[0]} ranges {len(entries)}" + "".join(f", {a}..{e}" for a, e in entries)


class Lent:
    def __init__(self, n, fill=0xa5):
        self.mem, self.len = [fill] * n if fill > 255 else bytearray([fill]) * n, n

    def put(self, at, values):
        self.mem[at:at + len(values)] = values

    def digest(self):
        return digest(self.mem)


class Wire:
    def __init__(self):
        word = 0xa5a5a5a5a5a5a5a5
        self.messages, self.ranges, self.out = Lent(192, word), Lent(128, word), Lent(2048)

    def read(self, s, whole=False):
        kind, head, entries, used = read_packet(s)
        size, table = (2, self.ranges) if kind == 4 else (3, self.messages)
        refuse(11, len(entries) > (len(table.mem) if whole else table.len) // size)
        table.put(0, [v for e in entries for v in e])
        return kind, head, entries, used

    def put_at(self, at, s):
        refuse(1, at + len(s) > self.out.len)
        self.out.put(at, s)

    def write(self, s):
        self.put_at(0, s)
        return f"written {len(s)} {spell(s)}"

    def small(self, ids, seq, channel, count, store, table):
        refuse(10, count > len(table) // 3)
        rows = [table[3 * i:3 * i + 3] for i in range(count)]
        refuse(10, any(place + n > len(store) for _, place, n in rows))
        refuse(13, seq >= LIMIT or ids and any(i >= LIMIT for i, _, _ in rows))
        refuse(12, count > 65535)
        s = bytes([0 if ids else 1]) + varint(seq) + bytes([channel]) + count.to_bytes(2, "big")
        for ident, place, n in rows:
            s += (varint(ident) if ids else b"") + varint(n) + store[place:place + n]
        return self.write(s)

    def slice(self, kind, seq, channel, ident, index, num, place, n, store):
        refuse(10, place + n > len(store))
        refuse(13, max(seq, ident, index, num) >= LIMIT)
        s = bytes([kind]) + varint(seq) + bytes([channel]) + varint(ident) + varint(index) + varint(num)
        return self.write(s + varint(n) + store[place:place + n])

    def ack(self, seq, count, table):
        refuse(10, count > min(len(table) // 2, 64))
        ranges = [table[2 * i:2 * i + 2] for i in range(count)]
        refuse(13, seq >= LIMIT or any(a >= LIMIT or e > LIMIT for a, e in ranges))
        refuse(5, not ranges or any(e <= a for a, e in ranges))
        refuse(5, any(ranges[i + 1][0] <= ranges[i][1] for i in range(count - 1)))
        start, end = ranges[-1]
        s = b"\4" + varint(seq) + varint(end - 1) + varint(end - 1 - start) + varint(count - 1)
        for a, e in reversed(ranges[:-1]):
            s += varint(start - e - 1) + varint(e - a - 1)
            start = a
        return self.write(s)

    def call(self, call, a):
        if call == "read":
            s = a.bytes()
            a.end()
            kind, head, entries, used = self.read(s)
            return f"{packet_words(kind, head, entries)}; used {used}"
        if call in ("small-reliable", "small-unreliable"):
            args = a.number(), a.number(255), a.number(), a.bytes(), a.table()
            a.end()
            return self.small(call == "small-reliable", *args)
        if call in ("reliable-slice", "unreliable-slice"):
            args = a.number(), a.number(255), a.number(), a.number(), a.number(), a.number(), a.number(), a.bytes()
            a.end()
            return self.slice(2 if call == "reliable-slice" else 3, *args)
        if call == "ack":
            args = a.number(), a.number(), a.table()
            a.end()
            return self.ack(*args)
        if call in ("get-u8", "get-u16", "get-varint", "get-bytes"):
            s, at = a.bytes(), a.number()
            a.end()
            r = Reader(s, at)
            if call == "get-bytes":
                place, n = r.run()
                return f"at {place} length {n} {spell(s[place:place + n])}"
            v = {"get-u8": r.u8, "get-u16": r.u16, "get-varint": r.varint}[call]()
            return f"value {v} next {r.at}"
        if call == "varint-len":
            v = a.number()
            a.end()
            refuse(13, v >= LIMIT)
            return f"length {len(varint(v))}"
        if call in ("put-u16", "put-varint", "put-bytes"):
            at = a.number()
            v = a.bytes() if call == "put-bytes" else a.number(65535 if call == "put-u16" else TOP)
            a.end()
            if call == "put-u16":
                s = v.to_bytes(2, "big")
            elif call == "put-bytes":
                s = varint(len(v)) + v
            else:
                refuse(13, v >= LIMIT)
                s = varint(v)
            self.put_at(at, s)
            return f"to {at + len(s)} {spell(s)}"
        if call == "lend":
            m, r, o = a.number(192), a.number(128), a.number(2048)
            a.end()
            self.messages.len, self.ranges.len, self.out.len = m, r, o
            return f"lent messages {m} ranges {r} out {o}"
        if call == "digest":
            a.end()
            return f"messages {self.messages.digest()} ranges {self.ranges.digest()} out {self.out.digest()}"
        raise Bad("no such call")


# ---- channel ends

class End:
    """Settings, two stores, and the cells and lanes that are held."""
    def __init__(self):
        self.small, self.lanes = Lent(76800), Lent(192000)
        self.fresh((64, 4, 40, 1_000_000))

    def fresh(self, settings):
        self.slots, self.nlanes, self.pieces, self.memory = settings
        self.held = set()
        self.usage = 0
        self.latest = 0

    def set_up(self, settings, *more):
        slots, lanes, pieces, memory = settings
        refuse(9, not (1 <= slots <= 64 and 1 <= lanes <= 4 and 1 <= pieces <= 40 and memory <= 1_000_000))
        self.fresh(settings, *more)
        return "ready"

    def stores(self):
        refuse(10, self.small.len < self.slots * SLICE or self.lanes.len < self.nlanes * self.pieces * SLICE)

    def hold(self, kind):
        """Holds the lowest free cell or lane."""
        n = self.slots if kind == "small" else self.nlanes
        free = [(kind, i) for i in range(n) if (kind, i) not in self.held]
        refuse(11, not free)
        self.held.add(free[0])
        return free[0]

    def start(self, place):
        return place[1] * (SLICE if place[0] == "small" else self.pieces * SLICE)

    def store(self, place, at, s):
        (self.small if place[0] == "small" else self.lanes).put(self.start(place) + at, s)

    def part(self, place, n):
        mem = (self.small if place[0] == "small" else self.lanes).mem
        return bytes(mem[self.start(place):self.start(place) + n])

    def told(self, text):
        return f"{text}; usage {self.usage}"

    def lend(self, a):
        small, lanes = a.number(76800), a.number(192000)
        more = self.lend_more(a)
        a.end()
        self.small.len, self.lanes.len = small, lanes
        return f"lent small {small} lanes {lanes}{more()}"

    def lend_more(self, a):
        return lambda: ""

    def digests(self):
        return f"small {self.small.digest()} lanes {self.lanes.digest()}"

    def common(self, call, a):
        if call == "lend":
            return self.lend(a)
        if call == "digest":
            a.end()
            return self.digests()
        raise Bad("no such call")


def settings(a):
    return a.number(), a.number(), a.number(), a.number()


class Sender(End):
    def __init__(self, wire):
        self.out, self.table, self.wire = Lent(280000), Lent(512, 0xa5a5a5a5a5a5a5a5), wire
        super().__init__()

    def lend_more(self, a):
        out, table = a.number(280000), a.number(512)

        def set_them():
            self.out.len, self.table.len = out, table
            return f" out {out} table {table}"
        return set_them

    def digests(self):
        return f"{super().digests()} out {self.out.digest()} table {self.table.digest()}"

    def kept(self, k):
        if k >= self.packets:
            raise Bad("no such packet")
        start, n = self.table.mem[2 * k:2 * k + 2]
        return bytes(self.out.mem[start:start + n])

    def pack(self, ids, seq, items):
        """Packets of what goes: items are (id, bytes) or (id, bytes, index, num)."""
        packets, group, size = [], [], 0

        def close():
            kind = b"\0" if ids else b"\1"
            s = kind + varint(seq + len(packets)) + bytes([self.channel]) + len(group).to_bytes(2, "big")
            for ident, m in group:
                s += (varint(ident) if ids else b"") + varint(len(m)) + m
            packets.append(s)
            group.clear()
        # sequences from 2^62 on can't be written, so the packets are counted first
        count, full = 0, 0
        for item in items:
            if len(item) == 4:
                count += 1
                continue
            n = len(item[1]) + len(varint(len(item[1]))) + (len(varint(item[0])) if ids else 0)
            if full + n > SLICE:
                count, full = count + 1, 0
            full += n
        count += any(len(i) == 2 for i in items)
        refuse(13, seq + count > LIMIT)
        for item in items:
            if len(item) == 4:
                ident, m, index, num = item
                kind = b"\2" if ids else b"\3"
                packets.append(kind + varint(seq + len(packets)) + bytes([self.channel]) + varint(ident)
                               + varint(index) + varint(num) + varint(len(m)) + m)
                continue
            ident, m = item
            n = len(m) + len(varint(len(m))) + (len(varint(ident)) if ids else 0)
            if size + n > SLICE:
                close()
                size = 0
            size += n
            group.append((ident, m))
        if group:
            close()
        assert len(packets) == count
        refuse(15, sum(map(len, packets)) > self.out.len or len(packets) > self.table.len // 2)
        return packets

    def put_out(self, seq, packets, spent):
        at, lines = 0, []
        for k, p in enumerate(packets):
            self.out.put(at, p)
            self.table.put(2 * k, [at, len(p)])
            kind, head, entries, _ = self.wire.read(p, whole=True)
            lines.append(f"at {at} length {len(p)} {spell(p)} {packet_words(kind, head, entries)}")
            at += len(p)
        self.packets = len(packets)
        n = len(packets)
        return [self.told(f"sent {n} packets, {at} bytes, next sequence {seq + n}, spent {spent}")] + lines

    def common(self, call, a):
        if call == "available":
            a.end()
            return f"available {self.memory - self.usage}"
        if call == "can-send":
            size = a.number()
            a.end()
            return "yes" if size + self.usage <= self.memory else "no"
        return super().common(call, a)


def pieces(m):
    return [m[i:i + SLICE] for i in range(0, len(m), SLICE)]


class SendReliable(Sender):
    def fresh(self, settings, channel=0, resend=300_000_000):
        super().fresh(settings)
        self.channel, self.resend = channel, resend
        self.next, self.packets, self.waiting = 0, 0, {}

    def send(self, m):
        self.stores()
        refuse(13, self.next >= LIMIT)
        refuse(12, len(m) > self.pieces * SLICE)
        refuse(7, self.usage + len(m) > self.memory)
        place = self.hold("small" if len(m) <= SLICE else "lanes")
        self.store(place, 0, m)
        self.usage += len(m)
        parts = pieces(m) if len(m) > SLICE else None
        self.waiting[self.next] = {"m": m, "place": place, "parts": parts, "sent": None, "from": 0,
                                   "acked": set(), "times": {}}
        self.next += 1
        return f"taken id {self.next - 1}"

    def round(self, seq, time, allowance):
        self.stores()
        refuse(13, seq >= LIMIT)
        refuse(14, time < self.latest)
        left, items, marks = allowance, [], []

        def due(sent):
            return sent is None or time - sent >= self.resend
        for ident in sorted(self.waiting):
            w = self.waiting[ident]
            if w["parts"] is None:
                if left >= len(w["m"]) and due(w["sent"]):
                    left -= len(w["m"])
                    items.append((ident, w["m"]))
                    marks.append((w, None))
                continue
            num = len(w["parts"])
            for k in range(num):
                if left < SLICE:
                    break
                i = (w["from"] + k) % num
                if i in w["acked"] or not due(w["times"].get(i)):
                    continue
                left -= len(w["parts"][i])
                items.append((ident, w["parts"][i], i, num))
                marks.append((w, i))
        packets = self.pack(True, seq, items)
        for w, i in marks:
            if i is None:
                w["sent"] = time
            else:
                w["times"][i] = time
                w["from"] = i + 1
        self.latest = time
        return self.put_out(seq, packets, allowance - left)

    def ack(self, ident, index=None):
        refuse(13, ident >= LIMIT)
        w = self.waiting.get(ident)
        if w is None:
            return "unknown id"
        refuse(16, (w["parts"] is None) != (index is None))
        if index is not None:
            refuse(17, index >= len(w["parts"]))
            w["acked"].add(index)
            if len(w["acked"]) < len(w["parts"]):
                return "done"
        self.usage -= len(w["m"])
        self.held.remove(w["place"])
        del self.waiting[ident]
        return "done"

    def call(self, call, a):
        if call == "new":
            channel, s, resend = a.number(255), settings(a), a.number()
            a.end()
            return self.set_up(s, channel, resend)
        if call == "send":
            m = a.bytes()
            a.end()
            return self.send(m)
        if call == "round":
            args = a.number(), a.number(), a.number()
            a.end()
            return self.round(*args)
        if call == "ack":
            ident = a.number()
            a.end()
            return self.ack(ident)
        if call == "ack-slice":
            ident, index = a.number(), a.number()
            a.end()
            return self.ack(ident, index)
        return self.common(call, a)


class SendUnreliable(Sender):
    def fresh(self, settings, channel=0):
        super().fresh(settings)
        self.channel, self.sliced, self.packets, self.queue = channel, 0, 0, []

    def send(self, m):
        self.stores()
        refuse(12, len(m) > self.pieces * SLICE)
        if self.usage + len(m) > self.memory:
            return "dropped"
        place = self.hold("small" if len(m) <= SLICE else "lanes")
        self.store(place, 0, m)
        self.usage += len(m)
        self.queue.append(m)
        return "taken"

    def round(self, seq, allowance):
        self.stores()
        refuse(13, seq >= LIMIT)
        left, items, sliced = allowance, [], self.sliced
        for m in self.queue:
            if len(m) > left:
                continue
            left -= len(m)
            if len(m) <= SLICE:
                items.append((0, m))
                continue
            parts = pieces(m)
            items += [(sliced, p, i, len(parts)) for i, p in enumerate(parts)]
            sliced += 1
        packets = self.pack(False, seq, items)
        self.sliced, self.queue, self.usage = sliced, [], 0
        self.held.clear()
        return self.put_out(seq, packets, allowance - left)

    def call(self, call, a):
        if call == "new":
            channel, s = a.number(255), settings(a)
            a.end()
            return self.set_up(s, channel)
        if call == "send":
            m = a.bytes()
            a.end()
            return self.send(m)
        if call == "round":
            args = a.number(), a.number()
            a.end()
            return self.round(*args)
        return self.common(call, a)


class Reassembly:
    def __init__(self, num):
        self.num, self.parts = num, {}

    def judge(self, index, s):
        refuse(8, index >= self.num)
        refuse(8, len(s) > SLICE if index == self.num - 1 else len(s) != SLICE)

    def add(self, index, s):
        """Whether the piece is new."""
        if index in self.parts:
            return False
        self.parts[index] = s
        return True

    def whole(self):
        if len(self.parts) == self.num:
            return b"".join(self.parts[i] for i in range(self.num))
        return None


class Receiver(End):
    def fresh(self, settings):
        super().fresh(settings)
        self.open = {}

    def slice_place(self, ident, num, index, s, full):
        """The open reassembly of a piece, or a new one; None where `full` is the answer."""
        if ident in self.open:
            place, r = self.open[ident]
            refuse(8, r.num != num)
            r.judge(index, s)
            return place, r
        if self.usage + SLICE * num > self.memory:
            return full()
        place = self.hold("lanes")
        r = Reassembly(num)
        try:
            r.judge(index, s)
        except Refused:
            self.held.remove(place)
            raise
        self.open[ident] = place, r
        self.usage += SLICE * num
        return place, r

    def collect(self, ident, index, s):
        """The message and its place, if it is whole now."""
        place, r = self.open[ident]
        if r.add(index, s):
            self.store(place, index * SLICE, s)
        m = r.whole()
        if m is None:
            return None
        del self.open[ident]
        self.usage += len(m) - SLICE * r.num
        return place, m

    def show(self, ident, place, m):
        assert self.part(place, len(m)) == m
        name = "" if ident is None else f"id {ident} "
        return f"message {name}in {place[0]} at {self.start(place)} length {len(m)} {spell(m)}"

    def packet(self, s, wire, kinds, hand):
        try:
            kind, head, entries, used = wire.read(s)
        except Refused as r:
            return [self.told(guarded(refuse, r.args[0]))]
        text = f"{packet_words(kind, head, entries)}; used {used}"
        if kind not in kinds:
            return [self.told(text + "; not for this end")]
        lines = [self.told(text)]
        if kind in (0, 1):
            calls = [(ident, None, None, place, n) for ident, place, n in entries]
        else:
            calls = [head[2:]]
        for ident, index, num, place, n in calls:
            lines.append(self.told(guarded(hand, ident, index, num, bytes(s[place:place + n]))))
        return lines


class ReceiveReliable(Receiver):
    def fresh(self, settings):
        super().fresh(settings)
        self.oldest, self.whole = 0, {}

    def message(self, ident, m):
        self.stores()
        refuse(13, ident >= LIMIT)
        if ident < self.oldest or ident in self.whole:
            return "ignored"
        refuse(12, len(m) > SLICE)
        refuse(16, ident in self.open)
        refuse(7, self.usage + len(m) > self.memory)
        place = self.hold("small")
        self.store(place, 0, m)
        self.usage += len(m)
        self.whole[ident] = place, m
        return "taken"

    def slice(self, ident, index, num, s):
        self.stores()
        refuse(13, ident >= LIMIT)
        if ident < self.oldest or ident in self.whole:
            return "ignored"
        refuse(8, num == 0)
        refuse(12, num > self.pieces)
        self.slice_place(ident, num, index, s, lambda: refuse(7))
        whole = self.collect(ident, index, s)
        if whole:
            self.whole[ident] = whole
        return "taken"

    def call(self, call, a, sender, wire):
        if call == "new":
            s = settings(a)
            a.end()
            return self.set_up(s)
        if call == "message":
            args = a.number(), a.bytes()
            a.end()
            return self.message(*args)
        if call == "slice":
            args = a.number(), a.number(), a.number(), a.bytes()
            a.end()
            return self.slice(*args)
        if call in ("look", "take"):
            a.end()
            if call == "look":
                self.stores()
            if self.oldest not in self.whole:
                return "nothing"
            place, m = self.whole[self.oldest]
            text = self.show(self.oldest, place, m)
            if call == "take":
                del self.whole[self.oldest]
                self.oldest += 1
                self.usage -= len(m)
                self.held.remove(place)
            return text
        if call in ("deliver", "packet"):
            s = a.number() if call == "deliver" else a.bytes()
            a.end()
            s = sender.kept(s) if call == "deliver" else s

            def hand(ident, index, num, m):
                return self.message(ident, m) if num is None else self.slice(ident, index, num, m)
            return self.packet(s, wire, (0, 2), hand)
        return self.common(call, a)


class ReceiveUnreliable(Receiver):
    def fresh(self, settings):
        super().fresh(settings)
        self.touched, self.queue = {}, []

    def message(self, m):
        self.stores()
        refuse(12, len(m) > SLICE)
        if self.usage + len(m) > self.memory:
            return "dropped"
        place = self.hold("small")
        self.store(place, 0, m)
        self.usage += len(m)
        self.queue.append((place, m))
        return "taken"

    def slice(self, ident, index, num, time, s):
        self.stores()
        refuse(13, ident >= LIMIT)
        refuse(14, time < self.latest)
        refuse(8, num == 0)
        refuse(12, num > self.pieces)
        if self.slice_place(ident, num, index, s, lambda: None) is None:
            return "dropped"
        self.latest = time
        whole = self.collect(ident, index, s)
        self.touched[ident] = time
        if whole:
            del self.touched[ident]
            self.queue.append(whole)
        return "taken"

    def discard(self, time):
        refuse(14, time < self.latest)
        self.latest = time
        n = 0
        for ident in sorted(self.open):
            if time - self.touched[ident] < 3_000_000_000:
                break
            place, r = self.open.pop(ident)
            del self.touched[ident]
            self.held.remove(place)
            self.usage -= SLICE * r.num
            n += 1
        return f"discarded {n}"

    def call(self, call, a, sender, wire):
        if call == "new":
            s = settings(a)
            a.end()
            return self.set_up(s)
        if call == "message":
            m = a.bytes()
            a.end()
            return self.message(m)
        if call == "slice":
            args = a.number(), a.number(), a.number(), a.number(), a.bytes()
            a.end()
            return self.slice(*args)
        if call == "discard":
            time = a.number()
            a.end()
            return self.discard(time)
        if call in ("look", "take"):
            a.end()
            if call == "look":
                self.stores()
            if not self.queue:
                return "nothing"
            place, m = self.queue[0]
            text = self.show(None, place, m)
            if call == "take":
                self.queue.pop(0)
                self.usage -= len(m)
                self.held.remove(place)
            return text
        if call in ("deliver", "packet"):
            s = a.number() if call == "deliver" else a.bytes()
            time = a.number()
            a.end()
            s = sender.kept(s) if call == "deliver" else s

            def hand(ident, index, num, m):
                return self.message(m) if num is None else self.slice(ident, index, num, time, m)
            return self.packet(s, wire, (1, 3), hand)
        return self.common(call, a)


class Constructor:
    def __init__(self):
        self.lane, self.r = Lent(48000), Reassembly(1)

    def call(self, call, a):
        if call == "new":
            ident, num = a.number(), a.number()
            a.end()
            refuse(13, ident >= LIMIT)
            refuse(8, num == 0)
            refuse(12, num > 40)
            self.r = Reassembly(num)
            return "ready"
        if call == "slice":
            index, s = a.number(), a.bytes()
            a.end()
            refuse(10, self.lane.len < self.r.num * SLICE)
            self.r.judge(index, s)
            if self.r.add(index, s):
                self.lane.put(index * SLICE, s)
            m = self.r.whole()
            return "more" if m is None else f"whole {len(m)} {spell(m)}"
        if call == "lend":
            n = a.number(48000)
            a.end()
            self.lane.len = n
            return f"lent lane {n}"
        if call == "digest":
            a.end()
            return f"lane {self.lane.digest()}"
        raise Bad("no such call")


def run(script, out):
    wire, sc = Wire(), Constructor()
    ends = {b"sr": SendReliable(wire), b"su": SendUnreliable(wire), b"rr": ReceiveReliable(),
            b"ru": ReceiveUnreliable()}
    senders = {b"rr": ends[b"sr"], b"ru": ends[b"su"]}
    lines = script.split(b"\n")
    if lines[-1] == b"":
        lines.pop()
    for n, line in enumerate(lines, 1):
        words = re.findall(rb"[^ \t\r]+", line.split(b"#")[0])
        if len(line) <= 4096 and not words:
            continue
        try:
            if len(line) > 4096:
                raise Bad("too long")
            if words[0] not in (b"wire", b"sc", *ends):
                raise Bad("no such end")
            call = words[1].decode("latin-1") if len(words) > 1 else ""
            a = Args(words[2:])
            if words[0] in (b"wire", b"sc"):
                answers = [guarded((wire if words[0] == b"wire" else sc).call, call, a)]
            else:
                end = ends[words[0]]
                if call == "usage":
                    a.end()
                    answers = [f"usage {end.usage}"]
                else:
                    more = (senders[words[0]], wire) if words[0] in senders else ()
                    told = guarded(end.call, call, a, *more)
                    answers = told if isinstance(told, list) else [end.told(told)]
        except Bad as bad:
            answers = [f"bad line: {bad}"]
        out.write(f"{n}: {answers[0]}\n")
        for k, text in enumerate(answers[1:]):
            out.write(f"{n}.{k}: {text}\n")


def limits(out):
    """The cases of the program `limits`: the most messages that a packet counts, and one more, all empty but
    the last; and one message on both sides of where its length takes four bytes."""
    wire, word = Wire(), 0xa5a5a5a5a5a5a5a5

    def numbered(told):
        """A refusal with its number said once more; of what was written, only how much."""
        return re.sub("^(written [0-9]+) .*", r"\1", re.sub("^(refused ([0-9]+) .*)", r"\1, number \2", told))

    def write(kind, seq, count, words, last, room):
        wire.out = Lent(131088)
        wire.out.len = room
        told = guarded(wire.small, kind == 0, seq, 0, count, b"a" * 16384, [0] * (words - 1) + [last])
        out.write(f"write type {kind} sequence {seq} messages {count}, of {words} words, last {last} to {room} bytes: ")
        out.write(f"{numbered(told)}; digest {wire.out.digest()}\n")

    def words_of(s):
        kind, head, entries, used = wire.read(s)
        return f"{packet_words(kind, head, entries).split(',')[0]}; used {used}"

    def read(kind, n, words):
        wire.messages = Lent(196608, word)
        wire.messages.len = words
        told = guarded(words_of, (bytes([kind, 0, 0, 255, 255]) + bytes(131070))[:n])
        out.write(f"read type {kind} from {n} bytes, to {words} words: {numbered(told)}; digest {wire.messages.digest()}\n")

    for kind, each in (0, 2), (1, 1):
        for n, form in (16383, 2), (16384, 4):
            for less in 0, 1:
                write(kind, 0, 1, 3, n, 4 + each + form + n - less)
        most = 5 + each * 65535
        read(kind, most, 196605)
        read(kind, most, 196604)
        read(kind, most - 1, 196605)
        write(kind, 0, 65535, 196605, 0, most)
        write(kind, 0, 65535, 196605, 0, most - 1)
        write(kind, 0, 65536, 196608, 0, 131088)
        write(kind, 0, 65536, 196608, 0, 0)
        write(kind, LIMIT, 65536, 196608, 0, 131088)
        write(kind, 0, 65536, 196607, 0, 131088)
        write(kind, 0, 65536, 196608, 16385, 131088)
        write(kind, 0, 65535, 196608, 16385, 131088)


if __name__ == "__main__":
    if sys.argv[1:] == ["limits"]:
        limits(sys.stdout)
    else:
        run(sys.stdin.buffer.read(), sys.stdout)
