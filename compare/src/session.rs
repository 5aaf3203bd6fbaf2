//! A script, run line by line: docs/SCRIPT.md.

use crate::ends::{Rr, Ru, Sc, Sr, Su};
use crate::layer::{refused, Outbox, Stores};
use crate::layer::{Settings, Tally, LANE, LANES, LIMIT, OUT, SMALL, TABLE};
use crate::script::{self, Args, Bad};
use crate::wire::{self, Wire};
use octets::{Octets, OctetsMut};
use renet::packet::Packet;
use std::panic::{catch_unwind, AssertUnwindSafe};

pub struct Session {
    pub sr: Sr,
    pub su: Su,
    pub rr: Rr,
    pub ru: Ru,
    pub sc: Sc,
    pub wire: Wire,
    pub tally: Tally,
    /// the answers to the line, its number left out: the first, and the further ones
    said: Vec<String>,
    line: u64,
}

type Told = Result<String, Bad>;

fn settings(a: &mut Args) -> Result<Settings, Bad> {
    Ok(Settings {
        slots: a.number()?,
        lanes: a.number()?,
        pieces: a.number()?,
        memory: a.number()?,
    })
}

fn yes(b: bool) -> String {
    if b {
        "yes".into()
    } else {
        "no".into()
    }
}

/// A size that is too large to add is a no; renet would overflow.
fn can_send(size: u64, usage: usize, ask: impl Fn(usize) -> bool, tally: &mut Tally) -> String {
    if size.checked_add(usage as u64).is_none() {
        tally.not_renets("a size too large to add");
        return yes(false);
    }
    yes(ask(size as usize))
}

fn lend_stores(stores: &mut Stores, small: u64, lanes: u64) -> String {
    stores.small.len = small as usize;
    stores.lanes.len = lanes as usize;
    format!("lent small {small} lanes {lanes}")
}

fn lend_sender(stores: &mut Stores, outbox: &mut Outbox, a: &mut Args) -> Told {
    let (small, lanes) = (a.most(SMALL as u64)?, a.most(LANES as u64)?);
    let (out, table) = (a.most(OUT as u64)?, a.most(TABLE as u64)?);
    a.end()?;
    outbox.out.len = out as usize;
    outbox.table.len = table as usize;
    Ok(format!("{} out {out} table {table}", lend_stores(stores, small, lanes)))
}

fn lend_receiver(stores: &mut Stores, a: &mut Args) -> Told {
    let (small, lanes) = (a.most(SMALL as u64)?, a.most(LANES as u64)?);
    a.end()?;
    Ok(lend_stores(stores, small, lanes))
}

fn store_digest(s: &Stores) -> String {
    format!("small {} lanes {}", s.small.digest(), s.lanes.digest())
}

fn sender_digest(s: &Stores, o: &Outbox) -> String {
    format!("{} out {} table {}", store_digest(s), o.out.digest(), o.table.digest())
}

fn kept(outbox: &Outbox, k: u64) -> Result<Vec<u8>, Bad> {
    match k < outbox.kept as u64 {
        true => Ok(outbox.packet(k as usize).to_vec()),
        false => Err("no such packet".into()),
    }
}

impl Session {
    pub fn new() -> Session {
        Session {
            sr: Sr::new(),
            su: Su::new(),
            rr: Rr::new(),
            ru: Ru::new(),
            sc: Sc::new(),
            wire: Wire::new(),
            tally: Tally::default(),
            said: vec![],
            line: 0,
        }
    }

    /// The answers to a whole script.
    pub fn answers(script: &[u8]) -> (String, Tally) {
        let mut session = Session::new();
        let mut out = String::new();
        for line in script.split_inclusive(|&c| c == b'\n') {
            session.run(line.strip_suffix(b"\n").unwrap_or(line), &mut out);
        }
        (out, session.tally)
    }

    /// Runs one line, and adds its answers to the output.
    pub fn run(&mut self, line: &[u8], out: &mut String) {
        self.line += 1;
        self.said.clear();
        if line.len() > script::LINE {
            self.said.push("bad line: too long".into());
        } else {
            let words = script::words(line);
            if words.is_empty() {
                return;
            }
            let told = catch_unwind(AssertUnwindSafe(|| self.call(&words)));
            match told {
                Ok(Ok(())) => self.tally.calls += 1,
                Ok(Err(bad)) => self.said = vec![format!("bad line: {bad}")],
                Err(_) => self.said = vec!["PANIC in renet or in the driver".into()],
            }
        }
        for (k, text) in self.said.iter().enumerate() {
            match k {
                0 => out.push_str(&format!("{}: {text}\n", self.line)),
                _ => out.push_str(&format!("{}.{}: {text}\n", self.line, k - 1)),
            }
        }
    }

    fn call(&mut self, words: &[&[u8]]) -> Result<(), Bad> {
        let call = std::str::from_utf8(words.get(1).unwrap_or(&&b""[..])).unwrap_or("");
        let mut a = Args::new(words.get(2..).unwrap_or(&[]));
        match words[0] {
            b"wire" => self.wire_call(call, &mut a),
            b"sc" => self.sc_call(call, &mut a),
            b"sr" => self.sr_call(call, &mut a),
            b"su" => self.su_call(call, &mut a),
            b"rr" => self.rr_call(call, &mut a),
            b"ru" => self.ru_call(call, &mut a),
            _ => Err("no such end".into()),
        }
    }

    fn say(&mut self, text: String) -> Result<(), Bad> {
        self.said.push(text);
        Ok(())
    }

    fn say_used(&mut self, text: String, usage: usize) -> Result<(), Bad> {
        self.say(format!("{text}; usage {usage}"))
    }

    fn wire_call(&mut self, call: &str, a: &mut Args) -> Result<(), Bad> {
        let told = match call {
            "read" => {
                let s = a.bytes()?;
                a.end()?;
                match self.wire.read(&s, &mut self.tally) {
                    Ok(r) => format!("{}; used {}", r.words(), r.used),
                    Err(number) => refused(number),
                }
            }
            "small-reliable" | "small-unreliable" => {
                let head = [a.number()?, a.most(255)?, a.number()?];
                let (store, table) = (a.bytes()?, a.table()?);
                a.end()?;
                self.wire.write(wire::small(
                    call == "small-reliable",
                    head,
                    &store,
                    &table,
                    &mut self.tally,
                ))
            }
            "reliable-slice" | "unreliable-slice" => {
                let head = [
                    a.number()?,
                    a.most(255)?,
                    a.number()?,
                    a.number()?,
                    a.number()?,
                    a.number()?,
                    a.number()?,
                ];
                let store = a.bytes()?;
                a.end()?;
                self.wire
                    .write(wire::slice(call == "reliable-slice", head, &store, &mut self.tally))
            }
            "ack" => {
                let (sequence, count, table) = (a.number()?, a.number()?, a.table()?);
                a.end()?;
                self.wire.write(wire::ack(sequence, count, &table, &mut self.tally))
            }
            "get-u8" => self.get(a, |b: &mut Octets| b.get_u8().map(u64::from))?,
            "get-u16" => self.get(a, |b: &mut Octets| b.get_u16().map(u64::from))?,
            "get-varint" => self.get(a, |b: &mut Octets| b.get_varint())?,
            "get-bytes" => {
                let (s, at) = (a.bytes()?, a.number()?);
                a.end()?;
                self.tally.not_renets("octets alone");
                Wire::get_bytes(&s, at)
            }
            "varint-len" => {
                let v = a.number()?;
                a.end()?;
                self.tally.not_renets("octets alone");
                match v < LIMIT {
                    true => format!("length {}", octets::varint_len(v)),
                    false => refused(13),
                }
            }
            "put-u16" => {
                let (at, v) = (a.number()?, a.most(65_535)?);
                a.end()?;
                self.tally.not_renets("octets alone");
                self.wire.put(at, |w: &mut OctetsMut| w.put_u16(v as u16))
            }
            "put-varint" => {
                let (at, v) = (a.number()?, a.number()?);
                a.end()?;
                self.tally.not_renets("octets alone");
                match v < LIMIT {
                    true => self.wire.put(at, |w: &mut OctetsMut| w.put_varint(v)),
                    false => refused(13),
                }
            }
            "put-bytes" => {
                let (at, s) = (a.number()?, a.bytes()?);
                a.end()?;
                self.tally.not_renets("octets alone");
                self.wire.put(at, |w: &mut OctetsMut| {
                    w.put_varint(s.len() as u64).and_then(|()| w.put_bytes(&s))
                })
            }
            "lend" => {
                let (messages, ranges, out) = (a.most(192)?, a.most(128)?, a.most(2_048)?);
                a.end()?;
                self.wire.messages.len = messages as usize;
                self.wire.ranges.len = ranges as usize;
                self.wire.out.len = out as usize;
                format!("lent messages {messages} ranges {ranges} out {out}")
            }
            "digest" => {
                a.end()?;
                let w = &self.wire;
                format!(
                    "messages {} ranges {} out {}",
                    w.messages.digest(),
                    w.ranges.digest(),
                    w.out.digest()
                )
            }
            _ => return Err("no such call".into()),
        };
        self.say(told)
    }

    fn get(&mut self, a: &mut Args, read: impl Fn(&mut Octets) -> Result<u64, octets::BufferTooShortError>) -> Told {
        let (s, at) = (a.bytes()?, a.number()?);
        a.end()?;
        self.tally.not_renets("octets alone");
        Ok(Wire::get(&s, at, read))
    }

    fn sc_call(&mut self, call: &str, a: &mut Args) -> Result<(), Bad> {
        let told = match call {
            "new" => {
                let (id, num) = (a.number()?, a.number()?);
                a.end()?;
                self.sc.set_up(id, num, &mut self.tally)
            }
            "slice" => {
                let (index, payload) = (a.number()?, a.bytes()?);
                a.end()?;
                self.sc.slice(index, &payload, &mut self.tally)
            }
            "lend" => {
                let lane = a.most(LANE as u64)?;
                a.end()?;
                self.sc.lane.len = lane as usize;
                format!("lent lane {lane}")
            }
            "digest" => {
                a.end()?;
                format!("lane {}", self.sc.lane.digest())
            }
            _ => return Err("no such call".into()),
        };
        self.say(told)
    }

    fn sr_call(&mut self, call: &str, a: &mut Args) -> Result<(), Bad> {
        let (sr, tally) = (&mut self.sr, &mut self.tally);
        let told = match call {
            "new" => {
                let (channel, s, resend) = (a.most(255)?, settings(a)?, a.number()?);
                a.end()?;
                sr.set_up(channel as u8, s, resend, tally)
            }
            "send" => {
                let m = a.bytes()?;
                a.end()?;
                sr.send(&m, tally)
            }
            "round" => {
                let (sequence, time, allowance) = (a.number()?, a.number()?, a.number()?);
                a.end()?;
                let round = sr.round(sequence, time, allowance, tally);
                let usage = sr.renet.memory_usage_bytes();
                self.say_used(round.answer, usage)?;
                return self.show(true, round.packets);
            }
            "ack" => {
                let id = a.number()?;
                a.end()?;
                sr.ack(id, None, tally)
            }
            "ack-slice" => {
                let (id, index) = (a.number()?, a.number()?);
                a.end()?;
                sr.ack(id, Some(index), tally)
            }
            "available" => {
                a.end()?;
                format!("available {}", sr.renet.available_memory())
            }
            "can-send" => {
                let size = a.number()?;
                a.end()?;
                can_send(
                    size,
                    sr.renet.memory_usage_bytes(),
                    |n| sr.renet.can_send_message(n),
                    tally,
                )
            }
            "lend" => lend_sender(&mut sr.stores, &mut sr.outbox, a)?,
            "digest" => {
                a.end()?;
                sender_digest(&sr.stores, &sr.outbox)
            }
            "usage" => {
                a.end()?;
                let usage = sr.renet.memory_usage_bytes();
                return self.say(format!("usage {usage}"));
            }
            _ => return Err("no such call".into()),
        };
        let usage = self.sr.renet.memory_usage_bytes();
        self.say_used(told, usage)
    }

    fn su_call(&mut self, call: &str, a: &mut Args) -> Result<(), Bad> {
        let (su, tally) = (&mut self.su, &mut self.tally);
        let told = match call {
            "new" => {
                let (channel, s) = (a.most(255)?, settings(a)?);
                a.end()?;
                su.set_up(channel as u8, s, tally)
            }
            "send" => {
                let m = a.bytes()?;
                a.end()?;
                su.send(&m, tally)
            }
            "round" => {
                let (sequence, allowance) = (a.number()?, a.number()?);
                a.end()?;
                let round = su.round(sequence, allowance, tally);
                let usage = su.renet.memory_usage_bytes();
                self.say_used(round.answer, usage)?;
                return self.show(false, round.packets);
            }
            "available" => {
                a.end()?;
                format!("available {}", su.renet.available_memory())
            }
            "can-send" => {
                let size = a.number()?;
                a.end()?;
                can_send(
                    size,
                    su.renet.memory_usage_bytes(),
                    |n| su.renet.can_send_message(n),
                    tally,
                )
            }
            "lend" => lend_sender(&mut su.stores, &mut su.outbox, a)?,
            "digest" => {
                a.end()?;
                sender_digest(&su.stores, &su.outbox)
            }
            "usage" => {
                a.end()?;
                let usage = su.renet.memory_usage_bytes();
                return self.say(format!("usage {usage}"));
            }
            _ => return Err("no such call".into()),
        };
        let usage = self.su.renet.memory_usage_bytes();
        self.say_used(told, usage)
    }

    fn rr_call(&mut self, call: &str, a: &mut Args) -> Result<(), Bad> {
        let (rr, tally) = (&mut self.rr, &mut self.tally);
        let told = match call {
            "new" => {
                let s = settings(a)?;
                a.end()?;
                rr.set_up(s, tally)
            }
            "message" => {
                let (id, m) = (a.number()?, a.bytes()?);
                a.end()?;
                rr.message(id, &m, tally)
            }
            "slice" => {
                let (id, index, num, payload) = (a.number()?, a.number()?, a.number()?, a.bytes()?);
                a.end()?;
                rr.slice(id, index, num, &payload, tally)
            }
            "look" => {
                a.end()?;
                rr.look(tally)
            }
            "take" => {
                a.end()?;
                rr.take()
            }
            "deliver" => {
                let k = a.number()?;
                a.end()?;
                let packet = kept(&self.sr.outbox, k)?;
                return self.rr_packet(&packet);
            }
            "packet" => {
                let packet = a.bytes()?;
                a.end()?;
                return self.rr_packet(&packet);
            }
            "lend" => lend_receiver(&mut rr.stores, a)?,
            "digest" => {
                a.end()?;
                store_digest(&rr.stores)
            }
            "usage" => {
                a.end()?;
                let usage = rr.renet.memory_usage_bytes();
                return self.say(format!("usage {usage}"));
            }
            _ => return Err("no such call".into()),
        };
        let usage = self.rr.renet.memory_usage_bytes();
        self.say_used(told, usage)
    }

    fn ru_call(&mut self, call: &str, a: &mut Args) -> Result<(), Bad> {
        let (ru, tally) = (&mut self.ru, &mut self.tally);
        let told = match call {
            "new" => {
                let s = settings(a)?;
                a.end()?;
                ru.set_up(s, tally)
            }
            "message" => {
                let m = a.bytes()?;
                a.end()?;
                ru.message(&m, tally)
            }
            "slice" => {
                let (id, index, num, time) = (a.number()?, a.number()?, a.number()?, a.number()?);
                let payload = a.bytes()?;
                a.end()?;
                ru.slice(id, index, num, time, &payload, tally)
            }
            "discard" => {
                let time = a.number()?;
                a.end()?;
                ru.discard(time, tally)
            }
            "look" => {
                a.end()?;
                ru.look(tally)
            }
            "take" => {
                a.end()?;
                ru.take()
            }
            "deliver" => {
                let (k, time) = (a.number()?, a.number()?);
                a.end()?;
                let packet = kept(&self.su.outbox, k)?;
                return self.ru_packet(&packet, time);
            }
            "packet" => {
                let (packet, time) = (a.bytes()?, a.number()?);
                a.end()?;
                return self.ru_packet(&packet, time);
            }
            "lend" => lend_receiver(&mut ru.stores, a)?,
            "digest" => {
                a.end()?;
                store_digest(&ru.stores)
            }
            "usage" => {
                a.end()?;
                let usage = ru.renet.memory_usage_bytes();
                return self.say(format!("usage {usage}"));
            }
            _ => return Err("no such call".into()),
        };
        let usage = self.ru.renet.memory_usage_bytes();
        self.say_used(told, usage)
    }

    /// The packets of a round, each on a line.
    fn show(&mut self, reliable: bool, packets: usize) -> Result<(), Bad> {
        for k in 0..packets {
            let outbox = if reliable { &self.sr.outbox } else { &self.su.outbox };
            let (start, bytes) = (outbox.table.words[2 * k], outbox.packet(k).to_vec());
            let words = match self.wire.read_whole(&bytes) {
                Ok(r) => r.words(),
                Err(number) => refused(number),
            };
            self.say(format!(
                "at {start} length {} {} {words}",
                bytes.len(),
                script::spell(&bytes)
            ))?;
        }
        Ok(())
    }

    /// Reads a packet and hands what is in it to the reliable receiver.
    fn rr_packet(&mut self, bytes: &[u8]) -> Result<(), Bad> {
        let usage = self.rr.renet.memory_usage_bytes();
        let read = match self.wire.read(bytes, &mut self.tally) {
            Ok(r) => r,
            Err(number) => return self.say_used(refused(number), usage),
        };
        let told = format!("{}; used {}", read.words(), read.used);
        match read.packet {
            Packet::SmallReliable { messages, .. } => {
                self.say_used(told, usage)?;
                for (id, m) in messages {
                    self.tally.calls += 1;
                    let told = self.rr.message(id, &m, &mut self.tally);
                    self.say_used(told, self.rr.renet.memory_usage_bytes())?;
                }
                Ok(())
            }
            Packet::ReliableSlice { slice, .. } => {
                self.say_used(told, usage)?;
                self.tally.calls += 1;
                let (index, num) = (slice.slice_index as u64, slice.num_slices as u64);
                let told = self
                    .rr
                    .slice(slice.message_id, index, num, &slice.payload, &mut self.tally);
                self.say_used(told, self.rr.renet.memory_usage_bytes())
            }
            _ => self.say_used(told + "; not for this end", usage),
        }
    }

    /// Reads a packet and hands what is in it to the unreliable receiver.
    fn ru_packet(&mut self, bytes: &[u8], time: u64) -> Result<(), Bad> {
        let usage = self.ru.renet.memory_usage_bytes();
        let read = match self.wire.read(bytes, &mut self.tally) {
            Ok(r) => r,
            Err(number) => return self.say_used(refused(number), usage),
        };
        let told = format!("{}; used {}", read.words(), read.used);
        match read.packet {
            Packet::SmallUnreliable { messages, .. } => {
                self.say_used(told, usage)?;
                for m in messages {
                    self.tally.calls += 1;
                    let told = self.ru.message(&m, &mut self.tally);
                    self.say_used(told, self.ru.renet.memory_usage_bytes())?;
                }
                Ok(())
            }
            Packet::UnreliableSlice { slice, .. } => {
                self.say_used(told, usage)?;
                self.tally.calls += 1;
                let (index, num) = (slice.slice_index as u64, slice.num_slices as u64);
                let told = self
                    .ru
                    .slice(slice.message_id, index, num, time, &slice.payload, &mut self.tally);
                self.say_used(told, self.ru.renet.memory_usage_bytes())
            }
            _ => self.say_used(told + "; not for this end", usage),
        }
    }
}
