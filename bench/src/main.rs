//! Ours and renet, the same work on the same inputs. `bench time` times all; `bench count` does each
//! once on each side, for callgrind; `run` puts the two together. `bench only` does one on one side
//! many times, to see where its instructions go.

mod ours;
mod theirs;

use bytes::Bytes;
use ours::{Lent, Range};
use renet::packet::{Packet, Slice};
use std::collections::HashMap;
use std::hint::black_box;
use std::time::Instant;
use theirs::{Message, Source};

const SMALL: usize = 64;
const PIECES: usize = 40;
// a reliable sender with no resend time sends all that waits in each round, so many can be timed together
const ROUNDS: usize = 32;
const SLICE_SIZE: usize = 1200;
const LENGTHS: [usize; 3] = [0, 32, 1200];

type Work = Box<dyn FnMut(&mut Lent) -> usize>;

/// A scenario: what both sides do, and what both must have written.
struct Scenario {
    name: String,
    ours: Work,
    renet: Work,
    writes: Writes,
}

#[derive(Clone, Copy)]
enum Writes {
    Nothing,
    /// A packet as long as the answer.
    Packet,
    /// As many packets as the answer, end to end, and their table.
    Packets,
}

/// A line of the table: a scenario, less another one, for so many calls.
struct Row {
    group: &'static str,
    label: String,
    calls: usize,
    whole: String,
    less: String,
}

#[derive(Default)]
struct All {
    scenarios: Vec<Scenario>,
    rows: Vec<Row>,
}

impl All {
    fn add(
        &mut self,
        name: &str,
        writes: Writes,
        ours: impl FnMut(&mut Lent) -> usize + 'static,
        renet: impl FnMut(&mut Lent) -> usize + 'static,
    ) {
        self.scenarios.push(Scenario {
            name: name.into(),
            ours: Box::new(ours),
            renet: Box::new(renet),
            writes,
        });
    }

    fn row(&mut self, group: &'static str, label: String, calls: usize, whole: &str, less: &str) {
        self.rows.push(Row {
            group,
            label,
            calls,
            whole: whole.into(),
            less: less.into(),
        });
    }
}

/// Bytes of a message, none of them alike by chance.
fn bytes(n: usize) -> Vec<u8> {
    (0..n).map(|i| (i * 7 + i / 256 + 1) as u8).collect()
}

fn message(n: usize, source: Source) -> Message {
    Message::new(bytes(n), source)
}

/// The packet that bench_calls's `sample` names, and the store that its payloads lie in.
fn sample(kind: u8) -> (Packet, usize, Vec<u8>) {
    let (sequence, channel_id) = (1000, 1);
    let store = bytes(if kind < 2 { 10 * 32 } else { SLICE_SIZE });
    let part = |i: usize| Bytes::copy_from_slice(&store[32 * i..32 * (i + 1)]);
    let slice = Slice {
        message_id: 300,
        slice_index: 7,
        num_slices: PIECES,
        payload: Bytes::copy_from_slice(&store),
    };
    match kind {
        0 => {
            let messages = (0..10).map(|i| (60 + i as u64, part(i))).collect();
            let packet = Packet::SmallReliable {
                sequence,
                channel_id,
                messages,
            };
            (packet, 10, store)
        }
        1 => {
            let messages = (0..10).map(part).collect();
            let packet = Packet::SmallUnreliable {
                sequence,
                channel_id,
                messages,
            };
            (packet, 10, store)
        }
        2 => {
            let packet = Packet::ReliableSlice {
                sequence,
                channel_id,
                slice,
            };
            (packet, 1, store)
        }
        3 => {
            let packet = Packet::UnreliableSlice {
                sequence,
                channel_id,
                slice,
            };
            (packet, 1, store)
        }
        _ => {
            let ack_ranges = (0..8).map(|i| 900 + 10 * i..905 + 10 * i).collect();
            (Packet::Ack { sequence, ack_ranges }, 8, store)
        }
    }
}

const KINDS: [&str; 5] = [
    "SmallReliable, 10 × 32 bytes",
    "SmallUnreliable, 10 × 32 bytes",
    "ReliableSlice, 1,200 bytes",
    "UnreliableSlice, 1,200 bytes",
    "Ack, 8 ranges",
];

fn wire(all: &mut All) {
    for (kind, label) in KINDS.into_iter().enumerate() {
        let (packet, count, store) = sample(kind as u8);
        let name = format!("write {kind}");
        all.add(
            &name,
            Writes::Packet,
            move |m| m.write(kind as u8, count, black_box(&store)),
            move |m| theirs::write(black_box(&packet), &mut m.out),
        );
        all.row("Writing a packet", label.into(), 1, &name, "");
    }
    for (kind, label) in KINDS.into_iter().enumerate() {
        let mut out = vec![0; 2000];
        let n = theirs::write(&sample(kind as u8).0, &mut out);
        out.truncate(n);
        let packet = out.clone();
        let name = format!("read {kind}");
        all.add(
            &name,
            Writes::Nothing,
            move |m| m.read(black_box(&out)),
            move |_| theirs::read(black_box(&packet)),
        );
        all.row("Reading a packet", label.into(), 1, &name, "");
    }
}

/// Nothing but the ends themselves, for what has to be taken off the figures below.
fn ends(all: &mut All) {
    let none = || message(0, Source::Copied);
    let (m, n) = (none(), none());
    let sr = move |_: &mut Lent| theirs::sr_messages(0, 0, black_box(&m));
    let su = move |_: &mut Lent| theirs::su_messages(0, black_box(&n));
    let (m, n) = (none(), none());
    let rr = move |_: &mut Lent| theirs::rr_messages(0, 0, black_box(&m));
    let ru = move |_: &mut Lent| theirs::ru_messages(0, 0, black_box(&n));
    let nothing = Writes::Nothing;
    all.add("new sender reliable", nothing, |l| l.sr_messages(0, 0, &[]), sr);
    all.add("new sender unreliable", nothing, |l| l.su_messages(0, &[]), su);
    all.add("new receiver reliable", nothing, |l| l.messages(true, 0, 0, &[]), rr);
    all.add("new receiver unreliable", nothing, |l| l.messages(false, 0, 0, &[]), ru);
    for end in ["sender", "receiver"] {
        for kind in ["reliable", "unreliable"] {
            let name = format!("new {end} {kind}");
            all.row("Making an end", format!("{kind} {end}"), 1, &name, "");
        }
    }
}

/// How many messages of a length, as a table says it.
fn of(count: usize, n: usize) -> String {
    match (count, n) {
        (1, n) => format!("{} pieces", n / SLICE_SIZE),
        (count, 1200) => format!("{count} × 1,200 bytes"),
        (count, n) => format!("{count} × {n} bytes"),
    }
}

/// The scenarios of a sender: lengths and counts of what is queued.
const QUEUES: [(usize, usize); 4] = [
    (SMALL, LENGTHS[0]),
    (SMALL, LENGTHS[1]),
    (SMALL, LENGTHS[2]),
    (1, PIECES * SLICE_SIZE),
];

fn senders(all: &mut All, source: Source) {
    let made = if source == Source::Ready { " ready" } else { "" };
    for (kind, reliable) in [("reliable", true), ("unreliable", false)] {
        for (count, n) in QUEUES {
            let (bytes, m) = (bytes(n), message(n, source));
            let queue = format!("queue {kind} {count} {n}{made}");
            if reliable {
                all.add(
                    &queue,
                    Writes::Nothing,
                    move |l| l.sr_messages(count, 0, black_box(&bytes)),
                    move |_| theirs::sr_messages(count, 0, black_box(&m)),
                );
            } else {
                all.add(
                    &queue,
                    Writes::Nothing,
                    move |l| l.su_messages(count, black_box(&bytes)),
                    move |_| theirs::su_messages(count, black_box(&m)),
                );
            }
            let label = format!("{kind}, {}", of(count, n));
            let new = format!("new sender {kind}");
            if source == Source::Ready {
                all.row("Queueing, each message, `Bytes` ready", label, count, &queue, &new);
                continue;
            }
            all.row("Queueing, each message", label.clone(), count, &queue, &new);
            let bytes = self::bytes(n);
            let m = message(n, source);
            let round = format!("round {kind} {count} {n}");
            if reliable {
                all.add(
                    &round,
                    Writes::Packets,
                    move |l| l.sr_rounds(count, ROUNDS, black_box(&bytes)),
                    move |l| theirs::sr_rounds(count, ROUNDS, black_box(&m), &mut l.out, &mut l.table),
                );
                all.row("A full round", label, ROUNDS, &round, &queue);
            } else {
                all.add(
                    &round,
                    Writes::Packets,
                    move |l| l.su_round(count, black_box(&bytes)),
                    move |l| theirs::su_round(count, black_box(&m), &mut l.out, &mut l.table),
                );
                // with the queueing subtracted, short messages came out below zero
                all.row("Queueing and a full round", label, 1, &round, &new);
            }
        }
    }
}

fn acks(all: &mut All) {
    let (bytes, m) = (bytes(32), message(32, Source::Copied));
    all.add(
        "ack messages",
        Writes::Nothing,
        move |l| l.sr_messages(SMALL, SMALL, black_box(&bytes)),
        move |_| theirs::sr_messages(SMALL, SMALL, black_box(&m)),
    );
    let label = format!("{SMALL} × 32 bytes");
    let (new, whole) = ("new sender reliable", "Queueing and acknowledging");
    all.row(
        "Acknowledging, each ack",
        label.clone(),
        SMALL,
        "ack messages",
        "queue reliable 64 32",
    );
    all.row(whole, label, 1, "ack messages", new);
    let n = PIECES * SLICE_SIZE;
    let (bytes, m) = (self::bytes(n), message(n, Source::Copied));
    all.add(
        "ack pieces",
        Writes::Nothing,
        move |l| l.sr_pieces(PIECES, black_box(&bytes)),
        move |_| theirs::sr_pieces(PIECES, black_box(&m)),
    );
    let label = format!("{PIECES} pieces");
    all.row(
        "Acknowledging, each ack",
        label.clone(),
        PIECES,
        "ack pieces",
        "queue reliable 1 48000",
    );
    all.row(whole, label, 1, "ack pieces", new);
}

fn receivers(all: &mut All, source: Source) {
    let made = if source == Source::Ready { " ready" } else { "" };
    let group = match source {
        Source::Copied => "Receiving, each message or piece",
        Source::Ready => "Receiving, each message or piece, `Bytes` ready",
    };
    for (kind, reliable) in [("reliable", true), ("unreliable", false)] {
        let new = format!("new receiver {kind}");
        for n in LENGTHS {
            for takes in [0, SMALL] {
                let (bytes, m) = (bytes(n), message(n, source));
                let theirs = if reliable {
                    theirs::rr_messages
                } else {
                    theirs::ru_messages
                };
                let receive = format!("receive {kind} {n}{made}");
                let label = format!("{kind}, {}", of(SMALL, n));
                let name = match takes {
                    0 => receive.clone(),
                    _ => format!("take {kind} {n}"),
                };
                if takes > 0 && (source == Source::Ready || n != 32) {
                    continue;
                }
                all.add(
                    &name,
                    Writes::Nothing,
                    move |l| l.messages(reliable, SMALL, takes, black_box(&bytes)),
                    move |_| theirs(SMALL, takes, black_box(&m)),
                );
                if takes == 0 {
                    all.row(group, label, SMALL, &name, &new);
                } else {
                    all.row("Taking, each message", label.clone(), SMALL, &name, &receive);
                    all.row("Receiving and taking", label, 1, &name, &new);
                }
            }
        }
        for takes in [0, 1] {
            let n = SLICE_SIZE;
            let (bytes, m) = (bytes(n), message(n, source));
            let theirs = if reliable { theirs::rr_pieces } else { theirs::ru_pieces };
            let receive = format!("receive {kind} pieces{made}");
            let label = format!("{kind}, {PIECES} pieces");
            let name = match takes {
                0 => receive.clone(),
                _ => format!("take {kind} pieces"),
            };
            if takes > 0 && source == Source::Ready {
                continue;
            }
            all.add(
                &name,
                Writes::Nothing,
                move |l| l.pieces(reliable, PIECES, takes, black_box(&bytes)),
                move |_| theirs(PIECES, takes, black_box(&m)),
            );
            match takes {
                0 => all.row(group, label, PIECES, &name, &new),
                _ => all.row("Receiving and taking", label, 1, &name, &new),
            }
        }
    }
}

/// The tables of our writer, by which it finds the messages and ranges of `sample`.
fn fill(m: &mut Lent) {
    for i in 0..10 {
        m.messages[3 * i] = 60 + i as u64;
        m.messages[3 * i + 1] = 32 * i as u64;
        m.messages[3 * i + 2] = 32;
    }
    for i in 0..8 {
        let start = 900 + 10 * i as u64;
        m.ranges[i] = Range { start, end: start + 5 };
    }
}

/// FNV-1a, for the eye; the bytes themselves are compared.
fn sum(bytes: &[u8]) -> u64 {
    bytes.iter().fold(0xcbf2_9ce4_8422_2325, |h, &b| {
        (h ^ u64::from(b)).wrapping_mul(0x0100_0000_01b3)
    })
}

/// Holds both sides to the same answer and the same packets.
fn check(s: &mut Scenario, a: &mut Lent, b: &mut Lent) {
    fill(a);
    let (x, y) = ((s.ours)(a), (s.renet)(b));
    assert_eq!(x, y, "{}: the answers differ", s.name);
    let n = match s.writes {
        Writes::Nothing => 0,
        Writes::Packet => x,
        Writes::Packets => {
            assert_eq!(a.table[..2 * x], b.table[..2 * x], "{}: the tables differ", s.name);
            (a.table[2 * x - 2] + a.table[2 * x - 1]) as usize
        }
    };
    assert!(a.out[..n] == b.out[..n], "{}: the bytes differ", s.name);
    let (sum_a, sum_b) = (sum(&a.out[..n]), sum(&b.out[..n]));
    println!("same\t{}\t{x}\t{n}\t{sum_a:016x}\t{sum_b:016x}", s.name);
}

/// Holds what our reader found to what renet's found.
fn check_read(kind: u8, a: &mut Lent) {
    let packet = sample(kind).0;
    let mut out = vec![0; 2000];
    let n = theirs::write(&packet, &mut out);
    assert_eq!(a.read(&out[..n]), n);
    let part = |i: usize| {
        let (place, len) = (a.messages[3 * i + 1] as usize, a.messages[3 * i + 2] as usize);
        &out[place..place + len]
    };
    match packet {
        Packet::SmallReliable { messages, .. } => {
            for (i, (id, bytes)) in messages.iter().enumerate() {
                assert!(a.messages[3 * i] == *id && part(i) == bytes);
            }
        }
        Packet::SmallUnreliable { messages, .. } => {
            for (i, bytes) in messages.iter().enumerate() {
                assert!(part(i) == bytes);
            }
        }
        Packet::Ack { ack_ranges, .. } => {
            for (i, r) in ack_ranges.iter().enumerate() {
                let Range { start, end } = a.ranges[i];
                assert_eq!(start..end, *r);
            }
        }
        // the payload of a piece is the end of the packet
        _ => {}
    }
}

/// Nanoseconds for each of n times.
fn timed(work: &mut Work, m: &mut Lent, n: u32) -> f64 {
    let start = Instant::now();
    for _ in 0..n {
        black_box(work(m));
    }
    start.elapsed().as_nanos() as f64 / f64::from(n)
}

fn median(mut xs: Vec<f64>) -> f64 {
    xs.sort_by(f64::total_cmp);
    xs[xs.len() / 2]
}

/// Times all scenarios turn by turn, both sides one after the other, so that what else the machine does
/// falls on all alike. Differences and ratios are taken within a turn; tells their medians.
fn time(all: &mut All, a: &mut Lent, b: &mut Lent, turns: usize) {
    let mut times: HashMap<String, Vec<[f64; 2]>> = HashMap::new();
    for turn in 0..=turns {
        for s in &mut all.scenarios {
            fill(a);
            let found = times.entry(s.name.clone()).or_default();
            // the first turn warms up, and tells how often a scenario fits into half a millisecond
            let n = match found.first() {
                Some(first) => (500_000.0 / first[0].max(first[1])).clamp(5.0, 20_000.0) as u32,
                None => 20,
            };
            if turn == 1 {
                found.clear();
            }
            found.push([timed(&mut s.ours, a, n), timed(&mut s.renet, b, n)]);
        }
    }
    for r in &all.rows {
        let figure = |turn: usize, side: usize| {
            let less = times.get(&r.less).map_or(0.0, |t| t[turn][side]);
            (times[&r.whole][turn][side] - less) / r.calls as f64
        };
        let over = |f: &dyn Fn(usize) -> f64| median((0..turns).map(f).collect());
        let (x, y) = (over(&|t| figure(t, 0)), over(&|t| figure(t, 1)));
        let ratio = over(&|t| figure(t, 0) / figure(t, 1));
        println!("time\t{}\t{}\t{x:.2}\t{y:.2}\t{ratio:.3}", r.group, r.label);
    }
}

/// What callgrind counts; it writes its counts after each call.
#[no_mangle]
#[inline(never)]
fn counted(work: &mut Work, m: &mut Lent) {
    black_box(work(m));
}

fn main() {
    let mut all = All::default();
    wire(&mut all);
    ends(&mut all);
    senders(&mut all, Source::Copied);
    acks(&mut all);
    receivers(&mut all, Source::Copied);
    senders(&mut all, Source::Ready);
    receivers(&mut all, Source::Ready);
    let (mut a, mut b) = (Lent::new(), Lent::new());
    for kind in 0..KINDS.len() {
        check_read(kind as u8, &mut a);
    }
    for s in &mut all.scenarios {
        check(s, &mut a, &mut b);
    }
    for r in &all.rows {
        println!("row\t{}\t{}\t{}\t{}\t{}", r.group, r.label, r.calls, r.whole, r.less);
    }
    let turns = std::env::args().nth(2).and_then(|n| n.parse().ok()).unwrap_or(51);
    match std::env::args().nth(1).as_deref() {
        Some("time") => time(&mut all, &mut a, &mut b, turns),
        Some("count") => {
            for s in &mut all.scenarios {
                fill(&mut a);
                // the allocator is warm, as it is in `time`
                for _ in 0..3 {
                    (s.ours)(&mut a);
                    (s.renet)(&mut b);
                }
                fill(&mut a);
                counted(&mut s.ours, &mut a);
                counted(&mut s.renet, &mut b);
                println!("count\t{}", s.name);
            }
        }
        Some("only") => {
            let name = std::env::args().nth(2).unwrap_or_default();
            let s = all
                .scenarios
                .iter_mut()
                .find(|s| s.name == name)
                .expect("no such scenario");
            let renet = std::env::args().nth(3).as_deref() == Some("renet");
            for _ in 0..100 {
                counted(if renet { &mut s.renet } else { &mut s.ours }, &mut a);
            }
        }
        _ => eprintln!("bench time [TURNS] | count | only SCENARIO [renet]"),
    }
}
