//! Random scripts by seed. The generator runs each line as it writes it, so that it can feed the packets
//! of one end to the other, lose, repeat, reorder and damage them, and aim at boundaries.

use crate::layer::{Settings, LIMIT, SLICE_SIZE};
use crate::script::spell;
use crate::session::Session;
use octets::Octets;
use renet::packet::Packet;

/// splitmix64.
pub struct Random(u64);

impl Random {
    pub fn new(seed: u64) -> Random {
        Random(seed)
    }

    pub fn next(&mut self) -> u64 {
        self.0 = self.0.wrapping_add(0x9e37_79b9_7f4a_7c15);
        let z = (self.0 ^ (self.0 >> 30)).wrapping_mul(0xbf58_476d_1ce4_e5b9);
        let z = (z ^ (z >> 27)).wrapping_mul(0x94d0_49bb_1331_11eb);
        z ^ (z >> 31)
    }

    /// A number below n.
    pub fn below(&mut self, n: u64) -> u64 {
        self.next() % n
    }

    /// Yes in so many of a hundred cases.
    pub fn chance(&mut self, percent: u64) -> bool {
        self.below(100) < percent
    }

    pub fn one<T: Copy>(&mut self, of: &[T]) -> T {
        of[self.below(of.len() as u64) as usize]
    }
}

/// Packets in flight, most of which arrive at some time or never.
type Line = Vec<Vec<u8>>;

const IN_FLIGHT: usize = 60;

/// What a script is mostly about.
#[derive(Clone, Copy, PartialEq)]
enum Theme {
    Reliable,
    Unreliable,
    ByHand,
    Wire,
}

pub struct Generator {
    random: Random,
    session: Session,
    pub lines: Vec<String>,
    answers: String,
    theme: Theme,
    line_r: Line,
    line_u: Line,
    /// acknowledgements of what the reliable receiver took
    acks: Vec<String>,
    sequence: [u64; 2],
    time: [u64; 2],
    resend: u64,
    cut: Option<&'static str>,
    /// the reliable ends get nothing but each other's packets
    clean: bool,
    /// for how long nothing came out of the reliable receiver
    stuck: u32,
    /// how often arguments are faulty, so that two faults meet and their order shows
    faults: u64,
}

/// A script of about so many lines.
pub fn script(seed: u64, lines: usize) -> String {
    let mut random = Random::new(seed);
    let theme = random.one(&[
        Theme::Reliable,
        Theme::Reliable,
        Theme::Unreliable,
        Theme::ByHand,
        Theme::Wire,
    ]);
    let mut g = Generator {
        random,
        session: Session::new(),
        lines: vec![],
        answers: String::new(),
        theme,
        line_r: vec![],
        line_u: vec![],
        acks: vec![],
        sequence: [0, 0],
        time: [0, 0],
        resend: 300_000_000,
        cut: None,
        clean: false,
        stuck: 0,
        faults: 1,
    };
    g.faults = g.random.one(&[1, 1, 1, 6]);
    g.clean = theme == Theme::Reliable && g.random.chance(70);
    g.begin();
    while g.lines.len() < lines {
        g.step();
    }
    g.lines.join("\n") + "\n"
}

impl Generator {
    fn emit(&mut self, line: String) {
        self.answers.clear();
        self.session.run(line.as_bytes(), &mut self.answers);
        self.lines.push(line);
    }

    fn emit_words(&mut self, words: &str, numbers: &[u64]) {
        let mut line = words.to_string();
        for n in numbers {
            line.push(' ');
            line += &self.spelt(*n);
        }
        self.emit(line);
    }

    /// A number, now and then as a power of two.
    fn spelt(&mut self, n: u64) -> String {
        if n < 1 << 60 || self.random.chance(30) {
            return n.to_string();
        }
        let near = [(62, 1u128 << 62), (64, 1 << 64)];
        for (k, power) in near {
            let away = i128::from(n) - power as i128;
            if away.abs() < 1_000 {
                return match away {
                    0 => format!("2^{k}"),
                    1.. => format!("2^{k}+{away}"),
                    _ => format!("2^{k}{away}"),
                };
            }
        }
        n.to_string()
    }

    /// A number from anywhere, mostly at a boundary.
    fn number(&mut self) -> u64 {
        let edges = [
            0,
            1,
            2,
            63,
            64,
            1_200,
            16_383,
            16_384,
            (1 << 30) - 1,
            1 << 30,
            LIMIT - 2,
            LIMIT - 1,
            LIMIT,
            LIMIT + 1,
            u64::MAX,
        ];
        match self.random.below(10) {
            0..=4 => self.random.one(&edges),
            5..=7 => self.random.below(70),
            8 => self.random.next(),
            _ => self.random.below(LIMIT),
        }
    }

    /// The length of a message.
    fn length(&mut self, small: bool) -> usize {
        let r = &mut self.random;
        if small || r.chance(65) {
            return match r.below(10) {
                0 => 0,
                1 => r.one(&[1, 2, 62, 63, 64, 65]),
                2 | 3 => 1_194 + r.below(8) as usize,
                4 => r.below(1_201) as usize,
                _ => r.below(120) as usize,
            };
        }
        match r.below(12) {
            0..=3 => r.one(&[1_201, 1_202, 2_399, 2_400, 2_401, 3_600, 3_601]),
            4..=8 => 1_200 + r.below(6_000) as usize,
            9 => r.one(&[47_999, 48_000, 48_001, 49_000]),
            10 => r.below(48_000) as usize,
            _ => 1_200 * (1 + r.below(41) as usize) + r.below(3) as usize,
        }
    }

    /// So many bytes.
    fn payload(&mut self, n: usize) -> String {
        let b = self.random.below(256);
        match self.random.below(4) {
            0 if n > 0 && n < 24 => (0..n).map(|_| format!("{:02x}", self.random.below(256))).collect(),
            0 | 1 => format!("{b:02x}x{n}"),
            2 if n > 4 => format!(
                "{:02x}.{b:02x}~{}.{:02x}",
                self.random.below(256),
                n - 2,
                self.random.below(256)
            ),
            _ => format!("{b:02x}~{n}"),
        }
    }

    fn message(&mut self, small: bool) -> String {
        let n = self.length(small);
        self.payload(n)
    }

    fn allowance(&mut self) -> u64 {
        let r = &mut self.random;
        match r.below(8) {
            0 => r.one(&[0, 1, 1_199, 1_200, 1_201, 2_399, 2_400, 2_401, u64::MAX]),
            1 => r.below(1_300),
            2..=4 => r.below(6_000),
            _ => 3_000 + r.below(60_000),
        }
    }

    fn settings(&mut self) -> [u64; 4] {
        let r = &mut self.random;
        let small = r.chance(60);
        let slots = if small { 1 + r.below(6) } else { 1 + r.below(64) };
        let lanes = 1 + r.below(4);
        let pieces = if small { 1 + r.below(6) } else { 1 + r.below(40) };
        let memory = match r.below(6) {
            0 => r.below(3_000),
            1 => r.below(20_000),
            // pieces that fill it exactly
            2 => 1_200 * r.below(12) + r.below(2),
            3 => slots * 1_200 + lanes * pieces * 1_200,
            _ => 1_000_000,
        };
        let mut s = [slots, lanes, pieces, memory];
        if r.chance(4) {
            let most = [64, 4, 40, 1_000_000];
            let i = r.below(4) as usize;
            s[i] = r.one(&[0, most[i], most[i] + 1, 1 << 40, u64::MAX]);
        }
        s
    }

    fn begin(&mut self) {
        for ends in [["sr", "rr"], ["su", "ru"]] {
            if self.random.chance(90) {
                self.set_up_both(ends);
            }
        }
        // sequences from a boundary of the varints on
        if self.random.chance(20) {
            let from = self.random.one(&[60, 16_380, (1 << 30) - 4, LIMIT - 400]);
            self.sequence = [from, from];
        }
    }

    /// Both ends of a channel, in most cases alike.
    fn set_up_both(&mut self, ends: [&str; 2]) {
        let (first, second) = (self.settings(), self.settings());
        let alike = self.random.chance(70);
        self.set_up(ends[0], first);
        self.set_up(ends[1], if alike { first } else { second });
    }

    fn set_up(&mut self, end: &str, s: [u64; 4]) {
        let channel = self.random.below(256);
        let resend = self
            .random
            .one(&[0, 1, 100, 100, 300_000_000, 300_000_000, 300_000_000, u64::MAX]);
        match end {
            "sr" => {
                self.emit_words("sr new", &[channel, s[0], s[1], s[2], s[3], resend]);
                if self.answers.contains("ready") {
                    self.resend = resend;
                    self.time[0] = 0;
                }
            }
            "su" => self.emit_words("su new", &[channel, s[0], s[1], s[2], s[3]]),
            _ => {
                self.emit_words(&format!("{end} new"), &s);
                if end == "ru" && self.answers.contains("ready") {
                    self.time[1] = 0;
                }
            }
        }
    }

    fn step(&mut self) {
        if let Some(end) = self.cut {
            if self.random.chance(40) {
                return self.restore(end);
            }
        }
        match self.random.below(200) {
            0 => {
                let end = self.random.one(&["sr", "su", "rr", "ru"]);
                let s = self.settings();
                if self.random.chance(30) {
                    self.set_up(end, s)
                }
            }
            1 => {
                let end = self.random.one(&["sr", "su", "rr", "ru", "sc", "wire"]);
                self.emit(format!("{end} digest"))
            }
            2..=4 => self.bad(),
            5..=7 => {
                self.lend();
                self.burst();
            }
            8..=12 => self.reassembly(),
            13..=40 => self.any(),
            _ => match self.theme {
                Theme::Reliable => self.reliable(),
                Theme::Unreliable => self.unreliable(),
                Theme::ByHand => self.by_hand(),
                Theme::Wire => self.wire(),
            },
        }
    }

    fn any(&mut self) {
        match self.random.below(4) {
            0 => self.reliable(),
            1 => self.unreliable(),
            2 if !self.clean => self.by_hand(),
            _ => self.wire(),
        }
    }

    /// A hole that never fills holds all back; then both ends begin anew.
    fn unstick(&mut self) {
        self.stuck += 1;
        if self.stuck > 60 {
            self.stuck = 0;
            self.line_r.clear();
            self.acks.clear();
            self.set_up_both(["sr", "rr"]);
        }
    }

    // ---- a reliable session

    fn reliable(&mut self) {
        match self.random.below(100) {
            0..=19 => self.send("sr"),
            20..=34 => self.reliable_round(),
            35..=61 => self.deliver("rr"),
            62..=77 => self.ack(),
            78..=95 => self.takes("rr"),
            _ => self.ask("sr"),
        }
    }

    /// Queues a message; seldom one for which no cell or lane is free.
    fn send(&mut self, end: &str) {
        let n = match self.random.chance(12) {
            true => self.filling(end, 49_000),
            false => self.length(false),
        };
        let (stores, s) = match end {
            "sr" => (&self.session.sr.stores, &self.session.sr.settings),
            _ => (&self.session.su.stores, &self.session.su.settings),
        };
        let free = if n <= SLICE_SIZE {
            stores.free_cell(s)
        } else {
            stores.free_lane(s)
        };
        if free.is_some() || self.random.chance(25) {
            let m = self.payload(n);
            self.emit(format!("{end} send {m}"));
        }
    }

    /// Takes or looks, until nothing waits or it is enough.
    fn takes(&mut self, end: &str) {
        let rr = &self.session.rr.renet;
        let waits = match end {
            "rr" => rr.held(rr.oldest_pending()).is_some(),
            _ => self.session.ru.renet.first().is_some(),
        };
        if end == "rr" {
            self.unstick();
        }
        if !waits && !self.random.chance(15) {
            return;
        }
        if end == "rr" && waits {
            self.stuck = 0;
        }
        for _ in 0..1 + self.random.below(6) {
            let call = if self.random.chance(15) { "look" } else { "take" };
            self.emit(format!("{end} {call}"));
            if self.answers.contains(": nothing") {
                return;
            }
        }
    }

    fn tick(&mut self, i: usize, step: u64) -> u64 {
        let r = &mut self.random;
        let by = match r.below(10) {
            0 | 1 => 0,
            2 => 1,
            3 => step.saturating_sub(1),
            4..=6 => step,
            7 => step.saturating_add(1),
            _ => r.below(step.saturating_mul(2).max(2)),
        };
        // a time far ahead would make every later one go back
        let by = by.min(1 << 40);
        if r.chance(3 * self.faults) {
            return self.time[i].saturating_sub(by.max(1));
        }
        self.time[i] = self.time[i].saturating_add(by);
        self.time[i]
    }

    fn round_sequence(&mut self, i: usize) -> u64 {
        match self.random.below(40) {
            0 => self.number(),
            1 => LIMIT - 1 - self.random.below(4),
            _ => self.sequence[i],
        }
    }

    fn reliable_round(&mut self) {
        let time = self.tick(0, self.resend);
        let (sequence, allowance) = (self.round_sequence(0), self.allowance());
        self.emit_words("sr round", &[sequence, time, allowance]);
        let outbox = &self.session.sr.outbox;
        if self.answers.contains(": sent ") {
            self.line_r.extend((0..outbox.kept).map(|k| outbox.packet(k).to_vec()));
            self.sequence[0] = (sequence + outbox.kept as u64) % (LIMIT - 1);
        }
        Self::lose(&mut self.random, &mut self.line_r);
    }

    fn lose(r: &mut Random, line: &mut Line) {
        while line.len() > IN_FLIGHT {
            let i = r.below(line.len() as u64) as usize;
            line.remove(i);
        }
    }

    /// Hands a packet to a receiver: of the last round, or an older one; damaged now and then.
    fn deliver(&mut self, end: &str) {
        let reliable = end == "rr";
        let time = if reliable {
            None
        } else {
            Some(self.tick(1, 1_000_000_000))
        };
        let kept = if reliable {
            self.session.sr.outbox.kept
        } else {
            self.session.su.outbox.kept
        } as u64;
        let behind = time.map(|t| format!(" {t}")).unwrap_or_default();
        if kept > 0 && self.random.chance(45) {
            let beyond = u64::from(self.random.chance(2));
            let k = self.random.below(kept + beyond);
            self.emit(format!("{end} deliver {k}{behind}"));
            if reliable && k < kept {
                let packet = self.session.sr.outbox.packet(k as usize).to_vec();
                self.note(&packet);
            }
            return;
        }
        let line = if reliable { &mut self.line_r } else { &mut self.line_u };
        let mut packet = match line.is_empty() {
            true => vec![],
            false => {
                let i = self.random.below(line.len() as u64) as usize;
                // most packets arrive once
                if self.random.chance(75) {
                    line.remove(i)
                } else {
                    line[i].clone()
                }
            }
        };
        let hostile = !(self.clean && reliable);
        if packet.is_empty() && !hostile {
            return;
        }
        if packet.is_empty() || hostile && self.random.chance(5) {
            packet = self.packet();
        }
        if hostile && self.random.chance(12) {
            self.damage(&mut packet);
        }
        self.emit_packet(&format!("{end} packet"), &packet, &behind);
        if reliable {
            self.note(&packet);
        }
    }

    /// Notes an acknowledgement of each message or piece of a packet that the receiver took or has.
    fn note(&mut self, packet: &[u8]) {
        let acks = match Packet::from_bytes(&mut Octets::with_slice(packet)) {
            Ok(Packet::SmallReliable { messages, .. }) => {
                messages.iter().map(|(id, _)| format!("sr ack {id}")).collect()
            }
            Ok(Packet::ReliableSlice { slice, .. }) => {
                vec![format!("sr ack-slice {} {}", slice.message_id, slice.slice_index)]
            }
            _ => vec![],
        };
        let told = self.answers.lines().skip(1).zip(acks);
        let taken = told.filter(|(t, _)| t.contains(": taken") || t.contains(": ignored"));
        for (_, ack) in taken {
            if !self.acks.contains(&ack) {
                self.acks.push(ack);
            }
        }
    }

    fn emit_packet(&mut self, words: &str, packet: &[u8], behind: &str) {
        let text = spell(packet);
        if text.len() < 4_000 {
            self.emit(format!("{words} {text}{behind}"));
        }
    }

    fn ack(&mut self) {
        if self.clean || self.random.chance(90) {
            for _ in 0..1 + self.random.below(3) {
                if !self.acks.is_empty() {
                    let i = self.random.below(self.acks.len() as u64) as usize;
                    let ack = self.acks.swap_remove(i);
                    self.emit(ack);
                }
            }
            return;
        }
        let next = self.session.sr.renet.next_id();
        let id = match self.random.below(20) {
            0 => self.number(),
            1..=9 => (0..next)
                .find(|id| self.session.sr.renet.pieces_of(*id).is_some())
                .unwrap_or(0),
            _ => next.saturating_sub(1 + self.random.below(12)),
        };
        let pieces = self.session.sr.renet.pieces_of(id).unwrap_or(0) as u64;
        let sliced = (pieces > 0) != self.random.chance(15);
        if !sliced {
            return self.emit_words("sr ack", &[id]);
        }
        let index = match self.random.below(10) {
            0 => self.number(),
            1 | 2 => pieces,
            _ => self.random.below(pieces.max(1)),
        };
        self.emit_words("sr ack-slice", &[id, index]);
    }

    fn ask(&mut self, end: &str) {
        match self.random.below(4) {
            0 => self.emit(format!("{end} available")),
            1 => self.emit(format!("{end} usage")),
            _ => {
                let (usage, memory) = match end {
                    "sr" => (
                        self.session.sr.renet.memory_usage_bytes(),
                        self.session.sr.settings.memory,
                    ),
                    _ => (
                        self.session.su.renet.memory_usage_bytes(),
                        self.session.su.settings.memory,
                    ),
                };
                let left = memory - usage as u64;
                let size = match self.random.below(4) {
                    0 => left,
                    1 => left + 1,
                    2 => u64::MAX - self.random.below(2 + usage as u64),
                    _ => self.number(),
                };
                self.emit_words(&format!("{end} can-send"), &[size]);
            }
        }
    }

    // ---- an unreliable session

    fn unreliable(&mut self) {
        match self.random.below(100) {
            0..=27 => self.send("su"),
            28..=41 => self.unreliable_round(),
            42..=71 => self.deliver("ru"),
            72..=78 => {
                let time = self.tick(1, 3_000_000_000);
                self.emit_words("ru discard", &[time])
            }
            79..=93 => self.takes("ru"),
            _ => self.ask("su"),
        }
    }

    fn unreliable_round(&mut self) {
        let (sequence, allowance) = (self.round_sequence(1), self.allowance());
        self.emit_words("su round", &[sequence, allowance]);
        let outbox = &self.session.su.outbox;
        if self.answers.contains(": sent ") {
            self.line_u.extend((0..outbox.kept).map(|k| outbox.packet(k).to_vec()));
            self.sequence[1] = (sequence + outbox.kept as u64) % (LIMIT - 1);
        }
        Self::lose(&mut self.random, &mut self.line_u);
    }

    // ---- receivers, by hand

    fn by_hand(&mut self) {
        match self.random.below(100) {
            0..=14 => {
                let id = self.near(false);
                let n = self.small_length("rr");
                let m = self.payload(n);
                let id = self.spelt(id);
                self.emit(format!("rr message {id} {m}"))
            }
            15..=41 => {
                let id = self.near(true);
                let piece = self.piece(id, true);
                self.emit(format!("rr slice {piece}"))
            }
            42..=53 => self.takes("rr"),
            54..=61 => {
                let n = self.small_length("ru");
                let m = self.payload(n);
                self.emit(format!("ru message {m}"))
            }
            62..=87 => {
                let id = self.random.below(6);
                let piece = self.piece(id, false);
                self.emit(format!("ru slice {piece}"))
            }
            88..=91 => {
                let time = self.tick(1, 3_000_000_000);
                self.emit_words("ru discard", &[time])
            }
            _ => self.takes("ru"),
        }
    }

    /// The length of a small message, now and then one that is too long.
    fn small_length(&mut self, end: &str) -> usize {
        match self.random.below(33 / self.faults) {
            0 => 1_201,
            1 | 2 => self.filling(end, 1_201),
            _ => self.length(true),
        }
    }

    /// A length that fills an end's memory, or is one away from that; if that is above the most, any length.
    fn filling(&mut self, end: &str, most: u64) -> usize {
        let e = &self.session;
        let (usage, memory) = match end {
            "sr" => (e.sr.renet.memory_usage_bytes(), e.sr.settings.memory),
            "su" => (e.su.renet.memory_usage_bytes(), e.su.settings.memory),
            "rr" => (e.rr.renet.memory_usage_bytes(), e.rr.settings.memory),
            _ => (e.ru.renet.memory_usage_bytes(), e.ru.settings.memory),
        };
        let left = memory - usage as u64;
        let n = (left + 1).saturating_sub(self.random.below(3));
        match n <= most {
            true => n as usize,
            false => self.length(most < 2_000),
        }
    }

    /// An id around the one that the reliable receiver awaits.
    fn near(&mut self, sliced: bool) -> u64 {
        let oldest = self.session.rr.renet.oldest_pending();
        if self.random.chance(3 * self.faults) {
            return match self.random.chance(40) {
                true => LIMIT - 1 + self.random.below(3),
                false => self.number(),
            };
        }
        match self.random.below(25) {
            0 | 1 => oldest.saturating_sub(1),
            2..=9 => oldest,
            10..=20 if sliced => oldest + self.random.below(3),
            10..=20 => oldest + self.random.below(4),
            _ => oldest + self.random.below(12),
        }
    }

    /// ID INDEX NUM_SLICES [TIME] BYTES; mostly as the open one asks for.
    fn piece(&mut self, id: u64, reliable: bool) -> String {
        let s: Settings = if reliable {
            self.session.rr.settings
        } else {
            self.session.ru.settings
        };
        let open = match reliable {
            true => self.session.rr.renet.open(id),
            false => self.session.ru.renet.open(id),
        };
        let num = open.map(|c| c.num_slices as u64);
        let r = &mut self.random;
        let num = match num {
            Some(n) if !r.chance(4 * self.faults) => n,
            _ => match r.below(28 - 3 * self.faults) {
                0 => 0,
                1 => s.pieces + 1,
                2 => u64::MAX,
                3 => s.pieces,
                _ => 1 + r.below(s.pieces.min(5)),
            },
        };
        let index = match r.below(32 / self.faults) {
            0 => num,
            1 => u64::MAX - r.below(2),
            _ => r.below(num.clamp(1, 100)),
        };
        let last = num > 0 && index == num - 1;
        let n = match r.below(20 / self.faults) {
            0 => r.one(&[0, 1_199, 1_200, 1_201]),
            _ if last => r.one(&[0, 1, 700, 1_199, SLICE_SIZE]),
            _ => SLICE_SIZE,
        };
        let time = if reliable {
            String::new()
        } else {
            format!(" {}", self.tick(1, 1_000_000_000))
        };
        let id = if self.random.chance(2 * self.faults) {
            self.number()
        } else {
            id
        };
        let (id, index, num) = (self.spelt(id), self.spelt(index), self.spelt(num));
        let payload = self.payload(n);
        format!("{id} {index} {num}{time} {payload}")
    }

    // ---- the wire

    fn wire(&mut self) {
        match self.random.below(100) {
            0..=44 => {
                let packet = self.some_packet();
                self.emit_packet("wire read", &packet, "")
            }
            45..=59 => self.write_small(),
            60..=69 => self.write_slice(),
            70..=84 => self.write_ack(),
            _ => self.octets(),
        }
    }

    /// A packet of a sender or a made one; damaged in one of two cases.
    fn some_packet(&mut self) -> Vec<u8> {
        let r = &mut self.random;
        let line = if r.chance(50) { &self.line_r } else { &self.line_u };
        let mut packet = match line.len() {
            0 => vec![],
            n => line[r.below(n as u64) as usize].clone(),
        };
        if packet.is_empty() || self.random.chance(60) {
            packet = self.packet();
        }
        if self.random.chance(50) {
            self.damage(&mut packet);
        }
        packet
    }

    /// A varint in any of its forms.
    fn varint(&mut self, out: &mut Vec<u8>, v: u64) {
        let v = v % LIMIT;
        let least = [0x40, 0x4000, 0x4000_0000, u64::MAX]
            .iter()
            .position(|&end| v < end)
            .unwrap_or(3);
        let form = if self.random.chance(90) {
            least
        } else {
            least + self.random.below(4 - least as u64) as usize
        };
        let n = 1 << form;
        let mut bytes = v.to_be_bytes();
        bytes[8 - n] |= (form as u8) << 6;
        out.extend_from_slice(&bytes[8 - n..]);
    }

    fn run(&mut self, out: &mut Vec<u8>, n: usize) {
        self.varint(out, n as u64);
        let b = self.random.below(256) as u8;
        out.extend(std::iter::repeat_n(b, n));
    }

    /// A packet that a reader takes, or nearly so.
    fn packet(&mut self) -> Vec<u8> {
        let kinds = if self.random.chance(3) { 256 } else { 5 };
        let kind = self.random.below(kinds) as u8;
        let mut p = vec![kind];
        let sequence = self.number();
        self.varint(&mut p, sequence);
        match kind {
            0 | 1 => {
                p.push(self.random.below(256) as u8);
                let many = if self.random.chance(8) { 63 } else { 0 };
                let count = many + self.random.one(&[0, 1, 1, 2, 2, 2]);
                p.extend(u16::to_be_bytes(count));
                for _ in 0..count {
                    let id = if self.random.chance(80) {
                        self.near(false)
                    } else {
                        self.number()
                    };
                    if kind == 0 {
                        self.varint(&mut p, id);
                    }
                    let n = if count > 5 {
                        self.random.below(4) as usize
                    } else {
                        self.length(true)
                    };
                    self.run(&mut p, n);
                }
            }
            2 | 3 => {
                p.push(self.random.below(256) as u8);
                let id = if self.random.chance(80) {
                    self.near(true)
                } else {
                    self.number()
                };
                let num = self
                    .random
                    .one(&[0, 1, 2, 2, 3, 40, 41, 1_000_000, 1_000_001, LIMIT - 1]);
                let index = if self.random.chance(80) {
                    self.random.below(num.max(1))
                } else {
                    self.number()
                };
                for v in [id, index, num] {
                    self.varint(&mut p, v);
                }
                let n = self.random.one(&[0, 1, 1_199, 1_200, 1_200, 1_200, 1_201]);
                self.run(&mut p, n);
            }
            _ => self.ack_body(&mut p),
        }
        p
    }

    /// Last value, size less one, ranges remaining; per lower range gap and size less one.
    fn ack_body(&mut self, p: &mut Vec<u8>) {
        let mut start = if self.random.chance(70) {
            self.random.below(2_000)
        } else {
            self.number() % LIMIT
        };
        let lower = self.random.one(&[0, 0, 1, 1, 2, 3, 10, 62, 63, 64]);
        let claimed = if self.random.chance(95) { lower } else { self.number() };
        let less = self.step_down(start);
        for v in [start, less, claimed] {
            self.varint(p, v);
        }
        start = start.saturating_sub(less);
        for _ in 0..lower {
            let gap = self.step_down(start.saturating_sub(2));
            let end = start.saturating_sub(gap).saturating_sub(2);
            let less = self.step_down(end);
            self.varint(p, gap);
            // a gap is judged before the size below it is read
            if start < gap.saturating_add(2) && self.random.chance(50) {
                return;
            }
            self.varint(p, less);
            start = end.saturating_sub(less);
        }
    }

    /// A number that mostly can be taken from another.
    fn step_down(&mut self, from: u64) -> u64 {
        match self.random.below(40) {
            0 => from,
            1 => from + 1,
            2 => self.number(),
            _ => self.random.below(4).min(from),
        }
    }

    fn damage(&mut self, p: &mut Vec<u8>) {
        let r = &mut self.random;
        for _ in 0..1 + r.below(2) {
            let n = p.len() as u64;
            match r.below(7) {
                0 => p.truncate(r.below(n + 1) as usize),
                1 => p.truncate(n.saturating_sub(1) as usize),
                2 => p.push(r.below(256) as u8),
                3 if n > 0 => p[0] = r.below(6) as u8,
                4 if n > 0 => {
                    // near the front, where the numbers are
                    let i = r.below(n.min(12)) as usize;
                    p[i] = r.one(&[0, 1, 0x3f, 0x40, 0x7f, 0x80, 0xc0, 0xff]);
                }
                5 if n > 0 => {
                    let i = r.below(n.min(24)) as usize;
                    p[i] ^= 1 << r.below(8);
                }
                _ if n > 0 => {
                    let i = r.below(n.min(16)) as usize;
                    p.remove(i);
                }
                _ => {}
            }
        }
    }

    /// A number to write, mostly a good one.
    fn good(&mut self) -> u64 {
        match self.random.below(12) {
            0 => self.number(),
            1..=3 => self.number() % LIMIT,
            _ => self.random.below(100),
        }
    }

    fn write_small(&mut self) {
        let words = self.random.one(&["wire small-reliable", "wire small-unreliable"]);
        let n = self.random.one(&[0, 1, 3, 40, 700, 1_500]);
        let store = self.payload(n);
        let count = self.random.below(4);
        let mut table = vec![];
        for _ in 0..count {
            let place = self.random.below(n as u64 + 1);
            let len = match self.random.below(20) {
                0 => n as u64 - place + 1,
                1 => self.number(),
                2 => n as u64 - place,
                _ => self.random.below(n as u64 - place + 1),
            };
            table.extend([self.good(), place, len]);
        }
        match self.random.below(20) {
            0 => table.truncate(table.len().saturating_sub(1)),
            1 => table.push(self.number()),
            _ => {}
        }
        let told = match self.random.below(30) {
            0 => count + 1,
            1 => self.number(),
            2 => count.saturating_sub(1),
            _ => count,
        };
        let (sequence, channel) = (self.good(), self.random.below(256));
        let mut line = format!(
            "{words} {} {channel} {} {store}",
            self.spelt(sequence),
            self.spelt(told)
        );
        for w in table {
            line += &format!(" {}", self.spelt(w));
        }
        self.emit(line);
    }

    fn write_slice(&mut self) {
        let words = self.random.one(&["wire reliable-slice", "wire unreliable-slice"]);
        let n = self.random.one(&[0, 1, 3, 40, 1_200, 1_500]);
        let place = self.random.below(n + 1);
        let len = match self.random.below(12) {
            0 => n - place + 1,
            1 => self.number(),
            _ => self.random.below(n - place + 1),
        };
        let numbers = [
            self.good(),
            self.random.below(256),
            self.good(),
            self.good(),
            self.good(),
            place,
            len,
        ];
        let numbers: Vec<String> = numbers.iter().map(|n| self.spelt(*n)).collect();
        let store = self.payload(n as usize);
        self.emit(format!("{words} {} {store}", numbers.join(" ")));
    }

    fn write_ack(&mut self) {
        let count = self.random.one(&[0, 1, 1, 2, 2, 3, 8, 64]);
        let mut table = vec![];
        let mut at = match self.random.below(10) {
            0 => LIMIT - self.random.below(12),
            1 | 2 => self.number(),
            _ => self.random.below(70),
        };
        for _ in 0..count {
            let start = at.wrapping_add(self.random.below(4));
            let end = start.wrapping_add(match self.random.below(50) {
                0 => 0,
                1..=20 => 1 + self.random.below(3),
                _ => 1 + self.random.below(70),
            });
            table.extend([start, end]);
            at = end.wrapping_add(u64::from(!self.random.chance(3)));
        }
        if self.random.chance(4) {
            table.truncate(table.len().saturating_sub(1));
        }
        let told = if self.random.chance(4) { self.number() } else { count };
        let sequence = self.good();
        let mut numbers = vec![sequence, told];
        numbers.extend(table);
        self.emit_words("wire ack", &numbers);
    }

    fn octets(&mut self) {
        let n = self.random.below(12) as usize;
        let bytes: Vec<u8> = (0..n).map(|_| self.random.next() as u8).collect();
        let at = if self.random.chance(90) {
            self.random.below(n as u64 + 2)
        } else {
            self.number()
        };
        let at = self.spelt(at);
        match self.random.below(8) {
            0 => self.emit(format!("wire get-u8 {} {at}", spell(&bytes))),
            1 => self.emit(format!("wire get-u16 {} {at}", spell(&bytes))),
            2 | 3 => self.emit(format!("wire get-varint {} {at}", spell(&bytes))),
            4 => self.emit(format!("wire get-bytes {} {at}", spell(&bytes))),
            5 => {
                let v = self.number();
                self.emit_words("wire varint-len", &[v])
            }
            6 => {
                let v = self.number();
                self.emit_words(&format!("wire put-varint {at}"), &[v])
            }
            _ => {
                let (v, m) = (self.random.below(65_536), self.message(true));
                match self.random.chance(50) {
                    true => self.emit_words(&format!("wire put-u16 {at}"), &[v]),
                    false => self.emit(format!("wire put-bytes {at} {m}")),
                }
            }
        }
    }

    // ---- one reassembly

    fn reassembly(&mut self) {
        if self.random.chance(20) {
            let id = if self.random.chance(10) { self.number() } else { 0 };
            let num = if self.random.chance(15) {
                self.random.one(&[0, 40, 41, u64::MAX])
            } else {
                1 + self.random.below(4)
            };
            return self.emit_words("sc new", &[id, num]);
        }
        let num = self.session.sc.renet.num_slices as u64;
        let index = if self.random.chance(5) {
            self.number()
        } else {
            self.random.below(num)
        };
        let n = match self.random.below(10) {
            0 => self.random.one(&[0, 1, 1_199, 1_201]),
            1..=3 if index == num - 1 => self.length(true),
            _ => SLICE_SIZE,
        };
        let (index, payload) = (self.spelt(index), self.payload(n));
        self.emit(format!("sc slice {index} {payload}"));
    }

    // ---- lent memory

    /// Cuts what is lent to an end, to just enough or one less than that.
    fn lend(&mut self) {
        let end = self.random.one(&["sr", "su", "rr", "ru", "sc", "wire"]);
        let less = u64::from(self.random.chance(50));
        let other = self.random.below(3);
        self.cut = Some(end);
        match end {
            "sc" => {
                let lane = self.session.sc.renet.num_slices as u64 * 1_200;
                self.emit_words("sc lend", &[lane - less])
            }
            "wire" => {
                let sizes = [
                    self.random.one(&[0, 1, 2, 3, 5, 6, 9, 189, 191]),
                    self.random.one(&[0, 1, 2, 3, 4, 126, 127]),
                ];
                let out = self.random.one(&[0, 1, 5, 7, 10, 12, 16, 20, 60, 1_210]) + self.random.below(4);
                self.emit_words("wire lend", &[sizes[0], sizes[1], out])
            }
            _ => {
                let s = match end {
                    "sr" => self.session.sr.settings,
                    "su" => self.session.su.settings,
                    "rr" => self.session.rr.settings,
                    _ => self.session.ru.settings,
                };
                let mut sizes = vec![s.slots * 1_200, s.lanes * s.pieces * 1_200];
                if other < 2 {
                    sizes[other as usize] -= less;
                }
                if end == "sr" || end == "su" {
                    return self.lend_round(end, sizes);
                }
                self.emit_words(&format!("{end} lend"), &sizes)
            }
        }
    }

    /// What the next round would need, or a little less, and then that round.
    fn lend_round(&mut self, end: &str, mut sizes: Vec<u64>) {
        let i = usize::from(end == "su");
        let time = self.time[0].max(self.session.sr.latest);
        let (allowance, sequence) = (self.allowance(), self.sequence[i]);
        let (mut next, mut left) = (sequence, allowance);
        let packets = match end {
            "sr" if self.random.chance(90) => {
                let mut copy = self.session.sr.renet.copy();
                copy.get_packets_to_send(&mut next, &mut left, std::time::Duration::from_nanos(time))
            }
            "su" => self.session.su.renet.copy().get_packets_to_send(&mut next, &mut left),
            _ => vec![],
        };
        let fits = packets.iter().all(|p| p.sequence() < LIMIT);
        let bytes: usize = if fits {
            packets.iter().map(|p| crate::wire::encoded(p).len()).sum()
        } else {
            0
        };
        let (bytes, words) = (bytes as u64, 2 * packets.len() as u64);
        let lent = match self.random.below(4) {
            0 => [bytes, words],
            1 => [bytes.saturating_sub(1), words],
            2 => [bytes, words.saturating_sub(1)],
            _ => [bytes, words + 1],
        };
        sizes.extend(lent);
        self.emit_words(&format!("{end} lend"), &sizes);
        match end {
            "sr" => self.emit_words("sr round", &[sequence, time, allowance]),
            _ => self.emit_words("su round", &[sequence, allowance]),
        }
    }

    /// Calls on the end that has just been cut, many of them faulty in another way too.
    fn burst(&mut self) {
        let Some(end) = self.cut else {
            return;
        };
        let usual = std::mem::replace(&mut self.faults, 6);
        for _ in 0..2 + self.random.below(4) {
            match (end, self.random.below(4)) {
                ("sr", 0) | ("su", 0) => {
                    let n = self.length(false);
                    let m = self.payload(n);
                    self.emit(format!("{end} send {m}"))
                }
                ("sr", _) => self.reliable_round(),
                ("su", _) => self.unreliable_round(),
                ("rr", _) if self.clean => self.deliver("rr"),
                ("rr", 0) => {
                    let (id, n) = (self.near(false), self.small_length("rr"));
                    let (id, m) = (self.spelt(id), self.payload(n));
                    self.emit(format!("rr message {id} {m}"))
                }
                ("ru", 0) => {
                    let n = self.small_length("ru");
                    let m = self.payload(n);
                    self.emit(format!("ru message {m}"))
                }
                ("rr", 1) | ("ru", 1) => self.emit(format!("{end} look")),
                ("rr", _) => {
                    let id = self.near(true);
                    let piece = self.piece(id, true);
                    self.emit(format!("rr slice {piece}"))
                }
                ("ru", _) => {
                    let id = self.random.below(6);
                    let piece = self.piece(id, false);
                    self.emit(format!("ru slice {piece}"))
                }
                ("sc", _) => self.reassembly(),
                _ => self.wire(),
            }
        }
        self.faults = usual;
    }

    fn restore(&mut self, end: &str) {
        self.cut = None;
        match end {
            "sc" => self.emit("sc lend 48000".into()),
            "wire" => self.emit("wire lend 192 128 2048".into()),
            "sr" | "su" => self.emit(format!("{end} lend 76800 192000 280000 512")),
            _ => self.emit(format!("{end} lend 76800 192000")),
        }
    }

    // ---- bad lines, blank lines and comments

    fn bad(&mut self) {
        // a line that was there, or at first an empty one
        let i = self.random.below(self.lines.len().max(1) as u64) as usize;
        let mut line = self.lines.get(i).cloned().unwrap_or_default().into_bytes();
        let n = line.len() as u64;
        let r = &mut self.random;
        match r.below(9) {
            0 => line.clear(),
            1 => line.extend(b" # a comment # and more"),
            2 => line.extend(b" 7"),
            3 => line.truncate(r.below(n + 1) as usize),
            4 => line.extend(r.one(&[
                &b" 18446744073709551615"[..],
                b" 18446744073709551616",
                b" 2^64",
                b" x",
                b".",
            ])),
            5 if n > 0 => line[r.below(n) as usize] = r.one(b"0f.x~-^ \t\rZ#\x00\x7f2"),
            6 if n > 0 => {
                line.remove(r.below(n) as usize);
            }
            7 => {
                let width = r.one(&[4_095, 4_096, 4_097, 9_000]);
                line.resize(width.max(line.len()), b' ');
            }
            _ => line.insert(r.below(n + 1) as usize, r.one(b"0f.x~-^ \t\rZ#\x00\x7f2")),
        }
        self.emit(String::from_utf8(line).expect("all signs are of one byte"));
    }
}
