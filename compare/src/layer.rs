//! What document 01 adds to renet, kept apart from renet's answers: the numbers 9 to 17, the lent
//! memory with its cells and lanes, and the calls in which renet can't be followed. Nothing in this
//! file calls renet. An answer that is given here without renet is counted as outside the compared
//! domain, by its reason.

use crate::script;
use std::collections::BTreeMap;

pub const SLICE_SIZE: usize = 1_200;
pub const LIMIT: u64 = 1 << 62;
pub const SMALL: usize = 64 * SLICE_SIZE;
pub const LANES: usize = 4 * LANE;
pub const LANE: usize = 40 * SLICE_SIZE;
pub const OUT: usize = 280_000;
pub const TABLE: usize = 512;

const FILL: u8 = 0xa5;
const FILL_WORD: u64 = 0xa5a5_a5a5_a5a5_a5a5;

const NAMES: [&str; 18] = [
    "",
    "BufferTooShort",
    "InvalidNumSlices",
    "SliceSizeAboveLimit",
    "EmptySlice",
    "InvalidAckRange",
    "InvalidPacketType",
    "ReliableChannelMaxMemoryReached",
    "InvalidSliceMessage",
    "BadSettings",
    "BadStore",
    "TableFull",
    "TooLong",
    "BadNumber",
    "ClockBack",
    "NoRoom",
    "WrongKind",
    "BadIndex",
];

/// A refusal in words.
pub fn refused(number: usize) -> String {
    format!("refused {number} {}", NAMES[number])
}

/// How many calls were made, and how many of them renet did not answer, by reason.
#[derive(Default, Clone)]
pub struct Tally {
    pub calls: u64,
    pub outside: BTreeMap<String, u64>,
}

impl Tally {
    /// A refusal that document 01 adds.
    pub fn added(&mut self, number: usize) -> String {
        self.not_renets(&format!("{number} {}", NAMES[number]));
        refused(number)
    }

    /// A refusal in a call that renet can't be given.
    pub fn unfollowed(&mut self, number: usize, why: &str) -> String {
        self.not_renets(why);
        refused(number)
    }

    pub fn not_renets(&mut self, why: &str) {
        *self.outside.entry(why.to_string()).or_default() += 1;
    }

    pub fn add(&mut self, other: &Tally) {
        self.calls += other.calls;
        for (why, n) in &other.outside {
            *self.outside.entry(why.clone()).or_default() += n;
        }
    }
}

/// "Sizes and settings".
#[derive(Clone, Copy)]
pub struct Settings {
    pub slots: u64,
    pub lanes: u64,
    pub pieces: u64,
    pub memory: u64,
}

impl Settings {
    pub const MOST: Settings = Settings {
        slots: 64,
        lanes: 4,
        pieces: 40,
        memory: 1_000_000,
    };

    pub fn good(&self) -> bool {
        let most = Self::MOST;
        let counts = [
            (self.slots, most.slots),
            (self.lanes, most.lanes),
            (self.pieces, most.pieces),
        ];
        counts.iter().all(|&(v, most)| 1 <= v && v <= most) && self.memory <= most.memory
    }

    pub fn lane(&self) -> usize {
        self.pieces as usize * SLICE_SIZE
    }
}

/// Bytes that are lent, all or a front part of them.
pub struct Lent {
    pub bytes: Vec<u8>,
    pub len: usize,
}

impl Lent {
    pub fn new(len: usize) -> Lent {
        Lent {
            bytes: vec![FILL; len],
            len,
        }
    }

    pub fn write(&mut self, at: usize, s: &[u8]) {
        self.bytes[at..at + s.len()].copy_from_slice(s);
    }

    pub fn digest(&self) -> u64 {
        digest(self.bytes.iter().map(|&b| u64::from(b)))
    }
}

/// Words that are lent, all or a front part of them.
pub struct LentWords {
    pub words: Vec<u64>,
    pub len: usize,
}

impl LentWords {
    pub fn new(len: usize) -> LentWords {
        LentWords {
            words: vec![FILL_WORD; len],
            len,
        }
    }

    pub fn digest(&self) -> u64 {
        digest(self.words.iter().copied())
    }
}

fn digest(values: impl Iterator<Item = u64>) -> u64 {
    const MOD: u64 = (1 << 56) - 5;
    values.fold(0, |h, v| (h * 251 + v % MOD) % MOD)
}

/// Where a message lies.
#[derive(Clone, Copy, PartialEq)]
pub enum Place {
    Cell(usize),
    Lane(usize),
}

/// The two stores of a channel end, and which cells and lanes are held.
pub struct Stores {
    pub small: Lent,
    pub lanes: Lent,
    cells: [bool; 64],
    held: [bool; 4],
}

impl Stores {
    pub fn new() -> Stores {
        Stores {
            small: Lent::new(SMALL),
            lanes: Lent::new(LANES),
            cells: [false; 64],
            held: [false; 4],
        }
    }

    /// A new state holds nothing; the bytes stay.
    pub fn reset(&mut self) {
        self.cells = [false; 64];
        self.held = [false; 4];
    }

    /// Number 10: whether both stores are long enough.
    pub fn hold(&self, s: &Settings) -> bool {
        s.slots as usize * SLICE_SIZE <= self.small.len && s.lanes as usize * s.lane() <= self.lanes.len
    }

    /// Number 11: the lowest free cell, if there is one.
    pub fn free_cell(&self, s: &Settings) -> Option<Place> {
        self.cells[..s.slots as usize].iter().position(|&h| !h).map(Place::Cell)
    }

    /// Number 11: the lowest free lane, if there is one.
    pub fn free_lane(&self, s: &Settings) -> Option<Place> {
        self.held[..s.lanes as usize].iter().position(|&h| !h).map(Place::Lane)
    }

    pub fn set(&mut self, place: Place, held: bool) {
        match place {
            Place::Cell(i) => self.cells[i] = held,
            Place::Lane(l) => self.held[l] = held,
        }
    }

    /// Where a cell or lane starts in its store.
    pub fn start(place: Place, s: &Settings) -> usize {
        match place {
            Place::Cell(i) => i * SLICE_SIZE,
            Place::Lane(l) => l * s.lane(),
        }
    }

    /// Writes into a cell or lane.
    pub fn write(&mut self, place: Place, s: &Settings, at: usize, bytes: &[u8]) {
        let start = Stores::start(place, s) + at;
        match place {
            Place::Cell(_) => self.small.write(start, bytes),
            Place::Lane(_) => self.lanes.write(start, bytes),
        }
    }

    /// A message that lies at a place, in words. Its bytes are renet's, and must stand in the store.
    pub fn show(&self, place: Place, s: &Settings, message: &[u8]) -> String {
        let (name, store) = match place {
            Place::Cell(_) => ("small", &self.small),
            Place::Lane(_) => ("lanes", &self.lanes),
        };
        let at = Stores::start(place, s);
        let there = &store.bytes[at..at + message.len()];
        assert!(there == message, "the driver's store differs from renet's message");
        format!("in {name} at {at} length {} {}", message.len(), script::spell(message))
    }
}

/// The bytes and the table that a round writes to, and the packets of the last one.
pub struct Outbox {
    pub out: Lent,
    pub table: LentWords,
    pub kept: usize,
}

impl Outbox {
    pub fn new() -> Outbox {
        Outbox {
            out: Lent::new(OUT),
            table: LentWords::new(TABLE),
            kept: 0,
        }
    }

    pub fn packet(&self, k: usize) -> &[u8] {
        let (start, len) = (self.table.words[2 * k] as usize, self.table.words[2 * k + 1] as usize);
        &self.out.bytes[start..start + len]
    }

    /// Number 15: whether the packets of a round have room.
    pub fn room(&self, packets: &[Vec<u8>]) -> bool {
        let bytes: usize = packets.iter().map(Vec::len).sum();
        bytes <= self.out.len && packets.len() <= self.table.len / 2
    }

    /// Packets lie end to end at the front, start and length in the table.
    pub fn put(&mut self, packets: &[Vec<u8>]) -> usize {
        let mut at = 0;
        for (k, p) in packets.iter().enumerate() {
            self.out.write(at, p);
            self.table.words[2 * k] = at as u64;
            self.table.words[2 * k + 1] = p.len() as u64;
            at += p.len();
        }
        self.kept = packets.len();
        at
    }
}
