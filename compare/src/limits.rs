//! The cases of the program `limits` by renet, told as that program tells them.

use crate::layer::{refused, Lent, LentWords, Tally};
use crate::wire::{self, Wire};

/// The words of a table for one message more than a packet counts.
const WORDS: usize = 196_608;
/// More bytes than any of these packets has.
const ROOM: usize = 131_088;

/// All cases, each with its answer.
pub fn answers() -> String {
    let mut text = String::new();
    for (kind, each) in [(0, 2), (1, 1)] {
        for (len, form) in [(16_383, 2), (16_384, 4)] {
            let exact = 4 + each + form + len;
            text += &write(kind, 0, 1, 3, len as u64, exact);
            text += &write(kind, 0, 1, 3, len as u64, exact - 1);
        }
        let most = 5 + each * 65_535;
        text += &read(kind, most, WORDS - 3);
        text += &read(kind, most, WORDS - 4);
        text += &read(kind, most - 1, WORDS - 3);
        text += &write(kind, 0, 65_535, WORDS - 3, 0, most);
        text += &write(kind, 0, 65_535, WORDS - 3, 0, most - 1);
        text += &write(kind, 0, 65_536, WORDS, 0, ROOM);
        text += &write(kind, 0, 65_536, WORDS, 0, 0);
        text += &write(kind, 1 << 62, 65_536, WORDS, 0, ROOM);
        text += &write(kind, 0, 65_536, WORDS - 1, 0, ROOM);
        text += &write(kind, 0, 65_536, WORDS, 16_385, ROOM);
        text += &write(kind, 0, 65_535, WORDS, 16_385, ROOM);
    }
    text
}

fn write(kind: u8, sequence: u64, count: u64, words: usize, last: u64, room: usize) -> String {
    let mut wire = Wire::new();
    wire.out = Lent::new(ROOM);
    wire.out.len = room;
    let mut table = vec![0; words];
    table[words - 1] = last;
    let head = [sequence, 0, count];
    let told = wire.write(wire::small(
        kind == 0,
        head,
        &[b'a'; 16_384],
        &table,
        &mut Tally::default(),
    ));
    let case = format!(
        "write type {kind} sequence {sequence} messages {count}, of {words} words, last {last} to {room} bytes"
    );
    format!("{case}: {}; digest {}\n", numbered(&told), wire.out.digest())
}

fn read(kind: u8, n: usize, words: usize) -> String {
    let mut wire = Wire::new();
    wire.messages = LentWords::new(WORDS);
    wire.messages.len = words;
    let mut s = vec![0; n];
    s[..5].copy_from_slice(&[kind, 0, 0, 0xff, 0xff]);
    let told = match wire.read(&s, &mut Tally::default()) {
        Err(number) => refused(number),
        Ok(read) => format!("{}; used {}", read.words().split(", ").next().unwrap_or(""), read.used),
    };
    let case = format!("read type {kind} from {n} bytes, to {words} words");
    format!("{case}: {}; digest {}\n", numbered(&told), wire.messages.digest())
}

/// A refusal with its number said once more; of what was written, only how much.
fn numbered(told: &str) -> String {
    let words: Vec<&str> = told.split(' ').collect();
    match words[0] {
        "refused" => format!("{told}, number {}", words[1]),
        "written" => format!("written {}", words[1]),
        _ => told.to_string(),
    }
}
