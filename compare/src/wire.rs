//! The wire: renet's `Packet::from_bytes` and `Packet::to_bytes`, and the stand-in for `octets`.

use crate::layer::{refused, Lent, LentWords, Tally, LIMIT};
use crate::script::spell;
use octets::{Octets, OctetsMut};
use renet::packet::{Packet, SerializationError, Slice};
use std::fmt::Write;

/// A packet that was read, places and lengths of its payloads, and how many bytes it used.
pub struct Read {
    pub packet: Packet,
    pub runs: Vec<(usize, usize)>,
    pub used: usize,
}

impl Read {
    pub fn words(&self) -> String {
        words(&self.packet, &self.runs)
    }

    /// What stands in the table of the packet's kind.
    fn records(&self) -> Vec<u64> {
        let ids: Vec<u64> = match &self.packet {
            Packet::SmallReliable { messages, .. } => messages.iter().map(|(id, _)| *id).collect(),
            Packet::SmallUnreliable { messages, .. } => vec![0; messages.len()],
            Packet::Ack { ack_ranges, .. } => return ack_ranges.iter().flat_map(|r| [r.start, r.end]).collect(),
            _ => vec![],
        };
        let rows = ids.iter().zip(&self.runs);
        rows.flat_map(|(id, r)| [*id, r.0 as u64, r.1 as u64]).collect()
    }
}

fn number(e: SerializationError) -> usize {
    match e {
        SerializationError::BufferTooShort => 1,
        SerializationError::InvalidNumSlices => 2,
        SerializationError::SliceSizeAboveLimit => 3,
        SerializationError::EmptySlice => 4,
        SerializationError::InvalidAckRange => 5,
        SerializationError::InvalidPacketType => 6,
    }
}

/// A packet in words; `runs` are the places and lengths of its payloads.
fn words(packet: &Packet, runs: &[(usize, usize)]) -> String {
    let mut t = String::new();
    let _ = match packet {
        Packet::SmallReliable {
            sequence,
            channel_id,
            messages,
        } => {
            let _ = write!(
                t,
                "SmallReliable sequence {sequence} channel {channel_id} messages {}",
                messages.len()
            );
            let all = messages.iter().zip(runs);
            all.fold(Ok(()), |_, ((id, _), (at, len))| {
                write!(t, ", id {id} at {at} length {len}")
            })
        }
        Packet::SmallUnreliable {
            sequence,
            channel_id,
            messages,
        } => {
            let _ = write!(
                t,
                "SmallUnreliable sequence {sequence} channel {channel_id} messages {}",
                messages.len()
            );
            runs.iter()
                .fold(Ok(()), |_, (at, len)| write!(t, ", at {at} length {len}"))
        }
        Packet::ReliableSlice {
            sequence,
            channel_id,
            slice,
        } => {
            let _ = write!(t, "ReliableSlice sequence {sequence} channel {channel_id} ");
            slice_words(&mut t, slice, runs[0])
        }
        Packet::UnreliableSlice {
            sequence,
            channel_id,
            slice,
        } => {
            let _ = write!(t, "UnreliableSlice sequence {sequence} channel {channel_id} ");
            slice_words(&mut t, slice, runs[0])
        }
        Packet::Ack { sequence, ack_ranges } => {
            let _ = write!(t, "Ack sequence {sequence} ranges {}", ack_ranges.len());
            ack_ranges
                .iter()
                .fold(Ok(()), |_, r| write!(t, ", {}..{}", r.start, r.end))
        }
    };
    t
}

fn slice_words(t: &mut String, s: &Slice, (at, len): (usize, usize)) -> std::fmt::Result {
    let (id, index, num) = (s.message_id, s.slice_index, s.num_slices);
    write!(t, "message {id} slice {index} of {num} at {at} length {len}")
}

/// The payloads of a packet.
fn payloads(packet: &Packet) -> Vec<&[u8]> {
    match packet {
        Packet::SmallReliable { messages, .. } => messages.iter().map(|(_, m)| &m[..]).collect(),
        Packet::SmallUnreliable { messages, .. } => messages.iter().map(|m| &m[..]).collect(),
        Packet::ReliableSlice { slice, .. } | Packet::UnreliableSlice { slice, .. } => vec![&slice.payload[..]],
        Packet::Ack { .. } => vec![],
    }
}

/// The bytes of a packet that renet wrote.
pub fn encoded(packet: &Packet) -> Vec<u8> {
    write(packet, 2_048).expect("a packet of a round has room")
}

/// What renet writes to so many bytes, or the number of its refusal. What a refused write leaves is not kept.
fn write(packet: &Packet, room: usize) -> Result<Vec<u8>, usize> {
    let mut out = vec![0; room];
    let n = packet.to_bytes(&mut OctetsMut::with_slice(&mut out)).map_err(number)?;
    out.truncate(n);
    Ok(out)
}

/// What renet reads, and where its payloads lie; 11 where a table has too few records.
fn read(s: &[u8], messages: usize, ranges: usize, tally: &mut Tally) -> Result<Read, usize> {
    octets::runs();
    let mut b = Octets::with_slice(s);
    let packet = Packet::from_bytes(&mut b).map_err(number)?;
    let (used, runs) = (b.off(), octets::runs());
    let there = runs.iter().map(|&(at, len)| &s[at..at + len]);
    assert!(there.eq(payloads(&packet)), "a payload is not where it was read");
    let full = match &packet {
        Packet::SmallReliable { messages: m, .. } => messages < m.len(),
        Packet::SmallUnreliable { messages: m, .. } => messages < m.len(),
        Packet::Ack { ack_ranges, .. } => ranges < ack_ranges.len(),
        _ => false,
    };
    if full {
        tally.added(11);
        return Err(11);
    }
    Ok(Read { packet, runs, used })
}

/// A packet of small messages, judged: 10, 13, 12.
pub fn small(ids: bool, head: [u64; 3], store: &[u8], table: &[u64], tally: &mut Tally) -> Result<Packet, usize> {
    let [sequence, channel, count] = head;
    let mut refuse = |number| {
        tally.added(number);
        Err(number)
    };
    if ((table.len() / 3) as u64) < count {
        return refuse(10);
    }
    let rows = || table.chunks(3).take(count as usize);
    let parts: Option<Vec<&[u8]>> = rows().map(|r| part(store, r[1], r[2])).collect();
    let Some(parts) = parts else {
        return refuse(10);
    };
    if LIMIT <= sequence || (ids && rows().any(|r| LIMIT <= r[0])) {
        return refuse(13);
    }
    if 65_535 < count {
        return refuse(12);
    }
    let bytes = parts.iter().map(|p| p.to_vec().into());
    let channel_id = channel as u8;
    Ok(match ids {
        true => Packet::SmallReliable {
            sequence,
            channel_id,
            messages: rows().map(|r| r[0]).zip(bytes).collect(),
        },
        false => Packet::SmallUnreliable {
            sequence,
            channel_id,
            messages: bytes.collect(),
        },
    })
}

/// A packet of a piece, judged: 10, 13.
pub fn slice(reliable: bool, head: [u64; 7], store: &[u8], tally: &mut Tally) -> Result<Packet, usize> {
    let [sequence, channel, message_id, index, num, place, len] = head;
    let mut refuse = |number| {
        tally.added(number);
        Err(number)
    };
    let Some(payload) = part(store, place, len) else {
        return refuse(10);
    };
    if [sequence, message_id, index, num].iter().any(|v| LIMIT <= *v) {
        return refuse(13);
    }
    let (slice_index, num_slices) = (index as usize, num as usize);
    let slice = Slice {
        message_id,
        slice_index,
        num_slices,
        payload: payload.to_vec().into(),
    };
    let channel_id = channel as u8;
    Ok(match reliable {
        true => Packet::ReliableSlice {
            sequence,
            channel_id,
            slice,
        },
        false => Packet::UnreliableSlice {
            sequence,
            channel_id,
            slice,
        },
    })
}

/// The most ranges that a script lends.
const RANGES: usize = 64;

/// A packet of acknowledgements, judged: 10, 13, 5.
pub fn ack(sequence: u64, count: u64, table: &[u64], tally: &mut Tally) -> Result<Packet, usize> {
    if ((table.len() / 2).min(RANGES) as u64) < count {
        tally.added(10);
        return Err(10);
    }
    let ack_ranges: Vec<_> = table.chunks(2).take(count as usize).map(|r| r[0]..r[1]).collect();
    if LIMIT <= sequence || ack_ranges.iter().any(|r| LIMIT <= r.start || LIMIT < r.end) {
        tally.added(13);
        return Err(13);
    }
    let touching = ack_ranges.windows(2).any(|w| w[1].start <= w[0].end);
    if ack_ranges.is_empty() || ack_ranges.iter().any(|r| r.end <= r.start) || touching {
        tally.unfollowed(5, "encoding of no ranges, empty ranges or touching ranges");
        return Err(5);
    }
    Ok(Packet::Ack { sequence, ack_ranges })
}

pub struct Wire {
    pub messages: LentWords,
    pub ranges: LentWords,
    pub out: Lent,
}

impl Wire {
    pub fn new() -> Wire {
        Wire {
            messages: LentWords::new(192),
            ranges: LentWords::new(128),
            out: Lent::new(2_048),
        }
    }

    /// Reads a packet into the tables as they are lent.
    pub fn read(&mut self, s: &[u8], tally: &mut Tally) -> Result<Read, usize> {
        let read = read(s, self.messages.len / 3, self.ranges.len / 2, tally)?;
        self.fill(&read);
        Ok(read)
    }

    /// Reads a packet into the whole tables.
    pub fn read_whole(&mut self, s: &[u8]) -> Result<Read, usize> {
        let read = read(s, 64, 64, &mut Tally::default())?;
        self.fill(&read);
        Ok(read)
    }

    /// Fills the table of a packet's kind.
    fn fill(&mut self, read: &Read) {
        let records = read.records();
        let table = match read.packet {
            Packet::Ack { .. } => &mut self.ranges,
            _ => &mut self.messages,
        };
        table.words[..records.len()].copy_from_slice(&records);
    }

    /// Writes a packet that was judged to the lent bytes; a refusal leaves them as they were.
    pub fn write(&mut self, packet: Result<Packet, usize>) -> String {
        match packet.and_then(|p| write(&p, self.out.len)) {
            Err(number) => refused(number),
            Ok(bytes) => {
                self.out.write(0, &bytes);
                format!("written {} {}", bytes.len(), spell(&bytes))
            }
        }
    }

    /// Reads a number of `octets` at a place.
    pub fn get(s: &[u8], at: u64, read: impl Fn(&mut Octets) -> Result<u64, octets::BufferTooShortError>) -> String {
        let Some(rest) = rest(s, at) else {
            return refused(1);
        };
        let mut b = Octets::with_slice(rest);
        match read(&mut b) {
            Ok(v) => format!("value {v} next {}", at as usize + b.off()),
            Err(_) => refused(1),
        }
    }

    pub fn get_bytes(s: &[u8], at: u64) -> String {
        let Some(rest) = rest(s, at) else {
            return refused(1);
        };
        let mut b = Octets::with_slice(rest);
        match b.get_bytes_with_varint_length() {
            Ok(r) => {
                let r = r.to_vec();
                format!(
                    "at {} length {} {}",
                    at as usize + b.off() - r.len(),
                    r.len(),
                    spell(&r)
                )
            }
            Err(_) => refused(1),
        }
    }

    pub fn put(
        &mut self,
        at: u64,
        write: impl Fn(&mut OctetsMut) -> Result<(), octets::BufferTooShortError>,
    ) -> String {
        let Some(rest) = rest(&self.out.bytes[..self.out.len], at) else {
            return refused(1);
        };
        let mut out = rest.to_vec();
        let mut w = OctetsMut::with_slice(&mut out);
        if write(&mut w).is_err() {
            return refused(1);
        }
        let n = rest.len() - w.cap();
        self.out.write(at as usize, &out[..n]);
        format!("to {} {}", at as usize + n, spell(&out[..n]))
    }
}

/// All from a place on, if the place is within.
fn rest(s: &[u8], at: u64) -> Option<&[u8]> {
    s.get(usize::try_from(at).ok()?..)
}

/// Number 10: a part of a store, if it lies within.
fn part(store: &[u8], place: u64, len: u64) -> Option<&[u8]> {
    let end = place.checked_add(len)?;
    store.get(place as usize..usize::try_from(end).ok()?)
}
