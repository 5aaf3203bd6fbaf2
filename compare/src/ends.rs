//! The four channel ends and the reassembly: renet's own, behind the layer that judges what document 01
//! adds. In each call the added refusals stand in document 01's order, with renet's call among them.

use crate::layer::*;
use crate::script::spell;
use crate::wire;
use bytes::Bytes;
use renet::channel::reliable::{ReceiveChannelReliable, SendChannelReliable};
use renet::channel::unreliable::{ReceiveChannelUnreliable, SendChannelUnreliable};
use renet::channel::SliceConstructor;
use renet::error::ChannelError;
use renet::packet::{Packet, Slice};
use std::collections::{BTreeMap, VecDeque};
use std::time::Duration;

fn number(e: ChannelError) -> usize {
    match e {
        ChannelError::ReliableChannelMaxMemoryReached => 7,
        ChannelError::InvalidSliceMessage => 8,
    }
}

fn taken(r: Result<(), ChannelError>) -> String {
    match r {
        Ok(()) => "taken".into(),
        Err(e) => refused(number(e)),
    }
}

/// A small message lies in a cell, a longer one in a lane.
fn free(stores: &Stores, s: &Settings, len: usize) -> Option<Place> {
    match len <= SLICE_SIZE {
        true => stores.free_cell(s),
        false => stores.free_lane(s),
    }
}

/// What a round answers, and the packets that it wrote.
pub struct Round {
    pub answer: String,
    pub packets: usize,
}

/// A round that renet made: 13 of the sequences that it needed, then 15, then the packets are put out.
fn put_out(
    outbox: &mut Outbox,
    packets: &[Packet],
    sequence: u64,
    next: u64,
    spent: u64,
    tally: &mut Tally,
) -> Result<Round, Round> {
    let refusal = |answer| Err(Round { answer, packets: 0 });
    if packets.len() as u64 > LIMIT - sequence {
        return refusal(tally.added(13));
    }
    let packets: Vec<Vec<u8>> = packets.iter().map(wire::encoded).collect();
    if !outbox.room(&packets) {
        return refusal(tally.added(15));
    }
    let bytes = outbox.put(&packets);
    let n = packets.len();
    let answer = format!("sent {n} packets, {bytes} bytes, next sequence {next}, spent {spent}");
    Ok(Round { answer, packets: n })
}

/// The sending end of a reliable channel.
pub struct Sr {
    pub renet: SendChannelReliable,
    pub settings: Settings,
    pub stores: Stores,
    pub outbox: Outbox,
    pub latest: u64,
    places: BTreeMap<u64, Place>,
}

impl Sr {
    pub fn new() -> Sr {
        let s = Settings::MOST;
        Sr {
            renet: SendChannelReliable::new(0, Duration::from_millis(300), s.memory as usize),
            settings: s,
            stores: Stores::new(),
            outbox: Outbox::new(),
            latest: 0,
            places: BTreeMap::new(),
        }
    }

    pub fn set_up(&mut self, channel: u8, s: Settings, resend: u64, tally: &mut Tally) -> String {
        if !s.good() {
            return tally.added(9);
        }
        self.renet = SendChannelReliable::new(channel, Duration::from_nanos(resend), s.memory as usize);
        self.settings = s;
        self.stores.reset();
        self.outbox.kept = 0;
        self.latest = 0;
        self.places.clear();
        "ready".into()
    }

    /// 10, 13, 12, 7, 11.
    pub fn send(&mut self, m: &[u8], tally: &mut Tally) -> String {
        let s = self.settings;
        if !self.stores.hold(&s) {
            return tally.added(10);
        }
        let id = self.renet.next_id();
        if LIMIT <= id {
            return tally.added(13);
        }
        if s.lane() < m.len() {
            return tally.added(12);
        }
        let place = free(&self.stores, &s, m.len());
        if place.is_none() && self.renet.can_send_message(m.len()) {
            return tally.added(11);
        }
        if let Err(e) = self.renet.send_message(Bytes::copy_from_slice(m)) {
            return refused(number(e));
        }
        let place = place.expect("a place, where renet takes a message");
        self.stores.set(place, true);
        self.stores.write(place, &s, 0, m);
        self.places.insert(id, place);
        format!("taken id {id}")
    }

    /// 10, 13 of the given sequence, 14; then what renet sends, on a copy: 13, 15.
    pub fn round(&mut self, sequence: u64, time: u64, allowance: u64, tally: &mut Tally) -> Round {
        let refusal = |answer| Round { answer, packets: 0 };
        if !self.stores.hold(&self.settings) {
            return refusal(tally.added(10));
        }
        if LIMIT <= sequence {
            return refusal(tally.added(13));
        }
        if time < self.latest {
            return refusal(tally.added(14));
        }
        let (mut after, mut next, mut left) = (self.renet.copy(), sequence, allowance);
        let packets = after.get_packets_to_send(&mut next, &mut left, Duration::from_nanos(time));
        match put_out(&mut self.outbox, &packets, sequence, next, allowance - left, tally) {
            Err(refused) => refused,
            Ok(sent) => {
                self.renet = after;
                self.latest = time;
                sent
            }
        }
    }

    /// 13, unknown id, 16, 17; `index` where a piece is acknowledged.
    pub fn ack(&mut self, id: u64, index: Option<u64>, tally: &mut Tally) -> String {
        const WRONG: &str = "an ack for the wrong kind";
        if LIMIT <= id {
            return tally.added(13);
        }
        let pieces = self.renet.pieces_of(id);
        match (pieces, index) {
            (Some(1..), None) | (Some(0), Some(_)) => return tally.unfollowed(16, WRONG),
            (Some(n), Some(i)) if n as u64 <= i => return tally.unfollowed(17, "an ack for a wild index"),
            (_, None) => self.renet.process_message_ack(id),
            (_, Some(i)) => self.renet.process_slice_message_ack(id, i as usize),
        }
        if pieces.is_none() {
            return "unknown id".into();
        }
        if self.renet.pieces_of(id).is_none() {
            let place = self.places.remove(&id).expect("the place of a message that waited");
            self.stores.set(place, false);
        }
        "done".into()
    }
}

/// The sending end of an unreliable channel.
pub struct Su {
    pub renet: SendChannelUnreliable,
    pub settings: Settings,
    pub stores: Stores,
    pub outbox: Outbox,
}

impl Su {
    pub fn new() -> Su {
        let s = Settings::MOST;
        Su {
            renet: SendChannelUnreliable::new(0, s.memory as usize),
            settings: s,
            stores: Stores::new(),
            outbox: Outbox::new(),
        }
    }

    pub fn set_up(&mut self, channel: u8, s: Settings, tally: &mut Tally) -> String {
        if !s.good() {
            return tally.added(9);
        }
        self.renet = SendChannelUnreliable::new(channel, s.memory as usize);
        self.settings = s;
        self.stores.reset();
        self.outbox.kept = 0;
        "ready".into()
    }

    /// 10, 12, Dropped, 11.
    pub fn send(&mut self, m: &[u8], tally: &mut Tally) -> String {
        let s = self.settings;
        if !self.stores.hold(&s) {
            return tally.added(10);
        }
        if s.lane() < m.len() {
            return tally.added(12);
        }
        let place = free(&self.stores, &s, m.len());
        if place.is_none() && self.renet.can_send_message(m.len()) {
            return tally.added(11);
        }
        let before = self.renet.waiting();
        self.renet.send_message(Bytes::copy_from_slice(m));
        if self.renet.waiting() == before {
            return "dropped".into();
        }
        let place = place.expect("a place, where renet takes a message");
        self.stores.set(place, true);
        self.stores.write(place, &s, 0, m);
        "taken".into()
    }

    /// 10, 13 of the given sequence; then what renet sends, on a copy: 13, 15.
    pub fn round(&mut self, sequence: u64, allowance: u64, tally: &mut Tally) -> Round {
        let refusal = |answer| Round { answer, packets: 0 };
        if !self.stores.hold(&self.settings) {
            return refusal(tally.added(10));
        }
        if LIMIT <= sequence {
            return refusal(tally.added(13));
        }
        let (mut after, mut next, mut left) = (self.renet.copy(), sequence, allowance);
        let packets = after.get_packets_to_send(&mut next, &mut left);
        if LIMIT < after.next_sliced_id() {
            return refusal(tally.added(13));
        }
        match put_out(&mut self.outbox, &packets, sequence, next, allowance - left, tally) {
            Err(refused) => refused,
            Ok(sent) => {
                self.renet = after;
                self.stores.reset();
                sent
            }
        }
    }
}

/// A message that lies somewhere, in words.
fn message(stores: &Stores, s: &Settings, id: Option<u64>, place: Place, m: &[u8]) -> String {
    let shown = stores.show(place, s, m);
    match id {
        Some(id) => format!("message id {id} {shown}"),
        None => format!("message {shown}"),
    }
}

/// Number 8: index and size of a piece.
fn faulty(index: u64, num: u64, len: usize) -> bool {
    num <= index
        || if index == num - 1 {
            SLICE_SIZE < len
        } else {
            len != SLICE_SIZE
        }
}

const ZERO: &str = "a piece with num_slices 0";
const WILD: &str = "a piece with a wild index";
const OTHER: &str = "a piece whose num_slices differs from the open one";
const FIRST: &str = "a faulty first piece";

/// The receiving end of a reliable channel, ordered.
pub struct Rr {
    pub renet: ReceiveChannelReliable,
    pub settings: Settings,
    pub stores: Stores,
    places: BTreeMap<u64, Place>,
}

impl Rr {
    pub fn new() -> Rr {
        let s = Settings::MOST;
        Rr {
            renet: ReceiveChannelReliable::new(s.memory as usize, true),
            settings: s,
            stores: Stores::new(),
            places: BTreeMap::new(),
        }
    }

    pub fn set_up(&mut self, s: Settings, tally: &mut Tally) -> String {
        if !s.good() {
            return tally.added(9);
        }
        self.renet = ReceiveChannelReliable::new(s.memory as usize, true);
        self.settings = s;
        self.stores.reset();
        self.places.clear();
        "ready".into()
    }

    fn exceeds(&self, charge: usize) -> bool {
        self.renet.max_memory_usage_bytes() < self.renet.memory_usage_bytes() + charge
    }

    fn old_or_held(&self, id: u64) -> bool {
        id < self.renet.oldest_pending() || self.renet.held(id).is_some()
    }

    /// 10, 13, ignored, 12, 16, 7, 11.
    pub fn message(&mut self, id: u64, m: &[u8], tally: &mut Tally) -> String {
        let s = self.settings;
        if !self.stores.hold(&s) {
            return tally.added(10);
        }
        if LIMIT <= id {
            return tally.added(13);
        }
        let bytes = Bytes::copy_from_slice(m);
        if self.old_or_held(id) {
            return match self.renet.process_message(bytes, id) {
                Ok(()) => "ignored".into(),
                Err(e) => refused(number(e)),
            };
        }
        if SLICE_SIZE < m.len() {
            return tally.added(12);
        }
        if self.renet.open(id).is_some() {
            return tally.unfollowed(16, "a small message under an open id");
        }
        let place = self.stores.free_cell(&s);
        if place.is_none() && !self.exceeds(m.len()) {
            return tally.added(11);
        }
        let answer = self.renet.process_message(bytes, id);
        if answer.is_ok() {
            let place = place.expect("a cell, where renet takes a message");
            self.stores.set(place, true);
            self.stores.write(place, &s, 0, m);
            self.places.insert(id, place);
        }
        taken(answer)
    }

    /// 10, 13, ignored, zero count (8), 12; a new id 7 and 11, an open one the count (8); index and size (8).
    pub fn slice(&mut self, id: u64, index: u64, num: u64, payload: &[u8], tally: &mut Tally) -> String {
        let s = self.settings;
        if !self.stores.hold(&s) {
            return tally.added(10);
        }
        if LIMIT <= id {
            return tally.added(13);
        }
        let piece = || Slice {
            message_id: id,
            slice_index: index as usize,
            num_slices: num as usize,
            payload: Bytes::copy_from_slice(payload),
        };
        if self.old_or_held(id) {
            return match self.renet.process_slice(piece()) {
                Ok(()) => "ignored".into(),
                Err(e) => refused(number(e)),
            };
        }
        if num == 0 {
            return tally.unfollowed(8, ZERO);
        }
        if s.pieces < num {
            return tally.added(12);
        }
        let open = self.renet.open(id);
        // a repeat changes no byte
        let fresh = open.is_none_or(|c| c.num_slices as u64 <= index || !c.has(index as usize));
        let place = match open {
            Some(c) if c.num_slices as u64 != num => return tally.unfollowed(8, OTHER),
            Some(_) if num <= index => return tally.unfollowed(8, WILD),
            Some(_) => self.places.get(&id).copied(),
            // renet answers 7 before it opens anything
            None if self.exceeds(num as usize * SLICE_SIZE) => None,
            None => match self.stores.free_lane(&s) {
                None => return tally.added(11),
                Some(_) if faulty(index, num, payload.len()) => return tally.unfollowed(8, FIRST),
                lane => lane,
            },
        };
        let answer = self.renet.process_slice(piece());
        if answer.is_ok() {
            let place = place.expect("a lane, where renet takes a piece");
            self.stores.set(place, true);
            if fresh {
                self.stores.write(place, &s, index as usize * SLICE_SIZE, payload);
            }
            self.places.insert(id, place);
        }
        taken(answer)
    }

    pub fn look(&self, tally: &mut Tally) -> String {
        if !self.stores.hold(&self.settings) {
            return tally.added(10);
        }
        let id = self.renet.oldest_pending();
        match self.renet.held(id) {
            Some(m) => message(&self.stores, &self.settings, Some(id), self.places[&id], m),
            None => "nothing".into(),
        }
    }

    pub fn take(&mut self) -> String {
        let id = self.renet.oldest_pending();
        match self.renet.receive_message() {
            Some(m) => {
                let place = self.places.remove(&id).expect("the place of a message that waited");
                self.stores.set(place, false);
                message(&self.stores, &self.settings, Some(id), place, &m)
            }
            None => "nothing".into(),
        }
    }
}

/// The receiving end of an unreliable channel.
pub struct Ru {
    pub renet: ReceiveChannelUnreliable,
    pub settings: Settings,
    pub stores: Stores,
    pub latest: u64,
    open: BTreeMap<u64, Place>,
    waiting: VecDeque<Place>,
}

impl Ru {
    pub fn new() -> Ru {
        let s = Settings::MOST;
        Ru {
            renet: ReceiveChannelUnreliable::new(0, s.memory as usize),
            settings: s,
            stores: Stores::new(),
            latest: 0,
            open: BTreeMap::new(),
            waiting: VecDeque::new(),
        }
    }

    pub fn set_up(&mut self, s: Settings, tally: &mut Tally) -> String {
        if !s.good() {
            return tally.added(9);
        }
        self.renet = ReceiveChannelUnreliable::new(0, s.memory as usize);
        self.settings = s;
        self.stores.reset();
        self.latest = 0;
        self.open.clear();
        self.waiting.clear();
        "ready".into()
    }

    fn exceeds(&self, charge: usize) -> bool {
        self.renet.max_memory_usage_bytes() < self.renet.memory_usage_bytes() + charge
    }

    /// 10, 12, Dropped, 11.
    pub fn message(&mut self, m: &[u8], tally: &mut Tally) -> String {
        let s = self.settings;
        if !self.stores.hold(&s) {
            return tally.added(10);
        }
        if SLICE_SIZE < m.len() {
            return tally.added(12);
        }
        let place = self.stores.free_cell(&s);
        if place.is_none() && !self.exceeds(m.len()) {
            return tally.added(11);
        }
        let before = self.renet.waiting();
        self.renet.process_message(Bytes::copy_from_slice(m));
        if self.renet.waiting() == before {
            return "dropped".into();
        }
        let place = place.expect("a cell, where renet takes a message");
        self.stores.set(place, true);
        self.stores.write(place, &s, 0, m);
        self.waiting.push_back(place);
        "taken".into()
    }

    /// 10, 13, 14, zero count (8), 12; a new id Dropped and 11, an open one the count (8); index and size (8).
    pub fn slice(&mut self, id: u64, index: u64, num: u64, time: u64, payload: &[u8], tally: &mut Tally) -> String {
        let s = self.settings;
        if !self.stores.hold(&s) {
            return tally.added(10);
        }
        if LIMIT <= id {
            return tally.added(13);
        }
        if time < self.latest {
            return tally.added(14);
        }
        if num == 0 {
            return tally.unfollowed(8, ZERO);
        }
        if s.pieces < num {
            return tally.added(12);
        }
        let open = self.renet.open(id);
        // a repeat changes no byte
        let fresh = open.is_none_or(|c| c.num_slices as u64 <= index || !c.has(index as usize));
        let place = match open {
            Some(c) if c.num_slices as u64 != num => return tally.unfollowed(8, OTHER),
            Some(_) if num <= index => return tally.unfollowed(8, WILD),
            Some(_) => self.open.get(&id).copied(),
            // renet drops it before it opens anything
            None if self.exceeds(num as usize * SLICE_SIZE) => None,
            None => match self.stores.free_lane(&s) {
                None => return tally.added(11),
                Some(_) if faulty(index, num, payload.len()) => return tally.unfollowed(8, FIRST),
                lane => lane,
            },
        };
        let (waiting, opened) = (self.renet.waiting(), self.renet.opened());
        let piece = Slice {
            message_id: id,
            slice_index: index as usize,
            num_slices: num as usize,
            payload: Bytes::copy_from_slice(payload),
        };
        if let Err(e) = self.renet.process_slice(piece, Duration::from_nanos(time)) {
            return refused(number(e));
        }
        let known = self.open.contains_key(&id);
        if !known && self.renet.waiting() == waiting && self.renet.opened() == opened {
            return "dropped".into();
        }
        let place = place.expect("a lane, where renet takes a piece");
        self.latest = time;
        self.stores.set(place, true);
        if fresh {
            self.stores.write(place, &s, index as usize * SLICE_SIZE, payload);
        }
        self.open.insert(id, place);
        if self.renet.open(id).is_none() {
            self.open.remove(&id);
            self.waiting.push_back(place);
        }
        "taken".into()
    }

    /// 14.
    pub fn discard(&mut self, time: u64, tally: &mut Tally) -> String {
        if time < self.latest {
            return tally.added(14);
        }
        self.latest = time;
        let before = self.renet.opened();
        self.renet.discard_incomplete_old_slices(Duration::from_nanos(time));
        let (renet, stores) = (&self.renet, &mut self.stores);
        self.open.retain(|id, place| {
            let kept = renet.open(*id).is_some();
            stores.set(*place, kept);
            kept
        });
        format!("discarded {}", before - self.renet.opened())
    }

    pub fn look(&self, tally: &mut Tally) -> String {
        if !self.stores.hold(&self.settings) {
            return tally.added(10);
        }
        match self.renet.first() {
            Some(m) => message(&self.stores, &self.settings, None, self.waiting[0], m),
            None => "nothing".into(),
        }
    }

    pub fn take(&mut self) -> String {
        match self.renet.receive_message() {
            Some(m) => {
                let place = self.waiting.pop_front().expect("the place of a message that waited");
                self.stores.set(place, false);
                message(&self.stores, &self.settings, None, place, &m)
            }
            None => "nothing".into(),
        }
    }
}

/// One reassembly, with a lane of its own.
pub struct Sc {
    pub renet: SliceConstructor,
    pub lane: Lent,
    whole: Option<Bytes>,
}

impl Sc {
    pub fn new() -> Sc {
        Sc {
            renet: SliceConstructor::new(0, 1),
            lane: Lent::new(LANE),
            whole: None,
        }
    }

    /// 13, zero count (8), 12.
    pub fn set_up(&mut self, id: u64, num: u64, tally: &mut Tally) -> String {
        if LIMIT <= id {
            return tally.added(13);
        }
        if num == 0 {
            return tally.unfollowed(8, ZERO);
        }
        if Settings::MOST.pieces < num {
            return tally.added(12);
        }
        self.renet = SliceConstructor::new(id, num as usize);
        self.whole = None;
        "ready".into()
    }

    /// 10, index and size (8).
    pub fn slice(&mut self, index: u64, payload: &[u8], tally: &mut Tally) -> String {
        let num = self.renet.num_slices;
        if self.lane.len < num * SLICE_SIZE {
            return tally.added(10);
        }
        if num as u64 <= index {
            return tally.unfollowed(8, WILD);
        }
        if let Some(m) = &self.whole {
            // renet's own receivers drop a reassembly that is whole
            tally.not_renets("a piece after the whole message");
            return match faulty(index, num as u64, payload.len()) {
                true => refused(8),
                false => format!("whole {} {}", m.len(), spell(m)),
            };
        }
        let fresh = !self.renet.has(index as usize);
        let answer = match self.renet.process_slice(index as usize, payload) {
            Err(e) => return refused(number(e)),
            Ok(whole) => whole,
        };
        if fresh {
            self.lane.write(index as usize * SLICE_SIZE, payload);
        }
        match answer {
            None => "more".into(),
            Some(m) => {
                assert!(
                    self.lane.bytes[..m.len()] == m[..],
                    "the driver's lane differs from renet's message"
                );
                let text = format!("whole {} {}", m.len(), spell(&m));
                self.whole = Some(m);
                text
            }
        }
    }
}
