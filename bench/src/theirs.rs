//! renet's side: the same work by renet's own code. Its messages are `Bytes`. `Source` says whether
//! each is made from borrowed bytes, as ours are and as renet's reader does, or was there before.

use bytes::Bytes;
use octets::{Octets, OctetsMut};
use renet::channel::reliable::{ReceiveChannelReliable, SendChannelReliable};
use renet::channel::unreliable::{ReceiveChannelUnreliable, SendChannelUnreliable};
use renet::packet::{Packet, Slice};
use std::hint::black_box;
use std::time::Duration;

const MEMORY: usize = 1_000_000;
const ALLOWANCE: u64 = 1_000_000;

#[derive(Clone, Copy, PartialEq)]
pub enum Source {
    Copied,
    Ready,
}

/// A message's bytes, and the same as renet holds them.
pub struct Message {
    pub bytes: Vec<u8>,
    ready: Bytes,
    source: Source,
}

impl Message {
    pub fn new(bytes: Vec<u8>, source: Source) -> Self {
        let ready = Bytes::copy_from_slice(&bytes);
        // a second holder, so that a clone in a timed call never changes how the bytes are held
        std::mem::forget(ready.clone());
        Message { bytes, ready, source }
    }

    fn get(&self) -> Bytes {
        match self.source {
            Source::Copied => Bytes::copy_from_slice(&self.bytes),
            Source::Ready => self.ready.clone(),
        }
    }
}

#[inline(never)]
pub fn write(packet: &Packet, out: &mut [u8]) -> usize {
    let mut b = OctetsMut::with_slice(out);
    packet.to_bytes(&mut b).unwrap_or(0)
}

#[inline(never)]
pub fn read(bytes: &[u8]) -> usize {
    let mut b = Octets::with_slice(bytes);
    match Packet::from_bytes(&mut b) {
        Ok(packet) => {
            black_box(&packet);
            b.off()
        }
        Err(_) => 0,
    }
}

fn sr_queued(count: usize, message: &Message) -> SendChannelReliable {
    let mut end = SendChannelReliable::new(0, Duration::ZERO, MEMORY);
    for _ in 0..count {
        end.send_message(message.get()).unwrap();
    }
    end
}

#[inline(never)]
pub fn sr_messages(count: usize, acks: usize, message: &Message) -> usize {
    let mut end = sr_queued(count, message);
    for id in 0..acks {
        end.process_message_ack(id as u64);
    }
    black_box(&end).memory_usage_bytes()
}

#[inline(never)]
pub fn sr_pieces(acks: usize, message: &Message) -> usize {
    let mut end = sr_queued(1, message);
    for i in 0..acks {
        end.process_slice_message_ack(0, i);
    }
    black_box(&end).memory_usage_bytes()
}

fn su_queued(count: usize, message: &Message) -> SendChannelUnreliable {
    let mut end = SendChannelUnreliable::new(0, MEMORY);
    for _ in 0..count {
        end.send_message(message.get());
    }
    end
}

#[inline(never)]
pub fn su_messages(count: usize, message: &Message) -> usize {
    let end = su_queued(count, message);
    black_box(&end).memory_usage_bytes()
}

/// Writes packets end to end; answers how many there are.
fn encode(packets: &[Packet], out: &mut [u8], table: &mut [u64]) -> usize {
    let mut at = 0;
    for (i, packet) in packets.iter().enumerate() {
        let mut b = OctetsMut::with_slice(&mut out[at..]);
        let n = packet.to_bytes(&mut b).unwrap();
        table[2 * i] = at as u64;
        table[2 * i + 1] = n as u64;
        at += n;
    }
    packets.len()
}

/// With no resend time every round sends all that waits.
#[inline(never)]
pub fn sr_rounds(count: usize, rounds: usize, message: &Message, out: &mut [u8], table: &mut [u64]) -> usize {
    let mut end = sr_queued(count, message);
    let mut packets = 0;
    for _ in 0..rounds {
        let (mut sequence, mut left) = (0, ALLOWANCE);
        let sent = end.get_packets_to_send(&mut sequence, &mut left, Duration::ZERO);
        packets = encode(&sent, out, table);
    }
    black_box(&end);
    packets
}

#[inline(never)]
pub fn su_round(count: usize, message: &Message, out: &mut [u8], table: &mut [u64]) -> usize {
    let (mut sequence, mut left) = (0, ALLOWANCE);
    let mut end = su_queued(count, message);
    let packets = end.get_packets_to_send(&mut sequence, &mut left);
    black_box(&end);
    encode(&packets, out, table)
}

#[inline(never)]
pub fn rr_messages(count: usize, takes: usize, message: &Message) -> usize {
    let mut end = ReceiveChannelReliable::new(MEMORY, true);
    for id in 0..count {
        end.process_message(message.get(), id as u64).unwrap();
    }
    for _ in 0..takes {
        black_box(end.receive_message());
    }
    black_box(&end).memory_usage_bytes()
}

#[inline(never)]
pub fn ru_messages(count: usize, takes: usize, message: &Message) -> usize {
    let mut end = ReceiveChannelUnreliable::new(0, MEMORY);
    for _ in 0..count {
        end.process_message(message.get());
    }
    for _ in 0..takes {
        black_box(end.receive_message());
    }
    black_box(&end).memory_usage_bytes()
}

fn slice(i: usize, count: usize, payload: &Message) -> Slice {
    Slice {
        message_id: 0,
        slice_index: i,
        num_slices: count,
        payload: payload.get(),
    }
}

#[inline(never)]
pub fn rr_pieces(count: usize, takes: usize, payload: &Message) -> usize {
    let mut end = ReceiveChannelReliable::new(MEMORY, true);
    for i in 0..count {
        end.process_slice(slice(i, count, payload)).unwrap();
    }
    for _ in 0..takes {
        black_box(end.receive_message());
    }
    black_box(&end).memory_usage_bytes()
}

#[inline(never)]
pub fn ru_pieces(count: usize, takes: usize, payload: &Message) -> usize {
    let mut end = ReceiveChannelUnreliable::new(0, MEMORY);
    for i in 0..count {
        end.process_slice(slice(i, count, payload), Duration::ZERO).unwrap();
    }
    for _ in 0..takes {
        black_box(end.receive_message());
    }
    black_box(&end).memory_usage_bytes()
}
