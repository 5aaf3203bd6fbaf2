//! What renet itself does in the calls that it can't be followed in, beside what document 01 answers. Each case is a
//! script and the same calls on renet, with no layer between.

use crate::session::Session;
use bytes::Bytes;
use octets::OctetsMut;
use renet::channel::reliable::{ReceiveChannelReliable, SendChannelReliable};
use renet::channel::unreliable::ReceiveChannelUnreliable;
use renet::channel::SliceConstructor;
use renet::packet::{Packet, Slice};
use std::panic::catch_unwind;
use std::time::Duration;

struct Case {
    what: &'static str,
    script: &'static str,
    renet: fn() -> String,
}

fn bytes(n: usize) -> Bytes {
    vec![0x41; n].into()
}

fn slice(message_id: u64, slice_index: usize, num_slices: usize, n: usize) -> Slice {
    Slice {
        message_id,
        slice_index,
        num_slices,
        payload: bytes(n),
    }
}

/// A sender with a small message 0 and a message 1 of two pieces.
fn sender() -> SendChannelReliable {
    let mut s = SendChannelReliable::new(0, Duration::ZERO, 10_000);
    s.send_message(bytes(1)).unwrap();
    s.send_message(bytes(2_400)).unwrap();
    s
}

fn receiver() -> ReceiveChannelReliable {
    ReceiveChannelReliable::new(10_000, true)
}

fn write(packet: Packet, room: usize) -> String {
    let mut out = vec![0xa5; room];
    let answer = packet.to_bytes(&mut OctetsMut::with_slice(&mut out));
    let changed = out.iter().filter(|b| **b != 0xa5).count();
    format!("{answer:?}, {changed} bytes changed")
}

fn ack(sequence: u64, ranges: &[(u64, u64)]) -> Packet {
    Packet::Ack {
        sequence,
        ack_ranges: ranges.iter().map(|r| r.0..r.1).collect(),
    }
}

const CASES: &[Case] = &[
    Case {
        what: "an ack of no ranges is written",
        script: "wire ack 0 0",
        renet: || write(ack(0, &[]), 64),
    },
    Case {
        what: "an ack of touching ranges is written",
        script: "wire ack 0 2 0 1 1 3",
        renet: || write(ack(0, &[(0, 1), (1, 3)]), 64),
    },
    Case {
        what: "an empty range is written",
        script: "wire ack 0 1 3 3",
        renet: || write(ack(0, &[(3, 3)]), 64),
    },
    Case {
        what: "a value at 2^62 is written (the stand-in for octets)",
        script: "wire ack 2^62 1 0 1",
        renet: || write(ack(1 << 62, &[(0, 1)]), 64),
    },
    Case {
        what: "a write that does not fit",
        script: "wire lend 192 128 9\nwire small-reliable 3 1 2 41 0 0 1 1 1 0\nwire digest",
        renet: || {
            let messages = vec![(0, bytes(1)), (1, bytes(0))];
            write(
                Packet::SmallReliable {
                    sequence: 3,
                    channel_id: 1,
                    messages,
                },
                9,
            )
        },
    },
    Case {
        what: "a small ack for a sliced message",
        script: "sr new 0 2 1 2 10000 0\nsr send 41\nsr send 41x2400\nsr ack 1",
        renet: || {
            sender().process_message_ack(1);
            "done".into()
        },
    },
    Case {
        what: "an ack of a piece for a small message",
        script: "sr new 0 2 1 2 10000 0\nsr send 41\nsr send 41x2400\nsr ack-slice 0 0",
        renet: || {
            sender().process_slice_message_ack(0, 0);
            "done".into()
        },
    },
    Case {
        what: "an ack of a piece with a wild index",
        script: "sr new 0 2 1 2 10000 0\nsr send 41\nsr send 41x2400\nsr ack-slice 1 2",
        renet: || {
            sender().process_slice_message_ack(1, 2);
            "done".into()
        },
    },
    Case {
        what: "a size too large to add",
        script: "sr new 0 2 1 2 10000 0\nsr send 41\nsr can-send 2^64-1",
        renet: || format!("{}", sender().can_send_message(usize::MAX)),
    },
    Case {
        what: "a round at a time before that of the last one",
        script: "sr new 0 2 1 2 10000 0\nsr send 41\nsr send 41x2400\nsr round 0 5 5000\nsr round 3 4 5000",
        renet: || {
            let mut s = sender();
            s.get_packets_to_send(&mut 0, &mut 5_000, Duration::from_nanos(5));
            format!(
                "{} packets",
                s.get_packets_to_send(&mut 3, &mut 5_000, Duration::from_nanos(4)).len()
            )
        },
    },
    Case {
        what: "a discarding at a time before that of a piece",
        script: "ru slice 0 0 2 5 41x1200\nru discard 4",
        renet: || {
            let mut r = ReceiveChannelUnreliable::new(0, 10_000);
            r.process_slice(slice(0, 0, 2, 1_200), Duration::from_nanos(5)).unwrap();
            r.discard_incomplete_old_slices(Duration::from_nanos(4));
            format!("{} open", r.opened())
        },
    },
    Case {
        what: "a piece with num_slices 0",
        script: "rr new 2 1 4 10000\nrr slice 0 0 0 41",
        renet: || format!("{:?}", receiver().process_slice(slice(0, 0, 0, 1))),
    },
    Case {
        what: "a piece with a wild index",
        script: "rr new 2 1 4 10000\nrr slice 0 2 2 41x1200",
        renet: || format!("{:?}", receiver().process_slice(slice(0, 2, 2, 1_200))),
    },
    Case {
        what: "a piece whose num_slices differs from the open one",
        script: "rr new 2 1 4 10000\nrr slice 0 0 2 41x1200\nrr slice 0 1 3 41",
        renet: || {
            let mut r = receiver();
            r.process_slice(slice(0, 0, 2, 1_200)).unwrap();
            let answer = r.process_slice(slice(0, 1, 3, 1));
            format!("{answer:?}; usage {}", r.memory_usage_bytes())
        },
    },
    Case {
        what: "a faulty first piece",
        script: "rr new 2 1 4 10000\nrr slice 0 0 2 41",
        renet: || {
            let mut r = receiver();
            let answer = r.process_slice(slice(0, 0, 2, 1));
            format!("{answer:?}; usage {}", r.memory_usage_bytes())
        },
    },
    Case {
        what: "a small message under an open id",
        script: "rr new 2 1 4 10000\nrr slice 0 0 2 41x1200\nrr message 0 41\nrr take",
        renet: || {
            let mut r = receiver();
            r.process_slice(slice(0, 0, 2, 1_200)).unwrap();
            let answer = r.process_message(bytes(1), 0);
            let taken = r.receive_message().map(|m| m.len());
            format!(
                "{answer:?}, then a message of {taken:?} bytes; usage {} for ever",
                r.memory_usage_bytes()
            )
        },
    },
    Case {
        what: "a piece after the whole message, in the collector alone",
        script: "sc new 0 1\nsc slice 0 41\nsc slice 0 41",
        renet: || {
            let mut c = SliceConstructor::new(0, 1);
            c.process_slice(0, b"A").unwrap();
            format!("{:?}", c.process_slice(0, b"A"))
        },
    },
];

/// Each case: the answer of document 01, and what renet does.
pub fn tell() {
    std::panic::set_hook(Box::new(|_| {}));
    for case in CASES {
        println!("{}", case.what);
        case.script.lines().for_each(|line| println!("  | {line}"));
        let answers = Session::answers(case.script.as_bytes()).0;
        println!("  here:  {}", answers.lines().last().unwrap_or(""));
        let told = catch_unwind(case.renet).unwrap_or_else(|panic| {
            let text = panic.downcast_ref::<String>().map(String::as_str);
            format!(
                "panics: {}",
                text.or(panic.downcast_ref::<&str>().copied()).unwrap_or("")
            )
        });
        println!("  renet: {told}");
    }
}
