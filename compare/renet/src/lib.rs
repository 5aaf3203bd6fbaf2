//! renet's own packet.rs, error.rs and channel/*.rs, unchanged: each file is included where it lies.
//!
//! Beside each file stands what the driver must see of private fields, and a copy of a sender, by
//! which a round can be undone. Nothing here decides anything. channel/mod.rs holds the names of the
//! three files and a configuration that isn't used; the names stand below.
#![allow(dead_code)]

pub mod error {
    include!(concat!(env!("RENET_SOURCE"), "/error.rs"));
}

pub mod packet {
    include!(concat!(env!("RENET_SOURCE"), "/packet.rs"));
}

pub mod channel {
    pub use slice_constructor::SliceConstructor;

    pub mod slice_constructor {
        include!(concat!(env!("RENET_SOURCE"), "/channel/slice_constructor.rs"));

        impl SliceConstructor {
            /// Whether piece i is here.
            pub fn has(&self, i: usize) -> bool {
                self.received[i]
            }
        }
    }

    pub mod reliable {
        include!(concat!(env!("RENET_SOURCE"), "/channel/reliable.rs"));

        impl SendChannelReliable {
            pub fn memory_usage_bytes(&self) -> usize {
                self.memory_usage_bytes
            }

            pub fn next_id(&self) -> u64 {
                self.next_reliable_message_id
            }

            /// How many pieces the unacknowledged message with an id has; 0 if it is small.
            pub fn pieces_of(&self, id: u64) -> Option<usize> {
                self.unacked_messages.get(&id).map(|m| match m {
                    UnackedMessage::Small { .. } => 0,
                    UnackedMessage::Sliced { num_slices, .. } => *num_slices,
                })
            }

            pub fn copy(&self) -> Self {
                let messages = self.unacked_messages.iter();
                Self {
                    channel_id: self.channel_id,
                    unacked_messages: messages.map(|(id, m)| (*id, m.copy())).collect(),
                    next_reliable_message_id: self.next_reliable_message_id,
                    resend_time: self.resend_time,
                    max_memory_usage_bytes: self.max_memory_usage_bytes,
                    memory_usage_bytes: self.memory_usage_bytes,
                }
            }
        }

        impl UnackedMessage {
            fn copy(&self) -> Self {
                match self {
                    Self::Small { message, last_sent } => Self::Small {
                        message: message.clone(),
                        last_sent: *last_sent,
                    },
                    Self::Sliced {
                        message,
                        num_slices,
                        num_acked_slices,
                        next_slice_to_send,
                        acked,
                        last_sent,
                    } => Self::Sliced {
                        message: message.clone(),
                        num_slices: *num_slices,
                        num_acked_slices: *num_acked_slices,
                        next_slice_to_send: *next_slice_to_send,
                        acked: acked.clone(),
                        last_sent: last_sent.clone(),
                    },
                }
            }
        }

        impl ReceiveChannelReliable {
            pub fn memory_usage_bytes(&self) -> usize {
                self.memory_usage_bytes
            }

            pub fn max_memory_usage_bytes(&self) -> usize {
                self.max_memory_usage_bytes
            }

            pub fn oldest_pending(&self) -> u64 {
                self.oldest_pending_message_id
            }

            /// The whole message with an id.
            pub fn held(&self, id: u64) -> Option<&Bytes> {
                self.messages.get(&id)
            }

            /// The open message with an id.
            pub fn open(&self, id: u64) -> Option<&SliceConstructor> {
                self.slices.get(&id)
            }
        }
    }

    pub mod unreliable {
        include!(concat!(env!("RENET_SOURCE"), "/channel/unreliable.rs"));

        impl SendChannelUnreliable {
            pub fn memory_usage_bytes(&self) -> usize {
                self.memory_usage_bytes
            }

            pub fn waiting(&self) -> usize {
                self.unreliable_messages.len()
            }

            pub fn next_sliced_id(&self) -> u64 {
                self.sliced_message_id
            }

            pub fn copy(&self) -> Self {
                Self {
                    channel_id: self.channel_id,
                    unreliable_messages: self.unreliable_messages.clone(),
                    sliced_message_id: self.sliced_message_id,
                    max_memory_usage_bytes: self.max_memory_usage_bytes,
                    memory_usage_bytes: self.memory_usage_bytes,
                }
            }
        }

        impl ReceiveChannelUnreliable {
            pub fn memory_usage_bytes(&self) -> usize {
                self.memory_usage_bytes
            }

            pub fn max_memory_usage_bytes(&self) -> usize {
                self.max_memory_usage_bytes
            }

            pub fn waiting(&self) -> usize {
                self.messages.len()
            }

            pub fn first(&self) -> Option<&Bytes> {
                self.messages.front()
            }

            /// The open message with an id.
            pub fn open(&self, id: u64) -> Option<&SliceConstructor> {
                self.slices.get(&id)
            }

            pub fn opened(&self) -> usize {
                self.slices.len()
            }
        }
    }
}
