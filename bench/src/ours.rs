//! Our side: the calls of crates/bench_calls. A slice goes as a place and a length.

/// A record of the table of ranges, laid out as packet_ack's `Range`.
#[repr(C)]
#[derive(Clone, Copy, Default)]
pub struct Range {
    pub start: u64,
    pub end: u64,
}

mod calls {
    use super::Range;

    extern "C" {
        pub fn bench_write(
            out: *mut u8,
            out_len: usize,
            messages: *const u64,
            messages_len: usize,
            ranges: *const Range,
            ranges_len: usize,
            store: *const u8,
            store_len: usize,
            kind: u8,
            count: usize,
        ) -> usize;
        pub fn bench_read(
            bytes: *const u8,
            bytes_len: usize,
            messages: *mut u64,
            messages_len: usize,
            ranges: *mut Range,
            ranges_len: usize,
        ) -> usize;
        pub fn bench_sr_messages(
            count: usize,
            acks: usize,
            message: *const u8,
            message_len: usize,
            small: *mut u8,
            small_len: usize,
            lanes: *mut u8,
            lanes_len: usize,
        ) -> usize;
        pub fn bench_sr_pieces(
            acks: usize,
            message: *const u8,
            message_len: usize,
            small: *mut u8,
            small_len: usize,
            lanes: *mut u8,
            lanes_len: usize,
        ) -> usize;
        pub fn bench_su_messages(
            count: usize,
            message: *const u8,
            message_len: usize,
            small: *mut u8,
            small_len: usize,
            lanes: *mut u8,
            lanes_len: usize,
        ) -> usize;
        pub fn bench_sr_round(
            count: usize,
            rounds: usize,
            message: *const u8,
            message_len: usize,
            small: *mut u8,
            small_len: usize,
            lanes: *mut u8,
            lanes_len: usize,
            out: *mut u8,
            out_len: usize,
            table: *mut u64,
            table_len: usize,
        ) -> usize;
        pub fn bench_su_round(
            count: usize,
            message: *const u8,
            message_len: usize,
            small: *mut u8,
            small_len: usize,
            lanes: *mut u8,
            lanes_len: usize,
            out: *mut u8,
            out_len: usize,
            table: *mut u64,
            table_len: usize,
        ) -> usize;
        pub fn bench_rr_messages(
            count: usize,
            takes: usize,
            message: *const u8,
            message_len: usize,
            small: *mut u8,
            small_len: usize,
            lanes: *const u8,
            lanes_len: usize,
        ) -> usize;
        pub fn bench_rr_pieces(
            count: usize,
            takes: usize,
            payload: *const u8,
            payload_len: usize,
            small: *const u8,
            small_len: usize,
            lanes: *mut u8,
            lanes_len: usize,
        ) -> usize;
        pub fn bench_ru_messages(
            count: usize,
            takes: usize,
            message: *const u8,
            message_len: usize,
            small: *mut u8,
            small_len: usize,
            lanes: *const u8,
            lanes_len: usize,
        ) -> usize;
        pub fn bench_ru_pieces(
            count: usize,
            takes: usize,
            payload: *const u8,
            payload_len: usize,
            small: *const u8,
            small_len: usize,
            lanes: *mut u8,
            lanes_len: usize,
        ) -> usize;
    }
}

/// The memory that is lent to every call. It is made once and never cleared.
pub struct Lent {
    pub small: Vec<u8>,
    pub lanes: Vec<u8>,
    pub out: Vec<u8>,
    pub table: Vec<u64>,
    pub messages: Vec<u64>,
    pub ranges: Vec<Range>,
}

impl Lent {
    pub fn new() -> Self {
        Lent {
            small: vec![0; 64 * 1200],
            lanes: vec![0; 4 * 40 * 1200],
            out: vec![0; 100_000],
            table: vec![0; 2 * 256],
            messages: vec![0; 3 * 64],
            ranges: vec![Range::default(); 32],
        }
    }

    /// Writes the packet of a kind; the tables name its messages and ranges.
    pub fn write(&mut self, kind: u8, count: usize, store: &[u8]) -> usize {
        let (out, messages, ranges) = (&mut self.out, &self.messages, &self.ranges);
        unsafe {
            calls::bench_write(
                out.as_mut_ptr(),
                out.len(),
                messages.as_ptr(),
                messages.len(),
                ranges.as_ptr(),
                ranges.len(),
                store.as_ptr(),
                store.len(),
                kind,
                count,
            )
        }
    }

    /// Reads a packet, and fills the tables.
    pub fn read(&mut self, bytes: &[u8]) -> usize {
        let (messages, ranges) = (&mut self.messages, &mut self.ranges);
        unsafe {
            calls::bench_read(
                bytes.as_ptr(),
                bytes.len(),
                messages.as_mut_ptr(),
                messages.len(),
                ranges.as_mut_ptr(),
                ranges.len(),
            )
        }
    }

    /// Queues a message `count` times, and takes acknowledgements of the first.
    pub fn sr_messages(&mut self, count: usize, acks: usize, message: &[u8]) -> usize {
        let (small, lanes) = (&mut self.small, &mut self.lanes);
        unsafe {
            calls::bench_sr_messages(
                count,
                acks,
                message.as_ptr(),
                message.len(),
                small.as_mut_ptr(),
                small.len(),
                lanes.as_mut_ptr(),
                lanes.len(),
            )
        }
    }

    /// Queues a message, and takes acknowledgements of its first pieces.
    pub fn sr_pieces(&mut self, acks: usize, message: &[u8]) -> usize {
        let (small, lanes) = (&mut self.small, &mut self.lanes);
        unsafe {
            calls::bench_sr_pieces(
                acks,
                message.as_ptr(),
                message.len(),
                small.as_mut_ptr(),
                small.len(),
                lanes.as_mut_ptr(),
                lanes.len(),
            )
        }
    }

    /// Queues a message `count` times.
    pub fn su_messages(&mut self, count: usize, message: &[u8]) -> usize {
        let (small, lanes) = (&mut self.small, &mut self.lanes);
        unsafe {
            calls::bench_su_messages(
                count,
                message.as_ptr(),
                message.len(),
                small.as_mut_ptr(),
                small.len(),
                lanes.as_mut_ptr(),
                lanes.len(),
            )
        }
    }

    /// Queues a message `count` times, and sends all in each round; answers how many packets the last had.
    pub fn sr_rounds(&mut self, count: usize, rounds: usize, message: &[u8]) -> usize {
        let (small, lanes) = (&mut self.small, &mut self.lanes);
        let (out, table) = (&mut self.out, &mut self.table);
        unsafe {
            calls::bench_sr_round(
                count,
                rounds,
                message.as_ptr(),
                message.len(),
                small.as_mut_ptr(),
                small.len(),
                lanes.as_mut_ptr(),
                lanes.len(),
                out.as_mut_ptr(),
                out.len(),
                table.as_mut_ptr(),
                table.len(),
            )
        }
    }

    /// Queues a message `count` times, and sends all in a round; answers how many packets it had.
    pub fn su_round(&mut self, count: usize, message: &[u8]) -> usize {
        let (small, lanes) = (&mut self.small, &mut self.lanes);
        let (out, table) = (&mut self.out, &mut self.table);
        unsafe {
            calls::bench_su_round(
                count,
                message.as_ptr(),
                message.len(),
                small.as_mut_ptr(),
                small.len(),
                lanes.as_mut_ptr(),
                lanes.len(),
                out.as_mut_ptr(),
                out.len(),
                table.as_mut_ptr(),
                table.len(),
            )
        }
    }

    /// Receives a small message `count` times, and takes some.
    pub fn messages(&mut self, reliable: bool, count: usize, takes: usize, message: &[u8]) -> usize {
        let (small, lanes) = (&mut self.small, &self.lanes);
        let call = if reliable {
            calls::bench_rr_messages
        } else {
            calls::bench_ru_messages
        };
        unsafe {
            call(
                count,
                takes,
                message.as_ptr(),
                message.len(),
                small.as_mut_ptr(),
                small.len(),
                lanes.as_ptr(),
                lanes.len(),
            )
        }
    }

    /// Receives the pieces of a message, and takes it or not.
    pub fn pieces(&mut self, reliable: bool, count: usize, takes: usize, payload: &[u8]) -> usize {
        let (small, lanes) = (&self.small, &mut self.lanes);
        let call = if reliable {
            calls::bench_rr_pieces
        } else {
            calls::bench_ru_pieces
        };
        unsafe {
            call(
                count,
                takes,
                payload.as_ptr(),
                payload.len(),
                small.as_ptr(),
                small.len(),
                lanes.as_mut_ptr(),
                lanes.len(),
            )
        }
    }
}
