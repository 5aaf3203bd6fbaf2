//! A stand-in for the crate `octets`: the calls that renet's packet.rs makes, written from RFC 9000,
//! section 16 (varints: 1, 2, 4 or 8 bytes, big-endian, the length in the top two bits).
//!
//! `runs` is an addition, with the feature of that name: where the runs that were read lie in the input.
//! Each length of a varint is read and written as one number, so that speed figures are fair.

#[derive(Debug, Clone, Copy, PartialEq, Eq)]
pub struct BufferTooShortError;

type Result<T> = std::result::Result<T, BufferTooShortError>;

/// The length of the shortest form of a number. Panics if no form can say it.
pub fn varint_len(v: u64) -> usize {
    match v {
        0..=0x3f => 1,
        0x40..=0x3fff => 2,
        0x4000..=0x3fff_ffff => 4,
        0x4000_0000..=0x3fff_ffff_ffff_ffff => 8,
        _ => panic!("no varint says {v}"),
    }
}

#[cfg(feature = "runs")]
mod seen {
    use std::cell::RefCell;

    thread_local! {
        static RUNS: RefCell<Vec<(usize, usize)>> = const { RefCell::new(Vec::new()) };
    }

    /// Place and length of each run that was read since the last call.
    pub fn runs() -> Vec<(usize, usize)> {
        RUNS.with(|r| std::mem::take(&mut *r.borrow_mut()))
    }

    pub fn saw(place: usize, len: usize) {
        RUNS.with(|r| r.borrow_mut().push((place, len)));
    }
}

#[cfg(feature = "runs")]
pub use seen::runs;

/// Bytes that are read from the front on.
#[derive(Debug)]
pub struct Octets<'a> {
    buf: &'a [u8],
    off: usize,
}

impl<'a> Octets<'a> {
    pub fn with_slice(buf: &'a [u8]) -> Self {
        Octets { buf, off: 0 }
    }

    /// How many bytes were read.
    pub fn off(&self) -> usize {
        self.off
    }

    pub fn len(&self) -> usize {
        self.buf.len()
    }

    pub fn is_empty(&self) -> bool {
        self.buf.is_empty()
    }

    pub fn to_vec(&self) -> Vec<u8> {
        self.buf.to_vec()
    }

    fn take(&mut self, n: usize) -> Result<&'a [u8]> {
        let rest = &self.buf[self.off..];
        if rest.len() < n {
            return Err(BufferTooShortError);
        }
        self.off += n;
        Ok(&rest[..n])
    }

    fn array<const N: usize>(&mut self) -> Result<[u8; N]> {
        let mut a = [0; N];
        a.copy_from_slice(self.take(N)?);
        Ok(a)
    }

    pub fn get_u8(&mut self) -> Result<u8> {
        Ok(self.array::<1>()?[0])
    }

    pub fn get_u16(&mut self) -> Result<u16> {
        Ok(u16::from_be_bytes(self.array()?))
    }

    pub fn get_varint(&mut self) -> Result<u64> {
        let first = *self.buf.get(self.off).ok_or(BufferTooShortError)?;
        Ok(match first >> 6 {
            0 => u64::from(self.get_u8()?),
            1 => u64::from(self.get_u16()? & 0x3fff),
            2 => u64::from(u32::from_be_bytes(self.array()?) & 0x3fff_ffff),
            _ => u64::from_be_bytes(self.array()?) & 0x3fff_ffff_ffff_ffff,
        })
    }

    pub fn get_bytes_with_varint_length(&mut self) -> Result<Octets<'a>> {
        let len = self.get_varint()?;
        let len = usize::try_from(len).map_err(|_| BufferTooShortError)?;
        let buf = self.take(len)?;
        #[cfg(feature = "runs")]
        seen::saw(self.off - len, len);
        Ok(Octets { buf, off: 0 })
    }
}

/// Bytes that are written from the front on.
#[derive(Debug)]
pub struct OctetsMut<'a> {
    buf: &'a mut [u8],
    off: usize,
}

impl<'a> OctetsMut<'a> {
    pub fn with_slice(buf: &'a mut [u8]) -> Self {
        OctetsMut { buf, off: 0 }
    }

    /// How many bytes can still be written.
    pub fn cap(&self) -> usize {
        self.buf.len() - self.off
    }

    pub fn put_bytes(&mut self, v: &[u8]) -> Result<()> {
        if self.cap() < v.len() {
            return Err(BufferTooShortError);
        }
        self.buf[self.off..self.off + v.len()].copy_from_slice(v);
        self.off += v.len();
        Ok(())
    }

    pub fn put_u8(&mut self, v: u8) -> Result<()> {
        self.put_bytes(&[v])
    }

    pub fn put_u16(&mut self, v: u16) -> Result<()> {
        self.put_bytes(&v.to_be_bytes())
    }

    pub fn put_varint(&mut self, v: u64) -> Result<()> {
        match varint_len(v) {
            1 => self.put_u8(v as u8),
            2 => self.put_u16(v as u16 | 1 << 14),
            4 => self.put_bytes(&(v as u32 | 2 << 30).to_be_bytes()),
            _ => self.put_bytes(&(v | 3 << 62).to_be_bytes()),
        }
    }
}

#[cfg(test)]
mod tests {
    use super::*;

    // RFC 9000, A.1, and both sides of each step.
    #[test]
    fn forms() {
        let cases: [(&[u8], u64); 5] = [
            (
                &[0xc2, 0x19, 0x7c, 0x5e, 0xff, 0x14, 0xe8, 0x8c],
                151_288_809_941_952_652,
            ),
            (&[0x9d, 0x7f, 0x3e, 0x7d], 494_878_333),
            (&[0x7b, 0xbd], 15_293),
            (&[0x25], 37),
            (&[0x40, 0x25], 37),
        ];
        for (form, v) in cases {
            let mut b = Octets::with_slice(form);
            assert_eq!(b.get_varint(), Ok(v));
            assert_eq!(b.off(), form.len());
            for n in 0..form.len() {
                assert_eq!(Octets::with_slice(&form[..n]).get_varint(), Err(BufferTooShortError));
            }
        }
        for v in [0, 63, 64, 16_383, 16_384, (1 << 30) - 1, 1 << 30, (1 << 62) - 1] {
            let mut out = [0; 9];
            let mut w = OctetsMut::with_slice(&mut out);
            w.put_varint(v).unwrap();
            let used = 9 - w.cap();
            assert_eq!(used, varint_len(v));
            let mut r = Octets::with_slice(&out[..used]);
            assert_eq!((r.get_varint(), r.off()), (Ok(v), used));
        }
    }
}
