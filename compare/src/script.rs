//! Lines taken apart, and bytes spelt out: docs/SCRIPT.md, "Lines" and "Bad lines".

pub const LINE: usize = 4_096;
pub const BYTES: usize = 49_152;
pub const WORDS: usize = 192;

/// Shorter stretches are printed byte by byte.
const STRETCH: usize = 8;

/// Why a line is bad.
pub type Bad = String;

/// The words of a line before its comment.
pub fn words(line: &[u8]) -> Vec<&[u8]> {
    let end = line.iter().position(|&c| c == b'#').unwrap_or(line.len());
    let parts = line[..end].split(|c| b" \t\r".contains(c));
    parts.filter(|w| !w.is_empty()).collect()
}

/// The arguments of a call, read from the left.
pub struct Args<'a> {
    words: &'a [&'a [u8]],
    next: usize,
}

impl<'a> Args<'a> {
    pub fn new(words: &'a [&'a [u8]]) -> Self {
        Args { words, next: 0 }
    }

    fn bad<T>(&self, why: &str) -> Result<T, Bad> {
        Err(format!("argument {}: {why}", self.next))
    }

    fn word(&mut self) -> Result<&'a [u8], Bad> {
        self.next += 1;
        match self.words.get(self.next - 1) {
            Some(w) => Ok(w),
            None => self.bad("missing"),
        }
    }

    pub fn number(&mut self) -> Result<u64, Bad> {
        let w = self.word()?;
        number(w).or_else(|why| self.bad(why))
    }

    /// A number that is at most so large.
    pub fn most(&mut self, most: u64) -> Result<u64, Bad> {
        match self.number()? {
            v if v <= most => Ok(v),
            _ => self.bad("too large"),
        }
    }

    pub fn bytes(&mut self) -> Result<Vec<u8>, Bad> {
        let w = self.word()?;
        bytes(w).or_else(|why| self.bad(why))
    }

    /// All that is left, as words of a table.
    pub fn table(&mut self) -> Result<Vec<u64>, Bad> {
        let mut table = vec![];
        while self.next < self.words.len() && table.len() < WORDS {
            table.push(self.number()?);
        }
        Ok(table)
    }

    /// Nothing more is expected.
    pub fn end(&mut self) -> Result<(), Bad> {
        if self.next < self.words.len() {
            self.next += 1;
            return self.bad("one too many");
        }
        Ok(())
    }
}

/// A number of decimal digits alone.
fn digits(s: &[u8]) -> Result<u64, &'static str> {
    if s.is_empty() || !s.iter().all(u8::is_ascii_digit) {
        return Err("not a number");
    }
    let ten = |v: u64, c: &u8| v.checked_mul(10)?.checked_add(u64::from(c - b'0'));
    s.iter().try_fold(0, ten).ok_or("too large")
}

fn number(s: &[u8]) -> Result<u64, &'static str> {
    let Some(power) = s.strip_prefix(b"2^") else {
        return digits(s);
    };
    let sign = power.iter().position(|c| b"+-".contains(c));
    let (k, d) = match sign {
        Some(i) => (&power[..i], &power[i + 1..]),
        None => (power, &b"0"[..]),
    };
    // the form of both first, then their sizes
    let (k, d) = (digits(k), digits(d));
    if k == Err("not a number") || d == Err("not a number") {
        return Err("not a number");
    }
    let (k, d) = (k?, d?);
    if k > 64 {
        return Err("too large");
    }
    let whole = 1u128 << k;
    let value = match sign.map(|i| power[i]) {
        Some(b'-') => whole.checked_sub(u128::from(d)).ok_or("not a number")?,
        _ => whole + u128::from(d),
    };
    u64::try_from(value).map_err(|_| "too large")
}

fn hex(c: u8) -> Option<u8> {
    match c {
        b'0'..=b'9' => Some(c - b'0'),
        b'a'..=b'f' => Some(c - b'a' + 10),
        _ => None,
    }
}

/// The byte that follows in a stretch that counts up.
fn next(b: u8) -> u8 {
    match b {
        0xfa | 0xff => 0,
        _ => b + 1,
    }
}

pub fn bytes(s: &[u8]) -> Result<Vec<u8>, &'static str> {
    let mut out = vec![];
    if s == b"-" {
        return Ok(out);
    }
    for part in s.split(|&c| c == b'.') {
        add_part(&mut out, part)?;
    }
    Ok(out)
}

fn add_part(out: &mut Vec<u8>, part: &[u8]) -> Result<(), &'static str> {
    const NOT: &str = "not bytes";
    const MANY: &str = "too many bytes";
    let run = part.len() > 2 && b"x~".contains(&part[2]);
    let head = if run { &part[..2] } else { part };
    if head.is_empty() || head.len() % 2 == 1 {
        return Err(NOT);
    }
    let pair = |p: &[u8]| Some(hex(p[0])? << 4 | hex(p[1])?);
    let plain: Option<Vec<u8>> = head.chunks(2).map(pair).collect();
    let plain = plain.ok_or(NOT)?;
    let times = match run {
        true => digits(&part[3..]).map_err(|why| if why == "too large" { MANY } else { NOT })?,
        false => plain.len() as u64,
    };
    if times > (BYTES - out.len()) as u64 {
        return Err(MANY);
    }
    if !run {
        out.extend(plain);
        return Ok(());
    }
    let mut b = plain[0];
    for _ in 0..times {
        out.push(b);
        b = if part[2] == b'~' { next(b) } else { b };
    }
    Ok(())
}

/// How many bytes from the front on go on as a rule says.
fn stretch(s: &[u8], rule: impl Fn(u8) -> u8) -> usize {
    let same = s.windows(2).take_while(|w| w[1] == rule(w[0]));
    same.count() + 1
}

/// Bytes in the spelling of an argument.
pub fn spell(s: &[u8]) -> String {
    const DIGITS: &[u8; 16] = b"0123456789abcdef";
    if s.is_empty() {
        return "-".into();
    }
    let mut text = String::with_capacity(32);
    let mut at = 0;
    let mut plain = false;
    while at < s.len() {
        let b = s[at];
        let equal = stretch(&s[at..], |b| b);
        let up = stretch(&s[at..], next);
        let (sign, n) = if equal >= STRETCH { ('x', equal) } else { ('~', up) };
        let run = n >= STRETCH;
        if at > 0 && !(run == false && plain) {
            text.push('.');
        }
        text.push(DIGITS[usize::from(b >> 4)] as char);
        text.push(DIGITS[usize::from(b & 15)] as char);
        if run {
            text.push(sign);
            text.push_str(&n.to_string());
        }
        at += if run { n } else { 1 };
        plain = !run;
    }
    text
}

#[cfg(test)]
mod tests {
    use super::*;

    #[test]
    fn numbers() {
        let max = u64::MAX;
        for (s, v) in [
            ("37", 37),
            ("007", 7),
            ("2^0", 1),
            ("2^62-1", (1 << 62) - 1),
            ("2^62+1", (1 << 62) + 1),
        ] {
            assert_eq!(number(s.as_bytes()), Ok(v));
        }
        for s in ["18446744073709551615", "2^64-1", "2^63+9223372036854775807"] {
            assert_eq!(number(s.as_bytes()), Ok(max));
        }
        for s in [
            "18446744073709551616",
            "2^64",
            "2^65",
            "2^99999999999999999999",
            "2^63+9223372036854775808",
            "2^64-18446744073709551616",
        ] {
            assert_eq!(number(s.as_bytes()), Err("too large"), "{s}");
        }
        for s in [
            "",
            "-1",
            "x",
            "3^2",
            "2^",
            "2^-1",
            "2^3-9",
            "2^3-",
            "2^3-1-1",
            "1e3",
            "2^99999999999999999999-x",
        ] {
            assert_eq!(number(s.as_bytes()), Err("not a number"), "{s}");
        }
    }

    #[test]
    fn spellings() {
        for s in [
            "-",
            "00",
            "00ff41",
            "41x8",
            "00~8",
            "41x48000",
            "00~48000",
            "f8~8",
            "0041.07x9.41",
            "41x8.42x8",
            "41414141414141",
        ] {
            assert_eq!(spell(&bytes(s.as_bytes()).unwrap()), s);
        }
        assert_eq!(bytes(b"f9~4").unwrap(), [0xf9, 0xfa, 0, 1]);
        assert_eq!(bytes(b"fe~4").unwrap(), [0xfe, 0xff, 0, 1]);
        assert_eq!(bytes(b"41x0").unwrap(), []);
        assert_eq!(bytes(b"00x49152").unwrap().len(), BYTES);
        for s in [
            "0", "000", "0g", "AA", "", ".", "00.", ".00", "--", "00x", "00x-1", "x3", "0x3", "0000x3", "00~", "00x1x1",
        ] {
            assert_eq!(bytes(s.as_bytes()), Err("not bytes"), "{s}");
        }
        for s in [
            "00x49153",
            "00x49152.00",
            "00.00x49152",
            "00x99999999999999999999",
            "00x99999.zz",
        ] {
            assert_eq!(bytes(s.as_bytes()), Err("too many bytes"), "{s}");
        }
        assert_eq!(bytes(b"00x99999z"), Err("not bytes"));
    }
}
