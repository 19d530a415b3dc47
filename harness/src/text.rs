//! Bytes: the lines of a text, their keys and numbers, and the printed refusal.

/// 'At most 65,536 bytes, a session's steps counted in.'
pub const TEXT_MOST: usize = 65_536;

/// `refused=N,D`, and the faulty line as a part of the text, without its LF.
#[derive(Clone, Copy, Debug, PartialEq, Eq)]
pub struct Refusal<'t> {
    pub number: i64,
    pub value: i64,
    pub part: &'t [u8],
}

impl<'t> Refusal<'t> {
    /// A refusal that names no line: its part is empty.
    pub const fn plain(number: i64, value: i64) -> Self {
        Refusal { number, value, part: &[] }
    }

    /// 'A step refused by 1 or 2 ends the program; other refusals go on.'
    pub fn ends_session(&self) -> bool {
        self.number <= 2
    }

    pub fn print(&self, out: &mut Vec<u8>) {
        out.extend_from_slice(b"refused=");
        write_number(out, self.number);
        out.push(b',');
        write_number(out, self.value);
        out.push(b'\n');
    }
}

/// A text that is read line by line.
pub struct Lines<'t> {
    rest: &'t [u8],
    read: i64,
}

impl<'t> Lines<'t> {
    /// 'Length comes first': 1,0 for a text that is too long.
    pub fn of(text: &'t [u8]) -> Result<Self, Refusal<'t>> {
        if text.len() > TEXT_MOST {
            return Err(Refusal::plain(1, 0));
        }
        Ok(Lines { rest: text, read: 0 })
    }

    pub fn is_empty(&self) -> bool {
        self.rest.is_empty()
    }

    /// The next line. One that is missing, or that no LF ends, is refused by 1 under the number it would have.
    pub fn next_line(&mut self) -> Result<Line<'t>, Refusal<'t>> {
        self.read += 1;
        let Some(end) = self.rest.iter().position(|&byte| byte == b'\n') else {
            return Err(Refusal { number: 1, value: self.read, part: self.rest });
        };
        let bytes = &self.rest[..end];
        self.rest = &self.rest[end + 1..];
        Ok(Line { number: self.read, bytes })
    }

    /// Refuses by 1 a text that goes on after its last line.
    pub fn end(&mut self) -> Result<(), Refusal<'t>> {
        if self.is_empty() {
            return Ok(());
        }
        Err(self.next_line()?.refused(1))
    }
}

/// A line without its LF.
#[derive(Clone, Copy)]
pub struct Line<'t> {
    pub number: i64,
    pub bytes: &'t [u8],
}

impl<'t> Line<'t> {
    pub fn refused(&self, number: i64) -> Refusal<'t> {
        Refusal { number, value: self.number, part: self.bytes }
    }

    /// What follows the key, which is given with its `=`.
    pub fn value(&self, key: &[u8]) -> Result<&'t [u8], Refusal<'t>> {
        self.bytes.strip_prefix(key).ok_or(self.refused(1))
    }

    /// The number that these bytes of the line write: 1 if they lack the form, 2 if it lies outside the range.
    pub fn ranged(&self, bytes: &[u8], least: i64, most: i64) -> Result<i64, Refusal<'t>> {
        let n = read_number(bytes).ok_or(self.refused(1))?;
        if n < least || most < n {
            return Err(self.refused(2));
        }
        Ok(n)
    }

    /// The whole line `key=number`.
    pub fn number(&self, key: &[u8], least: i64, most: i64) -> Result<i64, Refusal<'t>> {
        self.ranged(self.value(key)?, least, most)
    }
}

/// Outside every range of the document, with room for one digit more.
const FAR: i64 = 900_000_000_000_000_000;

/// 'Numbers are decimal, without plus, leading zeros or `-0`; any count of digits is well formed.'
/// A number beyond FAR is read as FAR.
pub fn read_number(bytes: &[u8]) -> Option<i64> {
    let (negative, digits) = match bytes {
        [b'-', digits @ ..] => (true, digits),
        digits => (false, digits),
    };
    match digits {
        [] => return None,
        [b'0'] if !negative => return Some(0),
        [b'0', ..] => return None,
        _ => {}
    }
    let mut n = 0;
    for &digit in digits {
        if !digit.is_ascii_digit() {
            return None;
        }
        n = (n * 10 + i64::from(digit - b'0')).min(FAR);
    }
    Some(if negative { -n } else { n })
}

pub fn write_number(out: &mut Vec<u8>, n: i64) {
    let mut digits = [0; 20];
    let mut at = digits.len();
    let mut rest = n.unsigned_abs();
    loop {
        at -= 1;
        digits[at] = b'0' + (rest % 10) as u8;
        rest /= 10;
        if rest == 0 {
            break;
        }
    }
    if n < 0 {
        out.push(b'-');
    }
    out.extend_from_slice(&digits[at..]);
}

/// The line `key=number`, the key given with its `=`.
pub fn write_line(out: &mut Vec<u8>, key: &[u8], n: i64) {
    out.extend_from_slice(key);
    write_number(out, n);
    out.push(b'\n');
}

#[cfg(test)]
mod tests {
    use super::*;

    #[test]
    fn numbers_have_one_form() {
        for good in ["0", "7", "-7", "10", "123456789012345678", "-1000000000"] {
            assert_eq!(read_number(good.as_bytes()), Some(good.parse().unwrap()));
            let mut out = Vec::new();
            write_number(&mut out, good.parse().unwrap());
            assert_eq!(out, good.as_bytes());
        }
        for bad in ["", "-", "-0", "+5", "05", "-05", "00", " 5", "5 ", "5\r", "0x5", "1-", "--1"] {
            assert_eq!(read_number(bad.as_bytes()), None, "{bad}");
        }
        let far = "9".repeat(1000);
        assert!(read_number(far.as_bytes()).unwrap() > 100_000_000_000_000_000);
        assert!(read_number(format!("-{far}").as_bytes()).unwrap() < -100_000_000_000_000_000);
        assert_eq!(read_number(format!("{far}x").as_bytes()), None);
    }
}
