//! A plain converter: it makes all the tests of the library's, and prints the same bytes. It writes while it reads, and begins anew where a
//! line is refused.

/// The most bytes of a listing, and of a line before its line feed.
const LISTING: usize = 65_536;
const LINE: usize = 512;

/// The line that is refused, and the cause.
type Refusal = (usize, u32);

#[derive(Clone, Copy)]
enum Edition {
    First,
    Second,
}

/// The fields of a line that are left; none where the last was taken.
struct Fields<'a>(Option<&'a [u8]>);

pub fn convert(listing: &[u8], out: &mut Vec<u8>) {
    out.clear();
    if let Err((line, cause)) = converted(listing, out) {
        *out = format!("refused,{line},{cause}\n").into_bytes();
    }
}

fn converted(listing: &[u8], out: &mut Vec<u8>) -> Result<(), Refusal> {
    if listing.len() > LISTING {
        return Err((1, 11));
    }
    let mut lines = listing.split_inclusive(|byte| *byte == b'\n').zip(1..);
    let (first, _) = lines.next().ok_or((1, 9))?;
    let edition = match ended(first, 1)? {
        b"opstore,1" => Edition::First,
        b"opstore,2" => Edition::Second,
        _ => return Err((1, 9)),
    };
    out.extend_from_slice(match edition {
        Edition::First => b"opstore,2\n",
        Edition::Second => b"opstore,1\n",
    });
    let mut too_long = None;
    for (line, number) in lines {
        let (text, before) = (ended(line, number)?, out.len());
        put(edition, text, out).map_err(|cause| (number, cause))?;
        if out.len() - before > LINE + 1 {
            too_long = too_long.or(Some(number));
        }
    }
    match too_long {
        _ if out.len() > LISTING => Err((1, 11)),
        Some(number) => Err((number, 11)),
        None => Ok(()),
    }
}

/// A line without its line feed, if it has one and isn't too long.
fn ended(line: &[u8], number: usize) -> Result<&[u8], Refusal> {
    line.strip_suffix(b"\n").filter(|text| text.len() <= LINE).ok_or((number, 11))
}

/// Tests a line, and writes it converted.
fn put(edition: Edition, line: &[u8], out: &mut Vec<u8>) -> Result<(), u32> {
    let mut fields = Fields(Some(line));
    let letter = fields.next().unwrap_or_default();
    fields.read(letter, edition).filter(|()| fields.0.is_none()).ok_or(10_u32)?;
    match (letter, edition) {
        (b"i", _) => return Err(20),
        (b"b", Edition::First) => {
            let region = field_end(line, 2);
            out.extend_from_slice(&line[..region]);
            out.extend_from_slice(&line[field_end(line, region + 1)..]);
        }
        (b"b", Edition::Second) => {
            let (front, rest) = line.split_at(field_end(line, 2));
            out.extend_from_slice(front);
            out.extend_from_slice(b",0");
            out.extend_from_slice(rest);
        }
        _ => out.extend_from_slice(line),
    }
    out.push(b'\n');
    Ok(())
}

/// Where the field that begins here ends.
fn field_end(line: &[u8], start: usize) -> usize {
    line[start..].iter().position(|byte| *byte == b',').map_or(line.len(), |length| start + length)
}

impl<'a> Fields<'a> {
    fn next(&mut self) -> Option<&'a [u8]> {
        let rest = self.0?;
        let end = field_end(rest, 0);
        self.0 = rest.get(end + 1..);
        Some(&rest[..end])
    }

    /// What a line of this letter has behind it.
    fn read(&mut self, letter: &[u8], edition: Edition) -> Option<()> {
        match (letter, edition) {
            (b"o", _) => self.operation(),
            (b"b", Edition::First) => self.numbers(3)?.list(),
            (b"b", Edition::Second) => self.numbers(2)?.list(),
            (b"a", _) | (b"i", Edition::Second) => self.one_of(&[b"o", b"b"])?.numbers(4).map(|_| ()),
            (b"s", _) => self.numbers(3).map(|_| ()),
            (b"q", _) => self.question(),
            _ => None,
        }
    }

    fn operation(&mut self) -> Option<()> {
        self.number()?;
        let parent = self.next()?;
        if parent != b"-" {
            number(parent, u32::MAX.into())?;
        }
        self.numbers(2)?;
        (0..3).try_for_each(|_| self.list())
    }

    fn question(&mut self) -> Option<()> {
        self.one_of(&[b"o", b"b", b"r"])?.numbers(2)?.one_of(&[b"0", b"1"])?;
        number(self.next()?, u64::MAX).map(|_| ())
    }

    fn one_of(&mut self, words: &[&[u8; 1]]) -> Option<&mut Fields<'a>> {
        let field = self.next()?;
        words.iter().any(|word| field == *word).then_some(self)
    }

    fn number(&mut self) -> Option<u64> {
        number(self.next()?, u32::MAX.into())
    }

    fn numbers(&mut self, count: u64) -> Option<&mut Fields<'a>> {
        (0..count).try_for_each(|_| self.number().map(|_| ()))?;
        Some(self)
    }

    fn list(&mut self) -> Option<()> {
        let count = self.number()?;
        self.numbers(count).map(|_| ())
    }
}

/// A number up to a limit, without sign or leading zero.
fn number(field: &[u8], limit: u64) -> Option<u64> {
    if field.is_empty() || field.len() > 1 && field[0] == b'0' {
        return None;
    }
    let number = field.iter().try_fold(0_u64, |number, byte| {
        let digit = byte.is_ascii_digit().then(|| u64::from(byte - b'0'))?;
        number.checked_mul(10)?.checked_add(digit)
    });
    number.filter(|number| *number <= limit)
}

#[cfg(test)]
mod tests {
    use super::*;

    const LISTINGS: [&str; 2] = [
        "opstore,1\no,7,-,5,1,1,3,0,0\nb,0,42,5,2,3,4\na,b,0,1,63,9\ns,0,0,0\nq,r,0,0,1,18446744073709551615\n",
        "opstore,2\no,7,0,5,1,1,3,0,0\nb,0,5,2,3,4\ni,b,0,1,63,9\nb,10,5,0\nq,b,0,0,0,0\n",
    ];

    fn same(listing: &[u8]) {
        let mut out = Vec::new();
        convert(listing, &mut out);
        assert_eq!(out, warzhigo::convert(listing), "{}", listing.escape_ascii());
    }

    /// Each byte another one, and none: what is refused, and what is not.
    #[test]
    fn damaged_listings_are_converted_as_by_ours() {
        for listing in LISTINGS {
            same(listing.as_bytes());
            for at in 0..listing.len() {
                for byte in 0..=255 {
                    let mut damaged = listing.as_bytes().to_vec();
                    damaged[at] = byte;
                    same(&damaged);
                }
                same(&listing.as_bytes()[..at]);
                same([&listing[..at], &listing[at + 1..]].concat().as_bytes());
            }
        }
    }

    #[test]
    fn long_listings_are_converted_as_by_ours() {
        let line = |digits: usize| format!("b,0,5,{}{}\n", 240, ",12".repeat(digits) + &",0".repeat(240 - digits));
        for digits in 18..26 {
            same(format!("opstore,2\n{}{}", line(digits), line(0)).as_bytes());
            same(format!("opstore,2\n{}x\n", line(digits)).as_bytes());
            same(format!("opstore,1\n{}", line(digits).replacen(",0,", ",0,7,", 1)).as_bytes());
        }
        // 65,386 bytes, 65,530 and 65,538: with labels, 75 blocks make 65,536 of the first
        for lines in [8172, 8190, 8191] {
            for blocks in [0, 74, 75, 76] {
                same(format!("opstore,2\n{}{}", "b,0,5,0\n".repeat(blocks), "s,0,0,0\n".repeat(lines - blocks)).as_bytes());
            }
        }
    }
}
