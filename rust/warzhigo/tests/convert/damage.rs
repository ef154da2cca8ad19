//! Listings with damage at random.

use crate::common::converter_model::Edition;
use crate::common::numbers::Random;
use crate::drawn::Drawn;

/// Bytes that mean something in a listing, and some that don't.
const BYTES: &[u8] = b"0123456789,,,---oabisqrx \n\n\r\0\xc3\xff";

/// Fields in place of numbers: at limits, past them, and others that are none.
const FIELDS: [&str; 13] =
    ["0", "1", "4294967295", "4294967296", "18446744073709551615", "18446744073709551616", "00", "07", "+7", "-", "", "o", "7 "];

pub struct Damage {
    edition: Edition,
    random: Random,
    lines: Vec<Vec<u8>>,
}

impl Damage {
    /// A listing with damage in one to three places.
    pub fn of(drawn: &Drawn, seed: u64, n: u32) -> Vec<u8> {
        let lines = drawn.lines.iter().map(|line| line.clone().into_bytes()).collect();
        let mut damage = Damage { edition: drawn.edition, random: Random::new(seed << 8 | u64::from(n)), lines };
        for _ in 0..damage.random.pick(&[1, 1, 1, 2, 3]) {
            damage.once();
        }
        damage.lines.concat()
    }

    fn once(&mut self) {
        match self.random.below(18) {
            0 | 1 => self.byte(),
            2 | 3 => self.field(),
            4 => self.cut(),
            5 => self.comma(),
            6 => self.moved(),
            7 => self.header(),
            8..12 => self.long(),
            12 | 13 => self.inherent(),
            14 => self.letter(),
            _ => self.end(),
        }
    }

    /// One of the lines, mostly not the first.
    fn any(&mut self) -> usize {
        let first = if self.random.chance(95) { 1 } else { 0 };
        let last = self.lines.len().saturating_sub(1);
        (first + self.random.below(last as u32) as usize).min(last)
    }

    /// A byte changed, put in or taken out.
    fn byte(&mut self) {
        let line = self.any();
        let Some(line) = self.lines.get_mut(line).filter(|line| !line.is_empty()) else { return };
        let at = self.random.below(line.len() as u32) as usize;
        match self.random.below(4) {
            0 => line[at] ^= 1 << self.random.below(8),
            1 => line[at] = self.random.pick(BYTES),
            2 => line.insert(at, self.random.pick(BYTES)),
            _ => {
                line.remove(at);
            }
        }
    }

    /// A field in place of another, put in or taken out.
    fn field(&mut self) {
        let line = self.any();
        let Some(line) = self.lines.get_mut(line) else { return };
        let text = String::from_utf8_lossy(line).trim_end_matches('\n').to_string();
        let mut fields: Vec<&str> = text.split(',').collect();
        let at = self.random.below(fields.len() as u32) as usize;
        match self.random.below(4) {
            0 => fields.insert(at, self.random.pick(&FIELDS)),
            1 if fields.len() > 1 => {
                fields.remove(at);
            }
            _ => fields[at] = self.random.pick(&FIELDS),
        }
        *line = format!("{}\n", fields.join(",")).into_bytes();
    }

    /// A line is cut, and mostly still ends.
    fn cut(&mut self) {
        let (at, ends) = (self.any(), self.random.chance(70));
        let Some(line) = self.lines.get_mut(at) else { return };
        line.truncate(self.random.below(line.len() as u32) as usize);
        line.extend(ends.then_some(b'\n'));
    }

    /// A line has a comma at its end.
    fn comma(&mut self) {
        let at = self.any();
        if let Some(line) = self.lines.get_mut(at) {
            line.pop();
            line.extend(b",\n");
        }
    }

    /// A line is gone, is there twice, or stands elsewhere.
    fn moved(&mut self) {
        let (from, to) = (self.any(), self.any());
        let Some(line) = self.lines.get(from).cloned() else { return };
        match self.random.below(3) {
            0 => {
                self.lines.remove(from);
            }
            1 => self.lines.insert(to, line),
            _ => self.lines.swap(from, to),
        }
    }

    /// The header of the other edition, or of one that isn't there.
    fn header(&mut self) {
        let header = self.random.pick(&["opstore,1\n", "opstore,2\n", "opstore,3\n", "opstore\n", "\n"]);
        if let Some(first) = self.lines.first_mut() {
            *first = header.into();
        }
    }

    /// A line of about as many bytes as one may have, with or without what a label takes.
    fn long(&mut self) {
        let bytes = 508 + self.random.below(7) as usize;
        let letter = if self.random.chance(70) { 'b' } else { 'o' };
        let line = long_line(letter, self.edition, bytes);
        let at = self.behind();
        self.lines.insert(at, line.into_bytes());
    }

    /// A line for an inherent attribute, good or bad.
    fn inherent(&mut self) {
        let key = self.random.word();
        let line = self.random.pick(&["i,o,0,K,5,9\n", "i,b,0,K,63,9\n", "i,o,999,K,64,9\n", "i,o,0,K,5\n", "i\n"]);
        let at = self.behind();
        self.lines.insert(at, line.replace('K', &key.to_string()).into_bytes());
    }

    /// A line of an unknown letter.
    fn letter(&mut self) {
        let line = self.random.pick(&["x\n", "\n", ",\n", "opstore,1\n", "opstore,2\n", "c,0,0,0\n"]);
        let at = self.behind();
        self.lines.insert(at, line.into());
    }

    /// A place behind the header, often that at the end.
    fn behind(&mut self) -> usize {
        let count = self.lines.len();
        if self.random.chance(30) { count } else { (self.any() + 1).min(count) }
    }

    /// The last line has no line feed, or has another end, or the listing ends early.
    fn end(&mut self) {
        let count = self.random.below(self.lines.len() as u32 + 1) as usize;
        match (self.random.below(8), self.lines.last_mut()) {
            (0, _) => self.lines.truncate(count),
            (1, _) => self.lines.push(b"o".to_vec()),
            (2, _) => self.lines.push(b"\n".to_vec()),
            (_, Some(last)) => {
                last.pop();
            }
            (_, None) => {}
        }
    }
}

/// A good line of so many bytes, its line feed not among them: 240 arguments or operands, some of two digits.
pub fn long_line(letter: char, edition: Edition, bytes: usize) -> String {
    let (front, behind) = match (letter, edition) {
        ('b', Edition::First) => ("b,0,7,5,240", ""),
        ('b', Edition::Second) => ("b,0,5,240", ""),
        _ => ("o,7,-,5,0,0,240", ",0"),
    };
    let longer = bytes - front.len() - 240 * ",0".len() - behind.len();
    let items: String = (0..240).map(|i| if i < longer { ",12" } else { ",0" }).collect();
    let line = format!("{front}{items}{behind}");
    assert_eq!(line.len(), bytes);
    line + "\n"
}
