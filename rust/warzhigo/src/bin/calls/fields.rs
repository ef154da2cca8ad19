//! The fields of a line, parted by commas. Each function gives nothing where the next field isn't what it reads.

use std::str::Split;

use warzhigo::Ignore;

pub struct Fields<'a>(Split<'a, char>);

impl<'a> Fields<'a> {
    pub fn of(line: &'a str) -> Fields<'a> {
        Fields(line.split(','))
    }

    pub fn word(&mut self) -> Option<&'a str> {
        self.0.next()
    }

    /// A number within 64 bits, without sign or leading zero.
    fn bits(&mut self) -> Option<u64> {
        let digits = self.word()?;
        let written = digits.bytes().all(|digit| digit.is_ascii_digit()) && (digits.len() == 1 || !digits.starts_with('0'));
        if written { digits.parse().ok() } else { None }
    }

    /// A number within 32 bits.
    pub fn number(&mut self) -> Option<u32> {
        self.bits()?.try_into().ok()
    }

    /// A number, or nothing for `-`.
    pub fn optional(&mut self) -> Option<Option<u32>> {
        if self.0.clone().next()? == "-" {
            self.0.next();
            return Some(None);
        }
        self.number().map(Some)
    }

    /// A count, then as many numbers.
    pub fn list(&mut self) -> Option<Vec<u32>> {
        let count = self.number()?;
        (0..count).map(|_| self.number()).collect()
    }

    /// All numbers that are left.
    pub fn rest(&mut self) -> Option<Vec<u32>> {
        let mut numbers = Vec::new();
        while self.0.clone().next().is_some() {
            numbers.push(self.number()?);
        }
        Some(numbers)
    }

    /// Bytes in hexadecimal, two digits to a byte; none for an empty field.
    pub fn bytes(&mut self) -> Option<Vec<u8>> {
        let digits = self.word()?;
        let byte = |pair: &[u8]| match *pair {
            [high, low] => Some((char::from(high).to_digit(16)? << 4 | char::from(low).to_digit(16)?) as u8),
            _ => None,
        };
        digits.as_bytes().chunks(2).map(byte).collect()
    }

    /// 1 to ignore locations or 0 not to, and the bits of the kinds to ignore.
    pub fn ignore(&mut self) -> Option<Ignore> {
        let locations = match self.word()? {
            "0" => false,
            "1" => true,
            _ => return None,
        };
        Some(Ignore { locations, bits: self.bits()? })
    }

    /// Nothing, if no field is left.
    pub fn end(mut self) -> Option<()> {
        self.word().is_none().then_some(())
    }
}
