//! The model of the converter: a listing in, and the same listing in the other edition out, or the first line that is refused.

/// The most bytes of a listing, and of a line before its line feed.
pub const LISTING: usize = 65_536;
pub const LINE: usize = 512;

/// The line that is refused, and by which cause.
pub type Refusal = (usize, u32);

#[derive(Clone, Copy, PartialEq, Eq, Debug)]
pub enum Edition {
    First,
    Second,
}

use Edition::{First, Second};

impl Edition {
    pub const BOTH: [Edition; 2] = [First, Second];

    pub fn header(self) -> &'static str {
        match self {
            First => "opstore,1",
            Second => "opstore,2",
        }
    }

    pub fn other(self) -> Edition {
        match self {
            First => Second,
            Second => First,
        }
    }

    /// The edition whose header a line is.
    pub fn of(line: &[u8]) -> Option<Edition> {
        Edition::BOTH.into_iter().find(|edition| edition.header().as_bytes() == line)
    }
}

/// What is printed for a listing, converted or refused.
pub fn printed(answer: &Result<Vec<u8>, Refusal>) -> Vec<u8> {
    match answer {
        Ok(converted) => converted.clone(),
        Err((line, cause)) => format!("refused,{line},{cause}\n").into_bytes(),
    }
}

/// Tests all that is read before anything that would be written.
pub fn converted(listing: &[u8]) -> Result<Vec<u8>, Refusal> {
    if listing.len() > LISTING {
        return Err((1, 11));
    }
    let mut lines = listing.split_inclusive(|byte| *byte == b'\n').zip(1..);
    let (first, _) = lines.next().ok_or((1, 9))?;
    let edition = Edition::of(ended(first, 1)?).ok_or((1, 9))?;
    let mut out = vec![edition.other().header().to_string()];
    for (line, number) in lines {
        out.push(converted_line(edition, ended(line, number)?).map_err(|cause| (number, cause))?);
    }
    let whole: String = out.iter().map(|line| format!("{line}\n")).collect();
    if whole.len() > LISTING {
        return Err((1, 11));
    }
    match out.iter().position(|line| line.len() > LINE) {
        Some(before) => Err((before + 1, 11)),
        None => Ok(whole.into_bytes()),
    }
}

/// A line without its line feed, if it has one and isn't too long.
fn ended(line: &[u8], number: usize) -> Result<&[u8], Refusal> {
    line.strip_suffix(b"\n").filter(|text| text.len() <= LINE).ok_or((number, 11))
}

fn converted_line(edition: Edition, line: &[u8]) -> Result<String, u32> {
    // all that a good line has is ASCII
    let line = std::str::from_utf8(line).map_err(|_| 10_u32)?;
    let mut fields: Vec<&str> = line.split(',').collect();
    let kinds = kinds(fields[0], edition).ok_or(10_u32)?;
    if !fit(kinds, fields[1..].iter().copied()) {
        return Err(10);
    }
    match (fields[0], edition) {
        ("i", _) => return Err(20),
        ("b", First) => {
            fields.remove(2);
        }
        ("b", Second) => fields.insert(2, "0"),
        _ => {}
    }
    Ok(fields.join(","))
}

/// What the fields behind a letter are.
#[derive(Clone, Copy)]
enum Kind {
    Number,
    List,
    /// A block, or `-`.
    Parent,
    /// One of these letters.
    Letter(&'static [&'static str]),
    YesOrNo,
    /// A number within 64 bits.
    Bits,
}

fn kinds(letter: &str, edition: Edition) -> Option<&'static [Kind]> {
    use Kind::{Bits, Letter, List, Number, Parent, YesOrNo};
    Some(match (letter, edition) {
        ("o", _) => &[Number, Parent, Number, Number, List, List, List],
        ("b", First) => &[Number, Number, Number, List],
        ("b", Second) => &[Number, Number, List],
        ("a", _) | ("i", Second) => &[Letter(&["o", "b"]), Number, Number, Number, Number],
        ("s", _) => &[Number, Number, Number],
        ("q", _) => &[Letter(&["o", "b", "r"]), Number, Number, YesOrNo, Bits],
        _ => return None,
    })
}

/// Are the fields of these kinds, and no more?
fn fit<'a>(kinds: &[Kind], mut fields: impl Iterator<Item = &'a str>) -> bool {
    let mut fits = |kind: &Kind| {
        let Some(field) = fields.next() else { return false };
        match kind {
            Kind::Number => number(field).is_some(),
            Kind::List => number(field).is_some_and(|count| (0..count).all(|_| fields.next().is_some_and(|item| number(item).is_some()))),
            Kind::Parent => field == "-" || number(field).is_some(),
            Kind::Letter(letters) => letters.contains(&field),
            Kind::YesOrNo => field == "0" || field == "1",
            Kind::Bits => field.parse::<u64>().is_ok_and(|bits| bits.to_string() == field),
        }
    };
    kinds.iter().all(&mut fits) && fields.next().is_none()
}

/// A number that is written as it would be printed, so without sign or leading zero.
fn number(field: &str) -> Option<u32> {
    field.parse().ok().filter(|number: &u32| number.to_string() == field)
}
