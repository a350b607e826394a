//! Damage to the bytes, lines and fields of a listing, without a look at what they mean.

use oracle::random::Rng;

/// Bytes that stand in listings, and a few that do not.
const BYTES: &[u8] = b"0123456789abcdeftvwo:,n\n\r \xff";
const TOO_LARGE: [&str; 5] = [
    "18446744073709551616",
    "18446744073709551625",
    "20000000000000000000",
    "100000000000000000000000000000000000000000",
    "340282366920938463463374607431768211461",
];
const LENGTHS: [&str; 6] = ["0", "1", "2", "100", "101", "18446744073709551615"];

pub fn byte_changed(rng: &mut Rng, text: &str) -> Option<Vec<u8>> {
    let mut bytes = text.as_bytes().to_vec();
    let at = rng.index(bytes.len());
    let byte = if rng.one_in(8) { rng.next() as u8 } else { rng.pick(BYTES) };
    let other = bytes[at] != byte;
    bytes[at] = byte;
    other.then_some(bytes)
}

pub fn byte_dropped(rng: &mut Rng, text: &str) -> Option<Vec<u8>> {
    let mut bytes = text.as_bytes().to_vec();
    bytes.remove(rng.index(text.len()));
    Some(bytes)
}

pub fn byte_doubled(rng: &mut Rng, text: &str) -> Option<Vec<u8>> {
    let mut bytes = text.as_bytes().to_vec();
    let at = rng.index(text.len());
    bytes.insert(at, bytes[at]);
    Some(bytes)
}

/// Half of them at the end of a line.
pub fn cut(rng: &mut Rng, text: &str) -> Option<Vec<u8>> {
    let at = rng.index(text.len());
    let end = if rng.one_in(2) { text[at..].find('\n').map_or(at, |end| at + end + 1) } else { at };
    (end < text.len()).then(|| text.as_bytes()[..end].to_vec())
}

fn lines(text: &str) -> Vec<&str> {
    text.split_inclusive('\n').collect()
}

/// Two lines, often neighbours.
pub fn lines_swapped(rng: &mut Rng, text: &str) -> Option<Vec<u8>> {
    let mut lines = lines(text);
    let one = rng.index(lines.len());
    let other = if rng.one_in(2) { rng.index(lines.len()) } else { (one + 1) % lines.len() };
    lines.swap(one, other);
    (lines[one] != lines[other]).then(|| lines.concat().into_bytes())
}

pub fn line_dropped(rng: &mut Rng, text: &str) -> Option<Vec<u8>> {
    let mut lines = lines(text);
    lines.remove(rng.index(lines.len()));
    Some(lines.concat().into_bytes())
}

/// The first line as often as all others.
pub fn line_doubled(rng: &mut Rng, text: &str) -> Option<Vec<u8>> {
    let mut lines = lines(text);
    let line = rng.index(lines.len()) * rng.index(2);
    lines.insert(line, lines[line]);
    Some(lines.concat().into_bytes())
}

/// The text as fields of lines, and back.
struct Parted<'a>(Vec<Vec<&'a str>>);

impl<'a> Parted<'a> {
    fn new(text: &'a str) -> Self {
        Self(text.lines().map(|line| line.split(',').collect()).collect())
    }

    fn joined(&self) -> Vec<u8> {
        self.0.iter().map(|line| line.join(",") + "\n").collect::<String>().into_bytes()
    }

    fn any(&self, rng: &mut Rng) -> (usize, usize) {
        let line = rng.index(self.0.len());
        (line, rng.index(self.0[line].len()))
    }
}

fn is_request(line: &[&str]) -> bool {
    line[0].starts_with(['t', 'w'])
}

/// Where numbers stand that are no list's length.
fn numbers(place: usize, line: &[&str]) -> Vec<usize> {
    if place == 0 {
        (0..3).filter(|at| line[*at] != "none").collect()
    } else if !is_request(line) {
        vec![0, 2, 4]
    } else if line[1] == "none" {
        Vec::new()
    } else {
        vec![1, 2]
    }
}

/// Where lengths of lists stand: that of the wtxids, if there is a package, and that of the parents.
fn lengths(line: &[&str]) -> Vec<usize> {
    let flag = if line[1] == "none" { 2 } else { 3 };
    if line[flag + 1] == "none" {
        return vec![flag + 2];
    }
    let wtxids = flag + 2;
    let count: usize = line[wtxids].parse().expect("a listing's length");
    vec![wtxids, wtxids + count + 2]
}

/// Fields of two lines, half of them at the same place of both.
pub fn fields_exchanged(rng: &mut Rng, text: &str) -> Option<Vec<u8>> {
    let mut parted = Parted::new(text);
    let (one, at) = parted.any(rng);
    let (other, mut place) = parted.any(rng);
    if rng.one_in(2) {
        place = at.min(parted.0[other].len() - 1);
    }
    let (field, instead) = (parted.0[one][at], parted.0[other][place]);
    parted.0[one][at] = instead;
    parted.0[other][place] = field;
    (one != other && field != instead).then(|| parted.joined())
}

pub fn leading_zero(rng: &mut Rng, text: &str) -> Option<Vec<u8>> {
    let mut parted = Parted::new(text);
    let (line, at) = parted.any(rng);
    let field = parted.0[line][at];
    let digits = usize::from(field.starts_with(['t', 'v', 'w', 'o']));
    let zeroed = format!("{}0{}", &field[..digits], &field[digits..]);
    parted.0[line][at] = &zeroed;
    (field != "none").then(|| parted.joined())
}

fn number_as(rng: &mut Rng, text: &str, number: &str) -> Option<Vec<u8>> {
    let mut parted = Parted::new(text);
    let line = rng.index(parted.0.len());
    let places = numbers(line, &parted.0[line]);
    let at = *places.get(rng.index(places.len().max(1)))?;
    let other = parted.0[line][at] != number;
    parted.0[line][at] = number;
    other.then(|| parted.joined())
}

pub fn too_large(rng: &mut Rng, text: &str) -> Option<Vec<u8>> {
    let number = rng.pick(&TOO_LARGE);
    number_as(rng, text, number)
}

pub fn largest(rng: &mut Rng, text: &str) -> Option<Vec<u8>> {
    number_as(rng, text, "18446744073709551615")
}

/// A length one off, or one of the odd ones; the list's fields stay.
pub fn wrong_length(rng: &mut Rng, text: &str) -> Option<Vec<u8>> {
    let mut parted = Parted::new(text);
    let line = rng.index(parted.0.len());
    if !is_request(&parted.0[line]) {
        return None;
    }
    let places = lengths(&parted.0[line]);
    let at = rng.pick(&places);
    let old: u64 = parted.0[line][at].parse().expect("a listing's length");
    let new = match rng.below(4) {
        0 => (old + 1).to_string(),
        1 => old.saturating_sub(1).to_string(),
        2 => String::new(),
        _ => rng.pick(&LENGTHS).to_owned(),
    };
    parted.0[line][at] = &new;
    (new != old.to_string()).then(|| parted.joined())
}
