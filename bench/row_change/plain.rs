//! The codec of mutations in plain Rust, and the same measurement as `storage_bench mutations`:
//! `plain CHANGES VALUE_LENGTH REPEATS`.

use std::cmp::Ordering;
use std::hint::black_box;
use std::time::Instant;

const TURNS: u32 = 7;

/// For how many changes room is made before they are read.
const FIRST_ROOM: usize = 32;

#[derive(Clone, Copy, Debug, PartialEq, Eq)]
enum CodecError {
    Short(usize),
    Tag(usize),
    Order(usize),
    Trailing(usize),
}

struct Partition {
    token: i64,
    table: u16,
    key: Vec<u8>,
}

#[derive(PartialEq, Eq)]
struct Bound {
    at: Vec<u8>,
    after: bool,
}

impl Bound {
    fn is_past(&self, row: &[u8]) -> bool {
        self.after && row.starts_with(&self.at)
    }
}

impl PartialOrd for Bound {
    fn partial_cmp(&self, other: &Bound) -> Option<Ordering> {
        Some(self.cmp(other))
    }
}

impl Ord for Bound {
    fn cmp(&self, other: &Bound) -> Ordering {
        match self.at.cmp(&other.at) {
            Ordering::Less if self.is_past(&other.at) => Ordering::Greater,
            Ordering::Equal => self.after.cmp(&other.after),
            Ordering::Greater if other.is_past(&self.at) => Ordering::Less,
            order => order,
        }
    }
}

#[derive(PartialEq, Eq)]
enum Place {
    Cell(Vec<u8>, u8),
    Marker(Vec<u8>),
    RowGone(Vec<u8>),
    RangeGone(Bound, Bound),
    PartGone,
}

impl Place {
    fn row(&self) -> Option<&[u8]> {
        match self {
            Place::Cell(row, _) | Place::Marker(row) | Place::RowGone(row) => Some(row),
            Place::RangeGone(_, _) | Place::PartGone => None,
        }
    }

    fn step(&self) -> (u8, u8) {
        match self {
            Place::Cell(_, column) => (2, *column),
            Place::Marker(_) => (1, 0),
            _ => (0, 0),
        }
    }
}

impl PartialOrd for Place {
    fn partial_cmp(&self, other: &Place) -> Option<Ordering> {
        Some(self.cmp(other))
    }
}

impl Ord for Place {
    fn cmp(&self, other: &Place) -> Ordering {
        match (self.row(), other.row()) {
            (Some(row), Some(beside)) => row
                .cmp(beside)
                .then_with(|| self.step().cmp(&other.step())),
            (Some(_), None) => Ordering::Greater,
            (None, Some(_)) => Ordering::Less,
            (None, None) => match (self, other) {
                (Place::RangeGone(from, upto), Place::RangeGone(start, end)) => {
                    from.cmp(start).then_with(|| upto.cmp(end))
                }
                (Place::RangeGone(_, _), _) => Ordering::Greater,
                (_, Place::RangeGone(_, _)) => Ordering::Less,
                _ => Ordering::Equal,
            },
        }
    }
}

struct Held {
    place: Place,
    value: Option<Vec<u8>>,
    timestamp: i64,
    submitted: u64,
    node: u8,
    time: u64,
}

struct Mutation {
    partition: Partition,
    changes: Vec<Held>,
}

struct Reader<'a> {
    bytes: &'a [u8],
    at: usize,
}

impl<'a> Reader<'a> {
    fn take(&mut self, count: usize, field: usize) -> Result<&'a [u8], CodecError> {
        match self.bytes[self.at..].get(..count) {
            Some(taken) => {
                self.at += count;
                Ok(taken)
            }
            None => Err(CodecError::Short(field)),
        }
    }

    fn number<const N: usize>(&mut self) -> Result<[u8; N], CodecError> {
        let taken = self.take(N, self.at)?;
        Ok(taken.try_into().unwrap())
    }

    fn u8(&mut self) -> Result<u8, CodecError> {
        Ok(self.number::<1>()?[0])
    }

    fn u64(&mut self) -> Result<u64, CodecError> {
        Ok(u64::from_be_bytes(self.number()?))
    }

    fn flag(&mut self) -> Result<bool, CodecError> {
        let at = self.at;
        match self.u8()? {
            0 => Ok(false),
            1 => Ok(true),
            _ => Err(CodecError::Tag(at)),
        }
    }

    fn node(&mut self) -> Result<u8, CodecError> {
        let at = self.at;
        match self.u8()? {
            node @ 0..=6 => Ok(node),
            _ => Err(CodecError::Tag(at)),
        }
    }

    fn field(&mut self) -> Result<Vec<u8>, CodecError> {
        let at = self.at;
        let length = u32::from_be_bytes(self.number()?);
        Ok(self.take(length as usize, at)?.to_vec())
    }

    fn bound(&mut self) -> Result<Bound, CodecError> {
        let after = self.flag()?;
        let at = self.field()?;
        Ok(Bound { at, after })
    }

    fn place(&mut self) -> Result<Place, CodecError> {
        let at = self.at;
        match self.u8()? {
            1 => Ok(Place::Cell(self.field()?, self.u8()?)),
            2 => Ok(Place::Marker(self.field()?)),
            3 => Ok(Place::RowGone(self.field()?)),
            4 => Ok(Place::RangeGone(self.bound()?, self.bound()?)),
            5 => Ok(Place::PartGone),
            _ => Err(CodecError::Tag(at)),
        }
    }

    fn held(&mut self, before: Option<&Held>) -> Result<Held, CodecError> {
        let at = self.at;
        let place = self.place()?;
        if before.is_some_and(|before| before.place >= place) {
            return Err(CodecError::Order(at));
        }
        let value = match &place {
            Place::Cell(_, _) if self.flag()? => Some(self.field()?),
            Place::Marker(_) => Some(Vec::new()),
            _ => None,
        };
        Ok(Held {
            place,
            value,
            timestamp: i64::from_be_bytes(self.number()?),
            submitted: self.u64()?,
            node: self.node()?,
            time: self.u64()?,
        })
    }

    fn mutation(&mut self) -> Result<Mutation, CodecError> {
        let table = u16::from_be_bytes(self.number()?);
        let token = i64::from_be_bytes(self.number()?);
        let key = self.field()?;
        let count = u32::from_be_bytes(self.number()?);
        let mut changes = Vec::with_capacity((count as usize).min(FIRST_ROOM));
        for _ in 0..count {
            let held = self.held(changes.last())?;
            changes.push(held);
        }
        Ok(Mutation {
            partition: Partition { token, table, key },
            changes,
        })
    }
}

fn decode(bytes: &[u8]) -> Result<Mutation, CodecError> {
    let mut reader = Reader { bytes, at: 0 };
    let mutation = reader.mutation()?;
    if reader.at < bytes.len() {
        return Err(CodecError::Trailing(reader.at));
    }
    Ok(mutation)
}

fn write_field(out: &mut Vec<u8>, field: &[u8]) {
    out.extend_from_slice(&(field.len() as u32).to_be_bytes());
    out.extend_from_slice(field);
}

fn write_bound(out: &mut Vec<u8>, bound: &Bound) {
    out.push(u8::from(bound.after));
    write_field(out, &bound.at);
}

fn write_held(out: &mut Vec<u8>, held: &Held) {
    match &held.place {
        Place::Cell(row, column) => {
            out.push(1);
            write_field(out, row);
            out.push(*column);
            match &held.value {
                Some(value) => {
                    out.push(1);
                    write_field(out, value);
                }
                None => out.push(0),
            }
        }
        Place::Marker(row) => {
            out.push(2);
            write_field(out, row);
        }
        Place::RowGone(row) => {
            out.push(3);
            write_field(out, row);
        }
        Place::RangeGone(from, upto) => {
            out.push(4);
            write_bound(out, from);
            write_bound(out, upto);
        }
        Place::PartGone => out.push(5),
    }
    out.extend_from_slice(&held.timestamp.to_be_bytes());
    out.extend_from_slice(&held.submitted.to_be_bytes());
    out.push(held.node);
    out.extend_from_slice(&held.time.to_be_bytes());
}

fn held_length(held: &Held) -> usize {
    let place = match &held.place {
        Place::Cell(row, _) => {
            4 + row.len() + 1 + 1 + held.value.as_ref().map_or(0, |value| 4 + value.len())
        }
        Place::Marker(row) | Place::RowGone(row) => 4 + row.len(),
        Place::RangeGone(from, upto) => 10 + from.at.len() + upto.at.len(),
        Place::PartGone => 0,
    };
    1 + place + 25
}

fn encode(mutation: &Mutation) -> Vec<u8> {
    let partition = &mutation.partition;
    let length: usize = mutation.changes.iter().map(held_length).sum();
    let mut out = Vec::with_capacity(2 + 8 + 4 + partition.key.len() + 4 + length);
    out.extend_from_slice(&partition.table.to_be_bytes());
    out.extend_from_slice(&partition.token.to_be_bytes());
    write_field(&mut out, &partition.key);
    out.extend_from_slice(&(mutation.changes.len() as u32).to_be_bytes());
    for held in &mutation.changes {
        write_held(&mut out, held);
    }
    out
}

/// A mutation of so many cells, ten to a row, with values of a length.
fn made_bytes(count: u32, value_length: u32) -> Vec<u8> {
    let mut bytes = b"\0\x03\0\0\0\0\0\0\0\x09\0\0\0\x08some key".to_vec();
    bytes.extend_from_slice(&count.to_be_bytes());
    for at in 0..count {
        bytes.extend_from_slice(b"\x01\0\0\0\x04");
        bytes.extend_from_slice(&(at / 10).to_be_bytes());
        bytes.push((at % 10) as u8);
        bytes.push(1);
        bytes.extend_from_slice(&value_length.to_be_bytes());
        for place in 0..value_length {
            bytes.push((at.wrapping_add(place) % 256) as u8);
        }
        bytes.extend_from_slice(&u64::from(at).to_be_bytes());
        bytes.extend_from_slice(b"\0\0\0\0\0\0\0\x05\x02\0\0\0\0\0\0\0\x05");
    }
    bytes
}

fn mix(mutation: &Mutation) -> u64 {
    let mut mix = 0u64;
    for change in &mutation.changes {
        let length = change.value.as_ref().map_or(0, |value| value.len() as u64);
        mix = mix
            .wrapping_mul(31)
            .wrapping_add(length)
            .wrapping_add(change.timestamp as u64);
    }
    mix
}

fn decode_all(bytes: &[u8], repeats: u32) -> u64 {
    let mut total = 0u64;
    for _ in 0..repeats {
        let mutation = black_box(decode(black_box(bytes))).unwrap();
        total = total.wrapping_add(mutation.changes.len() as u64);
    }
    total
}

fn encode_all(bytes: &[u8], repeats: u32) -> u64 {
    let mutation = decode(bytes).unwrap();
    let mut total = 0u64;
    for _ in 0..repeats {
        let again = black_box(encode(black_box(&mutation)));
        total = total.wrapping_add(again.len() as u64);
    }
    total
}

fn main() {
    let numbers: Vec<u32> = std::env::args()
        .skip(1)
        .map(|word| word.parse().unwrap())
        .collect();
    let (count, value_length, repeats) = (numbers[0], numbers[1], numbers[2]);
    let bytes = made_bytes(count, value_length);
    let sample = decode(&bytes).unwrap();
    println!(
        "bytes {}, changes {}, mix {}",
        bytes.len(),
        sample.changes.len(),
        mix(&sample)
    );
    let mut decoding = u128::MAX;
    let mut encoding = u128::MAX;
    let mut total = 0u64;
    for _ in 0..TURNS {
        let start = Instant::now();
        let decoded = decode_all(&bytes, repeats);
        decoding = decoding.min(start.elapsed().as_nanos());
        let start = Instant::now();
        let encoded = encode_all(&bytes, repeats);
        encoding = encoding.min(start.elapsed().as_nanos());
        total = total.wrapping_add(decoded).wrapping_add(encoded);
    }
    println!("total {total}");
    println!("decoding {decoding}, encoding {encoding}");
}
