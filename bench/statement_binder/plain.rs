//! An INSERT of five columns, prepared once and filled with values so often, in plain Rust: `plain [ROUNDS]`.
//!
//! It does what `protocol_bench bindings` does: it looks at each value's type and size, makes the partition's key and token and
//! the row's bytes, the changes in their order, and their size as they are stored.

use std::collections::BTreeMap;
use std::time::Instant;

const TURNS: u32 = 7;

#[derive(Clone, Copy, PartialEq, Eq)]
enum Type {
    Text,
    Int,
    Bigint,
    Boolean,
}

#[derive(Clone, Copy, PartialEq, Eq)]
enum Role {
    Partition,
    Clustering,
    Cell(u8),
    Timestamp,
}

struct Slot {
    ty: Type,
    role: Role,
}

enum Param {
    Null,
    NotSet,
    Given(Vec<u8>),
}

#[derive(PartialEq, Eq, PartialOrd, Ord)]
enum Place {
    Marker(Vec<u8>),
    Cell(Vec<u8>, u8),
}

struct Draft {
    place: Place,
    value: Option<Vec<u8>>,
    timestamp: Option<i64>,
}

struct Mutation {
    table: u16,
    token: i64,
    key: Vec<u8>,
    changes: Vec<Draft>,
}

#[derive(Debug, Clone, Copy)]
enum Fault {
    TypeMismatch,
    ValueCount,
    NullKey,
    ValueTooLong,
    KeyTooLong,
    EmptyKey,
    MutationTooLong,
}

fn fits(ty: Type, bytes: &[u8]) -> bool {
    match ty {
        Type::Text => std::str::from_utf8(bytes).is_ok(),
        Type::Int => bytes.len() == 4,
        Type::Bigint => bytes.len() == 8,
        Type::Boolean => bytes.len() == 1,
    }
}

fn order_bytes(ty: Type, bytes: &[u8], out: &mut Vec<u8>) {
    match ty {
        Type::Text => {
            for byte in bytes {
                out.push(*byte);
                if *byte == 0 {
                    out.push(255);
                }
            }
            out.extend_from_slice(&[0, 0]);
        }
        Type::Boolean => out.push(u8::from(bytes[0] != 0)),
        Type::Int | Type::Bigint => {
            out.push(bytes[0] ^ 0x80);
            out.extend_from_slice(&bytes[1..]);
        }
    }
}

const FIRST: u64 = 0x87c3_7b91_1142_53d5;
const SECOND: u64 = 0x4cf5_ad43_2745_937f;

fn scrambled(mut word: u64) -> u64 {
    word ^= word >> 33;
    word = word.wrapping_mul(0xff51_afd7_ed55_8ccd);
    word ^= word >> 33;
    word = word.wrapping_mul(0xc4ce_b9fe_1a85_ec53);
    word ^ (word >> 33)
}

fn word(bytes: &[u8]) -> u64 {
    u64::from_le_bytes(bytes.try_into().unwrap())
}

fn tail_word(bytes: &[u8]) -> u64 {
    let mut word = 0u64;
    for (at, byte) in bytes.iter().enumerate() {
        word ^= ((*byte as i8) as i64 as u64) << (8 * at);
    }
    word
}

fn token(key: &[u8]) -> i64 {
    let (mut first, mut second) = (0u64, 0u64);
    let mut blocks = key.chunks_exact(16);
    for block in &mut blocks {
        let one = word(&block[..8]).wrapping_mul(FIRST).rotate_left(31).wrapping_mul(SECOND);
        first = (first ^ one).rotate_left(27).wrapping_add(second).wrapping_mul(5).wrapping_add(0x52dc_e729);
        let two = word(&block[8..]).wrapping_mul(SECOND).rotate_left(33).wrapping_mul(FIRST);
        second = (second ^ two).rotate_left(31).wrapping_add(first).wrapping_mul(5).wrapping_add(0x3849_5ab5);
    }
    let tail = blocks.remainder();
    if tail.len() > 8 {
        second ^= tail_word(&tail[8..]).wrapping_mul(SECOND).rotate_left(33).wrapping_mul(FIRST);
    }
    first ^= tail_word(&tail[..tail.len().min(8)]).wrapping_mul(FIRST).rotate_left(31).wrapping_mul(SECOND);
    first ^= key.len() as u64;
    second ^= key.len() as u64;
    first = first.wrapping_add(second);
    second = second.wrapping_add(first);
    first = scrambled(first).wrapping_add(scrambled(second));
    match first as i64 {
        i64::MIN => i64::MAX,
        token => token,
    }
}

fn place_length(place: &Place) -> usize {
    match place {
        Place::Marker(row) => 1 + 4 + row.len(),
        Place::Cell(row, _) => 1 + 4 + row.len() + 1,
    }
}

fn mutation_length(mutation: &Mutation) -> usize {
    let changes: usize = mutation
        .changes
        .iter()
        .map(|draft| place_length(&draft.place) + 5 + draft.value.as_ref().map_or(0, Vec::len) + 25)
        .sum();
    4 + mutation.key.len() + 10 + 4 + changes
}

fn fill(table: u16, slots: &[Slot], params: &[Param]) -> Result<Mutation, Fault> {
    let mut key: Option<&[u8]> = None;
    let mut row = Vec::new();
    let mut timestamp = None;
    let mut cells: Vec<(u8, Option<Vec<u8>>)> = Vec::new();
    let mut fault: Option<Fault> = None;
    let mut refuse = |found: Fault| {
        if fault.is_none_or(|told| (found as u8) < told as u8) {
            fault = Some(found);
        }
    };
    let mut left = params.iter();
    for slot in slots {
        let bytes = match left.next() {
            None => {
                refuse(Fault::ValueCount);
                continue;
            }
            Some(Param::NotSet) | Some(Param::Null)
                if matches!(slot.role, Role::Partition | Role::Clustering) =>
            {
                refuse(Fault::NullKey);
                continue;
            }
            Some(Param::NotSet) => continue,
            Some(Param::Null) => {
                match slot.role {
                    Role::Cell(column) => cells.push((column, None)),
                    _ => refuse(Fault::TypeMismatch),
                }
                continue;
            }
            Some(Param::Given(bytes)) => bytes,
        };
        if !fits(slot.ty, bytes) {
            refuse(Fault::TypeMismatch);
            continue;
        }
        if bytes.len() > 1_048_576 {
            refuse(Fault::ValueTooLong);
        }
        match slot.role {
            Role::Partition => key = Some(bytes),
            Role::Clustering => order_bytes(slot.ty, bytes, &mut row),
            Role::Cell(column) => cells.push((column, Some(bytes.clone()))),
            Role::Timestamp => timestamp = Some(i64::from_be_bytes(bytes[..].try_into().unwrap())),
        }
    }
    if left.next().is_some() {
        refuse(Fault::ValueCount);
    }
    let key = key.unwrap_or(&[]).to_vec();
    if key.len() > 65_535 || row.len() > 65_535 {
        refuse(Fault::KeyTooLong);
    }
    if key.is_empty() {
        refuse(Fault::EmptyKey);
    }
    if let Some(fault) = fault {
        return Err(fault);
    }
    let mut changes = Vec::with_capacity(cells.len() + 1);
    changes.push(Draft {
        place: Place::Marker(row.clone()),
        value: Some(Vec::new()),
        timestamp,
    });
    for (column, value) in cells {
        changes.push(Draft {
            place: Place::Cell(row.clone(), column),
            value,
            timestamp,
        });
    }
    if !changes.is_sorted_by(|before, after| before.place < after.place) {
        let mut kept = BTreeMap::new();
        for draft in changes {
            kept.insert(draft.place, (draft.value, draft.timestamp));
        }
        changes = kept
            .into_iter()
            .map(|(place, (value, timestamp))| Draft {
                place,
                value,
                timestamp,
            })
            .collect();
    }
    let mutation = Mutation {
        table,
        token: token(&key),
        key,
        changes,
    };
    if mutation_length(&mutation) > 4_194_304 {
        return Err(Fault::MutationTooLong);
    }
    Ok(mutation)
}

fn slots() -> Vec<Slot> {
    vec![
        Slot { ty: Type::Text, role: Role::Partition },
        Slot { ty: Type::Int, role: Role::Clustering },
        Slot { ty: Type::Bigint, role: Role::Cell(4) },
        Slot { ty: Type::Text, role: Role::Cell(2) },
        Slot { ty: Type::Boolean, role: Role::Cell(3) },
        Slot { ty: Type::Bigint, role: Role::Timestamp },
    ]
}

fn values() -> Vec<Param> {
    vec![
        Param::Given(b"ann.miller@example.com".to_vec()),
        Param::Given(vec![0, 0, 7, 229]),
        Param::Given(vec![0, 0, 0, 0, 0, 0, 7, 207]),
        Param::Given(b"gift: a book of forty short stories".to_vec()),
        Param::Given(vec![1]),
        Param::Given(vec![0, 6, 10, 36, 24, 30, 64, 0]),
    ]
}

fn fill_all(rounds: u32) -> Result<(u64, u64), Fault> {
    let slots = slots();
    let values = values();
    let (mut changes, mut mix) = (0u64, 0u64);
    for _ in 0..rounds {
        let mutation = std::hint::black_box(fill(1, &slots, &values)?);
        debug_assert_eq!(mutation.table, 1);
        changes = changes.wrapping_add(mutation.changes.len() as u64);
        mix = mix.wrapping_mul(31).wrapping_add(mutation.token as u64);
        for draft in &mutation.changes {
            debug_assert!(draft.timestamp.is_some());
        }
    }
    Ok((changes, mix))
}

fn main() {
    let rounds = std::env::args().nth(1).and_then(|word| word.parse().ok());
    let turns = if rounds.is_some() { TURNS } else { 1 };
    let rounds = rounds.unwrap_or(1);
    let mut fastest = u128::MAX;
    for turn in 0..turns {
        let start = Instant::now();
        let tally = fill_all(rounds);
        fastest = fastest.min(start.elapsed().as_nanos());
        if turn == 0 {
            match tally {
                Ok((changes, mix)) => println!("changes {changes}, mix {mix}"),
                Err(fault) => println!("refused {fault:?}"),
            }
        }
    }
    if turns > 1 {
        println!("rounds {rounds}, nanoseconds {fastest}");
    }
}
