//! Rows in ordered maps of plain Rust, renewed out of order or in order, with the log's bytes appended to memory: `renew ROWS COUNT
//! STEP` writes how many nanoseconds the middle one of so many renewals took, each so many rows behind the one before it.

use std::collections::BTreeMap;
use std::time::Instant;

/// How many rows a partition has.
const PART: u32 = 1000;

struct Held {
    value: Vec<u8>,
    timestamp: i64,
    submitted: u64,
    request: (u8, u64),
    arrival: u64,
}

type Partition = (i64, u16, Vec<u8>);

type Row = (Vec<u8>, u8);

fn partition_of(row: u32) -> Partition {
    let number = row / PART;
    let mut key = b"partition".to_vec();
    key.extend(number.to_be_bytes());
    (i64::from(number), 3, key)
}

fn renewal(row: u32, timestamp: i64) -> (Row, Held) {
    let value = u64::from(row).wrapping_mul(0x9e37_79b9_7f4a_7c15).to_be_bytes();
    let held = Held { value: [value, value].concat(), timestamp, submitted: 1, request: (1, 1), arrival: 1 };
    ((row.to_be_bytes().to_vec(), 2), held)
}

/// The bytes of an entry of one change.
fn word_of(partition: &Partition, row: &Row, held: &Held) -> Vec<u8> {
    let mut word = vec![0, 0, 0, 1, 1];
    word.extend(held.arrival.to_be_bytes());
    word.extend(partition.1.to_be_bytes());
    word.extend(partition.0.to_be_bytes());
    for field in [&partition.2, &row.0, &held.value] {
        word.extend((field.len() as u32).to_be_bytes());
        word.extend(field);
    }
    word.push(row.1);
    word.extend(held.timestamp.to_be_bytes());
    word.extend(held.submitted.to_be_bytes());
    word.push(held.request.0);
    word.extend(held.request.1.to_be_bytes());
    word
}

fn main() {
    let words: Vec<u32> = std::env::args().skip(1).map(|word| word.parse().unwrap()).collect();
    let [rows, count, step] = words[..] else { panic!("renew ROWS COUNT STEP") };
    let mut partitions: BTreeMap<Partition, BTreeMap<Row, Held>> = BTreeMap::new();
    for row in 0..rows {
        let (at, held) = renewal(row, 1);
        partitions.entry(partition_of(row)).or_default().insert(at, held);
    }
    let mut log: Vec<u8> = Vec::with_capacity(1 << 26);
    let mut nanos: Vec<u128> = (0..count)
        .map(|at| {
            let row = at.wrapping_mul(step) % rows;
            let partition = partition_of(row);
            let (place, held) = renewal(row, 2);
            let start = Instant::now();
            log.extend(word_of(&partition, &place, &held));
            let slot = partitions.get_mut(&partition).unwrap().get_mut(&place).unwrap();
            if slot.timestamp < held.timestamp {
                *slot = held;
            }
            start.elapsed().as_nanos()
        })
        .collect();
    nanos.sort();
    println!("{}", nanos[nanos.len() / 2]);
}
