//! A framer of requests in plain Rust, and the same measurement as `protocol_bench frames`: `plain FRAMES PIECE_LENGTH`.

use std::hint::black_box;
use std::time::Instant;

const HEADER_LEN: usize = 9;
const LONGEST_BODY: i32 = 16 * 1024 * 1024;
const TURNS: u32 = 7;

#[derive(Clone, Copy, Debug, PartialEq, Eq)]
enum FrameError {
    Version(u8),
    Compressed(i16),
    TooLong(i16, u32),
    NegativeLength(i16, i32),
}

#[derive(Debug)]
struct Frame {
    flags: u8,
    stream: i16,
    opcode: u8,
    body: Vec<u8>,
}

#[derive(Clone, Copy)]
struct Header {
    flags: u8,
    stream: i16,
    opcode: u8,
    body_len: usize,
}

impl Header {
    fn frame(self, body: Vec<u8>) -> Frame {
        Frame {
            flags: self.flags,
            stream: self.stream,
            opcode: self.opcode,
            body,
        }
    }
}

/// The header at the front of the bytes, or `None` while it has not come whole.
fn request_header(bytes: &[u8]) -> Result<Option<Header>, FrameError> {
    match bytes {
        [] => Ok(None),
        [0x04, flags, s0, s1, opcode, n0, n1, n2, n3, ..] => {
            let stream = i16::from_be_bytes([*s0, *s1]);
            let body_len = i32::from_be_bytes([*n0, *n1, *n2, *n3]);
            if flags & 0x01 != 0 {
                return Err(FrameError::Compressed(stream));
            }
            if body_len < 0 {
                return Err(FrameError::NegativeLength(stream, body_len));
            }
            if body_len > LONGEST_BODY {
                return Err(FrameError::TooLong(stream, body_len as u32));
            }
            Ok(Some(Header {
                flags: *flags,
                stream,
                opcode: *opcode,
                body_len: body_len as usize,
            }))
        }
        [0x04, ..] => Ok(None),
        [version, ..] => Err(FrameError::Version(*version)),
    }
}

#[derive(Default)]
struct Framer {
    header: Vec<u8>,
    body: Vec<u8>,
    refusal: Option<FrameError>,
    kept: Vec<Frame>,
}

impl Framer {
    fn feed(&mut self, piece: &[u8]) -> Result<Vec<Frame>, FrameError> {
        if let Some(refusal) = self.refusal {
            return Err(refusal);
        }
        let mut frames = Vec::new();
        if let Err(refusal) = self.advance(&mut frames, piece) {
            self.refusal = Some(refusal);
            self.kept = frames;
            return Err(refusal);
        }
        Ok(frames)
    }

    fn advance(&mut self, frames: &mut Vec<Frame>, piece: &[u8]) -> Result<(), FrameError> {
        let mut rest = piece;
        if !self.header.is_empty() {
            let (front, after) = rest.split_at(rest.len().min(HEADER_LEN - self.header.len()));
            self.header.extend_from_slice(front);
            let Some(header) = request_header(&self.header)? else {
                return Ok(());
            };
            let (last, after) = after.split_at(after.len().min(header.body_len - self.body.len()));
            self.body.extend_from_slice(last);
            if self.body.len() < header.body_len {
                return Ok(());
            }
            frames.push(header.frame(std::mem::take(&mut self.body)));
            self.header.clear();
            rest = after;
        }
        while let Some(header) = request_header(rest)? {
            let after = &rest[HEADER_LEN..];
            if after.len() < header.body_len {
                break;
            }
            let (body, after) = after.split_at(header.body_len);
            frames.push(header.frame(body.to_vec()));
            rest = after;
        }
        let (front, body) = rest.split_at(rest.len().min(HEADER_LEN));
        self.header.extend_from_slice(front);
        self.body.extend_from_slice(body);
        Ok(())
    }
}

struct Tally {
    frames: u64,
    bytes: u64,
    mix: u64,
}

impl Tally {
    fn add(&mut self, frame: &Frame) {
        black_box((frame.flags, frame.opcode));
        let last = frame.body.last().copied().unwrap_or(0);
        self.frames = self.frames.wrapping_add(1);
        self.bytes = self.bytes.wrapping_add(frame.body.len() as u64);
        self.mix = self
            .mix
            .wrapping_mul(31)
            .wrapping_add(u64::from(frame.stream as u16))
            .wrapping_add(u64::from(last));
    }
}

fn requests(count: u32) -> Vec<u8> {
    let mut stream = Vec::new();
    for number in 0..count {
        let length = 20 + number.wrapping_mul(7919) % 100;
        stream.extend_from_slice(&[0x04, 0]);
        stream.extend_from_slice(&((number % 32768) as i16).to_be_bytes());
        stream.push(0x07);
        stream.extend_from_slice(&length.to_be_bytes());
        stream.extend((0..length).map(|place| (number.wrapping_add(place) % 256) as u8));
    }
    stream
}

fn feed_all(stream: &[u8], piece_len: usize) -> Result<Tally, FrameError> {
    let mut framer = Framer::default();
    let mut tally = Tally {
        frames: 0,
        bytes: 0,
        mix: 0,
    };
    for piece in stream.chunks(piece_len.max(1)) {
        let frames = framer.feed(piece)?;
        for frame in &frames {
            tally.add(frame);
        }
    }
    Ok(tally)
}

fn main() {
    let numbers: Vec<u32> = std::env::args()
        .skip(1)
        .map(|argument| argument.parse().unwrap_or(0))
        .collect();
    let [count, piece_len] = numbers[..] else {
        eprintln!("plain FRAMES PIECE_LENGTH");
        return;
    };
    let stream = requests(count);
    let mut fastest = u128::MAX;
    for turn in 0..TURNS {
        let start = Instant::now();
        let fed = black_box(feed_all(&stream, piece_len as usize));
        fastest = fastest.min(start.elapsed().as_nanos());
        if turn == 0 {
            match fed {
                Ok(tally) => println!(
                    "frames {}, body bytes {}, mix {}",
                    tally.frames, tally.bytes, tally.mix
                ),
                Err(error) => println!("{error:?}"),
            }
        }
    }
    println!("bytes {}, nanoseconds {fastest}", stream.len());
}
