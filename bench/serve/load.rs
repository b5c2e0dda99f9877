//! Clients of a store over loopback, each of which waits for an answer before it asks again: how many requests a second are answered,
//! and how long they take. The same loop asks each of the systems, in its own protocol. Or the same of plain syncs of a file.
//!
//! load SYSTEM fill|write|read CLIENTS SECONDS MOST KEYS PORT..
//! load syncs FILE SECONDS FIRST SECOND
//!
//! SYSTEM is `one`, `quorum` (CQL at that level), `etcd`, `postgres` or `redis`. `fill` writes each key once; the others take keys at
//! random, until the seconds are over or MOST requests were made. `syncs` appends FIRST bytes and syncs, and then SECOND bytes.
//! Printed are: requests that were answered well, others, nanoseconds in all, the median's and the 99th percentile's nanoseconds.

use std::fs::File;
use std::io::{self, BufRead, BufReader, Error, Read, Write};
use std::net::TcpStream;
use std::os::unix::fs::FileExt;
use std::sync::atomic::{AtomicI64, Ordering};
use std::sync::Barrier;
use std::time::{Duration, Instant};
use std::{env, thread};

trait Store {
    /// Whether the write was acknowledged.
    fn write(&mut self, key: &str, value: &str) -> io::Result<bool>;

    /// Whether the key has this value.
    fn read(&mut self, key: &str, value: &str) -> io::Result<bool>;
}

type Stream = BufReader<TcpStream>;

fn connected(port: u16) -> io::Result<Stream> {
    let stream = TcpStream::connect(("127.0.0.1", port))?;
    stream.set_nodelay(true)?;
    stream.set_read_timeout(Some(Duration::from_secs(30)))?;
    Ok(BufReader::new(stream))
}

fn take(stream: &mut Stream, length: usize) -> io::Result<Vec<u8>> {
    let mut bytes = vec![0; length];
    stream.read_exact(&mut bytes)?;
    Ok(bytes)
}

fn odd<T>(text: &str) -> io::Result<T> {
    Err(Error::other(format!("an odd answer: {text}")))
}

fn int(bytes: &[u8]) -> usize {
    bytes
        .iter()
        .fold(0, |number, byte| number << 8 | usize::from(*byte))
}

fn push_short(bytes: &mut Vec<u8>, number: usize) {
    bytes.extend_from_slice(&(number as u16).to_be_bytes());
}

fn push_int(bytes: &mut Vec<u8>, number: usize) {
    bytes.extend_from_slice(&(number as u32).to_be_bytes());
}

fn push_value(bytes: &mut Vec<u8>, text: &str) {
    push_int(bytes, text.len());
    bytes.extend_from_slice(text.as_bytes());
}

/// A node that speaks CQL's native protocol.
struct Cql {
    stream: Stream,
    level: usize,
    write: Vec<u8>,
    read: Vec<u8>,
}

impl Cql {
    fn new(port: u16, level: usize) -> io::Result<Cql> {
        let mut cql = Cql {
            stream: connected(port)?,
            level,
            write: Vec::new(),
            read: Vec::new(),
        };
        let (opcode, _) = cql.ask(0x01, b"\x00\x01\x00\x0bCQL_VERSION\x00\x053.4.0")?;
        if opcode != 0x02 {
            return odd("not ready");
        }
        cql.write = cql.prepare("INSERT INTO bench.kv (k, v) VALUES (?, ?)")?;
        cql.read = cql.prepare("SELECT v FROM bench.kv WHERE k = ?")?;
        Ok(cql)
    }

    fn ask(&mut self, opcode: u8, body: &[u8]) -> io::Result<(u8, Vec<u8>)> {
        let mut frame = vec![4, 0, 0, 0, opcode];
        push_int(&mut frame, body.len());
        frame.extend_from_slice(body);
        self.stream.get_mut().write_all(&frame)?;
        let head = take(&mut self.stream, 9)?;
        let body = take(&mut self.stream, int(&head[5..]))?;
        Ok((head[4], body))
    }

    /// The id of a statement, with its length.
    fn prepare(&mut self, statement: &str) -> io::Result<Vec<u8>> {
        let mut body = Vec::new();
        push_value(&mut body, statement);
        let (opcode, answer) = self.ask(0x09, &body)?;
        if opcode != 0x08 || int(&answer[..4]) != 4 {
            return odd("not prepared");
        }
        Ok(answer[4..6 + int(&answer[4..6])].to_vec())
    }

    fn execute(&mut self, mut body: Vec<u8>, values: &[&str]) -> io::Result<(u8, Vec<u8>)> {
        push_short(&mut body, self.level);
        // With values, and without metadata.
        body.push(0x03);
        push_short(&mut body, values.len());
        for value in values {
            push_value(&mut body, value);
        }
        self.ask(0x0a, &body)
    }
}

impl Store for Cql {
    fn write(&mut self, key: &str, value: &str) -> io::Result<bool> {
        let (opcode, body) = self.execute(self.write.clone(), &[key, value])?;
        Ok(opcode == 0x08 && body == [0, 0, 0, 1])
    }

    fn read(&mut self, key: &str, value: &str) -> io::Result<bool> {
        let (opcode, body) = self.execute(self.read.clone(), &[key])?;
        // Rows, no metadata, one column, one row.
        let mut want = [[0, 0, 0, 2], [0, 0, 0, 4], [0, 0, 0, 1], [0, 0, 0, 1]].concat();
        push_value(&mut want, value);
        Ok(opcode == 0x08 && body == want)
    }
}

struct Redis {
    stream: Stream,
}

impl Redis {
    fn ask(&mut self, words: &[&str]) -> io::Result<String> {
        let mut text = format!("*{}\r\n", words.len());
        for word in words {
            text += &format!("${}\r\n{word}\r\n", word.len());
        }
        self.stream.get_mut().write_all(text.as_bytes())?;
        let mut line = String::new();
        self.stream.read_line(&mut line)?;
        Ok(line)
    }
}

impl Store for Redis {
    fn write(&mut self, key: &str, value: &str) -> io::Result<bool> {
        Ok(self.ask(&["SET", key, value])? == "+OK\r\n")
    }

    fn read(&mut self, key: &str, value: &str) -> io::Result<bool> {
        let line = self.ask(&["GET", key])?;
        let Some(Ok(length)) = line.trim_end().strip_prefix('$').map(str::parse::<usize>) else {
            return Ok(false);
        };
        let found = take(&mut self.stream, length + 2)?;
        Ok(&found[..length] == value.as_bytes())
    }
}

/// PostgreSQL by its extended protocol, with statements that were parsed once.
struct Postgres {
    stream: Stream,
}

/// The rows that came, and whether there was no error.
struct Told {
    rows: Vec<Vec<u8>>,
    well: bool,
}

impl Postgres {
    fn new(port: u16) -> io::Result<Postgres> {
        let mut postgres = Postgres {
            stream: connected(port)?,
        };
        let mut body = vec![0, 3, 0, 0];
        body.extend_from_slice(b"user\0postgres\0database\0postgres\0\0");
        let mut message = Vec::new();
        push_int(&mut message, body.len() + 4);
        message.extend_from_slice(&body);
        let begun = postgres.tell(&message)?;
        let mut parses = Vec::new();
        let statements = [
            "write\0INSERT INTO kv (k, v) VALUES ($1, $2) ON CONFLICT (k) DO UPDATE SET v = excluded.v\0\0\0",
            "read\0SELECT v FROM kv WHERE k = $1\0\0\0",
        ];
        for statement in statements {
            push_message(&mut parses, b'P', statement.as_bytes());
        }
        push_message(&mut parses, b'S', b"");
        let parsed = postgres.tell(&parses)?;
        if !begun.well || !parsed.well {
            return odd("no session with its statements");
        }
        Ok(postgres)
    }

    /// What comes until it is ready for more.
    fn tell(&mut self, messages: &[u8]) -> io::Result<Told> {
        self.stream.get_mut().write_all(messages)?;
        let mut told = Told {
            rows: Vec::new(),
            well: true,
        };
        loop {
            let head = take(&mut self.stream, 5)?;
            let body = take(&mut self.stream, int(&head[1..]) - 4)?;
            match head[0] {
                b'Z' => return Ok(told),
                b'E' => told.well = false,
                b'D' => told.rows.push(body),
                _ => {}
            }
        }
    }

    fn execute(&mut self, name: &str, values: &[&str]) -> io::Result<Told> {
        let mut bind = format!("\0{name}\0\0\0").into_bytes();
        push_short(&mut bind, values.len());
        for value in values {
            push_value(&mut bind, value);
        }
        push_short(&mut bind, 0);
        let mut messages = Vec::new();
        push_message(&mut messages, b'B', &bind);
        push_message(&mut messages, b'E', b"\0\0\0\0\0");
        push_message(&mut messages, b'S', b"");
        self.tell(&messages)
    }
}

fn push_message(bytes: &mut Vec<u8>, kind: u8, body: &[u8]) {
    bytes.push(kind);
    push_int(bytes, body.len() + 4);
    bytes.extend_from_slice(body);
}

impl Store for Postgres {
    fn write(&mut self, key: &str, value: &str) -> io::Result<bool> {
        Ok(self.execute("write", &[key, value])?.well)
    }

    fn read(&mut self, key: &str, value: &str) -> io::Result<bool> {
        let told = self.execute("read", &[key])?;
        let mut want = vec![0, 1];
        push_value(&mut want, value);
        Ok(told.well && told.rows == [want])
    }
}

/// etcd by gRPC: a call is a stream of HTTP/2 with a block of headers, of which none is put into a table, and one message.
struct Etcd {
    stream: Stream,
    next: usize,
}

const DATA: u8 = 0;
const HEADERS: u8 = 1;
const RESET: u8 = 3;
const SETTINGS: u8 = 4;
const PING: u8 = 6;
const AWAY: u8 = 7;
const WINDOW: u8 = 8;

fn http_frame(kind: u8, flags: u8, stream: usize, body: &[u8]) -> Vec<u8> {
    let mut frame = vec![0];
    push_short(&mut frame, body.len());
    frame.extend_from_slice(&[kind, flags]);
    push_int(&mut frame, stream);
    frame.extend_from_slice(body);
    frame
}

/// The headers of a call: POST, http, the path, the authority, the type of content, and that trailers are taken.
fn call_headers(path: &str) -> Vec<u8> {
    let mut block = vec![0x83, 0x86];
    for (name, text) in [
        (&[0x04][..], path),
        (&[0x01], "localhost"),
        (&[0x0f, 0x10], "application/grpc"),
        (b"\0\x02te", "trailers"),
    ] {
        block.extend_from_slice(name);
        block.push(text.len() as u8);
        block.extend_from_slice(text.as_bytes());
    }
    block
}

/// A field of bytes of a message, all of whose fields are shorter than 128 bytes.
fn push_field(message: &mut Vec<u8>, number: u8, text: &str) {
    message.extend_from_slice(&[number << 3 | 2, text.len() as u8]);
    message.extend_from_slice(text.as_bytes());
}

impl Etcd {
    fn new(port: u16) -> io::Result<Etcd> {
        let mut stream = connected(port)?;
        let mut opening = b"PRI * HTTP/2.0\r\n\r\nSM\r\n\r\n".to_vec();
        opening.extend(http_frame(SETTINGS, 0, 0, b""));
        // Room for all answers of a run.
        opening.extend(http_frame(WINDOW, 0, 0, &0x7000_0000_u32.to_be_bytes()));
        stream.get_mut().write_all(&opening)?;
        Ok(Etcd { stream, next: 1 })
    }

    /// The message that a call is answered with, where there is one.
    fn call(&mut self, path: &str, message: &[u8]) -> io::Result<Option<Vec<u8>>> {
        let mut body = vec![0];
        push_int(&mut body, message.len());
        body.extend_from_slice(message);
        let mut frames = http_frame(HEADERS, 4, self.next, &call_headers(path));
        frames.extend(http_frame(DATA, 1, self.next, &body));
        self.stream.get_mut().write_all(&frames)?;
        let answer = self.answer(self.next)?;
        self.next += 2;
        Ok(answer)
    }

    fn answer(&mut self, call: usize) -> io::Result<Option<Vec<u8>>> {
        let mut data = Vec::new();
        loop {
            let head = take(&mut self.stream, 9)?;
            let body = take(&mut self.stream, int(&head[..3]))?;
            let (kind, flags, stream) = (head[3], head[4], int(&head[5..]));
            match kind {
                SETTINGS | PING if flags & 1 == 0 => {
                    let echo = if kind == PING { &body[..] } else { b"" };
                    self.stream
                        .get_mut()
                        .write_all(&http_frame(kind, 1, 0, echo))?;
                }
                AWAY => return odd("etcd goes away"),
                RESET if stream == call => return Ok(None),
                DATA if stream == call => data.extend_from_slice(&body),
                _ => {}
            }
            // An error comes without a message.
            if (kind == DATA || kind == HEADERS) && stream == call && flags & 1 == 1 {
                return Ok(if data.len() < 5 {
                    None
                } else {
                    Some(data.split_off(5))
                });
            }
        }
    }
}

impl Store for Etcd {
    fn write(&mut self, key: &str, value: &str) -> io::Result<bool> {
        let mut message = Vec::new();
        push_field(&mut message, 1, key);
        push_field(&mut message, 2, value);
        Ok(self.call("/etcdserverpb.KV/Put", &message)?.is_some())
    }

    fn read(&mut self, key: &str, value: &str) -> io::Result<bool> {
        let mut message = Vec::new();
        push_field(&mut message, 1, key);
        let answer = self
            .call("/etcdserverpb.KV/Range", &message)?
            .unwrap_or_default();
        Ok(answer
            .windows(value.len())
            .any(|piece| piece == value.as_bytes()))
    }
}

fn store(system: &str, port: u16) -> io::Result<Box<dyn Store>> {
    Ok(match system {
        "one" => Box::new(Cql::new(port, 1)?),
        "quorum" => Box::new(Cql::new(port, 4)?),
        "etcd" => Box::new(Etcd::new(port)?),
        "postgres" => Box::new(Postgres::new(port)?),
        "redis" => Box::new(Redis {
            stream: connected(port)?,
        }),
        _ => return odd(system),
    })
}

fn key(number: u64) -> String {
    format!("key {number:08}")
}

/// A hundred bytes that tell their key.
fn value(number: u64) -> String {
    format!("{:=<100}", format!("value of {} ", key(number)))
}

/// The nanoseconds of requests that were answered well, and how many others there were.
#[derive(Default)]
struct Tally {
    took: Vec<u64>,
    others: u64,
}

impl Tally {
    fn add(&mut self, well: bool, began: Instant) {
        if well {
            self.took.push(began.elapsed().as_nanos() as u64);
        } else {
            self.others += 1;
        }
    }

    fn print(mut self, elapsed: Duration) {
        self.took.sort_unstable();
        let count = self.took.len();
        let at = |share: usize| {
            self.took
                .get((count * share).div_ceil(100).max(1) - 1)
                .copied()
                .unwrap_or(0)
        };
        println!(
            "{count} {} {} {} {}",
            self.others,
            elapsed.as_nanos(),
            at(50),
            at(99)
        );
    }
}

struct Load {
    system: String,
    operation: String,
    clients: u64,
    time: Duration,
    keys: u64,
    ports: Vec<u16>,
    left: AtomicI64,
    begin: Barrier,
}

impl Load {
    fn fill(&self, client: u64, store: &mut dyn Store) -> io::Result<Tally> {
        let mut tally = Tally::default();
        for number in (client..self.keys).step_by(self.clients as usize) {
            let began = Instant::now();
            tally.add(store.write(&key(number), &value(number))?, began);
        }
        Ok(tally)
    }

    fn ask(&self, client: u64, store: &mut dyn Store) -> io::Result<Tally> {
        let mut tally = Tally::default();
        let end = Instant::now() + self.time;
        let mut word = client + 1;
        while Instant::now() < end && self.left.fetch_sub(1, Ordering::Relaxed) > 0 {
            word = word
                .wrapping_mul(6_364_136_223_846_793_005)
                .wrapping_add(1_442_695_040_888_963_407);
            let number = (word >> 33) % self.keys;
            let (key, value) = (key(number), value(number));
            let began = Instant::now();
            let well = match self.operation.as_str() {
                "write" => store.write(&key, &value)?,
                _ => store.read(&key, &value)?,
            };
            tally.add(well, began);
        }
        Ok(tally)
    }

    fn work(&self, client: u64) -> io::Result<Tally> {
        let port = self.ports[client as usize % self.ports.len()];
        // All are connected before one asks.
        let store = store(&self.system, port);
        self.begin.wait();
        let mut store = store?;
        match self.operation.as_str() {
            "fill" => self.fill(client, store.as_mut()),
            _ => self.ask(client, store.as_mut()),
        }
    }

    fn run(&self) -> io::Result<()> {
        let (tallies, elapsed) = thread::scope(|scope| {
            let threads: Vec<_> = (0..self.clients)
                .map(|client| scope.spawn(move || self.work(client)))
                .collect();
            self.begin.wait();
            let began = Instant::now();
            let tallies: Vec<_> = threads
                .into_iter()
                .map(|thread| thread.join().unwrap())
                .collect();
            (tallies, began.elapsed())
        });
        let mut all = Tally::default();
        for tally in tallies {
            let tally = tally?;
            all.took.extend(tally.took);
            all.others += tally.others;
        }
        all.print(elapsed);
        Ok(())
    }
}

fn syncs(path: &str, time: Duration, lengths: [usize; 2]) -> io::Result<()> {
    let file = File::create(path)?;
    let mut at = 0;
    let mut tally = Tally::default();
    let start = Instant::now();
    while start.elapsed() < time {
        let began = Instant::now();
        for length in lengths {
            file.write_all_at(&vec![7; length], at)?;
            file.sync_data()?;
            at += length as u64;
        }
        tally.add(true, began);
    }
    tally.print(start.elapsed());
    Ok(())
}

fn number<T: std::str::FromStr>(words: &[String], place: usize) -> T {
    words
        .get(place)
        .and_then(|word| word.parse().ok())
        .unwrap_or_else(|| panic!("a number at {place}"))
}

fn main() -> io::Result<()> {
    let words: Vec<String> = env::args().skip(1).collect();
    if words[0] == "syncs" {
        return syncs(
            &words[1],
            Duration::from_secs_f64(number(&words, 2)),
            [number(&words, 3), number(&words, 4)],
        );
    }
    let clients = number(&words, 2);
    let load = Load {
        system: words[0].clone(),
        operation: words[1].clone(),
        clients,
        time: Duration::from_secs_f64(number(&words, 3)),
        keys: number(&words, 5),
        ports: (6..words.len())
            .map(|place| number(&words, place))
            .collect(),
        left: AtomicI64::new(number(&words, 4)),
        begin: Barrier::new(clients as usize + 1),
    };
    load.run()
}
