//! A plain, unverified `biropuve script` for scripts of the lines `put`, `get`, `deliver`, `drop` and
//! `settle`, to compare speed with the verified program on the same input with byte-equal output.
//!
//! Build: rustc --edition 2021 -O -C target-cpu=native plain.rs
//! Run:   plain [script] < file
//!
//! It does the replication work: each node has its own store, each message owns its bytes and stays in the network for
//! later deliveries (a delivery copies it), coordinators count distinct replicas and merge the contents of the replies.
//! Not here: `cql`, `schema` (status 64), and what comes with later stages (logs, deadlines, marks, hints, mends).

use std::cmp::Ordering;
use std::collections::btree_map::Entry;
use std::collections::{BTreeMap, HashMap};
use std::io::{self, Read as _, Write as _};

const MOST_BYTES: usize = 64 << 20;
const MOST_LINES: usize = 1_000_000;
const MOST_VALUE: usize = 1 << 20;
const MOST_KEY: usize = 65_535;
const MOST_AHEAD: u64 = 60_000_000;
const COLUMN_V: u8 = 2;

type NodeId = u8;
type Micros = u64;

fn main() {
    let words: Vec<String> = std::env::args().skip(1).collect();
    if !(words.is_empty() || words == ["script"]) {
        println!("usage: script");
        std::process::exit(2);
    }
    match run(io::stdin().lock(), io::stdout().lock()) {
        Ok(status) => std::process::exit(status),
        Err(error) => {
            eprintln!("plain_script: {error}");
            std::process::exit(4);
        }
    }
}

fn run(source: impl io::Read, mut sink: impl io::Write) -> io::Result<i32> {
    let mut text = Vec::new();
    source.take(MOST_BYTES as u64 + 1).read_to_end(&mut text)?;
    let (status, printed) = match parse(&text) {
        Ok(script) => (0, run_script(&script)),
        Err(Refused::Unsupported(line)) => {
            eprintln!("plain_script: line {line} is outside of its subset");
            return Ok(64);
        }
        Err(refused) => (3, refused.text().into_bytes()),
    };
    sink.write_all(&printed)?;
    sink.flush()?;
    Ok(status)
}

// Scripts.

#[derive(Clone, Copy)]
enum Level {
    One,
    Two,
    Three,
    Quorum,
    All,
    Serial,
}

impl Level {
    fn read(word: &str) -> Option<Level> {
        Some(match word {
            "ONE" | "LOCAL_ONE" => Level::One,
            "TWO" => Level::Two,
            "THREE" => Level::Three,
            "QUORUM" | "LOCAL_QUORUM" => Level::Quorum,
            "ALL" => Level::All,
            "SERIAL" | "LOCAL_SERIAL" => Level::Serial,
            _ => return None,
        })
    }

    fn block_for(self, factor: u32) -> u32 {
        match self {
            Level::One => 1,
            Level::Two => 2,
            Level::Three => 3,
            Level::Quorum | Level::Serial => factor / 2 + 1,
            Level::All => factor,
        }
    }
}

enum Event<'a> {
    Put { node: NodeId, level: Level, key: &'a str, row: &'a str, ts: i64, value: &'a str },
    Get { node: NodeId, level: Level, key: &'a str },
    Deliver { from: NodeId, upto: NodeId, count: u64 },
    Drop { from: NodeId, upto: NodeId, count: u64 },
    Settle(u32),
}

struct Script<'a> {
    tokens: Vec<i64>,
    factor: u32,
    expiry: Micros,
    events: Vec<Event<'a>>,
}

enum Refused {
    Head(usize),
    Line(usize),
    Number(usize),
    TooLong,
    TooMany,
    Unsupported(usize),
}

impl Refused {
    fn text(&self) -> String {
        match self {
            Refused::Head(line) => format!("{line}: head expected\n"),
            Refused::Line(line) => format!("{line}: line not understood\n"),
            Refused::Number(line) => format!("{line}: number out of range\n"),
            Refused::TooLong => "script too long\n".to_string(),
            Refused::TooMany => "too many lines\n".to_string(),
            Refused::Unsupported(line) => format!("{line}: unsupported\n"),
        }
    }
}

/// The lines of a text, with their numbers; empty lines and comments are passed over.
struct Lines<'a> {
    rest: &'a [u8],
    number: usize,
}

impl<'a> Lines<'a> {
    fn next(&mut self) -> Option<&'a [u8]> {
        while !self.rest.is_empty() {
            let end = self.rest.iter().position(|&b| b == b'\n');
            let (line, rest) = match end {
                Some(end) => (&self.rest[..end], &self.rest[end + 1..]),
                None => (self.rest, &self.rest[self.rest.len()..]),
            };
            self.rest = rest;
            self.number += 1;
            if !line.is_empty() && line[0] != b'#' {
                return Some(line);
            }
        }
        None
    }

    fn head(&mut self) -> Result<Vec<&'a str>, Refused> {
        let Some(line) = self.next() else {
            return Err(Refused::Head(self.number + 1));
        };
        let line = std::str::from_utf8(line).map_err(|_| Refused::Head(self.number))?;
        if line.starts_with(' ') || line.ends_with(' ') && !line.starts_with("schema ") {
            return Err(Refused::Head(self.number));
        }
        Ok(words(line).collect())
    }
}

fn words(line: &str) -> impl Iterator<Item = &str> {
    line.split(' ').filter(|word| !word.is_empty())
}

fn is_number(word: &str) -> bool {
    !word.is_empty() && word.bytes().all(|b| b.is_ascii_digit())
}

fn is_signed(word: &str) -> bool {
    is_number(word.strip_prefix('-').unwrap_or(word))
}

fn parse(text: &[u8]) -> Result<Script<'_>, Refused> {
    if text.len() > MOST_BYTES {
        return Err(Refused::TooLong);
    }
    let mut lines = Lines { rest: text, number: 0 };
    let mut script = parse_head(&mut lines)?;
    let begin = lines.number;
    while let Some(line) = lines.next() {
        script.events.push(parse_event(line, lines.number, script.tokens.len())?);
    }
    if lines.number - begin > MOST_LINES {
        return Err(Refused::TooMany);
    }
    Ok(script)
}

fn parse_head<'a>(lines: &mut Lines<'a>) -> Result<Script<'a>, Refused> {
    if lines.head()? != ["cassandra-script", "1"] {
        return Err(Refused::Head(lines.number));
    }
    let ring = lines.head()?;
    if ring[0] != "ring" || !(2..=8).contains(&ring.len()) || !ring[1..].iter().all(|word| is_signed(word)) {
        return Err(Refused::Head(lines.number));
    }
    let mut tokens = Vec::new();
    for word in &ring[1..] {
        tokens.push(word.parse::<i64>().map_err(|_| Refused::Number(lines.number))?);
    }
    if (1..tokens.len()).any(|i| tokens[..i].contains(&tokens[i])) {
        return Err(Refused::Head(lines.number));
    }
    let mut words = lines.head()?;
    if words[0] != "rf" {
        return Err(Refused::Head(lines.number));
    }
    let factor = head_number(&words, 1, tokens.len() as u64, lines.number)?;
    words = lines.head()?;
    if words[0] == "grace" {
        head_number(&words, 0, 100_000_000, lines.number)?;
        words = lines.head()?;
    }
    let mut expiry = 10_800;
    if words[0] == "expiry" {
        expiry = head_number(&words, 1_000, 100_000, lines.number)?;
        words = lines.head()?;
    }
    if words[0] == "schema" {
        return Err(Refused::Unsupported(lines.number));
    }
    if words != ["run"] {
        return Err(Refused::Head(lines.number));
    }
    Ok(Script { tokens, factor: factor as u32, expiry: expiry * 1_000_000, events: Vec::new() })
}

fn head_number(words: &[&str], low: u64, high: u64, line: usize) -> Result<u64, Refused> {
    if words.len() != 2 || !is_number(words[1]) {
        return Err(Refused::Head(line));
    }
    match words[1].parse::<u64>() {
        Ok(number) if (low..=high).contains(&number) => Ok(number),
        _ => Err(Refused::Number(line)),
    }
}

fn parse_event(line: &[u8], number: usize, nodes: usize) -> Result<Event<'_>, Refused> {
    let wrong = Refused::Line(number);
    let Ok(line) = std::str::from_utf8(line) else { return Err(wrong) };
    if line.starts_with("cql ") {
        return Err(Refused::Unsupported(number));
    }
    if line.starts_with(' ') || line.ends_with(' ') {
        return Err(wrong);
    }
    let mut found = [""; 7];
    let mut count = 0;
    for word in words(line) {
        if count == found.len() {
            return Err(wrong);
        }
        found[count] = word;
        count += 1;
    }
    let out_of_range = || Refused::Number(number);
    let node = |word: &str| match word.parse::<u64>() {
        Ok(node) if node < nodes as u64 => Ok(node as NodeId),
        _ => Err(Refused::Number(number)),
    };
    match found[..count] {
        ["put", n, level, key, row, ts, value] if is_number(n) && is_signed(ts) => Ok(Event::Put {
            node: node(n)?,
            level: Level::read(level).ok_or_else(out_of_range)?,
            key,
            row,
            ts: ts.parse().map_err(|_| out_of_range())?,
            value,
        }),
        ["get", n, level, key] if is_number(n) => {
            Ok(Event::Get { node: node(n)?, level: Level::read(level).ok_or_else(out_of_range)?, key })
        }
        [name @ ("deliver" | "drop"), from, upto, k] if is_number(from) && is_number(upto) && is_number(k) => {
            let (from, upto) = (node(from)?, node(upto)?);
            let count = k.parse().map_err(|_| out_of_range())?;
            Ok(if name == "deliver" {
                Event::Deliver { from, upto, count }
            } else {
                Event::Drop { from, upto, count }
            })
        }
        ["settle", n] if is_number(n) => match n.parse() {
            Ok(n) if (1..=100_000).contains(&n) => Ok(Event::Settle(n)),
            _ => Err(out_of_range()),
        },
        _ => Err(wrong),
    }
}

// Placement.

/// The first half of MurmurHash3 x64 128 with seed 0; tail bytes are sign-extended.
fn token(key: &[u8]) -> i64 {
    fn mix_first(word: u64) -> u64 {
        word.wrapping_mul(0x87c3_7b91_1142_53d5).rotate_left(31).wrapping_mul(0x4cf5_ad43_2745_937f)
    }
    fn mix_second(word: u64) -> u64 {
        word.wrapping_mul(0x4cf5_ad43_2745_937f).rotate_left(33).wrapping_mul(0x87c3_7b91_1142_53d5)
    }
    fn tail_word(tail: &[u8]) -> u64 {
        tail.iter().enumerate().fold(0, |word, (i, &byte)| word ^ (byte as i8 as i64 as u64) << (8 * i))
    }
    fn finalize(mut word: u64) -> u64 {
        word = (word ^ word >> 33).wrapping_mul(0xff51_afd7_ed55_8ccd);
        word = (word ^ word >> 33).wrapping_mul(0xc4ce_b9fe_1a85_ec53);
        word ^ word >> 33
    }

    if key.is_empty() {
        return i64::MIN;
    }
    let (mut first, mut second) = (0u64, 0u64);
    let mut blocks = key.chunks_exact(16);
    for block in &mut blocks {
        let one = u64::from_le_bytes(block[..8].try_into().unwrap());
        let two = u64::from_le_bytes(block[8..].try_into().unwrap());
        first ^= mix_first(one);
        first = first.rotate_left(27).wrapping_add(second).wrapping_mul(5).wrapping_add(0x52dc_e729);
        second ^= mix_second(two);
        second = second.rotate_left(31).wrapping_add(first).wrapping_mul(5).wrapping_add(0x3849_5ab5);
    }
    let tail = blocks.remainder();
    if tail.len() > 8 {
        second ^= mix_second(tail_word(&tail[8..]));
    }
    if !tail.is_empty() {
        first ^= mix_first(tail_word(&tail[..tail.len().min(8)]));
    }
    first ^= key.len() as u64;
    second ^= key.len() as u64;
    first = first.wrapping_add(second);
    second = second.wrapping_add(first);
    let word = finalize(first).wrapping_add(finalize(second)) as i64;
    if word == i64::MIN { i64::MAX } else { word }
}

/// A set of nodes.
#[derive(Clone, Copy, Default)]
struct NodeSet(u8);

impl NodeSet {
    fn add(&mut self, node: NodeId) -> bool {
        let is_new = self.0 & 1 << node == 0;
        self.0 |= 1 << node;
        is_new
    }

    fn len(self) -> u32 {
        self.0.count_ones()
    }

    /// The nodes by rising number.
    fn iter(self) -> impl Iterator<Item = NodeId> {
        (0..8).filter(move |node| self.0 & 1 << node != 0)
    }
}

struct Ring {
    /// Tokens with their nodes, clockwise.
    places: Vec<(i64, NodeId)>,
    factor: u32,
    expiry: Micros,
}

impl Ring {
    fn new(script: &Script) -> Ring {
        let mut places: Vec<_> = script.tokens.iter().copied().zip(0..).collect();
        places.sort_unstable();
        Ring { places, factor: script.factor, expiry: script.expiry }
    }

    fn replicas(&self, token: i64) -> NodeSet {
        let owner = self.places.partition_point(|place| place.0 < token);
        let mut found = NodeSet::default();
        for (_, node) in self.places.iter().cycle().skip(owner).take(self.factor as usize) {
            found.add(*node);
        }
        found
    }
}

// Changes.

#[derive(Clone, Copy, PartialEq, Eq, PartialOrd, Ord, Hash)]
struct ReqId {
    node: NodeId,
    time: Micros,
}

#[derive(Clone, PartialEq, Eq, PartialOrd, Ord)]
struct Partition {
    token: i64,
    key: Vec<u8>,
}

impl Partition {
    fn new(key: &[u8]) -> Partition {
        Partition { token: token(key), key: key.to_vec() }
    }
}

#[derive(Clone, PartialEq, Eq, PartialOrd, Ord)]
struct Place {
    row: Vec<u8>,
    column: u8,
}

/// What stands in a place; no value is a deletion.
#[derive(Clone)]
struct Held {
    value: Option<Vec<u8>>,
    ts: i64,
    sub: Micros,
    req: ReqId,
}

impl Held {
    /// Which of two changes of one place wins.
    fn beats(&self, other: &Held) -> bool {
        self.ts
            .cmp(&other.ts)
            .then_with(|| match (&self.value, &other.value) {
                (None, None) => Ordering::Equal,
                (None, Some(_)) => Ordering::Greater,
                (Some(_), None) => Ordering::Less,
                (Some(mine), Some(others)) => mine.cmp(others),
            })
            .then_with(|| self.sub.cmp(&other.sub))
            .then_with(|| self.req.cmp(&other.req))
            == Ordering::Greater
    }
}

/// The changes of a partition, by row and column.
#[derive(Clone, Default)]
struct Content(BTreeMap<Place, Held>);

impl Content {
    fn apply(&mut self, place: Place, held: Held) {
        match self.0.entry(place) {
            Entry::Vacant(free) => {
                free.insert(held);
            }
            Entry::Occupied(mut kept) => {
                if held.beats(kept.get()) {
                    kept.insert(held);
                }
            }
        }
    }

    fn merge(&mut self, other: Content) {
        for (place, held) in other.0 {
            self.apply(place, held);
        }
    }

    /// The rows that show, with their values of column v.
    fn rows(&self) -> impl Iterator<Item = (&[u8], &[u8])> {
        self.0.iter().filter_map(|(place, held)| Some((&place.row[..], held.value.as_deref()?)))
    }
}

/// Order bytes of a text (04, C.2).
fn order_bytes(text: &[u8]) -> Vec<u8> {
    let mut bytes = Vec::with_capacity(text.len() + 2);
    for &byte in text {
        bytes.push(byte);
        if byte == 0 {
            bytes.push(0xff);
        }
    }
    bytes.extend([0, 0]);
    bytes
}

/// The text of order bytes.
fn read_order(bytes: &[u8]) -> impl Iterator<Item = u8> + '_ {
    let mut rest = bytes.iter();
    std::iter::from_fn(move || match rest.next() {
        Some(0) => (rest.next() == Some(&0xff)).then_some(0),
        found => found.copied(),
    })
}

#[derive(Clone)]
struct Mutation {
    partition: Partition,
    changes: Vec<(Place, Held)>,
}

#[derive(Clone)]
struct Query {
    partition: Partition,
}

// Messages.

#[derive(Clone)]
enum Body {
    Write(Mutation),
    WriteAck,
    Read(Query),
    ReadReply(Content),
}

#[derive(Clone)]
struct Message {
    from: NodeId,
    upto: NodeId,
    time: Micros,
    born: Micros,
    req: ReqId,
    body: Body,
}

/// All messages ever sent; each can be delivered again.
struct Network {
    nodes: usize,
    messages: Vec<Message>,
    done: Vec<bool>,
    oldest: usize,
    /// For each ordered pair of nodes the places of its messages.
    sent: Vec<Vec<usize>>,
}

impl Network {
    fn new(nodes: usize) -> Network {
        Network { nodes, messages: Vec::new(), done: Vec::new(), oldest: 0, sent: vec![Vec::new(); nodes * nodes] }
    }

    fn post(&mut self, message: Message) {
        let pair = message.from as usize * self.nodes + message.upto as usize;
        self.sent[pair].push(self.messages.len());
        self.messages.push(message);
        self.done.push(false);
    }

    /// The place of the k-th message of a pair of nodes.
    fn find(&self, from: NodeId, upto: NodeId, k: u64) -> Option<usize> {
        let sent = &self.sent[from as usize * self.nodes + upto as usize];
        sent.get(usize::try_from(k.checked_sub(1)?).ok()?).copied()
    }

    /// The oldest message that was neither delivered nor dropped.
    fn next(&mut self) -> Option<usize> {
        while *self.done.get(self.oldest)? {
            self.oldest += 1;
        }
        Some(self.oldest)
    }
}

// Nodes.

enum Plan {
    Write { partition: Partition, row: Vec<u8>, value: Vec<u8>, ts: i64 },
    Read(Query),
    Invalid(&'static str),
}

enum Answer {
    Ok,
    Rows(Content),
    Unavailable { required: u32, alive: u32 },
    Invalid(&'static str),
}

enum Coordinator {
    Write { replicas: u32, wanted: u32, acknowledged: NodeSet },
    Read { wanted: u32, replied: NodeSet, replies: Vec<Content> },
}

/// An open request; `number` is its number in the script.
struct Open {
    number: u64,
    coordinator: Coordinator,
}

struct Node {
    id: NodeId,
    time: Micros,
    store: BTreeMap<Partition, Content>,
    open: HashMap<ReqId, Open>,
}

/// What a step gives: messages to other nodes, and answers with the numbers of their requests.
#[derive(Default)]
struct Outputs {
    sends: Vec<Message>,
    local: Vec<Message>,
    answers: Vec<(u64, Answer)>,
}

impl Node {
    fn new(id: NodeId) -> Node {
        Node { id, time: 0, store: BTreeMap::new(), open: HashMap::new() }
    }

    fn client(&mut self, ring: &Ring, out: &mut Outputs, number: u64, level: Level, plan: Plan) {
        self.time += 1;
        let req = ReqId { node: self.id, time: self.time };
        let partition = match &plan {
            Plan::Write { partition, .. } => partition,
            Plan::Read(query) => &query.partition,
            Plan::Invalid(name) => return out.answers.push((number, Answer::Invalid(name))),
        };
        if let Level::Serial = level {
            let name = if let Plan::Write { .. } = plan { "SerialWrite" } else { "Level" };
            return out.answers.push((number, Answer::Invalid(name)));
        }
        let replicas = ring.replicas(partition.token);
        let (alive, required) = (replicas.len(), level.block_for(ring.factor));
        if alive < required {
            return out.answers.push((number, Answer::Unavailable { required, alive }));
        }
        let (coordinator, body) = match plan {
            Plan::Write { partition, row, value, ts } => {
                let held = Held { value: Some(value), ts, sub: req.time, req };
                let changes = vec![(Place { row, column: COLUMN_V }, held)];
                (
                    Coordinator::Write { replicas: alive, wanted: required, acknowledged: NodeSet::default() },
                    Body::Write(Mutation { partition, changes }),
                )
            }
            Plan::Read(query) => (
                Coordinator::Read { wanted: required, replied: NodeSet::default(), replies: Vec::new() },
                Body::Read(query),
            ),
            Plan::Invalid(_) => unreachable!(),
        };
        self.open.insert(req, Open { number, coordinator });
        for (replica, body) in replicas.iter().zip(std::iter::repeat_n(body, alive as usize)) {
            self.send(out, replica, req.time, req, body);
        }
        self.take_local(out);
    }

    fn deliver(&mut self, ring: &Ring, out: &mut Outputs, message: Message) {
        if message.time > self.time + MOST_AHEAD {
            self.time += 1;
            return;
        }
        self.time = self.time.max(message.time) + 1;
        if self.time.saturating_sub(message.born) > ring.expiry {
            return;
        }
        self.handle(out, message);
        self.take_local(out);
    }

    fn send(&self, out: &mut Outputs, upto: NodeId, born: Micros, req: ReqId, body: Body) {
        let message = Message { from: self.id, upto, time: self.time, born, req, body };
        if upto == self.id {
            out.local.push(message);
        } else {
            out.sends.push(message);
        }
    }

    /// Messages to itself are taken inside the step, in their order.
    fn take_local(&mut self, out: &mut Outputs) {
        while !out.local.is_empty() {
            let message = out.local.remove(0);
            self.handle(out, message);
        }
    }

    fn handle(&mut self, out: &mut Outputs, message: Message) {
        let Message { from, born, req, body, .. } = message;
        match body {
            Body::Write(Mutation { partition, changes }) => {
                let content = self.store.entry(partition).or_default();
                for (place, held) in changes {
                    content.apply(place, held);
                }
                self.send(out, from, born, req, Body::WriteAck);
            }
            Body::Read(query) => {
                let content = self.store.get(&query.partition).cloned().unwrap_or_default();
                self.send(out, from, born, req, Body::ReadReply(content));
            }
            Body::WriteAck => self.take_ack(out, from, req),
            Body::ReadReply(content) => self.take_reply(out, from, req, content),
        }
    }

    fn take_ack(&mut self, out: &mut Outputs, from: NodeId, req: ReqId) {
        let Some(open) = self.open.get_mut(&req) else { return };
        let Coordinator::Write { replicas, wanted, acknowledged } = &mut open.coordinator else { return };
        if !acknowledged.add(from) {
            return;
        }
        if acknowledged.len() == *wanted {
            out.answers.push((open.number, Answer::Ok));
        }
        if acknowledged.len() == *replicas {
            self.open.remove(&req);
        }
    }

    fn take_reply(&mut self, out: &mut Outputs, from: NodeId, req: ReqId, content: Content) {
        let Some(open) = self.open.get_mut(&req) else { return };
        let Coordinator::Read { wanted, replied, replies } = &mut open.coordinator else { return };
        if !replied.add(from) {
            return;
        }
        replies.push(content);
        if replied.len() < *wanted {
            return;
        }
        let merged = std::mem::take(replies).into_iter().reduce(|mut merged, reply| {
            merged.merge(reply);
            merged
        });
        out.answers.push((open.number, Answer::Rows(merged.unwrap_or_default())));
        self.open.remove(&req);
    }
}

// The cluster.

struct Cluster {
    ring: Ring,
    nodes: Vec<Node>,
    network: Network,
    asked: u64,
    printed: Vec<u8>,
    /// The outputs of the running step; empty between steps.
    out: Outputs,
}

fn run_script(script: &Script) -> Vec<u8> {
    let count = script.tokens.len();
    let mut cluster = Cluster {
        ring: Ring::new(script),
        nodes: (0..count as NodeId).map(Node::new).collect(),
        network: Network::new(count),
        asked: 0,
        printed: Vec::new(),
        out: Outputs::default(),
    };
    for event in &script.events {
        cluster.run(event);
    }
    cluster.printed
}

impl Cluster {
    fn run(&mut self, event: &Event) {
        match *event {
            Event::Put { node, level, key, row, ts, value } => self.put(node, level, key, row, ts, value),
            Event::Get { node, level, key } => {
                let plan = if key.len() > MOST_KEY {
                    Plan::Invalid("KeyTooLong")
                } else {
                    Plan::Read(Query { partition: Partition::new(key.as_bytes()) })
                };
                self.client(node, level, plan);
            }
            Event::Deliver { from, upto, count } => {
                if let Some(place) = self.network.find(from, upto, count) {
                    self.deliver(place);
                }
            }
            Event::Drop { from, upto, count } => {
                if let Some(place) = self.network.find(from, upto, count) {
                    self.network.done[place] = true;
                }
            }
            Event::Settle(count) => {
                for _ in 0..count {
                    let Some(place) = self.network.next() else { break };
                    self.deliver(place);
                }
            }
        }
    }

    fn put(&mut self, node: NodeId, level: Level, key: &str, row: &str, ts: i64, value: &str) {
        let row = order_bytes(row.as_bytes());
        let plan = if value.len() > MOST_VALUE {
            Plan::Invalid("ValueTooLong")
        } else if key.len() > MOST_KEY || row.len() > MOST_KEY {
            Plan::Invalid("KeyTooLong")
        } else {
            Plan::Write { partition: Partition::new(key.as_bytes()), row, value: value.as_bytes().to_vec(), ts }
        };
        self.client(node, level, plan);
    }

    fn client(&mut self, node: NodeId, level: Level, plan: Plan) {
        self.asked += 1;
        self.nodes[node as usize].client(&self.ring, &mut self.out, self.asked, level, plan);
        self.finish_step();
    }

    fn deliver(&mut self, place: usize) {
        self.network.done[place] = true;
        let message = self.network.messages[place].clone();
        self.nodes[message.upto as usize].deliver(&self.ring, &mut self.out, message);
        self.finish_step();
    }

    fn finish_step(&mut self) {
        for (number, answer) in self.out.answers.drain(..) {
            print_answer(&mut self.printed, number, &answer);
        }
        for message in self.out.sends.drain(..) {
            self.network.post(message);
        }
    }
}

// Printing.

fn print_answer(printed: &mut Vec<u8>, number: u64, answer: &Answer) {
    let written = match answer {
        Answer::Ok => writeln!(printed, "{number} ok"),
        Answer::Unavailable { required, alive } => {
            writeln!(printed, "{number} unavailable required {required} alive {alive}")
        }
        Answer::Invalid(name) => writeln!(printed, "{number} invalid {name}"),
        Answer::Rows(content) => {
            let head = writeln!(printed, "{number} rows {}", content.rows().count());
            for (row, value) in content.rows() {
                printed.push(b' ');
                print_text(printed, read_order(row));
                printed.extend_from_slice(b" | ");
                print_text(printed, value.iter().copied());
                printed.push(b'\n');
            }
            head
        }
    };
    written.expect("a Vec takes each write");
}

fn print_text(printed: &mut Vec<u8>, text: impl Iterator<Item = u8>) {
    printed.push(b'\'');
    for byte in text {
        printed.push(byte);
        if byte == b'\'' {
            printed.push(byte);
        }
    }
    printed.push(b'\'');
}
