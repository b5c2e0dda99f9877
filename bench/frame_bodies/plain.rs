//! Decodes QUERY and EXECUTE bodies and encodes Rows of 100 rows in plain Rust: the same measurement as
//! `protocol_bench bodies`: `plain COUNT`.

use std::hint::black_box;
use std::time::Instant;

const TURNS: u32 = 7;

const QUERY: &[u8] = b"\x00\x00\x00\x1bSELECT v FROM t WHERE k = ?\x00\x06\x25\x00\x03\x00\x00\x00\x04\x00\x00\x00\x01\x00\x00\x00\x10abcdefghijklmnop\x00\x00\x00\x00\x00\x00\x13\x08\x00\x06\x44\x59\x41\x62\x40\x00";
const EXECUTE: &[u8] = b"\x00\x100123456789abcdef\x00\x06\x01\x00\x04\x00\x00\x00\x08\x00\x00\x00\x00\x00\x00\x00\x07\x00\x00\x00\x01x\x00\x00\x00\x20abcdefghijklmnopqrstuvwxyzABCDEF\x00\x00\x00\x00";
const COLUMNS: [(&str, CqlType); 4] = [
    ("k", CqlType::Int),
    ("c", CqlType::Text),
    ("v", CqlType::Blob),
    ("n", CqlType::Bigint),
];
const ROW: [&[u8]; 4] = [
    b"\x00\x00\x00\x01",
    b"clustering 1",
    b"abcdefghijklmnopqrstuvwxyzABCDEF",
    b"\x00\x00\x00\x00\x00\x00\x00\x07",
];

#[derive(Debug)]
enum BodyError {
    Short(usize),
    Trailing(usize),
    BadValue(i32),
    Opcode(u8),
    BadFlag,
    BadConsistency(u16),
    NotUtf8(usize),
}

#[derive(Clone, Copy, Debug)]
enum Consistency {
    Any,
    One,
    Two,
    Three,
    Quorum,
    All,
    LocalQuorum,
    EachQuorum,
    Serial,
    LocalSerial,
    LocalOne,
}

impl TryFrom<u16> for Consistency {
    type Error = BodyError;

    fn try_from(code: u16) -> Result<Consistency, BodyError> {
        Ok(match code {
            0 => Consistency::Any,
            1 => Consistency::One,
            2 => Consistency::Two,
            3 => Consistency::Three,
            4 => Consistency::Quorum,
            5 => Consistency::All,
            6 => Consistency::LocalQuorum,
            7 => Consistency::EachQuorum,
            8 => Consistency::Serial,
            9 => Consistency::LocalSerial,
            10 => Consistency::LocalOne,
            code => return Err(BodyError::BadConsistency(code)),
        })
    }
}

#[derive(Debug)]
enum Value {
    Null,
    NotSet,
    Given(Vec<u8>),
}

#[derive(Debug)]
enum Values {
    Absent,
    ByPlace(Vec<Value>),
    ByName(Vec<(String, Value)>),
}

#[derive(Debug)]
struct Parameters {
    consistency: Consistency,
    values: Values,
    skip_metadata: bool,
    page_size: Option<i32>,
    paging_state: Option<Option<Vec<u8>>>,
    serial_consistency: Option<Consistency>,
    timestamp: Option<i64>,
}

#[derive(Debug)]
enum BatchKind {
    Logged,
    Unlogged,
}

#[derive(Debug)]
enum BatchStatement {
    Query(String),
    Prepared(Vec<u8>),
}

#[derive(Debug)]
struct BatchEntry {
    statement: BatchStatement,
    values: Vec<Value>,
}

#[derive(Debug)]
struct Batch {
    kind: BatchKind,
    entries: Vec<BatchEntry>,
    consistency: Consistency,
    serial_consistency: Option<Consistency>,
    timestamp: Option<i64>,
}

#[derive(Debug)]
enum Request {
    Startup(Vec<(String, String)>),
    Options,
    Query { query: String, parameters: Parameters },
    Prepare(String),
    Execute { id: Vec<u8>, parameters: Parameters },
    Register(Vec<String>),
    Batch(Batch),
}

struct Frame {
    flags: u8,
    opcode: u8,
    body: Vec<u8>,
}

/// What is left of a body.
struct Reader<'a> {
    body: &'a [u8],
    at: usize,
}

impl<'a> Reader<'a> {
    fn bytes(&mut self, count: usize) -> Result<&'a [u8], BodyError> {
        let rest = &self.body[self.at..];
        if rest.len() < count {
            return Err(BodyError::Short(self.at));
        }
        self.at += count;
        Ok(&rest[..count])
    }

    fn array<const N: usize>(&mut self) -> Result<[u8; N], BodyError> {
        Ok(self.bytes(N)?.try_into().unwrap())
    }

    fn byte(&mut self) -> Result<u8, BodyError> {
        Ok(self.array::<1>()?[0])
    }

    fn short(&mut self) -> Result<u16, BodyError> {
        Ok(u16::from_be_bytes(self.array()?))
    }

    fn int(&mut self) -> Result<i32, BodyError> {
        Ok(i32::from_be_bytes(self.array()?))
    }

    fn long(&mut self) -> Result<i64, BodyError> {
        Ok(i64::from_be_bytes(self.array()?))
    }

    fn text(&mut self, count: usize) -> Result<String, BodyError> {
        let start = self.at;
        let text = std::str::from_utf8(self.bytes(count)?)
            .map_err(|error| BodyError::NotUtf8(start + error.valid_up_to()))?;
        Ok(text.to_owned())
    }

    fn string(&mut self) -> Result<String, BodyError> {
        let count = self.short()?;
        self.text(usize::from(count))
    }

    fn long_string(&mut self) -> Result<String, BodyError> {
        let count = self.int()?;
        if count < 0 {
            return Err(BodyError::BadValue(count));
        }
        self.text(count as usize)
    }

    fn short_bytes(&mut self) -> Result<Vec<u8>, BodyError> {
        let count = self.short()?;
        Ok(self.bytes(usize::from(count))?.to_vec())
    }

    fn nullable(&mut self) -> Result<Option<Vec<u8>>, BodyError> {
        let count = self.int()?;
        if count < 0 {
            return Ok(None);
        }
        Ok(Some(self.bytes(count as usize)?.to_vec()))
    }

    fn value(&mut self) -> Result<Value, BodyError> {
        match self.int()? {
            -1 => Ok(Value::Null),
            -2 => Ok(Value::NotSet),
            count if count < 0 => Err(BodyError::BadValue(count)),
            count => Ok(Value::Given(self.bytes(count as usize)?.to_vec())),
        }
    }

    fn consistency(&mut self) -> Result<Consistency, BodyError> {
        self.short()?.try_into()
    }

    fn part<T>(&mut self, set: bool, read: impl FnOnce(&mut Self) -> Result<T, BodyError>) -> Result<Option<T>, BodyError> {
        if set { read(self).map(Some) } else { Ok(None) }
    }

    fn list<T>(&mut self, read: impl Fn(&mut Self) -> Result<T, BodyError>) -> Result<Vec<T>, BodyError> {
        let mut items = Vec::new();
        for _ in 0..self.short()? {
            items.push(read(self)?);
        }
        Ok(items)
    }

    fn values(&mut self, flags: u8) -> Result<Values, BodyError> {
        if flags & 0x01 == 0 {
            Ok(Values::Absent)
        } else if flags & 0x40 != 0 {
            Ok(Values::ByName(self.list(|r| Ok((r.string()?, r.value()?)))?))
        } else {
            Ok(Values::ByPlace(self.list(Reader::value)?))
        }
    }

    fn parameters(&mut self) -> Result<Parameters, BodyError> {
        let consistency = self.consistency()?;
        let flags = self.byte()?;
        if flags & 0x80 != 0 || (flags & 0x40 != 0 && flags & 0x01 == 0) {
            return Err(BodyError::BadFlag);
        }
        Ok(Parameters {
            consistency,
            values: self.values(flags)?,
            skip_metadata: flags & 0x02 != 0,
            page_size: self.part(flags & 0x04 != 0, Reader::int)?,
            paging_state: self.part(flags & 0x08 != 0, Reader::nullable)?,
            serial_consistency: self.part(flags & 0x10 != 0, Reader::consistency)?,
            timestamp: self.part(flags & 0x20 != 0, Reader::long)?,
        })
    }

    fn entry(&mut self) -> Result<BatchEntry, BodyError> {
        let statement = match self.byte()? {
            0 => BatchStatement::Query(self.long_string()?),
            1 => BatchStatement::Prepared(self.short_bytes()?),
            _ => return Err(BodyError::BadFlag),
        };
        let values = self.list(Reader::value)?;
        Ok(BatchEntry { statement, values })
    }

    fn batch(&mut self) -> Result<Batch, BodyError> {
        let kind = match self.byte()? {
            0 => BatchKind::Logged,
            1 => BatchKind::Unlogged,
            _ => return Err(BodyError::BadFlag),
        };
        let entries = self.list(Reader::entry)?;
        let consistency = self.consistency()?;
        let flags = self.byte()?;
        if flags & !0x30 != 0 {
            return Err(BodyError::BadFlag);
        }
        Ok(Batch {
            kind,
            entries,
            consistency,
            serial_consistency: self.part(flags & 0x10 != 0, Reader::consistency)?,
            timestamp: self.part(flags & 0x20 != 0, Reader::long)?,
        })
    }

    /// Passes a custom payload over.
    fn payload(&mut self) -> Result<(), BodyError> {
        for _ in 0..self.short()? {
            let count = self.short()?;
            let start = self.at;
            std::str::from_utf8(self.bytes(usize::from(count))?)
                .map_err(|error| BodyError::NotUtf8(start + error.valid_up_to()))?;
            let count = self.int()?;
            if count >= 0 {
                self.bytes(count as usize)?;
            }
        }
        Ok(())
    }
}

fn decode_request(frame: &Frame) -> Result<Request, BodyError> {
    let mut reader = Reader { body: &frame.body, at: 0 };
    if !matches!(frame.opcode, 0x01 | 0x05 | 0x07 | 0x09 | 0x0a | 0x0b | 0x0d) {
        return Err(BodyError::Opcode(frame.opcode));
    }
    if frame.flags & 0x04 != 0 {
        reader.payload()?;
    }
    let request = match frame.opcode {
        0x01 => Request::Startup(reader.list(|r| Ok((r.string()?, r.string()?)))?),
        0x05 => Request::Options,
        0x07 => Request::Query {
            query: reader.long_string()?,
            parameters: reader.parameters()?,
        },
        0x09 => Request::Prepare(reader.long_string()?),
        0x0a => Request::Execute {
            id: reader.short_bytes()?,
            parameters: reader.parameters()?,
        },
        0x0b => Request::Register(reader.list(Reader::string)?),
        _ => Request::Batch(reader.batch()?),
    };
    if reader.at != frame.body.len() {
        return Err(BodyError::Trailing(frame.body.len() - reader.at));
    }
    Ok(request)
}

#[derive(Clone, Copy)]
enum CqlType {
    Ascii = 1,
    Bigint = 2,
    Blob = 3,
    Boolean = 4,
    Int = 9,
    Timestamp = 11,
    Uuid = 12,
    Text = 13,
    Timeuuid = 15,
    Smallint = 19,
    Tinyint = 20,
}

enum Columns {
    Counted(u32),
    Described {
        keyspace: String,
        table: String,
        columns: Vec<(String, CqlType)>,
    },
}

struct Rows {
    columns: Columns,
    paging_state: Option<Option<Vec<u8>>>,
    row_count: u32,
    cells: Vec<Option<Vec<u8>>>,
}

fn write_string(out: &mut Vec<u8>, text: &str) {
    out.extend_from_slice(&(text.len() as u16).to_be_bytes());
    out.extend_from_slice(text.as_bytes());
}

fn write_bytes(out: &mut Vec<u8>, bytes: &Option<Vec<u8>>) {
    match bytes {
        None => out.extend_from_slice(&u32::MAX.to_be_bytes()),
        Some(bytes) => {
            out.extend_from_slice(&(bytes.len() as u32).to_be_bytes());
            out.extend_from_slice(bytes);
        }
    }
}

fn write_metadata(out: &mut Vec<u8>, rows: &Rows) {
    let (flag, count) = match &rows.columns {
        Columns::Counted(count) => (4, *count),
        Columns::Described { columns, .. } => (1, columns.len() as u32),
    };
    let flags = flag + if rows.paging_state.is_some() { 2 } else { 0 };
    out.extend_from_slice(&i32::to_be_bytes(flags));
    out.extend_from_slice(&count.to_be_bytes());
    if let Some(state) = &rows.paging_state {
        write_bytes(out, state);
    }
    if let Columns::Described { keyspace, table, columns } = &rows.columns {
        write_string(out, keyspace);
        write_string(out, table);
        for (name, ty) in columns {
            write_string(out, name);
            out.extend_from_slice(&(*ty as u16).to_be_bytes());
        }
    }
}

fn encode_rows(rows: &Rows) -> Vec<u8> {
    let mut out = Vec::new();
    out.extend_from_slice(&2i32.to_be_bytes());
    write_metadata(&mut out, rows);
    out.extend_from_slice(&rows.row_count.to_be_bytes());
    for cell in &rows.cells {
        write_bytes(&mut out, cell);
    }
    out
}

fn rows() -> Rows {
    let mut cells = Vec::new();
    for _ in 0..100 {
        for cell in ROW {
            cells.push(Some(cell.to_vec()));
        }
    }
    Rows {
        columns: Columns::Described {
            keyspace: "ks".to_owned(),
            table: "t".to_owned(),
            columns: COLUMNS.iter().map(|(name, ty)| ((*name).to_owned(), *ty)).collect(),
        },
        paging_state: None,
        row_count: 100,
        cells,
    }
}

fn values_len(request: &Request) -> u64 {
    let parameters = match request {
        Request::Query { parameters, .. } | Request::Execute { parameters, .. } => parameters,
        _ => return 0,
    };
    let Values::ByPlace(values) = &parameters.values else {
        return 0;
    };
    let mut length = 0;
    for value in values {
        if let Value::Given(bytes) = value {
            length += bytes.len() as u64;
        }
    }
    length
}

fn decode_often(frame: &Frame, count: u32) -> u64 {
    let mut length = 0u64;
    for _ in 0..count {
        let request = black_box(decode_request(black_box(frame)).unwrap());
        length += values_len(&request);
    }
    length
}

fn time_decoding(name: &str, opcode: u8, body: &[u8], count: u32) {
    let frame = Frame {
        flags: 0,
        opcode,
        body: body.to_vec(),
    };
    let mut fastest = u128::MAX;
    let mut total = 0u64;
    for _ in 0..TURNS {
        let start = Instant::now();
        let decoded = decode_often(&frame, count);
        fastest = fastest.min(start.elapsed().as_nanos());
        total += decoded;
    }
    println!("{name}: {total} bytes of values");
    println!("{name} nanoseconds {fastest}");
}

fn encode_often(rows: &Rows, count: u32) -> u64 {
    let mut length = 0u64;
    for _ in 0..count {
        let body = black_box(encode_rows(black_box(rows)));
        length += body.len() as u64;
    }
    length
}

fn time_encoding(rows: &Rows, count: u32) {
    let mut fastest = u128::MAX;
    let mut total = 0u64;
    for _ in 0..TURNS {
        let start = Instant::now();
        let encoded = encode_often(rows, count);
        fastest = fastest.min(start.elapsed().as_nanos());
        total += encoded;
    }
    println!("rows: {total} bytes");
    println!("rows nanoseconds {fastest}");
}

fn main() {
    let count: u32 = std::env::args()
        .nth(1)
        .map_or(1000, |text| text.parse().unwrap());
    time_decoding("query", 0x07, QUERY, count);
    time_decoding("execute", 0x0a, EXECUTE, count);
    time_encoding(&rows(), count / 100);
}
