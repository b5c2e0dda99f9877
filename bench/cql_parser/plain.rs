//! A parser of CQL statements in plain Rust, by recursive descent over a list of tokens, and the same measurement as
//! `protocol_bench statements`: `plain ROUNDS`.

// What is read is counted, and not looked into.
#![allow(dead_code)]

use std::hint::black_box;
use std::time::Instant;

const TURNS: u32 = 7;

/// The statements of `protocol_bench statements`.
const STATEMENTS: &str = include_str!("statements.cql");

#[derive(Clone, Copy, Debug, PartialEq, Eq)]
enum Kind {
    Word,
    QuotedName,
    Str,
    Whole,
    Blob,
    Uuid,
    Symbol(u8),
    NotEqual,
    LessOrEqual,
    GreaterOrEqual,
}

#[derive(Clone, Copy, Debug)]
struct Token {
    kind: Kind,
    start: usize,
    end: usize,
}

#[derive(Debug)]
enum ParseError {
    Char(usize),
    Unexpected(usize),
    Unclosed(usize),
    TooLong,
}

type Parsed<T> = Result<T, ParseError>;

#[derive(Debug)]
struct TableName {
    keyspace: Option<String>,
    name: String,
}

#[derive(Clone, Copy, Debug)]
enum LiteralKind {
    Str,
    Whole,
    Blob,
    Uuid,
    Bool,
}

#[derive(Debug)]
struct Literal {
    kind: LiteralKind,
    text: String,
}

#[derive(Debug)]
enum Term {
    Constant(Literal),
    Null,
    Marker,
    NamedMarker(String),
}

#[derive(Clone, Copy, Debug)]
enum Operator {
    Equal,
    NotEqual,
    Less,
    LessOrEqual,
    Greater,
    GreaterOrEqual,
}

#[derive(Debug)]
struct Relation {
    column: String,
    operator: Operator,
    term: Term,
}

#[derive(Debug)]
enum Condition {
    Exists,
    Tests(Vec<Relation>),
}

#[derive(Debug)]
struct ColumnOrder {
    column: String,
    is_descending: bool,
}

#[derive(Clone, Copy, Debug)]
enum CqlType {
    Ascii,
    Bigint,
    Blob,
    Boolean,
    Int,
    Timestamp,
    Uuid,
    Text,
    Timeuuid,
    Smallint,
    Tinyint,
}

#[derive(Debug)]
enum TableItem {
    Column(String, CqlType, bool),
    PrimaryKey(Vec<String>, Vec<String>),
}

#[derive(Debug)]
enum TableOption {
    ClusteringOrder(Vec<ColumnOrder>),
    Named(String, Literal),
}

#[derive(Debug)]
enum Selection {
    All,
    Columns(Vec<String>),
    Count,
}

#[derive(Debug)]
enum Statement {
    CreateKeyspace(bool, String, Vec<(Literal, Literal)>),
    CreateTable(bool, TableName, Vec<TableItem>, Vec<TableOption>),
    Use(String),
    Insert(TableName, Vec<String>, Vec<Term>, bool, Option<Term>),
    Update(TableName, Option<Term>, Vec<(String, Term)>, Vec<Relation>, Option<Condition>),
    Delete(Vec<String>, TableName, Option<Term>, Vec<Relation>, Option<Condition>),
    Select(Selection, TableName, Vec<Relation>, Vec<ColumnOrder>, Option<Term>),
    Batch(bool, Option<Term>, Vec<Statement>),
}

const RESERVED: [&str; 28] = [
    "ADD", "AND", "APPLY", "BATCH", "BEGIN", "BY", "CREATE", "DELETE", "FROM", "IF", "IN", "INSERT",
    "INTO", "KEYSPACE", "LIMIT", "NOT", "NULL", "ORDER", "PRIMARY", "SELECT", "SET", "TABLE",
    "UNLOGGED", "UPDATE", "USE", "USING", "WHERE", "WITH",
];

fn is_uuid(bytes: &[u8]) -> bool {
    bytes.len() >= 36
        && bytes[..36].iter().enumerate().all(|(i, b)| match i {
            8 | 13 | 18 | 23 => *b == b'-',
            _ => b.is_ascii_hexdigit(),
        })
}

fn count_while(bytes: &[u8], test: impl Fn(u8) -> bool) -> usize {
    bytes.iter().take_while(|b| test(**b)).count()
}

/// The end of what stands in these quotes from `at` on, doubled ones inside.
fn quoted_end(bytes: &[u8], at: usize, quote: u8) -> Parsed<usize> {
    let mut i = at + 1;
    while i < bytes.len() {
        if bytes[i] == quote {
            if bytes.get(i + 1) != Some(&quote) {
                return Ok(i + 1);
            }
            i += 1;
        }
        i += 1;
    }
    Err(ParseError::Unclosed(at))
}

fn skip_blanks(bytes: &[u8], mut i: usize) -> Parsed<usize> {
    loop {
        match &bytes[i..] {
            [b' ' | b'\t' | b'\r' | b'\n', ..] => i += 1,
            [b'-', b'-', ..] | [b'/', b'/', ..] => i += count_while(&bytes[i..], |b| b != b'\n'),
            [b'/', b'*', rest @ ..] => {
                let end = rest.windows(2).position(|w| w == b"*/");
                i += 4 + end.ok_or(ParseError::Unclosed(i))?;
            }
            _ => return Ok(i),
        }
    }
}

fn next_token(bytes: &[u8], at: usize) -> Parsed<(Kind, usize)> {
    let rest = &bytes[at..];
    if is_uuid(rest) {
        return Ok((Kind::Uuid, at + 36));
    }
    Ok(match rest {
        [b'0', b'x' | b'X', digits @ ..] => {
            let count = count_while(digits, |b| b.is_ascii_hexdigit());
            (Kind::Blob, at + 2 + count / 2 * 2)
        }
        [b, ..] if b.is_ascii_digit() => (Kind::Whole, at + count_while(rest, |b| b.is_ascii_digit())),
        [b'-', b, ..] if b.is_ascii_digit() => {
            (Kind::Whole, at + 1 + count_while(&rest[1..], |b| b.is_ascii_digit()))
        }
        [b, ..] if b.is_ascii_alphabetic() => {
            let count = count_while(rest, |b| b.is_ascii_alphanumeric() || b == b'_');
            (Kind::Word, at + count)
        }
        [b'\'', ..] => (Kind::Str, quoted_end(bytes, at, b'\'')?),
        [b'"', ..] => (Kind::QuotedName, quoted_end(bytes, at, b'"')?),
        [b'!', b'=', ..] => (Kind::NotEqual, at + 2),
        [b'<', b'=', ..] => (Kind::LessOrEqual, at + 2),
        [b'>', b'=', ..] => (Kind::GreaterOrEqual, at + 2),
        [b @ (b'(' | b')' | b'{' | b'}' | b',' | b'.' | b';' | b':' | b'?' | b'*' | b'=' | b'<' | b'>'), ..] => {
            (Kind::Symbol(*b), at + 1)
        }
        _ => return Err(ParseError::Char(at)),
    })
}

/// The tokens, and what stops them.
fn tokens(text: &str) -> (Vec<Token>, Option<ParseError>) {
    let bytes = text.as_bytes();
    let mut list = Vec::new();
    let mut at = 0;
    loop {
        at = match skip_blanks(bytes, at) {
            Ok(at) => at,
            Err(stop) => return (list, Some(stop)),
        };
        if at == bytes.len() {
            return (list, None);
        }
        match next_token(bytes, at) {
            Ok((kind, end)) => list.push(Token { kind, start: at, end }),
            Err(stop) => return (list, Some(stop)),
        }
        at = list[list.len() - 1].end;
    }
}

struct Parser<'a> {
    text: &'a str,
    tokens: &'a [Token],
    at: usize,
}

impl<'a> Parser<'a> {
    fn peek(&self) -> Option<&'a Token> {
        self.tokens.get(self.at)
    }

    fn text_of(&self, token: &Token) -> &'a str {
        &self.text[token.start..token.end]
    }

    fn unexpected<T>(&self) -> Parsed<T> {
        Err(ParseError::Unexpected(self.peek().map_or(self.text.len(), |t| t.start)))
    }

    fn is_word(&self, word: &str) -> bool {
        self.peek()
            .is_some_and(|t| t.kind == Kind::Word && self.text_of(t).eq_ignore_ascii_case(word))
    }

    fn is_symbol(&self, symbol: u8) -> bool {
        self.peek().is_some_and(|t| t.kind == Kind::Symbol(symbol))
    }

    fn take_word(&mut self, word: &str) -> bool {
        let is = self.is_word(word);
        self.at += usize::from(is);
        is
    }

    fn take_symbol(&mut self, symbol: u8) -> bool {
        let is = self.is_symbol(symbol);
        self.at += usize::from(is);
        is
    }

    fn word(&mut self, word: &str) -> Parsed<()> {
        if self.take_word(word) { Ok(()) } else { self.unexpected() }
    }

    fn symbol(&mut self, symbol: u8) -> Parsed<()> {
        if self.take_symbol(symbol) { Ok(()) } else { self.unexpected() }
    }

    fn name(&mut self) -> Parsed<String> {
        let Some(token) = self.peek() else { return self.unexpected() };
        let text = self.text_of(token);
        let name = match token.kind {
            Kind::QuotedName => text[1..text.len() - 1].replace("\"\"", "\""),
            Kind::Word if !RESERVED.iter().any(|w| w.eq_ignore_ascii_case(text)) => text.to_ascii_lowercase(),
            _ => return self.unexpected(),
        };
        self.at += 1;
        Ok(name)
    }

    fn listed<T>(&mut self, mut item: impl FnMut(&mut Self) -> Parsed<T>) -> Parsed<Vec<T>> {
        let mut list = vec![item(self)?];
        while self.take_symbol(b',') {
            list.push(item(self)?);
        }
        Ok(list)
    }

    fn joined<T>(&mut self, mut item: impl FnMut(&mut Self) -> Parsed<T>) -> Parsed<Vec<T>> {
        let mut list = vec![item(self)?];
        while self.take_word("AND") {
            list.push(item(self)?);
        }
        Ok(list)
    }

    fn table_name(&mut self) -> Parsed<TableName> {
        let name = self.name()?;
        if self.take_symbol(b'.') {
            return Ok(TableName { keyspace: Some(name), name: self.name()? });
        }
        Ok(TableName { keyspace: None, name })
    }

    fn literal(&mut self, kind: LiteralKind) -> Literal {
        let text = self.text_of(&self.tokens[self.at]).to_string();
        self.at += 1;
        Literal { kind, text }
    }

    fn term(&mut self) -> Parsed<Term> {
        let Some(token) = self.peek() else { return self.unexpected() };
        let kind = match token.kind {
            Kind::Str => LiteralKind::Str,
            Kind::Whole => LiteralKind::Whole,
            Kind::Blob => LiteralKind::Blob,
            Kind::Uuid => LiteralKind::Uuid,
            Kind::Word if self.is_word("TRUE") || self.is_word("FALSE") => LiteralKind::Bool,
            _ if self.take_word("NULL") => return Ok(Term::Null),
            _ if self.take_symbol(b'?') => return Ok(Term::Marker),
            _ if self.take_symbol(b':') => return Ok(Term::NamedMarker(self.name()?)),
            _ => return self.unexpected(),
        };
        Ok(Term::Constant(self.literal(kind)))
    }

    fn operator(&mut self, not_equal: bool) -> Parsed<Operator> {
        let Some(token) = self.peek() else { return self.unexpected() };
        let operator = match token.kind {
            Kind::Symbol(b'=') => Operator::Equal,
            Kind::Symbol(b'<') => Operator::Less,
            Kind::Symbol(b'>') => Operator::Greater,
            Kind::LessOrEqual => Operator::LessOrEqual,
            Kind::GreaterOrEqual => Operator::GreaterOrEqual,
            Kind::NotEqual if not_equal => Operator::NotEqual,
            _ => return self.unexpected(),
        };
        self.at += 1;
        Ok(operator)
    }

    fn relation(&mut self) -> Parsed<Relation> {
        let column = self.name()?;
        Ok(Relation { column, operator: self.operator(false)?, term: self.term()? })
    }

    fn test(&mut self) -> Parsed<Relation> {
        let column = self.name()?;
        Ok(Relation { column, operator: self.operator(true)?, term: self.term()? })
    }

    fn relations(&mut self) -> Parsed<Vec<Relation>> {
        self.word("WHERE")?;
        self.joined(Self::relation)
    }

    fn condition(&mut self) -> Parsed<Option<Condition>> {
        if !self.take_word("IF") {
            return Ok(None);
        }
        if self.is_word("EXISTS") {
            let behind = self.tokens.get(self.at + 1).map(|t| t.kind);
            let is_test = matches!(
                behind,
                Some(Kind::Symbol(b'=' | b'<' | b'>') | Kind::NotEqual | Kind::LessOrEqual | Kind::GreaterOrEqual)
            );
            if !is_test {
                self.at += 1;
                return Ok(Some(Condition::Exists));
            }
        }
        Ok(Some(Condition::Tests(self.joined(Self::test)?)))
    }

    fn stamp(&mut self) -> Parsed<Option<Term>> {
        if !self.take_word("USING") {
            return Ok(None);
        }
        self.word("TIMESTAMP")?;
        Ok(Some(self.term()?))
    }

    fn if_not_exists(&mut self) -> Parsed<bool> {
        if !self.take_word("IF") {
            return Ok(false);
        }
        self.word("NOT")?;
        self.word("EXISTS")?;
        Ok(true)
    }

    fn constant(&mut self, whole_too: bool) -> Parsed<Literal> {
        match self.peek().map(|t| t.kind) {
            Some(Kind::Str) => Ok(self.literal(LiteralKind::Str)),
            Some(Kind::Whole) if whole_too => Ok(self.literal(LiteralKind::Whole)),
            _ => self.unexpected(),
        }
    }

    fn keyspace(&mut self) -> Parsed<Statement> {
        let if_not_exists = self.if_not_exists()?;
        let name = self.name()?;
        self.word("WITH")?;
        self.word("REPLICATION")?;
        self.symbol(b'=')?;
        self.symbol(b'{')?;
        let replication = self.listed(|p| {
            let key = p.constant(false)?;
            p.symbol(b':')?;
            Ok((key, p.constant(true)?))
        })?;
        self.symbol(b'}')?;
        if self.take_word("AND") {
            self.word("DURABLE_WRITES")?;
            self.symbol(b'=')?;
            self.word("TRUE")?;
        }
        Ok(Statement::CreateKeyspace(if_not_exists, name, replication))
    }

    fn column_type(&mut self) -> Parsed<CqlType> {
        let Some(token) = self.peek() else { return self.unexpected() };
        if token.kind != Kind::Word {
            return self.unexpected();
        }
        let types = [
            ("ascii", CqlType::Ascii),
            ("bigint", CqlType::Bigint),
            ("blob", CqlType::Blob),
            ("boolean", CqlType::Boolean),
            ("int", CqlType::Int),
            ("timestamp", CqlType::Timestamp),
            ("uuid", CqlType::Uuid),
            ("text", CqlType::Text),
            ("varchar", CqlType::Text),
            ("timeuuid", CqlType::Timeuuid),
            ("smallint", CqlType::Smallint),
            ("tinyint", CqlType::Tinyint),
        ];
        let text = self.text_of(token);
        match types.iter().find(|(name, _)| name.eq_ignore_ascii_case(text)) {
            Some((_, ty)) => {
                self.at += 1;
                Ok(*ty)
            }
            None => self.unexpected(),
        }
    }

    fn table_item(&mut self) -> Parsed<TableItem> {
        if self.take_word("PRIMARY") {
            self.word("KEY")?;
            self.symbol(b'(')?;
            let partition = if self.take_symbol(b'(') {
                let names = self.listed(Self::name)?;
                self.symbol(b')')?;
                names
            } else {
                vec![self.name()?]
            };
            let mut clustering = Vec::new();
            while self.take_symbol(b',') {
                clustering.push(self.name()?);
            }
            self.symbol(b')')?;
            return Ok(TableItem::PrimaryKey(partition, clustering));
        }
        let name = self.name()?;
        let ty = self.column_type()?;
        let is_key = self.take_word("PRIMARY");
        if is_key {
            self.word("KEY")?;
        }
        Ok(TableItem::Column(name, ty, is_key))
    }

    fn order(&mut self, needed: bool) -> Parsed<ColumnOrder> {
        let column = self.name()?;
        if self.take_word("ASC") {
            return Ok(ColumnOrder { column, is_descending: false });
        }
        let is_descending = self.take_word("DESC");
        if needed && !is_descending {
            return self.unexpected();
        }
        Ok(ColumnOrder { column, is_descending })
    }

    fn table_option(&mut self) -> Parsed<TableOption> {
        if self.is_word("CLUSTERING") && !matches!(self.tokens.get(self.at + 1), Some(t) if t.kind == Kind::Symbol(b'=')) {
            self.at += 1;
            self.word("ORDER")?;
            self.word("BY")?;
            self.symbol(b'(')?;
            let orders = self.listed(|p| p.order(true))?;
            self.symbol(b')')?;
            return Ok(TableOption::ClusteringOrder(orders));
        }
        let name = self.name()?;
        self.symbol(b'=')?;
        Ok(TableOption::Named(name, self.constant(true)?))
    }

    fn table(&mut self) -> Parsed<Statement> {
        let if_not_exists = self.if_not_exists()?;
        let table = self.table_name()?;
        self.symbol(b'(')?;
        let items = self.listed(Self::table_item)?;
        self.symbol(b')')?;
        let options = if self.take_word("WITH") { self.joined(Self::table_option)? } else { Vec::new() };
        Ok(Statement::CreateTable(if_not_exists, table, items, options))
    }

    fn insert(&mut self) -> Parsed<Statement> {
        self.word("INTO")?;
        let table = self.table_name()?;
        self.symbol(b'(')?;
        let columns = self.listed(Self::name)?;
        self.symbol(b')')?;
        self.word("VALUES")?;
        self.symbol(b'(')?;
        let values = self.listed(Self::term)?;
        self.symbol(b')')?;
        Ok(Statement::Insert(table, columns, values, self.if_not_exists()?, self.stamp()?))
    }

    fn update(&mut self) -> Parsed<Statement> {
        let table = self.table_name()?;
        let stamp = self.stamp()?;
        self.word("SET")?;
        let assignments = self.listed(|p| {
            let column = p.name()?;
            p.symbol(b'=')?;
            Ok((column, p.term()?))
        })?;
        Ok(Statement::Update(table, stamp, assignments, self.relations()?, self.condition()?))
    }

    fn delete(&mut self) -> Parsed<Statement> {
        let columns = if self.is_word("FROM") { Vec::new() } else { self.listed(Self::name)? };
        self.word("FROM")?;
        let table = self.table_name()?;
        Ok(Statement::Delete(columns, table, self.stamp()?, self.relations()?, self.condition()?))
    }

    fn selection(&mut self) -> Parsed<Selection> {
        if self.take_symbol(b'*') {
            return Ok(Selection::All);
        }
        if self.is_word("COUNT") && matches!(self.tokens.get(self.at + 1), Some(t) if t.kind == Kind::Symbol(b'(')) {
            self.at += 2;
            self.symbol(b'*')?;
            self.symbol(b')')?;
            return Ok(Selection::Count);
        }
        Ok(Selection::Columns(self.listed(Self::name)?))
    }

    fn select(&mut self) -> Parsed<Statement> {
        let selection = self.selection()?;
        self.word("FROM")?;
        let table = self.table_name()?;
        let relations = self.relations()?;
        let mut orders = Vec::new();
        if self.take_word("ORDER") {
            self.word("BY")?;
            orders = self.listed(|p| p.order(false))?;
        }
        let limit = if self.take_word("LIMIT") { Some(self.term()?) } else { None };
        Ok(Statement::Select(selection, table, relations, orders, limit))
    }

    fn modification(&mut self) -> Parsed<Statement> {
        if self.take_word("INSERT") {
            self.insert()
        } else if self.take_word("UPDATE") {
            self.update()
        } else if self.take_word("DELETE") {
            self.delete()
        } else {
            self.unexpected()
        }
    }

    fn batch(&mut self) -> Parsed<Statement> {
        let is_unlogged = self.take_word("UNLOGGED");
        self.word("BATCH")?;
        let stamp = self.stamp()?;
        let mut statements = Vec::new();
        while !self.take_word("APPLY") {
            statements.push(self.modification()?);
            self.take_symbol(b';');
        }
        self.word("BATCH")?;
        Ok(Statement::Batch(is_unlogged, stamp, statements))
    }

    fn statement(&mut self) -> Parsed<Statement> {
        let statement = if self.take_word("SELECT") {
            self.select()?
        } else if self.take_word("BEGIN") {
            self.batch()?
        } else if self.take_word("USE") {
            Statement::Use(self.name()?)
        } else if self.take_word("CREATE") {
            if self.take_word("KEYSPACE") {
                self.keyspace()?
            } else {
                self.word("TABLE")?;
                self.table()?
            }
        } else {
            self.modification()?
        };
        self.take_symbol(b';');
        Ok(statement)
    }
}

fn parse(text: &str) -> Parsed<Statement> {
    let (list, stop) = tokens(text);
    let mut parser = Parser { text, tokens: &list, at: 0 };
    let statement = parser.statement();
    match (statement, parser.peek(), stop) {
        (Ok(statement), None, None) if list.len() <= 65_535 => Ok(statement),
        (Ok(_), None, None) => Err(ParseError::TooLong),
        (_, None, Some(stop)) => Err(stop),
        (Ok(_), Some(token), _) => Err(ParseError::Unexpected(token.start)),
        (Err(error), _, _) => Err(error),
    }
}

/// A number for a statement: its kind, and how many parts it has.
fn weight(statement: &Statement) -> u64 {
    let (kind, parts) = match statement {
        Statement::CreateKeyspace(_, _, replication) => (1, replication.len()),
        Statement::CreateTable(_, _, items, options) => (2, items.len() + options.len()),
        Statement::Use(name) => (3, name.len()),
        Statement::Insert(_, columns, values, _, _) => (4, columns.len() + values.len()),
        Statement::Update(_, _, assignments, relations, _) => (5, assignments.len() + relations.len()),
        Statement::Delete(columns, _, _, relations, _) => (6, columns.len() + relations.len()),
        Statement::Select(_, _, relations, orders, _) => (7, relations.len() + orders.len()),
        Statement::Batch(_, _, statements) => (8, statements.len()),
    };
    kind * 100 + parts as u64
}

fn parse_all(rounds: u32) -> (u64, u64) {
    let mut count = 0u64;
    let mut mix = 0u64;
    for _ in 0..rounds {
        for text in STATEMENTS.lines() {
            if let Ok(statement) = black_box(parse(text)) {
                count += 1;
                mix = mix.wrapping_mul(31).wrapping_add(weight(&statement));
            }
        }
    }
    (count, mix)
}

fn main() {
    let rounds = std::env::args().nth(1).and_then(|word| word.parse().ok()).unwrap_or(1000);
    let mut fastest = u128::MAX;
    for turn in 0..TURNS {
        let start = Instant::now();
        let (count, mix) = parse_all(rounds);
        fastest = fastest.min(start.elapsed().as_nanos());
        if turn == 0 {
            println!("statements {count}, mix {mix}");
        }
    }
    println!("rounds {rounds}, nanoseconds {fastest}");
}
