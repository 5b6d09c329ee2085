// What `ledgerd step` and `ledgerd verify` do, in plain Rust without contracts, for the statements of the
// inputs here: CREATE TABLE, CREATE INDEX, INSERT, UPDATE, DELETE, SELECT *, and the digest. Columns are INT,
// BIGINT, BIT and NVARCHAR. It writes the same bytes: transcript, NAME.journal, NAME.digests, NAME.img.
//
//     plain step --save NAME [--block-size N] [--clock T] [--database D] < INPUT
//     plain verify IMAGE DIGESTS
//
// With PLAIN_COUNT in the environment the compressions of SHA-256 are written to standard error.
use std::cmp::Ordering;
use std::collections::HashMap;
use std::io::{Read, Write};

mod sha {
    pub static mut COMPRESSIONS: u64 = 0;
    const K: [u32; 64] = [
        0x428a2f98, 0x71374491, 0xb5c0fbcf, 0xe9b5dba5, 0x3956c25b, 0x59f111f1, 0x923f82a4, 0xab1c5ed5,
        0xd807aa98, 0x12835b01, 0x243185be, 0x550c7dc3, 0x72be5d74, 0x80deb1fe, 0x9bdc06a7, 0xc19bf174,
        0xe49b69c1, 0xefbe4786, 0x0fc19dc6, 0x240ca1cc, 0x2de92c6f, 0x4a7484aa, 0x5cb0a9dc, 0x76f988da,
        0x983e5152, 0xa831c66d, 0xb00327c8, 0xbf597fc7, 0xc6e00bf3, 0xd5a79147, 0x06ca6351, 0x14292967,
        0x27b70a85, 0x2e1b2138, 0x4d2c6dfc, 0x53380d13, 0x650a7354, 0x766a0abb, 0x81c2c92e, 0x92722c85,
        0xa2bfe8a1, 0xa81a664b, 0xc24b8b70, 0xc76c51a3, 0xd192e819, 0xd6990624, 0xf40e3585, 0x106aa070,
        0x19a4c116, 0x1e376c08, 0x2748774c, 0x34b0bcb5, 0x391c0cb3, 0x4ed8aa4a, 0x5b9cca4f, 0x682e6ff3,
        0x748f82ee, 0x78a5636f, 0x84c87814, 0x8cc70208, 0x90befffa, 0xa4506ceb, 0xbef9a3f7, 0xc67178f2,
    ];
    const START: [u32; 8] = [
        0x6a09e667, 0xbb67ae85, 0x3c6ef372, 0xa54ff53a, 0x510e527f, 0x9b05688c, 0x1f83d9ab, 0x5be0cd19,
    ];

    macro_rules! round {
        ($a:ident $b:ident $c:ident $d:ident $e:ident $f:ident $g:ident $h:ident $w:expr, $k:expr) => {
            let t1 = $h
                .wrapping_add($e.rotate_right(6) ^ $e.rotate_right(11) ^ $e.rotate_right(25))
                .wrapping_add(($e & $f) ^ (!$e & $g))
                .wrapping_add($k)
                .wrapping_add($w);
            let t2 = ($a.rotate_right(2) ^ $a.rotate_right(13) ^ $a.rotate_right(22))
                .wrapping_add(($a & $b) ^ ($a & $c) ^ ($b & $c));
            $d = $d.wrapping_add(t1);
            $h = t1.wrapping_add(t2);
        };
    }
    macro_rules! eight {
        ($a:ident $b:ident $c:ident $d:ident $e:ident $f:ident $g:ident $h:ident $w:ident $i:expr, $r:expr) => {
            round!($a $b $c $d $e $f $g $h $w[$i], K[$r + $i]);
            round!($h $a $b $c $d $e $f $g $w[$i + 1], K[$r + $i + 1]);
            round!($g $h $a $b $c $d $e $f $w[$i + 2], K[$r + $i + 2]);
            round!($f $g $h $a $b $c $d $e $w[$i + 3], K[$r + $i + 3]);
            round!($e $f $g $h $a $b $c $d $w[$i + 4], K[$r + $i + 4]);
            round!($d $e $f $g $h $a $b $c $w[$i + 5], K[$r + $i + 5]);
            round!($c $d $e $f $g $h $a $b $w[$i + 6], K[$r + $i + 6]);
            round!($b $c $d $e $f $g $h $a $w[$i + 7], K[$r + $i + 7]);
        };
    }

    fn next(w: &mut [u32; 16]) {
        for i in 0..16 {
            let x = w[(i + 1) & 15];
            let y = w[(i + 14) & 15];
            let s0 = x.rotate_right(7) ^ x.rotate_right(18) ^ (x >> 3);
            let s1 = y.rotate_right(17) ^ y.rotate_right(19) ^ (y >> 10);
            w[i] = w[i].wrapping_add(s0).wrapping_add(w[(i + 9) & 15]).wrapping_add(s1);
        }
    }

    fn compress(state: &mut [u32; 8], block: &[u8; 64]) {
        let mut w = [0u32; 16];
        for i in 0..16 {
            w[i] = u32::from_be_bytes([block[4 * i], block[4 * i + 1], block[4 * i + 2], block[4 * i + 3]]);
        }
        let [mut a, mut b, mut c, mut d, mut e, mut f, mut g, mut h] = *state;
        eight!(a b c d e f g h w 0, 0);
        eight!(a b c d e f g h w 8, 0);
        next(&mut w);
        eight!(a b c d e f g h w 0, 16);
        eight!(a b c d e f g h w 8, 16);
        next(&mut w);
        eight!(a b c d e f g h w 0, 32);
        eight!(a b c d e f g h w 8, 32);
        next(&mut w);
        eight!(a b c d e f g h w 0, 48);
        eight!(a b c d e f g h w 8, 48);
        for (s, x) in state.iter_mut().zip([a, b, c, d, e, f, g, h]) {
            *s = s.wrapping_add(x);
        }
    }

    // The hash of the parts in a row.
    pub fn hash(parts: &[&[u8]]) -> [u8; 32] {
        let mut state = START;
        let mut block = [0u8; 64];
        let mut filled = 0;
        let mut total = 0u64;
        let mut count = 0u64;
        for part in parts {
            let mut part = *part;
            total += part.len() as u64;
            while !part.is_empty() {
                let n = part.len().min(64 - filled);
                block[filled..filled + n].copy_from_slice(&part[..n]);
                filled += n;
                part = &part[n..];
                if filled == 64 {
                    compress(&mut state, &block);
                    count += 1;
                    filled = 0;
                }
            }
        }
        block[filled] = 0x80;
        block[filled + 1..].fill(0);
        if filled >= 56 {
            compress(&mut state, &block);
            count += 1;
            block.fill(0);
        }
        block[56..].copy_from_slice(&(8 * total).to_be_bytes());
        compress(&mut state, &block);
        unsafe { COMPRESSIONS += count + 1 };
        let mut out = [0u8; 32];
        for (i, s) in state.iter().enumerate() {
            out[4 * i..4 * i + 4].copy_from_slice(&s.to_be_bytes());
        }
        out
    }
}

type Hash = [u8; 32];

fn leaf_hash(leaf: &[u8]) -> Hash {
    sha::hash(&[&[0], leaf])
}

fn node_hash(left: &Hash, right: &Hash) -> Hash {
    sha::hash(&[&[1], left, right])
}

// The roots of the full trees of leaves so far, the largest first.
#[derive(Default)]
struct Frontier {
    nodes: Vec<Hash>,
    count: u64,
}

impl Frontier {
    fn push(&mut self, leaf: &[u8]) {
        let mut node = leaf_hash(leaf);
        let mut n = self.count;
        while n & 1 == 1 {
            node = node_hash(&self.nodes.pop().unwrap(), &node);
            n >>= 1;
        }
        self.nodes.push(node);
        self.count += 1;
    }

    fn root(&self) -> Hash {
        let Some((last, others)) = self.nodes.split_last() else {
            return sha::hash(&[]);
        };
        others.iter().rev().fold(*last, |right, left| node_hash(left, &right))
    }
}

// ---- values

#[derive(Clone, Copy, PartialEq, Eq, Debug)]
enum Type {
    Bit,
    Int,
    BigInt,
    NVarChar(u16),
}

impl Type {
    fn code(self) -> (u8, u16, u8) {
        match self {
            Type::Bit => (1, 0, 0),
            Type::Int => (2, 0, 0),
            Type::BigInt => (3, 0, 0),
            Type::NVarChar(n) => (5, n, 0),
        }
    }
}

#[derive(Clone, PartialEq, Eq, PartialOrd, Ord, Debug, Hash)]
enum Value {
    Null,
    Whole(i128),
    Text(String),
}

#[derive(Clone, PartialEq, Eq, Debug)]
struct Typed {
    value: Value,
    of: Type,
}

type Row = Vec<Option<Typed>>;
type Event = (u64, u64);

fn plain(value: &Option<Typed>) -> &Value {
    match value {
        None => &Value::Null,
        Some(typed) => &typed.value,
    }
}

#[derive(Debug)]
struct Version {
    values: Row,
    start: Event,
    end: Option<Event>,
}

// A value as a column keeps it, or the code of what refuses it.
fn converted(value: &Value, column: &Column) -> Result<Option<Typed>, u8> {
    let of = column.of;
    let range = |low: i128, high: i128, n: i128| if low <= n && n <= high { Ok(n) } else { Err(8) };
    let value = match (value, of) {
        (Value::Null, _) if column.nullable => return Ok(None),
        (Value::Null, _) => return Err(6),
        (Value::Whole(n), Type::Bit) => Value::Whole((*n != 0) as i128),
        (Value::Whole(n), Type::Int) => Value::Whole(range(-(1 << 31), (1 << 31) - 1, *n)?),
        (Value::Whole(n), Type::BigInt) => Value::Whole(range(-(1 << 63), (1 << 63) - 1, *n)?),
        (Value::Text(text), Type::NVarChar(n)) => {
            if text.encode_utf16().count() > n as usize {
                return Err(9);
            }
            Value::Text(text.clone())
        }
        _ => return Err(5),
    };
    Ok(Some(Typed { value, of }))
}

// ---- definitions

#[derive(Clone)]
struct Column {
    name: String,
    of: Type,
    nullable: bool,
    key: u8,
}

struct IndexDef {
    name: String,
    ordinals: Vec<u16>,
}

struct TableDef {
    id: u32,
    kind: u8,
    name: String,
    history: String,
    view: String,
    columns: Vec<Column>,
    indexes: Vec<IndexDef>,
    key: Vec<usize>,
}

fn key_places(columns: &[Column]) -> Vec<usize> {
    let mut places: Vec<usize> = (0..columns.len()).filter(|i| columns[*i].key > 0).collect();
    places.sort_by_key(|i| columns[*i].key);
    places
}

fn column(name: &str, of: Type, nullable: bool, key: u8) -> Column {
    Column { name: name.to_string(), of, nullable, key }
}

fn system_defs() -> [TableDef; 2] {
    let name = Type::NVarChar(128);
    let tables = vec![
        column("table_id", Type::Int, false, 1),
        column("change", Type::Int, false, 2),
        column("name", name, false, 0),
        column("kind", Type::Int, false, 0),
        column("history_name", name, true, 0),
        column("view_name", name, false, 0),
    ];
    let columns = vec![
        column("table_id", Type::Int, false, 1),
        column("item", Type::Int, false, 2),
        column("change", Type::Int, false, 3),
        column("name", name, false, 0),
        column("type_code", Type::Int, false, 0),
        column("p", Type::Int, false, 0),
        column("s", Type::Int, false, 0),
        column("nullable", Type::Bit, false, 0),
        column("key_position", Type::Int, false, 0),
    ];
    [(1, "sys_ledger_tables", tables), (2, "sys_ledger_columns", columns)].map(|(id, name, columns)| TableDef {
        id,
        kind: 1,
        name: name.to_string(),
        history: String::new(),
        view: String::new(),
        key: key_places(&columns),
        columns,
        indexes: Vec::new(),
    })
}

fn whole(n: i128) -> Value {
    Value::Whole(n)
}

fn text(s: &str) -> Value {
    Value::Text(s.to_string())
}

fn row_of(columns: &[Column], values: Vec<Value>) -> Row {
    values.iter().zip(columns).map(|(v, c)| converted(v, c).unwrap()).collect()
}

fn table_row(columns: &[Column], def: &TableDef) -> Row {
    let history = if def.kind == 1 { Value::Null } else { text(&def.history) };
    let values = vec![whole(def.id as i128), whole(0), text(&def.name), whole(def.kind as i128), history, text(&def.view)];
    row_of(columns, values)
}

fn column_rows(columns: &[Column], def: &TableDef) -> Vec<Row> {
    let row = |(place, c): (usize, &Column)| {
        let (code, p, s) = c.of.code();
        let values = vec![
            whole(def.id as i128),
            whole(place as i128 + 1),
            whole(0),
            text(&c.name),
            whole(code as i128),
            whole(p as i128),
            whole(s as i128),
            whole(c.nullable as i128),
            whole(c.key as i128),
        ];
        row_of(columns, values)
    };
    def.columns.iter().enumerate().map(row).collect()
}

fn index_rows(columns: &[Column], def: &TableDef, g: usize) -> Vec<Row> {
    let index = &def.indexes[g - 1];
    let row = |(place, ordinal): (usize, &u16)| {
        let values = vec![
            whole(def.id as i128),
            whole(1000 * g as i128 + 1 + place as i128),
            whole(0),
            text(&index.name),
            whole(0),
            whole(0),
            whole(0),
            whole(0),
            whole(*ordinal as i128),
        ];
        row_of(columns, values)
    };
    index.ordinals.iter().enumerate().map(row).collect()
}

// ---- leaves

fn put_value(value: &Value, of: Type, out: &mut Vec<u8>) {
    match (value, of) {
        (Value::Whole(n), Type::Bit) => {
            out.extend_from_slice(&1u32.to_be_bytes());
            out.push(*n as u8);
        }
        (Value::Whole(n), Type::Int) => {
            out.extend_from_slice(&4u32.to_be_bytes());
            out.extend_from_slice(&(*n as i32).to_be_bytes());
        }
        (Value::Whole(n), _) => {
            out.extend_from_slice(&8u32.to_be_bytes());
            out.extend_from_slice(&(*n as i64).to_be_bytes());
        }
        (Value::Text(text), _) => {
            out.extend_from_slice(&(text.len() as u32).to_be_bytes());
            out.extend_from_slice(text.as_bytes());
        }
        (Value::Null, _) => unreachable!(),
    }
}

fn put_type(of: Type, out: &mut Vec<u8>) {
    let (code, p, s) = of.code();
    let p = p.to_be_bytes();
    out.extend_from_slice(&[code, p[0], p[1], s]);
}

// The leaf of an event: a start, or an end with the version's start.
fn leaf(table: u32, at: Event, ended: Option<Event>, row: &Row, out: &mut Vec<u8>) {
    out.clear();
    let t = table.to_be_bytes();
    out.extend_from_slice(&[1, t[0], t[1], t[2], t[3], if ended.is_some() { 2 } else { 1 }]);
    out.extend_from_slice(&at.0.to_be_bytes());
    out.extend_from_slice(&at.1.to_be_bytes());
    if let Some(start) = ended {
        out.extend_from_slice(&start.0.to_be_bytes());
        out.extend_from_slice(&start.1.to_be_bytes());
    }
    out.extend_from_slice(&(row.iter().flatten().count() as u16).to_be_bytes());
    for (place, value) in row.iter().enumerate() {
        if let Some(typed) = value {
            out.extend_from_slice(&(place as u16 + 1).to_be_bytes());
            put_type(typed.of, out);
            put_value(&typed.value, typed.of, out);
        }
    }
}

// ---- tables

type Key = Vec<Value>;

#[derive(Clone, Copy, PartialEq, Eq, Debug)]
enum Mode {
    IS,
    IX,
    S,
    X,
}

fn agree(a: Mode, b: Mode) -> bool {
    use Mode::*;
    matches!((a, b), (IS, IS | IX | S) | (IX, IS | IX) | (S, IS | S))
}

// The locks of a cell: by item, of which none is the whole.
#[derive(Default)]
struct Locks {
    held: Vec<(Option<Key>, Vec<(u64, Mode)>)>,
}

impl Locks {
    fn ask(&mut self, tx: u64, wants: Vec<(Option<Key>, Mode)>) -> Result<(), u64> {
        for (item, mode) in &wants {
            if let Ok(place) = self.held.binary_search_by(|h| h.0.cmp(item)) {
                let others = self.held[place].1.iter().filter(|h| h.0 != tx && !agree(h.1, *mode));
                if let Some(holder) = others.map(|h| h.0).min() {
                    return Err(holder);
                }
            }
        }
        for (item, mode) in wants {
            match self.held.binary_search_by(|h| h.0.cmp(&item)) {
                Ok(place) => {
                    let holds = &mut self.held[place].1;
                    if !holds.contains(&(tx, mode)) {
                        holds.push((tx, mode));
                    }
                }
                Err(place) => self.held.insert(place, (item, vec![(tx, mode)])),
            }
        }
        Ok(())
    }

    fn release(&mut self, tx: u64) {
        self.held.retain_mut(|(_, holds)| {
            holds.retain(|h| h.0 != tx);
            !holds.is_empty()
        });
    }
}

#[derive(Default)]
struct Store {
    // by start
    versions: Vec<Version>,
    // the starts of the live versions, by key
    order: Vec<Event>,
    // and by the columns of each index
    indexes: Vec<Vec<Event>>,
}

struct Table {
    def: TableDef,
    store: Store,
    locks: Locks,
}

fn key_cmp(key: &[usize], a: &Row, b: &Row) -> Ordering {
    for i in key {
        match plain(&a[*i]).cmp(plain(&b[*i])) {
            Ordering::Equal => {}
            other => return other,
        }
    }
    Ordering::Equal
}

fn index_cmp(ordinals: &[u16], key: &[usize], a: &Row, b: &Row) -> Ordering {
    for n in ordinals {
        let i = *n as usize - 1;
        match plain(&a[i]).cmp(plain(&b[i])) {
            Ordering::Equal => {}
            other => return other,
        }
    }
    key_cmp(key, a, b)
}

impl Table {
    fn new(def: TableDef) -> Table {
        Table { def, store: Store::default(), locks: Locks::default() }
    }

    fn version(&self, start: Event) -> usize {
        self.store.versions.binary_search_by(|v| v.start.cmp(&start)).unwrap()
    }

    fn place_in(&self, order: &[Event], less: impl Fn(&Row) -> bool) -> usize {
        order.partition_point(|start| less(&self.store.versions[self.version(*start)].values))
    }

    fn of_key(&self, key: &[Value]) -> Option<usize> {
        let cmp = |row: &Row| {
            for (i, value) in self.def.key.iter().zip(key) {
                match plain(&row[*i]).cmp(value) {
                    Ordering::Equal => {}
                    other => return other,
                }
            }
            Ordering::Equal
        };
        let place = self.place_in(&self.store.order, |row| cmp(row) == Ordering::Less);
        let found = self.version(*self.store.order.get(place)?);
        (cmp(&self.store.versions[found].values) == Ordering::Equal).then_some(found)
    }

    fn start(&mut self, at: Event, values: Row) {
        let place = self.place_in(&self.store.order, |row| key_cmp(&self.def.key, row, &values) == Ordering::Less);
        self.store.order.insert(place, at);
        for g in 0..self.store.indexes.len() {
            let ordinals = &self.def.indexes[g].ordinals;
            let less = |row: &Row| index_cmp(ordinals, &self.def.key, row, &values) == Ordering::Less;
            let place = self.place_in(&self.store.indexes[g], less);
            self.store.indexes[g].insert(place, at);
        }
        let place = match self.store.versions.last() {
            Some(last) if last.start > at => self.store.versions.partition_point(|v| v.start < at),
            _ => self.store.versions.len(),
        };
        self.store.versions.insert(place, Version { values, start: at, end: None });
    }

    fn end(&mut self, start: Event, at: Event) {
        let found = self.version(start);
        let values = &self.store.versions[found].values;
        let place = self.place_in(&self.store.order, |row| key_cmp(&self.def.key, row, values) == Ordering::Less);
        let places: Vec<usize> = (0..self.store.indexes.len())
            .map(|g| {
                let ordinals = &self.def.indexes[g].ordinals;
                let less = |row: &Row| index_cmp(ordinals, &self.def.key, row, values) == Ordering::Less;
                self.place_in(&self.store.indexes[g], less)
            })
            .collect();
        self.store.order.remove(place);
        for (g, place) in places.into_iter().enumerate() {
            self.store.indexes[g].remove(place);
        }
        self.store.versions[found].end = Some(at);
    }

    fn add_index(&mut self) {
        let ordinals = &self.def.indexes[self.store.indexes.len()].ordinals;
        let mut order = self.store.order.clone();
        let row = |start: &Event| &self.store.versions[self.version(*start)].values;
        order.sort_by(|a, b| index_cmp(ordinals, &self.def.key, row(a), row(b)));
        self.store.indexes.push(order);
    }
}

// ---- statements

#[derive(Debug, PartialEq, Clone)]
enum Token<'a> {
    Word(&'a str),
    Bracketed(&'a str),
    Number(&'a str),
    Text(&'a str),
    Sign(&'a str),
}

fn tokens(text: &str) -> Option<Vec<Token<'_>>> {
    let bytes = text.as_bytes();
    let mut out = Vec::new();
    let mut i = 0;
    let run = |from: usize, test: fn(u8) -> bool| bytes[from..].iter().position(|b| !test(*b)).map_or(bytes.len(), |n| from + n);
    while i < bytes.len() {
        let b = bytes[i];
        let to;
        if b == b' ' || b == b'\t' {
            i += 1;
            continue;
        } else if bytes[i..].starts_with(b"--") {
            break;
        } else if (b == b'N' || b == b'n') && bytes.get(i + 1) == Some(&b'\'') || b == b'\'' {
            let open = if b == b'\'' { i } else { i + 1 };
            let mut end = open + 1;
            loop {
                match bytes.get(end)? {
                    b'\'' if bytes.get(end + 1) == Some(&b'\'') => end += 2,
                    b'\'' => break,
                    _ => end += 1,
                }
            }
            out.push(Token::Text(&text[open + 1..end]));
            to = end + 1;
        } else if b.is_ascii_alphabetic() || b == b'_' {
            to = run(i, |b| b.is_ascii_alphanumeric() || b == b'_');
            out.push(Token::Word(&text[i..to]));
        } else if b == b'[' {
            let end = i + text[i..].find(']')?;
            out.push(Token::Bracketed(&text[i + 1..end]));
            to = end + 1;
        } else if b.is_ascii_digit() {
            to = run(i, |b| b.is_ascii_digit());
            if to - i > 38 {
                return None;
            }
            out.push(Token::Number(&text[i..to]));
        } else {
            let two = ["<>", "!=", "<=", ">="].iter().any(|s| text[i..].starts_with(s));
            if !two && !b"(),;=<>+-*.".contains(&b) {
                return None;
            }
            to = i + if two { 2 } else { 1 };
            out.push(Token::Sign(&text[i..to]));
        }
        i = to;
    }
    Some(out)
}

enum Expr {
    Literal(Value),
    Column(String),
    Negated(Box<Expr>),
    Not(Box<Expr>),
    IsNull(Box<Expr>, bool),
    Two(Op, Box<Expr>, Box<Expr>),
}

#[derive(Clone, Copy, PartialEq)]
enum Op {
    Add,
    Sub,
    Mul,
    Eq,
    Ne,
    Lt,
    Le,
    Gt,
    Ge,
    And,
    Or,
}

enum Stmt {
    Create { name: String, columns: Vec<Column> },
    Index { name: String, table: String, columns: Vec<String> },
    Insert { table: String, columns: Option<Vec<String>>, rows: Vec<Vec<Value>> },
    Update { table: String, sets: Vec<(String, Expr)>, filter: Option<Expr> },
    Delete { table: String, filter: Option<Expr> },
    Select { table: String, filter: Option<Expr> },
    Digest,
}

const RESERVED: [&str; 42] = [
    "ADD", "ALTER", "AND", "AS", "ASC", "BEGIN", "BY", "CLUSTERED", "COLUMN", "COMMIT", "CREATE", "DELETE", "DESC",
    "DROP", "EXEC", "EXECUTE", "FROM", "IN", "INDEX", "INSERT", "INTO", "IS", "KEY", "NONCLUSTERED", "NOT", "NULL",
    "OF", "ON", "OR", "ORDER", "PRIMARY", "ROLLBACK", "SAVE", "SELECT", "SET", "TABLE", "TRAN", "TRANSACTION",
    "UPDATE", "VALUES", "WHERE", "WITH",
];

struct Parser<'a> {
    tokens: Vec<Token<'a>>,
    at: usize,
}

impl<'a> Parser<'a> {
    fn word(&mut self, word: &str) -> bool {
        let is = matches!(self.tokens.get(self.at), Some(Token::Word(w)) if w.eq_ignore_ascii_case(word));
        self.at += is as usize;
        is
    }

    fn sign(&mut self, sign: &str) -> bool {
        let is = matches!(self.tokens.get(self.at), Some(Token::Sign(s)) if *s == sign);
        self.at += is as usize;
        is
    }

    fn want_word(&mut self, word: &str) -> Option<()> {
        self.word(word).then_some(())
    }

    fn want(&mut self, sign: &str) -> Option<()> {
        self.sign(sign).then_some(())
    }

    fn name(&mut self) -> Option<String> {
        let name = match self.tokens.get(self.at)? {
            Token::Word(w) if RESERVED.iter().all(|r| !w.eq_ignore_ascii_case(r)) => *w,
            Token::Bracketed(w) => *w,
            _ => return None,
        };
        self.at += 1;
        Some(name.to_string())
    }

    fn number(&mut self) -> Option<i128> {
        let Some(Token::Number(digits)) = self.tokens.get(self.at) else {
            return None;
        };
        self.at += 1;
        digits.parse().ok()
    }

    fn literal(&mut self) -> Option<Value> {
        if self.word("NULL") {
            return Some(Value::Null);
        }
        if let Some(Token::Text(text)) = self.tokens.get(self.at) {
            self.at += 1;
            return Some(Value::Text(text.replace("''", "'")));
        }
        self.number().map(Value::Whole)
    }

    fn list<T>(&mut self, one: fn(&mut Parser<'a>) -> Option<T>) -> Option<Vec<T>> {
        let mut all = vec![one(self)?];
        while self.sign(",") {
            all.push(one(self)?);
        }
        Some(all)
    }

    fn in_brackets<T>(&mut self, one: fn(&mut Parser<'a>) -> Option<T>) -> Option<Vec<T>> {
        self.want("(")?;
        let all = self.list(one)?;
        self.want(")")?;
        Some(all)
    }

    fn column(&mut self) -> Option<Column> {
        let name = self.name()?;
        let of = if self.word("BIT") {
            Type::Bit
        } else if self.word("INT") {
            Type::Int
        } else if self.word("BIGINT") {
            Type::BigInt
        } else {
            self.want_word("NVARCHAR")?;
            self.want("(")?;
            let n = self.number()?;
            self.want(")")?;
            Type::NVarChar(n as u16)
        };
        let not_null = self.word("NOT");
        let null = self.word("NULL");
        let key = self.word("PRIMARY") && self.word("KEY");
        if key {
            self.word("CLUSTERED");
        }
        Some(Column { name, of, nullable: !not_null && (null || !key), key: key as u8 })
    }

    fn value(&mut self) -> Option<Value> {
        if self.sign("-") {
            return self.number().map(|n| Value::Whole(-n));
        }
        if self.sign("+") {
            return self.number().map(Value::Whole);
        }
        self.literal()
    }

    fn row(&mut self) -> Option<Vec<Value>> {
        self.in_brackets(Parser::value)
    }

    fn set(&mut self) -> Option<(String, Expr)> {
        let name = self.name()?;
        self.want("=")?;
        Some((name, self.expr()?))
    }

    fn filter(&mut self) -> Option<Option<Expr>> {
        if self.word("WHERE") { self.expr().map(Some) } else { Some(None) }
    }

    fn expr(&mut self) -> Option<Expr> {
        let mut left = self.and()?;
        while self.word("OR") {
            left = Expr::Two(Op::Or, Box::new(left), Box::new(self.and()?));
        }
        Some(left)
    }

    fn and(&mut self) -> Option<Expr> {
        let mut left = self.not()?;
        while self.word("AND") {
            left = Expr::Two(Op::And, Box::new(left), Box::new(self.not()?));
        }
        Some(left)
    }

    fn not(&mut self) -> Option<Expr> {
        if self.word("NOT") { Some(Expr::Not(Box::new(self.not()?))) } else { self.cmp() }
    }

    fn cmp(&mut self) -> Option<Expr> {
        let left = self.sum()?;
        if self.word("IS") {
            let not = self.word("NOT");
            self.want_word("NULL")?;
            return Some(Expr::IsNull(Box::new(left), !not));
        }
        let signs = [
            ("=", Op::Eq), ("<>", Op::Ne), ("!=", Op::Ne), ("<=", Op::Le), ("<", Op::Lt), (">=", Op::Ge), (">", Op::Gt),
        ];
        for (sign, op) in signs {
            if self.sign(sign) {
                return Some(Expr::Two(op, Box::new(left), Box::new(self.sum()?)));
            }
        }
        Some(left)
    }

    fn sum(&mut self) -> Option<Expr> {
        let mut left = self.product()?;
        loop {
            let op = if self.sign("+") {
                Op::Add
            } else if self.sign("-") {
                Op::Sub
            } else {
                return Some(left);
            };
            left = Expr::Two(op, Box::new(left), Box::new(self.product()?));
        }
    }

    fn product(&mut self) -> Option<Expr> {
        let mut left = self.unary()?;
        while self.sign("*") {
            left = Expr::Two(Op::Mul, Box::new(left), Box::new(self.unary()?));
        }
        Some(left)
    }

    fn unary(&mut self) -> Option<Expr> {
        if self.sign("-") {
            return Some(Expr::Negated(Box::new(self.unary()?)));
        }
        if self.sign("(") {
            let inner = self.expr()?;
            self.want(")")?;
            return Some(inner);
        }
        if let Some(literal) = self.literal() {
            return Some(Expr::Literal(literal));
        }
        self.name().map(Expr::Column)
    }

    fn statement(&mut self) -> Option<Stmt> {
        if self.word("CREATE") {
            if self.word("TABLE") {
                let name = self.name()?;
                let columns = self.in_brackets(Parser::column)?;
                return (columns.iter().filter(|c| c.key > 0).count() == 1).then_some(Stmt::Create { name, columns });
            }
            self.word("NONCLUSTERED");
            self.want_word("INDEX")?;
            let name = self.name()?;
            self.want_word("ON")?;
            let table = self.name()?;
            return Some(Stmt::Index { name, table, columns: self.in_brackets(Parser::name)? });
        }
        if self.word("INSERT") {
            self.word("INTO");
            let table = self.name()?;
            let columns = match self.tokens.get(self.at) {
                Some(Token::Sign("(")) => Some(self.in_brackets(Parser::name)?),
                _ => None,
            };
            self.want_word("VALUES")?;
            return Some(Stmt::Insert { table, columns, rows: self.list(Parser::row)? });
        }
        if self.word("UPDATE") {
            let table = self.name()?;
            self.want_word("SET")?;
            let sets = self.list(Parser::set)?;
            return Some(Stmt::Update { table, sets, filter: self.filter()? });
        }
        if self.word("DELETE") {
            self.word("FROM");
            let table = self.name()?;
            return Some(Stmt::Delete { table, filter: self.filter()? });
        }
        if self.word("SELECT") {
            self.want("*")?;
            self.want_word("FROM")?;
            let table = self.name()?;
            return Some(Stmt::Select { table, filter: self.filter()? });
        }
        (self.word("EXEC") || self.word("EXECUTE")).then_some(())?;
        self.want_word("sp_generate_database_ledger_digest")?;
        Some(Stmt::Digest)
    }
}

fn parse(text: &str) -> Option<Stmt> {
    let mut parser = Parser { tokens: tokens(text)?, at: 0 };
    let stmt = parser.statement()?;
    parser.sign(";");
    (parser.at == parser.tokens.len()).then_some(stmt)
}

// ---- expressions

// An expression whose columns are places.
enum Bound {
    Literal(Value),
    Column(usize),
    Negated(Box<Bound>),
    Not(Box<Bound>),
    IsNull(Box<Bound>, bool),
    Two(Op, Box<Bound>, Box<Bound>),
}

fn place_of(columns: &[Column], name: &str) -> Result<usize, u8> {
    columns.iter().position(|c| c.name == name).ok_or(4)
}

fn bind(expr: &Expr, columns: &[Column]) -> Result<Bound, u8> {
    let of = |e: &Expr| bind(e, columns).map(Box::new);
    Ok(match expr {
        Expr::Literal(value) => Bound::Literal(value.clone()),
        Expr::Column(name) => Bound::Column(place_of(columns, name)?),
        Expr::Negated(e) => Bound::Negated(of(e)?),
        Expr::Not(e) => Bound::Not(of(e)?),
        Expr::IsNull(e, is) => Bound::IsNull(of(e)?, *is),
        Expr::Two(op, a, b) => Bound::Two(*op, of(a)?, of(b)?),
    })
}

fn truth(value: Option<bool>) -> Value {
    value.map_or(Value::Null, |b| Value::Whole(b as i128))
}

fn known(value: &Value) -> Option<bool> {
    match value {
        Value::Whole(n) => Some(*n != 0),
        _ => None,
    }
}

fn counted(n: Option<i128>) -> Result<Value, u8> {
    n.filter(|n| n.unsigned_abs() < 10u128.pow(38)).map(Value::Whole).ok_or(8)
}

fn eval(expr: &Bound, row: &Row) -> Result<Value, u8> {
    Ok(match expr {
        Bound::Literal(value) => value.clone(),
        Bound::Column(place) => plain(&row[*place]).clone(),
        Bound::Negated(e) => match eval(e, row)? {
            Value::Whole(n) => Value::Whole(-n),
            _ => Value::Null,
        },
        Bound::Not(e) => truth(known(&eval(e, row)?).map(|b| !b)),
        Bound::IsNull(e, is) => truth(Some((eval(e, row)? == Value::Null) == *is)),
        Bound::Two(op, a, b) => {
            let (a, b) = (eval(a, row)?, eval(b, row)?);
            match op {
                Op::And => truth(match (known(&a), known(&b)) {
                    (Some(false), _) | (_, Some(false)) => Some(false),
                    (Some(true), Some(true)) => Some(true),
                    _ => None,
                }),
                Op::Or => truth(match (known(&a), known(&b)) {
                    (Some(true), _) | (_, Some(true)) => Some(true),
                    (Some(false), Some(false)) => Some(false),
                    _ => None,
                }),
                _ if a == Value::Null || b == Value::Null => Value::Null,
                Op::Add | Op::Sub | Op::Mul => match (&a, &b) {
                    (Value::Whole(x), Value::Whole(y)) => counted(match op {
                        Op::Add => x.checked_add(*y),
                        Op::Sub => x.checked_sub(*y),
                        _ => x.checked_mul(*y),
                    })?,
                    _ => return Err(5),
                },
                _ => {
                    let order = a.cmp(&b);
                    truth(Some(match op {
                        Op::Eq => order.is_eq(),
                        Op::Ne => order.is_ne(),
                        Op::Lt => order.is_lt(),
                        Op::Le => order.is_le(),
                        Op::Gt => order.is_gt(),
                        _ => order.is_ge(),
                    }))
                }
            }
        }
    })
}

// The key that a condition fixes.
fn fixed_key(filter: &Option<Expr>, def: &TableDef) -> Option<Key> {
    fn find<'a>(expr: &'a Expr, name: &str) -> Option<&'a Value> {
        match expr {
            Expr::Two(Op::And, a, b) => find(a, name).or_else(|| find(b, name)),
            Expr::Two(Op::Eq, a, b) => match (&**a, &**b) {
                (Expr::Column(c), Expr::Literal(v)) | (Expr::Literal(v), Expr::Column(c)) if c == name => Some(v),
                _ => None,
            },
            _ => None,
        }
    }
    let filter = filter.as_ref()?;
    let value = |place: &usize| {
        let column = &def.columns[*place];
        let value = find(filter, &column.name)?;
        match converted(value, column) {
            Ok(Some(typed)) if typed.value == *value => Some(typed.value),
            _ => None,
        }
    };
    def.key.iter().map(value).collect()
}

// ---- the server

struct Entry {
    id: u64,
    time: u64,
    session: String,
    roots: Vec<(u32, Hash)>,
}

enum Item {
    Tx { id: u64, session: String, time: u64, text: String, reply: String },
    Close(u32),
}

struct Record {
    id: u64,
    root: Hash,
    count: u64,
    before: Hash,
}

impl Record {
    fn bytes(&self) -> [u8; 80] {
        let mut out = [0; 80];
        out[..8].copy_from_slice(&self.id.to_be_bytes());
        out[8..40].copy_from_slice(&self.root);
        out[40..48].copy_from_slice(&self.count.to_be_bytes());
        out[48..].copy_from_slice(&self.before);
        out
    }
}

struct Digest {
    block: u64,
    hash: Hash,
    last: u64,
    made: u64,
}

fn put_short(text: &str, out: &mut Vec<u8>) {
    out.extend_from_slice(&(text.len() as u16).to_be_bytes());
    out.extend_from_slice(text.as_bytes());
}

fn put_wide(text: &str, out: &mut Vec<u8>) {
    out.extend_from_slice(&(text.len() as u64).to_be_bytes());
    out.extend_from_slice(text.as_bytes());
}

fn put_roots(roots: &[(u32, Hash)], out: &mut Vec<u8>) {
    out.extend_from_slice(&[1, roots.len() as u8]);
    for (table, root) in roots {
        out.extend_from_slice(&table.to_be_bytes());
        out.extend_from_slice(root);
    }
}

fn entry_bytes(entry: &Entry, block: u64, ordinal: u32, out: &mut Vec<u8>) {
    out.clear();
    out.push(1);
    out.extend_from_slice(&entry.id.to_be_bytes());
    out.extend_from_slice(&block.to_be_bytes());
    out.extend_from_slice(&ordinal.to_be_bytes());
    out.extend_from_slice(&entry.time.to_be_bytes());
    put_short(&entry.session, out);
    put_roots(&entry.roots, out);
}

fn block_root(entries: &[Entry], block: u64) -> Hash {
    let mut tree = Frontier::default();
    let mut bytes = Vec::new();
    for (ordinal, entry) in entries.iter().enumerate() {
        entry_bytes(entry, block, ordinal as u32, &mut bytes);
        tree.push(&bytes);
    }
    tree.root()
}

struct Server {
    database: String,
    block_size: usize,
    system: [Table; 2],
    tables: Vec<Table>,
    next: u64,
    items: Vec<Item>,
    entries: Vec<Entry>,
    closed: usize,
    blocks: Vec<Record>,
    last_hash: Hash,
    digests: Vec<Digest>,
    leaf: Vec<u8>,
}

// A running transaction: its id, the number of its next event, and its trees.
struct Running {
    id: u64,
    seq: u64,
    trees: Vec<(u32, Frontier)>,
}

impl Running {
    fn note(&mut self, table: u32, leaf: &[u8]) {
        let place = match self.trees.iter().position(|t| t.0 == table) {
            Some(place) => place,
            None => {
                self.trees.push((table, Frontier::default()));
                self.trees.len() - 1
            }
        };
        self.trees[place].1.push(leaf);
        self.seq += 1;
    }

    fn roots(&self) -> Vec<(u32, Hash)> {
        let mut roots: Vec<(u32, Hash)> = self.trees.iter().map(|t| (t.0, t.1.root())).collect();
        roots.sort_by_key(|r| r.0);
        roots
    }
}

fn put_value_text(value: &Option<Typed>, out: &mut String) {
    use std::fmt::Write;
    match plain(value) {
        Value::Null => out.push_str("NULL"),
        Value::Whole(n) => write!(out, "{n}").unwrap(),
        Value::Text(text) => write!(out, "N'{}'", text.replace('\'', "''")).unwrap(),
    }
}

impl Server {
    fn table(&mut self, name: &str) -> Result<usize, u8> {
        self.tables.iter().position(|t| t.def.name == name).ok_or(2)
    }

    // A row of a system table starts.
    fn note_row(&mut self, running: &mut Running, id: u32, row: Row) {
        let at = (running.id, running.seq);
        leaf(id, at, None, &row, &mut self.leaf);
        running.note(id, &self.leaf);
        self.system[id as usize - 1].start(at, row);
    }

    fn create(&mut self, running: &mut Running, name: String, columns: Vec<Column>) -> Result<(), u8> {
        if self.tables.iter().any(|t| t.def.name == name) {
            return Err(3);
        }
        let id = self.tables.len() as u32 + 3;
        let def = TableDef {
            id,
            kind: 2,
            history: format!("MSSQL_LedgerHistoryFor_{id}"),
            view: format!("{name}_Ledger"),
            name,
            key: key_places(&columns),
            columns,
            indexes: Vec::new(),
        };
        let first = table_row(&self.system[0].def.columns, &def);
        let rows = column_rows(&self.system[1].def.columns, &def);
        self.note_row(running, 1, first);
        for row in rows {
            self.note_row(running, 2, row);
        }
        self.tables.push(Table::new(def));
        Ok(())
    }

    fn create_index(&mut self, running: &mut Running, name: String, table: &str, columns: &[String]) -> Result<(), u8> {
        let place = self.table(table)?;
        let def = &mut self.tables[place].def;
        let ordinals = columns.iter().map(|c| place_of(&def.columns, c).map(|p| p as u16 + 1)).collect::<Result<_, _>>()?;
        def.indexes.push(IndexDef { name, ordinals });
        let rows = index_rows(&self.system[1].def.columns, def, def.indexes.len());
        for row in rows {
            self.note_row(running, 2, row);
        }
        self.tables[place].add_index();
        Ok(())
    }

    fn insert(&mut self, running: &mut Running, table: usize, columns: &Option<Vec<String>>, rows: &[Vec<Value>]) -> Result<u64, u8> {
        let table = &mut self.tables[table];
        let def = &table.def;
        let places: Vec<usize> = match columns {
            None => (0..def.columns.len()).collect(),
            Some(names) => names.iter().map(|n| place_of(&def.columns, n)).collect::<Result<_, _>>()?,
        };
        if rows.iter().any(|row| row.len() != places.len()) {
            return Err(18);
        }
        let mut made: Vec<Row> = Vec::with_capacity(rows.len());
        for row in rows {
            let mut full = vec![Value::Null; def.columns.len()];
            for (place, value) in places.iter().zip(row) {
                full[*place] = value.clone();
            }
            made.push(full.iter().zip(&def.columns).map(|(v, c)| converted(v, c)).collect::<Result<_, _>>()?);
        }
        let mut keys: Vec<Key> = made.iter().map(|row| def.key.iter().map(|i| plain(&row[*i]).clone()).collect()).collect();
        let wants = std::iter::once((None, Mode::IX)).chain(keys.iter().map(|k| (Some(k.clone()), Mode::X))).collect();
        table.locks.ask(running.id, wants).map_err(|_| 20)?;
        if keys.iter().any(|key| table.of_key(key).is_some()) {
            return Err(7);
        }
        keys.sort();
        if keys.windows(2).any(|w| w[0] == w[1]) {
            return Err(7);
        }
        let count = made.len() as u64;
        for row in made {
            let at = (running.id, running.seq);
            leaf(table.def.id, at, None, &row, &mut self.leaf);
            running.note(table.def.id, &self.leaf);
            table.start(at, row);
        }
        Ok(count)
    }

    // The starts of the versions that a condition takes, in key order.
    fn taken(&mut self, tx: u64, table: usize, filter: &Option<Expr>, change: bool) -> Result<Vec<Event>, u8> {
        let table = &mut self.tables[table];
        let bound = filter.as_ref().map(|f| bind(f, &table.def.columns)).transpose()?;
        let key = fixed_key(filter, &table.def);
        let (whole, one) = if change { (Mode::X, Mode::X) } else { (Mode::S, Mode::S) };
        let wants = match &key {
            None => vec![(None, whole)],
            Some(key) => vec![(None, if change { Mode::IX } else { Mode::IS }), (Some(key.clone()), one)],
        };
        table.locks.ask(tx, wants).map_err(|_| 20)?;
        let all = match &key {
            Some(key) => table.of_key(key).map(|v| table.store.versions[v].start).into_iter().collect(),
            None => table.store.order.clone(),
        };
        let mut taken = Vec::with_capacity(all.len());
        for start in all {
            let row = &table.store.versions[table.version(start)].values;
            let takes = match &bound {
                None => true,
                Some(bound) => known(&eval(bound, row)?) == Some(true),
            };
            if takes {
                taken.push(start);
            }
        }
        Ok(taken)
    }

    fn end_row(&mut self, running: &mut Running, table: usize, start: Event) {
        let table = &mut self.tables[table];
        let at = (running.id, running.seq);
        let row = &table.store.versions[table.version(start)].values;
        leaf(table.def.id, at, Some(start), row, &mut self.leaf);
        running.note(table.def.id, &self.leaf);
        table.end(start, at);
    }

    fn update(&mut self, running: &mut Running, table: usize, sets: &[(String, Expr)], filter: &Option<Expr>) -> Result<u64, u8> {
        let taken = self.taken(running.id, table, filter, true)?;
        let columns = &self.tables[table].def.columns;
        let sets: Vec<(usize, Bound)> = sets
            .iter()
            .map(|(name, e)| Ok((place_of(columns, name)?, bind(e, columns)?)))
            .collect::<Result<_, u8>>()?;
        let mut made = Vec::with_capacity(taken.len());
        for start in &taken {
            let before = &self.tables[table].store.versions[self.tables[table].version(*start)].values;
            let mut row = before.clone();
            for (place, set) in &sets {
                row[*place] = converted(&eval(set, before)?, &columns[*place])?;
            }
            made.push(row);
        }
        let count = made.len() as u64;
        for (start, row) in taken.into_iter().zip(made) {
            self.end_row(running, table, start);
            let at = (running.id, running.seq);
            let table = &mut self.tables[table];
            leaf(table.def.id, at, None, &row, &mut self.leaf);
            running.note(table.def.id, &self.leaf);
            table.start(at, row);
        }
        Ok(count)
    }

    fn delete(&mut self, running: &mut Running, table: usize, filter: &Option<Expr>) -> Result<u64, u8> {
        let taken = self.taken(running.id, table, filter, true)?;
        let count = taken.len() as u64;
        for start in taken {
            self.end_row(running, table, start);
        }
        Ok(count)
    }

    fn select(&mut self, running: &Running, table: usize, filter: &Option<Expr>) -> Result<String, u8> {
        let taken = self.taken(running.id, table, filter, false)?;
        let table = &self.tables[table];
        let mut out = String::new();
        for start in &taken {
            for (place, value) in table.store.versions[table.version(*start)].values.iter().enumerate() {
                if place > 0 {
                    out.push('|');
                }
                put_value_text(value, &mut out);
            }
            out.push('\n');
        }
        out.push_str(&format!("{} rows\n", taken.len()));
        Ok(out)
    }

    fn run(&mut self, running: &mut Running, stmt: Stmt) -> Result<String, u8> {
        let count = match stmt {
            Stmt::Create { name, columns } => return self.create(running, name, columns).map(|()| "made\n".to_string()),
            Stmt::Index { name, table, columns } => {
                return self.create_index(running, name, &table, &columns).map(|()| "made\n".to_string());
            }
            Stmt::Insert { table, columns, rows } => {
                let table = self.table(&table)?;
                self.insert(running, table, &columns, &rows)?
            }
            Stmt::Update { table, sets, filter } => {
                let table = self.table(&table)?;
                self.update(running, table, &sets, &filter)?
            }
            Stmt::Delete { table, filter } => {
                let table = self.table(&table)?;
                self.delete(running, table, &filter)?
            }
            Stmt::Select { table, filter } => {
                let table = self.table(&table)?;
                return self.select(running, table, &filter);
            }
            Stmt::Digest => unreachable!(),
        };
        Ok(format!("{count} rows\n"))
    }

    fn close(&mut self, count: usize) {
        let block = self.blocks.len() as u64;
        let root = block_root(&self.entries[self.closed..self.closed + count], block);
        let record = Record { id: block, root, count: count as u64, before: self.last_hash };
        self.last_hash = sha::hash(&[&record.bytes()]);
        self.blocks.push(record);
        self.closed += count;
        self.items.push(Item::Close(count as u32));
    }

    fn digest(&mut self, now: u64) -> String {
        if self.entries.is_empty() {
            return "E19\n".to_string();
        }
        let pending = self.entries.len() - self.closed;
        if pending > 0 {
            self.close(pending);
        }
        let block = self.blocks.len() as u64 - 1;
        let last = self.entries[self.closed - 1].time;
        self.digests.push(Digest { block, hash: self.last_hash, last, made: now });
        format!("digest {block} 0x{}\n", digits(&self.last_hash))
    }

    // Runs a statement of a session, and adds its reply to the transcript.
    fn step(&mut self, session: &str, line: &str, now: u64, out: &mut String) {
        use std::fmt::Write;
        write!(out, "{session}: {line}\n").unwrap();
        let Some(stmt) = parse(line) else {
            out.push_str("  E01\n");
            return;
        };
        if let Stmt::Digest = stmt {
            let reply = self.digest(now);
            write!(out, "  {reply}").unwrap();
            return;
        }
        let mut running = Running { id: self.next, seq: 0, trees: Vec::new() };
        self.next += 1;
        let reply = self.run(&mut running, stmt).unwrap_or_else(|code| format!("E{code:02}\n"));
        for line in reply.lines() {
            write!(out, "  {line}\n").unwrap();
        }
        let id = running.id;
        if running.trees.is_empty() {
            write!(out, "  ended {id} after {}\n", self.entries.len()).unwrap();
        } else {
            let entry = Entry { id, time: now, session: session.to_string(), roots: running.roots() };
            self.entries.push(entry);
            self.items.push(Item::Tx { id, session: session.to_string(), time: now, text: line.to_string(), reply });
            write!(out, "  committed {id} at {}\n", self.entries.len()).unwrap();
        }
        for table in &mut self.tables {
            table.locks.release(id);
        }
        if self.entries.len() - self.closed >= self.block_size {
            self.close(self.block_size);
        }
    }

    fn journal(&self) -> Vec<u8> {
        let mut out = b"LGJN\x02".to_vec();
        put_short(&self.database, &mut out);
        out.extend_from_slice(&(self.items.len() as u64).to_be_bytes());
        for item in &self.items {
            match item {
                Item::Tx { id, session, time, text, reply } => {
                    out.push(1);
                    out.extend_from_slice(&id.to_be_bytes());
                    put_short(session, &mut out);
                    out.extend_from_slice(&time.to_be_bytes());
                    out.push(0);
                    out.extend_from_slice(&1u64.to_be_bytes());
                    put_wide(text, &mut out);
                    put_wide(reply, &mut out);
                }
                Item::Close(count) => {
                    out.push(2);
                    out.extend_from_slice(&count.to_be_bytes());
                }
            }
        }
        out
    }

    fn digest_file(&self) -> String {
        let one = |d: &Digest| {
            format!(
                "{{\"block_id\":{},\"database_name\":\"{}\",\"digest_time\":\"{}\",\"hash\":\"0x{}\",\"last_transaction_commit_time\":\"{}\"}}",
                d.block, self.database, moment(d.made), digits(&d.hash), moment(d.last)
            )
        };
        let all: Vec<String> = self.digests.iter().map(one).collect();
        format!("[{}]", all.join(","))
    }

    fn image(&self) -> Vec<u8> {
        let mut out = b"LGIM\x02".to_vec();
        put_short(&self.database, &mut out);
        out.extend_from_slice(&(self.blocks.len() as u64).to_be_bytes());
        for record in &self.blocks {
            out.extend_from_slice(&record.bytes());
        }
        out.extend_from_slice(&(self.entries.len() as u64).to_be_bytes());
        for entry in &self.entries {
            out.extend_from_slice(&entry.id.to_be_bytes());
            out.extend_from_slice(&entry.time.to_be_bytes());
            put_short(&entry.session, &mut out);
            put_roots(&entry.roots, &mut out);
        }
        out.extend_from_slice(&(self.tables.len() as u32).to_be_bytes());
        for table in &self.tables {
            put_def(&table.def, &mut out);
        }
        for table in self.system.iter().chain(&self.tables) {
            put_rows(table, &mut out);
        }
        out
    }
}

fn put_def(def: &TableDef, out: &mut Vec<u8>) {
    out.extend_from_slice(&def.id.to_be_bytes());
    out.extend_from_slice(&[def.kind, 0]);
    put_short(&def.name, out);
    put_short(&def.history, out);
    put_short(&def.view, out);
    out.extend_from_slice(&(def.columns.len() as u16).to_be_bytes());
    for c in &def.columns {
        put_short(&c.name, out);
        put_type(c.of, out);
        out.extend_from_slice(&[c.nullable as u8, c.key, 0]);
    }
    out.push(def.indexes.len() as u8);
    for index in &def.indexes {
        put_short(&index.name, out);
        out.push(index.ordinals.len() as u8);
        for n in &index.ordinals {
            out.extend_from_slice(&n.to_be_bytes());
        }
    }
}

fn put_values<'a>(values: impl ExactSizeIterator<Item = &'a Option<Typed>>, out: &mut Vec<u8>) {
    out.extend_from_slice(&(values.len() as u16).to_be_bytes());
    for value in values {
        match value {
            None => out.push(0),
            Some(typed) => {
                out.push(1);
                put_type(typed.of, out);
                put_value(&typed.value, typed.of, out);
            }
        }
    }
}

fn put_event(event: Event, out: &mut Vec<u8>) {
    out.extend_from_slice(&event.0.to_be_bytes());
    out.extend_from_slice(&event.1.to_be_bytes());
}

fn put_rows(table: &Table, out: &mut Vec<u8>) {
    let versions = &table.store.versions;
    let base = versions.iter().filter(|v| v.end.is_none());
    out.extend_from_slice(&(base.clone().count() as u64).to_be_bytes());
    for v in base {
        put_event(v.start, out);
        put_values(v.values.iter(), out);
    }
    let history = versions.iter().filter(|v| v.end.is_some());
    out.extend_from_slice(&(history.clone().count() as u64).to_be_bytes());
    for v in history {
        put_event(v.start, out);
        put_event(v.end.unwrap(), out);
        put_values(v.values.iter(), out);
    }
    for (index, order) in table.def.indexes.iter().zip(&table.store.indexes) {
        let places: Vec<usize> = index.ordinals.iter().map(|n| *n as usize - 1).chain(table.def.key.iter().copied()).collect();
        out.extend_from_slice(&(order.len() as u64).to_be_bytes());
        for start in order {
            let row = &versions[table.version(*start)].values;
            put_values(places.iter().map(|p| &row[*p]), out);
        }
    }
}

fn digits(bytes: &[u8]) -> String {
    let mut out = String::with_capacity(2 * bytes.len());
    for b in bytes {
        for d in [b >> 4, b & 15] {
            out.push(b"0123456789ABCDEF"[d as usize] as char);
        }
    }
    out
}

// Only days from 1970 on, by counting years and months.
fn moment(ticks: u64) -> String {
    let (mut days, rest) = (ticks / 864_000_000_000, ticks % 864_000_000_000);
    let leap = |y: u64| y % 4 == 0 && (y % 100 != 0 || y % 400 == 0);
    let mut year = 1970;
    while days >= 365 + leap(year) as u64 {
        days -= 365 + leap(year) as u64;
        year += 1;
    }
    let lengths = [31, 28 + leap(year) as u64, 31, 30, 31, 30, 31, 31, 30, 31, 30, 31];
    let mut month = 0;
    while days >= lengths[month] {
        days -= lengths[month];
        month += 1;
    }
    let seconds = rest / 10_000_000;
    format!(
        "{year:04}-{:02}-{:02}T{:02}:{:02}:{:02}.{:07}",
        month + 1, days + 1, seconds / 3600, seconds / 60 % 60, seconds % 60, rest % 10_000_000
    )
}

// The sessions and statements of an input.
fn lines_of(input: &str) -> Option<Vec<(&str, &str)>> {
    let blank: &[char] = &[' ', '\t'];
    let mut lines = Vec::new();
    let mut names: Vec<&str> = Vec::new();
    for line in input.split('\n') {
        let line = line.strip_suffix('\r').unwrap_or(line).trim_matches(blank);
        if line.is_empty() || line.starts_with("--") {
            continue;
        }
        let (session, rest) = line.split_once(':')?;
        let fine = (1..=32).contains(&session.len()) && session.bytes().all(|b| b.is_ascii_alphanumeric() || b == b'_');
        if !fine {
            return None;
        }
        if !names.contains(&session) {
            names.push(session);
        }
        lines.push((session, rest.trim_matches(blank)));
    }
    (names.len() <= 64).then_some(lines)
}

fn put(name: &str, bytes: &[u8]) -> std::io::Result<()> {
    let beside = format!(".{name}.new");
    let mut file = std::fs::File::create(&beside)?;
    file.write_all(bytes)?;
    file.sync_all()?;
    std::fs::rename(beside, name)
}

fn option<'a>(words: &'a [String], name: &str) -> Option<&'a str> {
    let place = words.iter().position(|w| w == name)?;
    words.get(place + 1).map(|w| w.as_str())
}

fn step(words: &[String]) -> std::io::Result<i32> {
    let save = option(words, "--save").expect("--save NAME");
    let block_size = option(words, "--block-size").map_or(100_000, |n| n.parse().unwrap());
    let clock: Option<u64> = option(words, "--clock").map(|n| n.parse().unwrap());
    let mut input = Vec::new();
    std::io::stdin().take((4 << 20) + 1).read_to_end(&mut input)?;
    if input.len() > 4 << 20 {
        return Ok(3);
    }
    let Some(lines) = std::str::from_utf8(&input).ok().and_then(lines_of) else {
        return Ok(10);
    };
    let mut server = Server {
        database: option(words, "--database").unwrap_or("LedgerDB").to_string(),
        block_size,
        system: system_defs().map(Table::new),
        tables: Vec::new(),
        next: 1,
        items: Vec::new(),
        entries: Vec::new(),
        closed: 0,
        blocks: Vec::new(),
        last_hash: [0; 32],
        digests: Vec::new(),
        leaf: Vec::new(),
    };
    let mut out = String::new();
    for (session, line) in lines {
        let now = clock.unwrap_or_else(|| {
            let since = std::time::SystemTime::now().duration_since(std::time::UNIX_EPOCH).unwrap();
            (since.as_nanos() / 100) as u64
        });
        server.step(session, line, now, &mut out);
    }
    put(&format!("{save}.img"), &server.image())?;
    put(&format!("{save}.digests"), server.digest_file().as_bytes())?;
    put(&format!("{save}.journal"), &server.journal())?;
    std::io::stdout().write_all(out.as_bytes())?;
    Ok(0)
}

// ---- verify

struct Bytes<'a> {
    rest: &'a [u8],
}

impl<'a> Bytes<'a> {
    fn take(&mut self, n: usize) -> Option<&'a [u8]> {
        let (taken, rest) = self.rest.split_at_checked(n)?;
        self.rest = rest;
        Some(taken)
    }
    fn u8(&mut self) -> Option<u8> {
        Some(self.take(1)?[0])
    }
    fn u16(&mut self) -> Option<u16> {
        Some(u16::from_be_bytes(self.take(2)?.try_into().unwrap()))
    }
    fn u32(&mut self) -> Option<u32> {
        Some(u32::from_be_bytes(self.take(4)?.try_into().unwrap()))
    }
    fn u64(&mut self) -> Option<u64> {
        Some(u64::from_be_bytes(self.take(8)?.try_into().unwrap()))
    }
    fn hash(&mut self) -> Option<Hash> {
        Some(self.take(32)?.try_into().unwrap())
    }
    fn short(&mut self) -> Option<String> {
        let n = self.u16()? as usize;
        String::from_utf8(self.take(n)?.to_vec()).ok()
    }
    fn event(&mut self) -> Option<Event> {
        Some((self.u64()?, self.u64()?))
    }
    fn of(&mut self) -> Option<Type> {
        let (code, p, s) = (self.u8()?, self.u16()?, self.u8()?);
        match (code, p, s) {
            (1, 0, 0) => Some(Type::Bit),
            (2, 0, 0) => Some(Type::Int),
            (3, 0, 0) => Some(Type::BigInt),
            (5, 1..=4000, 0) => Some(Type::NVarChar(p)),
            _ => None,
        }
    }
    fn values(&mut self) -> Option<Row> {
        let n = self.u16()?;
        (0..n).map(|_| self.typed()).collect()
    }
    fn typed(&mut self) -> Option<Option<Typed>> {
        if self.u8()? == 0 {
            return Some(None);
        }
        let of = self.of()?;
        let n = self.u32()? as usize;
        let bytes = self.take(n)?;
        let value = match of {
            Type::Bit => {
                let [b @ (0 | 1)] = bytes else { return None };
                Value::Whole(*b as i128)
            }
            Type::Int => Value::Whole(i32::from_be_bytes(bytes.try_into().ok()?) as i128),
            Type::BigInt => Value::Whole(i64::from_be_bytes(bytes.try_into().ok()?) as i128),
            Type::NVarChar(most) => {
                let text = std::str::from_utf8(bytes).ok()?;
                if text.encode_utf16().count() > most as usize {
                    return None;
                }
                Value::Text(text.to_string())
            }
        };
        Some(Some(Typed { value, of }))
    }
    fn all<T>(&mut self, mut one: impl FnMut(&mut Self) -> Option<T>) -> Option<Vec<T>> {
        let n = self.u64()?;
        let mut all = Vec::new();
        for _ in 0..n {
            all.push(one(self)?);
        }
        Some(all)
    }
    fn roots(&mut self) -> Option<Vec<(u32, Hash)>> {
        (self.u8()? == 1).then_some(())?;
        let n = self.u8()?;
        let roots: Vec<(u32, Hash)> = (0..n).map(|_| Some((self.u32()?, self.hash()?))).collect::<Option<_>>()?;
        (n > 0 && roots.is_sorted_by(|a, b| a.0 < b.0)).then_some(roots)
    }
    fn def(&mut self) -> Option<TableDef> {
        let (id, kind, _gone) = (self.u32()?, self.u8()?, self.u8()?);
        let (name, history, view) = (self.short()?, self.short()?, self.short()?);
        let n = self.u16()?;
        let column = |b: &mut Self| {
            let c = Column { name: b.short()?, of: b.of()?, nullable: b.u8()? == 1, key: b.u8()? };
            let _dropped = b.u8()?;
            Some(c)
        };
        let columns: Vec<Column> = (0..n).map(|_| column(self)).collect::<Option<_>>()?;
        let n = self.u8()?;
        let index = |b: &mut Self| {
            let name = b.short()?;
            let n = b.u8()?;
            Some(IndexDef { name, ordinals: (0..n).map(|_| b.u16()).collect::<Option<_>>()? })
        };
        let indexes = (0..n).map(|_| index(self)).collect::<Option<_>>()?;
        Some(TableDef { id, kind, name, history, view, key: key_places(&columns), columns, indexes })
    }
}

struct Rows {
    versions: Vec<Version>,
    bases: usize,
    indexes: Vec<Vec<Row>>,
}

struct Image {
    database: String,
    blocks: Vec<Record>,
    entries: Vec<Entry>,
    defs: Vec<TableDef>,
    rows: Vec<Rows>,
}

fn read_image(bytes: &[u8]) -> Option<Image> {
    let mut b = Bytes { rest: bytes };
    (b.take(5)? == b"LGIM\x02").then_some(())?;
    let database = b.short()?;
    let blocks = b.all(|b| Some(Record { id: b.u64()?, root: b.hash()?, count: b.u64()?, before: b.hash()? }))?;
    let entries = b.all(|b| Some(Entry { id: b.u64()?, time: b.u64()?, session: b.short()?, roots: b.roots()? }))?;
    let n = b.u32()?;
    let mut defs: Vec<TableDef> = system_defs().into();
    for _ in 0..n {
        defs.push(b.def()?);
    }
    defs.is_sorted_by(|a, b| a.id < b.id).then_some(())?;
    let mut rows = Vec::new();
    for def in &defs {
        let mut versions = b.all(|b| Some(Version { start: b.event()?, end: None, values: b.values()? }))?;
        let bases = versions.len();
        let history = b.all(|b| Some(Version { start: b.event()?, end: Some(b.event()?), values: b.values()? }))?;
        let rise = |vs: &[Version]| vs.is_sorted_by(|a, b| a.start < b.start);
        (rise(&versions) && rise(&history)).then_some(())?;
        versions.extend(history);
        let indexes = def.indexes.iter().map(|_| b.all(|b| b.values())).collect::<Option<_>>()?;
        rows.push(Rows { versions, bases, indexes });
    }
    b.rest.is_empty().then_some(Image { database, blocks, entries, defs, rows })
}

fn member<'a>(object: &'a str, key: &str) -> &'a str {
    let at = object.find(&format!("\"{key}\":")).unwrap() + key.len() + 3;
    object[at..].split([',', '}']).next().unwrap().trim_matches('"')
}

fn read_digests(file: &str) -> Vec<(String, u64, Hash)> {
    let one = |object: &str| {
        let hex = &member(object, "hash")[2..];
        let mut hash = [0; 32];
        for i in 0..32 {
            hash[i] = u8::from_str_radix(&hex[2 * i..2 * i + 2], 16).unwrap();
        }
        (member(object, "database_name").to_string(), member(object, "block_id").parse().unwrap(), hash)
    };
    file.split("{").skip(1).map(one).collect()
}

fn fits(values: &Row, columns: &[Column]) -> bool {
    values.len() == columns.len()
        && values.iter().zip(columns).all(|(v, c)| match v {
            None => c.nullable,
            Some(typed) => typed.of == c.of,
        })
}

fn verdict(image: &Image, digests: &[(String, u64, Hash)]) -> String {
    let hashes: Vec<Hash> = image.blocks.iter().map(|r| sha::hash(&[&r.bytes()])).collect();
    // V1
    for (n, (database, block, hash)) in digests.iter().enumerate() {
        if *database != image.database || hashes.get(*block as usize) != Some(hash) {
            return format!("No V1 digest {n}");
        }
    }
    // V2
    let mut before = [0; 32];
    for (n, record) in image.blocks.iter().enumerate() {
        if record.id != n as u64 || record.before != before {
            return format!("No V2 block {n}");
        }
        before = hashes[n];
    }
    // V3
    let mut from = 0;
    for (n, record) in image.blocks.iter().enumerate() {
        let to = from + record.count as usize;
        let fine = (1..=100_000).contains(&record.count) && to <= image.entries.len();
        if !fine || block_root(&image.entries[from..to], n as u64) != record.root {
            return format!("No V3 block {n}");
        }
        from = to;
    }
    // V4
    let mut places = HashMap::with_capacity(image.entries.len());
    for (n, entry) in image.entries.iter().enumerate() {
        if places.insert(entry.id, n).is_some() {
            return format!("No V4 entry {n}");
        }
    }
    struct At<'a> {
        entry: usize,
        seq: u64,
        table: u32,
        version: &'a Version,
        end: bool,
    }
    let mut events = Vec::new();
    for (def, rows) in image.defs.iter().zip(&image.rows) {
        for version in &rows.versions {
            for (end, event) in [(false, Some(version.start)), (true, version.end)] {
                let Some(event) = event else { continue };
                let Some(entry) = places.get(&event.0) else {
                    return format!("No V4 table {} event {} {}", def.id, event.0, event.1);
                };
                events.push(At { entry: *entry, seq: event.1, table: def.id, version, end });
            }
        }
    }
    // V5
    events.sort_unstable_by_key(|e| (e.entry, e.seq));
    let mut bytes = Vec::new();
    let mut rest = &events[..];
    for (n, entry) in image.entries.iter().enumerate() {
        let count = rest.iter().position(|e| e.entry != n).unwrap_or(rest.len());
        let (own, others) = rest.split_at(count);
        rest = others;
        if own.iter().enumerate().any(|(i, e)| e.seq != i as u64) {
            return format!("No V5 transaction {} numbers", entry.id);
        }
        let mut trees = Running { id: entry.id, seq: 0, trees: Vec::new() };
        for e in own {
            let ended = e.end.then_some(e.version.start);
            leaf(e.table, (entry.id, e.seq), ended, &e.version.values, &mut bytes);
            trees.note(e.table, &bytes);
        }
        let roots = trees.roots();
        if roots != entry.roots {
            let tables = roots.iter().chain(&entry.roots).map(|r| r.0);
            let differ = |t: &u32| roots.iter().find(|r| r.0 == *t) != entry.roots.iter().find(|r| r.0 == *t);
            return format!("No V5 transaction {} table {}", entry.id, tables.filter(differ).min().unwrap());
        }
    }
    // V6
    for (def, rows) in image.defs.iter().zip(&image.rows) {
        let fault = |v: &Version| format!("No V6 table {} event {} {}", def.id, v.start.0, v.start.1);
        for v in &rows.versions {
            if !fits(&v.values, &def.columns) || def.kind == 1 && v.end.is_some() {
                return fault(v);
            }
        }
        let place = |e: Event| (places[&e.0], e.1);
        let mut by_key: Vec<&Version> = rows.versions.iter().collect();
        by_key.sort_by(|a, b| key_cmp(&def.key, &a.values, &b.values).then_with(|| place(a.start).cmp(&place(b.start))));
        for (n, v) in by_key.iter().enumerate() {
            let after_start = v.end.is_none_or(|end| place(v.start) < place(end));
            let after_last = match n.checked_sub(1).map(|n| by_key[n]) {
                Some(last) if key_cmp(&def.key, &last.values, &v.values).is_eq() => {
                    last.end.is_some_and(|end| place(end) < place(v.start))
                }
                _ => true,
            };
            if !after_start || !after_last {
                return fault(v);
            }
        }
    }
    // V7
    let mut tables: Vec<&Row> = image.rows[0].versions.iter().map(|v| &v.values).collect();
    let mut columns: Vec<&Row> = image.rows[1].versions.iter().map(|v| &v.values).collect();
    tables.sort_by(|a, b| key_cmp(&image.defs[0].key, a, b));
    columns.sort_by(|a, b| key_cmp(&image.defs[1].key, a, b));
    let mut spelled_tables = Vec::new();
    let mut spelled_columns = Vec::new();
    for def in &image.defs[2..] {
        spelled_tables.push(table_row(&image.defs[0].columns, def));
        spelled_columns.extend(column_rows(&image.defs[1].columns, def));
        for g in 1..=def.indexes.len() {
            spelled_columns.extend(index_rows(&image.defs[1].columns, def, g));
        }
    }
    if !tables.iter().copied().eq(&spelled_tables) || !columns.iter().copied().eq(&spelled_columns) {
        return "No V7 table".to_string();
    }
    // V8
    for (def, rows) in image.defs.iter().zip(&image.rows) {
        for (g, (index, found)) in def.indexes.iter().zip(&rows.indexes).enumerate() {
            let places: Vec<usize> = index.ordinals.iter().map(|n| *n as usize - 1).chain(def.key.iter().copied()).collect();
            let mut wanted: Vec<Vec<&Option<Typed>>> =
                rows.versions[..rows.bases].iter().map(|v| places.iter().map(|p| &v.values[*p]).collect()).collect();
            wanted.sort_by(|a, b| a.iter().map(|v| plain(v)).cmp(b.iter().map(|v| plain(v))));
            let same = wanted.len() == found.len() && wanted.iter().zip(found).all(|(w, f)| w.iter().copied().eq(f));
            if !same {
                return format!("No V8 table {} index {}", def.id, g + 1);
            }
        }
    }
    "Yes".to_string()
}

fn verify(words: &[String]) -> std::io::Result<i32> {
    let image = std::fs::read(&words[0])?;
    let digests = read_digests(&std::fs::read_to_string(&words[1])?);
    let line = match read_image(&image) {
        None => "No V0".to_string(),
        Some(image) => verdict(&image, &digests),
    };
    println!("{line}");
    Ok((line != "Yes") as i32)
}

fn main() -> std::io::Result<()> {
    let words: Vec<String> = std::env::args().skip(1).collect();
    let status = match words.first().map(|w| w.as_str()) {
        Some("step") => step(&words[1..])?,
        Some("verify") => verify(&words[1..])?,
        _ => 2,
    };
    if std::env::var_os("PLAIN_COUNT").is_some() {
        eprintln!("compressions {}", unsafe { sha::COMPRESSIONS });
    }
    std::process::exit(status)
}
