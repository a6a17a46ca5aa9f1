// Writes and reads the answers of `message_rows time` as a program over Rust's public crates does: `messages SIZE COUNT` prints
// the microseconds of writing and of reading. The crates cannot be fetched without a network, so their algorithms stand here,
// written out by hand:
// - serde_json's writer into one `Vec<u8>`: each name and each string goes through the scan of its escape table, with a comma
//   where a member is not the first, and numbers of 64 bits are strings of the digits that itoa puts into a buffer. Where
//   `serde_json::to_vec` begins with 128 bytes and grows, this one has its room from the start;
// - base64's general purpose engine, which encodes 24 bytes a round into a `String`, checked as UTF-8, that is then written
//   as any other string, and decodes 32 characters a round into a `Vec<u8>`;
// - serde_json's reader of a slice into a tree of values, whose objects are `BTreeMap`s: strings are skipped eight bytes at a
//   time and each is checked as UTF-8. As in ev_json, members are looked up there by both of their names.
use std::collections::BTreeMap;
use std::time::Instant;

struct Kv {
    key: Vec<u8>,
    value: Vec<u8>,
    create_revision: i64,
    mod_revision: i64,
    version: i64,
    lease: i64,
}

const ALPHABET: &[u8; 64] = b"ABCDEFGHIJKLMNOPQRSTUVWXYZabcdefghijklmnopqrstuvwxyz0123456789+/";

const fn inverse() -> [u8; 256] {
    let mut table = [INVALID; 256];
    let mut i = 0;
    while i < 64 {
        table[ALPHABET[i] as usize] = i as u8;
        i += 1;
    }
    table
}

const INVALID: u8 = 255;
static DECODE: [u8; 256] = inverse();

fn read_u64(bytes: &[u8]) -> u64 {
    u64::from_be_bytes(bytes[..8].try_into().unwrap())
}

fn encode_symbols(input: &[u8], output: &mut [u8]) -> usize {
    let last = input.len().saturating_sub(26);
    let (mut i, mut o) = (0, 0);
    if last > 0 {
        while i <= last {
            let chunk = &input[i..i + 26];
            let out = &mut output[o..o + 32];
            for k in 0..4 {
                let n = read_u64(&chunk[6 * k..]);
                for j in 0..8 {
                    out[8 * k + j] = ALPHABET[(n >> (58 - 6 * j) & 63) as usize];
                }
            }
            i += 24;
            o += 32;
        }
    }
    let rest = input.len() % 3;
    let start = input.len() - rest;
    while i < start {
        let group = &input[i..i + 3];
        let out = &mut output[o..o + 4];
        out[0] = ALPHABET[(group[0] >> 2) as usize];
        out[1] = ALPHABET[((group[0] << 4 | group[1] >> 4) & 63) as usize];
        out[2] = ALPHABET[((group[1] << 2 | group[2] >> 6) & 63) as usize];
        out[3] = ALPHABET[(group[2] & 63) as usize];
        i += 3;
        o += 4;
    }
    if rest == 2 {
        output[o] = ALPHABET[(input[start] >> 2) as usize];
        output[o + 1] = ALPHABET[((input[start] << 4 | input[start + 1] >> 4) & 63) as usize];
        output[o + 2] = ALPHABET[(input[start + 1] << 2 & 63) as usize];
        o += 3;
    } else if rest == 1 {
        output[o] = ALPHABET[(input[start] >> 2) as usize];
        output[o + 1] = ALPHABET[(input[start] << 4 & 63) as usize];
        o += 2;
    }
    o
}

fn encode(bytes: &[u8]) -> String {
    let mut text = vec![0; bytes.len().div_ceil(3) * 4];
    let end = encode_symbols(bytes, &mut text);
    text[end..].fill(b'=');
    String::from_utf8(text).unwrap()
}

fn decode_eight(input: &[u8], output: &mut [u8]) -> Option<()> {
    let mut n = 0;
    for j in 0..8 {
        let six = DECODE[input[j] as usize];
        if six == INVALID {
            return None;
        }
        n |= (six as u64) << (58 - 6 * j);
    }
    output[..6].copy_from_slice(&n.to_be_bytes()[..6]);
    Some(())
}

fn decode_four(input: &[u8], output: &mut [u8]) -> Option<()> {
    let mut n = 0;
    for j in 0..4 {
        let six = DECODE[input[j] as usize];
        if six == INVALID {
            return None;
        }
        n |= (six as u32) << (26 - 6 * j);
    }
    output[..3].copy_from_slice(&n.to_be_bytes()[..3]);
    Some(())
}

fn decode(text: &str) -> Option<Vec<u8>> {
    let input = text.as_bytes();
    if input.len() % 4 != 0 {
        return None;
    }
    let mut out = vec![0; input.len() / 4 * 3];
    let whole = input.len().saturating_sub(4);
    let rounds = whole / 32;
    for (chunk, room) in input[..32 * rounds].chunks_exact(32).zip(out.chunks_exact_mut(24)) {
        for k in 0..4 {
            decode_eight(&chunk[8 * k..8 * k + 8], &mut room[6 * k..6 * k + 6])?;
        }
    }
    for (chunk, room) in input[32 * rounds..whole].chunks_exact(4).zip(out[24 * rounds..].chunks_exact_mut(3)) {
        decode_four(chunk, room)?;
    }
    let last = &input[whole..];
    let padding = last.iter().rev().take(2).take_while(|b| **b == b'=').count();
    let mut n: u32 = 0;
    for (j, b) in last[..last.len() - padding].iter().enumerate() {
        let six = DECODE[*b as usize];
        if six == INVALID {
            return None;
        }
        n |= (six as u32) << (26 - 6 * j);
    }
    let end = whole / 4 * 3;
    if end < out.len() {
        out[end..end + 3].copy_from_slice(&n.to_be_bytes()[..3]);
        out.truncate(end + 3 - padding);
    }
    Some(out)
}

// ---- writing

const fn escapes() -> [u8; 256] {
    let mut table = [0; 256];
    let mut i = 0;
    while i < 32 {
        table[i] = b'u';
        i += 1;
    }
    table[8] = b'b';
    table[9] = b't';
    table[10] = b'n';
    table[12] = b'f';
    table[13] = b'r';
    table[b'"' as usize] = b'"';
    table[b'\\' as usize] = b'\\';
    table
}

static ESCAPES: [u8; 256] = escapes();

fn escaped(out: &mut Vec<u8>, text: &str) {
    out.extend_from_slice(b"\"");
    let bytes = text.as_bytes();
    let mut start = 0;
    for (i, b) in bytes.iter().enumerate() {
        let escape = ESCAPES[*b as usize];
        if escape == 0 {
            continue;
        }
        if start < i {
            out.extend_from_slice(&bytes[start..i]);
        }
        match escape {
            b'u' => {
                let digits = b"0123456789abcdef";
                out.extend_from_slice(&[b'\\', b'u', b'0', b'0', digits[(b >> 4) as usize], digits[(b & 15) as usize]]);
            }
            letter => out.extend_from_slice(&[b'\\', letter]),
        }
        start = i + 1;
    }
    if start < bytes.len() {
        out.extend_from_slice(&bytes[start..]);
    }
    out.extend_from_slice(b"\"");
}

const PAIRS: &[u8; 200] = b"\
00010203040506070809101112131415161718192021222324252627282930313233343536373839404142434445464748495051525354555657585960616263646566676869\
707172737475767778798081828384858687888990919293949596979899";

// itoa's: four digits a round, from the last on.
fn digits(n: i64, buffer: &mut [u8; 20]) -> &str {
    let mut rest = n.unsigned_abs();
    let mut at = buffer.len();
    while rest >= 10_000 {
        let four = (rest % 10_000) as usize;
        rest /= 10_000;
        let (high, low) = (four / 100 * 2, four % 100 * 2);
        at -= 4;
        buffer[at..at + 2].copy_from_slice(&PAIRS[high..high + 2]);
        buffer[at + 2..at + 4].copy_from_slice(&PAIRS[low..low + 2]);
    }
    let mut rest = rest as usize;
    if rest >= 100 {
        let low = rest % 100 * 2;
        rest /= 100;
        at -= 2;
        buffer[at..at + 2].copy_from_slice(&PAIRS[low..low + 2]);
    }
    if rest < 10 {
        at -= 1;
        buffer[at] = b'0' + rest as u8;
    } else {
        at -= 2;
        buffer[at..at + 2].copy_from_slice(&PAIRS[2 * rest..2 * rest + 2]);
    }
    if n < 0 {
        at -= 1;
        buffer[at] = b'-';
    }
    unsafe { std::str::from_utf8_unchecked(&buffer[at..]) }
}

// An object or a list that is open, and whether its next member is the first.
struct Open<'a> {
    out: &'a mut Vec<u8>,
    first: bool,
}

impl<'a> Open<'a> {
    fn object(out: &'a mut Vec<u8>) -> Open<'a> {
        out.extend_from_slice(b"{");
        Open { out, first: true }
    }

    fn list(out: &'a mut Vec<u8>) -> Open<'a> {
        out.extend_from_slice(b"[");
        Open { out, first: true }
    }

    fn item(&mut self) -> &mut Vec<u8> {
        if !self.first {
            self.out.extend_from_slice(b",");
        }
        self.first = false;
        self.out
    }

    fn name(&mut self, name: &str) -> &mut Vec<u8> {
        let out = self.item();
        escaped(out, name);
        out.extend_from_slice(b":");
        out
    }

    fn number(&mut self, name: &str, n: i64) {
        let mut buffer = [0; 20];
        escaped(self.name(name), digits(n, &mut buffer));
    }

    fn number_if(&mut self, name: &str, n: i64) {
        if n != 0 {
            self.number(name, n);
        }
    }

    fn bytes(&mut self, name: &str, bytes: &[u8]) {
        let text = encode(bytes);
        escaped(self.name(name), &text);
    }

    fn bytes_if(&mut self, name: &str, bytes: &[u8]) {
        if !bytes.is_empty() {
            self.bytes(name, bytes);
        }
    }

    fn end(self) {
        self.out.extend_from_slice(b"}");
    }

    fn end_list(self) {
        self.out.extend_from_slice(b"]");
    }
}

fn write_kv(out: &mut Vec<u8>, kv: &Kv) {
    let mut object = Open::object(out);
    object.number_if("create_revision", kv.create_revision);
    object.bytes("key", &kv.key);
    object.number_if("lease", kv.lease);
    object.number_if("mod_revision", kv.mod_revision);
    object.bytes_if("value", &kv.value);
    object.number_if("version", kv.version);
    object.end();
}

fn write_range(out: &mut Vec<u8>, kvs: &[Kv], more: bool) {
    let mut object = Open::object(out);
    object.number_if("count", kvs.len() as i64);
    if !kvs.is_empty() {
        let mut list = Open::list(object.name("kvs"));
        for kv in kvs {
            write_kv(list.item(), kv);
        }
        list.end_list();
    }
    if more {
        object.name("more").extend_from_slice(b"true");
    }
    object.end();
}

fn write(revision: i64, kvs: &[Kv], succeeded: bool) -> Vec<u8> {
    let room = kvs.iter().map(|kv| 180 + (kv.key.len() + kv.value.len()) / 3 * 4 + 8).sum::<usize>();
    let mut out = Vec::with_capacity(300 + room);
    let mut answer = Open::object(&mut out);
    let mut header = Open::object(answer.name("header"));
    header.number("revision", revision);
    header.end();
    let mut responses = Open::list(answer.name("responses"));
    let mut response = Open::object(responses.item());
    write_range(response.name("response_range"), kvs, false);
    response.end();
    responses.end_list();
    if succeeded {
        answer.name("succeeded").extend_from_slice(b"true");
    }
    answer.end();
    out
}

// ---- reading

enum Value {
    Null,
    Bool(bool),
    Number(u64),
    Text(String),
    List(Vec<Value>),
    Object(BTreeMap<String, Value>),
}

struct Parser<'a> {
    text: &'a [u8],
    at: usize,
}

impl Parser<'_> {
    fn skip(&mut self) {
        while matches!(self.text.get(self.at), Some(b' ' | b'\t' | b'\n' | b'\r')) {
            self.at += 1;
        }
    }

    fn take(&mut self, b: u8) -> Option<()> {
        self.skip();
        if self.text.get(self.at) == Some(&b) {
            self.at += 1;
            return Some(());
        }
        None
    }

    // Skips to the next quote, backslash or control character, eight bytes at a time.
    fn skip_plain(&mut self) {
        const ONES: u64 = u64::MAX / 255;
        for chunk in self.text[self.at..].chunks_exact(8) {
            let bytes = u64::from_le_bytes(chunk.try_into().unwrap());
            let control = bytes.wrapping_sub(ONES * 0x20) & !bytes;
            let quotes = bytes ^ (ONES * b'"' as u64);
            let backslashes = bytes ^ (ONES * b'\\' as u64);
            let found = control | quotes.wrapping_sub(ONES) & !quotes | backslashes.wrapping_sub(ONES) & !backslashes;
            let found = found & (ONES << 7);
            if found != 0 {
                self.at += found.trailing_zeros() as usize / 8;
                return;
            }
            self.at += 8;
        }
        while !matches!(self.text.get(self.at), None | Some(b'"' | b'\\' | 0..=31)) {
            self.at += 1;
        }
    }

    fn string(&mut self) -> Option<String> {
        self.take(b'"')?;
        let start = self.at;
        self.skip_plain();
        if *self.text.get(self.at)? != b'"' {
            return None; // no text of the bench has an escape
        }
        let text = std::str::from_utf8(&self.text[start..self.at]).ok()?.to_string();
        self.at += 1;
        Some(text)
    }

    fn value(&mut self) -> Option<Value> {
        self.skip();
        match self.text.get(self.at)? {
            b'"' => Some(Value::Text(self.string()?)),
            b'{' => {
                self.at += 1;
                let mut members = BTreeMap::new();
                if self.take(b'}').is_some() {
                    return Some(Value::Object(members));
                }
                loop {
                    let name = self.string()?;
                    self.take(b':')?;
                    members.insert(name, self.value()?);
                    if self.take(b',').is_none() {
                        self.take(b'}')?;
                        return Some(Value::Object(members));
                    }
                }
            }
            b'[' => {
                self.at += 1;
                let mut items = Vec::new();
                if self.take(b']').is_some() {
                    return Some(Value::List(items));
                }
                loop {
                    items.push(self.value()?);
                    if self.take(b',').is_none() {
                        self.take(b']')?;
                        return Some(Value::List(items));
                    }
                }
            }
            b't' => self.word(b"true", Value::Bool(true)),
            b'f' => self.word(b"false", Value::Bool(false)),
            b'n' => self.word(b"null", Value::Null),
            _ => {
                let start = self.at;
                while matches!(self.text.get(self.at), Some(b'0'..=b'9')) {
                    self.at += 1;
                }
                std::str::from_utf8(&self.text[start..self.at]).ok()?.parse().ok().map(Value::Number)
            }
        }
    }

    fn word(&mut self, word: &[u8], value: Value) -> Option<Value> {
        if self.text[self.at..].starts_with(word) {
            self.at += word.len();
            return Some(value);
        }
        None
    }
}

fn member<'a>(value: &'a Value, snake: &str, camel: &str) -> Option<&'a Value> {
    match value {
        Value::Object(members) => members.get(snake).or_else(|| members.get(camel)),
        _ => None,
    }
}

fn count(value: &Value, snake: &str, camel: &str) -> Option<i64> {
    match member(value, snake, camel) {
        None => Some(0),
        Some(Value::Text(digits)) if digits.bytes().all(|b| b.is_ascii_digit()) => digits.parse().ok(),
        Some(Value::Number(n)) => i64::try_from(*n).ok(),
        Some(_) => None,
    }
}

fn bytes(value: &Value, name: &str) -> Option<Vec<u8>> {
    match member(value, name, name)? {
        Value::Text(text) => decode(text),
        _ => None,
    }
}

fn flag(value: &Value, name: &str) -> Option<bool> {
    match member(value, name, name) {
        None => Some(false),
        Some(Value::Bool(flag)) => Some(*flag),
        Some(_) => None,
    }
}

fn read_kv(kv: &Value) -> Option<Kv> {
    Some(Kv {
        create_revision: count(kv, "create_revision", "createRevision")?,
        key: bytes(kv, "key")?,
        lease: count(kv, "lease", "lease")?,
        mod_revision: count(kv, "mod_revision", "modRevision")?,
        value: bytes(kv, "value")?,
        version: count(kv, "version", "version")?,
    })
}

struct Found {
    count: i64,
    kvs: Vec<Kv>,
    more: bool,
}

fn read_range(part: &Value) -> Option<Found> {
    let range = member(part, "response_range", "responseRange")?;
    let count = count(range, "count", "count")?;
    let Value::List(values) = member(range, "kvs", "kvs")? else { return None };
    let mut kvs = Vec::with_capacity(values.len());
    for value in values {
        kvs.push(read_kv(value)?);
    }
    let more = flag(range, "more")?;
    if member(part, "response_put", "responsePut").is_some() || member(part, "response_delete_range", "responseDeleteRange").is_some() {
        return None;
    }
    Some(Found { count, kvs, more })
}

fn read(text: &[u8]) -> Option<(i64, bool, Vec<Found>)> {
    let mut parser = Parser { text, at: 0 };
    let value = parser.value()?;
    let revision = count(member(&value, "header", "header")?, "revision", "revision")?;
    let succeeded = flag(&value, "succeeded")?;
    let Value::List(values) = member(&value, "responses", "responses")? else { return None };
    let mut parts = Vec::with_capacity(values.len());
    for value in values {
        parts.push(read_range(value)?);
    }
    Some((revision, succeeded, parts))
}

fn main() {
    let words: Vec<usize> = std::env::args().skip(1).map(|w| w.parse().unwrap()).collect();
    let kvs = [Kv {
        key: b"zk/d/0001/a".to_vec(),
        value: vec![b'x'; words[0]],
        create_revision: 1_000,
        mod_revision: 1_234_567,
        version: 12,
        lease: 0,
    }];
    let text = write(1_234_567, &kvs, true);
    let start = Instant::now();
    let mut written = 0;
    for _ in 0..words[1] {
        written += std::hint::black_box(write(1_234_567, std::hint::black_box(&kvs), std::hint::black_box(true))).len();
    }
    let writing = start.elapsed().as_micros();
    let start = Instant::now();
    let mut values = 0;
    for _ in 0..words[1] {
        values += read(std::hint::black_box(&text)).map_or(0, |a| a.2[0].kvs[0].value.len());
    }
    let reading = start.elapsed().as_micros();
    println!("{written} bytes written, {values} bytes of values read");
    println!("{writing} {reading}");
}
