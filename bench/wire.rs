//! The work of `wire_rows time` in plain Rust: the same algorithms, for `rustc -O`. Prints the microseconds of cutting and
//! reading so many frames, and of writing as many replies.

use std::time::Instant;

const PACKET: [u8; 176] = *b"\0\0\0\xac\0\0\0\x07\0\0\0\x01\0\0\0\x19/services/web/instance-01\0\0\0\x64xxxxxxxxxxxxxxxxxxxxxxxxxxxxxxxxxxxxxxxxxxxxxxxxxxxxxxxxxxxxxxxxxxxxxxxxxxxxxxxxxxxxxxxxxxxxxxxxxxxx\0\0\0\x01\0\0\0\x1f\0\0\0\x05world\0\0\0\x06anyone\0\0\0\0";
const PIECE: usize = 65_536;
const MOST_FRAME: usize = 1_048_575;

struct Acl {
    perms: i32,
    scheme: Vec<u8>,
    id: Vec<u8>,
}

enum Request {
    Create { path: Vec<u8>, content: Vec<u8>, acl: Vec<Acl>, flags: i32 },
    Exists { path: Vec<u8>, watch: bool },
    SetData { path: Vec<u8>, content: Vec<u8>, version: i32 },
    Ping,
}

#[derive(Clone, Copy)]
struct Stat {
    longs: [i64; 4],
    ints: [i32; 3],
    owner: i64,
    data_length: i32,
    num_children: i32,
    pzxid: i64,
}

enum Body {
    Empty,
    Path(Vec<u8>),
    Content(Vec<u8>, Stat),
}

struct Cutter {
    rest: Vec<u8>,
}

fn split_frame(bytes: &[u8]) -> Option<(&[u8], &[u8])> {
    if bytes.len() < 4 {
        return None;
    }
    let length = i32::from_be_bytes(bytes[..4].try_into().unwrap());
    let rest = &bytes[4..];
    match usize::try_from(length) {
        Ok(length) if length <= MOST_FRAME && length <= rest.len() => Some(rest.split_at(length)),
        _ => None,
    }
}

impl Cutter {
    fn take(&mut self, piece: &[u8]) -> Vec<Vec<u8>> {
        self.rest.extend_from_slice(piece);
        let mut frames = Vec::new();
        let mut rest = &self.rest[..];
        while let Some((frame, after)) = split_frame(rest) {
            frames.push(frame.to_vec());
            rest = after;
        }
        if !frames.is_empty() {
            self.rest = rest.to_vec();
        }
        frames
    }
}

struct Reader<'a> {
    rest: &'a [u8],
}

impl Reader<'_> {
    fn int(&mut self) -> Result<i32, usize> {
        if self.rest.len() < 4 {
            return Err(self.rest.len());
        }
        let number = i32::from_be_bytes(self.rest[..4].try_into().unwrap());
        self.rest = &self.rest[4..];
        Ok(number)
    }

    fn boolean(&mut self) -> Result<bool, usize> {
        match self.rest {
            [] => Err(0),
            [byte, rest @ ..] => {
                self.rest = rest;
                Ok(*byte != 0)
            }
        }
    }

    fn count(&mut self) -> Result<usize, usize> {
        let left = self.rest.len();
        match self.int()? {
            -1 => Ok(0),
            number => usize::try_from(number).map_err(|_| left),
        }
    }

    fn buffer(&mut self) -> Result<Vec<u8>, usize> {
        let left = self.rest.len();
        let length = self.count()?;
        if self.rest.len() < length {
            return Err(left);
        }
        let (content, rest) = self.rest.split_at(length);
        self.rest = rest;
        Ok(content.to_vec())
    }

    fn ustring(&mut self) -> Result<Vec<u8>, usize> {
        let left = self.rest.len();
        let length = usize::try_from(self.int()?).map_err(|_| left)?;
        if self.rest.len() < length {
            return Err(left);
        }
        let (text, rest) = self.rest.split_at(length);
        if std::str::from_utf8(text).is_err() {
            return Err(left);
        }
        self.rest = rest;
        Ok(text.to_vec())
    }

    fn acls(&mut self) -> Result<Vec<Acl>, usize> {
        let count = self.count()?;
        let mut acls = Vec::with_capacity(count.min(self.rest.len() / 4));
        for _ in 0..count {
            let perms = self.int()?;
            let scheme = self.ustring()?;
            let id = self.ustring()?;
            acls.push(Acl { perms, scheme, id });
        }
        Ok(acls)
    }
}

fn read_request(frame: &[u8]) -> Result<(i32, Request), usize> {
    let mut reader = Reader { rest: frame };
    let xid = reader.int()?;
    let request = match reader.int()? {
        1 => Request::Create { path: reader.ustring()?, content: reader.buffer()?, acl: reader.acls()?, flags: reader.int()? },
        3 => Request::Exists { path: reader.ustring()?, watch: reader.boolean()? },
        5 => Request::SetData { path: reader.ustring()?, content: reader.buffer()?, version: reader.int()? },
        11 => Request::Ping,
        _ => return Err(4),
    };
    if reader.rest.is_empty() { Ok((xid, request)) } else { Err(reader.rest.len()) }
}

fn put_stat(out: &mut Vec<u8>, stat: &Stat) {
    for long in stat.longs {
        out.extend_from_slice(&long.to_be_bytes());
    }
    for int in stat.ints {
        out.extend_from_slice(&int.to_be_bytes());
    }
    out.extend_from_slice(&stat.owner.to_be_bytes());
    out.extend_from_slice(&stat.data_length.to_be_bytes());
    out.extend_from_slice(&stat.num_children.to_be_bytes());
    out.extend_from_slice(&stat.pzxid.to_be_bytes());
}

fn put_string(out: &mut Vec<u8>, bytes: &[u8]) {
    out.extend_from_slice(&(bytes.len() as i32).to_be_bytes());
    out.extend_from_slice(bytes);
}

fn size(body: &Body) -> usize {
    16 + match body {
        Body::Empty => 0,
        Body::Path(path) => 4 + path.len(),
        Body::Content(content, _) => 4 + content.len() + 68,
    }
}

fn write_reply(xid: i32, zxid: i64, body: &Body) -> Vec<u8> {
    let mut out = Vec::with_capacity(size(body) + 4);
    out.extend_from_slice(&[0; 4]);
    out.extend_from_slice(&xid.to_be_bytes());
    out.extend_from_slice(&zxid.to_be_bytes());
    out.extend_from_slice(&0i32.to_be_bytes());
    match body {
        Body::Empty => {}
        Body::Path(path) => put_string(&mut out, path),
        Body::Content(content, stat) => {
            put_string(&mut out, content);
            put_stat(&mut out, stat);
        }
    }
    let length = out.len() - 4;
    out[..4].copy_from_slice(&(length as i32).to_be_bytes());
    out
}

fn weight(request: &Request) -> usize {
    match request {
        Request::Create { path, content, acl, flags } => {
            std::hint::black_box((content, flags));
            for entry in acl {
                std::hint::black_box((entry.perms, &entry.scheme, &entry.id));
            }
            path.len()
        }
        Request::Exists { path, watch } => path.len() + *watch as usize,
        Request::SetData { path, content, version } => path.len() + content.len() + *version as usize,
        Request::Ping => 0,
    }
}

fn main() {
    let count: usize = std::env::args().nth(1).and_then(|word| word.parse().ok()).unwrap_or(0);
    let mut stream = Vec::new();
    for _ in 0..count {
        stream.extend_from_slice(&PACKET);
    }
    let stat = Stat { longs: [3, 3, 1000, 1000], ints: [0; 3], owner: 0, data_length: 100, num_children: 0, pzxid: 3 };
    let body = Body::Content(vec![120; 100], stat);
    let _ = [Body::Empty, Body::Path(Vec::new())];
    let start = Instant::now();
    let mut cutter = Cutter { rest: Vec::new() };
    let mut paths = 0;
    for piece in stream.chunks(PIECE) {
        for frame in cutter.take(piece) {
            if let Ok((_, request)) = read_request(&frame) {
                paths += weight(&request);
            }
        }
    }
    let reading = start.elapsed().as_micros();
    let start = Instant::now();
    let mut bytes = 0;
    for zxid in 0..count {
        // What is written is not known while this is compiled, as in a server.
        let body = std::hint::black_box(&body);
        bytes += std::hint::black_box(write_reply(7, zxid as i64, body)).len();
    }
    let writing = start.elapsed().as_micros();
    println!("{paths} bytes of paths read");
    println!("{bytes} bytes of replies written");
    println!("{reading} {writing}");
}
