//! Puts keys with a guard each, over HTTP to etcd's JSON gateway, and prints how many such updates a second were carried out:
//! `etcd HOST:PORT CONNECTIONS SECONDS`. Each connection has a thread and a key of its own, and sends the next update once the
//! last is answered. Ends with status 1 if an update is not carried out. See etcd.sh.

use std::io::{BufRead, BufReader, Error, ErrorKind, Read, Result, Write};
use std::net::TcpStream;
use std::process::ExitCode;
use std::sync::atomic::{AtomicBool, Ordering};
use std::sync::{Arc, Barrier};
use std::thread;
use std::time::{Duration, Instant};

/// 100 bytes in base64.
const VALUE: &str = "eHh4eHh4eHh4eHh4eHh4eHh4eHh4eHh4eHh4eHh4eHh4eHh4eHh4eHh4eHh4eHh4eHh4eHh4eHh4eHh4eHh4eHh4eHh4eHh4eHh4eHh4eHh4eHh4eHh4eA==";

fn base64(text: &str) -> String {
    const DIGITS: &[u8] = b"ABCDEFGHIJKLMNOPQRSTUVWXYZabcdefghijklmnopqrstuvwxyz0123456789+/";
    let mut out = String::new();
    for piece in text.as_bytes().chunks(3) {
        let number = piece.iter().fold(0u32, |n, b| n << 8 | u32::from(*b)) << (8 * (3 - piece.len()));
        for at in 0..4 {
            out.push(if at <= piece.len() { char::from(DIGITS[(number >> (18 - 6 * at) & 63) as usize]) } else { '=' });
        }
    }
    out
}

fn broken(what: &str) -> Error {
    Error::new(ErrorKind::InvalidData, what.to_string())
}

/// The next response's body. Its head gives its length, or says that it comes in chunks.
fn body(from: &mut BufReader<TcpStream>) -> Result<String> {
    let (mut line, mut length, mut chunked, mut text) = (String::new(), None, false, Vec::new());
    loop {
        line.clear();
        if from.read_line(&mut line)? == 0 {
            return Err(broken("the connection was closed"));
        }
        let field = line.trim_end().to_ascii_lowercase();
        if field.is_empty() {
            break;
        }
        if let Some(value) = field.strip_prefix("content-length:") {
            length = value.trim().parse().ok();
        }
        chunked = chunked || field == "transfer-encoding: chunked";
    }
    if chunked {
        loop {
            line.clear();
            from.read_line(&mut line)?;
            let size = usize::from_str_radix(line.trim_end(), 16).map_err(|_| broken("a chunk without a size"))?;
            let start = text.len();
            text.resize(start + size + 2, 0);
            from.read_exact(&mut text[start..])?;
            text.truncate(start + size);
            if size == 0 {
                break;
            }
        }
    } else {
        text.resize(length.ok_or_else(|| broken("a body without a length"))?, 0);
        from.read_exact(&mut text)?;
    }
    String::from_utf8(text).map_err(|_| broken("a body that is no text"))
}

/// The revision in the header of an answer.
fn revision(answer: &str) -> Option<&str> {
    let (_, rest) = answer.split_once("\"revision\":\"")?;
    Some(rest.split_once('"')?.0)
}

/// Puts the connection's key until it is told to stop, and gives how often.
fn put_until(stream: TcpStream, address: &str, name: usize, begin: &Barrier, stop: &AtomicBool) -> Result<u64> {
    let mut out = stream.try_clone()?;
    let mut from = BufReader::new(stream);
    let key = base64(&format!("bench/{}/{name}", std::process::id()));
    let (mut last, mut count) = (String::from("0"), 0);
    begin.wait();
    while !stop.load(Ordering::Relaxed) {
        let ask = format!("{{\"compare\":[{{\"key\":\"{key}\",\"target\":\"MOD\",\"mod_revision\":\"{last}\"}}],\"success\":[{{\"request_put\":{{\"key\":\"{key}\",\"value\":\"{VALUE}\"}}}}]}}");
        write!(out, "{}", format!("POST /v3/kv/txn HTTP/1.1\r\nhost: {address}\r\ncontent-type: application/json\r\ncontent-length: {}\r\n\r\n{ask}", ask.len()))?;
        let answer = body(&mut from)?;
        if !answer.contains("\"succeeded\":true") {
            return Err(broken(&answer));
        }
        last = revision(&answer).ok_or_else(|| broken(&answer))?.to_string();
        count += 1;
    }
    Ok(count)
}

/// A connection that sends at once what is written, and waits at most a minute for an answer.
fn connect(address: &str) -> Result<TcpStream> {
    let stream = TcpStream::connect(address)?;
    stream.set_nodelay(true)?;
    stream.set_read_timeout(Some(Duration::from_secs(60)))?;
    Ok(stream)
}

fn main() -> ExitCode {
    let words: Vec<String> = std::env::args().collect();
    let (address, connections, seconds): (String, usize, f64) = (words[1].clone(), words[2].parse().unwrap(), words[3].parse().unwrap());
    let begin = Arc::new(Barrier::new(connections + 1));
    let stop = Arc::new(AtomicBool::new(false));
    let mut streams = Vec::new();
    for _ in 0..connections {
        match connect(&address) {
            Ok(stream) => streams.push(stream),
            Err(error) => {
                eprintln!("{error}");
                return ExitCode::FAILURE;
            }
        }
    }
    let threads: Vec<_> = streams
        .into_iter()
        .enumerate()
        .map(|(name, stream)| {
            let (address, begin, stop) = (address.clone(), begin.clone(), stop.clone());
            thread::spawn(move || put_until(stream, &address, name, &begin, &stop))
        })
        .collect();
    begin.wait();
    let start = Instant::now();
    thread::sleep(Duration::from_secs_f64(seconds));
    stop.store(true, Ordering::Relaxed);
    let mut count = 0;
    for thread in threads {
        match thread.join().unwrap() {
            Ok(more) => count += more,
            Err(error) => {
                eprintln!("{error}");
                return ExitCode::FAILURE;
            }
        }
    }
    println!("{:.0}", count as f64 / start.elapsed().as_secs_f64());
    ExitCode::SUCCESS
}
