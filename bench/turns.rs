//! turns ROUNDS: asks servers of this machine in turn, one request at a time, and tells how long each took.
//! Standard input has a line for each that is asked, `new PORT TARGET` (a connection a request) or `kept PORT
//! TARGET`. Each is asked once before the rounds, and what it replied then is counted. It prints a line for
//! each: the median and the greatest time in milliseconds, the bytes of the reply's body, its series and its
//! samples (those whose time begins with 17, as those of make_block.rs do). A reply that is not `200` is
//! told, and the status is 1.
//! std only: rustc -O turns.rs
use std::io::{self, Read, Write};
use std::net::TcpStream;
use std::time::{Duration, Instant};
use std::{env, process};

/// One that is asked: its request, its connection if that is kept, and the times of its replies.
struct Asked {
    port: u16,
    kept: bool,
    request: Vec<u8>,
    stream: Option<TcpStream>,
    times: Vec<Duration>,
}

impl Asked {
    fn new(line: &str) -> Option<Asked> {
        let mut words = line.splitn(3, ' ');
        let kept = words.next()? == "kept";
        let port = words.next()?.parse().ok()?;
        let after = if kept { "keep-alive" } else { "close" };
        let request =
            format!("GET {} HTTP/1.1\r\nHost: 127.0.0.1\r\nConnection: {after}\r\n\r\n", words.next()?)
                .into_bytes();
        Some(Asked { port, kept, request, stream: None, times: Vec::new() })
    }

    /// Asks once, and reads the reply to its end.
    fn ask(&mut self, reply: &mut Vec<u8>) -> io::Result<Duration> {
        let before = Instant::now();
        let waiting = self.stream.take();
        let mut stream = match waiting {
            Some(stream) => stream,
            None => TcpStream::connect(("127.0.0.1", self.port))?,
        };
        stream.set_nodelay(true)?;
        stream.write_all(&self.request)?;
        reply.clear();
        if self.kept {
            read_one(&mut stream, reply)?;
            self.stream = Some(stream);
        } else {
            stream.read_to_end(reply)?;
        }
        Ok(before.elapsed())
    }
}

/// Reads one reply of a connection that stays open.
fn read_one(stream: &mut TcpStream, reply: &mut Vec<u8>) -> io::Result<()> {
    let mut piece = vec![0; 1 << 18];
    while !is_whole(reply) {
        let count = stream.read(&mut piece)?;
        if count == 0 {
            return Err(io::ErrorKind::UnexpectedEof.into());
        }
        reply.extend_from_slice(&piece[..count]);
    }
    Ok(())
}

/// The length of the head with its empty line.
fn head_of(reply: &[u8]) -> Option<usize> {
    reply.windows(4).position(|four| four == b"\r\n\r\n").map(|at| at + 4)
}

/// The value of a field of the head.
fn field<'r>(head: &'r str, name: &str) -> Option<&'r str> {
    head.lines()
        .filter_map(|line| line.split_once(':'))
        .find(|(one, _)| one.eq_ignore_ascii_case(name))
        .map(|(_, value)| value.trim())
}

fn is_whole(reply: &[u8]) -> bool {
    let Some(start) = head_of(reply) else { return false };
    let head = String::from_utf8_lossy(&reply[..start]);
    match field(&head, "Content-Length").and_then(|length| length.parse::<usize>().ok()) {
        Some(length) => reply.len() - start >= length,
        None => reply.ends_with(b"0\r\n\r\n"),
    }
}

/// The body, without the lengths of its chunks.
fn body_of(reply: &[u8]) -> Vec<u8> {
    let start = head_of(reply).unwrap_or(0);
    let (head, mut rest) = (String::from_utf8_lossy(&reply[..start]), &reply[start..]);
    if field(&head, "Transfer-Encoding") != Some("chunked") {
        return rest.to_vec();
    }
    let mut body = Vec::new();
    while let Some(line) = rest.windows(2).position(|two| two == b"\r\n") {
        let digits = String::from_utf8_lossy(&rest[..line]);
        let Ok(length @ 1..) = usize::from_str_radix(&digits, 16) else { break };
        body.extend_from_slice(&rest[line + 2..line + 2 + length]);
        rest = &rest[line + 2 + length + 2..];
    }
    body
}

fn count(text: &[u8], word: &[u8]) -> usize {
    text.windows(word.len()).filter(|one| one == &word).count()
}

/// The series and the samples of a body: of `querier`, those of the merged rows, which are the last member.
fn counted(body: &[u8]) -> (usize, usize) {
    let merged = br#""rows":["#;
    let start = body.windows(merged.len()).rposition(|one| one == merged).unwrap_or(0);
    let rows = &body[start..];
    (count(rows, br#""samples":["#) + count(rows, br#""values":["#), count(rows, b"[17"))
}

fn main() {
    let rounds: usize = env::args().nth(1).and_then(|word| word.parse().ok()).expect("ROUNDS is a number");
    let lines: Vec<String> = io::stdin().lines().map(|line| line.expect("a line")).collect();
    let mut asked: Vec<Asked> =
        lines.iter().map(|line| Asked::new(line).expect("new|kept PORT TARGET")).collect();
    let (mut reply, mut found) = (Vec::new(), Vec::new());
    for (one, line) in asked.iter_mut().zip(&lines) {
        let told = one.ask(&mut reply);
        if told.is_err() || !reply.starts_with(b"HTTP/1.1 200 ") {
            eprintln!("{line}: {told:?} {}", String::from_utf8_lossy(&reply[..reply.len().min(300)]));
            process::exit(1);
        }
        let body = body_of(&reply);
        found.push((body.len(), counted(&body)));
    }
    for _ in 0..rounds {
        for one in &mut asked {
            // a server may close a connection that it kept for long: then it is asked anew
            let took = one.ask(&mut reply).or_else(|_| one.ask(&mut reply)).expect("a reply");
            one.times.push(took);
        }
    }
    for (one, (bytes, (series, samples))) in asked.iter_mut().zip(found) {
        one.times.sort();
        let at = |place: usize| one.times.get(place).map_or(0.0, |time| time.as_secs_f64() * 1e3);
        println!("{:.4} {:.4} {bytes} {series} {samples}", at(rounds / 2), at(rounds.saturating_sub(1)));
    }
}
