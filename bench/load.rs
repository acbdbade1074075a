//! load PORT CLIENTS SECONDS get TARGET: so many clients ask for a target again and again.
//! load PORT CLIENTS SECONDS write [SERIES SAMPLES]: so many clients write batches, each to 256 series of its
//! own, of 16 samples a request, or to as many and of as many as the numbers say.
//! load PORT fill SERIES SAMPLES: one client writes the series of make_block.rs, 4,096 samples a request at
//! most. `import` in place of `write`, and `fill SERIES SAMPLES import`, are for VictoriaMetrics;
//! `import-kept` keeps each client's connection. Else there is one connection a request. A request is made
//! before its time begins. It prints replies, replies that are no success, replies a second, and the median,
//! the 99th percentile and the greatest time of a reply in milliseconds.
//! std only: rustc -O load.rs
use std::io::{self, Read, Write};
use std::net::TcpStream;
use std::time::{Duration, Instant};
use std::{env, process, thread};

#[allow(dead_code)]
#[path = "make_block.rs"]
mod make_block;

const MOST: i64 = 4096;
/// A time that is put in anew for each request.
const TIME: &str = "1750000000000";

/// How requests were replied to: the time of each, those that failed, and all bytes.
#[derive(Default)]
struct Replies {
    times: Vec<Duration>,
    bad: u64,
    bytes: u64,
}

impl Replies {
    /// Asks once, and reads the reply to its end.
    fn ask(&mut self, link: &mut Link, request: &[u8], reply: &mut Vec<u8>) {
        let before = Instant::now();
        let told = link.exchange(request, reply);
        self.times.push(before.elapsed());
        self.bytes += reply.len() as u64;
        if told.is_err() || !reply.starts_with(b"HTTP/1.1 20") {
            self.bad += 1;
        }
    }

    fn add(&mut self, more: Replies) {
        self.times.extend(more.times);
        self.bad += more.bad;
        self.bytes += more.bytes;
    }

    fn tell(mut self, took: f64, samples: u64) {
        self.times.sort();
        let count = self.times.len();
        let at = |part: f64| self.times[((count - 1) as f64 * part) as usize].as_secs_f64() * 1e3;
        print!(
            "{count:7} replies {:4} bad {:9.0} a second {:8.3} median {:8.3} 99th {:8.3} most ms",
            self.bad,
            count as f64 / took,
            at(0.5),
            at(0.99),
            at(1.0)
        );
        match samples {
            0 => println!(" {:8.1} MB/s", self.bytes as f64 / took / 1e6),
            _ => println!(" {:8.2} million samples a second", samples as f64 / took / 1e6),
        }
    }
}

/// How a client reaches a server.
struct Link {
    port: u16,
    kept: bool,
    stream: Option<TcpStream>,
}

impl Link {
    fn new(port: u16, kept: bool) -> Link {
        Link { port, kept, stream: None }
    }

    fn exchange(&mut self, request: &[u8], reply: &mut Vec<u8>) -> io::Result<()> {
        reply.clear();
        let mut stream = match self.stream.take() {
            Some(stream) => stream,
            None => TcpStream::connect(("127.0.0.1", self.port))?,
        };
        stream.set_nodelay(true)?;
        stream.write_all(request)?;
        if !self.kept {
            stream.read_to_end(reply)?;
            return Ok(());
        }
        // a reply to an import has no body
        let mut piece = [0; 4096];
        while !reply.ends_with(b"\r\n\r\n") {
            let count = stream.read(&mut piece)?;
            if count == 0 {
                return Err(io::ErrorKind::UnexpectedEof.into());
            }
            reply.extend_from_slice(&piece[..count]);
        }
        self.stream = Some(stream);
        Ok(())
    }
}

/// Whose form a body has.
#[derive(Clone, Copy, PartialEq)]
enum Form {
    Querier,
    Victoria,
}

impl Form {
    /// A request with these rows.
    fn posted(self, rows: &[String], kept: bool) -> String {
        let (path, body) = match self {
            Form::Querier => ("/write", format!("[{}]", rows.join(","))),
            Form::Victoria => ("/api/v1/import", rows.join("\n")),
        };
        let after = if kept { "keep-alive" } else { "close" };
        format!(
            "POST {path} HTTP/1.1\r\nHost: 127.0.0.1\r\nConnection: {after}\r\n\
             Content-Length: {}\r\n\r\n{body}",
            body.len()
        )
    }

    fn row(self, labels: &[(String, String)], samples: &[(String, i64)]) -> String {
        let pairs: Vec<String> =
            labels.iter().map(|(name, value)| format!("\"{name}\":\"{value}\"")).collect();
        let labels = pairs.join(",");
        if self == Form::Querier {
            let points: Vec<String> =
                samples.iter().map(|(time, value)| format!("[{time},{value}]")).collect();
            return format!("{{\"labels\":{{{labels}}},\"samples\":[{}]}}", points.join(","));
        }
        let times: Vec<&str> = samples.iter().map(|(time, _)| time.as_str()).collect();
        let values: Vec<String> = samples.iter().map(|(_, value)| value.to_string()).collect();
        format!(
            "{{\"metric\":{{{labels}}},\"values\":[{}],\"timestamps\":[{}]}}",
            values.join(","),
            times.join(",")
        )
    }
}

/// What clients write: so many series each, so many samples of each in a request.
#[derive(Clone, Copy)]
struct Shape {
    series: u64,
    samples: u64,
}

/// A batch of a client; its times, 13 digits each, are put in anew for each request.
struct Batch {
    request: Vec<u8>,
    places: Vec<usize>,
    samples: u64,
}

impl Batch {
    fn new(client: u64, form: Form, kept: bool, shape: Shape) -> Batch {
        let row = |series: u64| {
            let labels = [
                ("__name__".to_string(), "load".to_string()),
                ("client".to_string(), client.to_string()),
                ("n".to_string(), series.to_string()),
                ("run".to_string(), process::id().to_string()),
            ];
            let samples: Vec<_> =
                (0..shape.samples).map(|k| (TIME.to_string(), (series * 7 + k) as i64)).collect();
            form.row(&labels, &samples)
        };
        let request = form.posted(&(0..shape.series).map(row).collect::<Vec<_>>(), kept);
        let places = request.match_indices(TIME).map(|(at, _)| at).collect();
        Batch { request: request.into_bytes(), places, samples: shape.samples }
    }

    fn put_times(&mut self, n: u64) {
        for (number, &at) in self.places.iter().enumerate() {
            let mut time = 1_750_000_000_000 + (n * self.samples + number as u64 % self.samples) * 1000;
            for digit in self.request[at..at + 13].iter_mut().rev() {
                *digit = b'0' + (time % 10) as u8;
                time /= 10;
            }
        }
    }
}

fn ask_for(port: u16, target: &str, end: Instant) -> Replies {
    let request =
        format!("GET {target} HTTP/1.1\r\nHost: 127.0.0.1\r\nConnection: close\r\n\r\n").into_bytes();
    let (mut link, mut replies, mut reply) = (Link::new(port, false), Replies::default(), Vec::new());
    while Instant::now() < end {
        replies.ask(&mut link, &request, &mut reply);
    }
    replies
}

fn write(mut link: Link, mut batch: Batch, end: Instant) -> Replies {
    let (mut replies, mut reply) = (Replies::default(), Vec::new());
    for n in 0.. {
        if Instant::now() >= end {
            break;
        }
        batch.put_times(n);
        replies.ask(&mut link, &batch.request, &mut reply);
    }
    replies
}

fn fill(port: u16, series: u64, samples: i64, form: Form) {
    let (mut link, mut replies, mut reply) = (Link::new(port, false), Replies::default(), Vec::new());
    let each = (MOST / samples) as usize;
    let row = |n: u64| {
        let points: Vec<_> =
            (0..samples).map(|k| (make_block::time(k).to_string(), make_block::value(n, k))).collect();
        form.row(&make_block::labels(n), &points)
    };
    for from in (0..series).step_by(each) {
        let rows: Vec<String> = (from..series.min(from + each as u64)).map(row).collect();
        replies.ask(&mut link, form.posted(&rows, false).as_bytes(), &mut reply);
    }
    let took: Duration = replies.times.iter().sum();
    replies.tell(took.as_secs_f64(), series * samples as u64);
}

fn main() {
    let words: Vec<String> = env::args().skip(1).collect();
    let number = |at: usize| -> u64 { words[at].parse().expect("a number") };
    let port: u16 = words[0].parse().expect("a port");
    if words[1] == "fill" {
        let form = if words.len() > 4 { Form::Victoria } else { Form::Querier };
        return fill(port, number(2), number(3) as i64, form);
    }
    let (form, kept) =
        (if words[3] == "write" { Form::Querier } else { Form::Victoria }, words[3] == "import-kept");
    let gets = words[3] == "get";
    let shape = if words.len() > 5 {
        Shape { series: number(4), samples: number(5) }
    } else {
        Shape { series: 256, samples: 16 }
    };
    let start = Instant::now();
    let end = start + Duration::from_secs(number(2));
    let mut replies = Replies::default();
    let asked = |client| {
        if gets {
            ask_for(port, &words[4], end)
        } else {
            write(Link::new(port, kept), Batch::new(client, form, kept, shape), end)
        }
    };
    thread::scope(|scope| {
        let asked = &asked;
        let threads: Vec<_> = (0..number(1)).map(|client| scope.spawn(move || asked(client))).collect();
        for thread in threads {
            replies.add(thread.join().expect("a client ends"));
        }
    });
    let samples = if gets { 0 } else { replies.times.len() as u64 * shape.series * shape.samples };
    replies.tell(start.elapsed().as_secs_f64(), samples);
}
