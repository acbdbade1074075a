//! make_block SERIES SAMPLES DIR [SHARE SHARES]: writes a block directory of so many series of so many
//! samples, 15 s apart; with SHARE and SHARES, of those series whose `job` leaves SHARE if divided by SHARES
//! (a divisor of 100). It shares no code with the crates, so what it writes comes from outside.
//! std only: rustc -O make_block.rs
use std::collections::{BTreeMap, BTreeSet};
use std::path::Path;
use std::{env, fs, io};

const START: i64 = 1_700_006_400_000;
const STEP: i64 = 15_000;
const PIECE: i64 = 120;

pub type Labels = Vec<(String, String)>;

/// The labels of series number `n`, in the order of their names.
pub fn labels(n: u64) -> Labels {
    let host = n / 10;
    let mixed = (n.wrapping_mul(2_654_435_761) >> 7) & 0xFFFF;
    let code = ["200", "200", "404", "500"][(mixed % 4) as usize];
    let mut labels = vec![
        ("__name__", format!("metric_{}", n % 10)),
        ("code", code.to_string()),
        ("dc", "main".to_string()),
        ("instance", format!("host-{host:05}:9100")),
        ("job", format!("job-{:02}", host % 100)),
    ];
    if (mixed >> 2) % 2 == 1 {
        let zone = ["a", "b", "c", "d"][((mixed >> 3) % 4) as usize];
        labels.push(("zone", zone.to_string()));
    }
    labels.into_iter().map(|(name, value)| (name.to_string(), value)).collect()
}

/// A counter whose step differs from series to series.
pub fn value(n: u64, k: i64) -> i64 {
    (n % 1000) as i64 + k * (1 + (n % 97) as i64)
}

pub fn time(k: i64) -> i64 {
    START + STEP * k
}

/// CRC-32C, one table.
struct Checksum([u32; 256]);

impl Checksum {
    fn new() -> Checksum {
        let mut table = [0u32; 256];
        for (byte, entry) in table.iter_mut().enumerate() {
            *entry =
                (0..8).fold(byte as u32, |c, _| if c & 1 == 1 { (c >> 1) ^ 0x82F6_3B78 } else { c >> 1 });
        }
        Checksum(table)
    }

    fn of(&self, bytes: &[u8]) -> u32 {
        !bytes.iter().fold(!0, |c, &b| (c >> 8) ^ self.0[((c ^ u32::from(b)) & 255) as usize])
    }

    /// Content and its checksum.
    fn put(&self, out: &mut Vec<u8>, content: &[u8]) {
        out.extend(content);
        out.extend(self.of(content).to_be_bytes());
    }

    /// Length, content and checksum.
    fn put_frame(&self, out: &mut Vec<u8>, content: &[u8]) {
        out.extend((content.len() as u32).to_be_bytes());
        self.put(out, content);
    }
}

fn put_uvarint(out: &mut Vec<u8>, mut n: u64) {
    while n >= 128 {
        out.push(n as u8 | 128);
        n >>= 7;
    }
    out.push(n as u8);
}

fn put_varint(out: &mut Vec<u8>, n: i64) {
    put_uvarint(out, ((n << 1) ^ (n >> 63)) as u64);
}

fn put_text(out: &mut Vec<u8>, text: &str) {
    put_uvarint(out, text.len() as u64);
    out.extend(text.as_bytes());
}

fn pad(out: &mut Vec<u8>) {
    out.resize(out.len().next_multiple_of(16), 0);
}

/// Writes the chunks of a series, and gives how the index tells them.
fn put_chunks(sum: &Checksum, file: &mut Vec<u8>, n: u64, samples: i64) -> Vec<u8> {
    let mut told = vec![];
    put_uvarint(&mut told, ((samples + PIECE - 1) / PIECE) as u64);
    let mut before = None;
    for first in (0..samples).step_by(PIECE as usize) {
        let end = samples.min(first + PIECE);
        let place = file.len() as i64;
        let mut data = vec![0xE0];
        data.extend(((end - first) as u16).to_be_bytes());
        for k in first..end {
            data.extend(time(k).to_be_bytes());
            data.extend(value(n, k).to_be_bytes());
        }
        put_uvarint(file, data.len() as u64 - 1);
        sum.put(file, &data);
        match before {
            None => put_varint(&mut told, time(first)),
            Some((last, _)) => put_uvarint(&mut told, (time(first) - last) as u64),
        }
        put_uvarint(&mut told, (time(end - 1) - time(first)) as u64);
        match before {
            None => put_uvarint(&mut told, place as u64),
            Some((_, before)) => put_varint(&mut told, place - before),
        }
        before = Some((time(end - 1), place));
    }
    told
}

/// The index and the chunks of these series, which ascend by their labels.
fn files(series: &[(Labels, u64)], samples: i64) -> (Vec<u8>, Vec<u8>) {
    let sum = Checksum::new();
    let symbols: BTreeSet<&str> = series
        .iter()
        .flat_map(|(l, _)| l)
        .flat_map(|(name, value)| [name.as_str(), value.as_str()])
        .collect();
    let numbers: BTreeMap<&str, u64> = symbols.iter().copied().zip(0..).collect();
    let mut content = (symbols.len() as u32).to_be_bytes().to_vec();
    symbols.iter().for_each(|symbol| put_text(&mut content, symbol));
    let mut index = vec![0xBA, 0xAA, 0xD7, 0x00, 2];
    sum.put_frame(&mut index, &content);
    pad(&mut index);
    let begin = index.len() as u64;
    let mut chunks = vec![0x85, 0xBD, 0x40, 0xDD, 1, 0, 0, 0];
    let mut lists: BTreeMap<(&str, &str), Vec<u32>> = BTreeMap::from([(("", ""), vec![])]);
    for (labels, n) in series {
        pad(&mut index);
        let reference = (index.len() / 16) as u32;
        lists.entry(("", "")).or_default().push(reference);
        let mut body = vec![];
        put_uvarint(&mut body, labels.len() as u64);
        for (name, value) in labels {
            put_uvarint(&mut body, numbers[name.as_str()]);
            put_uvarint(&mut body, numbers[value.as_str()]);
            lists.entry((name, value)).or_default().push(reference);
        }
        body.extend(put_chunks(&sum, &mut chunks, *n, samples));
        put_uvarint(&mut index, body.len() as u64);
        sum.put(&mut index, &body);
    }
    let postings = index.len() as u64;
    let mut table = (lists.len() as u32).to_be_bytes().to_vec();
    for ((name, value), references) in &lists {
        table.push(2);
        put_text(&mut table, name);
        put_text(&mut table, value);
        put_uvarint(&mut table, index.len() as u64);
        let mut content = (references.len() as u32).to_be_bytes().to_vec();
        references.iter().for_each(|reference| content.extend(reference.to_be_bytes()));
        sum.put_frame(&mut index, &content);
    }
    let offsets = index.len() as u64;
    sum.put_frame(&mut index, &table);
    let contents: Vec<u8> =
        [5, begin, 0, 0, postings, offsets].iter().flat_map(|offset: &u64| offset.to_be_bytes()).collect();
    sum.put(&mut index, &contents);
    (index, chunks)
}

fn write(dir: &Path, count: u64, samples: i64, share: u64, shares: u64) -> io::Result<()> {
    let kept = (0..count).filter(|n| n / 10 % shares == share);
    let mut series: Vec<(Labels, u64)> = kept.map(|n| (labels(n), n)).collect();
    series.sort();
    let (index, chunks) = files(&series, samples);
    fs::create_dir_all(dir.join("chunks"))?;
    fs::write(dir.join("index"), index)?;
    fs::write(dir.join("chunks/000001"), chunks)?;
    fs::write(dir.join("tombstones"), [1, 0x30, 0xBA, 0x30, 1, 0, 0, 0, 0])?;
    let end = time(samples);
    fs::write(dir.join("meta.json"), format!("{{\"minTime\":{START},\"maxTime\":{end},\"version\":1}}"))
}

fn main() -> io::Result<()> {
    let words: Vec<String> = env::args().skip(1).collect();
    let (Some(count), Some(samples), Some(dir)) = (words.first(), words.get(1), words.get(2)) else {
        return Err(io::Error::other("make_block SERIES SAMPLES DIR [SHARE SHARES]"));
    };
    let one = ["0".to_string(), "1".to_string()];
    let of = if words.len() == 5 { &words[3..] } else { &one[..] };
    let (Ok(count), Ok(samples), Ok(share), Ok(shares)) =
        (count.parse(), samples.parse(), of[0].parse(), of[1].parse())
    else {
        return Err(io::Error::other("SERIES, SAMPLES, SHARE and SHARES are numbers"));
    };
    write(Path::new(dir), count, samples, share, shares)
}
