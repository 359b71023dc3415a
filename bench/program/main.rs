//! Measures our readers, writers and receiver, the original's readers and the C walk on the same bytes in one run, and prints the figures as Markdown.
//! Built by bench/run, which puts these files beside the oracle's stand-ins and the original files.

mod agree;
mod error;
mod inputs;
mod models;
mod original;
mod parser;
mod sides;
mod streams;

pub use parser::*;

use bytes::{Buf, Bytes};
use sides::Side;
use std::hint::black_box;
use std::time::Instant;
use streams::Stream;

const BATCH: f64 = 300_000.0;

/// Nanoseconds of each round.
struct Times(Vec<f64>);

impl Times {
    fn best(&self) -> f64 {
        self.0.iter().copied().fold(f64::INFINITY, f64::min)
    }

    /// Round by round, since what slows one slows the others of its round.
    fn ratio(&self, other: &Times) -> f64 {
        median(self.0.iter().zip(&other.0).map(|(one, two)| one / two).collect())
    }
}

fn median(mut numbers: Vec<f64>) -> f64 {
    numbers.sort_by(f64::total_cmp);
    numbers[numbers.len() / 2]
}

/// Makes so many calls.
type Batch<'a> = Box<dyn FnMut(usize) -> u64 + 'a>;

fn batch<'a>(mut call: impl FnMut() -> u64 + 'a) -> Batch<'a> {
    Box::new(move |calls| (0..calls).fold(0, |sum, _| sum ^ call()))
}

/// Makes the calls so many frames deeper: where the stack stands decides how long a copy waits for what was just written.
#[inline(never)]
fn deeper(frames: usize, batch: &mut Batch, calls: usize) -> u64 {
    let frame = black_box([0u8; 40]);
    let sum = if frames == 0 { batch(calls) } else { deeper(frames - 1, batch, calls) };
    sum ^ black_box(frame)[0] as u64
}

fn nanoseconds(batch: &mut Batch, calls: usize, round: usize) -> f64 {
    let start = Instant::now();
    black_box(deeper(round % 8, batch, calls));
    start.elapsed().as_nanos() as f64 / calls as f64
}

/// As many calls as take about as long as a batch should.
fn calls_of(batch: &mut Batch) -> usize {
    let mut calls = 1;
    while nanoseconds(batch, calls, 0) * (calls as f64) < BATCH / 10.0 {
        calls *= 2;
    }
    ((BATCH / nanoseconds(batch, calls, 0)) as usize).max(1)
}

/// The batches take turns, so that what slows the machine slows all of them. Nanoseconds a call, divided by the parts of one.
fn measure(mut batches: Vec<Batch>, rounds: usize, parts: usize) -> Vec<Times> {
    let calls: Vec<usize> = batches.iter_mut().map(calls_of).collect();
    let mut seen = vec![vec![]; batches.len()];
    for round in 0..rounds {
        for (i, batch) in batches.iter_mut().enumerate() {
            seen[i].push(nanoseconds(batch, calls[i], round) / parts as f64);
        }
    }
    seen.into_iter().map(Times).collect()
}

/// The ratios of a row, for the aims.
struct Ratios {
    label: String,
    of_rust: f64,
    to_c: f64,
}

fn head(title: &str) {
    println!("\n| {title} | ours | Rust | C | Rust/ours | ours/C |\n|---|---|---|---|---|---|");
}

/// The times are of ours, C and, where there is one, the Rust.
fn line(label: &str, times: &[Times]) -> Ratios {
    let shown = |of: &Times| format!("{:.1} ({:.1})", of.best(), median(of.0.clone()));
    let (ours, c) = (&times[0], &times[1]);
    let of_rust = times.get(2).map_or(f64::NAN, |rust| rust.ratio(ours));
    let to_c = ours.ratio(c);
    let (rust, ratio) = times.get(2).map_or(("-".into(), "-".into()), |rust| (shown(rust), format!("{of_rust:.1}")));
    println!("| {label} | {} | {rust} | {} | {ratio} | {to_c:.2} |", shown(ours), shown(c));
    Ratios { label: label.to_string(), of_rust, to_c }
}

/// Of nanoseconds a byte. The ratio is that of the times, as in the other tables, which is C/ours of the speeds.
fn line_of_speeds(label: &str, times: &[Times]) {
    let shown = |of: &Times| format!("{:.0} ({:.0})", 1000.0 / of.best(), 1000.0 / median(of.0.clone()));
    println!("| {label} | {} | - | {} | - | {:.2} |", shown(&times[0]), shown(&times[1]), times[0].ratio(&times[1]));
}

/// An aim, and the rows that miss it.
fn aim(text: &str, rows: &[&Ratios], missed: impl Fn(&Ratios) -> Option<f64>) {
    let rows: Vec<String> = rows.iter().filter_map(|row| missed(row).map(|ratio| format!("{} ({ratio:.2})", row.label))).collect();
    let verdict = if rows.is_empty() { "met".to_string() } else { format!("missed by {}", rows.join("; ")) };
    println!("- {text}: {verdict}.");
}

fn aims(read: &[Ratios], streams: &[Ratios], listed: &[Ratios]) {
    let slower_than = |least: f64| move |row: &Ratios| (row.of_rust < least).then_some(row.of_rust);
    let everyday: Vec<&Ratios> = read.iter().filter(|row| row.label != "Statistics, 1 counter").collect();
    let measured: Vec<&Ratios> = read.iter().chain(streams).chain(listed).collect();
    println!();
    aim("Each reader at least 2.5 times as fast as the Rust, Statistics with one counter aside", &everyday, slower_than(2.5));
    aim("All streams at least 3.8 times as fast as the Rust", &[&streams[0]], slower_than(3.8));
    aim("Readers, streams and the lister within 1.4 times the C walk", &measured, |row| (row.to_c > 1.4).then_some(row.to_c));
}

fn read_rows(sides: [Side; 2], rows: Vec<inputs::Row>, rounds: usize) -> Vec<Ratios> {
    let measured = |row: inputs::Row| {
        let input: &'static [u8] = row.bytes.leak();
        let [ours, c] = sides.map(|side| side.reader(row.reader)).map(|read| batch(move || read(black_box(input))));
        let (read, bytes) = (original::reader(row.reader), Bytes::from_static(input));
        let rust = batch(move || read(black_box(&bytes)));
        line(row.label, &measure(vec![ours, c, rust], rounds, 1))
    };
    rows.into_iter().map(measured).collect()
}

/// Each side has an output of its own.
fn writers(sides: [Side; 2], name: &str, input: &'static [u8], room: usize) -> Vec<Batch<'static>> {
    let writer = |side: Side| {
        let (write, mut output) = (side.writer(name), vec![0; room]);
        batch(move || write(black_box(input), black_box(&mut output)))
    };
    sides.into_iter().map(writer).collect()
}

fn write_rows(sides: [Side; 2], rows: Vec<inputs::Row>, rounds: usize) {
    for row in rows.into_iter().filter(|row| row.written) {
        let room = row.bytes.len() + 64;
        let batches = writers(sides, &format!("write_{}", row.reader), row.bytes.leak(), room);
        line(row.label, &measure(batches, rounds, 1));
    }
}

fn walk(side: Side, streams: &[Stream]) -> Batch<'_> {
    let message = side.message();
    batch(move || {
        let mut sum = 0;
        for stream in black_box(streams) {
            let mut at = 0;
            while at < stream.bytes.len() {
                at += message(&stream.bytes[at..], &mut sum);
            }
        }
        sum
    })
}

fn walk_original(streams: &[Stream]) -> Batch<'_> {
    batch(move || {
        let mut sum = 0;
        for stream in black_box(streams) {
            let mut bytes = Bytes::from_static(stream.bytes);
            while bytes.has_remaining() {
                sum ^= original::message(&mut bytes);
            }
        }
        sum
    })
}

fn stream_rows(sides: [Side; 2], streams: &[Stream], rounds: usize) -> Vec<Ratios> {
    let all = (format!("All {} streams", streams.len()), streams);
    let each = streams.iter().map(|stream| (stream.name.clone(), std::slice::from_ref(stream)));
    let measured = |(name, part): (String, &[Stream])| {
        let count = part.iter().map(|stream| streams::messages(stream.bytes).count()).sum();
        let batches = vec![walk(sides[0], part), walk(sides[1], part), walk_original(part)];
        line(&format!("{name}, {count} messages"), &measure(batches, rounds, count))
    };
    std::iter::once(all).chain(each).map(measured).collect()
}

/// The lister takes 65,536 bytes at most.
fn list_row(sides: [Side; 2], streams: &[Stream], rounds: usize) -> Ratios {
    let longest = streams.iter().max_by_key(|stream| stream.bytes.len()).expect("a stream");
    let part = streams::first_messages(longest.bytes, 65_536);
    let count = streams::messages(part).count();
    let times = measure(writers(sides, "list", part, agree::LIST_ROOM), rounds, count);
    line(&format!("{}, {} bytes, {count} messages", longest.name, part.len()), &times)
}

/// Each side has a buffer of its own.
fn receive(side: Side, stream: &'static [u8], size: usize) -> Batch<'static> {
    let (session, mut buffer) = (side.session(), vec![0; agree::BUFFER]);
    batch(move || session(black_box(&mut buffer), black_box(stream), black_box(&agree::PIECE[..size])))
}

fn received_rows(sides: [Side; 2], streams: &[Stream], rounds: usize) {
    println!("\n| Received, MB/s | ours | Rust | C | ours/Rust | C/ours |\n|---|---|---|---|---|---|");
    let made = [100, 1_000, 60_000].map(|length| (format!("Messages of {length} bytes"), inputs::session(length, 240_000 / length)));
    let recorded = (format!("All {} streams", streams.len()), streams.iter().flat_map(|stream| stream.bytes).copied().collect());
    for (name, bytes) in made.into_iter().chain([recorded]) {
        let stream: &'static [u8] = bytes.leak();
        for size in [1, 100, 4_096] {
            let batches = sides.map(|side| receive(side, stream, size)).into();
            line_of_speeds(&format!("{name}, pieces of {size}"), &measure(batches, rounds, stream.len()));
        }
    }
}

/// The words are the library of the two sides, how many rounds are made, and the streams.
fn main() {
    let words: Vec<String> = std::env::args().collect();
    let sides = sides::open(&words[1]);
    let rounds = words[2].parse().expect("a number of rounds");
    let streams: Vec<Stream> = words[3..].iter().map(|path| Stream::open(path)).collect();
    println!("Ours and the C walk gave the same {} answers. Nanoseconds a call: best (median).", agree::agree(sides, &streams));
    head("Read");
    let read = read_rows(sides, inputs::good(), rounds);
    head("Refused");
    read_rows(sides, inputs::refused(), rounds);
    head("Read and written again");
    write_rows(sides, inputs::good(), rounds);
    head("Whole streams, ns a message");
    let whole = stream_rows(sides, &streams, rounds);
    head("Listed, ns a message");
    let listed = list_row(sides, &streams, rounds);
    received_rows(sides, &streams, rounds);
    aims(&read, &whole, &[listed]);
}
