//! The oracle: the original readers of BMP, asked line by line in the replay language.

mod error;
mod line;
mod models;
mod parser;
mod shown;
mod warnings;

pub use parser::*;

use bmp::error::ParserBmpError;
use bmp::messages::*;
use bmp::parse_openbmp_header;
use bytes::Bytes;
use line::Line;
use std::io::{BufRead, Write};

const PER_PEER_HEADER: usize = 42;

fn main() -> std::io::Result<()> {
    warnings::listen();
    let mut input = std::io::stdin().lock();
    let mut output = std::io::BufWriter::new(std::io::stdout().lock());
    let mut text = vec![];
    while input.read_until(b'\n', &mut text)? > 0 {
        let line = text.strip_suffix(b"\n").unwrap_or(&text);
        if !line.is_empty() {
            writeln!(output, "{}", answer(line))?;
        }
        text.clear();
    }
    output.flush()
}

fn answer(line: &[u8]) -> String {
    let Some(Line { verb, args, bytes }) = Line::read(line) else {
        return "bad line".to_string();
    };
    let peer_type = Some(&args.peer_type);
    match verb {
        "common" => read(bytes, parse_bmp_common_header, shown::common),
        "perpeer" => read(bytes, parse_per_peer_header, shown::per_peer),
        "stats" => read(bytes, parse_stats_report, shown::stats),
        "initiation" => read(bytes, parse_initiation_message, shown::initiation),
        "termination" => read(bytes, parse_termination_message, shown::termination),
        "peerdown" => read(bytes, parse_peer_down_notification, shown::peer_down),
        "openbmp" => read(bytes, parse_openbmp_header, shown::openbmp),
        "mirroring" => read(bytes, |data| parse_route_mirroring(data, &args.asn, peer_type), shown::mirroring),
        "monitoring" => read(bytes, |data| parse_route_monitoring(data, &args.asn, peer_type), shown::monitoring),
        "peerup" => read(bytes, |data| parse_peer_up_notification(data, &args.afi, &args.asn, peer_type), shown::peer_up),
        "equal" => equal(bytes),
        _ => "none".to_string(),
    }
}

/// What an original reader makes of the bytes; the stop is how many of them it has taken.
fn read<Record>(
    bytes: Vec<u8>,
    parse: impl Fn(&mut Bytes) -> Result<Record, ParserBmpError>,
    show: impl Fn(&Record) -> String,
) -> String {
    let length = bytes.len();
    let mut data = Bytes::from(bytes);
    let result = parse(&mut data);
    let warnings = warnings::take();
    match result {
        Ok(record) => format!("good stop={} warn={warnings} {}", length - data.len(), show(&record)),
        Err(error) => refusal(error),
    }
}

fn equal(bytes: Vec<u8>) -> String {
    let mut first = Bytes::from(bytes);
    let mut second = first.split_off(PER_PEER_HEADER);
    let headers = parse_per_peer_header(&mut first).and_then(|one| Ok((one, parse_per_peer_header(&mut second)?)));
    warnings::take();
    match headers {
        Ok((one, two)) => {
            let stripped = one.strip_timestamp() == two.strip_timestamp();
            format!("{} {}", yes_or_no(one == two), yes_or_no(stripped))
        }
        Err(error) => refusal(error),
    }
}

fn yes_or_no(yes: bool) -> &'static str {
    if yes {
        "yes"
    } else {
        "no"
    }
}

/// A message whose own length the decoding of BGP refuses is outside of what is compared.
fn refusal(error: ParserBmpError) -> String {
    if matches!(&error, ParserBmpError::CorruptedBgpMessage(text) if text.contains(bgp::messages::OWN_LENGTH)) {
        return "outside".to_string();
    }
    let text = format!("{error:?}");
    let name = text.split(['(', ' ']).next().unwrap_or_default();
    match lacking(&text) {
        Some(lacks) => format!("refused {name} missing {lacks}"),
        None => format!("refused {name}"),
    }
}

/// How many bytes a read lacked, where the original's text has both numbers: "remaining: R, required: N".
fn lacking(text: &str) -> Option<usize> {
    let (_, numbers) = text.split_once("remaining: ")?;
    let (remaining, required) = numbers.split_once(", required: ")?;
    let digits = required.find(|c: char| !c.is_ascii_digit()).unwrap_or(required.len());
    Some(required[..digits].parse::<usize>().ok()? - remaining.parse::<usize>().ok()?)
}
