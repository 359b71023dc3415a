//! The lines of the replay language: VERB ARGS HEX.

use crate::bmp::messages::BmpPeerType;
use crate::models::{Afi, AsnLength};

const MOST_CHARACTERS: usize = 131_072;
const MOST_BYTES: usize = 1_048_577;
const TWO_HEADERS: usize = 84;
const READERS: [&str; 10] = [
    "common", "perpeer", "stats", "initiation", "termination", "peerdown", "openbmp", "mirroring", "monitoring", "peerup",
];

pub struct Line<'a> {
    pub verb: &'a str,
    pub args: Args,
    pub bytes: Vec<u8>,
}

/// The arguments of a reader; one that the verb does not take has the first value.
pub struct Args {
    pub afi: Afi,
    pub asn: AsnLength,
    pub peer_type: BmpPeerType,
}

impl Line<'_> {
    /// None for every line that is not of the language.
    pub fn read(line: &[u8]) -> Option<Line<'_>> {
        let mut fields = std::str::from_utf8(line).ok()?.split(' ');
        let (verb, args, text) = (fields.next()?, fields.next()?, fields.next()?);
        if fields.next().is_some() {
            return None;
        }
        let args = read_args(verb, args)?;
        let bytes = read_hex(text)?;
        if verb == "equal" && bytes.len() != TWO_HEADERS {
            return None;
        }
        Some(Line { verb, args, bytes })
    }
}

fn read_args(verb: &str, text: &str) -> Option<Args> {
    let reader = verb.strip_prefix("rewrite-").unwrap_or(verb);
    if !READERS.contains(&reader) && verb != "split" && verb != "equal" {
        return None;
    }
    let mut parts = text.split(',');
    let mut args = Args { afi: Afi::Ipv4, asn: AsnLength::Bits16, peer_type: BmpPeerType::Global };
    match reader {
        "mirroring" | "monitoring" | "peerup" => {
            if reader == "peerup" {
                args.afi = read_afi(parts.next()?)?;
            }
            args.asn = read_asn(parts.next()?)?;
            args.peer_type = read_peer_type(parts.next()?)?;
        }
        _ => {
            parts.next().filter(|part| *part == "-")?;
        }
    }
    if parts.next().is_some() {
        return None;
    }
    Some(args)
}

fn read_afi(part: &str) -> Option<Afi> {
    match part {
        "afi=4" => Some(Afi::Ipv4),
        "afi=6" => Some(Afi::Ipv6),
        _ => None,
    }
}

fn read_asn(part: &str) -> Option<AsnLength> {
    match part {
        "asn=16" => Some(AsnLength::Bits16),
        "asn=32" => Some(AsnLength::Bits32),
        _ => None,
    }
}

fn read_peer_type(part: &str) -> Option<BmpPeerType> {
    match part {
        "type=0" => Some(BmpPeerType::Global),
        "type=1" => Some(BmpPeerType::RD),
        "type=2" => Some(BmpPeerType::Local),
        "type=3" => Some(BmpPeerType::LocalRib),
        _ => None,
    }
}

fn read_hex(text: &str) -> Option<Vec<u8>> {
    if text == "-" {
        return Some(vec![]);
    }
    if text.len() > MOST_CHARACTERS {
        return None;
    }
    let mut bytes = vec![];
    for part in text.split('+') {
        let (times, digits) = match part.split_once('*') {
            Some((number, digits)) => (read_times(number)?, digits),
            None => (1, part),
        };
        let once = read_digits(digits.as_bytes())?;
        if bytes.len() + times * once.len() > MOST_BYTES {
            return None;
        }
        bytes.extend(once.repeat(times));
    }
    Some(bytes)
}

/// A decimal number from 1 to 1,048,577 without a leading zero.
fn read_times(number: &str) -> Option<usize> {
    if number.starts_with('0') || !number.bytes().all(|digit| digit.is_ascii_digit()) {
        return None;
    }
    number.parse().ok().filter(|times| (1..=MOST_BYTES).contains(times))
}

fn read_digits(digits: &[u8]) -> Option<Vec<u8>> {
    if digits.is_empty() || digits.len() % 2 != 0 {
        return None;
    }
    digits.chunks_exact(2).map(|pair| Some(read_digit(pair[0])? * 16 + read_digit(pair[1])?)).collect()
}

fn read_digit(digit: u8) -> Option<u8> {
    match digit {
        b'0'..=b'9' => Some(digit - b'0'),
        b'a'..=b'f' => Some(digit - b'a' + 10),
        _ => None,
    }
}
