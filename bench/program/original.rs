//! The original's readers. A record is looked at where it stands, as ours are: it must be there whole, and its lengths are added up. They get
//! static `Bytes`, whose clone counts nothing; no logger is set, so that a warning costs a comparison.

use crate::bmp::error::ParserBmpError;
use crate::bmp::messages::*;
use crate::bmp::{parse_bmp_msg, parse_openbmp_header};
use crate::models::{Afi, AsnLength};
use crate::ReadUtils;
use bytes::Bytes;
use std::hint::black_box;

pub type Original = fn(&Bytes) -> u64;

const GLOBAL: Option<&BmpPeerType> = Some(&BmpPeerType::Global);
const AS4: &AsnLength = &AsnLength::Bits32;

fn fold<Record>(read: Result<Record, ParserBmpError>, look: impl Fn(&Record) -> u64) -> u64 {
    match &read {
        Ok(record) => look(black_box(record)),
        Err(error) => black_box(error) as *const _ as u64,
    }
}

fn sum<Entry>(entries: &[Entry], length: impl Fn(&Entry) -> u16) -> u64 {
    entries.iter().map(|entry| length(entry) as u64).sum()
}

/// What `parse_bmp_msg` does before it looks at a body.
fn split(data: &mut Bytes) -> Result<(BmpCommonHeader, Bytes), ParserBmpError> {
    let header = parse_bmp_common_header(data)?;
    let length = header.msg_len as usize;
    if length < 6 {
        return Err(ParserBmpError::CorruptedBmpMessage);
    }
    data.has_n_remaining(length - 6)?;
    Ok((header, data.split_to(length - 6)))
}

pub fn message(data: &mut Bytes) -> u64 {
    fold(parse_bmp_msg(data), |r| r.common_header.msg_len as u64)
}

pub fn reader(name: &str) -> Original {
    match name {
        "common" => |d| fold(parse_bmp_common_header(&mut d.clone()), |r| r.msg_len as u64),
        "split" => |d| fold(split(&mut d.clone()), |r| r.0.msg_len as u64 ^ r.1.len() as u64),
        "perpeer" => |d| fold(parse_per_peer_header(&mut d.clone()), |r| r.peer_distinguisher),
        "openbmp" => |d| fold(parse_openbmp_header(&mut d.clone()), |r| r.msg_len as u64),
        "stats" => |d| fold(parse_stats_report(&mut d.clone()), |r| sum(&r.counters, |c| c.stat_len)),
        "initiation" => |d| fold(parse_initiation_message(&mut d.clone()), |r| sum(&r.tlvs, |t| t.info_len)),
        "termination" => |d| fold(parse_termination_message(&mut d.clone()), |r| sum(&r.tlvs, |t| t.info_len)),
        "mirroring" => |d| fold(parse_route_mirroring(&mut d.clone(), AS4, GLOBAL), |r| sum(&r.tlvs, |t| t.info_len)),
        "monitoring" => |d| fold(parse_route_monitoring(&mut d.clone(), AS4, GLOBAL), |r| r.bgp_message.given().len() as u64),
        "peerup" => |d| fold(parse_peer_up_notification(&mut d.clone(), &Afi::Ipv4, AS4, GLOBAL), |r| sum(&r.tlvs, |t| t.info_len)),
        "peerdown" => |d| fold(parse_peer_down_notification(&mut d.clone()), |r| r.data.as_ref().map_or(0, |b| b.len() as u64)),
        _ => panic!("the original has no reader {name}"),
    }
}
