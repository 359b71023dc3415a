//! The fields of the original's records, as the replay language shows them.

use crate::bmp::messages::*;
use crate::bmp::openbmp::OpenBmpHeader;
use crate::models::{Afi, AsnLength};
use std::fmt::Write;
use std::net::IpAddr;

pub fn common(header: &BmpCommonHeader) -> String {
    format!("version={} length={} type={}", header.version, header.msg_len, u8::from(header.msg_type))
}

pub fn per_peer(header: &BmpPerPeerHeader) -> String {
    let flags = match header.peer_flags {
        PerPeerFlags::PeerFlags(flags) => flags.bits(),
        PerPeerFlags::LocalRibPeerFlags(flags) => flags.bits(),
    };
    let bits = match header.asn_length() {
        AsnLength::Bits16 => 16,
        AsnLength::Bits32 => 32,
    };
    format!(
        "type={} flags={flags:02x} dist={:016x} fam={} addr={} as={} asbits={bits} id={:08x} ts={:016x}",
        u8::from(header.peer_type),
        header.peer_distinguisher,
        family(header.afi()),
        address_at_end(header.peer_ip),
        u32::from(&header.peer_asn),
        u32::from(header.peer_bgp_id),
        header.timestamp.to_bits()
    )
}

pub fn stats(report: &StatsReport) -> String {
    let counters = report.counters.iter().map(|counter| {
        let name = if matches!(counter.stat_type, StatType::Other(_)) { 'O' } else { 'N' };
        let value = match &counter.stat_data {
            StatsData::Counter(number) => format!("C{number}"),
            StatsData::Gauge(number) => format!("G{number}"),
            StatsData::AfiSafiGauge(afi, safi, number) => format!("A{afi}/{safi}/{number}"),
            StatsData::Unknown(bytes) => format!("R{}", hex(bytes)),
        };
        format!("{}:{}:{name}:{value}", u16::from(counter.stat_type), counter.stat_len)
    });
    format!("count={} counters={}", report.stats_count, list(counters))
}

pub fn initiation(message: &InitiationMessage) -> String {
    let tlvs = message.tlvs.iter().map(|tlv| {
        let named = !matches!(tlv.info_type, InitiationTlvType::Unknown(_));
        information(u16::from(tlv.info_type), tlv.info_len, named, &tlv.info)
    });
    format!("tlvs={}", list(tlvs))
}

pub fn termination(message: &TerminationMessage) -> String {
    let tlvs = message.tlvs.iter().map(|tlv| {
        let value = match &tlv.info_value {
            TerminationTlvValue::String(text) => string(text),
            TerminationTlvValue::Reason(reason) => format!("reason{}", u16::from(*reason)),
        };
        format!("{}:{}:{value}", u16::from(tlv.info_type), tlv.info_len)
    });
    format!("tlvs={}", list(tlvs))
}

pub fn mirroring(message: &RouteMirroring) -> String {
    let tlvs = message.tlvs.iter().map(|tlv| match &tlv.value {
        RouteMirroringValue::BgpMessage(message) => format!("0:{}:bgp{}", tlv.info_len, hex(message.given())),
        RouteMirroringValue::Information(info) => format!("1:{}:info{}", tlv.info_len, u16::from(*info)),
    });
    format!("tlvs={}", list(tlvs))
}

pub fn monitoring(message: &RouteMonitoring) -> String {
    format!("bgp={}", hex(message.bgp_message.given()))
}

pub fn peer_down(message: &PeerDownNotification) -> String {
    let data = match &message.data {
        None => "none".to_string(),
        Some(bytes) => format!("some:{}", hex(bytes)),
    };
    format!("reason={} data={data}", u8::from(message.reason))
}

pub fn peer_up(message: &PeerUpNotification) -> String {
    let tlvs = message.tlvs.iter().map(|tlv| {
        let named = !matches!(tlv.info_type, PeerUpTlvType::Unknown(_));
        information(u16::from(tlv.info_type), tlv.info_len, named, &tlv.info_value)
    });
    format!(
        "fam={} local={} lport={} rport={} sent={} received={} tlvs={}",
        family(Afi::from(message.local_addr)),
        address_at_end(message.local_addr),
        message.local_port,
        message.remote_port,
        hex(message.sent_open.given()),
        hex(message.received_open.given()),
        list(tlvs)
    )
}

pub fn openbmp(header: &OpenBmpHeader) -> String {
    format!(
        "hlen={} mlen={} ts={:016x} admin={} fam={} router={} group={}",
        header.header_len,
        header.msg_len,
        header.timestamp.to_bits(),
        string(&header.admin_id),
        family(Afi::from(header.router_ip)),
        address_at_start(header.router_ip),
        string(header.router_group.as_deref().expect("the original always gives a group"))
    )
}

fn information(number: u16, length: u16, named: bool, value: &str) -> String {
    format!("{number}:{length}:{}:{}", if named { 'N' } else { 'U' }, string(value))
}

fn list(items: impl Iterator<Item = String>) -> String {
    format!("[{}]", items.collect::<Vec<_>>().join(","))
}

fn family(afi: Afi) -> u8 {
    match afi {
        Afi::Ipv4 => 4,
        Afi::Ipv6 => 6,
        Afi::LinkState => unreachable!("no address has this family"),
    }
}

/// The sixteen bytes of a field that has an IPv4 address last, as in the headers of BMP.
fn address_at_end(address: IpAddr) -> String {
    match address {
        IpAddr::V4(four) => format!("{:024x}{}", 0, hex(&four.octets())),
        IpAddr::V6(sixteen) => hex(&sixteen.octets()),
    }
}

/// The sixteen bytes of a field that has an IPv4 address first, as in OpenBMP.
fn address_at_start(address: IpAddr) -> String {
    match address {
        IpAddr::V4(four) => format!("{}{:024x}", hex(&four.octets()), 0),
        IpAddr::V6(sixteen) => hex(&sixteen.octets()),
    }
}

/// The original makes one char of each byte, so each char is a byte again.
fn string(text: &str) -> String {
    hex(&text.chars().map(|char| u8::try_from(char).expect("a char of one byte")).collect::<Vec<_>>())
}

fn hex(bytes: &[u8]) -> String {
    bytes.iter().fold(String::with_capacity(2 * bytes.len()), |mut text, byte| {
        write!(text, "{byte:02x}").expect("a string takes all");
        text
    })
}
