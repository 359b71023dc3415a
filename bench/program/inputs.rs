//! The inputs of the rows: everyday messages as routers send them, and refusals.

pub struct Row {
    pub reader: &'static str,
    pub label: &'static str,
    pub bytes: Vec<u8>,
    /// Whether the record is written again, too.
    pub written: bool,
}

fn tlv(kind: u16, value: &[u8]) -> Vec<u8> {
    [&kind.to_be_bytes()[..], &(value.len() as u16).to_be_bytes(), value].concat()
}

fn bgp(kind: u8, body: usize) -> Vec<u8> {
    [&[0xff; 16][..], &(19 + body as u16).to_be_bytes(), &[kind], &vec![7; body]].concat()
}

/// So many counters, their lengths taken in turn from a list.
fn stats(count: usize, lengths: &[usize]) -> Vec<u8> {
    let kinds = [0, 2, 3, 4, 5, 7, 8, 11, 65531];
    let counters = (0..count).flat_map(|i| tlv(kinds[i % 9], &vec![i as u8; lengths[i % lengths.len()]]));
    (count as u32).to_be_bytes().into_iter().chain(counters).collect()
}

const TIME: [u8; 8] = [0x69, 0x15, 0x3d, 0xc0, 0, 1, 0xe2, 0x40];

fn peer(kind: u8, flags: u8, address: [u8; 16]) -> Vec<u8> {
    let distinguisher = [0, 0, 0xfd, 0xe8, 0, 0, 0, 1];
    [&[kind, flags][..], &distinguisher, &address, &65001u32.to_be_bytes(), &[10, 9, 9, 9], &TIME].concat()
}

fn openbmp() -> Vec<u8> {
    let front = [&b"OBMP\x01\x07"[..], &[0, 98, 0, 0, 0, 200, 0x80, 12], &TIME, &[0x11; 16]].concat();
    let router = [&[0x22; 16][..], &[10, 0, 0, 1], &[0; 12]].concat();
    [&front[..], &[0, 11], b"collector-1", &router, &[0, 9], b"router-gp", &[0, 0, 0, 1]].concat()
}

fn message(kind: u8, body: &[u8]) -> Vec<u8> {
    [&[3][..], &(6 + body.len() as u32).to_be_bytes(), &[kind], body].concat()
}

fn peer_up(tlvs: &[u8]) -> Vec<u8> {
    [&[0; 12][..], &[10, 9, 0, 1], &[0, 179, 0x9c, 0x40], &bgp(1, 66), &bgp(1, 58), tlvs].concat()
}

const V4: [u8; 16] = [0, 0, 0, 0, 0, 0, 0, 0, 0, 0, 0, 0, 10, 9, 0, 2];
const V6: [u8; 16] = [0x20, 1, 0xd, 0xb8, 0, 0, 0, 0, 0, 0, 0, 0, 0, 0, 0, 9];

pub fn good() -> Vec<Row> {
    let written = |reader, label, bytes| Row { reader, label, bytes, written: true };
    let read = |reader, label, bytes| Row { reader, label, bytes, written: false };
    let five = [tlv(0, &[b's'; 20]), tlv(3, b"default"), tlv(4, b"lab-east1"), tlv(9, b"abcd"), tlv(0, &[b't'; 12])].concat();
    let many: Vec<u8> = (0..32).flat_map(|i| tlv(i % 5, b"0123456789")).collect();
    vec![
        written("common", "Common header", message(4, &[])),
        read("split", "Splitter, message of 103 bytes", message(0, &[peer(0, 0, V4), bgp(2, 36)].concat())),
        written("perpeer", "Per-peer header, IPv4", peer(0, 0, V4)),
        read("perpeer", "Per-peer header, IPv6", peer(0, 0x80, V6)),
        read("perpeer", "Per-peer header, Loc-RIB", peer(3, 0, [0; 16])),
        written("stats", "Statistics, 1 counter", stats(1, &[4])),
        written("stats", "Statistics, 9 counters", stats(9, &[4, 4, 4, 4, 4, 8, 8, 4, 4])),
        written("stats", "Statistics, 64 counters", stats(64, &[4, 8, 11, 6])),
        written("initiation", "Initiation, 2 TLVs", [tlv(1, b"FRRouting 10.3"), tlv(2, b"r1")].concat()),
        written("initiation", "Initiation, 32 TLVs", many),
        written("termination", "Termination, text and reason", [tlv(0, b"monitoring session ends"), tlv(1, &[0, 1])].concat()),
        written("mirroring", "Route Mirroring, 1 message", tlv(0, &bgp(2, 44))),
        written("monitoring", "Route Monitoring, 55 bytes", bgp(2, 36)),
        written("peerup", "Peer Up, 0 TLVs", peer_up(&[])),
        written("peerup", "Peer Up, 5 TLVs", peer_up(&five)),
        written("peerdown", "Peer Down, notification", [&[1][..], &bgp(3, 2)].concat()),
        read("peerdown", "Peer Down, no data", vec![4]),
        written("openbmp", "OpenBMP header", openbmp()),
    ]
}

/// Messages of so many bytes, of each type in turn, one behind the other.
pub fn session(length: usize, count: usize) -> Vec<u8> {
    (0..count).flat_map(|i| message(i as u8 % 7, &vec![i as u8; length - 6])).collect()
}

/// Whole messages whose headers tell a body's reader what the rows do not: a Loc-RIB, and IPv6.
pub fn messages() -> [Vec<u8>; 3] {
    let named = peer_up(&[tlv(3, b"default"), tlv(0, b"text")].concat());
    let loc_rib = peer(3, 0, [0; 16]);
    [(3, [&loc_rib[..], &named].concat()), (3, [&peer(0, 0x80, V6)[..], &named].concat()), (0, [&loc_rib[..], &bgp(2, 4)].concat())]
        .map(|(kind, body)| message(kind, &body))
}

pub fn refused() -> Vec<Row> {
    let read = |reader, label, bytes| Row { reader, label, bytes, written: false };
    let cut = |bytes: Vec<u8>, length: usize| bytes[..length].to_vec();
    let many = |count: u16| (0..count).flat_map(|i| tlv(i % 5, b"0123456789")).collect();
    vec![
        read("common", "Common header, version 2", vec![2, 0, 0, 0, 6, 4]),
        // The Rust refuses it, and ours does not.
        read("split", "Splitter, type 9: skipped here", message(9, &[7; 97])),
        read("split", "Splitter, message cut", cut(message(0, &[7; 97]), 90)),
        read("perpeer", "Per-peer header, 30 bytes", cut(peer(0, 0, V4), 30)),
        read("stats", "Statistics, 3 bytes", vec![0, 0, 0]),
        read("stats", "Statistics, cut in the second of 9", cut(stats(9, &[4]), 17)),
        read("stats", "Statistics, 65 counters", stats(65, &[4])),
        read("initiation", "Initiation, 33 TLVs", many(33)),
        read("termination", "Termination, type 2", tlv(2, b"x")),
        read("mirroring", "Route Mirroring, cut", cut(tlv(0, &bgp(2, 44)), 40)),
        read("monitoring", "Route Monitoring, 18 bytes", vec![0xff; 18]),
        read("peerup", "Peer Up, 10 bytes", vec![0; 10]),
        read("peerup", "Peer Up, cut in the second OPEN", cut(peer_up(&[]), 150)),
        read("peerup", "Peer Up, last TLV cut", cut(peer_up(&many(5)), 245)),
        read("peerdown", "Peer Down, empty", vec![]),
        read("openbmp", "OpenBMP header, 60 bytes", cut(openbmp(), 60)),
    ]
}
