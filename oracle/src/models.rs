//! Stands in for the original's models: the types that the original files name, with as much of each as they use.
//! Those marked "named only" are needed for the originals to compile and are never made.

use bytes::Bytes;
use ipnet::IpNet;
use num_enum::TryFromPrimitive;
use std::net::{IpAddr, Ipv4Addr};

#[derive(Debug, Clone, Copy, PartialEq, Eq, TryFromPrimitive)]
#[repr(u16)]
pub enum Afi {
    Ipv4 = 1,
    Ipv6 = 2,
    LinkState = 16388,
}

impl From<IpAddr> for Afi {
    fn from(address: IpAddr) -> Afi {
        match address {
            IpAddr::V4(_) => Afi::Ipv4,
            IpAddr::V6(_) => Afi::Ipv6,
        }
    }
}

#[derive(Debug, Clone, Copy, PartialEq, Eq)]
pub enum AsnLength {
    Bits16,
    Bits32,
}

/// Equal flags mean equal widths, so nothing here depends on whether equality looks at the width.
#[derive(Debug, Default, Clone, Copy, PartialEq, Eq, Hash)]
pub struct Asn(u32);

impl Asn {
    pub fn new_16bit(number: u16) -> Asn {
        Asn(number.into())
    }

    pub fn new_32bit(number: u32) -> Asn {
        Asn(number)
    }
}

impl From<&Asn> for u32 {
    fn from(asn: &Asn) -> u32 {
        asn.0
    }
}

impl From<&Asn> for u16 {
    fn from(asn: &Asn) -> u16 {
        asn.0 as u16
    }
}

pub type BgpIdentifier = Ipv4Addr;

/// A BGP message as the bytes that it was given in; the variants are those that the originals look for, and one for the others.
#[derive(Debug, Clone, PartialEq)]
pub enum BgpMessage {
    Open(BgpOpenMessage),
    Update(BgpUpdateMessage),
    Other(Bytes),
}

impl BgpMessage {
    pub fn given(&self) -> &Bytes {
        match self {
            BgpMessage::Open(open) => &open.given,
            BgpMessage::Update(update) => &update.given,
            BgpMessage::Other(given) => given,
        }
    }
}

#[derive(Debug, Clone, PartialEq)]
pub struct BgpOpenMessage {
    pub given: Bytes,
    pub opt_params: Vec<OptParam>,
}

#[derive(Debug, Clone, PartialEq)]
pub struct BgpUpdateMessage {
    pub given: Bytes,
}

impl BgpUpdateMessage {
    /// Named only: updates are not decoded.
    pub fn is_end_of_rib(&self) -> bool {
        unreachable!()
    }
}

/// Named only, with the three below: capabilities are not decoded.
#[derive(Debug, Clone, PartialEq)]
pub struct OptParam {
    pub param_value: ParamValue,
}

#[derive(Debug, Clone, PartialEq)]
pub enum ParamValue {
    Raw,
    Capacities(Vec<Capability>),
}

#[derive(Debug, Clone, PartialEq)]
pub struct Capability {
    pub ty: capabilities::BgpCapabilityType,
}

pub mod capabilities {
    #[derive(Debug, Clone, PartialEq)]
    pub struct BgpCapabilityType(pub u8);

    impl BgpCapabilityType {
        pub const MULTIPROTOCOL_EXTENSIONS_FOR_BGP_4: BgpCapabilityType = BgpCapabilityType(1);
    }
}

/// Named only: prefixes are not decoded.
pub struct NetworkPrefix;

impl NetworkPrefix {
    pub fn new(_: IpNet, _: Option<u32>) -> NetworkPrefix {
        NetworkPrefix
    }

    pub fn encode(&self) -> Vec<u8> {
        unreachable!()
    }
}

/// Named only.
#[derive(Debug, Clone, PartialEq, Eq)]
pub struct AttrType;

macro_rules! named_only {
    ($($name:ident: $number:ident),*) => {
        $(
            /// Named only: error.rs says what becomes of an unknown number of this type.
            #[derive(Debug, Clone, Copy, PartialEq, Eq, TryFromPrimitive)]
            #[repr($number)]
            pub enum $name {
                First = 1,
            }
        )*
    };
}

named_only!(Safi: u8, BgpState: u16, Bgp4MpType: u16, EntryType: u16, TableDumpV2Type: u16);
