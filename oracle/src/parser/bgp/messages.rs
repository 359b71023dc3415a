//! Stands in for the decoding of BGP: it frames a message as the original does, and accepts whatever stands inside.

use crate::models::{AsnLength, BgpMessage, BgpOpenMessage, BgpUpdateMessage};
use crate::parser::{ParserError, ReadUtils};
use bytes::{Buf, Bytes};

const HEADER: usize = 19;
const OPEN: u8 = 1;
const UPDATE: u8 = 2;

/// The text of the refusal that tells a message outside of what is compared from one that is too short.
pub const OWN_LENGTH: &str = "invalid BGP message length";

/// As in the original, fewer than 19 bytes and a length below 19 are refused, and a message that says it is longer than what there is
/// takes what there is. What is behind the message's own length stays unread.
pub fn parse_bgp_message(data: &mut Bytes, _add_path: bool, _asn_len: &AsnLength) -> Result<BgpMessage, ParserError> {
    let given = data.clone();
    data.has_n_remaining(HEADER)?;
    data.advance(16);
    let length = data.read_u16()? as usize;
    if length < HEADER {
        return Err(ParserError::ParseError(format!("{OWN_LENGTH} {length}")));
    }
    let kind = data.read_u8()?;
    data.advance(length.min(given.len()) - HEADER);
    Ok(match kind {
        OPEN => BgpMessage::Open(BgpOpenMessage { given, opt_params: vec![] }),
        UPDATE => BgpMessage::Update(BgpUpdateMessage { given }),
        _ => BgpMessage::Other(given),
    })
}
