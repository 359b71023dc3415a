//! Stands in for the original parser/bgp: of its functions, the one that the readers of BMP call.

pub mod messages;

pub use messages::parse_bgp_message;
