//! Stands in for the original parser/mod.rs: of its modules, those that the readers of BMP need, under the same names.

pub mod bgp;
pub mod bmp;
pub mod utils;

pub(crate) use self::utils::*;
pub use crate::error::ParserError;
