//! The warnings that the original files log, as bits of one word.

use log::{Level, LevelFilter, Log, Metadata, Record};
use std::sync::atomic::{AtomicU32, Ordering};

/// How each text begins, and its bit. The one about multiprotocol capabilities has none: it speaks of what is inside a BGP message.
const TEXTS: [(&str, u32); 6] = [
    ("RFC 9069 violation: Local RIB peer address MUST be zero-filled", 1),
    ("RFC 9069: Local RIB peer BGP ID should be set", 2),
    ("RFC 9069 violation: Local RIB route monitoring MUST use 4-byte ASN", 4),
    ("RFC 9069: VrTableName TLV length must be 1-255 bytes", 8),
    ("RFC 9069: Local RIB peer up notification should include VrTableName TLV", 16),
    ("RFC 9069: Local RIB peer up notification should include multiprotocol capabilities", 0),
];

static WORD: AtomicU32 = AtomicU32::new(0);

struct Warnings;

impl Log for Warnings {
    fn enabled(&self, metadata: &Metadata) -> bool {
        metadata.level() <= Level::Warn
    }

    /// A text that is not on the list ends the program, so that no warning is lost.
    fn log(&self, record: &Record) {
        let text = record.args().to_string();
        let (_, bit) = TEXTS.iter().find(|(start, _)| text.starts_with(start)).unwrap_or_else(|| panic!("unknown warning: {text}"));
        WORD.fetch_or(*bit, Ordering::Relaxed);
    }

    fn flush(&self) {}
}

pub fn listen() {
    log::set_logger(&Warnings).expect("the only logger");
    log::set_max_level(LevelFilter::Warn);
}

/// The word since it was last taken.
pub fn take() -> u32 {
    WORD.swap(0, Ordering::Relaxed)
}
