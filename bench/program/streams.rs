//! Recorded streams, cut by their length fields alone.

#[derive(Clone)]
pub struct Stream {
    pub name: String,
    pub bytes: &'static [u8],
}

impl Stream {
    pub fn open(path: &str) -> Stream {
        let bytes = std::fs::read(path).unwrap_or_else(|error| panic!("{path}: {error}"));
        let whole: usize = messages(&bytes).map(|message| message.len()).sum();
        assert!(whole == bytes.len(), "{path}: no whole message at {whole}");
        let name = path.rsplit('/').next().unwrap_or(path).to_string();
        Stream { name, bytes: bytes.leak() }
    }
}

pub fn messages(stream: &[u8]) -> impl Iterator<Item = &[u8]> {
    let mut rest = stream;
    std::iter::from_fn(move || {
        let length = u32::from_be_bytes(rest.get(1..5)?.try_into().ok()?) as usize;
        let message = rest.get(..length.max(6))?;
        rest = &rest[message.len()..];
        Some(message)
    })
}

/// As many whole messages as fit.
pub fn first_messages(stream: &[u8], most: usize) -> &[u8] {
    let mut end = 0;
    for message in messages(stream) {
        if end + message.len() > most {
            break;
        }
        end += message.len();
    }
    &stream[..end]
}
