//! Before anything is measured, our answers are held against those of the C walk.

use crate::inputs;
use crate::sides::Side;
use crate::streams::{first_messages, messages, Stream};

/// What the lister asks for so that every listing fits.
pub const LIST_ROOM: usize = 196_656;

/// The size of the buffer that the receiver asks for.
pub const BUFFER: usize = 65_536;

/// A part of it says how long a piece is.
pub const PIECE: [u8; 4_097] = [0; 4_097];

/// Lengths of pieces: within a header, around its end, beyond it, the longest, and two that get nowhere.
const SIZES: [usize; 10] = [1, 2, 5, 6, 7, 100, 1_000, 4_096, 4_097, 0];

/// Bytes that a check may turn on.
const CHANGES: [u8; 13] = [0, 1, 2, 3, 4, 5, 6, 7, 18, 19, 0x20, 0x80, 0xff];

fn hold<Answer: PartialEq>(answers: [Answer; 2], what: &str, input: &[u8]) {
    if answers[0] != answers[1] {
        eprintln!("bench: ours and the C walk differ: {what} of {input:02x?}");
        std::process::exit(1);
    }
}

fn written(side: Side, name: &str, input: &[u8], room: usize) -> (u64, Vec<u8>) {
    let mut output = vec![0xaa; room];
    (side.writer(name)(input, &mut output), output)
}

/// Both read, and write what they read, to an output with room and to one that lacks a byte. How many answers that are.
fn compare(sides: [Side; 2], name: &str, input: &[u8]) -> usize {
    hold(sides.map(|side| side.reader(name)(input)), name, input);
    let writer = format!("write_{name}");
    if !sides[0].has(&writer) {
        return 1;
    }
    for room in [input.len() + 8, input.len().saturating_sub(1)] {
        hold(sides.map(|side| written(side, &writer, input, room)), &writer, input);
    }
    3
}

fn compare_message(sides: [Side; 2], input: &[u8]) -> usize {
    let read = |side: Side| {
        let mut sum = 0;
        (side.message()(input, &mut sum), sum)
    };
    hold(sides.map(read), "message", input);
    1
}

/// A session in pieces of each length, and what is left in the buffers, which are as the session before left them.
fn compare_session(sides: [Side; 2], buffers: &mut [Vec<u8>; 2], stream: &[u8]) -> usize {
    let start = &stream[..stream.len().min(200)];
    for size in SIZES {
        let received = [0, 1].map(|i| sides[i].session()(&mut buffers[i], stream, &PIECE[..size]));
        let what = format!("session of {} bytes in pieces of {size}, at the start", stream.len());
        hold(received, &what, start);
        hold([&buffers[0], &buffers[1]], &format!("buffer after the {what}"), start);
    }
    SIZES.len()
}

/// A stream with another header in the place of the one that stands there.
fn with_header(stream: &[u8], place: usize, version: u8, length: u32, kind: u8) -> Vec<u8> {
    let header = [&[version][..], &length.to_be_bytes(), &[kind]].concat();
    [&stream[..place], &header, &stream[place + 6..]].concat()
}

/// A stream, that stream with its middle message damaged, and cut within the header and the body of that message.
fn compare_sessions(sides: [Side; 2], buffers: &mut [Vec<u8>; 2], stream: &[u8]) -> usize {
    let first = first_messages(stream, stream.len() / 2).len();
    let length = messages(&stream[first..]).next().expect("a message").len();
    let mut count = compare_session(sides, buffers, stream);
    for (version, kind) in [(2, 4), (3, 9)] {
        count += compare_session(sides, buffers, &with_header(stream, first, version, length as u32, kind));
    }
    for said in [5, 65_536, 65_537, 1_048_576, 1_048_577] {
        count += compare_session(sides, buffers, &with_header(stream, first, 3, said, 4));
    }
    for end in [first + 1, first + 4, first + 5, first + 6, first + length / 2, first + length - 1] {
        count += compare_session(sides, buffers, &stream[..end]);
    }
    count
}

/// An input, every cut of it, and every byte of it changed.
fn variants(input: &[u8], mut compare: impl FnMut(&[u8])) {
    for length in 0..=input.len() {
        compare(&input[..length]);
    }
    for place in 0..input.len() {
        for change in CHANGES {
            let mut changed = input.to_vec();
            changed[place] = change;
            compare(&changed);
        }
    }
}

/// How many answers were compared.
pub fn agree(sides: [Side; 2], streams: &[Stream]) -> usize {
    let mut count = 0;
    for row in inputs::good().into_iter().chain(inputs::refused()) {
        variants(&row.bytes, |input| count += compare(sides, row.reader, input));
    }
    for message in inputs::messages() {
        variants(&message, |input| count += compare_message(sides, input));
    }
    let mut buffers = [vec![0xaa; BUFFER], vec![0xaa; BUFFER]];
    let joined = inputs::messages().concat();
    variants(&joined, |stream| count += compare_session(sides, &mut buffers, stream));
    for length in [6, 7, 100, 1_000, 60_000, 65_536] {
        count += compare_sessions(sides, &mut buffers, &inputs::session(length, 9));
    }
    for room in [BUFFER - 1, BUFFER + 1] {
        count += compare_session(sides, &mut [vec![0; room], vec![0; room]], &joined);
    }
    for stream in streams {
        count += compare_sessions(sides, &mut buffers, stream.bytes);
        let listed = first_messages(stream.bytes, 65_536);
        hold(sides.map(|side| written(side, "list", listed, LIST_ROOM)), "list", listed);
        for (i, message) in messages(stream.bytes).enumerate() {
            count += compare_message(sides, message);
            if i % 16 == 0 && message.len() < 400 {
                variants(message, |input| count += compare_message(sides, input) + compare(sides, "split", input));
            }
        }
    }
    count
}
