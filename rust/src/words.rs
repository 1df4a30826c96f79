//! The words for the answers, by number: document 01's, and for 22 and 23 ours (docs/FORMATS.md).

const WORDS: [&str; 24] = [
    "done",
    "size",
    "damaged",
    "misfiled",
    "header",
    "margin",
    "segment",
    "joint",
    "order",
    "drop",
    "route",
    "unsound",
    "turn",
    "train",
    "already on",
    "not on",
    "route number",
    "no entry",
    "taken",
    "too fast",
    "no exit",
    "wishes",
    "buffer",
    "length",
];

/// The word for an answer's number, where there is such an answer.
pub fn word(number: u8) -> Option<&'static str> {
    WORDS.get(usize::from(number)).copied()
}
