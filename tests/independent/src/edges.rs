//! A small fixed stream with both sides of each edge of 01. The expected words are written by hand from 01.

mod images;
mod keys;
mod runs;

use crate::request::{Request, HASH};

pub struct Edge {
    pub name: String,
    pub request: Request,
    /// The first words of the line, or all of them.
    pub expected: String,
}

impl Edge {
    fn new(name: impl Into<String>, request: Request, expected: impl Into<String>) -> Self {
        Edge { name: name.into(), request, expected: expected.into() }
    }
}

pub fn edges() -> Vec<Edge> {
    [hashes(), keys::edges(), keys::places(), runs::edges(), images::edges(), others()].into_iter().flatten().collect()
}

pub fn requests() -> Vec<Request> {
    edges().into_iter().map(|edge| edge.request).collect()
}

/// From the test vectors of the hash's authors.
pub const FNV_VECTORS: [(&str, &str); 39] = [
    ("", "811c9dc5"),
    ("a", "e40c292c"),
    ("b", "e70c2de5"),
    ("c", "e60c2c52"),
    ("d", "e10c2473"),
    ("e", "e00c22e0"),
    ("f", "e30c2799"),
    ("fo", "6222e842"),
    ("foo", "a9f37ed7"),
    ("foob", "3f5076ef"),
    ("fooba", "39aaa18a"),
    ("foobar", "bf9cf968"),
    ("\0", "050c5d1f"),
    ("a\0", "2b24d044"),
    ("b\0", "9d2c3f7f"),
    ("c\0", "7729c516"),
    ("d\0", "b91d6109"),
    ("e\0", "931ae6a0"),
    ("f\0", "052255db"),
    ("fo\0", "bef39fe6"),
    ("foo\0", "6150ac75"),
    ("foob\0", "9aab3a3d"),
    ("fooba\0", "519c4c3e"),
    ("foobar\0", "0c1c9eb8"),
    ("ch", "5f299f4e"),
    ("cho", "ef8580f3"),
    ("chon", "ac297727"),
    ("chong", "4546b9c0"),
    ("chongo", "bd564e7d"),
    ("chongo ", "6bdd5c67"),
    ("chongo w", "dd77ed30"),
    ("chongo wa", "f4ca9683"),
    ("chongo was", "4aeb9bd0"),
    ("chongo was ", "e0e67ad0"),
    ("chongo was h", "c2d32fa8"),
    ("chongo was he", "7f743fb7"),
    ("chongo was her", "6900631f"),
    ("chongo was here", "c59c990e"),
    ("chongo was here!", "448524fd"),
];

fn hashes() -> Vec<Edge> {
    FNV_VECTORS
        .iter()
        .map(|(text, value)| Edge::new(format!("hash of {text:?}"), Request::new(HASH, text.as_bytes()), *value))
        .collect()
}

fn others() -> Vec<Edge> {
    [0, 13, 255].map(|op| Edge::new(format!("op {op}"), Request::new(op, [1, 2, 3]), "op")).into()
}
