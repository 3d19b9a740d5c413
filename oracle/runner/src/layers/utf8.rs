//! Where the longest valid beginning of some bytes ends, against `str::from_utf8`.

use super::Layer;
use crate::bench::{Bench, cjk, mixed, prose};
use crate::cases::{Rng, any_text, every_word};
use crate::compare::{Esc, Run};
use std::hint::black_box;

pub const LAYER: Layer = Layer { name: "utf8", compare, record: None, bench: Some(bench) };

/// The bytes at which the rules for a sequence change, and one on each side.
const EDGES: &[u8] = &[
    0x00, 0x41, 0x7F, 0x80, 0x8F, 0x90, 0x9F, 0xA0, 0xBF, 0xC0, 0xC1, 0xC2, 0xDF, 0xE0, 0xE1, 0xEC, 0xED, 0xEE, 0xEF,
    0xF0, 0xF1, 0xF3, 0xF4, 0xF5, 0xFF,
];

pub fn valid_end(text: &[u8]) -> usize {
    std::str::from_utf8(text).map_or_else(|e| e.valid_up_to(), str::len)
}

fn compare(run: &mut Run) {
    check(run, b"");
    for length in 1..=3 {
        for number in 0..1_u32 << (8 * length) {
            check(run, &number.to_be_bytes()[4 - length..]);
        }
    }
    every_word(EDGES, 4, |text| check(run, text));
    for _ in 0..run.count {
        let text = any_bytes(&mut run.rng, 40);
        check(run, &text);
        let text = damaged(&mut run.rng, 64);
        check(run, &text);
    }
}

fn check(run: &mut Run, text: &[u8]) {
    run.same("utf8_end", format_args!("{:?}", Esc(text)), valid_end(text), port::probe_utf8_end(text));
}

/// Bytes without any order, many of them edges.
pub fn any_bytes(rng: &mut Rng, most: usize) -> Vec<u8> {
    let any = |rng: &mut Rng| if rng.below(2) == 0 { rng.pick(EDGES) } else { rng.next() as u8 };
    (0..rng.below(most + 1)).map(|_| any(rng)).collect()
}

/// A text of at most `most` characters in which a byte is changed, left out or put in, or that is cut.
/// Half of the texts are ASCII but for a few characters, so that a reader of many bytes at once is met.
pub fn damaged(rng: &mut Rng, most: usize) -> Vec<u8> {
    let mut text = any_text(rng, most);
    if rng.below(2) == 0 {
        text.retain(|c| c.is_ascii() || rng.below(20) == 0);
    }
    let mut text = text.into_bytes();
    if text.is_empty() {
        return text;
    }
    let at = rng.below(text.len());
    match rng.below(5) {
        0 => text[at] = rng.pick(EDGES),
        1 => text.insert(at, rng.pick(EDGES)),
        2 => drop(text.remove(at)),
        3 => text.truncate(at),
        _ => {}
    }
    text
}

/// Sequences at each edge of the rules, whole, among others, cut and spoilt.
pub fn corners() -> Vec<Vec<u8>> {
    let sequences: [&[u8]; 22] = [
        b"\x80", b"\xBF", b"\xC0\x80", b"\xC1\xBF", b"\xC2\x80", b"\xDF\xBF", b"\xE0\x9F\xBF", b"\xE0\xA0\x80",
        b"\xE1\x80\x80", b"\xEC\xBF\xBF", b"\xED\x9F\xBF", b"\xED\xA0\x80", b"\xEE\x80\x80", b"\xEF\xBF\xBF",
        b"\xF0\x8F\xBF\xBF", b"\xF0\x90\x80\x80", b"\xF3\xBF\xBF\xBF", b"\xF4\x8F\xBF\xBF", b"\xF4\x90\x80\x80",
        b"\xF5\x80\x80\x80", b"\xFE", b"\xFF",
    ];
    let mut corners = vec![b"".to_vec(), b"a".to_vec(), b"\0".to_vec(), b"\x7F".to_vec()];
    for sequence in sequences {
        corners.push([b"a", sequence, b"b"].concat());
        for end in 1..=sequence.len() {
            corners.push(sequence[..end].to_vec());
        }
        if let [start @ .., _, _] = sequence {
            corners.push([start, b"aa"].concat());
        }
    }
    corners
}

fn bench(bench: &mut Bench) {
    for (name, text) in [("ASCII", prose(0)), ("mixed", mixed()), ("CJK", cjk())] {
        let text = text.as_bytes();
        assert_eq!(valid_end(text), port::probe_utf8_end(text), "utf8_end differs on {name}");
        bench.row(
            &format!("utf8_end, {name}"),
            text.len(),
            || valid_end(black_box(text)),
            || port::probe_utf8_end(black_box(text)),
        );
    }
}
