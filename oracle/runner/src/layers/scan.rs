//! White space, words, marks and names. The Rust takes texts for the first two and for names, so those are
//! asked on UTF-8 alone; the rest on any bytes.

use super::Layer;
use crate::cases::{NO_SPACES, Rng, SPACES, any_char, any_text, every_char, every_text, every_word};
use crate::compare::{Esc, Run};
use crate::lend::cells;
use reference::ttml::access;

pub const LAYER: Layer = Layer { name: "scan", compare, record: None, bench: None };

fn compare(run: &mut Run) {
    spaces(run);
    marks(run);
    letters(run);
    names(run);
}

fn spaces(run: &mut Run) {
    assert!(every_char().filter(|c| c.is_whitespace()).eq(SPACES.iter().copied()));
    for c in every_char() {
        for text in [format!("{c}"), format!("{c}a{c}"), format!("a{c}b"), format!(" {c} ")] {
            trim(run, &text);
            next_word(run, &text, 0);
        }
    }
    let few = [' ', '\n', '\u{85}', '\u{A0}', '\u{2003}', '\u{3000}', 'a', 'é', '\u{200B}', '\u{1F680}'];
    every_text(&few, 4, |text| {
        trim(run, text);
        for from in (0..=text.len()).filter(|&at| text.is_char_boundary(at)) {
            next_word(run, text, from);
        }
        next_word(run, text, text.len() + 1);
        next_word(run, text, usize::MAX);
    });
    for _ in 0..run.count {
        let text = spaced(&mut run.rng, 24);
        trim(run, &text);
        let from = text.floor_char_boundary(run.rng.below(text.len() + 1));
        next_word(run, &text, from);
    }
    // Too few cells for an answer.
    for lent in 0..2 {
        let port = cells::<2, _, _>(lent, |out| port::probe_trim(b" a ", out)).map(|(answer, _)| answer);
        run.same("trim", format_args!("lent {lent} cells"), Ok(false), port);
        let port = cells::<2, _, _>(lent, |out| port::probe_next_word(b" a ", 0, out)).map(|(answer, _)| answer);
        run.same("next_word", format_args!("lent {lent} cells"), Ok(false), port);
    }
}

/// White space, what is nearly so, and other characters.
pub fn spaced(rng: &mut Rng, most: usize) -> String {
    let any = |rng: &mut Rng| match rng.below(4) {
        0 | 1 => rng.pick(SPACES),
        2 => rng.pick(NO_SPACES),
        _ => any_char(rng),
    };
    (0..rng.below(most + 1)).map(|_| any(rng)).collect()
}

/// Each white space and each that is not, around a text and alone.
pub fn trim_corners() -> Vec<String> {
    let mut corners = vec![String::new(), "a".into(), " a b ".into(), " \t\r\n".into(), "\u{3000}é\u{3000}".into()];
    for c in SPACES.iter().chain(NO_SPACES) {
        corners.push(format!("{c}a{c}"));
        corners.push(format!(" {c} "));
    }
    corners
}

fn trim(run: &mut Run, text: &str) {
    let trimmed = text.trim();
    let rust = if trimmed.is_empty() { None } else { Some(place(text, trimmed)) };
    let port = cells(3, |out| port::probe_trim(text.as_bytes(), out));
    let port = port.map(|(answered, [start, end])| match answered {
        // An empty text has no place of its own: any within the text will do.
        true if start == end && end <= text.len() as u64 => (true, None),
        answered => (answered, Some([start, end])),
    });
    run.same("trim", format_args!("{:?}", Esc(text.as_bytes())), Ok((true, rust)), port);
}

fn next_word(run: &mut Run, text: &str, from: usize) {
    let rust = text.get(from..).and_then(|rest| rest.split_whitespace().next()).map(|word| place(text, word));
    let port = cells(3, |out| port::probe_next_word(text.as_bytes(), from, out));
    let port = port.map(|(found, place)| found.then_some(place));
    run.same("next_word", format_args!("{:?} from {from}", Esc(text.as_bytes())), Ok(rust), port);
}

/// Where a part of a text starts and ends.
fn place(text: &str, part: &str) -> [u64; 2] {
    let start = part.as_ptr() as usize - text.as_ptr() as usize;
    [start as u64, (start + part.len()) as u64]
}

/// The end marks of the grammar, one that repeats itself, and none.
const MARKS: &[&[u8]] = &[b"-->", b"?>", b"]]>", b">", b"--", b"</", b"<!--", b"<![CDATA[", b""];

fn marks(run: &mut Run) {
    every_word(b"->]?", 5, |src| {
        for mark in MARKS {
            for from in (0..src.len() + 2).chain([usize::MAX]) {
                find(run, src, from, mark);
            }
        }
    });
    for _ in 0..run.count {
        let symbols = b"<![CDATA[]]>--></?a\xC3\xA9";
        let mut src: Vec<u8> = (0..run.rng.below(40)).map(|_| run.rng.pick(symbols)).collect();
        // Half of the marks are put in somewhere; some are a part of the text itself.
        let mut mark = run.rng.pick(MARKS).to_vec();
        let at = run.rng.below(src.len() + 1);
        match run.rng.below(4) {
            0 | 1 => drop(src.splice(at..at, mark.iter().copied())),
            2 => mark = src[at..at + run.rng.below(src.len() - at + 1)].to_vec(),
            _ => {}
        }
        let from = run.rng.below(src.len() + 2);
        find(run, &src, from, &mark);
    }
}

fn find(run: &mut Run, src: &[u8], from: usize, mark: &[u8]) {
    let rust = access::find_seq(src, from, mark).unwrap_or(usize::MAX);
    let port = port::probe_find_seq(src, from, mark);
    run.same("find_seq", format_args!("{:?} from {from} mark {:?}", Esc(src), Esc(mark)), rust, port);

    let rust = src.get(from..).is_some_and(|rest| rest.starts_with(mark));
    let port = port::probe_starts_with(src, from, mark);
    run.same("starts_with", format_args!("{:?} from {from} mark {:?}", Esc(src), Esc(mark)), rust, port);
}

fn letters(run: &mut Run) {
    for a in 0..=255 {
        for b in 0..=255 {
            equal(run, &[a], &[b]);
            equal(run, &[b'x', a, b'y'], &[b'X', b, b'y']);
        }
    }
    for _ in 0..run.count {
        let a: Vec<u8> = (0..run.rng.below(20)).map(|_| run.rng.next() as u8 & 0x7F).collect();
        let mut b = a.clone();
        for byte in &mut b {
            // The bit that tells letters' cases apart, which must not matter for letters alone.
            if run.rng.below(4) == 0 && (byte.is_ascii_alphabetic() || run.rng.below(20) == 0) {
                *byte ^= 0x20;
            }
        }
        match run.rng.below(8) {
            0 => drop(b.pop()),
            1 => b.push(b'a'),
            _ => {}
        }
        equal(run, &a, &b);
    }
}

fn equal(run: &mut Run, a: &[u8], b: &[u8]) {
    let rust = a.eq_ignore_ascii_case(b);
    let port = port::probe_eq_ignore_ascii_case(a, b);
    run.same("eq_ignore_ascii_case", format_args!("{:?} {:?}", Esc(a), Esc(b)), rust, port);
}

fn names(run: &mut Run) {
    every_text(&[':', 'a', 'B', 'é', '\u{1F680}'], 6, |name| local(run, name));
    for _ in 0..run.count {
        let name = any_text(&mut run.rng, 8);
        let name = name.replace(char::is_whitespace, ":");
        local(run, &name);
    }
}

/// Both of the Rust's functions give an end of the name, in lower case or not: its length is its place.
fn local(run: &mut Run, name: &str) {
    let bytes = name.as_bytes();
    let rust = name.len() - access::tag_local(name).len();
    run.same("tag_local", format_args!("{:?}", Esc(bytes)), rust, port::probe_tag_local(bytes));
    let rust = name.len() - access::strip_ns(name).len();
    run.same("strip_ns", format_args!("{:?}", Esc(bytes)), rust, port::probe_strip_ns(bytes));
}
