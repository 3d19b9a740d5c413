//! The recording of whole calls for a program of the gate.

use crate::cases::Rng;
use crate::cells::Cells;
use crate::compare::deep;
use crate::corners::{corners, limits, values};
use crate::document::BYTES;
use crate::held::meant;
use crate::layers::tree;
use crate::lending::Call;
use crate::pieces::{self, Piece};
use crate::record::{Lines, hex};
use crate::sum::Sum;
use crate::texts::{any_cue, any_document};
use reference::ttml;

/// The longest text of a line, and the most bytes of pieces: a line has at most 1,024 bytes.
const RECORDED: usize = 480;

/// What is asked of a text.
#[derive(Clone, Copy)]
enum Asked {
    Parse,
    Cue,
    Write,
}

/// The lines of a recording: `p` for parse, `c` for bytes_to_cue, `w` for parse and then write; `P`, `C` and `W` of texts in pieces, which `+`
/// begins where a line has no room for all. The answer is a byte of the number, four of the place, for `w` of how many bytes are written, and
/// four of the sum over the tables, for `w` over what program `recaption` prints.
pub fn lines(rng: &mut Rng, lines: &mut Lines) {
    deep(|| {
        let before = lines.made;
        for text in pieces::tracks() {
            in_pieces(lines, Asked::Parse, &text);
            in_pieces(lines, Asked::Write, &text);
        }
        for text in pieces::cues() {
            in_pieces(lines, Asked::Cue, &text);
        }
        lines.count = lines.count.saturating_sub(lines.made - before);
        sampled(rng, lines);
    });
}

fn in_pieces(lines: &mut Lines, asked: Asked, text: &[Piece]) {
    let mut parts = pieces::parts(text, RECORDED);
    let last = parts.pop().expect("there is one");
    for part in parts {
        lines.line(&format!("+ {} -", hex(&part)));
    }
    let kind = match asked {
        Asked::Parse => 'P',
        Asked::Cue => 'C',
        Asked::Write => 'W',
    };
    lines.question(kind, &last, &answer(asked, &pieces::text(text)));
}

/// Short texts, corners and random ones.
fn sampled(rng: &mut Rng, lines: &mut Lines) {
    let short = |text: &Vec<u8>| text.len() <= RECORDED;
    let listed = |from: usize, step: usize| corners().into_iter().skip(from).step_by(step).map(String::into_bytes);
    let values = |from: usize, step: usize| values().into_iter().skip(from).step_by(step).map(String::into_bytes);
    let mut seeds = [0, 1, 2].map(|turn| Rng::new(rng.next(), ["p", "c", "w"][turn]));
    let [documents, cues, written] = &mut seeds;
    let random = std::iter::repeat_with(|| any_document(documents).into_bytes());
    let pair = |asked: Asked| {
        move |text: Vec<u8>| {
            let answer = answer(asked, &text);
            (text, answer)
        }
    };
    let refused = tree::corners().into_iter().step_by(37).map(|text| format!("<tt><body><p>{text}").into_bytes());
    let limits = limits().into_iter().map(String::into_bytes).filter(short).step_by(3);
    let questions = listed(0, 7).chain(values(0, 150)).chain(limits).chain(refused).chain(random).filter(short);
    lines.pairs('p', 60, questions.map(pair(Asked::Parse)));
    let random = std::iter::repeat_with(|| any_cue(cues).into_bytes());
    let questions = listed(3, 28).chain(values(7, 900)).chain(random).filter(short);
    lines.pairs('c', 20, questions.map(pair(Asked::Cue)));
    let random = std::iter::repeat_with(|| any_document(written).into_bytes());
    let questions = listed(5, 28).chain(random).filter(short);
    lines.pairs('w', 20, questions.map(pair(Asked::Write)));
}

/// The bytes of an answer: its number, its place or how many bytes, and a sum.
fn bytes(number: u32, place: usize, sum: u32) -> Vec<u8> {
    [&[number as u8][..], &(place as u32).to_be_bytes(), &sum.to_be_bytes()].concat()
}

fn answer(asked: Asked, text: &[u8]) -> Vec<u8> {
    match asked {
        Asked::Parse => read(Call::Parse, text),
        Asked::Cue => read(Call::Cue, text),
        Asked::Write => recaptioned(text),
    }
}

fn read(call: Call, text: &[u8]) -> Vec<u8> {
    let mut cells = Cells::default();
    match meant(call, text) {
        Err(refusal) => bytes(refusal.number, refusal.place, cells.sum()),
        Ok((read, track)) => {
            cells.fill(&read, &track);
            bytes(0, 0, cells.sum())
        }
    }
}

/// The same for what is printed: the track as it is written, which meets 18 if it is too long, or the line of a refusal.
fn recaptioned(text: &[u8]) -> Vec<u8> {
    let summed = |printed: &[u8]| {
        let mut sum = Sum::default();
        sum.table(printed.iter().map(|&byte| byte as u64));
        sum.0 as u32
    };
    let refused = |number: u32, place: usize| bytes(number, place, summed(format!("{number} {place}\n").as_bytes()));
    match meant(Call::Parse, text).map(|(_, track)| ttml::write(&track.rust())) {
        Err(refusal) => refused(refusal.number, refusal.place),
        Ok(written) if written.len() > BYTES => refused(18, 0),
        Ok(written) => bytes(0, written.len(), summed(&written)),
    }
}
