//! `parse` and `bytes_to_cue`: the answer and every cell of the thirteen tables against `judge.rs`, which is itself held to the
//! Rust on each text; and the track that the tables mean, read back, against the Rust's own.

use super::Layer;
use crate::bench::Bench;
use crate::cases::every_word;
use crate::cells::Cells;
use crate::compare::{Run, deep};
use crate::corners::{corners, limits, values};
use crate::document::BYTES;
use crate::films::{documents, film};
use crate::held::{Told, held, judged, rust, told};
use crate::hostile::hostile;
use crate::layers::tree;
use crate::lending::{Call, Care, FIXED, Lending, Lengths, MORE, Wrong};
use crate::record::Recording;
use crate::replay::lines;
use crate::rows::{self, Input};
use crate::sheets::any_sheet;
use crate::texts::{FAMILIES, Family, any_cue, any_document, any_long};
use reference::ttml::{self, access};

pub const LAYER: Layer = Layer {
    name: "parse",
    compare,
    record: Some(Recording { file: "crates/replay_parse/stdin", count: 500, lines }),
    bench: Some(bench),
};

fn compare(run: &mut Run) {
    deep(|| {
        let side = &mut Side::new();
        for text in corners().iter().chain(&limits()).chain(&tree::corners()) {
            side.check_lengths(run, text.as_bytes());
        }
        for text in values() {
            side.both(run, text.as_bytes());
        }
        // What the tree reader meets, in a p and at top level.
        for (text, more) in tree::corners().iter().zip(tree::limits().iter().step_by(7)) {
            side.both(run, format!("<tt><body><p>{text}").as_bytes());
            side.both(run, format!("<p>{text}").as_bytes());
            side.both(run, format!("<tt>{more}").as_bytes());
        }
        side.random(run);
        for family in FAMILIES {
            side.family(run, family);
        }
        side.told();
    });
}

/// The port's side, and what it must leave.
struct Side {
    lending: Lending,
    must: Cells,
    /// How often each number was the answer.
    met: [u64; 19],
}

/// The answer's number and place, and the first cell that is not what it must be.
#[derive(Debug, PartialEq)]
struct Done {
    answer: (u32, u32),
    wrong: Option<Wrong>,
}

impl Side {
    fn new() -> Side {
        Side { lending: Lending::new(), must: Cells::default(), met: [0; 19] }
    }

    fn family(&mut self, run: &mut Run, family: &Family) {
        let p = family.before.find("<p");
        every_word(family.tokens, family.longest, |tokens| {
            let text = format!("{}{}{}", family.before, tokens.concat(), family.after);
            self.check(run, Call::Parse, text.as_bytes());
            if let Some(p) = p {
                self.check(run, Call::Cue, &text.as_bytes()[p..]);
            }
        });
    }

    fn random(&mut self, run: &mut Run) {
        let films = documents();
        for n in 0..run.count / 4 {
            let document = any_document(&mut run.rng);
            self.check(run, Call::Parse, document.as_bytes());
            let cue = any_cue(&mut run.rng);
            self.check(run, Call::Cue, cue.as_bytes());
            if n % 4 == 0 {
                let text = tree::damaged(&mut run.rng, &document);
                self.check(run, Call::Parse, &text);
                let text = tree::damaged(&mut run.rng, &cue);
                self.check(run, Call::Cue, &text);
                let text = tree::damaged(&mut run.rng, &films[n / 4 % films.len()]);
                self.check(run, Call::Parse, &text);
                let sheet = any_sheet(&mut run.rng);
                self.check(run, Call::Parse, sheet.text.as_bytes());
            }
            if n % 500 == 0 {
                let text = any_long(&mut run.rng);
                self.check_lengths(run, text.as_bytes());
            }
        }
    }

    fn both(&mut self, run: &mut Run, text: &[u8]) {
        self.check(run, Call::Parse, text);
        self.check(run, Call::Cue, text);
    }

    /// Both with all cells seen: tables of the fixed lengths, longer ones, and one of them short.
    fn check_lengths(&mut self, run: &mut Run, text: &[u8]) {
        for call in [Call::Parse, Call::Cue] {
            let turn = self.lending.calls;
            let mut longer = FIXED;
            longer.iter_mut().enumerate().for_each(|(table, length)| *length += (31 * turn + 17 * table) % MORE);
            let mut short = longer;
            short[turn % 13] = [FIXED[turn % 13] - 1, 0, FIXED[turn % 13] / 2][turn / 13 % 3];
            for lengths in [FIXED, longer, short] {
                self.check_with(run, call, text, &lengths, Care::All);
            }
        }
    }

    /// One question with tables of the fixed lengths: of every sixteenth short text, and of long ones, all cells are seen.
    fn check(&mut self, run: &mut Run, call: Call, text: &[u8]) {
        let all = self.lending.calls % 16 == 0 || text.len() > 3_000;
        self.check_with(run, call, text, &FIXED, if all { Care::All } else { Care::Near(text.len()) });
    }

    fn check_with(&mut self, run: &mut Run, call: Call, text: &[u8], lengths: &Lengths, care: Care) {
        let Some((answer, rust)) = self.must(run, call, text, lengths) else {
            return;
        };
        let port = self.lending.ask(call, text, lengths, care);
        let wrong = self.lending.wrong(lengths, care, &self.must);
        self.met[answer.0 as usize] += 1;
        let name = name(call);
        let input = Input(text);
        if *lengths == FIXED {
            run.same(name, format_args!("{input:?}"), Done { answer, wrong: None }, Done { answer: port, wrong });
        } else {
            let input = format_args!("{input:?} into tables of {lengths:?}");
            run.same(name, input, Done { answer, wrong: None }, Done { answer: port, wrong });
        }
        if let (Care::All, Some(rust)) = (care, rust) {
            let back = self.lending.handed().track().map(told);
            if back.as_ref() != Ok(&rust) {
                run.same("the track of the tables", format_args!("{name} {input:?}"), Ok(rust), back);
            }
        }
    }

    /// What the answer must be, in `must` the cells, and what the Rust gives if it is to be compared. `None` if document 01
    /// and the Rust differ, which counts as a difference.
    fn must(
        &mut self,
        run: &mut Run,
        call: Call,
        text: &[u8],
        lengths: &Lengths,
    ) -> Option<((u32, u32), Option<Told>)> {
        self.must.clear();
        if lengths.iter().zip(FIXED).any(|(&length, fixed)| length < fixed) {
            return Some(((1, 0), None));
        }
        let read = match rows::read_in(run, text)? {
            Ok(read) => read,
            Err(refusal) => return Some(((refusal.number, refusal.place as u32), None)),
        };
        let judged = judged(call, &read);
        let rust = match held(call, &read, &judged) {
            Ok(rust) => rust,
            Err([rust, said]) => {
                run.same("document 01", format_args!("{} {:?}", name(call), Input(text)), rust, said);
                return None;
            }
        };
        Some(match judged {
            Err(refusal) => ((refusal.number, refusal.place as u32), None),
            Ok(track) => {
                self.must.fill(&read, &track);
                ((0, 0), rust)
            }
        })
    }

    /// How often each number was the answer, in one line.
    fn told(&self) {
        let met: Vec<String> = (0..19).filter(|&n| self.met[n] > 0).map(|n| format!("{n} {}", self.met[n])).collect();
        println!("parse: numbers and how often: {}", met.join(", "));
    }
}

fn name(call: Call) -> &'static str {
    match call {
        Call::Parse => "parse",
        Call::Cue => "bytes_to_cue",
    }
}

/// One cue.
const ONE: &str = "<tt><body><p begin=\"1s\" dur=\"500ms\">A<br/>B</p></body></tt>";

fn bench(bench: &mut Bench) {
    deep(|| {
        let (tables, others) = (&mut Lending::new(), &mut Lending::new());
        for (name, text) in [("film", film(60_000)), ("short film", film(3_000)), ("one cue", ONE.to_string())] {
            row(bench, tables, Call::Parse, name, &text);
            bench.share(
                "clearing the tables",
                || others.time(Call::Parse, b"<tt/>"),
                || tables.time(Call::Parse, text.as_bytes()),
            );
        }
        let (long, one) = (format!("<p>{}", "A <span>b</span> c<br/>".repeat(1_300)), &ONE["<tt><body>".len()..]);
        row(bench, tables, Call::Cue, "a long cue", &long);
        row(bench, tables, Call::Cue, "one cue", one);
        bench.share(
            "clearing the tables",
            || others.time(Call::Cue, b"<p/>"),
            || tables.time(Call::Cue, one.as_bytes()),
        );
        for ((name, half), (_, whole)) in hostile(BYTES / 2).iter().zip(&hostile(BYTES)) {
            row(bench, tables, Call::Parse, name, half);
            row(bench, tables, Call::Parse, name, whole);
            bench.growth(|| others.time(Call::Parse, half.as_bytes()), || tables.time(Call::Parse, whole.as_bytes()));
        }
    });
}

/// Both sides on a text that neither turns away.
fn row(bench: &mut Bench, tables: &mut Lending, call: Call, name: &str, text: &str) {
    assert!(rust(call, text).is_some(), "the Rust errs on {name}");
    assert_eq!(tables.time(call, text.as_bytes()), 0, "{} differs on {name}", self::name(call));
    let both = format!("{}, {name}", self::name(call));
    match call {
        Call::Parse => {
            bench.row(&both, text.len(), || ttml::parse(text.as_bytes()).ok(), || tables.time(call, text.as_bytes()))
        }
        Call::Cue => bench.row(
            &both,
            text.len(),
            || access::bytes_to_cue(text.as_bytes()).ok(),
            || tables.time(call, text.as_bytes()),
        ),
    }
}
