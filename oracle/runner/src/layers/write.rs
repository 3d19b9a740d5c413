//! `write`, `cue_to_bytes` and `check_track` on handed tracks: those that the port's own `parse` left, those made at random, and
//! those whose cells were changed, of which `valid.rs` says whether they are tracks. The Rust writes what the tables mean.

use super::Layer;
use super::styles::{BREAKS, WHOLE};
use crate::bench::Bench;
use crate::compare::{Run, deep};
use crate::corners::corners;
use crate::document::BYTES;
use crate::films::{documents, film};
use crate::handed::{Handed, Lending};
use crate::hostile::hostile;
use crate::lending::{Call, Care, FIXED, Lending as Reading};
use crate::placed::{Cue, Placed, Segment, Track, Wrapper};
use crate::soil::soil;
use crate::tables::{Tables, marks, shown};
use crate::texts::any_document;
use crate::tracks::{Made, Wish, any_track};
use crate::valid::is_track;
use crate::writing::{Out, check_track, cue_to_bytes, write};
use reference::ir::SubtitleTrack;
use reference::ttml::{self, access};
use std::fmt::{self, Debug, Formatter};

pub const LAYER: Layer = Layer { name: "write", compare, record: None, bench: Some(bench) };

fn compare(run: &mut Run) {
    deep(|| {
        let side = &mut Side { reading: Reading::new(), tables: Tables::new(), asker: Asker(Out::default()) };
        for made in listed() {
            side.made(run, &made, true);
        }
        side.numbers(run);
        side.fonts(run);
        for text in corners().iter().chain(&documents()).chain(&[film(30_000), film(65_000)]) {
            side.parsed(run, text);
        }
        for n in 0..run.count / 4 {
            let wish = Wish { plain: n % 8 == 0, cues: [1, 3, 9][n % 3], deep: [1, 3, 8][n / 3 % 3] };
            let made = any_track(&mut run.rng, wish);
            side.made(run, &made, n % 64 == 0);
            for _ in 0..3 {
                side.changed(run);
            }
            if n % 8 == 0 {
                let text = any_document(&mut run.rng);
                side.parsed(run, &text);
            }
        }
    });
}

/// The tables that are handed to the port.
struct Side {
    reading: Reading,
    tables: Tables,
    asker: Asker,
}

/// The port's three functions, with the buffer that they are lent.
struct Asker(Out);

/// A track in a report: a long one is cut.
struct Input<'a>(&'a SubtitleTrack);

impl Debug for Input<'_> {
    fn fmt(&self, f: &mut Formatter) -> fmt::Result {
        let shown = shown(self.0);
        match shown.char_indices().nth(3_000) {
            Some((end, _)) => write!(f, "{} .., {} bytes", &shown[..end], shown.len()),
            None => write!(f, "{shown}"),
        }
    }
}

impl Asker {
    /// All questions about tables that mean this track, or none. The index of the cue takes turns.
    fn questions(&mut self, run: &mut Run, what: &str, t: &Handed, track: Option<&SubtitleTrack>) {
        let none = SubtitleTrack::default();
        let shown = Input(track.unwrap_or(&none));
        let input = format_args!("{what} {shown:?}");
        let told = check_track(t);
        run.same("check_track", input, track.map_or(17, |_| 0), told);
        let text = track.map(ttml::write);
        let must = text.as_deref().ok_or(17);
        let fits = must.map_or(40, <[u8]>::len);
        let turn = run.rng.below(64);
        let more = if turn == 0 { 70_000 } else { turn };
        let lengths = [fits, fits.saturating_sub(1), fits + more, if turn % 8 == 1 { 0 } else { fits / 2 }];
        self.0.same(run, "write", input, must, &lengths, |out| write(t, out));

        let cues = track.map_or(&[][..], |track| &track.cues);
        let index = if turn == 2 { usize::MAX } else { run.rng.below(cues.len() + 1) };
        let text = cues.get(index).map(access::cue_to_bytes);
        let must = text.as_deref().ok_or(17);
        let fits = must.map_or(40, <[u8]>::len);
        let input = format_args!("cue {index} of {what} {shown:?}");
        let lengths = [fits, fits.saturating_sub(1), fits + more];
        self.0.same(run, "cue_to_bytes", input, must, &lengths, |out| cue_to_bytes(t, index, out));
    }

    /// Each table without its last cell: 1, whatever else is wrong.
    fn short(&mut self, run: &mut Run, what: &str, tables: &Tables) {
        for table in 0..11 {
            let t = tables.handed(Lending::Short(table));
            let input = format_args!("{what}, table {table} short");
            run.same("check_track", input, 1, check_track(&t));
            self.0.same(run, "write", input, Err(1), &[0, 40, 70_000], |out| write(&t, out));
            self.0.same(run, "cue_to_bytes", input, Err(1), &[0, 40], |out| cue_to_bytes(&t, 9, out));
        }
    }
}

impl Side {
    /// A track made at random or listed; with unused cells filled too, if so asked.
    fn made(&mut self, run: &mut Run, made: &Made, soiled: bool) {
        let track = made.track.rust();
        let Side { tables, asker, .. } = self;
        tables.hold(&made.cells());
        if soiled {
            assert_eq!(shown(&track), shown(&tables.track().unwrap()), "the tables");
            assert!(is_track(&tables.handed(Lending::Fixed)));
            let mut filled = tables.clone();
            soil(&mut filled);
            asker.questions(run, "unused cells filled,", &filled.handed(Lending::Fixed), Some(&track));
            asker.questions(run, "longer tables,", &filled.handed(Lending::Longer), Some(&track));
        }
        asker.questions(run, "", &tables.handed(Lending::Fixed), Some(&track));
    }

    /// The tables that stand there, with one cell changed; then it is changed back.
    fn changed(&mut self, run: &mut Run) {
        let Side { tables, asker, .. } = self;
        let rng = &mut run.rng;
        let table = rng.pick(&[0, 0, 1, 2, 2, 3, 4, 4, 6, 6, 6, 7, 8, 8, 9, 10]);
        let used = tables.used(table);
        if used > 0 {
            let at = rng.below(used);
            let is = tables.cell(table, at);
            let value = match rng.below(8) {
                0 => is + 1,
                1 => is - 1,
                2 if table >= 9 => rng.pick(&[b' ', b'=', b'>', b'/', b'\t', b'\n', b'\r', b'a']) as i64,
                2 => {
                    rng.pick(&[64, 65, 256, 257, 2_048, 8_192, 8_193, 16_384, 16_385, 65_536, 65_537, u32::MAX as i64])
                }
                3 => (rng.next() >> rng.below(64)) as i64,
                4 => is ^ 1 << rng.below(32),
                _ => rng.below(12) as i64,
            };
            tables.set(table, at, value);
            let handed = tables.handed(Lending::Fixed);
            let track = is_track(&handed).then(|| handed.track().unwrap());
            let what = format!("table {table} cell {at} from {is} to {value},");
            asker.questions(run, &what, &handed, track.as_ref());
            tables.set(table, at, is);
        }
    }

    /// What the port's `parse` left of a text, if there is no number.
    fn parsed(&mut self, run: &mut Run, text: &str) {
        if text.contains('\r') || text.starts_with('\u{FEFF}') {
            return;
        }
        let care = Care::Near(text.len());
        if self.reading.ask(Call::Parse, text.as_bytes(), &FIXED, care) == (0, 0) {
            let track = ttml::parse(text.as_bytes()).expect("the port gave a track");
            self.asker.questions(run, "parsed,", &self.reading.handed(), Some(&track));
        }
    }

    /// 1 and 17, and which of two comes first.
    fn numbers(&mut self, run: &mut Run) {
        let track = ttml::parse(WHOLE.as_bytes()).unwrap();
        let mut whole = Tables::new();
        whole.lay(&track).unwrap();
        self.asker.questions(run, "whole,", &whole.handed(Lending::Fixed), Some(&track));
        for (what, break_it) in BREAKS {
            let mut tables = whole.clone();
            break_it(&mut tables);
            assert!(!is_track(&tables.handed(Lending::Fixed)), "{what}");
            self.asker.questions(run, what, &tables.handed(Lending::Fixed), None);
            self.asker.short(run, what, &tables);
        }
        self.asker.short(run, "whole", &whole);
    }

    /// The cells of a font, with each part of its marks at and past its limits.
    fn fonts(&mut self, run: &mut Run) {
        let inside = vec![Segment::Text(Placed { place: 0, string: "a".into() })];
        let track = font(None, None, inside);
        let Side { tables, asker, .. } = self;
        tables.hold(&Made { track, strings: "é".into(), texts: "a".into() }.cells());
        let spelled = (0..4).flat_map(|sign| (0..16).flat_map(move |scale| DIGITS.map(|digits| [sign, digits, scale])));
        for [sign, digits, scale] in spelled {
            let value: f32 = format!("{digits}e-{scale}").parse().unwrap();
            let bits = if sign == 2 { -value } else { value }.to_bits();
            for bits in [bits, bits ^ 1, bits ^ 1 << 31, 0, f32::NAN.to_bits()] {
                for [flag, place, length] in FAMILIES {
                    let marks = marks(flag, [sign, digits, scale]);
                    tables.segments[2..6].copy_from_slice(&[place, length, marks, bits]);
                    let handed = tables.handed(Lending::Fixed);
                    let track = is_track(&handed).then(|| handed.track().unwrap());
                    let what = format!("a font of {place} {length}, marks {marks}, bits {bits:#x},");
                    asker.questions(run, &what, &handed, track.as_ref());
                }
            }
        }
    }
}

/// Whole numbers at which the rules of a size's digits change, and the most that its marks have room for.
const DIGITS: [u32; 12] = [0, 1, 5, 10, 99, 100, 123_456, 999_990, 999_999, 1_000_000, 1_000_001, (1 << 25) - 1];
/// Families in the string `é`: flag, place and length.
const FAMILIES: [[u32; 3]; 7] = [[0, 0, 0], [0, 60_000, 9], [1, 0, 0], [1, 0, 2], [1, 2, 0], [1, 0, 1], [1, 3, 0]];

/// Tracks at the limits of nesting, counts and bytes, and empty ones.
pub fn listed() -> Vec<Made> {
    let made = |track: Track, strings: String, texts: String| Made { track, strings, texts };
    let mut tracks = vec![made(Track::default(), String::new(), String::new())];
    for depth in [1, 2, 100, 511, 512] {
        for last in [0, 1, 2] {
            tracks.push(made(nested(depth, last), "é".into(), "a".into()));
        }
    }
    // Times whose halves are at their ends, and sizes that are zero or as long as they may be.
    let times = [i64::MIN, -1 << 32, -1, 0, 1, (1 << 31) - 1, 1 << 31, (1 << 32) - 1, 1 << 32, 1 << 62, i64::MAX];
    let timestamps = times.map(Segment::Timestamp).into();
    tracks.push(made(Track { cues: vec![cue(1, timestamps)], ..Track::default() }, String::new(), String::new()));
    for size in [None, Some(0.0), Some(-0.0), Some(-0.5), Some(999_999.0), Some(1e-10), Some(-9.99999e-5)] {
        for family in [None, Some(""), Some("é")] {
            let family = family.map(|family| Placed { place: 0, string: family.into() });
            tracks.push(made(font(family, size, vec![Segment::Break, Segment::Break]), "é".into(), String::new()));
        }
    }
    // The written text has about 65,536 bytes.
    let bare =
        ttml::write(&Track { lang: Some(Placed { place: 0, string: String::new() }), ..Track::default() }.rust()).len();
    for string in ["a", "&", "\"", "é", "日"] {
        let each = ttml::write(&lang(string, 1).0.rust()).len() - bare;
        for many in (BYTES - bare) / each - 2..(BYTES - bare) / each + 3 {
            let (track, strings) = lang(string, many);
            tracks.push(made(track, strings, String::new()));
        }
    }
    // Cues that just fit, and as many rows as there are.
    for cues in [1, 1_000, 1_150, 1_200, 1_300, 2_048] {
        let track = Track { cues: (0..cues).map(|at| cue(at, Vec::new())).collect(), ..Track::default() };
        tracks.push(made(track, String::new(), String::new()));
    }
    for breaks in [100, 12_000, 16_383, 16_384] {
        let segments = (0..breaks).map(|_| Segment::Break).collect();
        let track = Track { cues: vec![cue(1, segments)], ..Track::default() };
        tracks.push(made(track, String::new(), String::new()));
    }
    tracks
}

fn lang(string: &str, many: usize) -> (Track, String) {
    let string = string.repeat(many);
    (Track { lang: Some(Placed { place: 0, string: string.clone() }), ..Track::default() }, string)
}

fn cue(at: i64, segments: Vec<Segment>) -> Cue {
    Cue { start: at, end: -at, style: None, region: None, preserve: false, segments, extras: Vec::new() }
}

/// A font as all that a cue has.
fn font(family: Option<Placed>, size: Option<f32>, inside: Vec<Segment>) -> Track {
    Track { cues: vec![cue(1, vec![Segment::Wrapper(Wrapper::Font { family, size }, inside)])], ..Track::default() }
}

/// Wrappers in one another, so many in all with what is innermost.
fn nested(depth: usize, last: usize) -> Track {
    let text = || Segment::Text(Placed { place: 0, string: "a".into() });
    let mut segments = match last {
        0 => vec![Segment::Wrapper(Wrapper::Bold, Vec::new())],
        1 => vec![text(), Segment::Break],
        _ => vec![Segment::Timestamp(1), text(), Segment::Timestamp(2)],
    };
    for at in 1..depth {
        let wrapper = match at % 4 {
            0 => Wrapper::Italic,
            1 => Wrapper::Strike,
            2 => Wrapper::Font { family: Some(Placed { place: 0, string: "é".into() }), size: Some(1.5) },
            _ => Wrapper::Color([at as u8; 3]),
        };
        segments = vec![Segment::Wrapper(wrapper, segments)];
    }
    Track { cues: vec![cue(1, segments)], ..Track::default() }
}

fn bench(bench: &mut Bench) {
    deep(|| {
        for (name, text) in [
            ("film", film(60_000)),
            ("short film", film(3_000)),
            ("one cue", "<tt><body><p begin='1s'>A<br/>B".to_string()),
        ] {
            row(bench, name, &text);
        }
        for ((name, half), (_, whole)) in hostile(20_000).iter().zip(&hostile(40_000)) {
            let (small, large) = (row(bench, name, half), row(bench, name, whole));
            let (mut first, mut second) = (vec![0; BYTES], vec![0; BYTES]);
            bench.growth(
                || write(&small.handed(Lending::Fixed), &mut first),
                || write(&large.handed(Lending::Fixed), &mut second),
            );
        }
    });
}

/// Both sides on the track of a text, and on its first cue; gives the tables.
fn row(bench: &mut Bench, name: &str, text: &str) -> Tables {
    let track = ttml::parse(text.as_bytes()).unwrap();
    let mut tables = Tables::new();
    tables.lay(&track).unwrap();
    let handed = tables.handed(Lending::Fixed);
    let (written, cue) = (ttml::write(&track), access::cue_to_bytes(&track.cues[0]));
    // As many bytes as are needed: what is left over would be cleared.
    let mut out = vec![0; written.len()];
    assert!(written.len() > BYTES || write(&handed, &mut out) >> 32 == written.len() as u64, "write differs on {name}");
    assert_eq!(cue_to_bytes(&handed, 0, &mut out) >> 32, cue.len() as u64, "cue_to_bytes differs on {name}");
    bench.row(&format!("write, {name}"), written.len(), || ttml::write(&track), || write(&handed, &mut out));
    let first = &track.cues[0];
    let mut out = vec![0; cue.len()];
    bench.row(
        &format!("cue_to_bytes, {name}"),
        cue.len(),
        || access::cue_to_bytes(first),
        || cue_to_bytes(&handed, 0, &mut out),
    );
    tables
}
