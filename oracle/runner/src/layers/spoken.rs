//! `plain_text` on handed tables. Of a track, what a cue says is told by the nesting of its segments, as the Rust has them; of
//! any tables by their rows, as `crates/spoken/specs/Promise` says it, written here apart from the port.

use super::Layer;
use super::styles::{BREAKS, WHOLE};
use super::write::listed;
use crate::bench::Bench;
use crate::compare::{Run, deep};
use crate::corners::corners;
use crate::films::{documents, film};
use crate::handed::{Handed, Lending};
use crate::lending::{Call, Care, FIXED, Lending as Reading};
use crate::soil::soil;
use crate::tables::{BYTES, SEGMENTS, Tables};
use crate::texts::any_document;
use crate::tracks::{Wish, any_track};
use crate::valid::is_track;
use crate::writing::{Out, plain_text};
use reference::ir::{Segment, SubtitleTrack};
use reference::ttml;

pub const LAYER: Layer = Layer { name: "spoken", compare, record: None, bench: Some(bench) };

const CUES: usize = 2_048;

/// What segments say.
fn nested(segments: &[Segment], out: &mut String) {
    for segment in segments {
        match segment {
            Segment::Text(text) => out.push_str(text),
            Segment::LineBreak => out.push('\n'),
            Segment::Bold(children)
            | Segment::Italic(children)
            | Segment::Underline(children)
            | Segment::Strike(children)
            | Segment::Color { children, .. }
            | Segment::Font { children, .. } => nested(children, out),
            _ => {}
        }
    }
}

/// What the rows of a cue say, or the number that is met. Of a text that is longer than any buffer a beginning.
fn by_rows(t: &Handed, index: usize) -> Result<Vec<u8>, u32> {
    let short =
        t.head.len() < 10 || t.cues.len() < 11 * CUES || t.segments.len() < 6 * SEGMENTS || t.texts.len() < BYTES;
    if short {
        return Err(1);
    }
    if index >= CUES.min(t.head[3] as usize) {
        return Err(17);
    }
    let [first, count] = [7, 8].map(|cell| t.cues[11 * index + cell] as usize);
    if first + count > SEGMENTS {
        return Err(17);
    }
    let mut said = Vec::new();
    for row in t.segments[6 * first..6 * (first + count)].chunks(6) {
        let (place, end) = (row[2] as usize, row[2] as usize + row[3] as usize);
        match row[0] {
            1 if end > BYTES => return Err(17),
            1 if said.len() <= BYTES => said.extend_from_slice(&t.texts[place..end]),
            2 => said.push(b'\n'),
            _ => {}
        }
    }
    Ok(said)
}

fn compare(run: &mut Run) {
    deep(|| {
        let side = &mut Side { reading: Reading::new(), tables: Tables::new(), out: Out::default() };
        for made in listed() {
            side.tables.hold(&made.cells());
            side.all(run, &made.track.rust());
        }
        side.numbers(run);
        side.edges(run);
        for text in corners().iter().chain(&documents()).chain(&[film(30_000), film(65_000)]) {
            side.parsed(run, text);
        }
        for n in 0..run.count / 8 {
            let wish = Wish { plain: n % 8 == 0, cues: [1, 3, 9][n % 3], deep: [1, 3, 8][n / 3 % 3] };
            let made = any_track(&mut run.rng, wish);
            side.tables.hold(&made.cells());
            if n % 64 == 0 {
                side.all(run, &made.track.rust());
            } else {
                side.one(run, &made.track.rust());
            }
            for _ in 0..2 {
                side.changed(run);
            }
            if n % 8 == 0 {
                let text = any_document(&mut run.rng);
                side.parsed(run, &text);
            }
        }
    });
}

struct Side {
    reading: Reading,
    tables: Tables,
    out: Out,
}

/// A question with buffers that just fit, with a byte less, with more, and with none; the index takes turns if none is said.
fn ask(out: &mut Out, run: &mut Run, what: &str, t: &Handed, index: usize, must: Result<&[u8], u32>) {
    let fits = must.map_or(40, <[u8]>::len).min(BYTES);
    let turn = run.rng.below(256);
    let more = if turn == 0 { 70_000 } else { turn };
    let lengths = [fits, fits.saturating_sub(1), fits + more, if turn % 8 == 1 { 0 } else { fits / 2 }];
    let input = format_args!("cue {index}, {what} {:?}", must.map(|text| &text[..text.len().min(400)]));
    out.same(run, "plain_text", input, must, &lengths, |out| plain_text(t, index, out));
}

/// A cue of a track, of these tables that hold it, or past its end.
fn of_track(out: &mut Out, run: &mut Run, what: &str, t: &Handed, track: &SubtitleTrack, index: usize) {
    let said = track.cues.get(index).map(|cue| {
        let mut said = String::new();
        nested(&cue.segments, &mut said);
        said.into_bytes()
    });
    let must = said.as_deref().ok_or(17);
    let rows = by_rows(t, index);
    if must.map_or(0, <[u8]>::len) <= BYTES {
        run.same("by_rows", format_args!("cue {index}, {what}"), must, rows.as_deref().map_err(|&number| number));
    }
    ask(out, run, what, t, index, must);
}

impl Side {
    /// One cue of the track that the tables hold, or an index past its end.
    fn one(&mut self, run: &mut Run, track: &SubtitleTrack) {
        let index = if run.rng.below(64) == 0 { usize::MAX } else { run.rng.below(track.cues.len() + 1) };
        of_track(&mut self.out, run, "", &self.tables.handed(Lending::Fixed), track, index);
    }

    /// The first cues and one past the end, also with unused cells filled, with longer tables, and with each too short.
    fn all(&mut self, run: &mut Run, track: &SubtitleTrack) {
        let Side { tables, out, .. } = self;
        let mut filled = tables.clone();
        soil(&mut filled);
        let past = track.cues.len();
        for index in (0..past.min(12)).chain([past.saturating_sub(1), past, past + 1, CUES, usize::MAX]) {
            of_track(out, run, "", &tables.handed(Lending::Fixed), track, index);
            of_track(out, run, "unused cells filled,", &filled.handed(Lending::Fixed), track, index);
            of_track(out, run, "longer tables,", &filled.handed(Lending::Longer), track, index);
        }
        self.short(run, "");
    }

    /// Each table that is looked at without its last cell: 1. The others are not looked at.
    fn short(&mut self, run: &mut Run, what: &str) {
        for table in 0..11 {
            let t = self.tables.handed(Lending::Short(table));
            let rows = by_rows(&t, 0);
            assert_eq!(rows == Err(1), [0, 4, 6, 10].contains(&table));
            let must = rows.as_deref().map_err(|&number| number);
            ask(&mut self.out, run, &format!("{what} table {table} short,"), &t, 0, must);
        }
    }

    /// The tables that stand there, with one cell changed that the call may look at; then it is changed back.
    fn changed(&mut self, run: &mut Run) {
        let rng = &mut run.rng;
        let table = rng.pick(&[0, 4, 4, 6, 6, 6, 10]);
        let used = self.tables.used(table);
        if used > 0 {
            let mut at = rng.below(used);
            match table {
                0 => at = rng.pick(&[3, 3, 4, 9]),
                4 if rng.below(4) > 0 => at = at / 11 * 11 + rng.pick(&[7, 8]),
                6 if rng.below(2) > 0 => at = at / 6 * 6 + rng.pick(&[0, 2, 3]),
                _ => {}
            }
            let is = self.tables.cell(table, at);
            let value = match rng.below(6) {
                0 => is + 1,
                1 => is - 1,
                2 => rng.pick(&[2_047, 2_048, 2_049, 16_383, 16_384, 16_385, 65_535, 65_536, 65_537, u32::MAX as i64]),
                3 => (rng.next() >> rng.below(64)) as i64,
                4 => is ^ 1 << rng.below(32),
                _ => rng.below(12) as i64,
            };
            self.tables.set(table, at, value);
            let t = self.tables.handed(Lending::Fixed);
            let index = match rng.below(4) {
                0 => rng.pick(&[0, 1, 2_047, 2_048, t.head[3] as usize]),
                _ if table == 4 => at / 11,
                _ => rng.below(self.tables.used(4) / 11 + 1),
            };
            let what = format!("table {table} cell {at} from {is} to {value},");
            if is_track(&t) {
                of_track(&mut self.out, run, &what, &t, &t.track().unwrap(), index);
            } else {
                let rows = by_rows(&t, index);
                ask(&mut self.out, run, &what, &t, index, rows.as_deref().map_err(|&number| number));
            }
            self.tables.set(table, at, is);
        }
    }

    /// What the port's `parse` left of a text, if there is no number: each cue.
    fn parsed(&mut self, run: &mut Run, text: &str) {
        if text.contains('\r') || text.starts_with('\u{FEFF}') {
            return;
        }
        if self.reading.ask(Call::Parse, text.as_bytes(), &FIXED, Care::Near(text.len())) == (0, 0) {
            let track = ttml::parse(text.as_bytes()).expect("the port gave a track");
            for index in 0..track.cues.len() + 1 {
                of_track(&mut self.out, run, "parsed,", &self.reading.handed(), &track, index);
            }
        }
    }

    /// Tables that are no track, for many reasons: the call looks at few of them.
    fn numbers(&mut self, run: &mut Run) {
        let track = ttml::parse(WHOLE.as_bytes()).unwrap();
        self.tables.lay(&track).unwrap();
        self.all(run, &track);
        let whole = self.tables.clone();
        for (what, break_it) in BREAKS {
            self.tables = whole.clone();
            break_it(&mut self.tables);
            for index in [0, 1, 2, 2_047, 2_048, usize::MAX] {
                let t = self.tables.handed(Lending::Fixed);
                let rows = by_rows(&t, index);
                ask(&mut self.out, run, what, &t, index, rows.as_deref().map_err(|&number| number));
            }
            self.short(run, what);
        }
    }

    /// Every pair of a cue's rows, of a text's place and length, and of a count and an index, at and past the tables' ends.
    fn edges(&mut self, run: &mut Run) {
        const ROWS: [u32; 9] = [0, 1, 2, 8_192, 16_382, 16_383, 16_384, 16_385, u32::MAX];
        const PLACES: [u32; 9] = [0, 1, 2, 32_768, 65_534, 65_535, 65_536, 65_537, u32::MAX];
        const INDICES: [usize; 7] = [0, 1, 2_046, 2_047, 2_048, 4_294_967_295, usize::MAX];
        let tables = &mut self.tables;
        *tables = Tables::new();
        for (at, byte) in tables.texts.iter_mut().enumerate() {
            *byte = b'a' + (at % 26) as u8;
        }
        for kind in [0, 1, 2, 3, 9, 10, u32::MAX] {
            for (row, cells) in tables.segments.chunks_exact_mut(6).enumerate() {
                cells.copy_from_slice(&[[kind, 2, 1][row % 3], 1, row as u32, (row % 7) as u32, 0, 0]);
            }
            for count in [0, 1, 2_047, 2_048, 2_049, u32::MAX] {
                tables.head[3] = count;
                for index in INDICES {
                    for first in ROWS {
                        for rows in ROWS {
                            if index < CUES {
                                tables.cues[11 * index + 7..][..2].copy_from_slice(&[first, rows]);
                            }
                            let t = tables.handed(Lending::Longer);
                            let must = by_rows(&t, index);
                            let what = format!("rows {first} {rows}, {count} cues, kind {kind},");
                            ask(&mut self.out, run, &what, &t, index, must.as_deref().map_err(|&number| number));
                            if index >= CUES.min(count as usize) && first > 1 {
                                break;
                            }
                        }
                    }
                }
            }
        }
        tables.head[3] = 1;
        tables.cues[7..9].copy_from_slice(&[16_381, 3]);
        for [first, second, third] in places() {
            let cells = &mut tables.segments[6 * 16_381..];
            cells[..6].copy_from_slice(&[1, 1, PLACES[first], PLACES[second], 0, 0]);
            cells[6..12].copy_from_slice(&[[2, 1, 4][third % 3], 1, PLACES[third], 2, 0, 0]);
            cells[12..18].copy_from_slice(&[1, 1, PLACES[third], PLACES[first], 0, 0]);
            let t = tables.handed(Lending::Longer);
            let must = by_rows(&t, 0);
            let what = format!("texts at {:?}", [first, second, third].map(|at| PLACES[at]));
            ask(&mut self.out, run, &what, &t, 0, must.as_deref().map_err(|&number| number));
        }
    }
}

fn places() -> impl Iterator<Item = [usize; 3]> {
    (0..9).flat_map(|one| (0..9).flat_map(move |two| (0..9).map(move |three| [one, two, three])))
}

fn bench(bench: &mut Bench) {
    deep(|| {
        let cues = |count: usize| format!("<tt><body>{}", "<p>Rook<br/>to d8.</p>".repeat(count));
        row(bench, "film", &tables(&film(60_000)));
        row(bench, "1,024 cues", &tables(&cues(1_024)));
        row(bench, "2,048 cues", &tables(&cues(2_048)));
        let [half, whole] = [1_024, 2_048].map(|count| tables(&cues(count)));
        let (mut first, mut second) = (vec![0; BYTES], vec![0; BYTES]);
        let (few, all) = (half.handed(Lending::Fixed), whole.handed(Lending::Fixed));
        let (half, whole) = (lengths(&few), lengths(&all));
        bench.growth(|| each(&few, &half, &mut first), || each(&all, &whole, &mut second));
        // No track: the check would turn it away, and this call does not make it.
        let mut worst = Tables::new();
        worst.head[3] = CUES as u32;
        worst.cues.chunks_mut(11).take(CUES).for_each(|row| row[8] = SEGMENTS as u32);
        worst.segments.chunks_exact_mut(6).for_each(|row| row[..4].copy_from_slice(&[1, 1, 0, 4]));
        row(bench, "2,048 cues that share 16,384 texts", &worst);
    });
}

fn tables(text: &str) -> Tables {
    let mut tables = Tables::new();
    tables.lay(&ttml::parse(text.as_bytes()).unwrap()).unwrap();
    tables
}

/// How many bytes each cue says.
fn lengths(t: &Handed) -> Vec<usize> {
    (0..t.head[3] as usize).map(|index| by_rows(t, index).unwrap().len()).collect()
}

/// The port on each cue, lent as many bytes as it needs; how many bytes in all.
fn each(t: &Handed, lengths: &[usize], out: &mut [u8]) -> u64 {
    (0..).zip(lengths).map(|(index, &length)| plain_text(t, index, &mut out[..length]) >> 32).sum()
}

/// The same in plain Rust, into a buffer that is reused.
fn each_here(t: &Handed, out: &mut Vec<u8>) -> u64 {
    let mut sum = 0;
    for cue in t.cues.chunks(11).take(t.head[3] as usize) {
        out.clear();
        for row in t.segments[6 * cue[7] as usize..6 * (cue[7] + cue[8]) as usize].chunks(6) {
            match row[0] {
                1 => out.extend_from_slice(&t.texts[row[2] as usize..(row[2] + row[3]) as usize]),
                2 => out.push(b'\n'),
                _ => {}
            }
        }
        sum += out.len() as u64;
    }
    sum
}

/// What every cue of the tables says.
fn row(bench: &mut Bench, name: &str, tables: &Tables) {
    let t = &tables.handed(Lending::Fixed);
    let lengths = lengths(t);
    let bytes = lengths.iter().sum();
    let (mut text, mut out) = (Vec::with_capacity(BYTES), vec![0; BYTES]);
    assert_eq!([each_here(t, &mut text), each(t, &lengths, &mut out)], [bytes as u64; 2], "{name}");
    let name = format!("plain_text, {name}");
    bench.row(&name, bytes, || each_here(t, &mut text), || each(t, &lengths, &mut out));
}
