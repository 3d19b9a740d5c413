//! The port's three queries asked, and its answers in the terms of the Rust.

use crate::reach::Question;
use crate::handed::{Handed, Lending};
use crate::tables::{Tables, align, spelling};
use reference::ir::SubtitleStyle;

/// What a query answers.
#[derive(Clone, Debug, PartialEq)]
pub enum Outcome {
    /// Document 01's number.
    Number(u32),
    Found {
        style: Option<Style>,
        ids: Vec<String>,
    },
}

/// A style, its size by the bits of its f32 and by its spelling: sign, digits and scale.
#[derive(Clone, Debug, PartialEq)]
pub struct Style {
    name: String,
    color: Option<[u8; 4]>,
    back: Option<[u8; 4]>,
    family: Option<String>,
    size: Option<(u32, Option<[u32; 3]>)>,
    /// Bold, italic, underline, strike.
    flags: [bool; 4],
    align: u32,
}

impl Style {
    pub fn of(style: SubtitleStyle) -> Style {
        Style {
            name: style.name,
            color: style.primary_color.map(<[u8; 4]>::from),
            back: style.back_color.map(<[u8; 4]>::from),
            family: style.font_family,
            size: style.font_size.map(|value| (value.to_bits(), spelling(value))),
            flags: [style.bold, style.italic, style.underline, style.strike],
            align: align(style.align),
        }
    }
}

impl Outcome {
    /// As a recording has it: the program that replays it says how.
    pub fn bytes(&self) -> Vec<u8> {
        let string = |string: &str| [&(string.len() as u16).to_be_bytes(), string.as_bytes()].concat();
        let part = |part: Option<Vec<u8>>| part.map_or(vec![0], |part| [vec![1], part].concat());
        let Outcome::Found { style, ids } = self else {
            let Outcome::Number(number) = self else { unreachable!() };
            return vec![*number as u8, 0];
        };
        let mut bytes = vec![0, style.is_some() as u8];
        if let Some(style) = style {
            let size = style.size.map(|(bits, spelling)| {
                let [sign, digits, scale] = spelling.unwrap();
                [&[sign as u8][..], &digits.to_be_bytes(), &[scale as u8], &bits.to_be_bytes()].concat()
            });
            bytes.extend(string(&style.name));
            bytes.extend(part(style.color.map(Vec::from)));
            bytes.extend(part(style.back.map(Vec::from)));
            bytes.extend(part(style.family.as_ref().map(|family| string(family))));
            bytes.extend(part(size));
            bytes.extend(style.flags.map(u8::from));
            bytes.push(style.align as u8);
        }
        bytes.extend((ids.len() as u16).to_be_bytes());
        bytes.extend(ids.iter().flat_map(|id| string(id)));
        bytes.push(1);
        bytes
    }
}

/// Lends a table of ids with a guarded area around it.
#[derive(Default)]
pub struct Asker {
    ids: Vec<u32>,
}

const FILL: u32 = 0xA5A5_5A5A;
const GUARD: usize = 16;
/// The cells of an answer: `pg_resolve_referenced_style` says which.
pub const OUT: usize = 27;

/// What the port may not answer, in words.
type Told<A> = Result<A, String>;

impl Asker {
    /// Asks with a table of ids of so many cells.
    pub fn ask(&mut self, tables: &Tables, lending: Lending, question: &Question, lent: usize) -> Told<Outcome> {
        let whole = lent + 2 * GUARD;
        self.ids.resize(whole.max(self.ids.len()), FILL);
        self.ids[..whole].fill(FILL);
        let mut out = [u64::MAX; OUT + 2];
        let mut size = [f32::MAX; 2];
        let ids = &mut self.ids[GUARD..GUARD + lent];
        let number = call(tables, lending, question, ids, &mut out[..OUT], &mut size[..1]);
        if self.ids[..GUARD].iter().chain(&self.ids[GUARD + lent..whole]).any(|&cell| cell != FILL)
            || out[OUT..] != [u64::MAX; 2]
            || size[1] != f32::MAX
        {
            return Err("wrote outside".to_string());
        }
        let ids = &self.ids[GUARD..GUARD + lent];
        if number > 0 {
            let clear = ids.iter().all(|&cell| cell == 0) && out[..OUT] == [0; OUT] && size[0].to_bits() == 0;
            return if clear { Ok(Outcome::Number(number)) } else { Err(format!("{number}, and not all cells are zero")) };
        }
        let text = match question {
            Question::Value(text) | Question::Region(text) => text,
            Question::Cue(_) => &[][..],
        };
        let style = told_style(&out[..OUT], size[0], text, &tables.strings)?;
        let ids = told_ids(ids, out[2] as usize, text, &tables.strings)?;
        Ok(Outcome::Found { style, ids })
    }

    /// The same for its time alone, with a table of so many cells that is not filled: the number.
    pub fn time(&mut self, tables: &Tables, question: &Question, lent: usize) -> u32 {
        self.ids.resize(lent.max(self.ids.len()), 0);
        call(tables, Lending::Fixed, question, &mut self.ids[..lent], &mut [0; OUT], &mut [0.0])
    }
}

fn call(
    tables: &Tables,
    lending: Lending,
    question: &Question,
    ids: &mut [u32],
    out: &mut [u64],
    size: &mut [f32],
) -> u32 {
    let Handed { head, params, styles, regions, cues, times, segments, sizes, extras, strings, texts } =
        tables.handed(lending);
    let told = match question {
        Question::Value(value) => port::pg_resolve_referenced_style(
            value, head, params, styles, regions, cues, times, segments, sizes, extras, strings, texts, ids, out, size,
        ),
        Question::Region(id) => port::pg_region_style(
            id, head, params, styles, regions, cues, times, segments, sizes, extras, strings, texts, ids, out, size,
        ),
        Question::Cue(index) => port::pg_effective_style_for_cue_index(
            head, params, styles, regions, cues, times, segments, sizes, extras, strings, texts, *index, ids, out, size,
        ),
    };
    told as u32
}

fn told_style(out: &[u64], size: f32, text: &[u8], strings: &[u8]) -> Told<Option<Style>> {
    if out[0] != 0 {
        return Err(format!("a place without a number: {out:?}"));
    }
    match out[1] {
        0 if out[3..].iter().all(|&cell| cell == 0) && size.to_bits() == 0 => return Ok(None),
        1 => {}
        _ => return Err(format!("no style, or cells that are not zero: {out:?}")),
    }
    let family = told_part(&out[15..18])?.map(|span| string(strings, span[0], span[1])).transpose()?;
    let measure = told_part(&out[18..22])?;
    if measure.is_none() && size.to_bits() != 0 {
        return Err(format!("no size, but {size}"));
    }
    let size = measure.map(|cells| (size.to_bits(), Some([1 + cells[0], cells[1], cells[2]].map(|cell| cell as u32))));
    let flags = [22, 23, 24, 25].map(|cell| out[cell]);
    if flags.iter().any(|&flag| flag > 1) {
        return Err(format!("flags {flags:?}"));
    }
    Ok(Some(Style {
        name: string(text, out[3], out[4])?,
        color: told_part(&out[5..10])?.map(channels),
        back: told_part(&out[10..15])?.map(channels),
        family,
        size,
        flags: flags.map(|flag| flag == 1),
        align: out[26] as u32,
    }))
}

/// A flag and its cells, which are zero if it is not set.
fn told_part(cells: &[u64]) -> Told<Option<&[u64]>> {
    match cells {
        [1, part @ ..] => Ok(Some(part)),
        [0, part @ ..] if part.iter().all(|&cell| cell == 0) => Ok(None),
        _ => Err(format!("a part that is absent and not zero: {cells:?}")),
    }
}

fn channels(cells: &[u64]) -> [u8; 4] {
    [cells[0], cells[1], cells[2], cells[3]].map(|cell| cell as u8)
}

/// So many rows, and zeros behind them.
fn told_ids(cells: &[u32], count: usize, text: &[u8], strings: &[u8]) -> Told<Vec<String>> {
    let (rows, rest) = cells.split_at_checked(4 * count).ok_or(format!("{count} ids in {} cells", cells.len()))?;
    if rest.iter().any(|&cell| cell != 0) {
        return Err("cells behind the ids are not zero".to_string());
    }
    let id = |row: &[u32]| match *row {
        [0, place, length, 0] => string(text, place as u64, length as u64),
        [1, place, length, 0] => string(strings, place as u64, length as u64),
        _ => Err(format!("a row of ids {row:?}")),
    };
    rows.chunks(4).map(id).collect()
}

fn string(bytes: &[u8], place: u64, length: u64) -> Told<String> {
    let (place, length) = (place as usize, length as usize);
    let string = bytes.get(place..place + length).and_then(|bytes| str::from_utf8(bytes).ok());
    string.map(String::from).ok_or(format!("no string {place} {length}"))
}
