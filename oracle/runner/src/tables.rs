//! The port's eleven tables of a track (docs/TABLES.md): laid out from the Rust's track, or holding given cells.

use crate::cells::Cells;
use crate::extras::{INLINE, Names, REGION, STYLE, split};
use crate::handed::{Back, Handed, Lending, lent};
use crate::record::hex;
use reference::ir::{Segment, SubtitleTrack, TextAlign};
use std::collections::HashMap;

pub const STYLES: usize = 256;
pub const SEGMENTS: usize = 16_384;
pub const BYTES: usize = 65_536;

/// The fixed lengths, in the order in which the tables are passed.
pub const LENGTHS: [usize; 11] =
    [10, 4 * 64, 27 * STYLES, 4 * 256, 11 * 2_048, 2 * 2_048, 6 * SEGMENTS, STYLES, 3 * 8_192, BYTES, BYTES];

/// So many cells more stand behind them, to be lent or not.
pub const MORE: usize = 9;

#[derive(Clone)]
pub struct Tables {
    pub head: Vec<u32>,
    pub params: Vec<u32>,
    pub styles: Vec<u32>,
    pub regions: Vec<u32>,
    pub cues: Vec<u32>,
    pub times: Vec<i64>,
    pub segments: Vec<u32>,
    pub sizes: Vec<f32>,
    pub extras: Vec<u32>,
    pub strings: Vec<u8>,
    pub texts: Vec<u8>,
    /// How many rows of extras are laid out.
    rows: usize,
}

/// Why a track is not one for the tables: a count or a size past its limit, or metadata that no document makes.
#[derive(Debug)]
pub struct Unfit(#[allow(dead_code)] pub &'static str); // it is printed

type Laid<A> = Result<A, Unfit>;

/// The places of counts in the head.
pub const PARAMS: usize = 0;
pub const STYLE_COUNT: usize = 1;
pub const REGIONS: usize = 2;
pub const CUES: usize = 3;
pub const SEGMENT_COUNT: usize = 4;
pub const STRINGS: usize = 8;
pub const TEXTS: usize = 9;

/// A string that is absent.
const NONE: [u32; 3] = [0; 3];

impl Tables {
    pub fn new() -> Tables {
        let [head, params, styles, regions, cues, times, segments, sizes, extras, strings, texts] =
            LENGTHS.map(|length| length + MORE);
        Tables {
            head: vec![0; head],
            params: vec![0; params],
            styles: vec![0; styles],
            regions: vec![0; regions],
            cues: vec![0; cues],
            times: vec![0; times],
            segments: vec![0; segments],
            sizes: vec![0.0; sizes],
            extras: vec![0; extras],
            strings: vec![0; strings],
            texts: vec![0; texts],
            rows: 0,
        }
    }

    pub fn handed(&self, lending: Lending) -> Handed<'_> {
        Handed {
            head: lent(&self.head, 0, lending),
            params: lent(&self.params, 1, lending),
            styles: lent(&self.styles, 2, lending),
            regions: lent(&self.regions, 3, lending),
            cues: lent(&self.cues, 4, lending),
            times: lent(&self.times, 5, lending),
            segments: lent(&self.segments, 6, lending),
            sizes: lent(&self.sizes, 7, lending),
            extras: lent(&self.extras, 8, lending),
            strings: lent(&self.strings, 9, lending),
            texts: lent(&self.texts, 10, lending),
        }
    }

    /// These cells, and zeros. What stood in the tables before is cleared, where it was laid out or held.
    pub fn hold(&mut self, cells: &Cells) {
        self.clear();
        copy(&mut self.head, &cells.head);
        copy(&mut self.params, &cells.params);
        copy(&mut self.styles, &cells.styles);
        copy(&mut self.regions, &cells.regions);
        copy(&mut self.cues, &cells.cues);
        copy(&mut self.times, &cells.times);
        copy(&mut self.segments, &cells.segments);
        copy(&mut self.sizes, &cells.sizes);
        copy(&mut self.extras, &cells.extras);
        copy(&mut self.strings, &cells.tree.strings);
        copy(&mut self.texts, &cells.texts);
        self.rows = cells.extras.len() / 3;
    }

    /// A cell of the table of this number, a float by its bits; and the cell changed.
    pub fn cell(&self, table: usize, at: usize) -> i64 {
        match table {
            5 => self.times[at],
            7 => self.sizes[at].to_bits() as i64,
            9 => self.strings[at] as i64,
            10 => self.texts[at] as i64,
            _ => self.words(table)[at] as i64,
        }
    }

    pub fn set(&mut self, table: usize, at: usize, value: i64) {
        match table {
            5 => self.times[at] = value,
            7 => self.sizes[at] = f32::from_bits(value as u32),
            9 => self.strings[at] = value as u8,
            10 => self.texts[at] = value as u8,
            0 => self.head[at] = value as u32,
            1 => self.params[at] = value as u32,
            2 => self.styles[at] = value as u32,
            3 => self.regions[at] = value as u32,
            4 => self.cues[at] = value as u32,
            6 => self.segments[at] = value as u32,
            _ => self.extras[at] = value as u32,
        }
    }

    fn words(&self, table: usize) -> &[u32] {
        match table {
            0 => &self.head,
            1 => &self.params,
            2 => &self.styles,
            3 => &self.regions,
            4 => &self.cues,
            6 => &self.segments,
            _ => &self.extras,
        }
    }

    /// How many cells of a table are used.
    pub fn used(&self, table: usize) -> usize {
        let count = |at: usize| self.head[at] as usize;
        match table {
            0 => 10,
            1 => 4 * count(PARAMS),
            2 => 27 * count(STYLE_COUNT),
            3 => 4 * count(REGIONS),
            4 => 11 * count(CUES),
            5 => 2 * count(CUES),
            6 => 6 * count(SEGMENT_COUNT),
            7 => count(STYLE_COUNT),
            8 => 3 * self.rows,
            9 => count(STRINGS),
            _ => count(TEXTS),
        }
    }

    /// The Rust's track of these tables.
    pub fn track(&self) -> Back<SubtitleTrack> {
        self.handed(Lending::Fixed).track()
    }

    /// The tables of a track as the Rust's `parse` makes it. What stood in them before is cleared.
    pub fn lay(&mut self, track: &SubtitleTrack) -> Laid<()> {
        self.clear();
        if let Some(lang) = track.metadata.iter().find(|(key, _)| key == "xml:lang") {
            let lang = self.optional(Some(&lang.1))?;
            self.head[5..8].copy_from_slice(&lang);
        }
        for (name, value) in with(track, "ttml_param.") {
            let row = self.row(PARAMS, 64, "parameters")?;
            let cells = [self.string(name)?, self.string(value)?].concat();
            self.params[4 * row..4 * row + 4].copy_from_slice(&cells);
        }
        self.lay_styles(track)?;
        for (id, attrs) in with(track, "ttml_region.") {
            let row = self.row(REGIONS, 256, "regions")?;
            let cells = [self.string(id)?, self.lay_extras(attrs, REGION)?].concat();
            self.regions[4 * row..4 * row + 4].copy_from_slice(&cells);
        }
        self.lay_cues(track)
    }

    /// Styles of equal names share what the metadata has for that name: the first that can have it gets it.
    fn lay_styles(&mut self, track: &SubtitleTrack) -> Laid<()> {
        let mut kept = track
            .metadata
            .iter()
            .filter(|(key, _)| key.starts_with("ttml_style_extra.") || key.starts_with("ttml_style_ref."))
            .peekable();
        for style in &track.styles {
            let row = self.row(STYLE_COUNT, STYLES, "styles")?;
            let mut own = |prefix| kept.next_if(|(key, _)| key.strip_prefix(prefix) == Some(&style.name));
            let (extras, chain) = (own("ttml_style_extra."), own("ttml_style_ref."));
            let mut cells = self.string(&style.name)?.to_vec();
            cells.extend(self.string(chain.map_or("", |(_, chain)| chain))?);
            cells.extend(color(style.primary_color));
            cells.extend(color(style.back_color));
            cells.extend(self.optional(style.font_family.as_deref())?);
            cells.extend(measure(style.font_size)?);
            self.sizes[row] = style.font_size.unwrap_or(0.0);
            cells.extend([style.bold, style.italic, style.underline, style.strike].map(u32::from));
            cells.push(align(style.align));
            cells.extend(self.lay_extras(extras.map_or("", |(_, extras)| extras), STYLE)?);
            self.styles[27 * row..27 * row + 27].copy_from_slice(&cells);
        }
        if kept.peek().is_some() { Err(Unfit("metadata of no style")) } else { Ok(()) }
    }

    fn lay_cues(&mut self, track: &SubtitleTrack) -> Laid<()> {
        let by_cue = |prefix: &'static str| {
            let mut values = HashMap::new();
            for (index, value) in with(track, prefix) {
                values.entry(index.to_string()).or_insert(value);
            }
            move |cue: usize| values.get(&cue.to_string()).copied()
        };
        let (regions, extras) = (by_cue("ttml_cue_region."), by_cue("ttml_p_extra."));
        let spaces = by_cue("ttml_cue_xml_space.");
        for cue in &track.cues {
            let row = self.row(CUES, 2_048, "cues")?;
            let mut cells = self.optional(cue.style_ref.as_deref())?.to_vec();
            cells.extend(self.optional(regions(row))?);
            cells.push((spaces(row) == Some("preserve")) as u32);
            let first = self.head[SEGMENT_COUNT];
            for segment in &cue.segments {
                self.lay_segment(segment)?;
            }
            cells.extend([first, self.head[SEGMENT_COUNT] - first]);
            cells.extend(self.lay_extras(extras(row).unwrap_or(""), INLINE)?);
            self.cues[11 * row..11 * row + 11].copy_from_slice(&cells);
            self.times[2 * row..2 * row + 2].copy_from_slice(&[cue.start_us, cue.end_us]);
        }
        Ok(())
    }

    fn lay_segment(&mut self, segment: &Segment) -> Laid<()> {
        let row = self.row(SEGMENT_COUNT, SEGMENTS, "segments")?;
        let (kind, data, children): (u32, Vec<u32>, &[Segment]) = match segment {
            Segment::Text(text) => (1, self.text(text)?.to_vec(), &[]),
            Segment::LineBreak => (2, vec![], &[]),
            Segment::Timestamp { offset_us } => (3, halves(*offset_us).to_vec(), &[]),
            Segment::Bold(children) => (4, vec![], children),
            Segment::Italic(children) => (5, vec![], children),
            Segment::Underline(children) => (6, vec![], children),
            Segment::Strike(children) => (7, vec![], children),
            Segment::Color { rgb: (r, g, b), children } => (8, [*r, *g, *b].map(u32::from).to_vec(), children),
            Segment::Font { family, size, children } => {
                let [flag, place, length] = self.optional(family.as_deref())?;
                let bits = size.unwrap_or(0.0).to_bits();
                (9, vec![place, length, marks(flag, measure(*size)?), bits], children)
            }
            _ => return Err(Unfit("a segment that the reader never makes")),
        };
        for child in children {
            self.lay_segment(child)?;
        }
        let cells = &mut self.segments[6 * row..6 * row + 6];
        cells[0] = kind;
        cells[1] = self.head[SEGMENT_COUNT] - row as u32;
        cells[2..2 + data.len()].copy_from_slice(&data);
        Ok(())
    }

    fn lay_extras(&mut self, joined: &str, names: Names) -> Laid<[u32; 2]> {
        let first = self.rows;
        for (number, value) in split(joined, names).ok_or(Unfit("extras"))? {
            if self.rows == 8_192 {
                return Err(Unfit("extras"));
            }
            let cells = [&[number as u32][..], &self.string(&value)?].concat();
            self.extras[3 * self.rows..3 * self.rows + 3].copy_from_slice(&cells);
            self.rows += 1;
        }
        Ok([first, self.rows - first].map(|n| n as u32))
    }

    /// One more row, if there is one.
    fn row(&mut self, count: usize, most: usize, what: &'static str) -> Laid<usize> {
        let row = self.head[count] as usize;
        if row == most {
            return Err(Unfit(what));
        }
        self.head[count] += 1;
        Ok(row)
    }

    fn string(&mut self, string: &str) -> Laid<[u32; 2]> {
        append(&mut self.strings, &mut self.head[STRINGS], string)
    }

    fn text(&mut self, text: &str) -> Laid<[u32; 2]> {
        append(&mut self.texts, &mut self.head[TEXTS], text)
    }

    fn optional(&mut self, string: Option<&str>) -> Laid<[u32; 3]> {
        let Some(string) = string else { return Ok(NONE) };
        let [place, length] = self.string(string)?;
        Ok([1, place, length])
    }

    /// As lines of a recording: a letter and the cells of a table, `f` for a size, `z` for the strings.
    pub fn lines(&self, mut line: impl FnMut(&str)) {
        let mut table = |letter: char, cells: &[u32]| {
            if !cells.is_empty() {
                let numbers: Vec<String> = cells.iter().map(u32::to_string).collect();
                line(&format!("{letter} {}", numbers.join(" ")));
            }
        };
        let used = |count: usize| self.head[count] as usize;
        table('h', &self.head[..LENGTHS[0]]);
        table('p', &self.params[..4 * used(PARAMS)]);
        table('s', &self.styles[..27 * used(STYLE_COUNT)]);
        table('r', &self.regions[..4 * used(REGIONS)]);
        table('c', &self.cues[..11 * used(CUES)]);
        table('e', &self.extras[..3 * self.rows]);
        for row in (0..used(STYLE_COUNT)).filter(|row| self.styles[27 * row + 17] > 0) {
            line(&format!("f {row} {}", self.sizes[row].to_bits()));
        }
        line(&format!("z {}", hex(&self.strings[..used(STRINGS)])));
    }

    /// All cells that were laid out.
    fn clear(&mut self) {
        let used = |count: usize, width: usize| 0..self.head[count] as usize * width;
        let (params, styles, regions) = (used(PARAMS, 4), used(STYLE_COUNT, 27), used(REGIONS, 4));
        let (cues, times, segments) = (used(CUES, 11), used(CUES, 2), used(SEGMENT_COUNT, 6));
        let (sizes, strings, texts) = (used(STYLE_COUNT, 1), used(STRINGS, 1), used(TEXTS, 1));
        self.params[params].fill(0);
        self.styles[styles].fill(0);
        self.regions[regions].fill(0);
        self.cues[cues].fill(0);
        self.times[times].fill(0);
        self.segments[segments].fill(0);
        self.sizes[sizes].fill(0.0);
        self.strings[strings].fill(0);
        self.texts[texts].fill(0);
        self.extras[..3 * self.rows].fill(0);
        self.head.fill(0);
        self.rows = 0;
    }
}

/// What the metadata has under keys that begin so, with the rest of the key.
pub fn with<'a>(track: &'a SubtitleTrack, prefix: &'a str) -> impl Iterator<Item = (&'a str, &'a str)> {
    track.metadata.iter().filter_map(move |(key, value)| Some((key.strip_prefix(prefix)?, value.as_str())))
}

fn copy<C: Copy>(table: &mut [C], cells: &[C]) {
    table[..cells.len()].copy_from_slice(cells);
}

fn append(bytes: &mut [u8], used: &mut u32, string: &str) -> Laid<[u32; 2]> {
    let place = *used as usize;
    let room = bytes[..BYTES].get_mut(place..place + string.len()).ok_or(Unfit("strings"))?;
    room.copy_from_slice(string.as_bytes());
    *used += string.len() as u32;
    Ok([place, string.len()].map(|n| n as u32))
}

/// Sign, digits and scale of what `{}` prints, if they are within the limits.
pub fn spelling(value: f32) -> Option<[u32; 3]> {
    let printed = format!("{value}");
    let number = printed.trim_start_matches('-');
    let (whole, behind) = number.split_once('.').unwrap_or((number, ""));
    let digits: u32 = format!("{whole}{behind}").parse().ok()?;
    let sign = 1 + (number.len() < printed.len()) as u32;
    (digits <= 999_999 && behind.len() <= 10).then_some([sign, digits, behind.len() as u32])
}

fn measure(size: Option<f32>) -> Laid<[u32; 3]> {
    size.map_or(Ok(NONE), |value| spelling(value).ok_or(Unfit("a size")))
}

/// A timestamp's two cells: the low and the high half of its bits.
pub fn halves(us: i64) -> [u32; 2] {
    [us as u32, (us >> 32) as u32]
}

/// A font's cell 4: whether it has a family, and the sign, the digits and the scale of its size.
pub fn marks(family: u32, [sign, digits, scale]: [u32; 3]) -> u32 {
    family | sign << 1 | scale << 3 | digits << 7
}

/// The cells of a font after its kind and its rows, as others have them: the family's flag, place and length; sign, digits and scale; the
/// size's f32.
pub fn font(cells: &[u32]) -> ([u32; 3], [u32; 3], f32) {
    let marks = cells[2];
    ([marks & 1, cells[0], cells[1]], [marks >> 1 & 3, marks >> 7, marks >> 3 & 15], f32::from_bits(cells[3]))
}

fn color(color: Option<(u8, u8, u8, u8)>) -> [u32; 5] {
    color.map_or([0; 5], |(r, g, b, a)| [1, r as u32, g as u32, b as u32, a as u32])
}

pub const ALIGNS: [TextAlign; 5] =
    [TextAlign::Start, TextAlign::Center, TextAlign::End, TextAlign::Left, TextAlign::Right];

pub fn align(align: TextAlign) -> u32 {
    ALIGNS.iter().position(|&one| one == align).unwrap() as u32
}

/// A track in words, all but its source and the text that it was read from: equal exactly if the tracks are the same.
pub fn shown(track: &SubtitleTrack) -> String {
    format!("{:?}\n{:?}\n{:?}", track.styles, track.cues, track.metadata)
}
