//! A track in the port's eleven tables as it is handed over, and read back as the Rust's track.

use crate::extras::{INLINE, Names, REGION, STYLE, join};
use crate::tables::{
    ALIGNS, CUES, LENGTHS, MORE, PARAMS, REGIONS, SEGMENT_COUNT, STRINGS, STYLE_COUNT, TEXTS, font, spelling,
};
use reference::ir::{Segment, SubtitleCue, SubtitleStyle, SubtitleTrack};

/// The tables, in the order in which they are passed.
#[derive(Clone, Copy)]
pub struct Handed<'a> {
    pub head: &'a [u32],
    pub params: &'a [u32],
    pub styles: &'a [u32],
    pub regions: &'a [u32],
    pub cues: &'a [u32],
    pub times: &'a [i64],
    pub segments: &'a [u32],
    pub sizes: &'a [f32],
    pub extras: &'a [u32],
    pub strings: &'a [u8],
    pub texts: &'a [u8],
}

/// How the eleven tables are lent.
#[derive(Clone, Copy, Debug, PartialEq)]
pub enum Lending {
    Fixed,
    /// With some cells behind them.
    Longer,
    /// This one lacks its last cell.
    Short(usize),
}

/// A table as it is lent.
pub fn lent<C>(table: &[C], number: usize, lending: Lending) -> &[C] {
    match lending {
        Lending::Fixed => &table[..LENGTHS[number]],
        Lending::Longer => &table[..LENGTHS[number] + MORE],
        Lending::Short(short) => &table[..LENGTHS[number] - (number == short) as usize],
    }
}

/// Reading back. What no track has is an error, in words.
pub type Back<A> = Result<A, String>;

impl Handed<'_> {
    /// The Rust's track of these tables: `lay` read backwards. Its metadata stands in the order of the Rust's `parse`.
    pub fn track(&self) -> Back<SubtitleTrack> {
        let mut track = SubtitleTrack::default();
        let metadata = &mut track.metadata;
        metadata.push(("source_format".into(), "ttml".into()));
        if let Some(lang) = self.optional_at(&self.head[5..8])? {
            metadata.push(("xml:lang".into(), lang));
        }
        for row in rows(self.params, 4, self.head[PARAMS])? {
            metadata.push((format!("ttml_param.{}", self.string_at(row)?), self.string_at(&row[2..])?));
        }
        for (at, row) in rows(self.styles, 27, self.head[STYLE_COUNT])?.enumerate() {
            let style = self.style_at(at, row)?;
            let (extras, chain) = (self.extras_at(&row[25..], STYLE)?, self.string_at(&row[2..])?);
            if !extras.is_empty() {
                metadata.push((format!("ttml_style_extra.{}", style.name), extras));
            }
            if !chain.is_empty() {
                metadata.push((format!("ttml_style_ref.{}", style.name), chain));
            }
            track.styles.push(style);
        }
        for row in rows(self.regions, 4, self.head[REGIONS])? {
            metadata.push((format!("ttml_region.{}", self.string_at(row)?), self.extras_at(&row[2..], REGION)?));
        }
        let mut segment = 0;
        for (at, row) in rows(self.cues, 11, self.head[CUES])?.enumerate() {
            let end = segment + row[8] as usize;
            track.cues.push(SubtitleCue {
                start_us: self.times[2 * at],
                end_us: self.times[2 * at + 1],
                style_ref: self.optional_at(row)?,
                positioning: None,
                segments: self.segments_to(end.min(self.head[SEGMENT_COUNT] as usize), &mut segment)?,
            });
            if let Some(region) = self.optional_at(&row[3..])? {
                metadata.push((format!("ttml_cue_region.{at}"), region));
            }
            let extras = self.extras_at(&row[9..], INLINE)?;
            if !extras.is_empty() {
                metadata.push((format!("ttml_p_extra.{at}"), extras));
            }
            if row[6] == 1 {
                metadata.push((format!("ttml_cue_xml_space.{at}"), "preserve".into()));
            }
        }
        Ok(track)
    }

    fn style_at(&self, at: usize, row: &[u32]) -> Back<SubtitleStyle> {
        let mut style = SubtitleStyle::new(self.string_at(row)?);
        style.primary_color = color_at(&row[4..]);
        style.back_color = color_at(&row[9..]);
        style.font_family = self.optional_at(&row[14..])?;
        style.font_size = size_of(&row[17..20], self.sizes[at])?;
        [style.bold, style.italic, style.underline, style.strike] = [20, 21, 22, 23].map(|cell| row[cell] == 1);
        style.align = *ALIGNS.get(row[24] as usize).ok_or(format!("alignment {}", row[24]))?;
        Ok(style)
    }

    /// The segments from a row to another.
    fn segments_to(&self, end: usize, at: &mut usize) -> Back<Vec<Segment>> {
        let mut segments = Vec::new();
        while *at < end {
            let here = *at;
            let row = &self.segments[6 * here..6 * here + 6];
            *at += 1;
            let last = here + row[1] as usize;
            if last <= here || end < last {
                return Err(format!("segment {here} has {} rows", row[1]));
            }
            let children = self.segments_to(last, at)?;
            segments.push(match row[0] {
                1 => Segment::Text(string_in(self.texts, self.head[TEXTS], &row[2..])?),
                2 => Segment::LineBreak,
                3 => Segment::Timestamp { offset_us: (row[3] as i32 as i64) << 32 | row[2] as i64 },
                4 => Segment::Bold(children),
                5 => Segment::Italic(children),
                6 => Segment::Underline(children),
                7 => Segment::Strike(children),
                8 => Segment::Color { rgb: (row[2] as u8, row[3] as u8, row[4] as u8), children },
                9 => {
                    let (family, size, value) = font(&row[2..]);
                    Segment::Font { family: self.optional_at(&family)?, size: size_of(&size, value)?, children }
                }
                kind => return Err(format!("segment {here} has kind {kind}")),
            });
        }
        Ok(segments)
    }

    fn extras_at(&self, row: &[u32], names: Names) -> Back<String> {
        let (first, count) = (row[0] as usize, row[1] as usize);
        let rows = self.extras.get(3 * first..3 * (first + count)).ok_or(format!("extras {first} {count}"))?;
        let pairs: Back<Vec<_>> = rows.chunks(3).map(|row| Ok((row[0] as usize, self.string_at(&row[1..])?))).collect();
        join(&pairs?, names).ok_or(format!("extras {first} {count} are not in their order"))
    }

    fn string_at(&self, span: &[u32]) -> Back<String> {
        string_in(self.strings, self.head[STRINGS], span)
    }

    fn optional_at(&self, cells: &[u32]) -> Back<Option<String>> {
        if cells[0] == 1 { self.string_at(&cells[1..]).map(Some) } else { Ok(None) }
    }
}

/// A size of which these are sign, digits and scale.
fn size_of(cells: &[u32], value: f32) -> Back<Option<f32>> {
    match cells[0] {
        0 => Ok(None),
        _ if spelling(value).as_ref().map(|spelling| &spelling[..]) == Some(cells) => Ok(Some(value)),
        _ => Err(format!("size {value} is spelled {cells:?}")),
    }
}

/// So many rows of a table.
fn rows(table: &[u32], width: usize, count: u32) -> Back<impl Iterator<Item = &[u32]>> {
    let rows = table.get(..width * count as usize).ok_or(format!("{count} rows of {width}"))?;
    Ok(rows.chunks(width))
}

fn string_in(bytes: &[u8], used: u32, span: &[u32]) -> Back<String> {
    let (place, length) = (span[0] as usize, span[1] as usize);
    let string = bytes[..used as usize].get(place..place + length).and_then(|bytes| str::from_utf8(bytes).ok());
    string.map(String::from).ok_or(format!("no string {place} {length}"))
}

fn color_at(cells: &[u32]) -> Option<(u8, u8, u8, u8)> {
    let [r, g, b, a] = [1, 2, 3, 4].map(|cell| cells[cell] as u8);
    (cells[0] == 1).then_some((r, g, b, a))
}
