//! Which tables are a track: document 01's number 17, as docs/TABLES.md says it of cells, written apart from the port.

use crate::extras::{INLINE, Names, REGION, STYLE};
use crate::handed::Handed;
use crate::tables::{SEGMENTS, font, spelling};

/// "Segments 16,384, nested 512 (a cue's own segments are nested 1)."
const NESTED: usize = 512;
const MOST: [u32; 5] = [64, 256, 256, 2_048, SEGMENTS as u32];
const BYTES: u32 = 65_536;
const EXTRAS: u64 = 8_192;

/// The used part of a table of bytes.
struct Used<'a>(&'a str);

impl Used<'_> {
    /// It stands within the used bytes and between characters.
    fn span(&self, cells: &[u32]) -> bool {
        let (place, end) = (cells[0] as usize, cells[0] as usize + cells[1] as usize);
        self.0.is_char_boundary(place) && self.0.is_char_boundary(end)
    }

    fn optional(&self, cells: &[u32]) -> bool {
        cells[0] == 0 || cells[0] == 1 && self.span(&cells[1..])
    }
}

fn used(bytes: &[u8], count: u32) -> Option<Used<'_>> {
    str::from_utf8(bytes.get(..count as usize).filter(|_| count <= BYTES)?).ok().map(Used)
}

/// Are the tables, which are long enough, a track?
pub fn is_track(t: &Handed) -> bool {
    let counts = &t.head[..5];
    if counts.iter().zip(MOST).any(|(&count, most)| count > most) {
        return false;
    }
    let (Some(strings), Some(texts)) = (used(t.strings, t.head[8]), used(t.texts, t.head[9])) else { return false };
    let [params, styles, regions, cues] = [0, 1, 2, 3].map(|at| counts[at] as usize);
    strings.optional(&t.head[5..8])
        && t.params.chunks(4).take(params).all(|row| is_param(row, &strings))
        && t.styles.chunks(27).take(styles).enumerate().all(|(at, row)| is_style(t, at, row, &strings))
        && t.regions.chunks(4).take(regions).all(|row| strings.span(row) && has_extras(t, &row[2..], REGION, &strings))
        && are_cues(t, cues, &strings, &texts)
}

fn is_param(row: &[u32], strings: &Used) -> bool {
    let name = || &strings.0[row[0] as usize..(row[0] + row[1]) as usize];
    strings.span(row) && strings.span(&row[2..]) && !name().contains([' ', '\t', '\n', '\r', '=', '>', '/'])
}

fn is_style(t: &Handed, at: usize, row: &[u32], strings: &Used) -> bool {
    let color = |cells: &[u32]| cells[0] == 0 || cells[0] == 1 && cells[1..5].iter().all(|&channel| channel < 256);
    strings.span(row)
        && strings.span(&row[2..])
        && color(&row[4..])
        && color(&row[9..])
        && strings.optional(&row[14..])
        && is_size(&row[17..], t.sizes[at])
        && row[20..24].iter().all(|&flag| flag < 2)
        && row[24] < 5
        && has_extras(t, &row[25..], STYLE, strings)
}

/// "A size spelling past the digit limits or not what `{}` prints for its f32."
fn is_size(cells: &[u32], value: f32) -> bool {
    cells[0] == 0 || spelling(value).is_some_and(|spelling| spelling == cells[..3])
}

/// "Extras out of their listed order or twice."
fn has_extras(t: &Handed, rows: &[u32], names: Names, strings: &Used) -> bool {
    let (first, count) = (rows[0] as u64, rows[1] as u64);
    if first + count > EXTRAS {
        return false;
    }
    let rows = &t.extras[3 * first as usize..3 * (first + count) as usize];
    let numbers: Vec<u32> = rows.chunks(3).map(|row| row[0]).collect();
    numbers.is_sorted_by(|one, next| one < next)
        && numbers.iter().all(|&number| (number as usize) < names.len())
        && rows.chunks(3).all(|row| strings.span(&row[1..]))
}

fn are_cues(t: &Handed, count: usize, strings: &Used, texts: &Used) -> bool {
    let all = t.head[4] as usize;
    let mut next = 0;
    for row in t.cues.chunks(11).take(count) {
        let many = row[8] as usize;
        let good = strings.optional(row)
            && strings.optional(&row[3..])
            && row[6] < 2
            && row[7] as usize == next
            && next + many <= all
            && has_extras(t, &row[9..], INLINE, strings)
            && are_segments(t, next..next + many, strings, texts);
        if !good {
            return false;
        }
        next += many;
    }
    next == all
}

/// Do these rows form a tree? Each ends within the one that is open.
fn are_segments(t: &Handed, rows: std::ops::Range<usize>, strings: &Used, texts: &Used) -> bool {
    let mut open = vec![rows.end];
    for at in rows {
        while open.last() == Some(&at) {
            open.pop();
        }
        let row = &t.segments[6 * at..6 * at + 6];
        let end = at.saturating_add(row[1] as usize);
        if open.len() > NESTED
            || end <= at
            || open.last().is_none_or(|&last| end > last)
            || !is_segment(row, strings, texts)
        {
            return false;
        }
        open.push(end);
    }
    true
}

fn is_segment(row: &[u32], strings: &Used, texts: &Used) -> bool {
    match row[0] {
        1 => row[1] == 1 && texts.span(&row[2..]),
        2 | 3 => row[1] == 1,
        4..=7 => true,
        8 => row[2..5].iter().all(|&channel| channel < 256),
        9 => {
            let (family, size, value) = font(&row[2..]);
            strings.optional(&family) && is_size(&size, value)
        }
        _ => false,
    }
}
