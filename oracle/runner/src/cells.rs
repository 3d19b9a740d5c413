//! The cells of the thirteen tables that `parse` and `bytes_to_cue` must leave: docs/TABLES.md. Of each table the cells up to
//! the last that is not zero by necessity; all behind them are zero.

use crate::placed::{Cue, Extras, Placed, Segment, Style, Track, Wrapper};
use crate::rows::{Read, Rows};
use crate::sum::{Sum, unsigned};
use crate::tables::{SEGMENTS, align, halves, marks, spelling};

#[derive(Default)]
pub struct Cells {
    pub tree: Rows,
    pub head: Vec<u32>,
    pub params: Vec<u32>,
    pub styles: Vec<u32>,
    pub regions: Vec<u32>,
    pub cues: Vec<u32>,
    pub times: Vec<i64>,
    pub segments: Vec<u32>,
    pub sizes: Vec<f32>,
    pub extras: Vec<u32>,
    pub texts: Vec<u8>,
}

impl Cells {
    pub fn clear(&mut self) {
        self.tree.clear();
        for table in [
            &mut self.head, &mut self.params, &mut self.styles, &mut self.regions, &mut self.cues, &mut self.segments,
            &mut self.extras,
        ] {
            table.clear();
        }
        self.times.clear();
        self.sizes.clear();
        self.texts.clear();
    }

    /// The tables of a text that has this tree and means this track.
    pub fn fill(&mut self, read: &Read, track: &Track) {
        self.clear();
        self.tree.fill(read);
        self.track(track, read.text.len(), read.text.len());
    }

    /// Those of the track alone, where so many bytes of strings and of texts are used.
    pub fn track(&mut self, track: &Track, strings: usize, texts: usize) {
        self.texts.resize(texts, 0);
        for (name, value) in &track.params {
            self.params.extend([span(name), span(value)].concat());
        }
        for style in &track.styles {
            self.style(style);
        }
        for region in &track.regions {
            let extras = self.rows(&region.extras);
            self.regions.extend([span(&region.id), extras].concat());
        }
        for cue in &track.cues {
            self.cue(cue);
        }
        let counts = [track.params.len(), track.styles.len(), track.regions.len(), track.cues.len()];
        self.head.extend(counts.map(|count| count as u32));
        self.head.push(self.count());
        self.head.extend(optional(&track.lang));
        self.head.extend([strings as u32, texts as u32]);
    }

    /// How many segments there are.
    fn count(&self) -> u32 {
        self.segments.len() as u32 / 6
    }

    /// What a recording has in the place of all cells: `sum.rs`. `sizes` are left out: their spelling stands in the rows of styles.
    pub fn sum(&self) -> u32 {
        let mut sum = Sum::default();
        for table in
            [&self.tree.nodes, &self.tree.attrs, &self.head, &self.params, &self.styles, &self.regions, &self.cues]
        {
            sum.table(table.iter().map(|&cell| cell as u64));
        }
        sum.table(self.times.iter().map(|&us| unsigned(us)));
        sum.table(self.segments.iter().map(|&cell| cell as u64));
        sum.table(self.extras.iter().map(|&cell| cell as u64));
        sum.table(self.tree.strings.iter().map(|&byte| byte as u64));
        sum.table(self.texts.iter().map(|&byte| byte as u64));
        sum.0 as u32
    }

    fn style(&mut self, style: &Style) {
        let color = |color: Option<[u8; 4]>| color.map_or([0; 5], |[r, g, b, a]| [1, r, g, b, a].map(u32::from));
        let row = self.styles.len();
        self.styles.extend(span(&style.name));
        self.styles.extend(style.chain.as_ref().map_or([0; 2], span));
        self.styles.extend(color(style.color));
        self.styles.extend(color(style.back));
        self.styles.extend(optional(&style.family));
        self.styles.extend(measure(style.size));
        self.styles.extend(style.flags.map(u32::from));
        self.styles.push(align(style.align));
        let extras = self.rows(&style.extras);
        self.styles.extend(extras);
        assert_eq!(self.styles.len(), row + 27);
        self.sizes.push(style.size.unwrap_or(0.0));
    }

    fn cue(&mut self, cue: &Cue) {
        self.times.extend([cue.start, cue.end]);
        let first = self.count();
        for segment in &cue.segments {
            self.segment(segment);
        }
        self.cues.extend(optional(&cue.style));
        self.cues.extend(optional(&cue.region));
        self.cues.push(cue.preserve as u32);
        self.cues.extend([first, self.count() - first]);
        let extras = self.rows(&cue.extras);
        self.cues.extend(extras);
    }

    fn segment(&mut self, segment: &Segment) {
        let row = self.count();
        assert!(row < SEGMENTS as u32, "no text has so many segments");
        self.segments.extend([0; 6]);
        let (kind, data) = match segment {
            Segment::Text(text) => {
                self.texts[text.place..text.place + text.string.len()].copy_from_slice(text.string.as_bytes());
                let [place, length] = span(text);
                (1, [place, length, 0, 0])
            }
            Segment::Break => (2, [0; 4]),
            Segment::Timestamp(us) => {
                let [low, high] = halves(*us);
                (3, [low, high, 0, 0])
            }
            Segment::Wrapper(wrapper, inside) => {
                for child in inside {
                    self.segment(child);
                }
                cells_of(wrapper)
            }
        };
        let rows = self.count() - row;
        let cells = &mut self.segments[6 * row as usize..][..6];
        cells[..2].copy_from_slice(&[kind, rows]);
        cells[2..].copy_from_slice(&data);
    }

    /// The first row of these, and how many. "The first row of a list without extras is 0."
    fn rows(&mut self, extras: &Extras) -> [u32; 2] {
        if extras.is_empty() {
            return [0; 2];
        }
        let first = self.extras.len() as u32 / 3;
        for (number, value) in extras {
            let [place, length] = span(value);
            self.extras.extend([*number as u32, place, length]);
        }
        [first, extras.len() as u32]
    }
}

/// The kind of a wrapper and its data.
fn cells_of(wrapper: &Wrapper) -> (u32, [u32; 4]) {
    match wrapper {
        Wrapper::Bold => (4, [0; 4]),
        Wrapper::Italic => (5, [0; 4]),
        Wrapper::Underline => (6, [0; 4]),
        Wrapper::Strike => (7, [0; 4]),
        Wrapper::Color(rgb) => {
            let [r, g, b] = rgb.map(u32::from);
            (8, [r, g, b, 0])
        }
        Wrapper::Font { family, size } => {
            let [flag, place, length] = optional(family);
            (9, [place, length, marks(flag, measure(*size)), size.unwrap_or(0.0).to_bits()])
        }
    }
}

fn span(placed: &Placed) -> [u32; 2] {
    [placed.place, placed.string.len()].map(|n| n as u32)
}

/// "What is absent has place 0 and length 0."
fn optional(placed: &Option<Placed>) -> [u32; 3] {
    let Some(placed) = placed else { return [0; 3] };
    let [place, length] = span(placed);
    [1, place, length]
}

/// Sign, digits and scale.
fn measure(size: Option<f32>) -> [u32; 3] {
    size.map_or([0; 3], |value| spelling(value).expect("a size within the limits"))
}
