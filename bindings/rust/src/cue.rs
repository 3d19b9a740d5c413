//! Cues and their segments.

use crate::library;
use crate::names::CUE;
use crate::refusal::{Refusal, told};
use crate::style::{self, Size};
use crate::tables::{BYTES, Tables, hand};
use crate::{Extras, Resolved, Track};
use std::fmt;

/// A cue of a [`Track`].
#[derive(Clone, Copy)]
pub struct Cue<'t> {
    pub(crate) track: Track<'t>,
    pub(crate) index: usize,
}

impl<'t> Cue<'t> {
    /// Its row.
    fn cells(self) -> &'t [u32] {
        &self.track.tables.cues[11 * self.index..][..11]
    }

    /// Its index among the cues.
    pub fn index(self) -> usize {
        self.index
    }

    /// When it begins, in microseconds; it may be below zero.
    pub fn begin(self) -> i64 {
        self.track.tables.times[2 * self.index]
    }

    /// When it ends, in microseconds.
    pub fn end(self) -> i64 {
        self.track.tables.times[2 * self.index + 1]
    }

    /// The attribute `style` of its p.
    pub fn style(self) -> Option<&'t str> {
        self.track.tables.optional(self.cells())
    }

    /// The attribute `region` of its p.
    pub fn region(self) -> Option<&'t str> {
        self.track.tables.optional(&self.cells()[3..])
    }

    /// Whether xml:space is preserve.
    pub fn preserves_space(self) -> bool {
        self.cells()[6] != 0
    }

    /// Its content.
    pub fn segments(self) -> Segments<'t> {
        let [first, count] = [7, 8].map(|cell| self.cells()[cell] as usize);
        Segments { tables: self.track.tables, row: first, end: first + count }
    }

    /// The attributes of its p that are kept as they were.
    pub fn extras(self) -> Extras<'t> {
        Extras::new(self.track.tables, CUE, &self.cells()[9..])
    }

    /// Its text, with a line feed for each break. Texts of a track that was handed in may overlap: more than 65,536 bytes
    /// are refused.
    ///
    /// ```
    /// let mut tables = postgarlic::Tables::new();
    /// let cue = tables.parse_cue("<p>Rook <span tts:fontWeight='bold'>takes</span><br/>d8</p>")?;
    /// assert_eq!(cue.text()?, "Rook takes\nd8");
    /// # Ok::<(), postgarlic::Refusal>(())
    /// ```
    pub fn text(self) -> Result<String, Refusal> {
        let Tables { head, cues, segments, texts, .. } = self.track.tables;
        let mut out = vec![0; self.segments().text_bytes().min(BYTES)];
        let answer = library::pg_plain_text(&**head, &**cues, &**segments, &**texts, self.index, &mut out);
        out.truncate(told(answer, &[])?);
        Ok(String::from_utf8(out).expect("the texts of a track are UTF-8"))
    }

    /// Its style: that of its region, and over it that of its own attribute `style`.
    ///
    /// ```
    /// let mut tables = postgarlic::Tables::new();
    /// let track = tables.parse(
    ///     "<tt><head><styling><style id='s' tts:fontStyle='italic'/></styling>
    ///      <layout><region id='r' tts:color='#0A0B0C'/></layout></head>
    ///      <body><p style='s' region='r'>e4</p><p>e5</p></body></tt>",
    /// )?;
    /// let mut cues = track.cues();
    /// let style = cues.next().unwrap().effective_style()?.style.unwrap();
    /// assert!(style.italic && style.color.unwrap().blue == 12);
    /// assert!(cues.next().unwrap().effective_style()?.style.is_none());
    /// # Ok::<(), postgarlic::Refusal>(())
    /// ```
    pub fn effective_style(self) -> Result<Resolved<'t>, Refusal> {
        self.track.effective_style_for_cue_index(self.index)
    }

    /// The cue as a p of its own, with its times, its style and its content.
    pub fn write(self) -> Result<String, Refusal> {
        let mut out = vec![0; BYTES];
        let answer = hand!(pg_cue_to_bytes, [], self.track.tables, [self.index, &mut out]);
        out.truncate(told(answer, &[])?);
        Ok(String::from_utf8(out).expect("what is written is UTF-8"))
    }
}

impl fmt::Debug for Cue<'_> {
    fn fmt(&self, f: &mut fmt::Formatter<'_>) -> fmt::Result {
        f.debug_struct("Cue")
            .field("begin", &self.begin())
            .field("end", &self.end())
            .field("style", &self.style())
            .field("region", &self.region())
            .field("preserves_space", &self.preserves_space())
            .field("extras", &self.extras())
            .field("segments", &self.segments())
            .finish()
    }
}

/// A part of a cue's content.
///
/// ```
/// use postgarlic::{Segment, Tables};
///
/// let mut tables = Tables::new();
/// let cue = tables.parse_cue("<p>on <span begin='1s' tts:color='red'>h5</span></p>")?;
/// let mut segments = cue.segments();
/// assert!(matches!(segments.next(), Some(Segment::Text("on "))));
/// assert!(matches!(segments.next(), Some(Segment::Timestamp(1_000_000))));
/// let Some(Segment::Color { rgb: [255, 0, 0], mut children }) = segments.next() else { panic!() };
/// assert!(matches!(children.next(), Some(Segment::Text("h5"))));
/// assert!(segments.next().is_none());
/// # Ok::<(), postgarlic::Refusal>(())
/// ```
#[derive(Clone, Debug)]
#[non_exhaustive]
pub enum Segment<'t> {
    /// A text.
    Text(&'t str),
    /// A new line.
    Break,
    /// What follows among its siblings shows from this time on, in microseconds.
    Timestamp(i64),
    /// Bold.
    Bold(Segments<'t>),
    /// Italic.
    Italic(Segments<'t>),
    /// Underlined.
    Underline(Segments<'t>),
    /// Struck through.
    Strike(Segments<'t>),
    /// In a colour.
    Color {
        /// Red, green and blue.
        rgb: [u8; 3],
        /// What is in that colour.
        children: Segments<'t>,
    },
    /// In a font, or a span that says nothing.
    Font {
        /// The font's family.
        family: Option<&'t str>,
        /// The font's size.
        size: Option<Size>,
        /// What is in that font.
        children: Segments<'t>,
    },
}

/// Segments that are siblings, in their order.
#[derive(Clone)]
pub struct Segments<'t> {
    tables: &'t Tables,
    row: usize,
    end: usize,
}

impl Segments<'_> {
    /// How many bytes the texts and breaks in its rows have, whatever they stand in.
    fn text_bytes(&self) -> usize {
        let bytes = |row: usize| match self.tables.segments[6 * row..][..6] {
            [1, _, _, length, _, _] => length as usize,
            [2, ..] => 1,
            _ => 0,
        };
        (self.row..self.end).map(bytes).sum()
    }
}

impl<'t> Iterator for Segments<'t> {
    type Item = Segment<'t>;

    fn next(&mut self) -> Option<Segment<'t>> {
        if self.row >= self.end {
            return None;
        }
        let (tables, row) = (self.tables, self.row);
        let cells = &tables.segments[6 * row..][..6];
        self.row += cells[1] as usize;
        let children = Segments { tables, row: row + 1, end: self.row };
        Some(match cells[0] {
            1 => Segment::Text(tables.text(&cells[2..])),
            2 => Segment::Break,
            3 => Segment::Timestamp((u64::from(cells[3]) << 32 | u64::from(cells[2])) as i64),
            4 => Segment::Bold(children),
            5 => Segment::Italic(children),
            6 => Segment::Underline(children),
            7 => Segment::Strike(children),
            8 => Segment::Color { rgb: [2, 3, 4].map(|cell| cells[cell] as u8), children },
            9 => {
                // the flag of the family, and the size's sign, scale and digits
                let marks = cells[4];
                Segment::Font {
                    family: tables.optional(&[marks % 2, cells[2], cells[3]]),
                    size: style::size(&[marks / 2 % 4, marks / 128, marks / 8 % 16], f32::from_bits(cells[5])),
                    children,
                }
            }
            kind => unreachable!("a track has no segment of kind {kind}"),
        })
    }
}

impl fmt::Debug for Segments<'_> {
    fn fmt(&self, f: &mut fmt::Formatter<'_>) -> fmt::Result {
        f.debug_list().entries(self.clone()).finish()
    }
}
