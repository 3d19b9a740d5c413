//! The memory that the library works on.

use crate::library;
use crate::refusal::{Refusal, told};
use crate::{Cue, Track};
use std::fmt;

/// The longest text that is read or written.
pub(crate) const BYTES: usize = 65_536;

/// The tables that a track is read into: 1,106,984 bytes on the heap, made once and used for one text after the other.
///
/// A [`Track`] borrows them, so that they cannot be filled again while it is looked at. The fields are for a caller who lays
/// out a track of his own, as docs/TABLES.md says, and then calls [`check`](Tables::check).
///
/// ```
/// let mut tables = postgarlic::Tables::new();
/// for text in ["<tt><body><p/></body></tt>", "<tt/>"] {
///     println!("{} cues", tables.parse(text)?.cues().len());
/// }
/// # Ok::<(), postgarlic::Refusal>(())
/// ```
///
/// ```compile_fail,E0499
/// let mut tables = postgarlic::Tables::new();
/// let first = tables.parse("<tt/>")?;
/// let second = tables.parse("<tt/>")?;
/// first.cues(); // it stood in the tables that were filled again
/// # Ok::<(), postgarlic::Refusal>(())
/// ```
#[derive(Clone)]
pub struct Tables {
    /// The tree that was read: rows of 6.
    pub nodes: Box<[u32; 6 * 8_192]>,
    /// Its attributes: rows of 4.
    pub attrs: Box<[u32; 4 * 8_192]>,
    /// How many rows the other tables have.
    pub head: Box<[u32; 10]>,
    /// Parameters: rows of 4.
    pub params: Box<[u32; 4 * 64]>,
    /// Styles: rows of 27.
    pub styles: Box<[u32; 27 * 256]>,
    /// Regions: rows of 4.
    pub regions: Box<[u32; 4 * 256]>,
    /// Cues: rows of 11.
    pub cues: Box<[u32; 11 * 2_048]>,
    /// Begin and end of each cue, in microseconds.
    pub times: Box<[i64; 2 * 2_048]>,
    /// Segments: rows of 6.
    pub segments: Box<[u32; 6 * 16_384]>,
    /// The font sizes of styles.
    pub sizes: Box<[f32; 256]>,
    /// Attributes that are kept as they were: rows of 3.
    pub extras: Box<[u32; 3 * 8_192]>,
    /// The bytes of all strings.
    pub strings: Box<[u8; BYTES]>,
    /// The bytes of the texts of segments.
    pub texts: Box<[u8; BYTES]>,
}

/// So many cells on the heap, without a copy of them on the stack.
fn cells<C: Clone + Default, const N: usize>() -> Box<[C; N]> {
    let cells = vec![C::default(); N].into_boxed_slice();
    cells.try_into().unwrap_or_else(|_| unreachable!("it has N cells"))
}

impl Default for Tables {
    fn default() -> Tables {
        Tables::new()
    }
}

impl fmt::Debug for Tables {
    fn fmt(&self, f: &mut fmt::Formatter<'_>) -> fmt::Result {
        f.debug_struct("Tables").field("head", &self.head).finish_non_exhaustive()
    }
}

/// Calls a reader with every table.
macro_rules! read {
    ($call:ident, $t:expr, $text:expr) => {
        library::$call(
            $text, &mut *$t.nodes, &mut *$t.attrs, &mut *$t.head, &mut *$t.params, &mut *$t.styles, &mut *$t.regions,
            &mut *$t.cues, &mut *$t.times, &mut *$t.segments, &mut *$t.sizes, &mut *$t.extras, &mut *$t.strings,
            &mut *$t.texts,
        )
    };
}

/// Calls with a track's eleven tables, what stands before them and what after.
macro_rules! hand {
    ($call:ident, [$($before:expr),*], $t:expr, [$($after:expr),*]) => {
        $crate::library::$call(
            $($before,)*
            &*$t.head,
            &*$t.params,
            &*$t.styles,
            &*$t.regions,
            &*$t.cues,
            &*$t.times,
            &*$t.segments,
            &*$t.sizes,
            &*$t.extras,
            &*$t.strings,
            &*$t.texts,
            $($after,)*
        )
    };
}
pub(crate) use hand;

impl Tables {
    /// Tables of zeros: a track without cues.
    pub fn new() -> Tables {
        Tables {
            nodes: cells(),
            attrs: cells(),
            head: cells(),
            params: cells(),
            styles: cells(),
            regions: cells(),
            cues: cells(),
            times: cells(),
            segments: cells(),
            sizes: cells(),
            extras: cells(),
            strings: cells(),
            texts: cells(),
        }
    }

    /// The track of a text. After a refusal every cell is zero.
    pub fn parse(&mut self, text: &str) -> Result<Track<'_>, Refusal> {
        self.parse_bytes(text.as_bytes())
    }

    /// The same of any bytes: those that are not UTF-8 are refused.
    ///
    /// ```
    /// let refusal = postgarlic::Tables::new().parse_bytes(b"<tt>\xFF</tt>").unwrap_err();
    /// assert_eq!((refusal.number(), refusal.place()), (3, 4));
    /// ```
    pub fn parse_bytes(&mut self, text: &[u8]) -> Result<Track<'_>, Refusal> {
        told(read!(pg_parse, self, text), text)?;
        Ok(Track::of(self))
    }

    /// The cue that a single `<p>` says, which is the first at top level. It has no region and no extras.
    ///
    /// ```
    /// let mut tables = postgarlic::Tables::new();
    /// let cue = tables.parse_cue("<p begin='1s' end='2s'>Check &amp; mate</p>")?;
    /// assert_eq!((cue.begin(), cue.end(), cue.text()?.as_str()), (1_000_000, 2_000_000, "Check & mate"));
    /// assert_eq!(cue.write()?, r#"<p begin="00:00:01.000" end="00:00:02.000">Check &amp; mate</p>"#);
    /// # Ok::<(), postgarlic::Refusal>(())
    /// ```
    pub fn parse_cue(&mut self, text: &str) -> Result<Cue<'_>, Refusal> {
        told(read!(pg_bytes_to_cue, self, text.as_bytes()), text.as_bytes())?;
        Ok(Track::of(self).cue(0).expect("a single cue is a track of one cue"))
    }

    /// The track that stands in the tables, if it is one: number 17 if not. A track that was read always is.
    ///
    /// ```
    /// let mut tables = postgarlic::Tables::new();
    /// tables.head[3] = 1; // one cue,
    /// tables.times[..2].copy_from_slice(&[1_999, 2_000_000]);
    /// tables.head[4] = 1; // which has one segment,
    /// tables.cues[8] = 1;
    /// tables.segments[..2].copy_from_slice(&[2, 1]); // a break
    /// assert_eq!(tables.check()?.cue(0).unwrap().write()?, r#"<p begin="00:00:00.001" end="00:00:02.000"><br/></p>"#);
    ///
    /// tables.cues[8] = 2;
    /// assert_eq!(tables.check().unwrap_err().number(), 17);
    /// # Ok::<(), postgarlic::Refusal>(())
    /// ```
    pub fn check(&self) -> Result<Track<'_>, Refusal> {
        told(hand!(pg_check_track, [], self, []), &[])?;
        Ok(Track::of(self))
    }

    /// The string of a place and a length.
    pub(crate) fn string(&self, cells: &[u32]) -> &str {
        part(&*self.strings, cells[0], cells[1])
    }

    /// The same after a flag that says whether it is there.
    pub(crate) fn optional(&self, cells: &[u32]) -> Option<&str> {
        (cells[0] != 0).then(|| self.string(&cells[1..]))
    }

    /// The text of a place and a length.
    pub(crate) fn text(&self, cells: &[u32]) -> &str {
        part(&*self.texts, cells[0], cells[1])
    }
}

/// A part of bytes. Every string of a track is UTF-8: `accepted_utf8` in crates/track/proofs/Valid.
pub(crate) fn part(bytes: &[u8], place: u32, length: u32) -> &str {
    let part = &bytes[place as usize..][..length as usize];
    str::from_utf8(part).expect("a track's strings are UTF-8")
}
