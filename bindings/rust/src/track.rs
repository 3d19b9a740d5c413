//! A track and what it has beside its cues.

use crate::Cue;
use crate::names::{REGION, STYLE};
use crate::refusal::{Refusal, told};
use crate::style::{self, HeadStyle, Resolved};
use crate::tables::{BYTES, Tables, hand};
use std::fmt;

/// A track in its [`Tables`]: read from a text, or laid out by the caller and checked.
#[derive(Clone, Copy)]
pub struct Track<'t> {
    pub(crate) tables: &'t Tables,
}

/// A parameter of tt, `ttp:` or `ittp:`.
#[derive(Clone, Copy, Debug, PartialEq, Eq)]
pub struct Param<'t> {
    /// Its name without the prefix.
    pub name: &'t str,
    /// Its value.
    pub value: &'t str,
}

/// A region of the head.
#[derive(Clone)]
pub struct Region<'t> {
    /// Its id.
    pub id: &'t str,
    extras: Extras<'t>,
}

/// Attributes that are kept as they were, in the order in which they are written: names and values.
#[derive(Clone)]
pub struct Extras<'t> {
    tables: &'t Tables,
    names: &'static [&'static str],
    rows: std::ops::Range<usize>,
}

impl<'t> Track<'t> {
    pub(crate) fn of(tables: &'t Tables) -> Track<'t> {
        Track { tables }
    }

    /// xml:lang of tt.
    pub fn lang(self) -> Option<&'t str> {
        self.tables.optional(&self.tables.head[5..])
    }

    /// The parameters of tt.
    ///
    /// ```
    /// let mut tables = postgarlic::Tables::new();
    /// let track = tables.parse("<tt xml:lang='eo' ttp:frameRate='25' ittp:activeArea='0%'/>")?;
    /// assert_eq!(track.lang(), Some("eo"));
    /// let params: Vec<_> = track.params().map(|p| (p.name, p.value)).collect();
    /// assert_eq!(params, [("frameRate", "25"), ("activeArea", "0%")]);
    /// # Ok::<(), postgarlic::Refusal>(())
    /// ```
    pub fn params(self) -> impl ExactSizeIterator<Item = Param<'t>> + DoubleEndedIterator + Clone + use<'t> {
        (0..self.tables.head[0] as usize).map(move |row| {
            let cells = &self.tables.params[4 * row..];
            Param { name: self.tables.string(cells), value: self.tables.string(&cells[2..]) }
        })
    }

    /// The styles of the head, as each says itself.
    ///
    /// ```
    /// use postgarlic::{Align, Tables};
    ///
    /// let mut tables = Tables::new();
    /// let track = tables.parse(
    ///     "<tt><head><styling><style xml:id='s' style='base' tts:textAlign='center' tts:opacity='0.5'/></styling></head></tt>",
    /// )?;
    /// let s = track.styles().next().unwrap();
    /// assert_eq!((s.style.name, s.chain, s.style.align), ("s", Some("base"), Align::Center));
    /// assert_eq!(s.extras().collect::<Vec<_>>(), [("tts:opacity", "0.5")]);
    /// # Ok::<(), postgarlic::Refusal>(())
    /// ```
    pub fn styles(self) -> impl ExactSizeIterator<Item = HeadStyle<'t>> + DoubleEndedIterator + Clone + use<'t> {
        (0..self.tables.head[1] as usize).map(move |row| {
            let extras = Extras::new(self.tables, STYLE, &self.tables.styles[27 * row + 25..]);
            style::head_style(self.tables, row, extras)
        })
    }

    /// The regions of the head.
    ///
    /// ```
    /// let mut tables = postgarlic::Tables::new();
    /// let track = tables.parse("<tt><head><layout><region id='low' tts:origin='0% 80%'/></layout></head></tt>")?;
    /// let low = track.regions().next().unwrap();
    /// assert_eq!(low.id, "low");
    /// assert_eq!(low.attributes().collect::<Vec<_>>(), [("tts:origin", "0% 80%")]);
    /// # Ok::<(), postgarlic::Refusal>(())
    /// ```
    pub fn regions(self) -> impl ExactSizeIterator<Item = Region<'t>> + DoubleEndedIterator + Clone + use<'t> {
        (0..self.tables.head[2] as usize).map(move |row| {
            let cells = &self.tables.regions[4 * row..];
            Region { id: self.tables.string(cells), extras: Extras::new(self.tables, REGION, &cells[2..]) }
        })
    }

    /// The cues in their order.
    pub fn cues(self) -> impl ExactSizeIterator<Item = Cue<'t>> + DoubleEndedIterator + Clone + use<'t> {
        (0..self.tables.head[3] as usize).map(move |index| Cue { track: self, index })
    }

    /// The cue of an index.
    pub fn cue(self, index: usize) -> Option<Cue<'t>> {
        (index < self.tables.head[3] as usize).then_some(Cue { track: self, index })
    }

    /// The track as a text.
    ///
    /// ```
    /// let mut tables = postgarlic::Tables::new();
    /// let written = tables.parse(r#"<tt><body><p begin="1s" dur="500ms">A<br/>B</p></body></tt>"#)?.write()?;
    /// assert!(written.contains(r#"      <p begin="00:00:01.000" end="00:00:01.500">A<br/>B</p>"#));
    /// # Ok::<(), postgarlic::Refusal>(())
    /// ```
    pub fn write(self) -> Result<String, Refusal> {
        let mut out = vec![0; BYTES];
        let length = self.write_into(&mut out)?;
        out.truncate(length);
        Ok(String::from_utf8(out).expect("what is written is UTF-8"))
    }

    /// The same into bytes of the caller: how many. The others are zero.
    pub fn write_into(self, out: &mut [u8]) -> Result<usize, Refusal> {
        told(hand!(pg_write, [], self.tables, [out]), &[])
    }

    /// The style that a value of the attribute `style` gives, as `s1 s2`: each id, after what it leads to.
    ///
    /// ```
    /// let mut tables = postgarlic::Tables::new();
    /// let track = tables.parse(
    ///     "<tt><head><styling><style id='a' style='b' tts:color='red'/><style id='b' tts:fontSize='7.50px'/></styling></head></tt>",
    /// )?;
    /// let resolved = track.resolve_referenced_style("a nobody")?;
    /// assert_eq!(resolved.ids, ["a", "b", "nobody"]); // in the order of their first visit
    /// let style = resolved.style.unwrap();
    /// assert_eq!((style.color.unwrap().red, style.size.unwrap().to_string()), (255, "7.5".to_string()));
    /// assert!(track.resolve_referenced_style("nobody")?.style.is_none());
    /// # Ok::<(), postgarlic::Refusal>(())
    /// ```
    pub fn resolve_referenced_style<'a>(self, value: &'a str) -> Result<Resolved<'a>, Refusal>
    where
        't: 'a,
    {
        style::resolve(self.tables, value, |ids, out, size| {
            hand!(pg_resolve_referenced_style, [value.as_bytes()], self.tables, [ids, out, size])
        })
    }

    /// The style of the region of this id.
    pub fn region_style<'a>(self, id: &'a str) -> Result<Resolved<'a>, Refusal>
    where
        't: 'a,
    {
        style::resolve(self.tables, id, |ids, out, size| {
            hand!(pg_region_style, [id.as_bytes()], self.tables, [ids, out, size])
        })
    }

    /// The style of the cue of this index: that of its region, and over it that of its own attribute `style`. Without such a
    /// cue there is none.
    pub fn effective_style_for_cue_index(self, index: usize) -> Result<Resolved<'t>, Refusal> {
        style::resolve(self.tables, "", |ids, out, size| {
            hand!(pg_effective_style_for_cue_index, [], self.tables, [index, ids, out, size])
        })
    }
}

impl fmt::Debug for Track<'_> {
    fn fmt(&self, f: &mut fmt::Formatter<'_>) -> fmt::Result {
        f.debug_struct("Track")
            .field("lang", &self.lang())
            .field("params", &self.params().collect::<Vec<_>>())
            .field("styles", &self.styles().collect::<Vec<_>>())
            .field("regions", &self.regions().collect::<Vec<_>>())
            .field("cues", &self.cues().collect::<Vec<_>>())
            .finish()
    }
}

impl<'t> Region<'t> {
    /// Its attributes but the id.
    pub fn attributes(&self) -> Extras<'t> {
        self.extras.clone()
    }
}

impl fmt::Debug for Region<'_> {
    fn fmt(&self, f: &mut fmt::Formatter<'_>) -> fmt::Result {
        f.debug_struct("Region").field("id", &self.id).field("attributes", &self.extras).finish()
    }
}

impl<'t> Extras<'t> {
    /// Those of two cells: the first row and how many.
    pub(crate) fn new(tables: &'t Tables, names: &'static [&'static str], cells: &[u32]) -> Extras<'t> {
        let first = cells[0] as usize;
        Extras { tables, names, rows: first..first + cells[1] as usize }
    }
}

impl<'t> Iterator for Extras<'t> {
    type Item = (&'static str, &'t str);

    fn next(&mut self) -> Option<Self::Item> {
        let cells = &self.tables.extras[3 * self.rows.next()?..];
        Some((self.names[cells[0] as usize], self.tables.string(&cells[1..])))
    }

    fn size_hint(&self) -> (usize, Option<usize>) {
        self.rows.size_hint()
    }
}

impl ExactSizeIterator for Extras<'_> {}

impl fmt::Debug for Extras<'_> {
    fn fmt(&self, f: &mut fmt::Formatter<'_>) -> fmt::Result {
        f.debug_map().entries(self.clone()).finish()
    }
}
