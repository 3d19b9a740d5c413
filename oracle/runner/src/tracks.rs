//! Tracks made at random, whose strings stand in two pools as they do in the port's tables: what `write` is handed.

use crate::cases::{Rng, any_text};
use crate::cells::Cells;
use crate::extras::{INLINE, Names, REGION, STYLE};
use crate::placed::{Cue, Extras, Placed, Region, Segment, Style, Track, Wrapper};
use crate::tables::spelling;
use reference::ir::TextAlign;

/// A track with the pools that have its strings and its texts.
pub struct Made {
    pub track: Track,
    pub strings: String,
    pub texts: String,
}

impl Made {
    /// The cells of its tables.
    pub fn cells(&self) -> Cells {
        let mut cells = Cells::default();
        cells.track(&self.track, self.strings.len(), self.texts.len());
        cells.texts = self.texts.clone().into_bytes();
        cells.tree.strings = self.strings.clone().into_bytes();
        cells
    }
}

/// What kinds of things a track may have.
#[derive(Clone, Copy)]
pub struct Wish {
    /// All that document 01 asks of a plain track, but for what is written.
    pub plain: bool,
    pub cues: usize,
    pub deep: usize,
}

pub fn any_track(rng: &mut Rng, wish: Wish) -> Made {
    let shared = rng.below(4) == 0;
    let mut maker = Maker { rng, wish, shared, strings: String::new(), texts: String::new() };
    let track = maker.track();
    Made { track, strings: maker.strings, texts: maker.texts }
}

struct Maker<'a> {
    rng: &'a mut Rng,
    wish: Wish,
    /// Strings that stand in the pool already are not put there again: they may be parts of each other.
    shared: bool,
    strings: String,
    texts: String,
}

const WORDS: &[&str] = &[
    "", "a", "b", "a b", " ", "  a ", "&", "&amp;", "<", ">", "\"", "'", "]]>", "<br/>", "-->", "é", "日本",
    "\u{1F680}", "\n", "\t", "\r", "\0", "itts:", "tts:color", "red", "Arial, serif", "\u{A0}", "a&b<c>d\"e'f",
    "&#65;",
];

fn put(pool: &mut String, shared: bool, string: String) -> Placed {
    if let Some(place) = pool.find(&string).filter(|_| shared) {
        return Placed { place, string };
    }
    pool.push_str(&string);
    Placed { place: pool.len() - string.len(), string }
}

impl Maker<'_> {
    fn once(&mut self, of: usize) -> bool {
        self.rng.below(of) == 0
    }

    fn words(&mut self) -> String {
        match self.rng.below(6) {
            0 => any_text(self.rng, 8),
            1 => format!("{}{}", self.rng.pick(WORDS), self.rng.pick(WORDS)),
            _ => self.rng.pick(WORDS).to_string(),
        }
    }

    fn string(&mut self) -> Placed {
        let string = self.words();
        put(&mut self.strings, self.shared, string)
    }

    fn named(&mut self, names: &[&str]) -> Placed {
        let name = self.rng.pick(names).to_string();
        put(&mut self.strings, self.shared, name)
    }

    fn maybe(&mut self, of: usize) -> Option<Placed> {
        if self.once(of) { Some(self.string()) } else { None }
    }

    fn some(&mut self, counts: &[usize]) -> usize {
        self.rng.pick(counts)
    }

    fn track(&mut self) -> Track {
        let lang = self.maybe(2);
        let params = (0..self.some(&[0, 0, 1, 2, 5])).map(|_| (self.param(), self.string())).collect();
        let styles = (0..self.some(&[0, 0, 1, 2, 4])).map(|_| self.style()).collect();
        let regions = (0..self.some(&[0, 0, 1, 2])).map(|_| self.region()).collect();
        let cues = (0..self.rng.below(self.wish.cues + 1)).map(|_| self.cue()).collect();
        Track { lang, params, styles, regions, cues }
    }

    /// A parameter's name has no blank, `=`, `>` or `/`.
    fn param(&mut self) -> Placed {
        if self.once(2) {
            return self.named(&[
                "frameRate", "activeArea", "aspectRatio", "progressivelyDecodable", "timeBase", "activearea", "",
            ]);
        }
        let name = self.words().replace([' ', '\t', '\n', '\r', '=', '>', '/'], "_");
        put(&mut self.strings, self.shared, name)
    }

    /// Few names, so that equal ones come up.
    fn style(&mut self) -> Style {
        let name = if self.once(4) { self.string() } else { self.named(&["s", "t", "s t"]) };
        let color = |maker: &mut Self| maker.once(3).then(|| (maker.rng.next() as u32).to_be_bytes());
        let flags = [(); 4].map(|()| self.once(3));
        let aligns = [TextAlign::Start, TextAlign::Center, TextAlign::End, TextAlign::Left, TextAlign::Right];
        Style {
            name,
            chain: self.maybe(2).filter(|chain| !chain.string.is_empty()),
            color: color(self),
            back: color(self),
            family: self.maybe(3),
            size: self.size(),
            flags,
            align: self.rng.pick(&aligns),
            extras: self.extras(STYLE),
        }
    }

    fn region(&mut self) -> Region {
        Region { id: self.string(), extras: self.extras(REGION) }
    }

    /// Names in their order, none twice.
    fn extras(&mut self, names: Names) -> Extras {
        let once = self.some(&[names.len() * 4, names.len(), names.len() / 3, 2]);
        (0..names.len()).filter_map(|number| self.once(once).then(|| (number, self.string()))).collect()
    }

    /// A size whose spelling is within the limits.
    fn size(&mut self) -> Option<f32> {
        if !self.once(3) {
            return None;
        }
        let (digits, scale) =
            (self.rng.next() % 10_u64.pow(self.rng.below(7) as u32), self.rng.pick(&[0, 0, 0, 1, 2, 3, 6, 10]));
        let value = digits as f32 / 10_f32.powi(scale);
        let value = if self.once(4) { -value } else { value };
        spelling(value).map(|_| value)
    }

    fn time(&mut self) -> i64 {
        match self.rng.below(8) {
            0 => self.rng.pick(&[
                0,
                -1,
                1,
                999,
                1_000,
                1_999,
                i64::MAX,
                i64::MIN,
                i64::MAX - 1,
                u32::MAX as i64,
                1 << 32,
                -1 << 32,
                -1_000_000,
                3_600_000_000,
                360_000_000_000,
            ]),
            1 => (self.rng.next() >> self.rng.below(64)) as i64,
            2 => -((self.rng.next() >> 24) as i64),
            _ => (self.rng.next() >> 30) as i64,
        }
    }

    fn cue(&mut self) -> Cue {
        let (start, end) = (self.time(), self.time());
        let (style, region) = (self.maybe(3), self.maybe(3));
        let preserve = self.wish.plain || self.once(2);
        let mut segments = self.segments(self.wish.deep);
        if self.wish.plain && matches!(segments[..], [Segment::Wrapper(Wrapper::Font { family: None, size: None }, _)])
        {
            segments.push(Segment::Break);
        }
        Cue { start, end, style, region, preserve, segments, extras: self.extras(INLINE) }
    }

    fn segments(&mut self, deep: usize) -> Vec<Segment> {
        let mut segments: Vec<Segment> = Vec::new();
        for _ in 0..self.some(&[0, 1, 1, 2, 3, 5]) {
            let segment = self.segment(deep);
            let after_text = matches!(segments.last(), Some(Segment::Text(_)));
            match &segment {
                Segment::Text(text) if self.wish.plain && (after_text || text.string.is_empty()) => {}
                Segment::Timestamp(_) | Segment::Wrapper(Wrapper::Strike, _) if self.wish.plain => {}
                Segment::Wrapper(Wrapper::Font { family: None, size: None }, inside)
                    if self.wish.plain && inside.len() == 1 => {}
                _ => segments.push(segment),
            }
        }
        segments
    }

    fn segment(&mut self, deep: usize) -> Segment {
        match self.rng.below(if deep == 0 { 6 } else { 12 }) {
            0..4 => {
                let text = self.words();
                Segment::Text(put(&mut self.texts, self.shared, text))
            }
            4 => Segment::Break,
            5 => Segment::Timestamp(self.time()),
            kind => {
                let wrapper = match kind {
                    6 => Wrapper::Bold,
                    7 => Wrapper::Italic,
                    8 => Wrapper::Underline,
                    9 => Wrapper::Strike,
                    10 => Wrapper::Color([(); 3].map(|()| self.rng.next() as u8)),
                    _ => Wrapper::Font { family: self.maybe(3), size: self.size() },
                };
                Segment::Wrapper(wrapper, self.segments(deep - 1))
            }
        }
    }
}
