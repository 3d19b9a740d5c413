//! What is written is read again: of a plain track the cues come back, with their times in whole milliseconds. Of tracks that
//! are nearly plain it is counted what comes back otherwise.

use super::Layer;
use crate::cases::every_word;
use crate::compare::{Esc, Run, deep};
use crate::document::BYTES;
use crate::handed::Lending;
use crate::lending::{Call, Care, FIXED, Lending as Reading};
use crate::placed::{Cue, Placed, Segment, Track, Wrapper};
use crate::plain::{Flaw, back, flaws};
use crate::tables::{Tables, with};
use crate::tracks::{Made, Wish, any_track};
use crate::writing::{Out, Written, write};
use reference::ir::{SubtitleCue, SubtitleTrack};
use std::collections::BTreeMap;

pub const LAYER: Layer = Layer { name: "readback", compare, record: None, bench: None };

fn compare(run: &mut Run) {
    deep(|| {
        let side =
            &mut Side { reading: Reading::new(), tables: Tables::new(), out: Out::default(), kinds: BTreeMap::new() };
        every_word(TOKENS, 4, |tokens| {
            for (preserve, start) in [(true, 1_000_999), (false, 1_000_999), (true, 0)] {
                side.check(run, &small(tokens, preserve, start));
            }
        });
        for made in deep_ones() {
            side.check(run, &made);
        }
        for n in 0..run.count / 16 {
            let wish = Wish { plain: n % 4 > 0, cues: [1, 3, 9][n % 3], deep: [2, 4, 12, 70][n / 3 % 4] };
            let made = any_track(&mut run.rng, wish);
            side.check(run, &made);
        }
        side.told();
    });
}

struct Side {
    reading: Reading,
    tables: Tables,
    out: Out,
    kinds: BTreeMap<Kind, Tally>,
}

/// Which flaws a track has, and whether its text is read without a number.
type Kind = (Vec<Flaw>, Option<u32>);

#[derive(Default)]
struct Tally {
    same: u64,
    other: u64,
    /// The smallest text that was read otherwise, the segments of its cues, and those that came back.
    smallest: Option<(Vec<u8>, [String; 2])>,
}

/// What is compared of a cue: times, style, segments; region, extras and space.
type Whole = (SubtitleCue, [Option<String>; 3]);

fn cues(track: &SubtitleTrack, time: fn(&SubtitleCue) -> SubtitleCue) -> Vec<Whole> {
    let by_cue =
        |prefix: &'static str| with(track, prefix).map(|(at, value)| (at.to_string(), value.to_string())).collect();
    let kept: [BTreeMap<String, String>; 3] = ["ttml_cue_region.", "ttml_p_extra.", "ttml_cue_xml_space."].map(by_cue);
    let whole =
        |(at, cue): (usize, &SubtitleCue)| (time(cue), [0, 1, 2].map(|n| kept[n].get(&at.to_string()).cloned()));
    track.cues.iter().enumerate().map(whole).collect()
}

impl Side {
    fn check(&mut self, run: &mut Run, made: &Made) {
        let track = made.track.rust();
        self.tables.hold(&made.cells());
        let handed = self.tables.handed(Lending::Fixed);
        let Written::Text(text) = self.out.ask(BYTES, |out| write(&handed, out)) else { return };
        let (number, _) = self.reading.ask(Call::Parse, text, &FIXED, Care::Near(text.len()));
        let mut found: Vec<Flaw> =
            made.track.cues.iter().zip(&track.cues).flat_map(|(placed, cue)| flaws(cue, placed.preserve)).collect();
        found.sort();
        found.dedup();
        let must = cues(&track, back);
        let read = (number == 0).then(|| cues(&self.reading.handed().track().unwrap(), SubtitleCue::clone));
        if found.is_empty() && number == 0 {
            run.same("parse of write", format_args!("{:?}", Esc(text)), Some(must), read);
            return;
        }
        let tally = self.kinds.entry((found, (number > 0).then_some(number))).or_default();
        if read.as_ref() == Some(&must) {
            tally.same += 1;
            return;
        }
        tally.other += 1;
        if tally.smallest.as_ref().is_none_or(|(smallest, _)| text.len() < smallest.len()) {
            let segments = |cues: &[Whole]| format!("{:?}", cues.iter().map(|cue| &cue.0.segments).collect::<Vec<_>>());
            let read = read.map_or(format!("number {number}"), |read| segments(&read));
            tally.smallest = Some((text.to_vec(), [segments(&must), read]));
        }
    }

    /// Each kind of at most one flaw: how many tracks came back, how many did not, and the smallest of these.
    fn told(&self) {
        for ((flaws, number), tally) in self.kinds.iter().filter(|((flaws, _), _)| flaws.len() < 2) {
            let number = number.map_or(String::new(), |number| format!(" number {number}"));
            println!("not plain: {flaws:?}{number}: {} come back, {} do not", tally.same, tally.other);
            if let Some((text, [written, read])) = &tally.smallest {
                let cut = |said: &str| said.chars().take(400).collect::<String>();
                println!("  {}\n    of {}\n    is read as {}", cut(&body(text)), cut(written), cut(read));
            }
        }
    }
}

/// What stands in the div.
fn body(text: &[u8]) -> String {
    let text = String::from_utf8_lossy(text);
    let inside = text.split_once("<div>").and_then(|(_, rest)| rest.rsplit_once("</div>"));
    let shown = |c: char| if c.is_control() { c.escape_debug().to_string() } else { c.to_string() };
    inside.map_or("", |(inside, _)| inside.trim()).chars().map(shown).collect()
}

/// What small cues are made of; `)` ends a wrapper.
const TOKENS: &[&str] = &["a", " ", "", "br", "@", "B(", "S(", "F(", "8(", ")"];

/// As many wrappers in one another as are read, and more; and parameters that meet a number when they are read.
fn deep_ones() -> Vec<Made> {
    let mut made = Vec::new();
    for depth in 57..64 {
        made.push(small(&[&["B("].repeat(depth)[..], &["a"]].concat(), true, 0));
    }
    for rate in ["25", "x", "1e3", "1234567890123456"] {
        let mut one = small(&["a"], true, 0);
        one.strings = format!("frameRate{rate}");
        let [name, value] =
            [(0, "frameRate"), (9, rate)].map(|(place, string)| Placed { place, string: string.to_string() });
        one.track.params.push((name, value));
        made.push(one);
    }
    made
}

/// A track of one cue.
fn small(tokens: &[&str], preserve: bool, start: i64) -> Made {
    let texts = "a ".to_string();
    let mut open: Vec<(Option<Wrapper>, Vec<Segment>)> = vec![(None, Vec::new())];
    for &token in tokens {
        let wrapper = match token {
            "B(" => Wrapper::Bold,
            "S(" => Wrapper::Strike,
            "F(" => Wrapper::Font { family: None, size: None },
            "8(" => Wrapper::Font { family: None, size: Some(8.0) },
            _ => {
                let segment = match token {
                    ")" => close(&mut open),
                    "br" => Some(Segment::Break),
                    "@" => Some(Segment::Timestamp(3_000_000)),
                    text => Some(Segment::Text(Placed { place: texts.find(text).unwrap(), string: text.to_string() })),
                };
                open.last_mut().unwrap().1.extend(segment);
                continue;
            }
        };
        open.push((Some(wrapper), Vec::new()));
    }
    while open.len() > 1 {
        let segment = close(&mut open);
        open.last_mut().unwrap().1.extend(segment);
    }
    let (_, segments) = open.pop().unwrap();
    let cue = Cue { start, end: 2_000_000, style: None, region: None, preserve, segments, extras: Vec::new() };
    Made { track: Track { cues: vec![cue], ..Track::default() }, strings: String::new(), texts }
}

/// The innermost wrapper, if one is open.
fn close(open: &mut Vec<(Option<Wrapper>, Vec<Segment>)>) -> Option<Segment> {
    if open.len() == 1 {
        return None;
    }
    let (wrapper, inside) = open.pop()?;
    Some(Segment::Wrapper(wrapper?, inside))
}
