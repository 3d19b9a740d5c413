//! What `parse` and `bytes_to_cue` must answer for a text that has a tree: the track with its places, or number and
//! place, 12 to 16. Written from document 01 and the Rust's order of evaluation, apart from the port; layers/parse.rs
//! holds it to the Rust. Values by themselves are the Rust's: times, colours, decimals and entities, with the numbers that
//! their own layers judge.

use crate::answer::Answer;
use crate::document::Refusal;
use crate::elements::{Element, Met, Value, first, top};
use crate::extras::{INLINE, Names, REGION, STYLE};
use crate::inline;
use crate::layers::decimals::{SIZES, TIMES, decimal};
use crate::layers::{colors, times};
use crate::placed::{Cue, Extras, Placed, Region, Style, Track};
use crate::rows::Read;
use reference::ir::TextAlign;

/// "No top-level tt, or for a single cue no p."
const MISSING: Refusal = Refusal { place: 0, number: 12 };

pub const PARAMS: usize = 64;
pub const STYLES: usize = 256;
pub const REGIONS: usize = 256;
pub const CUES: usize = 2_048;

/// A frame rate and a tick rate.
pub type Rates = (Option<f64>, Option<f64>);

/// How white space is read.
#[derive(Clone, Copy, PartialEq)]
pub enum Space {
    Collapse,
    Preserve,
}

pub fn parse(read: &Read) -> Met<Track> {
    let tt = first(top(read), "tt").ok_or(MISSING)?;
    let mut track = Track::default();
    // "save xml:lang and the ttp: and ittp: parameters of tt, which match exactly"
    let lang = tt.attrs().find(|(name, _)| name.string == "xml:lang");
    track.lang = lang.map(|(_, attr)| attr.value);
    let params: Vec<_> = tt.attrs().filter_map(param).collect();
    if params.len() > PARAMS {
        return tt.refused(13);
    }
    let rates = (rate(&params, "frameRate")?, rate(&params, "tickRate")?);
    track.params = params.into_iter().map(|(name, attr)| (name, attr.value)).collect();
    if let Some(head) = tt.child("head") {
        if let Some(styling) = head.child("styling") {
            styles(&styling, &mut track)?;
        }
        if let Some(layout) = head.child("layout") {
            regions(&layout, &mut track)?;
        }
    }
    if let Some(body) = tt.child("body") {
        let begin = time(&body, "begin", rates)?.unwrap_or(0);
        let space = space(&body, space(&tt, Space::Collapse));
        let mut walk = Walk { rates, cues: &mut track.cues };
        walk.container(&body, Container { begin, seq: is_seq(&body), space })?;
    }
    Ok(track)
}

/// A track of one cue and nothing else. Its end is absolute, its spans count from 0, and no tts attribute of p counts.
pub fn bytes_to_cue(read: &Read) -> Met<Track> {
    let p = first(top(read), "p").ok_or(MISSING)?;
    let rates = (None, None);
    let start = time(&p, "begin", rates)?.unwrap_or(0);
    let end = match time(&p, "end", rates)? {
        Some(end) => end,
        None => sum(&p, start, time(&p, "dur", rates)?.unwrap_or(0))?,
    };
    let segments = inline::segments(&p, 0, rates, space(&p, Space::Collapse))?;
    let style = p.attr("style").map(|attr| attr.value);
    let cue = Cue { start, end, style, region: None, preserve: false, segments, extras: Vec::new() };
    Ok(Track { cues: vec![cue], ..Track::default() })
}

/// "A parameter's name follows its first colon."
fn param((name, attr): (Placed, Value)) -> Option<(Placed, Value)> {
    let prefix = ["ttp:", "ittp:"].into_iter().find(|prefix| name.string.starts_with(prefix))?.len();
    Some((Placed { place: name.place + prefix, string: name.string[prefix..].to_string() }, attr))
}

/// The first of this name counts, whether it is a decimal or not.
fn rate(params: &[(Placed, Value)], name: &str) -> Met<Option<f64>> {
    let Some((_, attr)) = params.iter().find(|(param, _)| param.string == name) else { return Ok(None) };
    taken(decimal(attr.text().trim(), TIMES), attr)
}

/// A value that may be none; its number is placed at its attribute.
pub fn taken<A>(answer: Answer<A>, attr: &Value) -> Met<Option<A>> {
    match answer {
        Answer::Is(value) => Ok(Some(value)),
        Answer::Nothing => Ok(None),
        Answer::Number(number) => attr.refused(number),
    }
}

/// 16 is placed at the element.
pub fn time(element: &Element, name: &str, rates: Rates) -> Met<Option<i64>> {
    let Some(attr) = element.attr(name) else { return Ok(None) };
    match times::rust(attr.text(), rates) {
        Answer::Number(16) => element.refused(16),
        answer => taken(answer, &attr),
    }
}

pub fn sum(element: &Element, a: i64, b: i64) -> Met<i64> {
    a.checked_add(b).map_or_else(|| element.refused(16), Ok)
}

pub fn space(element: &Element, inherited: Space) -> Space {
    match element.attr("xml:space") {
        Some(attr) if attr.text() == "preserve" => Space::Preserve,
        Some(attr) if attr.text() == "default" => Space::Collapse,
        _ => inherited,
    }
}

fn is_seq(element: &Element) -> bool {
    element.attr("timeContainer").is_some_and(|attr| attr.text().trim().eq_ignore_ascii_case("seq"))
}

/// Is it this word, whatever the case of its letters?
pub fn says(element: &Element, name: &str, words: &[&str]) -> bool {
    element.attr(name).is_some_and(|attr| words.iter().any(|word| attr.text().eq_ignore_ascii_case(word)))
}

/// Underline and strike.
pub fn decoration(element: &Element) -> [bool; 2] {
    let value = element.attr("tts:textDecoration").map_or(String::new(), |attr| attr.text().to_ascii_lowercase());
    [value.contains("underline"), value.contains("line-through") || value.contains("strike")]
}

pub fn color(element: &Element, name: &str) -> Met<Option<[u8; 4]>> {
    let Some(attr) = element.attr(name) else { return Ok(None) };
    taken(colors::rust(attr.text()), &attr).map(|color| color.map(<[u8; 4]>::from))
}

/// A size, of the part of the value that the Rust parses.
pub fn size(element: &Element, part: impl Fn(&str) -> &str) -> Met<Option<f32>> {
    let Some(attr) = element.attr("tts:fontSize") else { return Ok(None) };
    taken(decimal(part(attr.text()), SIZES), &attr)
}

/// "Only those of the list", in its order.
fn extras(element: &Element, names: Names) -> Extras {
    let kept = |(number, name): (usize, &&str)| {
        let attr = element.attr(name)?;
        // A style's alignment is kept in its own cell, if it has one there.
        let own = names == STYLE && *name == "tts:textAlign" && !attr.text().trim().eq_ignore_ascii_case("justify");
        (!own).then_some((number, attr.value))
    };
    names.iter().enumerate().filter_map(kept).collect()
}

/// "`xml:id` wins over `id`; an empty id is an id."
fn id(element: &Element) -> Option<Placed> {
    element.attr("xml:id").or_else(|| element.attr("id")).map(|attr| attr.value)
}

/// One without id is skipped and not evaluated; colour before size; 13 once its values are evaluated.
fn styles(styling: &Element, track: &mut Track) -> Met<()> {
    for element in styling.elements().filter(|element| element.is("style")) {
        let Some(name) = id(&element) else { continue };
        let (color, back) = (color(&element, "tts:color")?, color(&element, "tts:backgroundColor")?);
        let size = size(&element, leading)?;
        if track.styles.len() == STYLES {
            return element.refused(13);
        }
        let [underline, strike] = decoration(&element);
        let bold = says(&element, "tts:fontWeight", &["bold"]);
        let italic = says(&element, "tts:fontStyle", &["italic", "oblique"]);
        track.styles.push(Style {
            name,
            chain: element.attr("style").and_then(|attr| trimmed(attr.value)),
            color,
            back,
            family: element.attr("tts:fontFamily").map(|attr| attr.value),
            size,
            flags: [bold, italic, underline, strike],
            align: element.attr("tts:textAlign").map_or(TextAlign::Start, |attr| align(attr.text())),
            extras: extras(&element, STYLE),
        });
    }
    Ok(())
}

fn regions(layout: &Element, track: &mut Track) -> Met<()> {
    for element in layout.elements().filter(|element| element.is("region")) {
        let Some(id) = id(&element) else { continue };
        if track.regions.len() == REGIONS {
            return element.refused(13);
        }
        track.regions.push(Region { id, extras: extras(&element, REGION) });
    }
    Ok(())
}

/// "For a style's or region's size the leading digits and points."
fn leading(value: &str) -> &str {
    &value[..value.find(|c: char| !c.is_ascii_digit() && c != '.').unwrap_or(value.len())]
}

/// Without white space around it; none if nothing is left.
fn trimmed(value: Placed) -> Option<Placed> {
    let string = value.string.trim();
    let before = value.string.len() - value.string.trim_start().len();
    (!string.is_empty()).then(|| Placed { place: value.place + before, string: string.to_string() })
}

fn align(value: &str) -> TextAlign {
    match value.trim().to_ascii_lowercase().as_str() {
        "center" => TextAlign::Center,
        "end" => TextAlign::End,
        "left" => TextAlign::Left,
        "right" => TextAlign::Right,
        _ => TextAlign::Start,
    }
}

/// What an element's children count from.
#[derive(Clone, Copy)]
struct Container {
    begin: i64,
    seq: bool,
    space: Space,
}

struct Walk<'a> {
    rates: Rates,
    cues: &'a mut Vec<Cue>,
}

impl Walk<'_> {
    /// The cues in an element. Gives the latest end, or the container's begin if none is later.
    fn container(&mut self, element: &Element, within: Container) -> Met<i64> {
        let (mut cursor, mut latest) = (within.begin, within.begin);
        for child in element.elements() {
            let reference = if within.seq { cursor } else { within.begin };
            let end = if child.is("p") {
                self.cue(&child, reference, within.space)?
            } else if child.is("div") {
                self.div(&child, reference, within.space)?
            } else {
                // xml:space of an unknown element counts, its times and its timeContainer do not.
                let space = space(&child, within.space);
                self.container(&child, Container { begin: reference, seq: within.seq, space })?.max(cursor)
            };
            cursor = end;
            latest = latest.max(end);
        }
        Ok(latest)
    }

    /// Its dur is evaluated after its children, its end never.
    fn div(&mut self, div: &Element, reference: i64, inherited: Space) -> Met<i64> {
        let begin = sum(div, reference, time(div, "begin", self.rates)?.unwrap_or(0))?;
        let latest = self.container(div, Container { begin, seq: is_seq(div), space: space(div, inherited) })?;
        match time(div, "dur", self.rates)? {
            Some(dur) => sum(div, begin, dur),
            None => Ok(latest),
        }
    }

    /// All three times are evaluated before any sum. 13 comes last.
    fn cue(&mut self, p: &Element, reference: i64, inherited: Space) -> Met<i64> {
        let begin = time(p, "begin", self.rates)?.unwrap_or(0);
        let (end, dur) = (time(p, "end", self.rates)?, time(p, "dur", self.rates)?);
        let start = sum(p, reference, begin)?;
        let end = match end {
            Some(end) => sum(p, reference, end)?,
            None => sum(p, start, dur.unwrap_or(0))?,
        };
        let space = space(p, inherited);
        let segments = inline::segments(p, start, self.rates, space)?;
        let segments = inline::styled(p, segments)?;
        if self.cues.len() == CUES {
            return p.refused(13);
        }
        self.cues.push(Cue {
            start,
            end,
            style: p.attr("style").map(|attr| attr.value),
            region: p.attr("region").map(|attr| attr.value),
            preserve: space == Space::Preserve,
            segments,
            extras: extras(p, INLINE),
        });
        Ok(end)
    }
}
