//! The inline content of a p as segments: document 01's "Text and styles", in the Rust's order of evaluation.

use crate::elements::{Child, Element, Met};
use crate::judge::{Rates, Space, color, decoration, says, size, space, sum, time};
use crate::placed::{Placed, Segment, Wrapper};

/// What is written on p counts on the whole cue.
const STYLED: [&str; 6] =
    ["tts:color", "tts:fontFamily", "tts:fontSize", "tts:fontWeight", "tts:fontStyle", "tts:textDecoration"];

/// The segments of a p; spans count from `base`.
pub fn segments(p: &Element, base: i64, rates: Rates, space: Space) -> Met<Vec<Segment>> {
    let mut content = Content { rates, boundary: true };
    let mut segments = content.siblings(p, base, space)?;
    if space == Space::Collapse {
        trim(&mut segments);
    }
    Ok(segments)
}

/// The same with what p's own attributes say. A font that says nothing dissolves.
pub fn styled(p: &Element, segments: Vec<Segment>) -> Met<Vec<Segment>> {
    if STYLED.iter().all(|name| p.attr(name).is_none()) {
        return Ok(segments);
    }
    Ok(match wrapped(p, segments)? {
        Segment::Wrapper(Wrapper::Font { family: None, size: None }, inside) => inside,
        segment => vec![segment],
    })
}

struct Content {
    rates: Rates,
    /// White space here joins what stands before it, and is dropped where it collapses.
    boundary: bool,
}

impl Content {
    fn siblings(&mut self, element: &Element, base: i64, space: Space) -> Met<Vec<Segment>> {
        let mut segments = Vec::new();
        for child in element.children() {
            match child {
                Child::Text(text) => segments.extend(self.text(text, space)),
                Child::Element(child) if child.is("br") => {
                    // "A break trims only its own sibling list."
                    if space == Space::Collapse {
                        trim(&mut segments);
                    }
                    segments.push(Segment::Break);
                    self.boundary = true;
                }
                Child::Element(child) if child.is("span") => self.span(&child, base, space, &mut segments)?,
                // xml:space and begin of an unknown element do not count.
                Child::Element(child) => segments.extend(self.siblings(&child, base, space)?),
            }
        }
        Ok(segments)
    }

    fn text(&mut self, mut text: Placed, space: Space) -> Option<Segment> {
        let last = text.string.chars().last()?;
        if space == Space::Collapse {
            text.string = self.collapsed(&text.string);
        } else {
            self.boundary = is_space(last);
        }
        (!text.string.is_empty()).then_some(Segment::Text(text))
    }

    /// "Collapse joins runs of space, tab, LF, CR, FF across nodes."
    fn collapsed(&mut self, text: &str) -> String {
        let mut joined = String::new();
        for c in text.chars() {
            if !is_space(c) {
                joined.push(c);
            } else if !self.boundary {
                joined.push(' ');
            }
            self.boundary = is_space(c);
        }
        joined
    }

    fn span(&mut self, span: &Element, base: i64, inherited: Space, segments: &mut Vec<Segment>) -> Met<()> {
        let begin = time(span, "begin", self.rates)?;
        let inner = sum(span, base, begin.unwrap_or(0))?;
        let children = self.siblings(span, inner, space(span, inherited))?;
        if begin.is_some() {
            segments.push(Segment::Timestamp(inner));
        }
        segments.push(wrapped(span, children)?);
        Ok(())
    }
}

fn is_space(c: char) -> bool {
    " \t\n\r\u{C}".contains(c)
}

/// Takes the last space of the last text; goes on to the left past what is then empty, up to a break. True if it ended.
fn trim(segments: &mut [Segment]) -> bool {
    segments.iter_mut().rev().any(|segment| match segment {
        Segment::Text(text) => {
            if text.string.ends_with(' ') {
                text.string.pop();
            }
            !text.string.is_empty()
        }
        Segment::Break => true,
        Segment::Timestamp(_) => false,
        Segment::Wrapper(_, inside) => trim(inside),
    })
}

/// The segments within what an element's attributes say, the font outermost; a font that says nothing around none or several.
/// The size is evaluated before the colour.
fn wrapped(element: &Element, mut segments: Vec<Segment>) -> Met<Segment> {
    let size = size(element, without_unit)?;
    let family = element.attr("tts:fontFamily").map(|attr| attr.value);
    let color = color(element, "tts:color")?.map(|[r, g, b, _]| Wrapper::Color([r, g, b]));
    let [underline, strike] = decoration(element);
    let font = family.is_some() || size.is_some();
    let wrappers = [
        says(element, "tts:fontWeight", &["bold"]).then_some(Wrapper::Bold),
        says(element, "tts:fontStyle", &["italic", "oblique"]).then_some(Wrapper::Italic),
        underline.then_some(Wrapper::Underline),
        strike.then_some(Wrapper::Strike),
        color,
        font.then_some(Wrapper::Font { family, size }),
    ];
    for wrapper in wrappers.into_iter().flatten() {
        segments = vec![Segment::Wrapper(wrapper, segments)];
    }
    Ok(match segments.pop() {
        Some(only) if segments.is_empty() => only,
        last => {
            segments.extend(last);
            Segment::Wrapper(Wrapper::Font { family: None, size: None }, segments)
        }
    })
}

/// "For a p's or span's size what is left when trailing characters other than digits and points go."
fn without_unit(value: &str) -> &str {
    value.trim_end_matches(|c: char| !c.is_ascii_digit() && c != '.')
}
