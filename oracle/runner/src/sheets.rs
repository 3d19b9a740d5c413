//! Documents whose styles, regions and cues refer to each other.

use crate::answer::Answer;
use crate::cases::{NO_SPACES, Rng, SPACES, any_char, any_text};
use crate::layers::colors;
use crate::layers::decimals::{SIZES, any_decimal};
use crate::tables::spelling;

/// A document, the ids that it uses, and how many cues it has.
pub struct Sheet {
    pub text: String,
    pub ids: Vec<String>,
    pub cues: usize,
}

/// Short ids: `Aa`, `BB` and `C#` have one hash if it multiplies by 31, and the last ones look like white space.
const IDS: &[&str] = &[
    "a", "b", "c", "d", "e", "A", "aa", "Aa", "BB", "C#", "s1", "s2", "é", "e\u{301}", "日本", "\u{1F680}", "a.b", "a:b", "-",
    "\u{200B}", "\u{FEFF}", "\u{180E}", "\u{1F}x",
];

/// How the styles refer to each other.
#[derive(Clone, Copy)]
enum Shape {
    Any,
    /// Each to the next one.
    Line,
    /// The last to the first again.
    Ring,
    /// Each of two to both of the next two.
    Ladder,
    All,
    Itself,
    Nothing,
}

pub fn any_sheet(rng: &mut Rng) -> Sheet {
    let ids = any_ids(rng);
    let count = match rng.below(64) {
        0 => 30 + rng.below(100),
        1..8 => rng.below(30),
        _ => rng.below(8),
    };
    let shape = rng.pick(&[
        Shape::Any, Shape::Any, Shape::Any, Shape::Any, Shape::Line, Shape::Ring, Shape::Ladder, Shape::All, Shape::Itself, Shape::Nothing,
    ]);
    let mut text = String::from("<tt><head><styling>");
    for at in 0..count {
        let id = ids[if rng.below(8) == 0 { rng.below(ids.len()) } else { at % ids.len() }].clone();
        let chain = chain(rng, shape, at, &ids);
        style(rng, &mut text, &id, chain);
    }
    text += "</styling><layout>";
    for _ in 0..rng.below(6) {
        region(rng, &mut text, &ids);
    }
    text += "</layout></head><body>";
    let cues = rng.below(6);
    for _ in 0..cues {
        cue(rng, &mut text, &ids);
    }
    Sheet { text: text + "</body></tt>", ids, cues }
}

fn any_ids(rng: &mut Rng) -> Vec<String> {
    let mut ids = Vec::new();
    for _ in 0..1 + rng.below(10) {
        ids.push(match rng.below(24) {
            0 => String::new(),
            1 => rng.pick(&["x", "日", "\u{1F680}"]).repeat(1 + rng.below(300)),
            // It shares its beginning with another.
            2 => format!("{}{}", rng.pick(IDS), rng.pick(IDS)),
            3 => any_text(rng, 8),
            4 => format!("{}{}", rng.pick(IDS), rng.pick(NO_SPACES)),
            _ => rng.pick(IDS).to_string(),
        });
    }
    ids
}

fn chain(rng: &mut Rng, shape: Shape, at: usize, ids: &[String]) -> Option<String> {
    let id = |at: usize| ids[at % ids.len()].clone();
    let chain = match shape {
        Shape::Nothing => return None,
        Shape::Any if rng.below(2) == 0 => return None,
        Shape::Any => return Some(any_value(rng, ids, 5)),
        Shape::Line if at + 1 >= ids.len() => return None,
        Shape::Line | Shape::Ring => vec![id(at + 1)],
        Shape::Ladder => vec![id(at / 2 * 2 + 2), id(at / 2 * 2 + 3)],
        Shape::All => ids.to_vec(),
        Shape::Itself => vec![id(at), id(at)],
    };
    Some(spaced(rng, &chain))
}

/// A style value: at most so many ids, known and unknown, and what stands between them.
pub fn any_value(rng: &mut Rng, ids: &[String], most: usize) -> String {
    let words: Vec<String> = (0..rng.below(most + 1))
        .map(|_| match rng.below(12) {
            0 => rng.pick(IDS).to_string(),
            1 => any_text(rng, 4),
            2 => any_char(rng).to_string(),
            _ => ids[rng.below(ids.len())].clone(),
        })
        .collect();
    spaced(rng, &words)
}

/// White space of any kind between, and sometimes before and after; now and then none between.
fn spaced(rng: &mut Rng, words: &[String]) -> String {
    let mut value = String::new();
    let spaces = |rng: &mut Rng, most: usize| -> String {
        if rng.below(3) > 0 { " ".to_string() } else { (0..rng.below(most)).map(|_| rng.pick(SPACES)).collect() }
    };
    for (at, word) in words.iter().enumerate() {
        if at > 0 || rng.below(8) == 0 {
            value += &spaces(rng, 4);
        }
        value += word;
    }
    if rng.below(8) == 0 {
        value += &spaces(rng, 3);
    }
    value
}

fn style(rng: &mut Rng, text: &mut String, id: &str, chain: Option<String>) {
    text.push_str(rng.pick(&["<style", "<style", "<style", "<tt:style", "<STYLE"]));
    identity(rng, text, id);
    if let Some(chain) = chain {
        attr(rng, text, "style", &chain);
    }
    looks(rng, text, 6, any_taken_color, any_taken_size);
    if rng.below(3) == 0 {
        let decoration = rng.pick(&["underline", "lineThrough", "line-through", "STRIKE", "none", "noUnderline strike"]);
        attr(rng, text, "tts:textDecoration", decoration);
    }
    others(rng, text);
    text.push_str("/>");
}

fn region(rng: &mut Rng, text: &mut String, ids: &[String]) {
    text.push_str("<region");
    let id = ids[rng.below(ids.len())].clone();
    identity(rng, text, &id);
    if rng.below(2) == 0 {
        let chain = any_value(rng, ids, 4);
        attr(rng, text, "style", &chain);
    }
    looks(rng, text, 5, colors::any_color, any_size);
    if rng.below(8) == 0 {
        attr(rng, text, "tts:textDecoration", "underline");
    }
    others(rng, text);
    text.push_str("/>");
}

fn cue(rng: &mut Rng, text: &mut String, ids: &[String]) {
    text.push_str("<p");
    if rng.below(2) == 0 {
        let id = ids[rng.below(ids.len())].clone();
        attr(rng, text, "region", &id);
    }
    if rng.below(2) == 0 {
        let value = any_value(rng, ids, 4);
        attr(rng, text, "style", &value);
    }
    text.push_str(rng.pick(&["/>", ">x</p>", "><span>y</span></p>", ">a<br/>b</p>"]));
}

/// Mostly one id; sometimes none, or one beside it that does not count.
fn identity(rng: &mut Rng, text: &mut String, id: &str) {
    match rng.below(16) {
        0 => {}
        1 => {
            attr(rng, text, "id", "b");
            attr(rng, text, "xml:id", id);
        }
        2 | 3 => attr(rng, text, "id", id),
        _ => attr(rng, text, "xml:id", id),
    }
}

/// The attributes that styles and regions share; each stands there once in so many times.
fn looks(
    rng: &mut Rng,
    text: &mut String,
    once: usize,
    color: impl Fn(&mut Rng) -> String,
    size: impl Fn(&mut Rng) -> String,
) {
    for name in ["tts:color", "tts:backgroundColor"] {
        if rng.below(once) == 0 {
            let value = color(rng);
            attr(rng, text, name, &value);
        }
    }
    if rng.below(once) == 0 {
        let family = if rng.below(2) == 0 { any_text(rng, 6) } else { "Arial, serif".to_string() };
        attr(rng, text, "tts:fontFamily", &family);
    }
    if rng.below(once) == 0 {
        let value = size(rng);
        attr(rng, text, "tts:fontSize", &value);
    }
    if rng.below(once) == 0 {
        let weight = rng.pick(&["bold", "bold", "BOLD", "normal", "", "bold "]);
        attr(rng, text, "tts:fontWeight", weight);
    }
    if rng.below(once) == 0 {
        let slant = rng.pick(&["italic", "oblique", "Italic", "OBLIQUE", "normal", ""]);
        attr(rng, text, "tts:fontStyle", slant);
    }
    if rng.below(once) == 0 {
        let align = rng.pick(&["start", "center", "end", "left", "right", "justify", " Center\t", "RIGHT", "\u{2003}left\u{85}", "", "middle"]);
        attr(rng, text, "tts:textAlign", align);
    }
}

fn others(rng: &mut Rng, text: &mut String) {
    if rng.below(8) == 0 {
        attr(rng, text, "tts:displayAlign", "after");
        let value = any_text(rng, 5);
        attr(rng, text, "tts:origin", &value);
        attr(rng, text, "itts:fillLineGap", "true");
    }
}

/// A colour on which the Rust does not stop.
fn any_taken_color(rng: &mut Rng) -> String {
    loop {
        let color = colors::any_color(rng);
        if !matches!(colors::rust(&color), Answer::Number(_)) {
            return color;
        }
    }
}

fn any_size(rng: &mut Rng) -> String {
    any_decimal(rng, SIZES) + rng.pick(&["px", "%", "em", "c", "", " 14px", "é"])
}

/// A size that the tables hold.
fn any_taken_size(rng: &mut Rng) -> String {
    loop {
        let size = any_size(rng);
        let digits: String = size.chars().take_while(|c| c.is_ascii_digit() || *c == '.').collect();
        if digits.parse().is_ok_and(|value: f32| spelling(value).is_none()) {
            continue;
        }
        return size;
    }
}

/// An attribute, its value in either quotes.
pub fn attr(rng: &mut Rng, text: &mut String, name: &str, value: &str) {
    let quote = rng.pick(&['"', '\'']);
    text.push(' ');
    text.push_str(&if rng.below(20) == 0 { name.to_ascii_uppercase() } else { name.to_string() });
    text.push('=');
    text.push(quote);
    for c in value.chars() {
        match c {
            '&' => text.push_str("&amp;"),
            '<' => text.push_str("&lt;"),
            // A carriage return itself would not be decoded unchanged.
            '\r' => text.push_str("&#13;"),
            _ if c == quote || rng.below(60) == 0 => text.push_str(&format!("&#{};", c as u32)),
            _ => text.push(c),
        }
    }
    text.push(quote);
}
