//! Documents for `parse` and single cues for `bytes_to_cue`: every short one of a family, and random ones rich in everything.

use crate::cases::{Rng, SPACES, any_char, any_text};
use crate::extras::{INLINE, REGION, STYLE};
use crate::layers::decimals::{SIZES, any_decimal};
use crate::layers::{colors, times};
use crate::sheets::attr;

/// Every text of up to so many tokens between two pieces. Where the first piece ends in a p, the single cue is the text from
/// there on.
pub struct Family {
    pub before: &'static str,
    pub tokens: &'static [&'static str],
    pub longest: usize,
    pub after: &'static str,
}

/// What stands in a p.
const INLINES: &[&str] = &[
    "<span>", "<span tts:fontWeight='bold'>", "<span xml:space='preserve'>", "<span begin='1s'>", "<x>", "</>",
    "<br/>", "a", " ",
];

/// What stands in a body.
const CONTAINERS: &[&str] = &[
    "<div>",
    "<div timeContainer='seq'>",
    "<div begin='1s' dur='4s'>",
    "<p begin='1s' end='2s'/>",
    "<p dur='3s'>",
    "<p begin='-2s'/>",
    "<x>",
    "<x xml:space='preserve' timeContainer='seq' begin='9s'>",
    "</>",
    " a",
    "<span>",
];

/// What stands around bodies.
const PARTS: &[&str] = &[
    "<tt>",
    "<tt xml:lang='l' ttp:frameRate='25'>",
    "<head>",
    "<styling>",
    "<layout>",
    "<style id='a' tts:color='red'/>",
    "<style xml:id='b' style=' a '>",
    "<region id='r' tts:origin='o'/>",
    "<body>",
    "<p>",
    "x",
    "</>",
];

/// Attributes of any element.
const ATTRS: &[&str] = &[
    " begin='1s'",
    " begin='5f'",
    " begin='x'",
    " begin='1e3s'",
    " end='2s'",
    " dur='3s'",
    " dur='0:0:1.éééé'",
    " end='2562047788:1'",
    " style=' a'",
    " region='r'",
    " xml:space='preserve'",
    " xml:space='default'",
    " tts:color='red'",
    " tts:color='zz'",
    " tts:color='#aé'",
    " tts:fontSize='9px'",
    " tts:fontSize='1e3'",
    " tts:fontFamily=''",
    " tts:fontWeight='bold'",
    " tts:fontStyle='italic'",
    " tts:textDecoration='underline strike'",
    " tts:opacity='1'",
    " tts:backgroundColor='é'",
    " id='i'",
    " TTS:COLOR='blue'",
    " timeContainer='seq'",
    " tts:textAlign='justify'",
    " ttp:frameRate='25'",
];

pub const FAMILIES: &[Family] = &[
    Family { before: "<tt><body><p>", tokens: INLINES, longest: 6, after: "" },
    Family { before: "<tt><body><p xml:space='preserve'>", tokens: INLINES, longest: 5, after: "" },
    Family { before: "<tt><body><p tts:color='zz'>", tokens: INLINES, longest: 5, after: "" },
    Family { before: "<tt><body><p begin='2s' tts:fontSize='9px'>", tokens: INLINES, longest: 5, after: "</></>" },
    // A font of size 0 is not bare.
    Family { before: "<tt><body><p tts:fontSize='0'>", tokens: INLINES, longest: 4, after: "" },
    Family { before: "<tt><body><p><span tts:fontSize='0px'>", tokens: INLINES, longest: 4, after: "</></>" },
    Family { before: "<tt><body>", tokens: CONTAINERS, longest: 5, after: "" },
    Family { before: "<tt><body timeContainer='seq' begin='1s'>", tokens: CONTAINERS, longest: 5, after: "" },
    Family { before: "", tokens: PARTS, longest: 5, after: "" },
    Family { before: "<tt><head>", tokens: PARTS, longest: 4, after: "" },
    Family { before: "<tt ttp:frameRate='25'><body><p", tokens: ATTRS, longest: 4, after: "> a <br/> b</p>" },
    Family { before: "<tt><body begin='1s'><p><span", tokens: ATTRS, longest: 3, after: "> a </span></p>" },
    Family { before: "<tt><body><div", tokens: ATTRS, longest: 3, after: "><p> a </p></div><p begin='1s'/>" },
    Family { before: "<tt><body", tokens: ATTRS, longest: 3, after: "><p> a </p><p dur='1s'/><p/>" },
    Family { before: "<tt", tokens: ATTRS, longest: 3, after: "><body><p begin='5f'> a </p>" },
    Family { before: "<tt><head><styling><style", tokens: ATTRS, longest: 3, after: "/></styling></head>" },
    Family { before: "<tt><head><layout><region", tokens: ATTRS, longest: 3, after: "/></layout></head><body><p/>" },
];

/// Now and then.
fn once(rng: &mut Rng, of: usize) -> bool {
    rng.below(of) == 0
}

/// A document, most often one without a number.
pub fn any_document(rng: &mut Rng) -> String {
    let mut text = String::new();
    if once(rng, 4) {
        text += rng.pick(&[
            "<?xml version='1.0'?>\n", "<!-- a > b -->", "<!DOCTYPE tt>", " \n", "x", "<a/>", "<a><tt/></a>",
            "<p>b</p>", "\u{FEFF}",
        ]);
    }
    let tt = if once(rng, 8) { rng.pick(&["TT", "tt:tt", "a:b:Tt", "t", "x:p"]) } else { "tt" };
    text.push('<');
    text += tt;
    root(rng, &mut text);
    text.push('>');
    // Only the first head and body count, wherever they stand.
    for _ in 0..rng.pick(&[1, 1, 1, 2, 3]) {
        if once(rng, 3) {
            head(rng, &mut text);
        }
        if !once(rng, 6) {
            body(rng, &mut text);
        }
        junk(rng, &mut text);
    }
    close(rng, &mut text, tt);
    junk(rng, &mut text);
    text
}

/// A long one: blocks or inline content up to so many bytes, often as many as are taken.
pub fn any_long(rng: &mut Rng) -> String {
    let mut text = String::from("<tt");
    root(rng, &mut text);
    text.push('>');
    if once(rng, 2) {
        head(rng, &mut text);
    }
    let inside = once(rng, 2);
    text.push_str(if inside { "<body><p>" } else { "<body timeContainer='seq'>" });
    let bytes = rng.pick(&[8_000, 30_000, 65_400, 65_400]) + rng.below(140);
    while text.len() < bytes {
        if inside { inlines(rng, &mut text, 6) } else { block(rng, &mut text, 6) }
    }
    if once(rng, 2) {
        let mut cut = bytes;
        while !text.is_char_boundary(cut) {
            cut -= 1;
        }
        text.truncate(cut);
    }
    text
}

/// A text for a single cue: most often a p.
pub fn any_cue(rng: &mut Rng) -> String {
    let mut text = String::new();
    if once(rng, 8) {
        text += rng.pick(&["<?xml?>", "x", "<a/>", "<a><p>c</p></a>", " ", "<!---->", "<tt>", "<br/>"]);
    }
    p(rng, &mut text, 4);
    if once(rng, 8) {
        p(rng, &mut text, 1);
    }
    text
}

fn root(rng: &mut Rng, text: &mut String) {
    for _ in 0..rng.pick(&[0, 1, 2, 4]) {
        let name = rng.pick(&[
            "xml:lang", "ttp:frameRate", "ttp:tickRate", "ittp:frameRate", "ttp:x", "ttp:", "ittp:a:b", "xml:space",
            "ttp:activeArea", "lang", "ttp", "ittp:aspectRatio", "TTP:frameRate", "begin", "xmlns:ttp",
        ]);
        let value = match name.rsplit(':').next() {
            Some("frameRate" | "tickRate") => any_rate(rng),
            Some("space") => any_space(rng),
            _ => any_words(rng),
        };
        // The case of its letters counts: no `attr`, which changes it now and then.
        text.push_str(&format!(
            " {name}=\"{}\"",
            value.replace('&', "&amp;").replace('"', "&quot;").replace('\r', "&#13;")
        ));
    }
}

fn any_rate(rng: &mut Rng) -> String {
    match rng.below(12) {
        0 => rng.pick(&["0", "-25", "", "x", "25 ", "\u{3000}30", "1e3", "nan", "1234567890123456", "+25"]).to_string(),
        1 => any_decimal(rng, crate::layers::decimals::TIMES),
        _ => rng.pick(&["25", "30", "24", "29.97", "10000000", "1", "1000"]).to_string(),
    }
}

fn any_space(rng: &mut Rng) -> String {
    rng.pick(&["preserve", "preserve", "default", "default", "Preserve", "", "preserve "]).to_string()
}

fn any_words(rng: &mut Rng) -> String {
    match rng.below(8) {
        0 => any_text(rng, 6),
        1 => rng.pick(&["", " ", "itts:", "a&b", "<", "\"", "'", "]]>", "\t\n"]).to_string(),
        _ => rng.pick(&["en", "a", "b", "a b", " b a ", "Arial, serif", "10% 80%", "é", "日本"]).to_string(),
    }
}

fn head(rng: &mut Rng, text: &mut String) {
    text.push_str(rng.pick(&["<head>", "<head>", "<HEAD>", "<tt:head a='b'>"]));
    for _ in 0..rng.pick(&[0, 1, 2, 3]) {
        let many = rng.pick(&[0, 1, 1, 2, 4]);
        match rng.below(8) {
            0 => text.push_str("<metadata><x>y</x></metadata>"),
            1..5 => {
                text.push_str(rng.pick(&["<styling>", "<tt:Styling>"]));
                (0..many).for_each(|_| style(rng, text));
                junk(rng, text);
                close(rng, text, "styling");
            }
            _ => {
                text.push_str(rng.pick(&["<layout>", "<x:LAYOUT>"]));
                (0..many).for_each(|_| region(rng, text));
                junk(rng, text);
                close(rng, text, "layout");
            }
        }
    }
    close(rng, text, "head");
}

fn style(rng: &mut Rng, text: &mut String) {
    text.push_str(rng.pick(&["<style", "<style", "<style", "<tt:STYLE", "<styl"]));
    identity(rng, text);
    if once(rng, 2) {
        let chain = any_words(rng);
        attr(rng, text, "style", &chain);
    }
    looks(rng, text, 3);
    if once(rng, 3) {
        let align =
            rng.pick(&["start", "center", "end", "left", "right", "justify", " Center\t", "JUSTIFY ", "", "middle"]);
        attr(rng, text, "tts:textAlign", align);
    }
    extras(rng, text, STYLE);
    text.push_str(rng.pick(&["/>", "/>", "></style>", "><style id='c'/></style>"]));
}

fn region(rng: &mut Rng, text: &mut String) {
    text.push_str(rng.pick(&["<region", "<region", "<region", "<tt:REGION", "<area"]));
    identity(rng, text);
    extras(rng, text, REGION);
    text.push_str(rng.pick(&["/>", "/>", "><style tts:origin='x'/></region>"]));
}

fn identity(rng: &mut Rng, text: &mut String) {
    for name in rng.pick(&[&["xml:id"][..], &["xml:id"], &["id"], &[], &["id", "xml:id"], &["xml:id", "xml:id"]]) {
        let id = any_words(rng);
        attr(rng, text, name, &id);
    }
}

/// Those that are kept as they were.
fn extras(rng: &mut Rng, text: &mut String, names: &[&'static str]) {
    for _ in 0..rng.pick(&[0, 0, 1, 2, 5]) {
        let (name, value) = (rng.pick(names), any_words(rng));
        attr(rng, text, name, &value);
    }
}

/// What styles, ps and spans read; each stands there once in so many times.
fn looks(rng: &mut Rng, text: &mut String, of: usize) {
    for name in ["tts:color", "tts:backgroundColor"] {
        if once(rng, of) {
            let color = if once(rng, 12) {
                colors::any_color(rng)
            } else {
                rng.pick(&["red", "#123456", "zz", "#12345678", "rgb(1,2,3)", ""]).to_string()
            };
            attr(rng, text, name, &color);
        }
    }
    if once(rng, of) {
        let family = any_words(rng);
        attr(rng, text, "tts:fontFamily", &family);
    }
    if once(rng, of) {
        let size = if once(rng, 12) {
            any_decimal(rng, SIZES)
        } else {
            rng.pick(&["8", "80%", "1.5em", "-3px", "x", "12px 14px", "100000", "0.5"]).to_string()
        };
        let size = size + rng.pick(&["", "px", "c", "é"]);
        attr(rng, text, "tts:fontSize", &size);
    }
    if once(rng, of) {
        let weight = rng.pick(&["bold", "bold", "BOLD", "normal", "", "bold "]);
        attr(rng, text, "tts:fontWeight", weight);
    }
    if once(rng, of) {
        let slant = rng.pick(&["italic", "oblique", "Italic", "normal", ""]);
        attr(rng, text, "tts:fontStyle", slant);
    }
    if once(rng, of) {
        let decoration =
            rng.pick(&["underline", "lineThrough", "line-through", "STRIKE", "none", "noUnderline strike", ""]);
        attr(rng, text, "tts:textDecoration", decoration);
    }
}

fn body(rng: &mut Rng, text: &mut String) {
    text.push_str(rng.pick(&["<body", "<body", "<body", "<BODY", "<tt:body"]));
    container(rng, text);
    text.push('>');
    for _ in 0..rng.pick(&[0, 1, 2, 3, 4, 6]) {
        block(rng, text, 4);
    }
    close(rng, text, "body");
}

/// What counts on a container, and what does not.
fn container(rng: &mut Rng, text: &mut String) {
    for name in ["begin", "dur", "end"] {
        if once(rng, 4) {
            let time = any_time(rng);
            attr(rng, text, name, &time);
        }
    }
    if once(rng, 3) {
        let kind = rng.pick(&["seq", "seq", "SEQ", " seq\u{A0}", "par", ""]);
        attr(rng, text, "timeContainer", kind);
    }
    if once(rng, 6) {
        let space = any_space(rng);
        attr(rng, text, "xml:space", &space);
    }
}

fn any_time(rng: &mut Rng) -> String {
    match rng.below(16) {
        0 => times::any_time(rng).0,
        1 => rng
            .pick(&["-1s", "x", "", "5", "-00:00:01", "0s", "9223372036854s", "2562047788:00:54.775", "1e3s"])
            .to_string(),
        2 => format!("{}f", rng.below(100)),
        3 => format!("{}t", rng.below(100_000)),
        4 => format!("{:02}:{:02}:{:02}:{:02}", rng.below(3), rng.below(60), rng.below(60), rng.below(30)),
        5..9 => format!("{:02}:{:02}:{:02}.{:03}", rng.below(24), rng.below(60), rng.below(60), rng.below(1000)),
        _ => format!("{}{}", rng.below(2_000) as f64 / 8.0, rng.pick(&["s", "s", "ms", "m", "h"])),
    }
}

fn block(rng: &mut Rng, text: &mut String, deep: usize) {
    match rng.below(if deep == 0 { 6 } else { 10 }) {
        0 => junk(rng, text),
        1..6 => p(rng, text, 3),
        6..9 => {
            text.push_str(rng.pick(&["<div", "<div", "<Div", "<x:div"]));
            container(rng, text);
            text.push('>');
            for _ in 0..rng.pick(&[0, 1, 2, 3]) {
                block(rng, text, deep - 1);
            }
            close(rng, text, "div");
        }
        _ => {
            text.push_str(rng.pick(&["<section", "<span", "<body"]));
            container(rng, text);
            text.push('>');
            for _ in 0..rng.pick(&[0, 1, 2]) {
                block(rng, text, deep - 1);
            }
            close(rng, text, "section");
        }
    }
}

fn p(rng: &mut Rng, text: &mut String, deep: usize) {
    text.push_str(rng.pick(&["<p", "<p", "<p", "<p", "<P", "<tt:p"]));
    container(rng, text);
    for name in ["style", "region"] {
        if once(rng, 4) {
            let value = any_words(rng);
            attr(rng, text, name, &value);
        }
    }
    if once(rng, 3) {
        looks(rng, text, 3);
    }
    if once(rng, 4) {
        extras(rng, text, INLINE);
    }
    if once(rng, 12) {
        text.push_str("/>");
        return;
    }
    text.push('>');
    inlines(rng, text, deep);
    close(rng, text, "p");
}

fn inlines(rng: &mut Rng, text: &mut String, deep: usize) {
    for _ in 0..rng.pick(&[0, 1, 1, 2, 3, 5]) {
        match rng.below(if deep == 0 { 10 } else { 16 }) {
            0..3 => text.push_str(rng.pick(&["a", " a", "a ", " a  b ", "\n  a\n", "é", "\u{A0}", "\u{2003}"])),
            3 => text.push_str(rng.pick(&[" ", "  ", "\n", "\t", "\u{C}", " \n "])),
            4..6 => text.push_str(rng.pick(&["<br/>", "<br/>", "<BR/>", "<br>x</br>", "<tt:br a='b'/>"])),
            6 => text.push_str(rng.pick(&[
                "&amp;", "&lt;b&gt;", "&#32;", "&#x20;&#9;", "&nbsp;", "&x;", "&#13;", "&", "&#12;", "&#xE9;",
            ])),
            7 => text.push_str(rng.pick(&[
                "<![CDATA[]]>", "<![CDATA[ ]]>", "<![CDATA[ c ]]>", "<![CDATA[&amp;<]]>", "<!-- d -->", "<!---->",
            ])),
            8 => text.push_str(&any_text(rng, 5).replace(['<', '\r'], "_")),
            9 => text.push_str("b"),
            10..14 => {
                text.push_str(rng.pick(&["<span", "<span", "<Span", "<tt:span"]));
                span_attrs(rng, text);
                text.push('>');
                inlines(rng, text, deep - 1);
                close(rng, text, "span");
            }
            14 => {
                text.push_str(rng.pick(&["<i", "<metadata", "<p", "<div"]));
                container(rng, text);
                text.push('>');
                inlines(rng, text, deep - 1);
                close(rng, text, "i");
            }
            _ => text.push_str(rng.pick(&["<span/>", "<span begin='1s'/>", "<set/>", "<span tts:fontWeight='bold'/>"])),
        }
    }
}

fn span_attrs(rng: &mut Rng, text: &mut String) {
    if once(rng, 5) {
        let time = any_time(rng);
        attr(rng, text, "begin", &time);
    }
    if once(rng, 5) {
        let space = any_space(rng);
        attr(rng, text, "xml:space", &space);
    }
    if once(rng, 2) {
        looks(rng, text, 4);
    }
    if once(rng, 12) {
        attr(rng, text, "end", "1e3s");
    }
}

/// A close tag; now and then none, or a comment before it, so that the parent takes it.
fn close(rng: &mut Rng, text: &mut String, name: &str) {
    match rng.below(80) {
        0 => {}
        1 => text.push_str("</>"),
        2 => text.push_str("<!--c--></x>"),
        _ => text.push_str(&format!("</{name}>")),
    }
}

/// What no reader looks at, between elements.
fn junk(rng: &mut Rng, text: &mut String) {
    match rng.below(12) {
        0 => text.push_str("<!-- e -->"),
        1 => text.push_str(" x "),
        2 => text.push_str("\n  "),
        3 => text.push_str("<![CDATA[ f ]]>"),
        4 => text.push_str("<x y='z'/>"),
        5 => text.push_str(&any_char(rng).to_string().replace(['<', '\r'], "_")),
        6 => text.push(rng.pick(SPACES)),
        _ => {}
    }
}
