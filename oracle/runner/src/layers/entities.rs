//! Entities read and written. The port writes into a buffer that it is lent, so each question is asked at
//! several lengths of the buffer around the one that just fits.

use super::{Layer, scan, utf8};
use crate::bench::{Bench, cjk, filled, mixed, prose};
use crate::cases::{NO_SPACES, Rng, SPACES, any_char, any_text, every_text};
use crate::compare::{Esc, Run};
use crate::lend::Lent;
use crate::record::{Lines, Recording};
use reference::ttml::access;

pub const LAYER: Layer = Layer {
    name: "entities",
    compare,
    record: Some(Recording { file: "crates/replay_entities/stdin", count: 1_500, lines }),
    bench: Some(bench),
};

/// The Rust's functions allocate what they make; the port's write it into a buffer.
type Rust = fn(&str) -> String;
type Port = fn(&[u8], &mut [u8]) -> usize;

/// What decides how `&` reads: every text of up to 6 of these is asked, 5,229,043 in all.
const SYMBOLS: &[char] = &['&', '#', 'x', ';', '+', 'A', 'a', '0', '1', '9', '<', ' ', 'é'];

/// What decides how a text is written, with neighbours.
const WRITTEN: &[char] = &['&', '<', '>', '"', '\'', 'a', ';', 'é', '\u{1F680}'];

const NAMES: &[&str] = &["amp", "lt", "gt", "quot", "apos", "nbsp"];
const NEAR_NAMES: &[&str] = &[
    "AMP", "Amp", "LT", "NBSP", "am", "ampe", "amp ", "l", "ltt", "gt;", "quo", "apo", "nbs", "copy", "#", "#x", "#X",
    "",
];

/// What may stand before the digits of a numeric reference.
const OPENINGS: &[&str] = &["#", "#x", "#X", "#+", "#x+", "#X+", "#-", "#x-", "#xx", "##"];

/// Code points, and others, at which something ends: of the lengths of UTF-8, of the characters, of u32.
const CODES: &[u128] = &[
    0, 1, 9, 0x26, 0x3C, 0x41, 0x7F, 0x80, 0xA0, 0xE9, 0x7FF, 0x800, 0xD7FF, 0xD800, 0xDBFF, 0xDC00, 0xDFFF, 0xE000,
    0xFFFD, 0xFFFF, 0x1_0000, 0x1_F680, 0x10_FFFF, 0x11_0000, 0x7FFF_FFFF, 0x8000_0000, 0xFFFF_FFFF, 0x1_0000_0000,
    0x1_0000_0041, 0xFFFF_FFFF_FFFF, 0x1_0000_0000_0000_0041,
];

fn compare(run: &mut Run) {
    let lent = &mut Lent::default();
    every_text(SYMBOLS, 6, |text| decode(run, lent, text));
    for corner in decode_corners() {
        decode(run, lent, &corner);
    }
    for code in (0..0x11_0010).chain(0xFFFF_FFF0..0x1_0000_0010_u64) {
        decode(run, lent, &format!("&#{code};"));
        decode(run, lent, &format!("&#x{code:x};"));
    }
    every_text(&['#', 'x', 'X', '+', '-', '0', '4', 'f', 'F', 'é'], 5, |name| lookup(run, name));
    every_text(WRITTEN, 5, |text| escapes(run, lent, text));
    for _ in 0..run.count {
        let text = any_coded(&mut run.rng, 12);
        decode(run, lent, &text);
        let name = any_name(&mut run.rng);
        lookup(run, &name);
        let text = any_written(&mut run.rng, 30);
        escapes(run, lent, &text);
    }
}

fn decode(run: &mut Run, lent: &mut Lent, text: &str) {
    let bytes = text.as_bytes();
    let rust = access::decode_entities(text);
    // The port asks for as many bytes as the text has, however few are written.
    for length in [text.len().saturating_sub(1), text.len(), text.len() + 5] {
        let rust = (length >= text.len()).then_some(Esc(rust.as_bytes()));
        let port = lent.ask(length, |out| port::probe_decode_entities(bytes, out));
        run.same("decode_entities", format_args!("{:?} into {length} bytes", Esc(bytes)), Ok(rust), port);
    }
}

fn lookup(run: &mut Run, name: &str) {
    let rust = access::lookup_entity(name).map_or(u32::MAX, |c| c as u32);
    let port = port::probe_lookup_entity(name.as_bytes());
    run.same("lookup_entity", format_args!("{:?}", Esc(name.as_bytes())), rust, port);
}

fn escapes(run: &mut Run, lent: &mut Lent, text: &str) {
    escape(run, lent, "escape_text", text, access::escape_text, port::probe_escape_text);
    escape(run, lent, "escape_attr", text, access::escape_attr, port::probe_escape_attr);
}

fn escape(run: &mut Run, lent: &mut Lent, name: &'static str, text: &str, rust: Rust, port: Port) {
    let bytes = text.as_bytes();
    lent.same(run, name, format_args!("{:?}", Esc(bytes)), rust(text).as_bytes(), |out| port(bytes, out));
}

/// A numeric reference's name, with zeros so that it has at least so many bytes.
fn numeric(opening: &str, code: u128, bytes: usize) -> String {
    let zeros = bytes.saturating_sub(opening.len());
    match opening.as_bytes().get(1) {
        Some(b'X') => format!("{opening}{code:0zeros$X}"),
        Some(b'x') => format!("{opening}{code:0zeros$x}"),
        _ => format!("{opening}{code:0zeros$}"),
    }
}

/// The corners of document 01 and of the Rust's code.
fn decode_corners() -> Vec<String> {
    let mut corners: Vec<String> = [
        "", "a", "é", "&", "&&", "&;", ";", "&#;", "&#x;", "&#X;", "&#+;", "&#x+;", "&# ;", "&#+65;", "&#x+41;",
        "&#-65;", "&#++65;", "&AMP;", "&nbsp;", "&#xD800;", "&#65;&#66;", "&amp;lt;", "&amp;amp;", "&lt;&gt;", "&amp",
        "&amp &amp;", "&amp&amp;", "&amp<amp;", "&am p;", "a&b;c", "&\u{A0}amp;", "&amp\u{A0};", "&amp\u{2003};",
        "&amp\u{200B};", "&\u{85};", "&é;", "&#é;", "&#6\u{3000}5;", "&amp;;", "&lt;p&gt;", "R&D; Q&A", "&#x41",
        "&#0;", "&\0;", "& amp;", "&amp;\r\n", "&#13;&#10;", "&#xFEFF;", "\u{FEFF}&amp;",
    ]
    .map(String::from)
    .to_vec();
    corners.extend(NAMES.iter().chain(NEAR_NAMES).map(|name| format!("<{name}>&{name};</{name}>")));
    // Names of 15 to 18 bytes: of one byte each, ending in a longer character, and numeric.
    for bytes in 15..=18 {
        let name = &"abcdefghijklmnopqr"[..bytes];
        for name in [name.to_string(), format!("{}é", &name[2..]), format!("{}\u{1F680}", &name[4..])] {
            corners.extend([format!("&{name};"), format!("&{name}"), format!("&{name}&lt;"), format!("&{name} ;")]);
        }
        for opening in &OPENINGS[..4] {
            corners.push(format!("&{};", numeric(opening, 0x41, bytes)));
        }
    }
    for &code in CODES {
        corners.push(format!("&{};", numeric("#", code, 0)));
        corners.push(format!("&{};", numeric("#X", code, 0)));
    }
    corners
}

/// The name of an entity, or nearly so.
fn any_name(rng: &mut Rng) -> String {
    match rng.below(10) {
        0..3 => rng.pick(NAMES).to_string(),
        3 => rng.pick(NEAR_NAMES).to_string(),
        4 => any_text(rng, 18),
        5 => (0..rng.below(18)).map(|_| rng.pick(SYMBOLS)).collect(),
        6 => {
            // 14 to 20 bytes, the last of them perhaps of one longer character.
            let mut name = "abcdefghijklmnop"[..13 + rng.below(4)].to_string();
            name.push(any_char(rng));
            name
        }
        _ => {
            let code = if rng.below(2) == 0 { rng.pick(CODES) } else { (rng.next() >> (30 + rng.below(34))).into() };
            let bytes = rng.pick(&[0, 0, 0, 15, 16, 17, 18]);
            numeric(rng.pick(OPENINGS), code.wrapping_add_signed(rng.below(5) as i128 - 2), bytes)
        }
    }
}

/// A text with entities, and with what breaks them.
fn any_coded(rng: &mut Rng, most: usize) -> String {
    let mut text = String::new();
    for _ in 0..rng.below(most + 1) {
        match rng.below(8) {
            0..3 => text.push(rng.pick(SYMBOLS)),
            3 | 4 => text += &format!("&{};", any_name(rng)),
            5 => text += &format!("&{}", any_name(rng)),
            6 => text.extend(std::iter::repeat_n('&', rng.below(6))),
            _ => text.push(any_char(rng)),
        }
    }
    // Something foreign inside what may be a name.
    if rng.below(4) == 0 {
        let at = text.floor_char_boundary(rng.below(text.len() + 1));
        let foreign = rng.pick(&[SPACES, NO_SPACES, SYMBOLS]);
        text.insert(at, rng.pick(foreign));
    }
    text
}

/// A text with characters that are escaped.
fn any_written(rng: &mut Rng, most: usize) -> String {
    let any = |rng: &mut Rng| if rng.below(2) == 0 { rng.pick(WRITTEN) } else { any_char(rng) };
    (0..rng.below(most + 1)).map(|_| any(rng)).collect()
}

/// The lines of the recording: `d` for decode_entities, `t` and `a` for the two escapes, `u` for the longest
/// valid beginning, `w` for `trim`. Corners come first.
fn lines(rng: &mut Rng, lines: &mut Lines) {
    let text = |c: Vec<String>| c.into_iter().map(String::into_bytes).collect::<Vec<_>>();
    let string = |bytes: &[u8]| String::from_utf8(bytes.to_vec()).unwrap();
    let written = || text(WRITTEN.iter().chain(SPACES).map(char::to_string).collect());

    lines.add(
        'd',
        40,
        text(decode_corners()),
        || any_coded(rng, 5).into_bytes(),
        |s| access::decode_entities(&string(s)).into(),
    );
    lines.add('t', 10, written(), || any_written(rng, 12).into_bytes(), |s| access::escape_text(&string(s)).into());
    lines.add('a', 10, written(), || any_written(rng, 12).into_bytes(), |s| access::escape_attr(&string(s)).into());
    let mut bytes = || if rng.below(2) == 0 { utf8::any_bytes(rng, 12) } else { utf8::damaged(rng, 12) };
    lines.add('u', 22, utf8::corners(), &mut bytes, |s| s[..utf8::valid_end(s)].to_vec());
    lines.add('w', 18, text(scan::trim_corners()), || scan::spaced(rng, 10).into_bytes(), |s| string(s).trim().into());
}

fn bench(bench: &mut Bench) {
    let inputs = [
        ("prose, few entities", prose(60)),
        ("prose, many entities", prose(1)),
        ("runs of &", filled(|_| "&".to_string())),
        ("& and 16 letters, no end", filled(|_| "&abcdefghijklmnop".to_string())),
        ("mixed scripts", mixed()),
        ("CJK", cjk()),
    ];
    let functions: [(&str, Rust, Port); 3] = [
        ("decode_entities", access::decode_entities, port::probe_decode_entities),
        ("escape_text", access::escape_text, port::probe_escape_text),
        ("escape_attr", access::escape_attr, port::probe_escape_attr),
    ];
    let mut out = vec![0; 6 * crate::bench::BYTES];
    for (name, rust, port) in functions {
        for (input, text) in &inputs {
            let length = port(text.as_bytes(), &mut out);
            assert!(out.get(..length) == Some(rust(text).as_bytes()), "{name} differs on {input}");
            bench.row(&format!("{name}, {input}"), text.len(), || rust(text), || port(text.as_bytes(), &mut out));
        }
    }
}
