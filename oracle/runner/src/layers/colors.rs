//! Colours read and written.

use super::Layer;
use crate::answer::{Answer, coded};
use crate::bench::{Bench, pieces};
use crate::cases::{Rng, SPACES, any_char, damage, every_text, every_word, texts};
use crate::compare::{Esc, Run};
use crate::lend::{Lent, cells};
use crate::record::Lines;
use reference::ttml::access;

pub const LAYER: Layer = Layer { name: "colors", compare, record: None, bench: Some(bench) };

type Rgba = (u8, u8, u8, u8);

/// Channels between commas: every one of up to 4 of these is asked.
const CHANNELS: &[&str] = &[
    "", " ", "0", "1", "255", "256", " 7 ", "\u{A0}8", "+9", "-0", "-1", "0010", "00000000255", "1.5", "x", "é", "1 2",
    "99999999999999999999", "0x1", "\u{3000}12\n",
];

fn compare(run: &mut Run) {
    let lent = &mut Lent::default();
    // After `#`: few characters for the long forms, more for the short one.
    every_text(&['1', 'f', 'g', '+', 'é'], 8, |text| check(run, &format!("#{text}")));
    every_text(&['0', '9', 'a', 'A', 'F', 'G', '-', '+', ' ', 'é', '日', '\u{1F680}'], 5, |text| {
        check(run, &format!("#{text}"));
    });
    every_word(CHANNELS, 4, |parts| check(run, &format!("rgb({})", parts.join(","))));
    every_text(&['r', 'g', 'b', '(', ')', '1', ',', ' '], 6, |text| check(run, text));
    every_text(&['(', ')', '1', ',', ' ', 'é'], 6, |text| check(run, &format!("rgb{text}")));
    for byte in 0..=255_u8 {
        for text in [
            format!("{byte:02x}0000"),
            format!("00{byte:02X}00"),
            format!("0000{byte:02x}"),
            format!("000000{byte:02X}"),
        ] {
            check(run, &format!("#{text}"));
        }
        check(run, &format!("rgb({byte},{},{})", byte ^ 0x55, byte ^ 0xAA));
    }
    for name in NAMES {
        spellings(run, name);
    }
    for corner in corners() {
        check(run, &corner);
        for space in SPACES {
            check(run, &format!("{space}{corner}{space}"));
        }
    }
    for _ in 0..run.count {
        let text = any_color(&mut run.rng);
        check(run, &text);
        let [r, g, b, a, ..] = run.rng.next().to_le_bytes();
        write(run, lent, (r, g, b, a));
    }
    for byte in 0..=255 {
        write(run, lent, (byte, byte.wrapping_add(1), byte ^ 0xFF, byte.wrapping_mul(3)));
    }
    for length in 0..4 {
        let port = cells::<4, _, _>(length, |out| port::probe_color(b"red", out));
        run.same("color", format_args!("lent {length} bytes"), Ok(2), port.map(|(code, _)| code));
    }
}

fn check(run: &mut Run, text: &str) {
    let rust = rust(text).map(|(r, g, b, a)| [r, g, b, a]);
    let port = cells(4, |out| port::probe_color(text.as_bytes(), out)).map(coded);
    run.same("color", format_args!("{:?}", Esc(text.as_bytes())), Ok(rust.coded(|number| number)), port);
}

/// A name with each of its letters small or capital, and with each byte of it changed to any other of ASCII.
fn spellings(run: &mut Run, name: &str) {
    for capitals in 0..1 << name.len() {
        let letter = |(at, c): (usize, char)| if capitals >> at & 1 == 1 { c.to_ascii_uppercase() } else { c };
        check(run, &name.chars().enumerate().map(letter).collect::<String>());
    }
    for at in 0..name.len() {
        for byte in '\0'..='\x7F' {
            check(run, &format!("{}{byte}{}", &name[..at], &name[at + 1..]));
        }
    }
}

fn write(run: &mut Run, lent: &mut Lent, (r, g, b, a): Rgba) {
    for alpha in [false, true] {
        let rust = written((r, g, b, a), alpha);
        let input = format_args!("{r} {g} {b} {a} alpha {alpha}");
        lent.same(run, "color_text", input, rust.as_bytes(), |out| port::probe_color_text(r, g, b, a, alpha, out));
    }
}

/// The Rust stops where it would cut a text inside a character, and nowhere else.
pub fn rust(text: &str) -> Answer<Rgba> {
    Answer::ask(|| access::parse_ttml_color_rgba(text), |_| 15)
}

/// As the Rust's writer has it.
fn written((r, g, b, a): Rgba, alpha: bool) -> String {
    if alpha { format!("#{r:02X}{g:02X}{b:02X}{a:02X}") } else { format!("#{r:02X}{g:02X}{b:02X}") }
}

const NAMES: &[&str] = &[
    "black", "white", "red", "green", "lime", "blue", "yellow", "cyan", "aqua", "magenta", "fuchsia", "silver", "gray",
    "grey", "maroon", "purple", "olive", "navy", "teal", "transparent",
];

/// The corners of document 01 and of the Rust's code, besides the names.
const CORNERS: &[&[&str]] = &[
    &[
        "", " ", "#", "##", "#f", "#ff", "#fff", "#ffff", "#fffff", "#ffffff", "#fffffff", "#ffffffff", "#fffffffff",
        "fff", "#+f+f+f", "#+++", "#+f", "#-0-0-0", "#ff+f-f", "#+f+f+f+f", "#a+1b2", "# ff", "#f f", "#12 ", " #123 ",
        "\u{A0}#123", "#123\u{3000}", "#123\u{200B}", "#12345g", "#g23456", "#GG0000", "#AbCdEf", "#0123456789",
        "#12345678", "#ABCDEF01", "#00000000", "#0x0", "#12.", "#1e1",
    ],
    // cut inside a character, or spoilt before that
    &[
        "#gé", "#aé", "#éa", "#é", "#日", "#日日", "#aé456", "#gé456", "#1é456", "#é3456", "#12é56", "#123é6",
        "#12g4é", "#1234é", "#123日", "#12日6", "#1日56", "#日456", "#日日", "#12\u{1F680}", "#1\u{1F680}6",
        "#\u{1F680}56", "#é345678", "#1é45678", "#12é5678", "#123é678", "#1234é78", "#12345é8", "#123456é",
        "#1234567é", "#12345\u{1F680}", "#1234\u{1F680}", "#\u{1F680}\u{1F680}", "#+é1", "#ééé", "#éééé", "#g日日é",
        "#1g日日é",
    ],
    // rgb
    &[
        "rgb", "rgb(", "rgb()", "rgb)", "(1,2,3)", "rgb(1)", "rgb(1,2)", "rgb(1,2,3)", "rgb(1,2,3,4)", "rgb(1,2,3,)",
        "rgb(,,)", "rgb(,,,)", "rgb(1,2,)", "rgb(1,,3)", "rgb(1,2,3", "rgb(1,2,34", "rgb(1,2,3]", "rgb(1,2,3))",
        "rgb((1,2,3)", "rgb(1,2,3) ", " rgb(1,2,3)", "rgb (1,2,3)", "rgb( 1 , 2 , 3 )", "rgb(\u{A0}1,\n2,\u{3000}3\t)",
        "rgb(1 2,3,4)", "RGB(1,2,3)", "Rgb(1,2,3)", "rgba(1,2,3,4)", "rgb(0,0,0)", "rgb(255,255,255)", "rgb(256,0,0)",
        "rgb(0,256,0)", "rgb(0,0,256)", "rgb(-1,0,0)", "rgb(-0,0,0)", "rgb(+1,+2,+3)", "rgb(+,0,0)", "rgb(1.0,2,3)",
        "rgb(1%,2%,3%)", "rgb(1e1,2,3)", "rgb(é,2,3)", "rgb(1,2,é)", "rgb(1,2,3)é", "érgb(1,2,3)", "rgb(red)",
        "rgb(x,2,3)", "rgb(1,x,3)", "rgb(1,2,x)", "rgb(1;2;3)", "rgb(0x1,2,3)", "rgb(ff,2,3)",
    ],
    // nearly names
    &[
        "RED", "Red", "rEd", " red ", "red\u{A0}", "re d", "redd", "re", "grey ", "graey", "light", "darkblue",
        "transparen", "transparentt", "TRANSPARENT", "réd", "ſilver", "blacK", "blac\u{212A}", "none", "currentColor",
        "orange", "pink", "r",
    ],
    // long ones
    &["rgb(001,0002,0000000000000000003)", "rgb(99999999999999999999,0,0)"],
];

pub fn corners() -> Vec<String> {
    [texts(&[NAMES]), texts(CORNERS)].concat()
}

/// A colour, or nearly one.
pub fn any_color(rng: &mut Rng) -> String {
    let mut text = match rng.below(8) {
        0 => rng.pick(NAMES).to_string(),
        1 => rng.pick(NAMES).chars().map(|c| if rng.below(2) == 0 { c } else { c.to_ascii_uppercase() }).collect(),
        2..5 => {
            let digits = rng.pick(&[3, 6, 6, 8, 8, 8, 4, 7]);
            let any = |rng: &mut Rng| match rng.below(40) {
                0 => rng.pick(&['+', '-', 'g', ' ', 'é', '日', '\u{1F680}']),
                _ => rng.pick(b"0123456789abcdefABCDEF") as char,
            };
            std::iter::once('#').chain((0..digits).map(|_| any(rng))).collect()
        }
        5 => {
            // The bytes of a hexadecimal colour, characters of any length among them.
            let bytes = rng.pick(&[3, 6, 8]);
            let mut text = String::new();
            while text.len() < bytes {
                text.push(if rng.below(2) == 0 {
                    rng.pick(&['é', '日', '\u{1F680}'])
                } else {
                    rng.pick(&['1', 'a', 'g'])
                });
            }
            format!("#{text}")
        }
        _ => {
            let parts: Vec<String> = (0..rng.pick(&[3, 3, 3, 3, 3, 2, 4])).map(|_| any_channel(rng)).collect();
            format!("rgb({})", parts.join(","))
        }
    };
    if rng.below(6) == 0 {
        text = damage(rng, &text, &['#', 'r', 'g', 'b', '(', ')', ',', ' ', '0', '9', 'f', 'é', '\u{A0}']);
    }
    if rng.below(8) == 0 {
        text = format!("{}{text}{}", rng.pick(SPACES), rng.pick(SPACES));
    }
    text
}

fn any_channel(rng: &mut Rng) -> String {
    let number = match rng.below(12) {
        0 => rng.below(1000),
        1 => 254 + rng.below(4),
        2 => return any_char(rng).to_string(),
        _ => rng.below(256),
    };
    let sign = rng.pick(&["", "", "", "", "", "+", "-", "0"]);
    let gap = rng.pick(&["", "", " ", "\u{2003}"]);
    format!("{gap}{sign}{number}{gap}")
}

/// The lines of a recording: `c` for colours, `h` for colours written. Corners come first.
pub fn lines(rng: &mut Rng, lines: &mut Lines) {
    let text = corners().into_iter().map(String::into_bytes).collect();
    let string = |bytes: &[u8]| String::from_utf8(bytes.to_vec()).unwrap();
    let bytes = |(r, g, b, a)| vec![r, g, b, a];
    lines.add('c', 17, text, || any_color(rng).into_bytes(), |s| rust(&string(s)).map(bytes).bytes());
    let corners = vec![vec![0; 3], vec![0; 4], vec![255; 3], vec![255; 4], vec![9, 10, 15, 16], vec![0x9F, 0xA0, 0xF9]];
    let mut any = || (0..3 + rng.below(2)).map(|_| rng.next() as u8).collect();
    let answer = |given: &[u8]| match given[..] {
        [r, g, b, a] => written((r, g, b, a), true).into_bytes(),
        [r, g, b] => written((r, g, b, 0), false).into_bytes(),
        _ => panic!("a colour of {} bytes", given.len()),
    };
    lines.add('h', 5, corners, &mut any, answer);
}

fn bench(bench: &mut Bench) {
    let name = |n: usize| NAMES[n % NAMES.len()].to_string();
    let byte = |n: usize| (n * 2_654_435_761).to_le_bytes()[1];
    let hex = |n: usize| written((byte(n), byte(n + 1), byte(n + 2), byte(n + 3)), n % 2 == 1);
    let rgb = |n: usize| format!("rgb({}, {}, {})", byte(n), byte(n + 1), byte(n + 2));
    let port = |text: &str| {
        let mut out = [0; 4];
        (port::probe_color(text.as_bytes(), &mut out) == 1).then_some(out.into())
    };
    bench.texts("parse_ttml_color_rgba, names", &pieces(name), access::parse_ttml_color_rgba, port);
    bench.texts("parse_ttml_color_rgba, hexadecimal", &pieces(hex), access::parse_ttml_color_rgba, port);
    bench.texts("parse_ttml_color_rgba, rgb()", &pieces(rgb), access::parse_ttml_color_rgba, port);
}
