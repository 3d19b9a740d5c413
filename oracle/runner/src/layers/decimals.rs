//! Decimals as f64 and as sizes, against Rust's `parse` and `{}`. Which decimals are past the limits is judged here,
//! from document 01.

use super::Layer;
use crate::answer::{Answer, Coded, coded};
use crate::cases::{Rng, damage, every_text, texts};
use crate::compare::{Esc, Run};
use crate::lend::{Fault, Lent, cells};
use crate::record::Lines;
use std::str::FromStr;

pub const LAYER: Layer = Layer { name: "decimals", compare, record: None, bench: None };

/// How many digits a decimal may have after leading zeros, and how many behind the point.
pub type Limits = (usize, usize);
pub const TIMES: Limits = (15, 22);
pub const SIZES: Limits = (6, 10);

/// What decides how a decimal reads: every text of up to 6 of these is asked, 1,111,111 in all.
const SYMBOLS: &[char] = &['+', '-', '.', '0', '1', '9', 'e', 'E', 'é', ' '];

fn compare(run: &mut Run) {
    let lent = &mut Lent::default();
    every_text(SYMBOLS, 6, |text| check(run, lent, text));
    for corner in corners() {
        check(run, lent, &corner);
        for limits in [(0, 0), (1, 0), (0, 1), (2, 3), (14, 21), (16, 23), (18, 400), (18, u32::MAX as usize)] {
            parts(run, &corner, limits);
        }
    }
    for _ in 0..run.count {
        let text = any_decimal(&mut run.rng, TIMES);
        check(run, lent, &text);
        let text = any_decimal(&mut run.rng, SIZES);
        check(run, lent, &text);
    }
    no_room(run);
    for digits in 0..=999_999 {
        for scale in 0..=10 {
            every_size(run, lent, false, digits, scale);
            every_size(run, lent, true, digits, scale);
        }
    }
    sizes(run);
    truncations(run);
}

fn check(run: &mut Run, lent: &mut Lent, text: &str) {
    let input = format_args!("{:?}", Esc(text.as_bytes()));
    let rust = decimal(text, TIMES).map(f64::to_bits).coded(|_| 2);
    let port = cells(1, |out| port::probe_decimal_f64(text.as_bytes(), out));
    run.same("decimal_f64", input, Ok(rust), port.map(|(code, [value])| coded((code, f64::to_bits(value)))));
    parts(run, text, TIMES);
    parts(run, text, SIZES);

    let rust = size(text);
    let fits = if let Answer::Is((_, printed)) = &rust { printed.len() } else { 0 };
    run.same("size_width", input, fits, port::probe_size_width(text.as_bytes()));
    for length in [fits.saturating_sub(1), fits, fits + 6] {
        let rust = if length < fits { (3, None) } else { rust.clone().coded(|_| 2) };
        let rust = (rust.0, rust.1.map(|(value, printed)| (value.to_bits(), printed)));
        run.same("size", format_args!("{input} into {length} bytes"), Ok(rust), port_size(lent, text, length));
    }
}

/// The decimal in its parts: its digits, how many stand behind the point, and 1 for a minus.
fn parts(run: &mut Run, text: &str, limits: Limits) {
    let rust = decimal(text, limits).map(|_: f64| {
        let number = text.trim_start_matches(['+', '-']);
        let (_, behind) = number.split_once('.').unwrap_or_default();
        let digits = number.replace('.', "").parse().unwrap();
        [digits, behind.len() as u64, text.starts_with('-') as u64]
    });
    let (digits, decimals) = (limits.0 as u64, limits.1 as u64);
    let port = cells(3, |out| port::probe_decimal(text.as_bytes(), digits, decimals, out));
    let input = format_args!("{:?} limits {digits} {decimals}", Esc(text.as_bytes()));
    run.same("decimal", input, Ok(rust.coded(|_| 2)), port.map(coded));
}

/// The bits of the f32, and the spelling, into so many bytes. It is as long as `probe_size_width` says.
fn port_size(lent: &mut Lent, text: &str, length: usize) -> Result<Coded<(u32, String)>, Fault> {
    let mut answer = Ok((0, [0.0]));
    let spelling = lent.ask(length, |spelling| {
        answer = cells(1, |out| port::probe_size(text.as_bytes(), spelling, out));
        if let Ok((1, _)) = answer { port::probe_size_width(text.as_bytes()) } else { usize::MAX }
    });
    let (code, [value]) = answer?;
    let spelling = spelling?.map_or(String::new(), |Esc(bytes)| String::from_utf8_lossy(bytes).into());
    Ok(coded((code, (value.to_bits(), spelling))))
}

/// Too few cells for an answer, and limits that the port does not take.
fn no_room(run: &mut Run) {
    for (lent, digits, decimals) in
        [(0, 15, 22), (1, 15, 22), (2, 15, 22), (4, 19, 22), (4, u64::MAX, 0), (4, 15, 1 << 32), (4, 15, u64::MAX)]
    {
        let port = cells::<3, _, _>(lent, |out| port::probe_decimal(b"1", digits, decimals, out));
        let input = format_args!("lent {lent} cells, limits {digits} {decimals}");
        run.same("decimal", input, Ok(3), port.map(|(code, _)| code));
    }
    let port = cells::<1, _, _>(0, |out| port::probe_decimal_f64(b"1", out));
    run.same("decimal_f64", format_args!("lent no cell"), Ok(3), port.map(|(code, _)| code));
    let port = cells::<1, _, _>(0, |out| port::probe_size(b"1", &mut [0; 9], out));
    run.same("size", format_args!("lent no cell"), Ok(3), port.map(|(code, _)| code));
}

/// A number as it is written with so many digits behind the point.
fn spelled(negative: bool, digits: u32, scale: u32) -> String {
    let sign = if negative { "-" } else { "" };
    match (10_u64.pow(scale), scale as usize) {
        (_, 0) => format!("{sign}{digits}"),
        (power, width) => format!("{sign}{}.{:0width$}", digits as u64 / power, digits as u64 % power),
    }
}

fn every_size(run: &mut Run, lent: &mut Lent, negative: bool, digits: u32, scale: u32) {
    let text = spelled(negative, digits, scale);
    let value: f32 = text.parse().unwrap();
    let printed = format!("{value}");
    is_size(run, value, printed == text, negative, digits, scale);
    let port = port_size(lent, &text, printed.len());
    run.same("size", format_args!("{text:?}"), Ok((1, Some((value.to_bits(), printed)))), port);
}

/// Is a spelling what `{}` prints?
fn is_size(run: &mut Run, value: f32, rust: bool, negative: bool, digits: u32, scale: u32) {
    let port = port::probe_is_size(value, negative, digits, scale);
    run.same("is_size", format_args!("{value:e} negative {negative} digits {digits} scale {scale}"), rust, port);
}

/// Floats and spellings that often do not belong together.
fn sizes(run: &mut Run) {
    for _ in 0..run.count {
        let rng = &mut run.rng;
        let (mut digits, mut scale) = (rng.next() as u32 % 1_000_000, rng.below(12) as u32);
        match rng.below(40) {
            0..5 => digits = rng.pick(&[0, 1, 10, 100, 999_999, 1_000_000, 1_000_001, u32::MAX]),
            5 => (digits, scale) = (rng.next() as u32, rng.next() as u32),
            _ => {}
        }
        let negative = rng.below(2) == 0;
        // A scale that is far past the limits is none, and its spelling would be long.
        let text = if scale < 12 { spelled(negative, digits, scale) } else { "1".to_string() };
        let near: f32 = text.parse().unwrap();
        let value = match rng.below(8) {
            0..4 => near,
            4 => -near,
            5 => f32::from_bits(near.to_bits().wrapping_add_signed(rng.below(3) as i32 - 1)),
            6 => rng.pick(&[0.0, -0.0, f32::NAN, f32::INFINITY, f32::NEG_INFINITY, f32::MAX, f32::from_bits(1)]),
            _ => f32::from_bits(rng.next() as u32),
        };
        let rust = scale <= 10 && digits <= 999_999 && format!("{value}") == text;
        is_size(run, value, rust, negative, digits, scale);
    }
}

/// `as i64`.
fn truncations(run: &mut Run) {
    let mut check = |x: f64| run.same("truncate", format_args!("{x:e}"), x as i64, port::probe_truncate(x));
    for x in [f64::NAN, -f64::NAN, f64::INFINITY, f64::MAX, f64::MIN_POSITIVE, f64::from_bits(1), 0.0, 0.5] {
        check(x);
        check(-x);
    }
    for power in 0..=70 {
        // Around a power of two, and the halves, in steps of the last binary digit.
        let near = 2_f64.powi(power);
        for bits in near.to_bits() - 200..near.to_bits() + 200 {
            let x = f64::from_bits(bits);
            check(x);
            check(-x);
            check(x + 0.5);
        }
    }
    for _ in 0..run.count {
        let bits = run.rng.next();
        // Any, or one whose whole part has from 1 to 64 binary digits.
        let whole = f64::from_bits(bits & 0x800F_FFFF_FFFF_FFFF | (1022 + run.rng.next() % 66) << 52);
        for x in [f64::from_bits(bits), whole] {
            run.same("truncate", format_args!("{x:e}"), x as i64, port::probe_truncate(x));
        }
    }
}

/// What Rust's parser gives for a text, where document 01 takes it.
pub fn decimal<F: FromStr>(text: &str, limits: Limits) -> Answer<F> {
    match text.parse() {
        Err(_) => Answer::Nothing,
        Ok(_) if beyond(text, limits) => Answer::Number(14),
        Ok(value) => Answer::Is(value),
    }
}

/// Does a text that Rust's parser takes break the limits, have an exponent, or is it inf or nan?
fn beyond(text: &str, (digits, decimals): Limits) -> bool {
    let number = text.strip_prefix(['+', '-']).unwrap_or(text);
    if number.contains(|c: char| !c.is_ascii_digit() && c != '.') {
        return true;
    }
    let behind = number.split_once('.').map_or(0, |(_, behind)| behind.len());
    number.replace('.', "").trim_start_matches('0').len() > digits || behind > decimals
}

/// The f32 and what `{}` prints for it.
fn size(text: &str) -> Answer<(f32, String)> {
    decimal(text, SIZES).map(|value: f32| (value, format!("{value}")))
}

/// The corners of document 01 and of Rust's grammar of floats.
const CORNERS: &[&[&str]] = &[
    &[
        "", "+", "-", ".", "+.", "-.", "..", "0", "00", "-0", "+0", "0.", ".0", "-.0", "+.0", "-0.0", "1", "1.", ".1",
        "+.5", "-5.", "1.5", "+1.5", "-1.5", "1..5", "1.5.", ".1.", "1,5", " 1", "1 ", "\t1", "1\u{A0}", "1_0", "1'0",
        "1é", "é", "\u{661}", "\u{2212}1", "0x10", "1f", "1s", "++1", "--1", "+-1", "-+1", "1+", "1-", "1-1",
    ],
    // exponents
    &[
        "1e5", "1E5", "1e+5", "1e-5", "0e0", "1.e5", ".5e5", "1.5e05", "+1e5", "-1e-5", "1e400", "1e-400", "0e999999",
        "1e", "1e+", "1e-", "1ee5", "1e5.0", "1e 5", "e5", ".e5", "+e5", "1e5 ", "1e++5", "1d5", "1e5e5", "1.e", ".e",
    ],
    // words
    &[
        "inf", "-inf", "+inf", "INF", "InF", "infinity", "-Infinity", "+INFINITY", "nan", "NaN", "-nan", "+NAN", "in",
        "infi", "infinit", "infinityy", "inf ", "na", "nann", "nan1", "1inf", "1nan", "--inf", ".inf", "i", "n", "+i",
        "\u{130}nf", "ınf", "infınity",
    ],
    // document 01 and its readings
    &[
        "999999999999999", "1000000000000000", "0.0000000000000000000001", "0.00000000000000000000001",
        "1.000000000000000", "1.00000000000000", "123456", "1234567", "80", "1.001", "201", "0.29",
    ],
    // hard to round, or to print
    &[
        "0.1", "0.2", "0.3", "0.7", "9007199254740993", "9007199254740991", "900719925474099.1", "16777217",
        "16777.21", "0.000001", "0.00001", "8.5", "33.333", "1.17549", "100000", "100000.0", "10.50", "010.50", "1.0",
        "-00.50", "0.0000000000", "0.00000000000", "99999.9", "9999.99", "65535", "65536",
    ],
];

pub fn corners() -> Vec<String> {
    let mut corners = texts(CORNERS);
    // So many digits, of which some stand behind the point: around both limits.
    for digits in [6, 7, 10, 11, 15, 16, 18, 19, 22, 23, 40] {
        let (nines, ten) = ("9".repeat(digits), format!("1{}", "0".repeat(digits - 1)));
        for behind in [0, 1, 6, 10, 11, 15, 22, 23].into_iter().filter(|&behind| behind <= digits) {
            let (whole, behind) = nines.split_at(digits - behind);
            corners.push(format!("{whole}.{behind}"));
        }
        corners.extend([format!("0.{ten}"), format!("-000{ten}"), format!("0.0000{nines}"), ten, "0".repeat(digits)]);
    }
    // So many behind the point.
    corners.extend((1..=23).map(|behind| format!("0.{:0>behind$}", 7)));
    corners.push("7".repeat(330));
    corners
}

/// A decimal, often at its limits; or nearly a decimal.
pub fn any_decimal(rng: &mut Rng, (most, scale): Limits) -> String {
    if rng.below(40) == 0 {
        let word = rng.pick(&["inf", "infinity", "nan", "INF", "Infinity", "NaN", "-inf", "+nan"]);
        return damage(rng, word, DAMAGE);
    }
    let digits = match rng.below(8) {
        0..4 => rng.below(most + 1),
        4 | 5 => most,
        6 => most + 1,
        _ => rng.below(25),
    };
    let few = rng.pick(&[b"0123456789".as_slice(), b"0123456789", b"09", b"05", b"9"]);
    let mut number: String = (0..digits).map(|_| rng.pick(few) as char).collect();
    number.insert_str(0, &"0".repeat(rng.pick(&[0, 0, 0, 1, 3, 9, 20])));
    let behind = match rng.below(8) {
        0..2 => 0,
        2..5 => rng.below(number.len() + 1),
        5 => scale,
        6 => scale + 1,
        _ => rng.below(27),
    };
    if rng.below(3) > 0 {
        // Zeros first, where more digits stand behind the point than there are.
        number = format!("{number:0>behind$}");
        number.insert(number.len() - behind, '.');
    }
    number.insert_str(0, rng.pick(&["", "", "", "-", "+", "-0", "0"]));
    if rng.below(30) == 0 {
        number += rng.pick(&["e5", "E-3", "e+0", "e", "e-", "E", "e1e"]);
    }
    if rng.below(10) == 0 { damage(rng, &number, DAMAGE) } else { number }
}

/// What is put into a number to spoil it.
const DAMAGE: &[char] = &['+', '-', '.', 'e', 'E', '0', '1', '9', ' ', ',', '_', 'i', 'n', 'é', '/', ':', '\u{661}'];

/// The lines of a recording: `f` for f64, `z` for sizes. Corners come first.
pub fn lines(rng: &mut Rng, lines: &mut Lines) {
    let text = || corners().into_iter().map(String::into_bytes).collect();
    let string = |bytes: &[u8]| String::from_utf8(bytes.to_vec()).unwrap();
    lines.add(
        'f',
        17,
        text(),
        || any_decimal(rng, TIMES).into_bytes(),
        |s| decimal(&string(s), TIMES).map(|value: f64| value.to_bits().to_be_bytes().to_vec()).bytes(),
    );
    lines.add(
        'z',
        16,
        text(),
        || any_decimal(rng, SIZES).into_bytes(),
        |s| {
            size(&string(s))
                .map(|(value, printed)| [&value.to_bits().to_be_bytes(), printed.as_bytes()].concat())
                .bytes()
        },
    );
}
