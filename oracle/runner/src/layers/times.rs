//! Times read and written. The Rust says what a text is, and where it stops; which decimals are past the limits is
//! judged by `decimals`, at the places where the Rust parses one.

use super::decimals::{TIMES, any_decimal, decimal};
use super::{Layer, colors, decimals};
use crate::answer::{Answer, coded};
use crate::bench::{Bench, pieces};
use crate::cases::{Rng, damage, every_text, every_word, texts};
use crate::compare::{Esc, Run};
use crate::judge::Rates;
use crate::lend::{Lent, cells};
use crate::record::{Lines, Recording};
use reference::ttml::access;
use std::hint::black_box;

pub const LAYER: Layer = Layer {
    name: "times",
    compare,
    record: Some(Recording { file: "crates/replay_values/stdin", count: 1_900, lines }),
    bench: Some(bench),
};

/// What decides how a time reads: every text of up to 6 of these is asked, 12,204,241 in all.
const SYMBOLS: &[char] = &['0', '1', '9', ':', '.', '+', '-', 's', 'm', 'h', 'f', 't', 'e', 'é', ' '];

/// Parts of clock times: every one of up to 4 of these is asked, at each of 3 rates, and with each metric behind it.
const PARTS: &[&str] = &[
    "", "0", "1", "59", "+1", "-1", "-60", " 1", "x", "é", "0.5", "1.+5", "-1.-5", "1.éééé", "54.775807", "2562047788",
    "-2562047789", "153722867280", "9223372036854", "9223372036854775807", "-9223372036854775808", "1e3", "nan",
    "1000000000000000",
];

fn compare(run: &mut Run) {
    let lent = &mut Lent::default();
    let mut turn = 0;
    every_text(SYMBOLS, 6, |text| {
        // The rates take turns, those of frames faster than those of ticks.
        turn += 1;
        check(run, text, (RATES[turn % RATES.len()], RATES[turn / 3 % RATES.len()]));
    });
    every_word(PARTS, 4, |parts| {
        let text = parts.join(":");
        for &rate in &RATES[..3] {
            check(run, &text, (rate, None));
        }
        // What ends in a metric is no clock time.
        for metric in METRICS {
            check(run, &format!("{text}{metric}"), (Some(25.0), Some(50.0)));
        }
    });
    every_usual(|text| check(run, text, (None, None)));
    for (text, rates) in corners() {
        check(run, &text, rates);
    }
    for count in decimals::corners() {
        for metric in METRICS {
            for &rate in RATES {
                let text = format!("{count}{metric}");
                check(run, &text, rates(&text, rate));
            }
        }
        for &rate in RATES {
            check(run, &format!("0:0:0:{count}"), (rate, None));
        }
    }
    for _ in 0..run.count {
        let (text, rates) = any_time(&mut run.rng);
        check(run, &text, rates);
        // Rates that no document gives.
        let odd = |rng: &mut Rng| Some(f64::from_bits(rng.next()));
        let rates = (odd(&mut run.rng), odd(&mut run.rng));
        check(run, &text, rates);
        let us = any_us(&mut run.rng);
        write(run, lent, us);
    }
    let port = cells::<1, _, _>(0, |out| port::probe_time(b"1s", 0.0, false, 0.0, false, out));
    run.same("time", format_args!("lent no cell"), Ok(2), port.map(|(code, _)| code));
    for us in written_corners() {
        write(run, lent, us);
    }
    for ms in 0..200_000 {
        write(run, lent, ms * 999);
        write(run, lent, i64::MAX - ms * 7_777_777);
    }
}

/// Times of the form `hh:mm:ss.mmm`, which the port reads apart: every pair of two fields, every fraction, and some with each
/// place changed to each character below U+0100.
fn every_usual(mut ask: impl FnMut(&str)) {
    for a in 0..100 {
        for b in 0..100 {
            ask(&format!("{a:02}:{b:02}:07.250"));
            ask(&format!("03:{a:02}:{b:02}.999"));
            ask(&format!("{a:02}:59:{b:02}.001"));
        }
    }
    for ms in 0..1_000 {
        ask(&format!("00:00:05.{ms:03}"));
    }
    for text in ["00:00:05.000", "12:34:56.789", "99:59:59.999", "09:60:61.100"] {
        for place in 0..text.len() {
            for c in '\0'..='\u{FF}' {
                ask(&format!("{}{c}{}", &text[..place], &text[place + 1..]));
            }
        }
    }
}

fn check(run: &mut Run, text: &str, rates: Rates) {
    let port = cells(1, |out| ask_port(text, rates, out)).map(|(code, [us])| coded((code, us)));
    let input = format_args!("{:?} frame rate {:?} tick rate {:?}", Esc(text.as_bytes()), rates.0, rates.1);
    run.same("time", input, Ok(rust(text, rates).coded(|number| number)), port);
}

fn ask_port(text: &str, (frames, ticks): Rates, out: &mut [i64]) -> u32 {
    // What stands for a rate that there is none of must not count.
    let (frame_rate, tick_rate) = (frames.unwrap_or(7.0), ticks.unwrap_or(9.0));
    port::probe_time(text.as_bytes(), frame_rate, frames.is_some(), tick_rate, ticks.is_some(), out)
}

fn write(run: &mut Run, lent: &mut Lent, us: i64) {
    let rust = access::format_ts(us);
    lent.same(run, "format_ts", format_args!("{us}"), rust.as_bytes(), |out| port::probe_format_ts(us, out));
}

const METRICS: &[&str] = &["ms", "s", "m", "h", "f", "t"];

/// What the Rust answers, and where a decimal is past the limits.
pub fn rust(text: &str, (frames, ticks): Rates) -> Answer<i64> {
    let ask = |text: &str| Answer::ask(|| access::parse_ttml_time(text, frames, ticks), number);
    let beyond = |text: &str| decimal::<f64>(text, TIMES) == Answer::Number(14);
    let trimmed = text.trim();
    if let Some(count) = METRICS.iter().find_map(|metric| trimmed.strip_suffix(metric)) {
        // The count is the first that is parsed.
        return if beyond(count.trim()) { Answer::Number(14) } else { ask(text) };
    }
    if let [h, m, s, frames, ..] = trimmed.split(':').collect::<Vec<_>>()[..] {
        // Frames are parsed once the rest is read and summed. `x` is none, and ends in no metric.
        if beyond(frames) && matches!(ask(&format!("{h}:{m}:{s}:x")), Answer::Is(_)) {
            return Answer::Number(14);
        }
    }
    ask(text)
}

/// The number of the words with which the Rust stopped. It subtracts in one place, where it pads a fraction.
pub fn number(words: &str) -> u32 {
    match words {
        "attempt to subtract with overflow" => 15,
        "attempt to add with overflow" | "attempt to multiply with overflow" => 16,
        _ => panic!("the Rust stopped: {words}"),
    }
}

const RATES: &[Option<f64>] = &[
    None,
    Some(25.0),
    Some(0.0),
    Some(-25.0),
    Some(-0.0),
    Some(30.0),
    Some(24.0),
    Some(29.97),
    Some(1.0),
    Some(10_000_000.0),
    Some(999_999_999_999_999.0),
    Some(1e-22),
    Some(0.001),
    Some(3.0),
];

/// The corners of document 01 and of the Rust's code, without those of decimals.
const CORNERS: &[&[&str]] = &[
    // document 01 and its readings
    &[
        "00:05", "00:00:01.1234567", "00:00:01.+5", "00:00:01.5é", "-1s", "5f", "5", "1.001s", "201f", "0.29h",
        "2562047788:1:-60", "999999999999999ms", "1000000000000000ms", "0.0000000000000000000001s",
        "0.00000000000000000000001s", "1.000000000000000s", "1e3f", "0:0:0:nan", "1e3s", "infs", "nanms", "-inft",
    ],
    // document 02, (d): what ends in a metric is no clock time, what ends in ms no count of seconds
    &[
        "0:0:0:s", "0:0:0:m", "0:0:0:h", "0:0:0:f", "0:0:0:t", "0:0:0:ms", "0:0:0.s", "0:0:5.5s", "0:0:1:5f",
        "0:0:0:x", "0:0:0:inf", "0:0:0:infinity", "5ms", "5 ms", "5m s", "5mms", "5 m ms", "infms", "5smm",
    ],
    // offset times
    &[
        "", " ", "s", "ms", "m", "h", "f", "t", ".s", "+s", "1s", "1ms", "1m", "1h", "1f", "1t", " 1 s ", "1 ms",
        "1m s", "1\u{A0}s", "\u{3000}1s\u{85}", "1\u{200B}s", "1 S", "1S", "1Ms", "1mS", "1sm", "1mss", "1sms", "1hm",
        "+1s", "-1ms", "-0s", "-0.0000001s", "0.0000009s", "0.000001s", "1.0000019s", ".5s", "5.s", "1,5s", "1s1",
        "1µs", "és", "1é", "éms", "1e3ms", "1ehs", "nanf", "naf", "inff", "inft", "1:2s", "1:2:3s", "1:2:3.5s",
        "1:2:3:4f", "0:0:0:5f", "1::s", "999999999999999h", "-999999999999999h", "999999999999999m", "9223372036854s",
        "2562047.788h", "2562047788h", "9223372036.854775807s", "92233720368547.7s", "-92233720368547.7s", "0.1s",
        "0.3s", "8.7s", "4.35s", "1.15m",
    ],
    // clock times
    &[
        ":", "::", ":::", "::::", "0:0", "0:0:0", "0:0:0:0", "0:0:0:0:0", "0:", ":0", "0:0:", "0::0", ":0:0", "0:0:0:",
        "1:2", "1:2:3", "1:2:3:4", "1:2:3:4:5", "1:2:3:4:x", "1:2:3:x", "1:2:x", "1:x:3", "x:2:3", "1:2:3: 4",
        "1:2:3:4 :5", "1: 2:3", "1 :2:3", "1:2 :3", "1:2: 3", " 1:2:3 ", "1:2:3\u{2003}", "+1:+2:+3", "-1:2:3",
        "1:-2:3", "1:2:-3", "-0:-0:-0", "--1:2", "1:2:+", "1:2:-", "1:99:99", "01:02:03",
        "00000000000000000000001:2:3", "1.5:2:3", "1:2.5:3", "1:2:3.", "1:2:.5", "1:2:.", "1:2:3.5", "1:2:3.05",
        "1:2:3.123456", "1:2:3.1234567", "1:2:3.12345x", "1:2:3.123456x", "1:2:3.x", "1:2:3.5.5", "1:2:3. 5",
        "1:2:3.-5", "1:2:3.+", "1:2:3.-", "1:2:3.+12345", "1:2:3.+123456", "1:2:-3.5", "1:2:3.1e5", "1:2:3.5s",
        "1:2:3.5s:0", "1:2:3.5:4", "1:2:3.5:4.5", "1:2:3:+4", "1:2:3:-4", "1:2:3:4e1", "1:2:3:inf", "1:2:3:1e1:x",
        "1:2:x:nan", "1:x:3:nan", "1:2:3.ééé:nan", "1:2:3.éééé:nan", "9223372036854775807:0:0:nan",
        "0:0:0:1000000000000000", "0:0:0:999999999999999",
    ],
    // fractions whose characters are longer than a byte
    &[
        "0:0:0.é", "0:0:0.éé", "0:0:0.ééé", "0:0:0.1éé", "0:0:0.12éé", "0:0:0.123éé", "0:0:0.1234é", "0:0:0.12345é",
        "0:0:0.123456é", "0:0:0.1234567é", "0:0:0.éééé", "0:0:0.日本", "0:0:0.日本1", "0:0:0.日本語", "0:0:0.12日1",
        "0:0:0.123日", "0:0:0.1234日", "0:0:0.\u{1F680}", "0:0:0.\u{1F680}1", "0:0:0.\u{1F680}12",
        "0:0:0.\u{1F680}123", "0:0:0.12\u{1F680}", "0:0:0.123\u{1F680}", "0:0:x.éééé", "x:0:0.éééé", "0:x:0.éééé",
        "0:0:0.éééé:5", "é:0:0", "0:é:0", "0:0:é", "0:0:0:é", "0:0:1.5é:25",
    ],
    // at the ends of i64
    &[
        "9223372036854775807:0", "9223372036854775808:0", "-9223372036854775808:0", "-9223372036854775809:0",
        "0:9223372036854775807", "0:0:9223372036854775807", "0:0:-9223372036854775808", "0:0:9223372036854775808",
        "2562047788:0", "2562047789:0", "-2562047788:0", "-2562047789:0", "2562047788:0:54.775807",
        "2562047788:0:54.775808", "2562047788:00:54.7758071", "-2562047788:-0:-54.-75808", "-2562047788:0:-54",
        "-2562047788:0:-55", "0:153722867280", "0:153722867281", "0:-153722867280", "0:-153722867281",
        "0:0:9223372036854", "0:0:9223372036855", "0:0:-9223372036854", "0:0:-9223372036855",
        "0:0:9223372036854.775807", "0:0:9223372036854.775808", "0:0:9223372036854.999999",
        "0:0:-9223372036854.-75808", "0:0:-9223372036854.-77580", "0:0:-9223372036854.-99999", "2562047788:0:54:0",
        "2562047788:0:54:19", "2562047788:0:54:20", "2562047788:0:54:1000", "-2562047788:0:-54:-19",
        "-2562047788:0:-54:-20", "0:0:0:99999999999999", "0:0:0:-99999999999999", "0:0:1:999999999999999",
        "0:0:-1:999999999999999", "0:0:-1:-999999999999999", "0:0:0:-999999999999999", "2562047788:1:-60:1",
        "0:0:9223372036855:nan",
    ],
    // long ones
    &["0:0:0:0.00000000000000000000001", "0:0:9223372036854775807.éééé", "9223372036854775807:0:0.éééé"],
];

/// The rate, given as the one that the text may use; or none, where it uses none.
fn rates(text: &str, rate: Option<f64>) -> Rates {
    match text.trim().bytes().last() {
        Some(b't') => (None, rate),
        Some(b's' | b'm' | b'h') => (None, None),
        Some(b'f') => (rate, None),
        _ if text.matches(':').count() > 2 => (rate, None),
        _ => (None, None),
    }
}

pub fn corners() -> Vec<(String, Rates)> {
    let mut corners = Vec::new();
    for text in texts(CORNERS) {
        corners.extend(RATES[..3].iter().map(|&rate| (text.clone(), rates(&text, rate))));
    }
    for &rate in &RATES[3..] {
        corners.extend([("5f", rate, None), ("201f", rate, Some(50.0)), ("0:0:1:7", rate, Some(50.0))].map(at));
        corners.extend([("5t", None, rate), ("201t", Some(50.0), rate)].map(at));
    }
    corners
}

fn at((text, frames, ticks): (&str, Option<f64>, Option<f64>)) -> (String, Rates) {
    (text.to_string(), (frames, ticks))
}

/// A time, or nearly one.
pub fn any_time(rng: &mut Rng) -> (String, Rates) {
    let mut text = match rng.below(12) {
        0..4 => format!("{}{}", any_decimal(rng, TIMES), rng.pick(METRICS)),
        4 => {
            let (count, metric) = (any_decimal(rng, TIMES), rng.pick(METRICS));
            format!("{}{count}{}{metric}{}", any_gap(rng), any_gap(rng), any_gap(rng))
        }
        5..7 => format!("{:02}:{:02}:{:02}.{:03}", rng.below(24), rng.below(60), rng.below(60), rng.below(1000)),
        _ => {
            let parts: Vec<String> =
                (0..rng.pick(&[1, 2, 3, 3, 3, 3, 4, 4, 4, 5])).map(|part| any_part(rng, part)).collect();
            parts.join(":")
        }
    };
    if rng.below(8) == 0 {
        text = damage(rng, &text, &['0', '1', '9', ':', '.', '+', '-', 's', 'm', 'h', 'f', 't', 'e', 'é', ' ', '日']);
    }
    let any = |rng: &mut Rng| if rng.below(4) == 0 { any_rate(rng) } else { rng.pick(RATES) };
    let rates = if rng.below(3) == 0 { (any(rng), any(rng)) } else { rates(&text, any(rng)) };
    (text, rates)
}

fn any_gap(rng: &mut Rng) -> &'static str {
    rng.pick(&["", " ", "\n", "\u{A0}", "\u{3000} "])
}

/// What a document may give: a decimal within the limits.
fn any_rate(rng: &mut Rng) -> Option<f64> {
    match decimal(&any_decimal(rng, TIMES), TIMES) {
        Answer::Is(rate) => Some(rate),
        _ => None,
    }
}

/// Hours, minutes, seconds with or without a fraction, or frames.
fn any_part(rng: &mut Rng, part: usize) -> String {
    if part == 3 {
        return any_decimal(rng, TIMES);
    }
    // The largest count of the unit whose microseconds are an i64.
    let most = i64::MAX / [3_600_000_000, 60_000_000, 1_000_000, 1, 1][part];
    let mut text = match rng.below(10) {
        0..5 => rng.below(100).to_string(),
        5 => format!("{:02}", rng.below(60)),
        6 => (most - 1 + rng.below(3) as i64).to_string(),
        7 => (most / 2 + rng.below(3) as i64).to_string(),
        8 => ((i64::MAX as u64) - 1 + rng.below(4) as u64).to_string(),
        _ => (rng.next() >> rng.below(64)).to_string(),
    };
    text.insert_str(0, rng.pick(&["", "", "", "", "-", "+", "0"]));
    if part == 2 && rng.below(2) == 0 {
        text.push('.');
        for _ in 0..rng.below(9) {
            text.push(match rng.below(40) {
                0 => rng.pick(&['+', '-', '.', ' ']),
                1 => rng.pick(&['é', '日', '\u{1F680}']),
                _ => rng.pick(b"0123456789") as char,
            });
        }
        if rng.below(20) == 0 {
            text.push(rng.pick(&['é', '日', '\u{1F680}']));
        }
    }
    text
}

/// Times in microseconds at which what is written changes.
fn written_corners() -> Vec<i64> {
    let units = [1, 1_000, 1_000_000, 60_000_000, 3_600_000_000, 36_000_000_000, 360_000_000_000, 3_600_000_000_000];
    let mut corners = vec![0, i64::MAX, i64::MIN, i64::MAX - 1, i64::MIN + 1, i64::MAX / 1_000 * 1_000, 1_999];
    for unit in units {
        corners.extend([
            -unit,
            unit - 1,
            unit,
            unit + 1,
            10 * unit - 1,
            10 * unit,
            59 * unit,
            60 * unit - 1,
            60 * unit,
        ]);
    }
    corners
}

fn any_us(rng: &mut Rng) -> i64 {
    (rng.next() >> rng.below(64)) as i64
}

/// The lines of the recording of all values: `t` for times, `w` for times written, and those of the other layers.
fn lines(rng: &mut Rng, lines: &mut Lines) {
    decimals::lines(rng, lines);
    let questions = corners().into_iter().chain(std::iter::repeat_with(|| any_time(rng)));
    let pair = |(text, rates): (String, Rates)| {
        let time = rust(&text, rates).map(|us| us.to_be_bytes().to_vec());
        (given(&text, rates), time.bytes())
    };
    lines.pairs('t', 37, questions.map(pair));
    let text = |us: i64| us.to_be_bytes().to_vec();
    let corners = written_corners().into_iter().map(text).collect();
    let number = |bytes: &[u8]| i64::from_be_bytes(bytes.try_into().unwrap());
    lines.add('w', 8, corners, || text(any_us(rng)), |us| access::format_ts(number(us)).into_bytes());
    colors::lines(rng, lines);
}

/// The rates and the text of a line: which rates there are, their bits, and the text.
fn given(text: &str, (frames, ticks): Rates) -> Vec<u8> {
    let mut given = vec![frames.is_some() as u8 + 2 * ticks.is_some() as u8];
    for rate in [frames, ticks].into_iter().flatten() {
        given.extend(rate.to_bits().to_be_bytes());
    }
    given.extend(text.as_bytes());
    given
}

fn bench(bench: &mut Bench) {
    let clock = |n: usize| format!("{:02}:{:02}:{:02}.{:03}", n % 24, n * 7 % 60, n * 13 % 60, n * 37 % 1000);
    let other = |n: usize| format!("{}:{:02}:{:02}.{:02}", n % 240, n * 7 % 60, n * 13 % 60, n * 37 % 100);
    let framed = |n: usize| format!("{:02}:{:02}:{:02}:{:02}", n % 24, n * 7 % 60, n * 13 % 60, n % 25);
    let offset = |n: usize| format!("{}.{:03}{}", n * 17 % 4000, n * 37 % 1000, METRICS[n / 3 % METRICS.len()]);
    let mixed = |n: usize| [clock(n), offset(n), framed(n)][n % 3].clone();
    let rates = (Some(25.0), Some(10_000_000.0));
    let rust = |text: &str| access::parse_ttml_time(text, rates.0, rates.1);
    let port = |text: &str| {
        let mut out = [0];
        (ask_port(text, rates, &mut out) == 1).then_some(out[0])
    };
    bench.texts("parse_ttml_time, clock times", &pieces(clock), rust, port);
    bench.texts("parse_ttml_time, other clock times", &pieces(other), rust, port);
    bench.texts("parse_ttml_time, clock times with frames", &pieces(framed), rust, port);
    bench.texts("parse_ttml_time, offset times", &pieces(offset), rust, port);
    for metric in METRICS {
        let offset = |n: usize| format!("{}.{:03}{metric}", n * 17 % 4000, n * 37 % 1000);
        bench.texts(&format!("parse_ttml_time, offset times in {metric}"), &pieces(offset), rust, port);
    }
    bench.texts("parse_ttml_time, all three", &pieces(mixed), rust, port);

    let times: Vec<i64> = (0..5_000).map(|n| n * 17_654_321).collect();
    let mut out = [0; 32];
    let mut bytes = 0;
    for &us in &times {
        let length = port::probe_format_ts(us, &mut out);
        assert!(out.get(..length) == Some(access::format_ts(us).as_bytes()), "format_ts differs on {us}");
        bytes += length;
    }
    let rust = || {
        for &us in &times {
            black_box(access::format_ts(black_box(us)));
        }
    };
    let port = || {
        for &us in &times {
            black_box(port::probe_format_ts(black_box(us), &mut out));
        }
    };
    bench.row("format_ts", bytes, rust, port);
}
