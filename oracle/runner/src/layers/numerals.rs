//! Whole numbers, against `from_str_radix` (which `parse` is, at 10) of the three types that the Rust reads.

use super::Layer;
use crate::cases::{Rng, any_char, every_text};
use crate::compare::{Esc, Run};
use crate::lend::cells;

pub const LAYER: Layer = Layer { name: "numerals", compare, record: None, bench: None };

/// Values at which something ends: of the types, of the digits, and of what half a multiplication holds.
const EDGES: &[u128] = &[
    0,
    9,
    10,
    15,
    16,
    99,
    100,
    127,
    128,
    159,
    160,
    255,
    256,
    999,
    0xFFF,
    0xFFFF,
    99_999,
    1 << 24,
    1 << 31,
    999_999_999,
    u32::MAX as u128,
    1 << 32,
    9_999_999_999,
    1 << 60,
    999_999_999_999_999_999,
    i64::MAX as u128,
    1 << 63,
    u64::MAX as u128,
    1 << 64,
    10_000_000_000_000_000_000,
    99_999_999_999_999_999_999,
    u128::MAX,
];

fn compare(run: &mut Run) {
    for number in 0..70_000 {
        check(run, &format!("{number}"));
        check(run, &format!("{number:x}"));
    }
    for &edge in EDGES {
        for number in (0..=4).filter_map(|more| edge.checked_add(more)?.checked_sub(2)) {
            for sign in ["", "+", "-"] {
                for zeros in ["", "0", "00000000000000000000"] {
                    check(run, &format!("{sign}{zeros}{number}"));
                    check(run, &format!("{sign}{zeros}{number:x}"));
                    check(run, &format!("{sign}{zeros}{number:X}"));
                }
            }
        }
    }
    let few = ['+', '-', '0', '1', '5', '9', 'a', 'F', 'g', '/', ':', 'é'];
    every_text(&few, 5, |text| check(run, text));
    for _ in 0..run.count / 4 {
        let text = any_numeral(&mut run.rng);
        check(run, &text);
    }
}

/// A sign or none and digits, now and then with something else in between.
fn any_numeral(rng: &mut Rng) -> String {
    let digits = rng.pick(&[b"0123456789".as_slice(), b"0123456789abcdefABCDEF", b"01"]);
    let mut text = rng.pick(&["", "", "+", "-", "+-", "--"]).to_string();
    for _ in 0..rng.below(24) {
        text.push(if rng.below(100) == 0 { any_char(rng) } else { rng.pick(digits) as char });
    }
    text
}

fn check(run: &mut Run, text: &str) {
    for radix in [10, 16] {
        let number = u8::from_str_radix(text, radix);
        ask(run, text, radix, u8::MAX as u64, false, number.ok().map(|n| (1, n as u64)));
        let number = u32::from_str_radix(text, radix);
        ask(run, text, radix, u32::MAX as u64, false, number.ok().map(|n| (1, n as u64)));
        let number = i64::from_str_radix(text, radix);
        ask(run, text, radix, i64::MAX as u64, true, number.ok().map(|n| (1 + (n < 0) as u32, n.unsigned_abs())));
    }
}

fn ask(run: &mut Run, text: &str, radix: u32, max: u64, minus: bool, rust: Option<(u32, u64)>) {
    let port = cells(2, |out| port::probe_numeral(text.as_bytes(), radix, max, minus, out));
    let port = port.map(|(kind, [magnitude])| match (kind, magnitude) {
        (0, _) => None,
        (2, 0) => Some((1, 0)), // minus zero is the number 0
        answer => Some(answer),
    });
    let input = format_args!("{:?} radix {radix} max {max} minus {minus}", Esc(text.as_bytes()));
    run.same("numeral", input, Ok(rust), port);
}
