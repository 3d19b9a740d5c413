//! `bench`: the time that both sides take on the same inputs.

use crate::Options;
use std::fmt::Debug;
use std::hint::black_box;
use std::process::ExitCode;
use std::time::{Duration, Instant};

/// A round of one side repeats its call for about this long; of so many rounds the best counts.
const ROUND: Duration = Duration::from_millis(2);
const ROUNDS: usize = 60;

/// The length of the inputs: the longest text that the port takes.
pub const BYTES: usize = 65_536;

pub struct Bench;

impl Bench {
    /// Times both sides on an input of so many bytes, and prints a line.
    pub fn row<A, B>(&mut self, input: &str, bytes: usize, rust: impl FnMut() -> A, port: impl FnMut() -> B) {
        let (rust_best, port_best) = in_turn(rust, port);
        line(input, bytes, rust_best, port_best);
    }

    /// The same for calls that take long: each is made once.
    pub fn once<A, B>(&mut self, input: &str, bytes: usize, mut rust: impl FnMut() -> A, mut port: impl FnMut() -> B) {
        line(input, bytes, round(1, &mut rust), round(1, &mut port));
    }

    /// Times the port on two inputs, and prints how much longer the second takes.
    pub fn growth<A, B>(&mut self, first: impl FnMut() -> A, second: impl FnMut() -> B) {
        let (first_best, second_best) = in_turn(first, second);
        println!("    the port's time grows by {:.2}", second_best / first_best);
    }

    /// The same for calls that take long.
    pub fn growth_once<A, B>(&mut self, mut first: impl FnMut() -> A, mut second: impl FnMut() -> B) {
        let (first, second) = (round(1, &mut first), round(1, &mut second));
        println!("    the port's time grows by {:.2}, to {:.3} s", second / first, second / 1e9);
    }

    /// Times the port on a part of its work and on the whole, and prints how much of it the part is.
    pub fn share<A, B>(&mut self, what: &str, part: impl FnMut() -> A, whole: impl FnMut() -> B) {
        let (part_best, whole_best) = in_turn(part, whole);
        println!(
            "    {what} takes {:.1} µs, {:.0} % of the port's time",
            part_best / 1e3,
            100.0 * part_best / whole_best
        );
    }

    /// The same on short texts, of which each is asked once. Both answers are compared before.
    pub fn texts<A: PartialEq + Debug>(
        &mut self,
        input: &str,
        texts: &[String],
        rust: impl Fn(&str) -> A,
        port: impl Fn(&str) -> A,
    ) {
        for text in texts {
            assert_eq!(rust(text), port(text), "{input} differs on {text:?}");
        }
        let bytes = texts.iter().map(String::len).sum();
        self.row(input, bytes, || each(texts, &rust), || each(texts, &port));
    }
}

pub fn run(options: &Options) -> ExitCode {
    println!("Best of {ROUNDS} rounds. Ratio: Rust time / port time; above 1 the port is faster.");
    println!("Where the Rust makes a text it allocates it in each call, and that is timed. The port writes into a");
    println!("buffer that was made before and is not cleared in between.");
    println!("{:42} {:>8} {:>13} {:>13} {:>8}", "input", "bytes", "Rust ns/byte", "port ns/byte", "ratio");
    for layer in &options.layers {
        if let Some(bench) = layer.bench {
            bench(&mut Bench);
        }
    }
    ExitCode::SUCCESS
}

fn line(input: &str, bytes: usize, rust: f64, port: f64) {
    let each = bytes as f64;
    println!("{input:42} {bytes:>8} {:>13.3} {:>13.3} {:>8.2}", rust / each, port / each, rust / port);
}

fn each<A>(texts: &[String], side: impl Fn(&str) -> A) {
    for text in texts {
        black_box(side(black_box(text)));
    }
}

/// The nanoseconds of one call of each, the best of rounds in turn.
fn in_turn<A, B>(mut first: impl FnMut() -> A, mut second: impl FnMut() -> B) -> (f64, f64) {
    let (first_calls, second_calls) = (calls(&mut first), calls(&mut second));
    let (mut first_best, mut second_best) = (f64::MAX, f64::MAX);
    for _ in 0..ROUNDS {
        first_best = first_best.min(round(first_calls, &mut first));
        second_best = second_best.min(round(second_calls, &mut second));
    }
    (first_best, second_best)
}

/// How many calls make a round.
fn calls<A>(call: &mut impl FnMut() -> A) -> u32 {
    let mut calls = 1;
    while round(calls, call) * (calls as f64) < ROUND.as_nanos() as f64 {
        calls *= 2;
    }
    calls
}

/// The nanoseconds of one call, over so many.
fn round<A>(calls: u32, call: &mut impl FnMut() -> A) -> f64 {
    let start = Instant::now();
    for _ in 0..calls {
        black_box(call());
    }
    start.elapsed().as_nanos() as f64 / calls as f64
}

const WORDS: &[&str] = &[
    "The", "ferry", "leaves", "at", "dawn,", "and", "nobody", "on", "the", "quay", "has", "slept.", "Wait", "for",
    "me", "by", "the", "old", "lighthouse;", "I", "will", "bring", "bread", "and", "a", "lamp.",
];

/// English words, with one of `entities` after every so many; 0 for none.
pub fn prose(every: usize) -> String {
    let entities = ["&amp;", "&#233;", "&lt;", "&quot;", "&#x2019;", "&gt;"];
    filled(|n| {
        let word = WORDS[n % WORDS.len()];
        match n.checked_rem(every) {
            Some(0) => format!("{word} {} ", entities[n / every % entities.len()]),
            _ => format!("{word} "),
        }
    })
}

/// Words of several scripts.
pub fn mixed() -> String {
    let words = ["déjà", "vu", "Größe", "naïve", "Привет", "και", "the", "quay", "slept", "coeur", "日本", "lamp"];
    filled(|n| format!("{} ", words[n % words.len()]))
}

/// Chinese without blanks: three bytes to a character.
pub fn cjk() -> String {
    let words = ["渡船", "黎明", "离开", "码头上", "没有人", "睡觉。"];
    filled(|n| words[n % words.len()].to_string())
}

/// The pieces for 0, 1, 2 .. up to the last that fits, then blanks.
pub fn filled(piece: impl Fn(usize) -> String) -> String {
    let mut text = pieces(piece).concat();
    text.extend(std::iter::repeat_n(' ', BYTES - text.len()));
    text
}

/// The pieces for 0, 1, 2 .. up to the last that fits.
pub fn pieces(piece: impl Fn(usize) -> String) -> Vec<String> {
    let mut left = BYTES;
    let fits = |piece: &String| {
        let rest = left.checked_sub(piece.len());
        left = rest.unwrap_or(0);
        rest.is_some()
    };
    (0..).map(piece).take_while(fits).collect()
}
