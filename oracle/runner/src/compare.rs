//! `compare`: counts where both sides agree, and prints where they do not.

use crate::Options;
use crate::cases::Rng;
use std::collections::BTreeMap;
use std::fmt::{Arguments, Debug, Formatter, Result};
use std::process::ExitCode;
use std::thread;
use std::time::Instant;

/// How many random cases a generator makes if `--count` does not say.
const COUNT: usize = 2_000_000;

/// How many differences of a function are printed. All are counted.
const SHOWN: u64 = 6;

/// The comparison of one layer.
pub struct Run {
    pub rng: Rng,
    /// How many random cases each generator of the layer makes.
    pub count: usize,
    layer: &'static str,
    agreed: u64,
    /// By function.
    differ: BTreeMap<&'static str, u64>,
}

impl Run {
    /// Compares the two answers to a question: a function of the port, and what it is asked about.
    pub fn same<A: PartialEq + Debug>(&mut self, function: &'static str, input: Arguments, rust: A, port: A) {
        if rust == port {
            self.agreed += 1;
            return;
        }
        let differ = self.differ.entry(function).or_default();
        *differ += 1;
        if *differ <= SHOWN {
            println!("{}: {function} {input}\n  Rust {rust:?}\n  port {port:?}", self.layer);
        }
    }
}

pub fn run(options: &Options) -> ExitCode {
    let (mut agreed, mut differ) = (0, 0);
    for layer in &options.layers {
        let start = Instant::now();
        let mut run = Run {
            rng: Rng::new(options.seed, layer.name),
            count: options.count.unwrap_or(COUNT),
            layer: layer.name,
            agreed: 0,
            differ: BTreeMap::new(),
        };
        (layer.compare)(&mut run);
        let sum: u64 = run.differ.values().sum();
        let seconds = start.elapsed().as_secs_f64();
        println!("{:10} {:>10} agreed, {sum:>10} differ {seconds:>7.1} s", layer.name, run.agreed);
        for (function, differ) in &run.differ {
            println!("  {function}: {differ} differ");
        }
        agreed += run.agreed;
        differ += sum;
    }
    println!("{agreed} agreed, {differ} differ");
    ExitCode::from((differ > 0) as u8)
}

/// The Rust calls itself for each open element and for each comment: with a stack that holds any text.
pub fn deep(work: impl FnOnce() + Send) {
    thread::scope(|scope| {
        let thread = thread::Builder::new().stack_size(1 << 30);
        thread.spawn_scoped(scope, work).expect("no thread").join().expect("stopped");
    });
}

/// Bytes, printed as text with what is not printable ASCII escaped.
#[derive(PartialEq)]
pub struct Esc<'a>(pub &'a [u8]);

impl Debug for Esc<'_> {
    fn fmt(&self, f: &mut Formatter) -> Result {
        write!(f, "\"{}\"", self.0.escape_ascii())
    }
}
