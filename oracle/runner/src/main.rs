//! Asks the Rust and the port the same questions: `compare`, `record` and `bench`.

mod answer;
mod bench;
mod cases;
mod cells;
mod compare;
mod corners;
mod document;
mod elements;
mod expat;
mod extras;
mod films;
mod handed;
mod held;
mod hostile;
mod inline;
mod judge;
mod layers;
mod lend;
mod lending;
mod pieces;
mod placed;
mod plain;
mod query;
mod reach;
mod record;
mod replay;
mod rows;
mod sheets;
mod soil;
mod sum;
mod tables;
mod texts;
mod tracks;
mod valid;
mod writing;

use layers::{LAYERS, Layer};
use std::process::ExitCode;

/// What stands after the name of a command.
struct Options {
    seed: u64,
    count: Option<usize>,
    /// The layers named, or all.
    layers: Vec<&'static Layer>,
}

fn main() -> ExitCode {
    let words: Vec<String> = std::env::args().skip(1).collect();
    let (command, rest) = match words.split_first() {
        Some((command, rest)) => (command.as_str(), rest),
        None => ("", &[][..]),
    };
    let done = options(rest).and_then(|options| match command {
        "compare" => Ok(compare::run(&options)),
        "record" => record::run(&options),
        "bench" => Ok(bench::run(&options)),
        _ => Err("no such command".to_string()),
    });
    done.unwrap_or_else(|wrong| {
        let names: Vec<&str> = LAYERS.iter().map(|layer| layer.name).collect();
        eprintln!("oracle: {wrong}");
        eprintln!("usage: oracle/compare|record|bench [OPTION..] [LAYER..]");
        eprintln!("options: --sources DIR --probe DIR --ttml DIR --recaption FILE --seed S --count N");
        eprintln!("layers: {}", names.join(" "));
        ExitCode::from(2)
    })
}

fn options(words: &[String]) -> Result<Options, String> {
    let mut options = Options { seed: 1, count: None, layers: Vec::new() };
    let mut words = words.iter();
    while let Some(word) = words.next() {
        let mut number = || {
            let value = words.next().ok_or(format!("{word} needs a number"))?;
            value.parse::<u64>().map_err(|_| format!("{word} needs a number, not {value}"))
        };
        match word.as_str() {
            "--seed" => options.seed = number()?,
            "--count" => options.count = Some(number()? as usize),
            name => {
                let layer = LAYERS.iter().find(|layer| layer.name == name);
                options.layers.push(layer.ok_or(format!("no such option or layer: {name}"))?);
            }
        }
    }
    if options.layers.is_empty() {
        options.layers.extend(LAYERS);
    }
    Ok(options)
}
