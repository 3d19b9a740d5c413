//! `record`: writes a sample of the Rust's answers, which a program of the gate replays. It asks the port
//! nothing.

use crate::Options;
use crate::cases::Rng;
use std::collections::HashSet;
use std::fmt::Write;
use std::path::Path;
use std::process::ExitCode;

/// How long a recording may become.
const MOST_BYTES: usize = 150_000;

/// How a layer is recorded.
pub struct Recording {
    /// Where it is written, from the project's root.
    pub file: &'static str,
    /// How many lines it has if `--count` does not say.
    pub count: usize,
    pub lines: fn(&mut Rng, &mut Lines),
}

/// The lines of a recording: `KIND IN OUT`, in hex, `-` for no bytes.
pub struct Lines {
    /// How many are asked for.
    pub count: usize,
    pub made: usize,
    text: String,
}

impl Lines {
    /// Adds so many percent of all lines, as questions of this kind: the corners, then random ones; none twice.
    pub fn add(
        &mut self,
        kind: char,
        percent: usize,
        corners: Vec<Vec<u8>>,
        random: impl FnMut() -> Vec<u8>,
        answer: impl Fn(&[u8]) -> Vec<u8>,
    ) {
        let questions = corners.into_iter().chain(std::iter::repeat_with(random));
        let pair = |question: Vec<u8>| {
            let answer = answer(&question);
            (question, answer)
        };
        self.pairs(kind, percent, questions.map(pair));
    }

    /// Adds so many percent of all lines: the first of these questions with their answers; none twice.
    pub fn pairs(&mut self, kind: char, percent: usize, pairs: impl Iterator<Item = (Vec<u8>, Vec<u8>)>) {
        let mut seen = HashSet::new();
        for (question, answer) in pairs.filter(|(q, _)| seen.insert(q.clone())).take(self.count * percent / 100) {
            self.question(kind, &question, &answer);
        }
    }

    /// Adds a question with its answer.
    pub fn question(&mut self, kind: char, question: &[u8], answer: &[u8]) {
        writeln!(self.text, "{kind} {} {}", hex(question), hex(answer)).unwrap();
        self.made += 1;
    }

    /// Adds a line that is no question.
    pub fn line(&mut self, line: &str) {
        writeln!(self.text, "{line}").unwrap();
    }
}

pub fn hex(bytes: &[u8]) -> String {
    if bytes.is_empty() {
        return "-".to_string();
    }
    bytes.iter().map(|byte| format!("{byte:02x}")).collect()
}

/// The current folder is the project's root.
pub fn run(options: &Options) -> Result<ExitCode, String> {
    for layer in &options.layers {
        let Some(recording) = &layer.record else { continue };
        let count = options.count.unwrap_or(recording.count);
        let mut lines = Lines { count, made: 0, text: String::new() };
        (recording.lines)(&mut Rng::new(options.seed, layer.name), &mut lines);
        let made = lines.made;

        let mut text = format!("# oracle/record --seed {} --count {count} {}\n", options.seed, layer.name);
        for (file, lines) in reference::SOURCES {
            writeln!(text, "# source {file}, {lines} lines").unwrap();
        }
        writeln!(text, "# {}", reference::RUSTC).unwrap();
        text += &lines.text;
        if text.len() >= MOST_BYTES {
            return Err(format!("{} bytes are too many for {}: lower --count", text.len(), recording.file));
        }
        let file = Path::new(recording.file);
        let written = std::fs::create_dir_all(file.parent().unwrap()).and_then(|()| std::fs::write(file, &text));
        written.map_err(|e| format!("{}: {e}", recording.file))?;
        println!("{}: {made} answers, {} bytes", recording.file, text.len());
    }
    Ok(ExitCode::SUCCESS)
}
