//! The port's writers asked: a handed track into a lent buffer with a guarded area around it.

use crate::compare::{Esc, Run};
use crate::document::BYTES;
use crate::handed::Handed;
use std::fmt::{self, Arguments, Debug, Formatter};

/// What the port left in the buffer.
#[derive(PartialEq)]
pub enum Written<'a> {
    Text(&'a [u8]),
    /// Document 01's number; every byte is zero.
    Number(u32),
    Fault(String),
}

impl Debug for Written<'_> {
    fn fmt(&self, f: &mut Formatter) -> fmt::Result {
        match self {
            Written::Text(text) if text.len() > 2_000 => {
                write!(f, "{:?} .., {} bytes", Esc(&text[..2_000]), text.len())
            }
            Written::Text(text) => write!(f, "{:?}", Esc(text)),
            Written::Number(number) => write!(f, "{number}"),
            Written::Fault(fault) => write!(f, "{fault}"),
        }
    }
}

const FILL: u8 = 0xA5;
const GUARD: usize = 32;

/// A buffer that serves many questions.
#[derive(Default)]
pub struct Out(Vec<u8>);

impl Out {
    /// Lends so many bytes. The question answers the number in its low 32 bits and how many bytes in its high 32.
    pub fn ask(&mut self, length: usize, question: impl FnOnce(&mut [u8]) -> u64) -> Written<'_> {
        let whole = length + 2 * GUARD;
        self.0.resize(whole.max(self.0.len()), FILL);
        let whole = &mut self.0[..whole];
        whole.fill(FILL);
        let told = question(&mut whole[GUARD..GUARD + length]);
        let (number, count) = (told as u32, (told >> 32) as usize);
        let (before, rest) = whole.split_at(GUARD);
        let (lent, after) = rest.split_at(length);
        if before != [FILL; GUARD] || after != [FILL; GUARD] {
            return Written::Fault("wrote outside".to_string());
        }
        let Some((text, rest)) = lent.split_at_checked(count) else {
            return Written::Fault(format!("{count} bytes in {length}"));
        };
        if rest.iter().any(|&byte| byte != 0) {
            return Written::Fault(format!("{number}, {count} bytes, and zeros do not follow"));
        }
        match number {
            0 => Written::Text(text),
            _ if count == 0 => Written::Number(number),
            _ => Written::Fault(format!("{number} at {count}")),
        }
    }

    /// Compares what the port does with buffers of these lengths. The Rust's text, or a number that is met before 18.
    pub fn same(
        &mut self,
        run: &mut Run,
        function: &'static str,
        input: Arguments,
        must: Result<&[u8], u32>,
        lengths: &[usize],
        question: impl Fn(&mut [u8]) -> u64,
    ) {
        for &length in lengths {
            let must = match must {
                Ok(text) if text.len() <= length.min(BYTES) => Written::Text(text),
                Ok(_) => Written::Number(18),
                Err(number) => Written::Number(number),
            };
            let port = self.ask(length, &question);
            run.same(function, format_args!("{input} into {length} bytes"), must, port);
        }
    }
}

pub fn write(t: &Handed, out: &mut [u8]) -> u64 {
    port::pg_write(
        t.head, t.params, t.styles, t.regions, t.cues, t.times, t.segments, t.sizes, t.extras, t.strings, t.texts, out,
    )
}

pub fn cue_to_bytes(t: &Handed, index: usize, out: &mut [u8]) -> u64 {
    port::pg_cue_to_bytes(
        t.head, t.params, t.styles, t.regions, t.cues, t.times, t.segments, t.sizes, t.extras, t.strings, t.texts,
        index, out,
    )
}

pub fn plain_text(t: &Handed, index: usize, out: &mut [u8]) -> u64 {
    port::pg_plain_text(t.head, t.cues, t.segments, t.texts, index, out)
}

pub fn check_track(t: &Handed) -> u64 {
    port::pg_check_track(
        t.head, t.params, t.styles, t.regions, t.cues, t.times, t.segments, t.sizes, t.extras, t.strings, t.texts,
    )
}
