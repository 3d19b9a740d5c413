//! What the Rust answers where it may stop on a value, and where document 01 turns a text away by a number.

use std::cell::Cell;
use std::panic::{AssertUnwindSafe, catch_unwind, set_hook, take_hook};
use std::sync::Once;

#[derive(Clone, Debug, PartialEq)]
pub enum Answer<A> {
    Is(A),
    Nothing,
    /// Document 01's number.
    Number(u32),
}

impl<A> Answer<A> {
    /// Asks the Rust. Where it stops, its words tell the number.
    pub fn ask(question: impl FnOnce() -> Option<A>, number: impl FnOnce(&str) -> u32) -> Answer<A> {
        match catch(question) {
            Ok(Some(value)) => Answer::Is(value),
            Ok(None) => Answer::Nothing,
            Err(words) => Answer::Number(number(&words)),
        }
    }

    pub fn map<B>(self, value: impl FnOnce(A) -> B) -> Answer<B> {
        match self {
            Answer::Is(a) => Answer::Is(value(a)),
            Answer::Nothing => Answer::Nothing,
            Answer::Number(number) => Answer::Number(number),
        }
    }
}

/// An answer as a function of the port gives it: a code, and a value where the code is 1.
pub type Coded<A> = (u32, Option<A>);

/// What the port answered, with what it wrote if the code says that it is a value.
pub fn coded<A>((code, value): (u32, A)) -> Coded<A> {
    (code, (code == 1).then_some(value))
}

impl<A> Answer<A> {
    /// As the port would answer; `number` is its code for a number of document 01.
    pub fn coded(self, number: impl FnOnce(u32) -> u32) -> Coded<A> {
        match self {
            Answer::Is(value) => (1, Some(value)),
            Answer::Nothing => (0, None),
            Answer::Number(n) => (number(n), None),
        }
    }
}

impl Answer<Vec<u8>> {
    /// As a recording has it: a number is one byte, nothing is none.
    pub fn bytes(self) -> Vec<u8> {
        match self {
            Answer::Is(bytes) => bytes,
            Answer::Nothing => Vec::new(),
            Answer::Number(number) => vec![number as u8],
        }
    }
}

thread_local!(static CATCHING: Cell<bool> = const { Cell::new(false) });

/// What a question answers, or the words with which it stopped. These are not printed.
fn catch<A>(question: impl FnOnce() -> A) -> Result<A, String> {
    static HOOK: Once = Once::new();
    HOOK.call_once(|| {
        let usual = take_hook();
        set_hook(Box::new(move |stop| {
            if !CATCHING.get() {
                usual(stop)
            }
        }));
    });
    CATCHING.set(true);
    let answer = catch_unwind(AssertUnwindSafe(question));
    CATCHING.set(false);
    answer.map_err(|words| match words.downcast::<String>() {
        Ok(words) => *words,
        Err(words) => words.downcast_ref::<&str>().copied().unwrap_or_default().to_string(),
    })
}
