//! The program `recaption` as a process: a text on standard input, and on standard output what the Rust writes of its track, or the number
//! and the place of its refusal.

use super::{Layer, tree};
use crate::compare::{Esc, Run, deep};
use crate::corners::{corners, limits};
use crate::document::BYTES;
use crate::films::{documents, film};
use crate::held::meant;
use crate::lending::Call;
use crate::rows::Input;
use crate::texts::{any_document, any_long};
use reference::ttml;
use std::io::{Read, Write};
use std::path::Path;
use std::process::{Command, Stdio};
use std::thread;

pub const LAYER: Layer = Layer { name: "recaption", compare, record: None, bench: None };

fn compare(run: &mut Run) {
    // Where `rt run` in crates/recaption leaves it, unless another is named. The current folder is the project's root.
    let program = std::env::var("TTML_RECAPTION").unwrap_or("crates/recaption/out/recaption".to_string());
    if !Path::new(&program).exists() {
        println!("recaption: there is no {program}; nothing is asked");
        return;
    }
    deep(|| {
        let listed = [corners(), documents(), vec![film(20_000), film(60_000), "x".repeat(3 * BYTES)]].concat();
        for text in listed.iter().chain(limits().iter().step_by(9)) {
            check(run, &program, text.as_bytes());
        }
        for n in 0..run.count / 1_000 {
            let document = any_document(&mut run.rng);
            check(run, &program, document.as_bytes());
            let text = tree::damaged(&mut run.rng, &document);
            check(run, &program, &text);
            if n % 20 == 0 {
                let text = any_long(&mut run.rng);
                check(run, &program, text.as_bytes());
            }
        }
    });
}

fn check(run: &mut Run, program: &str, text: &[u8]) {
    let must = match meant(Call::Parse, text) {
        Err(refusal) => format!("{} {}\n", refusal.number, refusal.place).into_bytes(),
        Ok((_, track)) => match ttml::write(&track.rust()) {
            written if written.len() > BYTES => b"18 0\n".to_vec(),
            written => written,
        },
    };
    let said = said(program, text);
    run.same("recaption", format_args!("{:?}", Input(text)), Esc(&must), Esc(&said));
}

/// What the program writes. Its input comes in two pieces.
fn said(program: &str, text: &[u8]) -> Vec<u8> {
    let mut command = Command::new(program);
    let mut child = command.stdin(Stdio::piped()).stdout(Stdio::piped()).spawn().expect("the program starts");
    let (mut input, mut output) = (child.stdin.take().unwrap(), child.stdout.take().unwrap());
    let (first, second) = text.split_at(text.len() / 3);
    let mut said = Vec::new();
    thread::scope(|scope| {
        // The program may end before it has read all.
        scope.spawn(move || input.write_all(first).and_then(|()| input.flush()).and_then(|()| input.write_all(second)));
        output.read_to_end(&mut said).expect("its output is read");
    });
    let ended = child.wait().expect("the program ends");
    if ended.code().is_none() { format!("{ended}").into_bytes() } else { said }
}
