//! What document 01 says of a text (`judge.rs`), held to what the Rust does with it.

use crate::answer::Answer;
use crate::elements::Met;
use crate::judge;
use crate::layers::times;
use crate::lending::Call;
use crate::placed::Track;
use crate::rows::{self, Input, Read, Reading};
use reference::ir::{SubtitleCue, SubtitleStyle, SubtitleTrack};
use reference::ttml::{self, access};

/// What the Rust gives, as far as it is compared.
pub type Told = (Vec<SubtitleStyle>, Vec<SubtitleCue>, Vec<(String, String)>);

/// What document 01 says of a text that has this tree.
pub fn judged(call: Call, read: &Read) -> Met<Track> {
    match call {
        Call::Parse => judge::parse(read),
        Call::Cue => judge::bytes_to_cue(read),
    }
}

/// Holds what is judged to what the Rust does: it gives the same track; an error for 12; it stops for 15 and 16. For 13 and 14
/// it does whatever it does. Gives its track, or, where the two differ, what each says. Texts that it would decode to others
/// are not asked.
pub fn held(call: Call, read: &Read, judged: &Met<Track>) -> Result<Option<Told>, [Answer<Told>; 2]> {
    if read.text.starts_with('\u{FEFF}') || read.text.contains('\r') {
        return Ok(None);
    }
    let rust = Answer::ask(|| rust(call, read.text), stopped);
    let same = match (judged, &rust) {
        (Ok(track), Answer::Is(rust)) => told(track.rust()) == *rust,
        (Err(refusal), Answer::Nothing) => refusal.number == 12,
        (Err(refusal), Answer::Number(number)) => [13, 14].contains(&refusal.number) || refusal.number == *number,
        (Err(refusal), Answer::Is(_)) => [13, 14].contains(&refusal.number),
        (Ok(_), _) => false,
    };
    if !same {
        let said = match judged {
            Ok(track) => Answer::Is(told(track.rust())),
            Err(refusal) => Answer::Number(refusal.number),
        };
        return Err([rust, said]);
    }
    Ok(if let Answer::Is(rust) = rust { Some(rust) } else { None })
}

/// What the Rust gives; none for an error.
pub fn rust(call: Call, text: &str) -> Option<Told> {
    match call {
        Call::Parse => ttml::parse(text.as_bytes()).ok().map(told),
        Call::Cue => {
            let cue = access::bytes_to_cue(text.as_bytes()).ok()?;
            Some((Vec::new(), vec![cue], vec![("source_format".into(), "ttml".into())]))
        }
    }
}

pub fn told(track: SubtitleTrack) -> Told {
    (track.styles, track.cues, track.metadata)
}

/// The number of the words with which the Rust stopped.
fn stopped(words: &str) -> u32 {
    if words.contains("char boundary") { 15 } else { times::number(words) }
}

/// What document 01 says of a text, held to the Rust.
pub fn meant(call: Call, text: &[u8]) -> Met<(Read<'_>, Track)> {
    let read = match rows::read(text) {
        Reading::Tree(read) => read,
        Reading::Refused(refusal) => return Err(refusal),
        Reading::Differs(rust, said) => panic!("{:?}: {rust}, {said}", Input(text)),
    };
    let judged = judged(call, &read);
    held(call, &read, &judged).unwrap_or_else(|sides| panic!("{:?}: {sides:?}", Input(text)));
    judged.map(|track| (read, track))
}
