//! The README's example.

use postgarlic::{Refusal, Tables};

fn main() -> Result<(), Refusal> {
    let mut tables = Tables::new();
    let track = tables.parse("<tt><body><p begin='00:05' dur='2s'>Pawn to e4</p></body></tt>")?;
    for cue in track.cues() {
        println!("{:.3} s: {}", cue.begin() as f64 / 1e6, cue.text()?);
    }
    Ok(())
}
