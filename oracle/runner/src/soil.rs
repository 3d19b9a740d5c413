//! Cells that a row's kind or flags do not use, and rows and bytes past those that are used, are not looked at: here they are
//! filled, and the tables mean the same track.

use crate::tables::Tables;

const FILL: u32 = 0xBAD0_BAD0;

/// Fills all such cells.
pub fn soil(t: &mut Tables) {
    for table in 1..11 {
        let fill = if table > 8 { 0xFF } else { FILL as i64 };
        for at in t.used(table)..length(t, table) {
            t.set(table, at, fill);
        }
    }
    absent(&mut t.head[5..8]);
    let styles = t.used(2);
    for (row, size) in t.styles[..styles].chunks_mut(27).zip(&mut t.sizes) {
        if row[17] == 0 {
            *size = f32::NAN;
        }
        for (from, to) in [(4, 9), (9, 14), (14, 17), (17, 20)] {
            absent(&mut row[from..to]);
        }
    }
    let cues = t.used(4);
    for row in t.cues[..cues].chunks_mut(11) {
        absent(&mut row[..3]);
        absent(&mut row[3..6]);
    }
    segments(t);
}

/// What a flag or a sign of 0 says is not there.
fn absent(cells: &mut [u32]) {
    if cells[0] == 0 {
        cells[1..].fill(FILL);
    }
}

fn segments(t: &mut Tables) {
    let used = t.used(6);
    for row in t.segments[..used].chunks_mut(6) {
        let data = match row[0] {
            1 | 3 => 2,
            8 => 3,
            9 => 4,
            _ => 0,
        };
        row[2 + data..].fill(FILL);
        if row[0] == 9 && row[4] & 1 == 0 {
            row[2..4].fill(FILL);
        }
        // Scale and digits are of no account without a sign.
        if row[0] == 9 && row[4] & 6 == 0 {
            row[4] |= FILL & !7;
            row[5] = f32::NAN.to_bits();
        }
    }
}

fn length(t: &Tables, table: usize) -> usize {
    match table {
        1 => t.params.len(),
        2 => t.styles.len(),
        3 => t.regions.len(),
        4 => t.cues.len(),
        5 => t.times.len(),
        6 => t.segments.len(),
        7 => t.sizes.len(),
        8 => t.extras.len(),
        9 => t.strings.len(),
        _ => t.texts.len(),
    }
}
