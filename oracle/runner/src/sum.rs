//! A sum over the cells of tables, for a recording: a program of the gate makes the same one. No number in it passes 2^64.

/// A prime below 2^32.
const MODULUS: u64 = 4_294_967_291;
const FACTOR: u64 = 16_777_619;

pub struct Sum(pub u64);

impl Default for Sum {
    fn default() -> Sum {
        Sum(1)
    }
}

impl Sum {
    fn add(&mut self, value: u64) {
        self.0 = (self.0 * FACTOR + value % MODULUS) % MODULUS;
    }

    /// Of each cell that is not 0 its place and its value; at the end 0.
    pub fn table(&mut self, cells: impl Iterator<Item = u64>) {
        for (at, cell) in cells.enumerate() {
            if cell != 0 {
                self.add(at as u64);
                self.add(cell);
            }
        }
        self.add(0);
    }
}

/// An i64 as a number: twice itself, or for a negative one 1 more than twice what is left of it above -1.
pub fn unsigned(us: i64) -> u64 {
    if us < 0 { 2 * (-1 - us) as u64 + 1 } else { 2 * us as u64 }
}
