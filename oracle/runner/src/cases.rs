//! What the generators of several layers use.

/// Random numbers (SplitMix64): the same for the same seed, everywhere.
pub struct Rng(u64);

impl Rng {
    /// The name goes into the numbers, so that a layer gets the same ones whatever runs before it.
    pub fn new(seed: u64, name: &str) -> Rng {
        let mut rng = Rng(seed);
        for byte in name.bytes() {
            rng.0 = rng.next() ^ byte as u64;
        }
        rng
    }

    pub fn next(&mut self) -> u64 {
        self.0 = self.0.wrapping_add(0x9E37_79B9_7F4A_7C15);
        let mut z = self.0;
        z = (z ^ (z >> 30)).wrapping_mul(0xBF58_476D_1CE4_E5B9);
        z = (z ^ (z >> 27)).wrapping_mul(0x94D0_49BB_1331_11EB);
        z ^ (z >> 31)
    }

    /// A number below `n`, which is not 0.
    pub fn below(&mut self, n: usize) -> usize {
        (self.next() % n as u64) as usize
    }

    pub fn pick<T: Copy>(&mut self, list: &[T]) -> T {
        list[self.below(list.len())]
    }
}

/// Every word of at most `longest` symbols, shorter ones first.
pub fn every_word<T: Copy>(symbols: &[T], longest: usize, mut each: impl FnMut(&[T])) {
    for length in 0..=longest {
        let mut digits = vec![0; length];
        let mut word = vec![symbols[0]; length];
        loop {
            each(&word);
            // Counts up; the last symbol changes fastest.
            let mut at = length;
            while at > 0 && digits[at - 1] == symbols.len() - 1 {
                at -= 1;
                digits[at] = 0;
                word[at] = symbols[0];
            }
            if at == 0 {
                break;
            }
            digits[at - 1] += 1;
            word[at - 1] = symbols[digits[at - 1]];
        }
    }
}

/// As [`every_word`], for texts.
pub fn every_text(symbols: &[char], longest: usize, mut each: impl FnMut(&str)) {
    let mut text = String::new();
    every_word(symbols, longest, |word| {
        text.clear();
        text.extend(word);
        each(&text);
    });
}

/// Every character there is.
pub fn every_char() -> impl Iterator<Item = char> {
    '\0'..=char::MAX
}

/// The 25 characters that are White_Space.
pub const SPACES: &[char] = &[
    '\t', '\n', '\u{B}', '\u{C}', '\r', ' ', '\u{85}', '\u{A0}', '\u{1680}', '\u{2000}', '\u{2001}', '\u{2002}',
    '\u{2003}', '\u{2004}', '\u{2005}', '\u{2006}', '\u{2007}', '\u{2008}', '\u{2009}', '\u{200A}', '\u{2028}',
    '\u{2029}', '\u{202F}', '\u{205F}', '\u{3000}',
];

/// Those beside them, those that look like them, and those that share bytes with them.
pub const NO_SPACES: &[char] = &[
    '\u{8}', '\u{E}', '\u{1C}', '\u{1F}', '!', '\u{84}', '\u{86}', '\u{9F}', '\u{A1}', '\u{C5}', '\u{E0}', '\u{167F}',
    '\u{1681}', '\u{180E}', '\u{1FFF}', '\u{200B}', '\u{2027}', '\u{202A}', '\u{202E}', '\u{2030}', '\u{205E}',
    '\u{2060}', '\u{2FFF}', '\u{3001}', '\u{3040}', '\u{FEFF}', '\u{1F680}',
];

/// A character: of ASCII, white space or nearly so, or of two, three or four bytes.
pub fn any_char(rng: &mut Rng) -> char {
    let (least, most) = match rng.below(8) {
        0..4 => (0x00, 0x7F),
        4 => return if rng.below(2) == 0 { rng.pick(SPACES) } else { rng.pick(NO_SPACES) },
        5 => (0x80, 0x7FF),
        6 => (0x800, 0xFFFF),
        _ => (0x1_0000, 0x10_FFFF),
    };
    // The ends of the range come up often; a surrogate, which is no character, gives its neighbour.
    let code = match rng.below(8) {
        0 => least,
        1 => most,
        _ => least + rng.below((most - least + 1) as usize) as u32,
    };
    char::from_u32(code).unwrap_or('\u{E000}')
}

/// A text of at most `most` characters.
pub fn any_text(rng: &mut Rng, most: usize) -> String {
    (0..rng.below(most + 1)).map(|_| any_char(rng)).collect()
}

/// The texts of all groups.
pub fn texts(groups: &[&[&str]]) -> Vec<String> {
    groups.concat().into_iter().map(String::from).collect()
}

/// A text in which a character is put in, left out, changed or doubled, or that is cut.
pub fn damage(rng: &mut Rng, text: &str, foreign: &[char]) -> String {
    let mut text: Vec<char> = text.chars().collect();
    let at = rng.below(text.len() + 1);
    let foreign = rng.pick(foreign);
    match rng.below(5) {
        0 => text.insert(at, foreign),
        _ if at == text.len() => text.push(foreign),
        1 => drop(text.remove(at)),
        2 => text[at] = foreign,
        3 => text.insert(at, text[at]),
        _ => text.truncate(at),
    }
    text.into_iter().collect()
}
