//! The port's functions, as its static libraries export them. A slice passes as a pointer and a length.

/// Declares each function and wraps it, so that a signature is written once, with slices.
///
/// The rules below `@` take the arguments from the left, one in a step, and add each to three lists: the
/// parameters of the C function, those of the wrapper, and what the wrapper passes.
macro_rules! exports {
    ($($(#[$doc:meta])* fn $name:ident($($args:tt)*) -> $answer:ty;)*) => {
        $(exports!(@ [$(#[$doc])*] $name -> $answer; [] [] []; $($args)*,);)*
    };
    (@ $doc:tt $name:ident -> $answer:ty; [$($c:tt)*] [$($own:tt)*] [$($pass:tt)*];
        $arg:ident: &[$cell:ty], $($rest:tt)*) => {
        exports!(@ $doc $name -> $answer; [$($c)* _: *const $cell, _: usize,]
            [$($own)* $arg: &[$cell],] [$($pass)* $arg.as_ptr(), $arg.len(),]; $($rest)*);
    };
    (@ $doc:tt $name:ident -> $answer:ty; [$($c:tt)*] [$($own:tt)*] [$($pass:tt)*];
        $arg:ident: &mut [$cell:ty], $($rest:tt)*) => {
        exports!(@ $doc $name -> $answer; [$($c)* _: *mut $cell, _: usize,]
            [$($own)* $arg: &mut [$cell],] [$($pass)* $arg.as_mut_ptr(), $arg.len(),]; $($rest)*);
    };
    (@ $doc:tt $name:ident -> $answer:ty; [$($c:tt)*] [$($own:tt)*] [$($pass:tt)*];
        $arg:ident: $number:ty, $($rest:tt)*) => {
        exports!(@ $doc $name -> $answer; [$($c)* _: $number,]
            [$($own)* $arg: $number,] [$($pass)* $arg,]; $($rest)*);
    };
    (@ [$($doc:tt)*] $name:ident -> $answer:ty; [$($c:tt)*] [$($own:tt)*] [$($pass:tt)*];) => {
        $($doc)*
        #[inline]
        pub fn $name($($own)*) -> $answer {
            #[cfg(feature = "linked")]
            {
                unsafe extern "C" {
                    fn $name($($c)*) -> $answer;
                }
                // Each pointer and length is that of a slice that lives through the call.
                unsafe { $name($($pass)*) }
            }
            #[cfg(not(feature = "linked"))]
            {
                let _ = ($($pass)*);
                panic!("built without the port")
            }
        }
    };
}

// What libprobe.a has for the comparison.
exports! {
    /// Where the longest valid beginning ends.
    fn probe_utf8_end(text: &[u8]) -> usize;

    /// `out[0]` and `out[1]` are where the trimmed text starts and ends; false if `out` has fewer cells.
    fn probe_trim(text: &[u8], out: &mut [u64]) -> bool;
    /// The next word at or after `from`, as `probe_trim` gives its text; false if there is none.
    fn probe_next_word(text: &[u8], from: usize, out: &mut [u64]) -> bool;
    /// The first place at or after `from`, or `usize::MAX`.
    fn probe_find_seq(src: &[u8], from: usize, mark: &[u8]) -> usize;
    fn probe_starts_with(src: &[u8], from: usize, mark: &[u8]) -> bool;
    fn probe_eq_ignore_ascii_case(a: &[u8], b: &[u8]) -> bool;
    /// Where the local name starts: after the last colon.
    fn probe_tag_local(name: &[u8]) -> usize;
    /// After the first colon, or 0.
    fn probe_strip_ns(name: &[u8]) -> usize;

    /// 0: no number; 1: a number; 2: a negative one. `out[0]` is its magnitude.
    fn probe_numeral(text: &[u8], radix: u32, max: u64, minus: bool, out: &mut [u64]) -> u32;

    /// The code point, or `u32::MAX`.
    fn probe_lookup_entity(name: &[u8]) -> u32;
    /// The bytes written, or `usize::MAX` if `out` is shorter than `text`.
    fn probe_decode_entities(text: &[u8], out: &mut [u8]) -> usize;
    /// The bytes written, or `usize::MAX` if they do not fit.
    fn probe_escape_text(text: &[u8], out: &mut [u8]) -> usize;
    /// As `probe_escape_text`.
    fn probe_escape_attr(text: &[u8], out: &mut [u8]) -> usize;

    /// 0: no decimal; 1: one, and `out` is its digits, how many of them stand behind the point, and 1 for a minus;
    /// 2: one past the limits. 3 if `out` has fewer than 3 cells, or the limits are above 18 or 2^32 - 1.
    fn probe_decimal(text: &[u8], digits: u64, decimals: u64, out: &mut [u64]) -> u32;
    /// The same with the limits of times, and `out[0]` is the f64.
    fn probe_decimal_f64(text: &[u8], out: &mut [f64]) -> u32;
    fn probe_truncate(x: f64) -> i64;
    /// The same with the limits of sizes: `out[0]` is the f32, and its spelling stands at the start of `spelling`.
    /// 3 if one of them has no room for it.
    fn probe_size(text: &[u8], spelling: &mut [u8], out: &mut [f32]) -> u32;
    /// How many bytes the spelling has; 0 if there is no size.
    fn probe_size_width(text: &[u8]) -> usize;
    fn probe_is_size(value: f32, negative: bool, digits: u32, scale: u32) -> bool;

    /// 0: no time; 1: one, in `out[0]`; 14, 15, 16: document 01's number. 2 if `out` is empty.
    fn probe_time(
        text: &[u8],
        frame_rate: f64,
        has_frame_rate: bool,
        tick_rate: f64,
        has_tick_rate: bool,
        out: &mut [i64]
    ) -> u32;
    /// As `probe_escape_text`.
    fn probe_format_ts(us: i64, out: &mut [u8]) -> usize;

    /// 0: no colour; 1: one, in `out`; 15: document 01's number. 2 if `out` has fewer than 4 cells.
    fn probe_color(text: &[u8], out: &mut [u8]) -> u32;
    /// As `probe_escape_text`.
    fn probe_color_text(r: u8, g: u8, b: u8, a: u8, alpha: bool, out: &mut [u8]) -> usize;
}

// The public calls, of libttml.a. Document 01's number stands in the low 32 bits of an answer, 0 for none, and in the high 32 its place.
exports! {
    /// The tree of a text. `counts` is how many nodes and attributes it has; 1 if it has fewer than 2 cells.
    fn pg_parse_xml(
        text: &[u8],
        nodes: &mut [u32],
        attrs: &mut [u32],
        strings: &mut [u8],
        counts: &mut [u32]
    ) -> u64;
    /// The track of a text.
    fn pg_parse(
        text: &[u8],
        nodes: &mut [u32],
        attrs: &mut [u32],
        head: &mut [u32],
        params: &mut [u32],
        styles: &mut [u32],
        regions: &mut [u32],
        cues: &mut [u32],
        times: &mut [i64],
        segments: &mut [u32],
        sizes: &mut [f32],
        extras: &mut [u32],
        strings: &mut [u8],
        texts: &mut [u8]
    ) -> u64;
    /// The same for a single cue.
    fn pg_bytes_to_cue(
        text: &[u8],
        nodes: &mut [u32],
        attrs: &mut [u32],
        head: &mut [u32],
        params: &mut [u32],
        styles: &mut [u32],
        regions: &mut [u32],
        cues: &mut [u32],
        times: &mut [i64],
        segments: &mut [u32],
        sizes: &mut [f32],
        extras: &mut [u32],
        strings: &mut [u8],
        texts: &mut [u8]
    ) -> u64;
    /// The number of a handed track: 0, 1 or 17.
    fn pg_check_track(
        head: &[u32],
        params: &[u32],
        styles: &[u32],
        regions: &[u32],
        cues: &[u32],
        times: &[i64],
        segments: &[u32],
        sizes: &[f32],
        extras: &[u32],
        strings: &[u8],
        texts: &[u8]
    ) -> u64;
    /// A handed track as text at the start of `out`: without a number the high 32 bits are how many bytes.
    fn pg_write(
        head: &[u32],
        params: &[u32],
        styles: &[u32],
        regions: &[u32],
        cues: &[u32],
        times: &[i64],
        segments: &[u32],
        sizes: &[f32],
        extras: &[u32],
        strings: &[u8],
        texts: &[u8],
        out: &mut [u8]
    ) -> u64;
    /// The same for the cue of an index.
    fn pg_cue_to_bytes(
        head: &[u32],
        params: &[u32],
        styles: &[u32],
        regions: &[u32],
        cues: &[u32],
        times: &[i64],
        segments: &[u32],
        sizes: &[f32],
        extras: &[u32],
        strings: &[u8],
        texts: &[u8],
        index: usize,
        out: &mut [u8]
    ) -> u64;
    /// What the cue of an index says.
    fn pg_plain_text(
        head: &[u32],
        cues: &[u32],
        segments: &[u32],
        texts: &[u8],
        index: usize,
        out: &mut [u8]
    ) -> u64;
    /// `resolve_referenced_style` on a handed track: 0, or document 01's number, in the low 32 bits. The ids reached stand in `ids`, a row of
    /// four cells each: 0 (in `value`) or 1 (in `strings`), place, length, 0. `out` is the place of a refusal, 1 for a
    /// style, how many ids, and of a style: its name (place and length in `value`), colour and background (flag, red,
    /// green, blue, alpha), family (flag, place, length in `strings`), size (flag, 1 for a minus, digits, scale), bold,
    /// italic, underline, strike, alignment. `size[0]` is the f32. 1 if there are fewer than 27 and 1 cells.
    fn pg_resolve_referenced_style(
        value: &[u8],
        head: &[u32],
        params: &[u32],
        styles: &[u32],
        regions: &[u32],
        cues: &[u32],
        times: &[i64],
        segments: &[u32],
        sizes: &[f32],
        extras: &[u32],
        strings: &[u8],
        texts: &[u8],
        ids: &mut [u32],
        out: &mut [u64],
        size: &mut [f32]
    ) -> u64;
    /// `region_style`; the same.
    fn pg_region_style(
        id: &[u8],
        head: &[u32],
        params: &[u32],
        styles: &[u32],
        regions: &[u32],
        cues: &[u32],
        times: &[i64],
        segments: &[u32],
        sizes: &[f32],
        extras: &[u32],
        strings: &[u8],
        texts: &[u8],
        ids: &mut [u32],
        out: &mut [u64],
        size: &mut [f32]
    ) -> u64;
    /// `effective_style_for_cue_index`; the same.
    fn pg_effective_style_for_cue_index(
        head: &[u32],
        params: &[u32],
        styles: &[u32],
        regions: &[u32],
        cues: &[u32],
        times: &[i64],
        segments: &[u32],
        sizes: &[f32],
        extras: &[u32],
        strings: &[u8],
        texts: &[u8],
        cue_index: usize,
        ids: &mut [u32],
        out: &mut [u64],
        size: &mut [f32]
    ) -> u64;
}
