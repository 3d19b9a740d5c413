//! The library's calls: the only module with `unsafe` code.
//!
//! A slice passes as a pointer and a length. None of the calls asks anything of its caller, so each is safe for every
//! slice: that is what their contracts say (crates/ttml_c/src) and the checker has proved.

#![allow(unsafe_code)]
#![allow(clippy::too_many_arguments)] // the calls take each table by itself

/// Declares each call and wraps it, so that a signature is written once, with slices, as crates/ttml_c/src has it.
///
/// The rules below `@` take the arguments from the left, one in a step, and add each to three lists: the parameters of
/// the C function, those of the wrapper, and what the wrapper passes.
macro_rules! calls {
    ($(fn $name:ident($($args:tt)*);)*) => {
        $(calls!(@ $name [] [] []; $($args)*,);)*
    };
    (@ $name:ident [$($c:tt)*] [$($own:tt)*] [$($pass:tt)*]; $arg:ident: &[$cell:ty], $($rest:tt)*) => {
        calls!(@ $name [$($c)* _: *const $cell, _: usize,] [$($own)* $arg: &[$cell],]
            [$($pass)* $arg.as_ptr(), $arg.len(),]; $($rest)*);
    };
    (@ $name:ident [$($c:tt)*] [$($own:tt)*] [$($pass:tt)*]; $arg:ident: &mut [$cell:ty], $($rest:tt)*) => {
        calls!(@ $name [$($c)* _: *mut $cell, _: usize,] [$($own)* $arg: &mut [$cell],]
            [$($pass)* $arg.as_mut_ptr(), $arg.len(),]; $($rest)*);
    };
    (@ $name:ident [$($c:tt)*] [$($own:tt)*] [$($pass:tt)*]; $arg:ident: usize, $($rest:tt)*) => {
        calls!(@ $name [$($c)* _: usize,] [$($own)* $arg: usize,] [$($pass)* $arg,]; $($rest)*);
    };
    (@ $name:ident [$($c:tt)*] [$($own:tt)*] [$($pass:tt)*];) => {
        pub fn $name($($own)*) -> u64 {
            unsafe extern "C" {
                fn $name($($c)*) -> u64;
            }
            // SAFETY: each pointer and length is that of a slice that lives through the call, and a slice that the call may
            // write is borrowed by nothing else. The call reads and writes within them, and keeps none of them.
            unsafe { $name($($pass)*) }
        }
    };
}

calls! {
    fn pg_parse(
        text: &[u8], nodes: &mut [u32], attrs: &mut [u32], head: &mut [u32], params: &mut [u32], styles: &mut [u32],
        regions: &mut [u32], cues: &mut [u32], times: &mut [i64], segments: &mut [u32], sizes: &mut [f32],
        extras: &mut [u32], strings: &mut [u8], texts: &mut [u8]
    );
    fn pg_bytes_to_cue(
        text: &[u8], nodes: &mut [u32], attrs: &mut [u32], head: &mut [u32], params: &mut [u32], styles: &mut [u32],
        regions: &mut [u32], cues: &mut [u32], times: &mut [i64], segments: &mut [u32], sizes: &mut [f32],
        extras: &mut [u32], strings: &mut [u8], texts: &mut [u8]
    );
    fn pg_check_track(
        head: &[u32], params: &[u32], styles: &[u32], regions: &[u32], cues: &[u32], times: &[i64], segments: &[u32],
        sizes: &[f32], extras: &[u32], strings: &[u8], texts: &[u8]
    );
    fn pg_write(
        head: &[u32], params: &[u32], styles: &[u32], regions: &[u32], cues: &[u32], times: &[i64], segments: &[u32],
        sizes: &[f32], extras: &[u32], strings: &[u8], texts: &[u8], out: &mut [u8]
    );
    fn pg_cue_to_bytes(
        head: &[u32], params: &[u32], styles: &[u32], regions: &[u32], cues: &[u32], times: &[i64], segments: &[u32],
        sizes: &[f32], extras: &[u32], strings: &[u8], texts: &[u8], index: usize, out: &mut [u8]
    );
    fn pg_plain_text(head: &[u32], cues: &[u32], segments: &[u32], texts: &[u8], index: usize, out: &mut [u8]);
    fn pg_resolve_referenced_style(
        value: &[u8], head: &[u32], params: &[u32], styles: &[u32], regions: &[u32], cues: &[u32], times: &[i64],
        segments: &[u32], sizes: &[f32], extras: &[u32], strings: &[u8], texts: &[u8], ids: &mut [u32],
        out: &mut [u64], size: &mut [f32]
    );
    fn pg_region_style(
        id: &[u8], head: &[u32], params: &[u32], styles: &[u32], regions: &[u32], cues: &[u32], times: &[i64],
        segments: &[u32], sizes: &[f32], extras: &[u32], strings: &[u8], texts: &[u8], ids: &mut [u32],
        out: &mut [u64], size: &mut [f32]
    );
    fn pg_effective_style_for_cue_index(
        head: &[u32], params: &[u32], styles: &[u32], regions: &[u32], cues: &[u32], times: &[i64], segments: &[u32],
        sizes: &[f32], extras: &[u32], strings: &[u8], texts: &[u8], cue_index: usize, ids: &mut [u32],
        out: &mut [u64], size: &mut [f32]
    );
}
