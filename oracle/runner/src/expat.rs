//! The C library expat, for bench, if the build found it: a text is read through, and handlers count.

pub const FOUND: bool = cfg!(expat);

#[cfg(not(expat))]
pub fn count(_: &str) -> usize {
    panic!("built without expat")
}

/// How many start tags, end tags and bytes of texts there are.
#[cfg(expat)]
pub fn count(text: &str) -> usize {
    use std::ffi::{c_char, c_int, c_void};

    type Parser = *mut c_void;
    type Start = extern "C" fn(&mut usize, *const c_char, *const *const c_char);
    type End = extern "C" fn(&mut usize, *const c_char);
    type Data = extern "C" fn(&mut usize, *const c_char, c_int);

    unsafe extern "C" {
        fn XML_ParserCreate(encoding: *const c_char) -> Parser;
        fn XML_ParserFree(parser: Parser);
        fn XML_SetUserData(parser: Parser, data: *mut usize);
        fn XML_SetElementHandler(parser: Parser, start: Start, end: End);
        fn XML_SetCharacterDataHandler(parser: Parser, data: Data);
        fn XML_Parse(parser: Parser, text: *const c_char, length: c_int, last: c_int) -> c_int;
    }

    extern "C" fn start(count: &mut usize, _: *const c_char, _: *const *const c_char) {
        *count += 1;
    }

    extern "C" fn end(count: &mut usize, _: *const c_char) {
        *count += 1;
    }

    extern "C" fn data(count: &mut usize, _: *const c_char, length: c_int) {
        *count += length as usize;
    }

    let mut count = 0;
    // The parser lives in this block, and the text and the count outlive it.
    let read = unsafe {
        let parser = XML_ParserCreate(std::ptr::null());
        XML_SetUserData(parser, &mut count);
        XML_SetElementHandler(parser, start, end);
        XML_SetCharacterDataHandler(parser, data);
        let read = XML_Parse(parser, text.as_ptr().cast(), text.len() as c_int, 1);
        XML_ParserFree(parser);
        read
    };
    assert!(read == 1, "expat turned the text away");
    count
}
