//! The Rust, unchanged, and a way to its private functions: [`ttml::access`].

#![allow(dead_code)] // the texts of the Rust have functions that nothing here calls

include!(concat!(env!("OUT_DIR"), "/modules.rs"));

/// The codec switch that `ttml` names. It is not published with it, and nothing here calls it.
mod codec {
    use oxideav_core::{CodecParameters, Decoder, Encoder, Error, Result};

    pub fn make_decoder(_: &CodecParameters) -> Result<Box<dyn Decoder>> {
        Err(Error::invalid("no codecs here"))
    }

    pub fn make_encoder(_: &CodecParameters) -> Result<Box<dyn Encoder>> {
        Err(Error::invalid("no codecs here"))
    }
}
