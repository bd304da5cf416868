//! The synchronising part of slowrx.rs, unchanged, with a module `access` at
//! the end of each file. What the five files use of the rest stands here.

include!(concat!(env!("OUT_DIR"), "/modules.rs"));

/// The error of the resampler, which is compiled but never run.
mod error {
    #[derive(Debug)]
    #[allow(dead_code)]
    pub enum Error {
        InvalidSampleRate { got: u32 },
    }

    pub type Result<T> = std::result::Result<T, Error>;
}

/// Colour is not compared.
mod demod {
    pub fn ycbcr_to_rgb(_: u8, _: u8, _: u8) -> [u8; 3] {
        unimplemented!("colour is not part of the oracle")
    }
}
