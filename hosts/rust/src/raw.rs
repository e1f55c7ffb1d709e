//! The library's functions. They must say what `crates/host_c/src/lib.rt` says: no linker tells, `hosts/declarations` does. All `unsafe` of
//! this crate is here: each call lends fields of one `Image`, which are apart from each other and live as long as the call, and slices
//! with their own lengths. Whatever the fields hold, the library returns.
use crate::image::Image;
use crate::Sense;

mod library {
    #[rustfmt::skip]
    extern "C" {
        pub fn pipettor_make(framing: u32, number: u32, address: &mut [u8; 1], line: &mut [u8; 4], count: &mut [u32; 1], frame: &mut [u8; 320], wide: &mut [u64; 8], words: &mut [u32; 26], small: &mut [u8; 4], text: &mut [u8; 256]) -> u64;
        pub fn pipettor_byte(b: u8, address: &mut [u8; 1], line: &mut [u8; 4], count: &mut [u32; 1], frame: &mut [u8; 320], wide: &mut [u64; 8], words: &mut [u32; 26], small: &mut [u8; 4], text: &mut [u8; 256], buffer: *mut u8, length: usize) -> u64;
        pub fn pipettor_listen(bytes: *const u8, length: usize, line: &mut [u8; 4], count: &mut [u32; 1], frame: &mut [u8; 320]) -> u64;
        pub fn pipettor_tick(tip: u8, reading: i32, wide: &mut [u64; 8], words: &mut [u32; 26], small: &mut [u8; 4], text: &[u8; 256]) -> u64;
        pub fn pipettor_advance(n: u32, tip: u8, reading: i32, wide: &mut [u64; 8], words: &mut [u32; 26], small: &mut [u8; 4], text: &[u8; 256]) -> u64;
        pub fn pipettor_run(n: u32, tip: u8, reading: i32, wide: &mut [u64; 8], words: &mut [u32; 26], small: &mut [u8; 4], text: &[u8; 256]) -> u64;
        pub fn pipettor_stop(wide: &mut [u64; 8], words: &mut [u32; 26], small: &mut [u8; 4], text: &[u8; 256]) -> u64;
        pub fn pipettor_plunger(wide: &[u64; 8], words: &[u32; 26], small: &[u8; 4]) -> u64;
        pub fn pipettor_exact(wide: &[u64; 8], words: &[u32; 26], small: &[u8; 4]) -> u64;
        pub fn pipettor_ready(wide: &[u64; 8], words: &[u32; 26], small: &[u8; 4]) -> u64;
        pub fn pipettor_error(wide: &[u64; 8], words: &[u32; 26], small: &[u8; 4]) -> u64;
        pub fn pipettor_check(address: &[u8; 1], line: &[u8; 4], count: &[u32; 1], frame: &[u8; 320], wide: &[u64; 8], words: &[u32; 26], small: &[u8; 4], text: &[u8; 256]) -> u64;
    }
}

pub(crate) fn make(i: &mut Image, framing: u32, number: u32) -> u64 {
    unsafe {
        library::pipettor_make(
            framing,
            number,
            &mut i.address,
            &mut i.line,
            &mut i.count,
            &mut i.frame,
            &mut i.wide,
            &mut i.words,
            &mut i.small,
            &mut i.text,
        )
    }
}

pub(crate) fn byte(i: &mut Image, b: u8, buffer: &mut [u8]) -> u64 {
    unsafe {
        library::pipettor_byte(
            b,
            &mut i.address,
            &mut i.line,
            &mut i.count,
            &mut i.frame,
            &mut i.wide,
            &mut i.words,
            &mut i.small,
            &mut i.text,
            buffer.as_mut_ptr(),
            buffer.len(),
        )
    }
}

pub(crate) fn listen(i: &mut Image, bytes: &[u8]) -> u64 {
    unsafe { library::pipettor_listen(bytes.as_ptr(), bytes.len(), &mut i.line, &mut i.count, &mut i.frame) }
}

pub(crate) fn tick(i: &mut Image, sense: Sense) -> u64 {
    unsafe { library::pipettor_tick(sense.tip.into(), sense.reading, &mut i.wide, &mut i.words, &mut i.small, &i.text) }
}

pub(crate) fn advance(i: &mut Image, n: u32, sense: Sense) -> u64 {
    unsafe { library::pipettor_advance(n, sense.tip.into(), sense.reading, &mut i.wide, &mut i.words, &mut i.small, &i.text) }
}

pub(crate) fn run(i: &mut Image, n: u32, sense: Sense) -> u64 {
    unsafe { library::pipettor_run(n, sense.tip.into(), sense.reading, &mut i.wide, &mut i.words, &mut i.small, &i.text) }
}

pub(crate) fn stop(i: &mut Image) -> u64 {
    unsafe { library::pipettor_stop(&mut i.wide, &mut i.words, &mut i.small, &i.text) }
}

pub(crate) fn plunger(i: &Image) -> u64 {
    unsafe { library::pipettor_plunger(&i.wide, &i.words, &i.small) }
}

pub(crate) fn exact(i: &Image) -> u64 {
    unsafe { library::pipettor_exact(&i.wide, &i.words, &i.small) }
}

pub(crate) fn ready(i: &Image) -> u64 {
    unsafe { library::pipettor_ready(&i.wide, &i.words, &i.small) }
}

pub(crate) fn error(i: &Image) -> u64 {
    unsafe { library::pipettor_error(&i.wide, &i.words, &i.small) }
}

pub(crate) fn check(i: &Image) -> u64 {
    unsafe { library::pipettor_check(&i.address, &i.line, &i.count, &i.frame, &i.wide, &i.words, &i.small, &i.text) }
}
