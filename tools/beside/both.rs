// The two decoders: the Rust original, whose text is taken in unchanged, and ours, as include/plate.h declares it; beside them the program's
// function.

#[allow(dead_code)]
pub mod original {
    include!(concat!(env!("ORIGINAL"), "/pvrtc.rs"));
}

#[allow(dead_code)]
extern "C" {
    pub fn plate_texel(data: *const u8, len: usize, width: u64, height: u64, depth: u32, mode: u32, order: u32, x: u64, y: u64) -> u64;
    pub fn plate_row(
        data: *const u8, len: usize, width: u64, height: u64, depth: u32, mode: u32, order: u32, y: u64, row: *mut u32, room: usize,
    ) -> u64;
    pub fn plate_picture(
        data: *const u8, len: usize, width: u64, height: u64, depth: u32, mode: u32, order: u32, image: *mut u32, room: usize,
    ) -> u64;
    pub fn plate_header(file: *const u8, len: usize, field: u32) -> u64;
    pub fn plate_ktx(file: *const u8, len: usize, field: u32) -> u64;
    pub fn plate_ktx_picture(file: *const u8, len: usize, order: u32, image: *mut u32, room: usize) -> u64;
    pub fn plate_level(file: *const u8, len: usize, level: u64, order: u32, image: *mut u32, room: usize) -> u64;
    pub fn plate_level_field(file: *const u8, len: usize, level: u64, field: u32) -> u64;
    pub fn plate_convert(file: *const u8, len: usize, image: *mut u32, room: usize, out: *mut u8, size: usize) -> u64;
}

// A generator of numbers that look drawn.
pub fn draw(state: &mut u64) -> u64 {
    *state ^= *state << 13;
    *state ^= *state >> 7;
    *state ^= *state << 17;
    *state
}
