// A picture's size and depth, its grid and its need in a mode, the original's picture of it in either mode, and that picture's words in either order.

use crate::both::original;

// The number of the Rust's mode, and one of the stored mode's: every other number is.
pub const RUSTS: u32 = 0;
pub const STORED: u32 = 1;

// The number of blue first, and one of red first's: every other number is.
pub const BLUE_FIRST: u32 = 0;
pub const RED_FIRST: u32 = 1;

// A word of the original, which is blue first, in an order: red first, its low and its third byte are exchanged.
pub fn in_order(word: u32, order: u32) -> u32 {
    let [first, second, third, fourth] = word.to_le_bytes();
    if order == BLUE_FIRST { word } else { u32::from_le_bytes([third, second, first, fourth]) }
}

#[derive(Clone, Copy)]
pub struct Shape {
    pub width: usize,
    pub height: usize,
    pub is2bpp: bool,
}

impl Shape {
    // The sides and the depth as C takes them.
    pub fn numbers(self) -> (u64, u64, u32) {
        (self.width as u64, self.height as u64, self.is2bpp as u32)
    }

    pub fn bits(self) -> usize {
        if self.is2bpp { 2 } else { 4 }
    }

    pub fn texels(self) -> usize {
        self.width * self.height
    }

    // The blocks across and down of a mode's grid.
    pub fn blocks(self, mode: u32) -> (usize, usize) {
        let least = if mode == RUSTS { 0 } else { 2 };
        (self.width.div_ceil(16 / self.bits()).max(least), self.height.div_ceil(4).max(least))
    }

    // The bytes that the picture needs in a mode.
    pub fn need(self, mode: u32) -> usize {
        let (across, down) = self.blocks(mode);
        8 * across * down
    }

    // Whether the mode's grid has more blocks than cover the picture.
    pub fn has_more(self, mode: u32) -> bool {
        self.blocks(mode) != self.blocks(RUSTS)
    }

    // The original's picture in a mode, in front of `image`. The original counts the blocks that cover a picture. Where the mode's grid has more,
    // it is asked for the picture that they all cover, and the upper left corner of that is taken: it has the same words and the same torus.
    // That picture gets room if `image` has room for the corner, and else none, so that the original's faults are those of the corner.
    pub fn original(self, data: &[u8], image: &mut [u32], mode: u32) -> Result<(), &'static str> {
        if !self.has_more(mode) {
            return original::decode_pvrtc(data, self.width, self.height, image, self.is2bpp);
        }
        let (across, down) = self.blocks(mode);
        let (width, height) = (across * 16 / self.bits(), down * 4);
        let mut whole = vec![0; if image.len() < self.texels() { 0 } else { width * height }];
        original::decode_pvrtc(data, width, height, &mut whole, self.is2bpp)?;
        for (row, of_whole) in image.chunks_mut(self.width).zip(whole.chunks(width)).take(self.height) {
            row.copy_from_slice(&of_whole[..self.width]);
        }
        Ok(())
    }
}
