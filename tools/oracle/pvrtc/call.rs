// Pictures, the calls on them, and what the table of document 01 and the original say to a call.
use super::{decode_pvrtc, decode_pvrtc_2bpp, decode_pvrtc_4bpp};

/// The description of a picture. Its grid has the blocks that cover it, or is the stored one, with two each way at least. Its words have
/// blue in the low byte, as the original's have, or red.
#[derive(Clone, Copy)]
pub struct Picture {
    pub width: usize,
    pub height: usize,
    pub is2bpp: bool,
    pub stored: bool,
    pub red_first: bool,
}

/// A call on a picture: one texel, one row into so many lent words, or all of it into so many.
#[derive(Clone, Copy)]
pub enum Call {
    Texel { x: usize, y: usize },
    Row { y: usize, words: usize },
    Whole { words: usize },
}

impl Picture {
    /// A picture in the Rust's mode, blue first.
    pub fn new(width: usize, height: usize, is2bpp: bool) -> Picture {
        Picture {
            width,
            height,
            is2bpp,
            stored: false,
            red_first: false,
        }
    }

    /// The picture blue first, and red first.
    pub fn in_both_orders(self) -> [Picture; 2] {
        [false, true].map(|red_first| Picture { red_first, ..self })
    }

    /// The picture's word where the original has this one: red first, the low and the third byte are exchanged.
    fn in_order(self, word: u32) -> u32 {
        let [first, second, third, fourth] = word.to_le_bytes();
        if self.red_first {
            u32::from_le_bytes([third, second, first, fourth])
        } else {
            word
        }
    }

    pub fn block_width(self) -> usize {
        if self.is2bpp {
            8
        } else {
            4
        }
    }

    fn blocks_across(self) -> usize {
        self.in_mode(self.width.div_ceil(self.block_width()))
    }

    fn blocks_down(self) -> usize {
        self.in_mode(self.height.div_ceil(4))
    }

    /// The blocks along a side of the grid, where so many cover the picture.
    fn in_mode(self, cover: usize) -> usize {
        if self.stored {
            cover.max(2)
        } else {
            cover
        }
    }

    pub fn blocks(self) -> usize {
        self.blocks_across() * self.blocks_down()
    }

    fn texels(self) -> usize {
        self.width * self.height
    }

    /// The picture that the original is asked for. Where the blocks that cover this one are its grid, it is this one. Where the stored
    /// grid has more, it is the picture of all the grid's blocks, and this one is its upper left corner.
    fn asked(self) -> Picture {
        let cover = Picture::new(self.width, self.height, self.is2bpp);
        if cover.blocks() == self.blocks() {
            return cover;
        }
        let (across, down) = (self.blocks_across(), self.blocks_down());
        Picture::new(across * self.block_width(), down * 4, self.is2bpp)
    }

    /// The size, the depth and the order, as a line has them.
    pub fn name(self) -> String {
        let depth = if self.is2bpp { "2bpp" } else { "4bpp" };
        let order = self.order_name();
        format!("{} x {}, {depth}{order}", self.width, self.height)
    }

    /// The order, as a line has it: only red first is said.
    pub fn order_name(self) -> &'static str {
        if self.red_first {
            ", red first"
        } else {
            ""
        }
    }

    /// The whole picture as the original decodes it, in the picture's order.
    pub fn decoded(self, data: &[u8]) -> Vec<u32> {
        let mut image = vec![0; self.texels()];
        assert_eq!(self.decode(data, &mut image, false), 0, "{}", self.name());
        image
    }

    /// The whole picture into lent words. The original gives them, or refuses in its own words and writes nothing. Where it is no
    /// oracle, document 01 refuses, and the words stay. It is called by the name that has the depth, if that is asked for.
    pub fn decode(self, data: &[u8], words: &mut [u32], by_name: bool) -> u32 {
        let call = Call::Whole { words: words.len() };
        let number = self.refusal_number(data.len(), call);
        let Some(expected) = self.original_answer(data.len(), number) else {
            return number;
        };
        let asked = self.asked();
        let mut image = words.to_vec();
        if number == 0 || number == 5 {
            image.resize(image.len().max(asked.texels()), 0);
        }
        let before = image.clone();
        let answer = match (by_name, asked.is2bpp) {
            (false, _) => decode_pvrtc(data, asked.width, asked.height, &mut image, asked.is2bpp),
            (true, false) => decode_pvrtc_4bpp(data, asked.width, asked.height, &mut image),
            (true, true) => decode_pvrtc_2bpp(data, asked.width, asked.height, &mut image),
        };
        assert_eq!(answer, expected, "{}", self.name());
        let written = if number == 0 { asked.texels() } else { 0 };
        assert_eq!(image[written..], before[written..], "{}", self.name());
        if number == 0 {
            for y in 0..self.height {
                for x in 0..self.width {
                    words[y * self.width + x] = self.in_order(image[y * asked.width + x]);
                }
            }
        }
        number
    }

    /// Row y into lent words: of the picture that the original decodes, where the table of document 01 refuses nothing.
    pub fn decode_row(self, data: &[u8], y: usize, words: &mut [u32]) -> u32 {
        let call = Call::Row {
            y,
            words: words.len(),
        };
        let number = self.refusal_number(data.len(), call);
        self.ask_for_part(data, number);
        if number == 0 {
            let image = self.decoded(data);
            words[..self.width].copy_from_slice(&image[y * self.width..][..self.width]);
        }
        number
    }

    /// Texel (x, y), likewise, or the number of the refusal.
    pub fn decode_texel(self, data: &[u8], x: usize, y: usize) -> Result<u32, u32> {
        let number = self.refusal_number(data.len(), Call::Texel { x, y });
        self.ask_for_part(data, number);
        if number == 0 {
            Ok(self.decoded(data)[y * self.width + x])
        } else {
            Err(number)
        }
    }

    /// The number that a call on so many bytes says, 0 for none. The original has no numbers, and of the three calls only that for the
    /// whole picture: this is written from the table of document 01, "What a call says", over the grid of the picture's mode.
    pub fn refusal_number(self, bytes: usize, call: Call) -> u32 {
        let Picture { width, height, .. } = self;
        if width == 0 || height == 0 {
            return 1;
        }
        if width > 65536 || height > 65536 {
            return 2;
        }
        if bytes < 8 * self.blocks() {
            return 3;
        }
        let is_short = match call {
            Call::Texel { .. } => false,
            Call::Row { words, .. } => words < width,
            Call::Whole { words } => words < self.texels(),
        };
        if is_short {
            return 4;
        }
        if !self.blocks_across().is_power_of_two() || !self.blocks_down().is_power_of_two() {
            return 5;
        }
        let is_outside = match call {
            Call::Texel { x, y } => x >= width || y >= height,
            Call::Row { y, .. } => y >= height,
            Call::Whole { .. } => false,
        };
        if is_outside {
            return 6;
        }
        0
    }

    /// What the original must answer, in its own words, when it is asked for the whole picture where a call says this number. Where only
    /// the texel or the row is outside, it decodes the picture. Nothing is asked on sides that it is no oracle for, nor at 4bpp on data
    /// that passes its test of half the need.
    pub fn original_answer(self, bytes: usize, number: u32) -> Option<Result<(), &'static str>> {
        match number {
            0 | 6 => Some(Ok(())),
            3 if self.is2bpp || bytes < 4 * self.blocks() => {
                Some(Err("The data buffer is too small!"))
            }
            4 => Some(Err("The image buffer is too small!")),
            5 => Some(Err(
                "The number of blocks of each side must be a power of 2!",
            )),
            _ => None,
        }
    }

    /// Asks the original for the whole picture where a call for a part of it says this number, and stops if it answers otherwise. The
    /// image is as long as it has to be; where the data is short it may be empty, because the original looks at the data first.
    pub fn ask_for_part(self, data: &[u8], number: u32) {
        // A short row says nothing about an image.
        if number == 4 {
            return;
        }
        let Some(expected) = self.original_answer(data.len(), number) else {
            return;
        };
        let asked = self.asked();
        let words = if number == 3 { 0 } else { asked.texels() };
        let mut image = vec![0; words];
        let answer = decode_pvrtc(data, asked.width, asked.height, &mut image, asked.is2bpp);
        assert_eq!(answer, expected, "{}", self.name());
    }
}

/// The sum over words, as the gate's programs take it. The modulus is the largest prime below 2 to the 33rd.
pub fn sum_of(words: &[u32]) -> u64 {
    words.iter().fold(0, |sum, &word| {
        (sum * 1103515245 + word as u64) % 8589934583
    })
}
