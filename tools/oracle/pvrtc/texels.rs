// The listing `texels`: chosen texels of 270 pictures, then texel calls on both sides of each refusal. Each picture and each call comes
// blue first and then red first.
use super::call::Picture;
use crate::draw::Draw;

/// The bits of a word that a kind of picture may decide: bits 0 and 20 of the modulation, the mode, and whether A and B are opaque.
const BIT_0: u64 = 1;
const BIT_20: u64 = 1 << 20;
const MODE: u64 = 1 << 32;
const OPAQUE_A: u64 = 1 << 47;
const OPAQUE_B: u64 = 1 << 63;

/// A kind of picture: its name, the bits of every word that it decides, and those of them that are set.
const KINDS: [(&str, u64, u64); 10] = [
    ("as drawn", 0, 0),
    ("mode 0", MODE, 0),
    ("mode 1", MODE | BIT_0 | BIT_20, MODE),
    ("mode 1, bit 0", MODE | BIT_0 | BIT_20, MODE | BIT_0),
    ("mode 1, bit 20", MODE | BIT_0 | BIT_20, MODE | BIT_20),
    (
        "mode 1, bits 0 and 20",
        MODE | BIT_0 | BIT_20,
        MODE | BIT_0 | BIT_20,
    ),
    ("opaque", OPAQUE_A | OPAQUE_B, OPAQUE_A | OPAQUE_B),
    ("translucent", OPAQUE_A | OPAQUE_B, 0),
    ("A opaque", OPAQUE_A | OPAQUE_B, OPAQUE_A),
    ("B opaque", OPAQUE_A | OPAQUE_B, OPAQUE_B),
];

/// Prints the whole listing.
pub fn print() {
    print_pictures();
    print_calls();
}

/// Each size at its depth, with words of each kind. The generator is never set back.
fn print_pictures() {
    let sizes_4bpp = [
        (4, 4),
        (1, 1),
        (3, 2),
        (4, 64),
        (64, 4),
        (8, 8),
        (5, 6),
        (13, 15),
        (14, 14),
        (15, 13),
        (8, 32),
        (32, 8),
        (64, 64),
    ];
    let sizes_2bpp = [
        (8, 4),
        (1, 1),
        (3, 2),
        (8, 64),
        (64, 4),
        (16, 8),
        (13, 5),
        (29, 13),
        (30, 14),
        (31, 15),
        (25, 16),
        (16, 32),
        (64, 8),
        (128, 64),
    ];
    let mut draw = Draw::new();
    for (width, height) in sizes_4bpp {
        print_kinds(&mut draw, width, height, false);
    }
    for (width, height) in sizes_2bpp {
        print_kinds(&mut draw, width, height, true);
    }
}

/// Pictures of one size, with words of each kind.
fn print_kinds(draw: &mut Draw, width: usize, height: usize, is2bpp: bool) {
    let picture = Picture::new(width, height, is2bpp);
    for (name, decided, set) in KINDS {
        let mut data = Vec::new();
        for _ in 0..picture.blocks() {
            data.extend((drawn_word(draw) & !decided | set).to_le_bytes());
        }
        for picture in picture.in_both_orders() {
            println!("picture {}, {name}", picture.name());
            print_places(picture, &picture.decoded(&data));
        }
    }
}

/// A word of four draws, the first of them lowest.
fn drawn_word(draw: &mut Draw) -> u64 {
    (0..4).fold(0, |word, i| word | (draw.sixteen_bits() as u64) << (16 * i))
}

/// The texels at the corners, in the middle of each margin, at the centre, and in the rows of the block that holds the centre.
fn print_places(picture: Picture, image: &[u32]) {
    let (right, below) = (picture.width - 1, picture.height - 1);
    let (x, y) = (picture.width / 2, picture.height / 2);
    let print = |label: &str, places: &[(usize, usize)]| {
        let mut line = String::from(label);
        for (x, y) in places {
            line += &format!(" {:08x}", image[y * picture.width + x]);
        }
        println!("{line}");
    };
    print("corners", &[(0, 0), (right, 0), (0, below), (right, below)]);
    print("margins", &[(0, y), (right, y), (x, 0), (x, below)]);
    print("centre", &[(x, y)]);

    let block_width = picture.block_width();
    let (left, top) = (x - x % block_width, y - y % 4);
    for y in top..picture.height.min(top + 4) {
        let columns = left..picture.width.min(left + block_width);
        let places: Vec<_> = columns.map(|x| (x, y)).collect();
        print("block", &places);
    }
}

/// The calls: what each refusal is given for, what it goes before, and what is just not refused.
fn print_calls() {
    for is2bpp in [false, true] {
        print_zero_sides(is2bpp);
        print_large_sides(is2bpp);
        print_short_data(is2bpp);
        print_one_way(is2bpp);
        print_outside(is2bpp);
    }
}

/// A side is 0; also where a side is too large, where 3 blocks stand the other way, and where the texel lies outside.
fn print_zero_sides(is2bpp: bool) {
    print_call(8, 0, 4, is2bpp, 0, 0);
    print_call(8, 4, 0, is2bpp, 0, 0);
    print_call(0, 0, 0, is2bpp, 0, 0);
    print_call(8, 0, 65537, is2bpp, 0, 0);
    print_call(8, 65537, 0, is2bpp, 0, 0);
    print_call(8, 0, 12, is2bpp, 0, 0);
    print_call(8, 4, 0, is2bpp, 4, 0);
}

/// A side is above 65,536; also where the data is short, where the blocks are no power of two, and where the texel lies outside. A side
/// of 65,536 is not refused for that, but there the data is short.
fn print_large_sides(is2bpp: bool) {
    print_call(96, 65537, 4, is2bpp, 0, 0);
    print_call(96, 4, 65537, is2bpp, 0, 0);
    print_call(0, 65537, 65537, is2bpp, 0, 0);
    print_call(96, usize::MAX, 4, is2bpp, 0, 0);
    print_call(96, usize::MAX, usize::MAX, is2bpp, 0, 0);
    print_call(96, 4, 65537, is2bpp, 4, 65537);
    print_call(96, 65536, 4, is2bpp, 0, 0);
    print_call(96, 4, 65536, is2bpp, 0, 0);
    print_call(96, 65536, 65536, is2bpp, 0, 0);
}

/// The data is short: four blocks of 32 bytes, one of 8, and three of 24, which are no power of two.
fn print_short_data(is2bpp: bool) {
    let block_width = if is2bpp { 8 } else { 4 };
    for bytes in [33, 32, 31, 16, 15, 0] {
        print_call(bytes, 2 * block_width, 8, is2bpp, 0, 0);
    }
    for bytes in [8, 7, 4, 3, 0] {
        print_call(bytes, block_width, 4, is2bpp, 0, 0);
    }
    for bytes in [24, 23, 12, 11] {
        print_call(bytes, 3 * block_width, 4, is2bpp, 0, 0);
    }
    print_call(31, 2 * block_width, 8, is2bpp, 2 * block_width, 8);
}

/// Sides of 1 to 33 across, and then down: up to nine blocks one way, and one the other.
fn print_one_way(is2bpp: bool) {
    for side in 1..34 {
        print_call(96, side, 4, is2bpp, 0, 0);
    }
    for side in 1..34 {
        print_call(96, 4, side, is2bpp, 0, 0);
    }
}

/// The texel lies outside; also where the blocks are no power of two, and where a block goes on past the picture.
fn print_outside(is2bpp: bool) {
    print_call(96, 16, 8, is2bpp, 15, 7);
    print_call(96, 16, 8, is2bpp, 16, 0);
    print_call(96, 16, 8, is2bpp, 0, 8);
    print_call(96, 16, 8, is2bpp, 16, 8);
    print_call(96, 16, 8, is2bpp, usize::MAX, 0);
    print_call(96, 16, 8, is2bpp, 0, usize::MAX);
    print_call(96, 24, 4, is2bpp, 24, 4);
    print_call(96, 6, 5, is2bpp, 5, 4);
    print_call(96, 6, 5, is2bpp, 6, 4);
    print_call(96, 6, 5, is2bpp, 5, 5);
}

/// One call on so many drawn bytes, and its answer.
fn print_call(bytes: usize, width: usize, height: usize, is2bpp: bool, x: usize, y: usize) {
    let data = Draw::new().bytes(bytes);
    for picture in Picture::new(width, height, is2bpp).in_both_orders() {
        let answer = match picture.decode_texel(&data, x, y) {
            Ok(word) => format!("{word:08x}"),
            Err(number) => format!("refused {number}"),
        };
        let name = picture.name();
        println!("call {name}, {bytes} bytes, texel {x} {y}: {answer}");
    }
}
