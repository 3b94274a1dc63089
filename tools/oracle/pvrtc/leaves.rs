// The listing `leaves`: the colours and weights of some three hundred words, and the addresses of ten grids.
use super::{
    get_texel_colors, get_texel_weights_2bpp, get_texel_weights_4bpp, morton_index,
    PVRTCTexelColor, PVRTCTexelInfo,
};
use crate::draw::Draw;

/// Prints the whole listing.
pub fn print() {
    print_plain_words();
    print_mode_words();
    print_code_words();
    print_colour_words();
    print_drawn_words();
    // Both ways to an address must give what the original's one way gives.
    print_grids("bits");
    print_grids("table");
}

/// All zeros, and all ones.
fn print_plain_words() {
    print_word(0, 0, 0);
    print_word(0xffff_ffff, 0xffff, 0xffff);
}

/// Each mode with each choice of bits 0 and 20 of the modulation, where every place has the same code otherwise.
fn print_mode_words() {
    for codes in [0, 0x5555_5555, 0xaaaa_aaaa, 0xffff_ffff] {
        for mode in 0..2 {
            for bit_20 in 0..2 {
                for bit_0 in 0..2 {
                    let rest = codes & !(1 << 20 | 1);
                    print_word(rest | bit_20 << 20 | bit_0, 0x8000 | mode, 0x8000);
                }
            }
        }
    }
}

/// Codes 1, 2 and 3 at one place of the modulation, in each mode.
fn print_code_words() {
    for code in 1..4 {
        for place in 0..16 {
            for mode in 0..2 {
                print_word(code << (2 * place), mode, 0);
            }
        }
    }
}

/// Each edge of each nibble of a colour, over four grounds. B has the opposite ground.
fn print_colour_words() {
    let grounds = [0x0000, 0x7fff, 0x8000, 0xffff];
    for ground in 0..4 {
        for place in 0..4 {
            for edge in [0, 7, 8, 15] {
                let a = with_nibble(grounds[ground], place, edge);
                let b = with_nibble(grounds[3 - ground], place, edge);
                print_word(0, a, b);
            }
        }
    }
}

/// The colour with one nibble changed.
fn with_nibble(colour: u16, place: u32, nibble: u16) -> u16 {
    colour & !(15 << (4 * place)) | nibble << (4 * place)
}

/// Words drawn by the generator.
fn print_drawn_words() {
    let mut draw = Draw::new();
    for _ in 0..110 {
        let low = draw.sixteen_bits() as u32;
        let high = draw.sixteen_bits() as u32;
        let a = draw.sixteen_bits();
        let b = draw.sixteen_bits();
        print_word(high << 16 | low, a, b);
    }
}

/// What the original reads of the word with this modulation and these colours.
fn print_word(modulation: u32, a: u16, b: u16) {
    let mut data = Vec::new();
    data.extend(modulation.to_le_bytes());
    data.extend(a.to_le_bytes());
    data.extend(b.to_le_bytes());
    print_line("word", &data);

    let mut info = PVRTCTexelInfo::default();
    get_texel_colors(&data, &mut info);
    print_line("colours", &[channels(info.a), channels(info.b)].concat());

    get_texel_weights_4bpp(&data, &mut info);
    let mut numbers: Vec<i64> = info.weight[..16].iter().map(|&w| w.into()).collect();
    numbers.push(info.punch_through_flag.into());
    print_line("4bpp", &numbers);

    get_texel_weights_2bpp(&data, &mut info);
    let mut numbers: Vec<i8> = info.weight.iter().map(|&w| w.max(0)).collect();
    numbers.push(rule_number(&info.weight));
    print_line("2bpp", &numbers);
}

/// A colour's four numbers.
fn channels(c: PVRTCTexelColor) -> [u8; 4] {
    [c.r, c.g, c.b, c.a]
}

/// The fill rule: 0 nothing, 1 around, 2 above and below, 3 left and right. The original has it as a negative weight at the texels
/// that are to be filled.
fn rule_number(weight: &[i8; 32]) -> i8 {
    match weight.iter().min() {
        Some(-3) => 1,
        Some(-1) => 2,
        Some(-2) => 3,
        _ => 0,
    }
}

/// The ten grids, each on a line: the blocks across and down, then each block's address, row after row.
fn print_grids(label: &str) {
    let grids = [
        (1, 1),
        (2, 1),
        (1, 2),
        (4, 4),
        (8, 2),
        (2, 8),
        (16, 16),
        (64, 1),
        (1, 64),
        (32, 8),
    ];
    for (across, down) in grids {
        let mut numbers: Vec<usize> = vec![across, down];
        for y in 0..down {
            for x in 0..across {
                numbers.push(morton_index(x, y, across.min(down)));
            }
        }
        print_line(label, &numbers);
    }
}

/// A line: the label, then each number with a space before it.
fn print_line<T: std::fmt::Display>(label: &str, numbers: &[T]) {
    let mut line = String::from(label);
    for number in numbers {
        line += &format!(" {number}");
    }
    println!("{line}");
}
