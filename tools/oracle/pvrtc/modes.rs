// The listing `modes`: every size of 1 to 20 by 1 to 20 in both modes of the grid, the red corner, one colour, and calls on both sides of
// what each grid needs; each blue first and then red first. The original answers for every form of a call, and for each row and texel of
// its picture.
use super::call::{sum_of, Picture};
use crate::draw::Draw;

#[path = "../../../crates/replay_modes/src/tables.rt"]
mod tables;

/// Prints the whole listing.
pub fn print() {
    let mut draw = Draw::new();
    for is2bpp in [false, true] {
        for height in 1..21 {
            for width in 1..21 {
                print_size(&mut draw, width, height, is2bpp);
            }
        }
    }
    for stored in [false, true] {
        print_red_corner(stored);
    }
    print_one_colour();
    let data = Draw::new().bytes(262144);
    for call in tables::NEEDS.map(call_of).into_iter().chain(tables::OTHERS) {
        for is2bpp in [false, true] {
            for stored in [false, true] {
                print_call(&data, call, is2bpp, stored);
            }
        }
    }
}

fn picture_of(width: usize, height: usize, is2bpp: bool, stored: bool) -> Picture {
    Picture {
        stored,
        ..Picture::new(width, height, is2bpp)
    }
}

/// One size in both modes, on the same data and words.
fn print_size(draw: &mut Draw, width: usize, height: usize, is2bpp: bool) {
    let data = draw.bytes(200);
    for stored in [false, true] {
        for picture in picture_of(width, height, is2bpp, stored).in_both_orders() {
            let need = 8 * picture.blocks();
            let words = draw.clone().words(409);
            let answer = whole(picture, &data[..need], &words);
            let less = picture.decode(&data[..need - 1], &mut words.to_vec(), false);
            println!(
                "{}: {answer}; named same, plain same, rows same, texels same; a byte less: {less}",
                name(picture, need)
            );
        }
    }
}

/// The reds of the first row of a plate whose first word alone is red: the third byte of a texel, and the low one where red is first.
fn print_red_corner(stored: bool) {
    let data = laid(&tables::RED_CORNER);
    for picture in picture_of(4, 4, false, stored).in_both_orders() {
        let red = if picture.red_first { 0 } else { 2 };
        let reds: Vec<String> = picture.decoded(&data)[..4]
            .iter()
            .map(|word| word.to_le_bytes()[red].to_string())
            .collect();
        let (mode, order) = (mode(stored), picture.order_name());
        println!("red corner, {mode}{order}: {}", reds.join(" "));
    }
}

/// The texel of a plate of one colour whose four channels differ, byte by byte from the low one.
fn print_one_colour() {
    let data = laid(&tables::ONE_COLOUR);
    for is2bpp in [false, true] {
        for picture in Picture::new(1, 1, is2bpp).in_both_orders() {
            let bytes = picture.decoded(&data)[0].to_le_bytes();
            let bytes = bytes.map(|byte| byte.to_string()).join(" ");
            println!("one colour, {}: {bytes}", name(picture, data.len()));
        }
    }
}

/// The bytes of these numbers.
fn laid(numbers: &[u32]) -> Vec<u8> {
    numbers
        .iter()
        .flat_map(|number| number.to_le_bytes())
        .collect()
}

/// The call of a row that has the bytes, the width and the height: for the last row and texel, with as many words as there are.
fn call_of((bytes, width, height): (usize, usize, usize)) -> [usize; 6] {
    let (x, y) = (width.max(1) - 1, height.max(1) - 1);
    [bytes, 4105, width, height, x, y]
}

/// A listed call: the whole picture, row y, and texel (x, y).
fn print_call(data: &[u8], call: [usize; 6], is2bpp: bool, stored: bool) {
    let [bytes, room, width, height, x, y] = call;
    let data = &data[..bytes];
    let words = Draw::from_state(2).words(room);
    for picture in picture_of(width, height, is2bpp, stored).in_both_orders() {
        let answer = whole(picture, data, &words);
        let mut row = words.clone();
        let number = picture.decode_row(data, y, &mut row);
        let texel = match picture.decode_texel(data, x, y) {
            Ok(word) => format!("word {word}"),
            Err(number) => format!("refused {number}"),
        };
        println!(
            "call {}, words {room}: {answer}; named same, plain same; row {y}: {number}, sum {}; texel {x}: {texel}",
            name(picture, bytes),
            sum_of(&row)
        );
    }
}

/// What the original answers to the whole picture, by both of its names.
fn whole(picture: Picture, data: &[u8], words: &[u32]) -> String {
    let said: Vec<(u32, u64)> = [false, true]
        .iter()
        .map(|&by_name| {
            let mut words = words.to_vec();
            let number = picture.decode(data, &mut words, by_name);
            (number, sum_of(&words))
        })
        .collect();
    assert_eq!(said[0], said[1], "{}", picture.name());
    format!("{}, sum {}", said[0].0, said[0].1)
}

/// The depth, the mode, the size, the order and how many bytes are lent.
fn name(picture: Picture, bytes: usize) -> String {
    let depth = if picture.is2bpp { "2bpp" } else { "4bpp" };
    let (mode, order) = (mode(picture.stored), picture.order_name());
    let Picture { width, height, .. } = picture;
    format!("{depth} {mode} {width} x {height}{order}, bytes {bytes}")
}

fn mode(stored: bool) -> &'static str {
    if stored {
        "stored"
    } else {
        "Rust"
    }
}
