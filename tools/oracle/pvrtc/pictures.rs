// The listing `pictures`: pictures of many shapes, all rows of some, and calls on both sides of each refusal. Each line ends with a sum
// over every lent word after the call. Each call is made blue first and then red first.
use super::call::{sum_of, Picture};
use crate::draw::Draw;

/// The call of a line: it is told the depth, or has it in its name, or asks for row y.
#[derive(Clone, Copy)]
enum Way {
    Told,
    Named,
    Row(usize),
}

/// Prints the whole listing. The generator runs on from the pictures to the rows.
pub fn print() {
    let mut draw = Draw::new();
    print_shapes(&mut draw);
    print_both_ways(&mut draw);
    print_rows(&mut draw);
    for is2bpp in [false, true] {
        let data = Draw::new().bytes(262144);
        print_picture_calls(&data, is2bpp);
        print_row_calls(&data, is2bpp);
        print_tall(&data, is2bpp);
    }
}

/// Pictures of many shapes, with the bytes that they need and nine words after them.
fn print_shapes(draw: &mut Draw) {
    for is2bpp in [false, true] {
        for height in 1..9 {
            for width in 1..9 {
                print_shape(draw, Way::Told, width, height, is2bpp);
            }
        }
    }
    // Sixteen blocks, one or two of them across or down: whole, then clipped.
    let narrow_4bpp = [
        (4, 64),
        (2, 61),
        (64, 4),
        (61, 3),
        (8, 32),
        (7, 30),
        (32, 8),
        (29, 5),
    ];
    let narrow_2bpp = [
        (8, 64),
        (5, 61),
        (128, 4),
        (123, 2),
        (16, 32),
        (10, 29),
        (64, 8),
        (59, 6),
    ];
    // Square and larger grids.
    let large_4bpp = [
        (16, 16),
        (13, 14),
        (14, 13),
        (4, 256),
        (256, 4),
        (8, 128),
        (128, 8),
        (30, 31),
        (64, 64),
    ];
    let large_2bpp = [
        (16, 8),
        (9, 7),
        (32, 16),
        (25, 14),
        (28, 13),
        (16, 64),
        (128, 8),
        (60, 31),
        (128, 64),
    ];
    let shapes = [
        (&narrow_4bpp[..], false),
        (&narrow_2bpp, true),
        (&large_4bpp, false),
        (&large_2bpp, true),
    ];
    for (sizes, is2bpp) in shapes {
        for &(width, height) in sizes {
            print_shape(draw, Way::Told, width, height, is2bpp);
        }
    }
}

/// The same picture by the calls that are told the depth and by that with the depth in its name.
fn print_both_ways(draw: &mut Draw) {
    let shapes = [
        (4, 4, false),
        (3, 2, false),
        (5, 6, false),
        (15, 15, false),
        (8, 4, true),
        (3, 2, true),
        (13, 5, true),
        (31, 15, true),
    ];
    for (width, height, is2bpp) in shapes {
        print_shape(&mut draw.clone(), Way::Told, width, height, is2bpp);
        print_shape(draw, Way::Named, width, height, is2bpp);
    }
}

/// One picture.
fn print_shape(draw: &mut Draw, way: Way, width: usize, height: usize, is2bpp: bool) {
    let picture = Picture::new(width, height, is2bpp);
    let data = draw.bytes(8 * picture.blocks());
    print_line(way, picture, &data, draw.words(width * height + 9));
}

/// All rows of some pictures, each with nine words after it.
fn print_rows(draw: &mut Draw) {
    let pictures = [
        (1, 1, false),
        (4, 4, false),
        (3, 16, false),
        (32, 2, false),
        (5, 6, false),
        (8, 16, false),
        (13, 15, false),
        (1, 1, true),
        (8, 4, true),
        (3, 16, true),
        (64, 1, true),
        (13, 5, true),
        (16, 8, true),
        (29, 13, true),
    ];
    for (width, height, is2bpp) in pictures {
        let picture = Picture::new(width, height, is2bpp);
        let data = draw.bytes(8 * picture.blocks());
        for y in 0..height {
            print_line(Way::Row(y), picture, &data, draw.words(width + 9));
        }
    }
}

/// Picture calls on both sides of each refusal, and where two refusals hold together.
fn print_picture_calls(data: &[u8], is2bpp: bool) {
    let call = |bytes, words, width, height| {
        let picture = Picture::new(width, height, is2bpp);
        print_line(Way::Told, picture, &data[..bytes], lent(words));
    };
    let [one, two, three] = widths_of_blocks(is2bpp);

    // A side is 0; also where the other is too large, and where it has three blocks.
    call(96, 16, 0, 4);
    call(96, 16, 4, 0);
    call(0, 0, 0, 0);
    call(96, 16, 0, 65537);
    call(96, 16, usize::MAX, 0);
    call(96, 16, 0, 12);

    // A side is above 65,536; a side of 65,536 is not, but there the data is short.
    call(96, 16, 65537, 4);
    call(96, 16, 4, 65537);
    call(0, 0, 65537, 65537);
    call(96, 16, usize::MAX, usize::MAX);
    call(96, 16, 65536, 4);
    call(96, 16, 4, 65536);
    call(96, 16, 65536, 65536);

    // Four blocks need 32 bytes; also where the image is short.
    for bytes in [32, 31, 16, 15, 0] {
        call(bytes, 150, two, 8);
    }
    call(31, 63, two, 8);

    // One block needs 8 bytes.
    for bytes in [8, 7, 4, 3, 0] {
        call(bytes, 50, one, 4);
    }

    // Three blocks need 24 bytes, and are no power of two; also where the image is short, and with three blocks down or both ways.
    for bytes in [24, 23, 12, 11] {
        call(bytes, 100, three, 4);
    }
    call(23, 47, three, 4);
    call(96, 47, three, 4);
    call(96, 300, 8, 12);
    call(96, 300, three, 12);

    // Data past the need of one block and of four.
    for bytes in [8, 9, 16, 96] {
        call(bytes, 20, 3, 2);
    }
    for bytes in [32, 33, 40, 96] {
        call(bytes, 150, two, 7);
    }

    // The image is just long enough, or short.
    for words in [64, 63, 0] {
        call(96, words, 8, 8);
    }
    for words in [30, 29] {
        call(96, words, 5, 6);
    }
    for words in [1, 0] {
        call(96, words, 1, 1);
    }

    // Sides of 1 to 18, across and down: up to five blocks one way, and one the other.
    for side in 1..19 {
        call(96, 80, side, 4);
        call(96, 80, 4, side);
    }
}

/// Row calls, likewise.
fn print_row_calls(data: &[u8], is2bpp: bool) {
    let call = |bytes, words, width, height, y| {
        let picture = Picture::new(width, height, is2bpp);
        print_line(Way::Row(y), picture, &data[..bytes], lent(words));
    };
    let [_, two, three] = widths_of_blocks(is2bpp);

    // A side is 0; also where the other is too large, where it has three blocks, where the row is short, and where it is outside.
    call(96, 16, 0, 4, 0);
    call(96, 16, 0, 65537, 0);
    call(96, 16, 0, 12, 0);
    call(96, 16, 4, 0, 0);
    call(96, 3, 4, 0, 0);
    call(96, 16, 0, 4, 4);

    // A side is above 65,536; a side of 65,536 is not, but there the data is short.
    call(96, 16, 65537, 4, 0);
    call(96, 16, 4, 65537, 0);
    call(96, 16, usize::MAX, usize::MAX, usize::MAX);
    call(96, 16, 65536, 4, 0);
    call(96, 16, 4, 65536, 0);

    // Four blocks need 32 bytes; also where the row is short, and where it is outside.
    for bytes in [32, 31, 16, 0] {
        call(bytes, 20, two, 8, 7);
    }
    call(31, 7, two, 8, 7);
    call(31, 20, two, 8, 8);

    // Data past the need of four blocks.
    for bytes in [32, 33, 96] {
        call(bytes, 20, two, 7, 6);
    }

    // The row is just long enough, or short; also where it is outside.
    for words in [8, 7, 0] {
        call(96, words, 8, 8, 7);
    }
    call(96, 7, 8, 8, 8);

    // Three blocks across or down are no power of two; also where the data is short, where the row is short, and where it is outside.
    call(96, 30, three, 8, 7);
    call(96, 30, 8, 12, 0);
    call(47, 30, three, 8, 7);
    call(96, 11, three, 8, 7);
    call(96, 30, three, 8, 8);

    // The row is outside; also within a block that goes on past the picture.
    for y in [7, 8, usize::MAX] {
        call(96, 20, 16, 8, y);
    }
    for y in [4, 5] {
        call(96, 20, 6, 5, y);
    }
}

/// Calls on sides of 65,536 and more, with all the bytes that they need.
fn print_tall(data: &[u8], is2bpp: bool) {
    let call = |way, bytes, words, width, height| {
        let picture = Picture::new(width, height, is2bpp);
        print_line(way, picture, &data[..bytes], lent(words));
    };

    // Rows of a picture with a side of 65,536.
    for y in [0, 65535, 65536] {
        call(Way::Row(y), 131072, 3, 1, 65536);
    }
    call(Way::Row(0), 131071, 3, 1, 65536);
    call(Way::Row(0), 131072, 3, 65536, 1);

    // Rows where a side is too large, and nothing else; then with short data, with a short row, with blocks that are no power of two,
    // and outside.
    call(Way::Row(0), 262144, 3, 1, 131072);
    call(Way::Row(0), 262143, 3, 1, 131072);
    call(Way::Row(0), 262144, 0, 1, 131072);
    call(Way::Row(0), 131080, 3, 1, 65537);
    call(Way::Row(131072), 262144, 3, 1, 131072);

    // Pictures whose image is short: a side of 65,536 is not too large, the others are.
    call(Way::Told, 131072, 16, 1, 65536);
    call(Way::Told, 131072, 16, 65536, 1);
    call(Way::Told, 131080, 16, 1, 65537);
    call(Way::Told, 131080, 16, 65537, 1);
    call(Way::Told, 262144, 16, 1, 131072);
}

/// The widths of one, two and three blocks.
fn widths_of_blocks(is2bpp: bool) -> [usize; 3] {
    let block_width = if is2bpp { 8 } else { 4 };
    [block_width, 2 * block_width, 3 * block_width]
}

/// The words that these calls get: always the same, as far as they reach.
fn lent(words: usize) -> Vec<u32> {
    Draw::from_state(2).words(words)
}

/// One call; a picture by the fast form, and again by the plain one, which must answer the same.
fn print_line(way: Way, picture: Picture, data: &[u8], words: Vec<u32>) {
    print_in_both_orders(way, picture, data, &words, "picture");
    if let Way::Told = way {
        print_in_both_orders(way, picture, data, &words, "plain");
    }
}

/// One call, blue first and red first, on the same words.
fn print_in_both_orders(way: Way, picture: Picture, data: &[u8], words: &[u32], form: &str) {
    for picture in picture.in_both_orders() {
        print_call(way, picture, data, words.to_vec(), form);
    }
}

/// One call, its number, and the sum over the lent words afterwards. A picture's line begins with `form`.
fn print_call(way: Way, picture: Picture, data: &[u8], mut words: Vec<u32>, form: &str) {
    let (label, number) = match way {
        Way::Told => (String::from(form), picture.decode(data, &mut words, false)),
        Way::Named => (
            String::from("named"),
            picture.decode(data, &mut words, true),
        ),
        Way::Row(y) => (
            format!("row {y} of"),
            picture.decode_row(data, y, &mut words),
        ),
    };
    println!(
        "{label} {}, {} bytes, {} words: {number}, sum {}",
        picture.name(),
        data.len(),
        words.len(),
        sum_of(&words)
    );
}
