// Compares the calls of include/plate.h with the Rust original: refusals, texels, and the lent words that were not to be written.
//
// Our calls are lent memory that ends where a page may not be touched, with words before it that must stay. A picture is decoded by both, in the
// Rust's mode and in the stored one; its rows, or one row if it is large, and a texel of each are then asked for by the other calls, and then the
// same data is read as a KTX file, which is the stored mode. A level of a file must be the original's picture of its own bytes, cut out. Where the
// original is no oracle (document 01's domain), the answer is held to document 01's table of refusals, over the mode's grid. All of this is asked
// for blue first, as the original's words are, and red first, where they must come with two bytes exchanged.

extern crate color;

mod both;
mod families;
mod guarded;
mod ktx;
mod levels;
mod pvr;
mod shape;

use both::{original, plate_convert, plate_picture, plate_row, plate_texel};
use guarded::Guarded;
use shape::{in_order, Shape, BLUE_FIRST, RED_FIRST, RUSTS, STORED};
use std::collections::BTreeMap;

// Numbers that all say the stored mode, and numbers that all say red first.
const STORED_NUMBERS: [u32; 4] = [STORED, 2, 0x8000_0000, u32::MAX];
const RED_NUMBERS: [u32; 5] = [RED_FIRST, 2, 256, 0x8000_0000, u32::MAX];

// Words before a lent buffer that must stay.
const BEFORE: usize = 64;

// A picture of more texels is asked for one row, and a smaller one for all.
const LARGE: usize = 4096;

// The room that the program lends.
const WORDS: usize = 131072;
const OUT: usize = 524306;

// What a lent word holds before a call: no texel is likely to be it.
fn old_word(i: usize) -> u32 {
    (i as u32).wrapping_mul(0x9e37_79b9) ^ 0x5a5a_5a5a
}

// Lent words before a call, the ones before them that must stay among them.
fn fill_old(lent: &mut [u32]) {
    (0..lent.len()).for_each(|i| lent[i] = old_word(i.wrapping_sub(BEFORE)));
}

// Whether the words before the lent ones stay, and the lent ones from word `from` on.
fn stays_from(lent: &[u32], from: usize) -> bool {
    (0..BEFORE).chain(BEFORE + from..lent.len()).all(|i| lent[i] == old_word(i.wrapping_sub(BEFORE)))
}

// Whether the first lent words are these, in an order of channels, and all others stay.
fn holds(lent: &[u32], words: &[u32], order: u32) -> bool {
    let written = lent[BEFORE..][..words.len()].iter().zip(words).all(|(ours, word)| *ours == in_order(*word, order));
    written && stays_from(lent, words.len())
}

// The first number of an order whose condition holds, or 0.
fn first(order: &[u64], faulty: impl Fn(u64) -> bool) -> u64 {
    order.iter().copied().find(|number| faulty(*number)).unwrap_or(0)
}

// The four bytes of a file from a place on, as a number; 0 past its end.
fn field(file: &[u8], at: usize) -> usize {
    file.get(at..at + 4).map_or(0, |four| u32::from_le_bytes(four.try_into().unwrap()) as usize)
}

impl Shape {
    // Whether a number's condition holds, of the documents' and of the program's, in a mode, with so many bytes of data and lent words.
    fn faulty(self, number: u64, mode: u32, len: usize, room: usize) -> bool {
        let (across, down) = self.blocks(mode);
        match number {
            1 => self.width == 0 || self.height == 0,
            2 => self.width > 65536 || self.height > 65536,
            22 => self.width > 1024 || self.height > 1024,
            23 => self.need(mode) > 32768,
            3 => len < self.need(mode),
            4 => room < self.texels(),
            5 => !across.is_power_of_two() || !down.is_power_of_two(),
            _ => panic!("a picture has no condition {number}"),
        }
    }

    // Document 01's number for a call that writes a picture.
    fn refusal(self, mode: u32, len: usize, room: usize) -> u64 {
        first(&[1, 2, 3, 4, 5], |number| self.faulty(number, mode, len, room))
    }

    // Whether the original is the oracle.
    fn in_domain(self, mode: u32, len: usize) -> bool {
        let half_the_need = !self.is2bpp && (self.need(mode) / 2..self.need(mode)).contains(&len);
        (1..=65536).contains(&self.width) && (1..=65536).contains(&self.height) && !half_the_need
    }
}

// A picture as our calls are asked for it: its data where that is lent, its size and depth, and the numbers of the mode and of the order.
#[derive(Clone, Copy)]
struct Asked {
    at: *const u8,
    len: usize,
    s: Shape,
    mode: u32,
    order: u32,
}

impl Asked {
    fn picture(self, image: &mut [u32]) -> u64 {
        let (w, h, depth) = self.s.numbers();
        unsafe { plate_picture(self.at, self.len, w, h, depth, self.mode, self.order, image.as_mut_ptr(), image.len()) }
    }

    fn row(self, y: usize, row: &mut [u32]) -> u64 {
        let (w, h, depth) = self.s.numbers();
        unsafe { plate_row(self.at, self.len, w, h, depth, self.mode, self.order, y as u64, row.as_mut_ptr(), row.len()) }
    }

    fn texel(self, x: usize, y: usize) -> u64 {
        let (w, h, depth) = self.s.numbers();
        unsafe { plate_texel(self.at, self.len, w, h, depth, self.mode, self.order, x as u64, y as u64) }
    }

    fn told(self) -> String {
        let (width, height, bits) = (self.s.width, self.s.height, self.s.bits());
        format!("{width} x {height}, {bits} bits, mode {}, order {}, {} bytes", self.mode, self.order, self.len)
    }
}

// How much was compared.
#[derive(Clone, Copy, Default)]
struct Tally {
    cases: u64,
    refused: u64,
    texels: u64,
}

impl Tally {
    // A case that is refused with this number or, if it is 0, gives so many texels.
    fn count(&mut self, refused: u64, texels: usize) {
        self.cases += 1;
        if refused == 0 {
            self.texels += texels as u64;
        } else {
            self.refused += 1;
        }
    }
}

// What the cases are: each has its tally.
const CASES: [&str; 5] = [
    "pictures in the Rust's mode",
    "pictures in the stored mode, the same grid",
    "pictures in the stored mode, a larger grid",
    "files refused by their header",
    "levels of files",
];
const RUSTS_GRID: usize = 0;
const SAME_GRID: usize = 1;
const LARGER_GRID: usize = 2;
const BY_HEADER: usize = 3;
const LEVELS: usize = 4;

fn case_of(s: Shape, mode: u32) -> usize {
    match mode {
        RUSTS => RUSTS_GRID,
        _ if s.has_more(mode) => LARGER_GRID,
        _ => SAME_GRID,
    }
}

pub struct Comparison {
    data: Guarded,
    image: Guarded,
    row: Guarded,
    out: Guarded,
    theirs: Vec<u32>,
    tallies: [Tally; CASES.len()],
    // The pictures that were asked for, by their order's number.
    orders: BTreeMap<u32, Tally>,
    by_original: u64,
    pvr: pvr::Counts,
    ktx: ktx::Counts,
    levels: levels::Counts,
    smallest: Option<(usize, String)>,
    differences: u64,
    pub state: u64,
    // What is drawn around the data of KTX files, apart, so that the pictures do not depend on it.
    around: u64,
}

impl Comparison {
    pub fn draw(&mut self) -> u64 {
        both::draw(&mut self.state)
    }

    // Keeps the smallest case that differs.
    fn differs(&mut self, size: usize, what: String) {
        self.differences += 1;
        if self.smallest.as_ref().map_or(true, |(least, _)| size < *least) {
            self.smallest = Some((size, what));
        }
    }

    // Bytes laid in lent memory.
    fn lay(&mut self, bytes: &[u8]) -> *const u8 {
        let lent = self.data.bytes(bytes.len());
        lent.copy_from_slice(bytes);
        lent.as_ptr()
    }

    // What the original answers in a mode and leaves in `theirs`, as document 01's number.
    fn original(&mut self, data: &[u8], s: Shape, mode: u32) -> u64 {
        self.by_original += 1;
        match s.original(data, &mut self.theirs, mode) {
            Ok(()) => 0,
            Err("The data buffer is too small!") => 3,
            Err("The image buffer is too small!") => 4,
            Err("The number of blocks of each side must be a power of 2!") => 5,
            Err(other) => panic!("the original says: {other}"),
        }
    }

    // What the block call must answer in a mode. What `room` lent words must then hold is left in `theirs`.
    fn expect(&mut self, data: &[u8], s: Shape, mode: u32, room: usize) -> u64 {
        self.theirs.clear();
        self.theirs.extend((0..room).map(old_word));
        let by_table = s.refusal(mode, data.len(), room);
        let expected = if s.in_domain(mode, data.len()) { self.original(data, s, mode) } else { by_table };
        assert_eq!(expected, by_table, "document 01's table and the original disagree");
        expected
    }

    // The number of blue first, and one of red first's.
    fn both_orders(&mut self) -> [u32; 2] {
        [BLUE_FIRST, RED_NUMBERS[self.draw() as usize % RED_NUMBERS.len()]]
    }

    // What a call that writes a picture into `room` lent words answers, if it is wrong: if it is not the expected number, or the words are not
    // so many texels of `theirs` in this order or, refused, what they were.
    fn wrong_answer(&mut self, order: u32, expected: u64, texels: usize, room: usize, call: impl Fn(&mut [u32]) -> u64) -> Option<u64> {
        let written = if expected == 0 { texels } else { 0 };
        self.orders.entry(order).or_default().count(expected, written);
        let lent = self.image.words(BEFORE + room);
        fill_old(lent);
        let answer = call(&mut lent[BEFORE..]);
        let right = answer == expected && holds(lent, &self.theirs[..written], order);
        if right { None } else { Some(answer) }
    }

    // One picture of `data`, into `room` lent words, by the calls that take data, and as a KTX file.
    pub fn picture(&mut self, data: &[u8], s: Shape, room: usize) {
        self.decoded(data, s, room);
        self.wrapped(data, s, room);
    }

    // One picture of `data`, into `room` lent words, in the Rust's mode and then in the stored one, of which `theirs` is left. Where both have
    // the same grid, what must come out in the one must come out in the other.
    fn decoded(&mut self, data: &[u8], s: Shape, room: usize) {
        let mut expected = self.expect(data, s, RUSTS, room);
        self.calls(data, s, RUSTS, expected);
        if s.has_more(STORED) {
            expected = self.expect(data, s, STORED, room);
        }
        let number = STORED_NUMBERS[self.draw() as usize % STORED_NUMBERS.len()];
        self.calls(data, s, number, expected);
    }

    // One picture in a mode and in both orders, with its rows and some of its texels: the number must be the expected one, and the lent words those
    // of `theirs`.
    fn calls(&mut self, data: &[u8], s: Shape, mode: u32, expected: u64) {
        let (at, room) = (self.lay(data), self.theirs.len());
        for order in self.both_orders() {
            let asked = Asked { at, len: data.len(), s, mode, order };
            if let Some(answer) = self.wrong_answer(order, expected, s.texels(), room, |image| asked.picture(image)) {
                self.differs(data.len() + room, format!("picture answers {answer}, expected {expected}: {}, {room} words", asked.told()));
            }
            self.tallies[case_of(s, mode)].count(expected, s.texels());
            match expected {
                0 => self.rows_and_texels(asked),
                4 => (),
                _ => self.row_and_texel(asked, 0, expected),
            }
        }
    }

    // All rows of the picture in `theirs`, or one of a large picture, and those that it does not have.
    fn rows_and_texels(&mut self, asked: Asked) {
        if asked.s.texels() > LARGE {
            let y = self.draw() as usize % asked.s.height;
            self.row_and_texel(asked, y, 0);
        } else {
            (0..asked.s.height).for_each(|y| self.row_and_texel(asked, y, 0));
        }
        self.past_the_sides(asked);
    }

    // The row below a picture and texels beside it: refused, though a larger grid has blocks there.
    fn past_the_sides(&mut self, asked: Asked) {
        let (width, height) = (asked.s.width, asked.s.height);
        let lent = self.row.words(BEFORE + width);
        fill_old(lent);
        let (row, texels) = (asked.row(height, &mut lent[BEFORE..]), [asked.texel(width, 0), asked.texel(0, height)]);
        if row != 6 || !stays_from(lent, 0) || texels != [6 << 32; 2] {
            self.differs(asked.len + width, format!("past the sides row answers {row}, texels are {texels:x?}: {}", asked.told()));
        }
    }

    // Row y of the picture in `theirs`, and a texel of it; or both refused as the picture is, for something else than its room. A row that is
    // refused before its room is asked for gets next to none.
    fn row_and_texel(&mut self, asked: Asked, y: usize, refused: u64) {
        let width = asked.s.width;
        let (x, more) = (self.draw() as usize % width.max(1), self.draw() as usize % 3);
        let room = more + if matches!(refused, 1..=3) { 0 } else { width };
        let theirs = if refused == 0 { &self.theirs[y * width..][..width] } else { &[] };
        let expected = theirs.get(x).map_or(refused << 32, |word| in_order(*word, asked.order) as u64);
        let lent = self.row.words(BEFORE + room);
        fill_old(lent);
        let answer = asked.row(y, &mut lent[BEFORE..]);
        if answer != refused || !holds(lent, theirs, asked.order) {
            self.differs(asked.len + room, format!("row {y} answers {answer}, expected {refused}: {}, {room} words", asked.told()));
        }
        let texel = asked.texel(x, y);
        if texel != expected {
            self.differs(asked.len + room, format!("texel {x} {y} is {texel:x}, expected {expected:x}: {}", asked.told()));
        }
        if refused == 0 {
            for tally in [&mut self.tallies[case_of(asked.s, asked.mode)], self.orders.entry(asked.order).or_default()] {
                tally.texels += width as u64 + 1;
            }
        }
    }

    // What the program must write for a plate that it refuses with this number, or not: the line of the refusal, or the picture by the original.
    fn expected_output(&mut self, refused: u64, s: Shape, data: &[u8]) -> Vec<u8> {
        if refused != 0 {
            return line(refused);
        }
        self.theirs.clear();
        self.theirs.resize(s.texels(), 0);
        self.original(data, s, STORED);
        let (w, h) = ((s.width as u16).to_le_bytes(), (s.height as u16).to_le_bytes());
        let mut tga = vec![0, 0, 2, 0, 0, 0, 0, 0, 0, 0, 0, 0, w[0], w[1], h[0], h[1], 0x20, 0x28];
        tga.extend(self.theirs.iter().flat_map(|word| word.to_le_bytes()));
        tga
    }

    // The program's function on a file, which stands in lent memory already: what it writes, and some bytes after, which must stay.
    fn converted(&mut self, at: *const u8, file: &[u8], expected: &[u8]) {
        let looked_at = (expected.len() + 256).min(OUT);
        let (image, out) = (self.image.words(WORDS), self.out.bytes(OUT));
        out[..looked_at].fill(0xa5);
        let n = unsafe { plate_convert(at, file.len(), image.as_mut_ptr(), WORDS, out.as_mut_ptr(), OUT) } as usize;
        let stays = out[expected.len()..looked_at].iter().all(|b| *b == 0xa5);
        let none = unsafe { plate_convert(at, file.len(), image.as_mut_ptr(), WORDS, out.as_mut_ptr(), OUT - 1) };
        if n != expected.len() || out[..n.min(OUT)] != *expected || !stays || none != 0 {
            let begin = |bytes: &[u8]| String::from_utf8_lossy(&bytes[..bytes.len().min(11)]).into_owned();
            let (ours, right) = (begin(&out[..n.min(OUT)]), begin(expected));
            self.differs(file.len(), format!("convert answers {n}, {ours:?}, expected {}, {right:?} for {}", expected.len(), bytes(file)));
        }
    }
}

// What the program writes for a refusal.
fn line(refused: u64) -> Vec<u8> {
    format!("refused {refused}\n").into_bytes()
}

// A file's bytes, or the first of them, to be told.
fn bytes(file: &[u8]) -> String {
    format!("{} bytes, {:02x?}", file.len(), &file[..file.len().min(512)])
}

// Inputs where we differ from the original: what it does there, and what ours answers in either mode. docs/DIFFERENCES.md says why.
fn where_we_differ() {
    std::panic::set_hook(Box::new(|_| {}));
    println!("| where we differ | the original | ours, the Rust's mode | ours, the stored mode |");
    println!("|---|---|---|---|");
    let cases = [
        (1, 1, 4, 1, false),
        (1, 1, 7, 1, false),
        (1, 1, 4, 0, false),
        (9, 1, 12, 9, false),
        (0, 1, 0, 0, false),
        (1, 0, 8, 0, false),
        (65537, 1, 131080, 65537, false),
        (131069, 1, 262144, 131069, false),
        (131064, 1, 131072, 131064, true),
        (131065, 1, 131072, 131065, true),
        (1, 1, 8, 1, false),
        (1, 1, 31, 1, false),
        (1, 1, 32, 1, false),
    ];
    for (width, height, len, room, is2bpp) in cases {
        let (data, mut image, s) = (vec![0; len], vec![0; room], Shape { width, height, is2bpp });
        let theirs = std::panic::catch_unwind(|| original::decode_pvrtc(&data, width, height, &mut vec![0; room], is2bpp));
        let said = theirs.map_or("panics".to_string(), |answer| format!("{answer:?}"));
        let [rusts, stored] = [RUSTS, STORED].map(|mode| Asked { at: data.as_ptr(), len, s, mode, order: BLUE_FIRST }.picture(&mut image));
        println!("| {width} × {height} at {}bpp, {len} bytes, {room} words | {said} | {rusts} | {stored} |", s.bits());
    }
    let _ = std::panic::take_hook();
    println!();
}

// What is counted, as the table's columns.
const COUNTED: [&str; 8] = [
    "cases",
    "in the stored mode with a larger grid",
    "answers of the original",
    "refused",
    "texels compared",
    "KTX pictures",
    "refused",
    "texels compared",
];

impl Comparison {
    fn counts(&self) -> [u64; COUNTED.len()] {
        let sum = |of: fn(&Tally) -> u64| self.tallies.iter().map(of).sum();
        let (cases, refused, texels) = (sum(|t| t.cases), sum(|t| t.refused), sum(|t| t.texels));
        let ktx = self.ktx.tally;
        [cases, self.tallies[LARGER_GRID].cases, self.by_original, refused, texels, ktx.cases, ktx.refused, ktx.texels]
    }

    // What the cases were, and how many pictures there were of each order's number.
    fn print_cases(&self) {
        print_tallies("what was asked", CASES.iter().zip(&self.tallies));
        print_tallies("pictures, KTX pictures and levels by their order's number", &self.orders);
    }
}

fn print_tallies<'a, T: std::fmt::Display>(what: &str, tallies: impl IntoIterator<Item = (T, &'a Tally)>) {
    println!();
    println!("| {what} | cases | refused | texels compared |");
    println!("|---|---|---|---|");
    for (name, tally) in tallies {
        println!("| {name} | {} | {} | {} |", tally.cases, tally.refused, tally.texels);
    }
}

fn print_row(name: &str, counts: impl Iterator<Item = u64>, since: std::time::Instant) {
    let cells: Vec<String> = counts.map(|count| count.to_string()).collect();
    println!("| {name} | {} | {:.1} |", cells.join(" | "), since.elapsed().as_secs_f64());
}

fn main() {
    where_we_differ();
    let largest: usize = std::env::args().nth(1).and_then(|n| n.parse().ok()).expect("the side of the largest picture");
    let room = 4 * (largest * largest).max(65536 * 64) + 4096;
    let mut c = Comparison {
        data: Guarded::new(room / 4),
        image: Guarded::new(room),
        row: Guarded::new(4 * (65536 + 4096)),
        out: Guarded::new(OUT),
        theirs: Vec::new(),
        tallies: [Tally::default(); CASES.len()],
        orders: BTreeMap::new(),
        by_original: 0,
        pvr: pvr::Counts::default(),
        ktx: ktx::Counts::default(),
        levels: levels::Counts::default(),
        smallest: None,
        differences: 0,
        state: 0x2545_f491_4f6c_dd1d,
        around: 0x9e37_79b9_7f4a_7c15,
    };
    println!("| family | {} | seconds |", COUNTED.join(" | "));
    println!("|---|{}---|", "---|".repeat(COUNTED.len()));
    let start = std::time::Instant::now();
    for (name, family) in families::ALL {
        eprintln!("compare: {name}");
        let (before, since) = (c.counts(), std::time::Instant::now());
        family(&mut c, largest);
        print_row(name, c.counts().iter().zip(before).map(|(after, before)| after - before), since);
    }
    print_row("all", c.counts().into_iter(), start);
    c.print_cases();
    c.pvr.print();
    c.ktx.print();
    c.levels.print();
    match c.smallest {
        None => println!("no difference"),
        Some((_, what)) => {
            println!("{} differences; the smallest is {what}", c.differences);
            std::process::exit(1);
        }
    }
}
