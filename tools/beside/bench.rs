// Times the calls of include/plate.h against the Rust original: one process, the same input, CPU time, the best of 35.
//
// A time is that of a call divided by its texels, in nanoseconds; a ratio is the original's time divided by ours, so above 1 ours is
// faster. Ours is timed in the Rust's mode, in the stored one, and in the Rust's mode red first; one column more is the time blue first divided by
// that red first, so above 1 red first is faster. Every picture that is timed is first decoded by both and compared. Built with `--cfg before`, it
// times another build of our library as well, in the Rust's mode, blue first, and in turn with the others: then the last three columns are our
// times divided by that build's, so above 1 ours is slower.
//
// Two tables more are of levels: a level from a file against the block call on the same bytes, and a level's description by itself.

extern crate color;

mod both;
mod shape;

use both::{draw, plate_level, plate_level_field, plate_picture, plate_row, plate_texel};
use shape::{in_order, Shape, BLUE_FIRST, RED_FIRST, RUSTS, STORED};
use std::hint::black_box;

extern "C" {
    fn clock_gettime(clock: i32, time: *mut [i64; 2]) -> i32;
}

// The CPU time of this process, in nanoseconds.
fn cpu_time() -> f64 {
    const CLOCK_PROCESS_CPUTIME_ID: i32 = 2;
    let mut time = [0; 2];
    assert_eq!(unsafe { clock_gettime(CLOCK_PROCESS_CPUTIME_ID, &mut time) }, 0);
    time[0] as f64 * 1e9 + time[1] as f64
}

type Work<'a> = Box<dyn FnMut() + 'a>;

// The time of one of so many turns of a work.
fn one_time(turns: usize, work: &mut Work) -> f64 {
    let start = cpu_time();
    for _ in 0..turns {
        work();
    }
    (cpu_time() - start) / turns as f64
}

// How many turns of a work take 4 ms or more.
fn enough_turns(work: &mut Work) -> usize {
    let mut turns = 1;
    while one_time(turns, work) * (turns as f64) < 4e6 {
        turns *= 2;
    }
    turns
}

// The best times of works, taken in turn 35 times: short times and many of them, so that a busy moment of the machine falls on all alike.
// Before each a work runs as long untimed, so that none finds the caches as another one left them.
fn best_times(mut works: Vec<Work>) -> Vec<f64> {
    let turns: Vec<usize> = works.iter_mut().map(enough_turns).collect();
    let mut best = vec![f64::MAX; works.len()];
    for _ in 0..35 {
        for (i, work) in works.iter_mut().enumerate() {
            one_time(turns[i], work);
            best[i] = best[i].min(one_time(turns[i], work));
        }
    }
    best
}

// The calls of one build of our library in a mode and an order, which answer as include/plate.h says.
struct Calls {
    mode: u32,
    order: u32,
    picture: fn(&Picture, &mut [u32]) -> u64,
    row: fn(&Picture, usize, &mut [u32]) -> u64,
    texel: fn(&Picture, usize, usize) -> u64,
}

// A build's calls, by the names of its functions and by what they take behind the depth: the mode, and the order or, before there were orders,
// nothing. So no build is called through one function more than another.
macro_rules! calls {
    ($mode:expr, $order:expr, $picture:ident, $row:ident, $texel:ident, ($($behind:expr),*)) => {
        Calls {
            mode: $mode,
            order: $order,
            picture: |p, image| {
                let (w, h, depth) = p.s.numbers();
                unsafe { $picture(p.data.as_ptr(), p.data.len(), w, h, depth, $($behind,)* image.as_mut_ptr(), image.len()) }
            },
            row: |p, y, row| {
                let (w, h, depth) = p.s.numbers();
                unsafe { $row(p.data.as_ptr(), p.data.len(), w, h, depth, $($behind,)* y as u64, row.as_mut_ptr(), row.len()) }
            },
            texel: |p, x, y| {
                let (w, h, depth) = p.s.numbers();
                unsafe { $texel(p.data.as_ptr(), p.data.len(), w, h, depth, $($behind,)* x as u64, y as u64) }
            },
        }
    };
}

// The other build's functions. Without an order, they have the parameters of a library from before there were orders.
#[cfg(before)]
extern "C" {
    fn before_plate_texel(
        data: *const u8, len: usize, width: u64, height: u64, depth: u32, mode: u32, #[cfg(not(without_order))] order: u32, x: u64, y: u64,
    ) -> u64;
    fn before_plate_row(
        data: *const u8, len: usize, width: u64, height: u64, depth: u32, mode: u32, #[cfg(not(without_order))] order: u32,
        y: u64, row: *mut u32, room: usize,
    ) -> u64;
    fn before_plate_picture(
        data: *const u8, len: usize, width: u64, height: u64, depth: u32, mode: u32, #[cfg(not(without_order))] order: u32,
        image: *mut u32, room: usize,
    ) -> u64;
}

// Where ours in the stored mode stands among these.
const OURS_STORED: usize = 1;

// Ours in both modes, and red first, and the other build if there is one.
static BUILDS: &[Calls] = &[
    calls!(RUSTS, BLUE_FIRST, plate_picture, plate_row, plate_texel, (RUSTS, BLUE_FIRST)),
    calls!(STORED, BLUE_FIRST, plate_picture, plate_row, plate_texel, (STORED, BLUE_FIRST)),
    calls!(RUSTS, RED_FIRST, plate_picture, plate_row, plate_texel, (RUSTS, RED_FIRST)),
    #[cfg(all(before, not(without_order)))]
    calls!(RUSTS, BLUE_FIRST, before_plate_picture, before_plate_row, before_plate_texel, (RUSTS, BLUE_FIRST)),
    #[cfg(all(before, without_order))]
    calls!(RUSTS, BLUE_FIRST, before_plate_picture, before_plate_row, before_plate_texel, (RUSTS)),
];

// Words as drawn.
fn random_words(blocks: usize) -> Vec<u8> {
    let mut state = 0x9e37_79b9_7f4a_7c15;
    (0..blocks).flat_map(|_| draw(&mut state).to_le_bytes()).collect()
}

// Words as a page has them: opaque near-white paper, dark letters in places, few texels between.
fn page_words(blocks: usize) -> Vec<u8> {
    let mut state = 0x0123_4567_89ab_cdef;
    let word = |drawn: u64| {
        let modulation = if drawn & 7 == 0 { drawn >> 32 } else { 0xffff_ffff * (drawn >> 3 & 1) };
        let (a, b) = (0x8842_u64, 0xfbde_u64);
        modulation | a << 32 | b << 48 | (drawn >> 4 & 1) << 32
    };
    (0..blocks).flat_map(|_| word(draw(&mut state)).to_le_bytes()).collect()
}

// Places of texels, drawn: each is a word of the picture.
fn places(s: Shape) -> Vec<usize> {
    let mut state = 1;
    (0..262_144).map(|_| draw(&mut state) as usize % s.texels()).collect()
}

struct Picture<'a> {
    data: &'a [u8],
    s: Shape,
    words: &'static str,
}

impl Picture<'_> {
    fn original(&self, image: &mut [u32], mode: u32) {
        self.s.original(self.data, image, mode).expect("the original refuses");
    }

    // What a build must decode: the original's picture in its mode, and in its order.
    fn expected(&self, build: &Calls) -> Vec<u32> {
        let mut image = vec![0; self.s.texels()];
        self.original(&mut image, build.mode);
        image.into_iter().map(|word| in_order(word, build.order)).collect()
    }

    // The best times of the original's picture and of a work of each build.
    fn timed<'a>(&'a self, work: impl Fn(&'static Calls) -> Work<'a>) -> Vec<f64> {
        let mut image = vec![0; self.s.texels()];
        let mut works: Vec<Work> = vec![Box::new(move || self.original(black_box(&mut image), RUSTS))];
        works.extend(BUILDS.iter().map(work));
        best_times(works)
    }

    // The line of a call of which each makes so many texels: the original's time, each build's with its ratio, ours blue first divided by ours red
    // first, then ours divided by the other build's.
    fn print_line(&self, call: &str, times: &[f64], texels: usize) {
        let theirs = times[0] / self.s.texels() as f64;
        print!("| {call} | {} | {} × {} | {} | {theirs:.2} |", self.s.bits(), self.s.width, self.s.height, self.words);
        for time in &times[1..] {
            let ours = time / texels as f64;
            print!(" {ours:.2} | {:.2} |", theirs / ours);
        }
        let [rusts, stored, red] = [times[1], times[2], times[3]];
        print!(" {:.3} |", rusts / red);
        if let Some(before) = times.get(4) {
            print!(" {:.3} | {:.3} | {:.3} |", rusts / before, stored / before, red / before);
        }
        println!();
    }

    fn measure_picture(&self) {
        for build in BUILDS {
            let mut whole = vec![0; self.s.texels()];
            assert_eq!((build.picture)(self, &mut whole), 0);
            assert!(whole == self.expected(build), "the pictures differ: {} x {}, {} bits", self.s.width, self.s.height, self.s.bits());
        }
        let times = self.timed(|build| {
            let mut whole = vec![0; self.s.texels()];
            Box::new(move || assert_eq!((build.picture)(self, black_box(&mut whole)), 0))
        });
        self.print_line("picture", &times, self.s.texels());
    }

    fn measure_rows(&self) {
        let (width, height) = (self.s.width, self.s.height);
        for build in BUILDS {
            let (image, mut row) = (self.expected(build), vec![0; width]);
            for y in 0..height {
                assert_eq!((build.row)(self, y, &mut row), 0);
                assert!(row == image[y * width..][..width], "row {y} differs");
            }
        }
        let times = self.timed(|build| {
            let (mut y, mut row) = (0, vec![0; width]);
            Box::new(move || {
                y = (y + 1) % height;
                assert_eq!((build.row)(self, y, black_box(&mut row)), 0)
            })
        });
        self.print_line("row", &times, width);
    }

    fn measure_texels(&self, places: &[usize]) {
        let width = self.s.width;
        for build in BUILDS {
            let image = self.expected(build);
            for &at in places {
                assert_eq!((build.texel)(self, at % width, at / width), image[at] as u64, "texel {at} differs");
            }
        }
        let times = self.timed(|build| {
            let mut turn = 0;
            Box::new(move || {
                turn = (turn + 1) % places.len();
                black_box((build.texel)(self, places[turn] % width, places[turn] / width));
            })
        });
        self.print_line("texel", &times, 1);
    }
}

fn print_head() {
    let mut columns = vec!["call", "bits", "size", "words", "original, ns a texel"];
    columns.extend(["ours, ns a texel", "ratio", "ours, stored mode", "ratio", "ours, red first", "ratio"]);
    if cfg!(before) {
        columns.extend(["before", "ratio", "blue / red", "ours / before", "stored / before", "red / before"]);
    } else {
        columns.push("blue / red");
    }
    println!();
    println!("| {} |", columns.join(" | "));
    println!("|{}", "---|".repeat(columns.len()));
}

// The header of a file that says so many levels.
fn header(is_ktx: bool, s: Shape, levels: u32) -> Vec<u8> {
    let (width, height, depth) = (s.width as u32, s.height as u32, s.is2bpp as u32);
    let (identifier, fields): (&[u8], [u32; 13]) = if is_ktx {
        (b"\xabKTX 11\xbb\r\n\x1a\n", [0x0403_0201, 0, 1, 0, 0x8c02 + depth, 0x1908, width, height, 0, 0, 1, levels, 0])
    } else {
        (b"", [0x0352_5650, 0, 3 - 2 * depth, 0, 0, 0, height, width, 1, 1, 1, levels, 0])
    };
    identifier.iter().copied().chain(fields.iter().flat_map(|field| field.to_le_bytes())).collect()
}

// A file of a square plate with all its levels, and where the second one starts.
fn file_with_levels(is_ktx: bool, side: usize, is2bpp: bool) -> (Vec<u8>, usize) {
    let levels = side.ilog2() + 1;
    let (mut file, mut starts) = (header(is_ktx, Shape { width: side, height: side, is2bpp }, levels), Vec::new());
    for k in 0..levels {
        let need = Shape { width: side >> k, height: side >> k, is2bpp }.need(STORED);
        if is_ktx {
            file.extend((need as u32).to_le_bytes());
        }
        starts.push(file.len());
        file.extend(random_words(need / 8));
    }
    (file, starts[1])
}

// Level 1 of a plate of 2048 × 2048 by the level call, against the block call on the same bytes in the stored mode.
fn measure_level(is_ktx: bool, is2bpp: bool) {
    let (file, start) = file_with_levels(is_ktx, 2048, is2bpp);
    let s = Shape { width: 1024, height: 1024, is2bpp };
    let (picture, file) = (&Picture { data: &file[start..][..s.need(STORED)], s, words: "random" }, &file[..]);
    let block = |image: &mut [u32]| (BUILDS[OURS_STORED].picture)(picture, image);
    let level = |image: &mut [u32]| unsafe { plate_level(file.as_ptr(), file.len(), 1, BLUE_FIRST, image.as_mut_ptr(), image.len()) };
    let (mut image, mut again) = (vec![0; s.texels()], vec![0; s.texels()]);
    assert_eq!((block(&mut image), level(&mut again)), (0, 0));
    assert!(image == again, "the level differs from the picture of its bytes");
    let works: [Work; 2] = [
        Box::new(move || assert_eq!(block(black_box(&mut image)), 0)),
        Box::new(move || assert_eq!(level(black_box(&mut again)), 0)),
    ];
    let times: Vec<f64> = best_times(works.into()).iter().map(|time| time / s.texels() as f64).collect();
    let kind = if is_ktx { "KTX" } else { "PVR" };
    println!("| {} | {kind} | {:.2} | {:.2} | {:.3} |", s.bits(), times[0], times[1], times[1] / times[0]);
}

// The description of a level of the largest plate, told by a header alone.
fn measure_description(level: u64, is2bpp: bool) {
    let s = Shape { width: 65536, height: 65536, is2bpp };
    let file = header(false, s, 17);
    let field = |number| unsafe { plate_level_field(file.as_ptr(), file.len(), black_box(level), number) };
    assert_eq!([field(0), field(1), field(2)], [0, 65536 >> level, 65536 >> level]);
    let time = best_times(vec![Box::new(|| assert_ne!(field(4), 0))])[0];
    println!("| {level} | {} | {time:.1} |", s.bits());
}

fn measure_levels() {
    println!();
    println!("| level 1 of 2048 × 2048, bits | file | the block call, ns a texel | the level call | level / block |");
    println!("|---|---|---|---|---|");
    for is2bpp in [false, true] {
        measure_level(false, is2bpp);
        measure_level(true, is2bpp);
    }
    println!();
    println!("| a field of a level of 65536 × 65536 | bits | ns |");
    println!("|---|---|---|");
    for is2bpp in [false, true] {
        measure_description(0, is2bpp);
        measure_description(16, is2bpp);
    }
}

fn main() {
    print_head();
    for is2bpp in [false, true] {
        for (width, height) in [(1024, 1024), (256, 256), (1021, 1023), (8, 8)] {
            for (words, drawn) in [("random", random_words as fn(usize) -> Vec<u8>), ("page", page_words)] {
                let s = Shape { width, height, is2bpp };
                let picture = Picture { data: &drawn(s.need(STORED) / 8), s, words };
                picture.measure_picture();
                if width == 1024 {
                    picture.measure_rows();
                    picture.measure_texels(&places(s));
                }
            }
        }
    }
    measure_levels();
}
