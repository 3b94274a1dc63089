// The families of inputs that are compared.

use crate::ktx::{Reading, Wrap, IDENTIFIER};
use crate::levels;
use crate::shape::{Shape, RUSTS, STORED};
use crate::Comparison;

pub const ALL: [(&str, fn(&mut Comparison, usize)); 11] = [
    ("sizes 1 to 40 by 1 to 40", small_sizes),
    ("grids to 64 by 64 blocks, clipped", grids),
    ("data about 4n and 8n bytes of either mode, words about width x height", lengths),
    ("every 16-bit value of A and of B", colours),
    ("every weight mode, structured words", modes),
    ("thin pictures to a side of 65,536", thin),
    ("sides that are refused", sides),
    ("a million damaged PVR files", damaged_files),
    ("half a million damaged KTX files", damaged_ktx_files),
    ("two levels of each of half a million files", files_with_levels),
    ("the largest picture", largest_picture),
];

// A word of a kind: drawn; all of one mode; of few bits; with a punch-through or a fill that the drawn words seldom have.
fn word(c: &mut Comparison, kind: usize) -> u64 {
    let drawn = c.draw();
    match kind % 6 {
        0 => drawn,
        1 => drawn | 1 << 32,
        2 => drawn & !(1 << 32),
        3 => drawn & c.draw() & c.draw() | (drawn & 1) << 32,
        4 => drawn | 1 << 32 | 1,
        _ => (drawn | 1 << 32 | 1 << 20 | 1) ^ (c.draw() & 1) << 20,
    }
}

fn words(c: &mut Comparison, kind: usize, blocks: usize) -> Vec<u8> {
    (0..blocks).flat_map(|_| word(c, kind).to_le_bytes()).collect()
}

// The needs of both modes: one, if they are equal.
fn needs(s: Shape) -> Vec<usize> {
    let mut needs = vec![s.need(RUSTS), s.need(STORED)];
    needs.dedup();
    needs
}

// A picture of just the bytes that it needs, in either mode, and the words, and `more` words after.
fn whole(c: &mut Comparison, s: Shape, kind: usize, more: usize) {
    for need in needs(s) {
        let data = words(c, kind, need / 8);
        c.picture(&data, s, s.texels() + more);
    }
}

fn small_sizes(c: &mut Comparison, _: usize) {
    for is2bpp in [false, true] {
        for width in 1..=40 {
            for height in 1..=40 {
                for kind in 0..6 {
                    whole(c, Shape { width, height, is2bpp }, kind, kind);
                }
            }
        }
    }
}

fn grids(c: &mut Comparison, _: usize) {
    for is2bpp in [false, true] {
        let block_width = if is2bpp { 8 } else { 4 };
        for (across, down) in (0..49).map(|i| (1 << (i / 7), 1 << (i % 7))) {
            for (cut_x, cut_y) in [(0, 0), (1, 0), (0, 3), (block_width - 1, 2)] {
                let s = Shape { width: across * block_width - cut_x, height: down * 4 - cut_y, is2bpp };
                let kind = c.draw() as usize;
                whole(c, s, kind, 1);
            }
        }
    }
}

fn lengths(c: &mut Comparison, _: usize) {
    for is2bpp in [false, true] {
        for (width, height) in [(1, 1), (4, 4), (8, 8), (9, 4), (16, 8), (12, 12), (31, 17), (64, 4), (5, 16)] {
            let s = Shape { width, height, is2bpp };
            let lens = |need: usize| (need / 2 - 2..need / 2 + 3).chain(need.saturating_sub(9)..need + 10);
            for len in needs(s).into_iter().flat_map(lens) {
                for room in [0, 1, s.texels() - 1, s.texels(), s.texels() + 1, s.texels() + 7] {
                    let kind = c.draw() as usize;
                    let mut data = words(c, kind, len.div_ceil(8));
                    data.truncate(len);
                    c.picture(&data, s, room);
                }
            }
        }
    }
}

// A word, and three of a kind: a grid of two by two blocks, or the one block that covers a picture and what is stored beside it.
fn with_neighbours(c: &mut Comparison, first: u64, kind: usize) -> Vec<u8> {
    let mut data = first.to_le_bytes().to_vec();
    data.extend(words(c, kind, 3));
    data
}

fn colours(c: &mut Comparison, _: usize) {
    for is2bpp in [false, true] {
        for value in 0..65536 {
            for shift in [32, 48] {
                let first = c.draw() & !(0xffff << shift) | value << shift;
                let s = Shape { width: if is2bpp { 8 } else { 4 }, height: 4, is2bpp };
                let data = with_neighbours(c, first, value as usize);
                c.picture(&data, s, s.texels());
            }
        }
    }
}

fn modes(c: &mut Comparison, _: usize) {
    for is2bpp in [false, true] {
        for ground in [0, 0x5555_5555, 0xaaaa_aaaa, 0xffff_ffff, 0x0f0f_0f0f, 0x1234_5678] {
            for flags in 0..8_u64 {
                for bit in 0..32 {
                    let modulation = (ground ^ 1 << bit) & !0x0010_0001 | flags & 1 | (flags >> 1 & 1) << 20;
                    let first = c.draw() << 32 & !(1 << 32) | (flags >> 2) << 32 | modulation;
                    let data = with_neighbours(c, first, bit);
                    for side in [1, 2] {
                        let s = Shape { width: side * if is2bpp { 8 } else { 4 }, height: side * 4, is2bpp };
                        c.picture(&data, s, s.texels());
                    }
                }
            }
        }
    }
}

fn thin(c: &mut Comparison, _: usize) {
    for is2bpp in [false, true] {
        for long in [1024, 4095, 32768, 65535, 65536] {
            for short in [1, 4, 7] {
                whole(c, Shape { width: long, height: short, is2bpp }, short, 1);
                whole(c, Shape { width: short, height: long, is2bpp }, short, 1);
            }
        }
    }
}

fn sides(c: &mut Comparison, _: usize) {
    let all = [0, 1, 4, 65535, 65536, 65537, 1 << 32, (1 << 32) + 4, usize::MAX / 8, usize::MAX];
    for is2bpp in [false, true] {
        for (width, height) in all.iter().flat_map(|w| all.iter().map(move |h| (*w, *h))) {
            let refused_by_side = width == 0 || height == 0 || width > 65536 || height > 65536;
            for len in if refused_by_side { [0, 8, 64] } else { [0, 1, 7] } {
                let data = words(c, 0, 8);
                c.picture(&data[..len], Shape { width, height, is2bpp }, 16);
            }
        }
    }
}

// Changes up to four bytes of a file, among the first so many.
fn damage(c: &mut Comparison, file: &mut [u8], among: usize) {
    for _ in 0..c.draw() % 5 {
        let at = c.draw() as usize % among.min(file.len());
        file[at] = if c.draw() % 2 == 0 { c.draw() as u8 } else { file[at] ^ 1 << (c.draw() % 8) };
    }
}

fn cut(c: &mut Comparison, file: &mut Vec<u8>) {
    file.truncate(c.draw() as usize % (file.len() + 1));
}

// Places of a header, and what may be set there.
type Settings = [(usize, &'static [u32])];

// Sets up to two fields of a file.
fn set_fields(c: &mut Comparison, file: &mut [u8], settings: &Settings) {
    for _ in 0..c.draw() % 3 {
        let (at, values) = settings[c.draw() as usize % settings.len()];
        let value = values[c.draw() as usize % values.len()];
        file[at..at + 4].copy_from_slice(&value.to_le_bytes());
    }
}

// Of a PVR file, each field on both sides of what is asked of it.
const PVR: &Settings = &[
    (4, &[0, 1, 2, 3, 4, 0x100, 0x202, 0x1_0000, 0x2_0002, 0x100_0000, 1 << 31, !0]),
    (8, &[0, 1, 2, 3, 4, 0x100]),
    (12, &[1]),
    (24, &[0, 1, 24, 1000, 1024, 1025, 65536, 65537, !0]),
    (28, &[0, 1, 24, 1000, 1024, 1025, 65536, 65537, !0]),
    (32, &[0, 2, 0x100_0001]),
    (36, &[0, 2, 0x101]),
    (40, &[0, 6, 0x1_0001]),
    (44, &[0, 2, 9, 0x100]),
    (48, &[0, 1, 4096, 4097, !0]),
];

// Files of a small plate with either of the accepted flags, with fields set in one of four, up to four bytes changed, one in eight cut short.
fn damaged_files(c: &mut Comparison, _: usize) {
    for turn in 0..1_000_000 {
        let drawn = c.draw();
        let (bits, side_x, side_y) = (drawn & 1, 1 + (drawn >> 1) % 16, 1 + (drawn >> 5) % 16);
        let metadata = if drawn >> 9 & 3 == 0 { drawn >> 11 & 15 } else { 0 };
        let flags = (drawn >> 26 & 2) as u8;
        let mut file = vec![0x50, 0x56, 0x52, 3, flags, 0, 0, 0];
        file.extend((2 * bits + (drawn >> 15 & 1)).to_le_bytes());
        for field in [0, 0, side_y, side_x, 1, 1, 1, 1, metadata] {
            file.extend((field as u32).to_le_bytes());
        }
        let s = Shape { width: side_x as usize, height: side_y as usize, is2bpp: bits == 0 };
        file.extend(std::iter::repeat(0x6d).take(metadata as usize));
        let kind = drawn as usize >> 16;
        file.extend(words(c, kind, s.need(STORED) / 8));
        if drawn >> 24 & 3 == 0 {
            set_fields(c, &mut file, PVR);
        }
        damage(c, &mut file, if turn % 2 == 0 { 52 } else { usize::MAX });
        if c.draw() % 8 == 0 {
            cut(c, &mut file);
        }
        c.pvr_file(&file);
    }
}

// Of a KTX file likewise. The sides stand twice, so that both are large often enough.
const KTX: &Settings = &[
    (4, &[0xbb30_3220]),
    (12, &[0x0102_0304, 0]),
    (16, &[1, 0x1401]),
    (24, &[1, 0x1908]),
    (28, &[0x8bff, 0x8c00, 0x8c01, 0x8c02, 0x8c03, 0x8c04, 0x8d64]),
    (36, &[0, 1, 24, 1000, 1024, 1025, 65536, 65537, !0]),
    (40, &[0, 1, 24, 1000, 1024, 1025, 65536, 65537, !0]),
    (36, &[512, 1000, 1024]),
    (40, &[512, 1000, 1024]),
    (44, &[1]),
    (48, &[1]),
    (52, &[0, 6]),
    (60, &[0, 1, 4096, 4097, !0 - 67, !0]),
];

// Sets up to two fields of a KTX file, and in half the files the size word to the need that is then said.
fn set_ktx_fields(c: &mut Comparison, file: &mut [u8]) {
    set_fields(c, file, KTX);
    let (at, need) = (Reading(file).payload() - 4, Reading(file).shape().need(STORED) as u32);
    if at + 4 <= file.len() && c.draw() % 2 == 0 {
        file[at..at + 4].copy_from_slice(&need.to_le_bytes());
    }
}

// KTX files of a small plate with fields set in one of four, up to four bytes changed, one in four cut short.
fn damaged_ktx_files(c: &mut Comparison, _: usize) {
    for turn in 0..500_000 {
        let drawn = c.draw() as usize;
        let s = Shape { width: 1 + (drawn >> 1) % 16, height: 1 + (drawn >> 5) % 16, is2bpp: drawn & 1 == 1 };
        let data = words(c, drawn >> 16, s.need(STORED) / 8);
        let mut file = Wrap::drawn(&mut c.state, s, data.len()).ktx(s, &data);
        if drawn >> 9 & 3 == 0 {
            set_ktx_fields(c, &mut file);
        }
        damage(c, &mut file, if turn % 2 == 0 { 68 } else { usize::MAX });
        if drawn >> 11 & 3 == 0 {
            cut(c, &mut file);
        }
        c.ktx_file(&file);
    }
}

// The sides of a plate with levels: mostly small, powers of two or not, at times long and thin, and now and then of telling size.
fn drawn_sides(c: &mut Comparison) -> (usize, usize) {
    const TELLING: [usize; 9] = [0, 1, 4, 1000, 32768, 65535, 65536, 65537, u32::MAX as usize];
    let (kind, x, y) = (c.draw() % 32, c.draw() as usize, c.draw() as usize);
    match kind {
        0..=11 => (1 + x % 20, 1 + y % 20),
        12..=21 => (1 << (x % 7), 1 << (y % 7)),
        22..=25 => (1 + x % 100, 1 + y % 100),
        26..=27 => (1 + x % 700, 1 + y % 4),
        28..=29 => (1 + x % 4, 1 + y % 700),
        _ => (TELLING[x % TELLING.len()], TELLING[y % TELLING.len()]),
    }
}

// How many levels a file says: mostly as many as the sides allow, else fewer, or too many, or any number.
fn drawn_count(c: &mut Comparison, most: u64) -> u32 {
    let drawn = c.draw();
    let count = match drawn % 16 {
        0..=9 => most,
        10..=12 => 1 + (drawn >> 8) % most,
        13 => most + 1 + (drawn >> 8) % 3,
        14 => 0,
        _ => [drawn >> 32, u32::MAX as u64, 0x100 + most, most << 8][(drawn >> 8) as usize % 4],
    };
    count as u32
}

// What is asked for of so many levels: mostly one of them, else the next ones, or a number that a shift or 32 bits would take for another.
fn asked_level(c: &mut Comparison, count: u32) -> u64 {
    let (drawn, count) = (c.draw(), count as u64);
    match drawn % 16 {
        0..=13 => (drawn >> 8) % count.clamp(1, 17),
        14 => count + (drawn >> 8) % 3,
        _ => [16, 17, 32, 64, 65, 1 << 32, (1 << 32) + 1, 1 << 63, u64::MAX][(drawn >> 8) as usize % 9],
    }
}

// The size word of a level: its need or, if it may be wrong, in half the levels another number.
fn drawn_size_word(c: &mut Comparison, s: Shape, may_be_wrong: bool) -> u32 {
    let (need, drawn) = (s.need(STORED), c.draw());
    let others = [s.need(RUSTS), need ^ 1, need + 8, need / 4, levels::halved(s).need(STORED), need << 8, 0, usize::MAX, (drawn >> 32) as usize];
    let wrong = may_be_wrong && drawn & 1 == 1;
    (if wrong { others[(drawn >> 1) as usize % others.len()] } else { need }) as u32
}

// The levels of a plate, as many as are said and as a file of this size holds. Of those that it does not hold, some bytes of the first.
fn level_bytes(c: &mut Comparison, s: Shape, count: u32, is_ktx: bool) -> Vec<u8> {
    const ROOM: usize = 600_000;
    let (mut s, mut all, may_be_wrong) = (s, Vec::new(), c.draw() % 3 == 0);
    for _ in 0..count.clamp(1, 17) {
        if is_ktx {
            all.extend(drawn_size_word(c, s, may_be_wrong).to_le_bytes());
        }
        let (kind, held) = (c.draw() as usize, all.len() + s.need(STORED) <= ROOM);
        all.extend(words(c, kind, if held { s.need(STORED) / 8 } else { kind % 64 }));
        if !held {
            break;
        }
        s = levels::halved(s);
    }
    all
}

// A file with levels: its bytes, and how many levels it says. Metadata or key/value bytes, accepted flags, and fields that have no effect, are drawn.
fn file_with_levels(c: &mut Comparison) -> (Vec<u8>, u32) {
    let ((width, height), drawn) = (drawn_sides(c), c.draw());
    let s = Shape { width, height, is2bpp: drawn & 1 == 1 };
    let (is_ktx, alpha, flags) = (drawn >> 1 & 1 == 1, (drawn >> 2 & 1) as u32, (drawn >> 2 & 2) as u32);
    let (between, unread) = (Wrap::key_values(&mut c.state), [(); 2].map(|_| Wrap::unread(&mut c.state)));
    let (count, skipped, depth) = (drawn_count(c, levels::most(s)), between.len() as u32, s.is2bpp as u32);
    let mut file = Vec::new();
    let fields: [u32; 13] = if is_ktx {
        file.extend(IDENTIFIER);
        [0x0403_0201, 0, unread[0], 0, 0x8c00 + depth + 2 * alpha, unread[1], width as u32, height as u32, 0, 0, 1, count, skipped]
    } else {
        [0x0352_5650, flags, 2 - 2 * depth + alpha, 0, unread[0], unread[1], height as u32, width as u32, 1, 1, 1, count, skipped]
    };
    file.extend(fields.iter().flat_map(|field| field.to_le_bytes()));
    file.extend(between);
    file.extend(level_bytes(c, s, count, is_ktx));
    (file, count)
}

// Cuts a file at an edge of a level: of its size word, of its bytes, or one byte beside.
fn cut_at_level(c: &mut Comparison, file: &mut Vec<u8>, level: u64) {
    let read = levels::Reading { file, level };
    if read.described() == 0 {
        let ((s, start), drawn) = (read.place(), c.draw() as usize);
        let edges = [start - 5, start - 4, start - 1, start, start + 1, start + s.need(STORED) - 1, start + s.need(STORED)];
        file.truncate(edges[drawn % edges.len()]);
    }
}

// Files with levels: fields set in one of eight, up to four bytes changed in another eighth, one in eight cut short anywhere, and one in eight at
// an edge of the asked level. One in eight levels gets a word too few, and one in eight some more.
fn files_with_levels(c: &mut Comparison, _: usize) {
    for _ in 0..500_000 {
        let (mut file, count) = file_with_levels(c);
        let (drawn, level) = (c.draw(), asked_level(c, count));
        let settings = if file.starts_with(&IDENTIFIER) { KTX } else { PVR };
        match drawn & 7 {
            0 => set_fields(c, &mut file, settings),
            1 => damage(c, &mut file, if drawn >> 3 & 1 == 0 { 68 } else { usize::MAX }),
            _ => (),
        }
        match drawn >> 4 & 7 {
            0 => cut(c, &mut file),
            1 => cut_at_level(c, &mut file, level),
            _ => (),
        }
        let more = [-1, 7, 0, 0, 0, 0, 0, 0][(drawn >> 8) as usize & 7];
        let another = asked_level(c, count);
        c.level(&file, level, more);
        c.level(&file, another, more);
    }
}

fn largest_picture(c: &mut Comparison, side: usize) {
    for is2bpp in [false, true] {
        whole(c, Shape { width: side, height: side, is2bpp }, 0, 0);
    }
}
