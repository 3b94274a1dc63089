// The levels of PVR and KTX files: a plain reading of document 02, and the calls on them held to it and to the original's pictures.

use std::collections::BTreeMap;

use crate::both::{plate_level, plate_level_field};
use crate::shape::{Shape, STORED};
use crate::{bytes, field, first, ktx, pvr, Comparison, LEVELS};

// The refusals of a file's levels behind its header, then those of the asked level's size word, each in document 02's order.
const COUNT: [u64; 4] = [1, 2, 20, 19];
const SIZE_WORD: [u64; 2] = [37, 36];

// How often each number was the answer for a level, in PVR and in KTX files, without an image and with one; of the pictures, how many store more
// blocks than cover them, and how many are not the first.
#[derive(Default)]
pub struct Counts {
    described: [BTreeMap<u64, u64>; 2],
    decoded: [BTreeMap<u64, u64>; 2],
    larger: u64,
    later: u64,
}

impl Counts {
    pub fn print(&self) {
        println!();
        for (kind, (described, decoded)) in ["PVR", "KTX"].iter().zip(self.described.iter().zip(&self.decoded)) {
            println!("levels of {kind} files, refusal and how often: described {described:?}");
            println!("levels of {kind} files, refusal and how often: decoded {decoded:?}");
        }
        println!("of the levels that are decoded, {} have a larger grid, {} are not the first", self.larger, self.later);
    }
}

// A level of a file, read plainly.
pub struct Reading<'a> {
    pub file: &'a [u8],
    pub level: u64,
}

impl<'a> Reading<'a> {
    fn is_ktx(&self) -> bool {
        self.file.starts_with(b"\xabKTX")
    }

    // The sides and the depth of the first level.
    fn plate(&self) -> Shape {
        if self.is_ktx() { ktx::Reading(self.file).shape() } else { pvr::Reading(self.file).shape() }
    }

    // How many levels there are said to be; a KTX file's 0 means one.
    fn count(&self) -> u64 {
        let count = field(self.file, if self.is_ktx() { 56 } else { 44 }) as u64;
        if self.is_ktx() { count.max(1) } else { count }
    }

    // Where the levels begin: behind the key/value bytes or the metadata.
    fn begin(&self) -> usize {
        if self.is_ktx() { 64 + field(self.file, 60) } else { 52 + field(self.file, 48) }
    }

    // The sides and the depth of this level, and where its bytes start.
    pub fn place(&self) -> (Shape, usize) {
        let size_word = if self.is_ktx() { 4 } else { 0 };
        let (mut s, mut at) = (self.plate(), self.begin() + size_word);
        for _ in 0..self.level {
            let need = s.need(STORED);
            at += if self.is_ktx() { need.next_multiple_of(4) } else { need } + size_word;
            s = halved(s);
        }
        (s, at)
    }

    // The refusals of the file's header: of a KTX file 37 is for the key/value bytes alone.
    fn header(&self) -> u64 {
        if !self.is_ktx() {
            return pvr::Reading(self.file).header();
        }
        match ktx::Reading(self.file).header() {
            37 if self.file.len() >= self.begin() => 0,
            number => number,
        }
    }

    fn faulty(&self, number: u64) -> bool {
        match number {
            20 => self.count() > most(self.plate()),
            19 => self.level >= self.count(),
            _ => self.plate().faulty(number, STORED, 0, 0),
        }
    }

    fn faulty_word(&self, number: u64) -> bool {
        let (s, start) = self.place();
        match number {
            37 => self.file.len() < start,
            _ => field(self.file, start - 4) != s.need(STORED),
        }
    }

    // The number of describing the level.
    pub fn described(&self) -> u64 {
        let by_file = match self.header() {
            0 => first(&COUNT, |number| self.faulty(number)),
            number => number,
        };
        match by_file {
            0 if self.is_ktx() => first(&SIZE_WORD, |number| self.faulty_word(number)),
            number => number,
        }
    }

    // The level's own bytes, as far as they are there.
    fn data(&self) -> &'a [u8] {
        let (s, start) = self.place();
        let end = self.file.len().min(start + s.need(STORED));
        self.file.get(start..end).unwrap_or(&[])
    }

    // What plate_level_field must answer for fields 0 to 5, and for two that there are not.
    fn fields(&self) -> [u64; 8] {
        match self.described() {
            0 => {
                let (s, start) = self.place();
                [0, s.width, s.height, s.bits(), start, s.need(STORED), 0, 0].map(|field| field as u64)
            }
            number => [number, 0, 0, 0, 0, 0, 0, 0],
        }
    }
}

// Both sides halved: rounded down, and never below 1.
pub fn halved(s: Shape) -> Shape {
    Shape { width: (s.width / 2).max(1), height: (s.height / 2).max(1), ..s }
}

// How many levels the sides allow: the first, and one for each halving until both are 1.
pub fn most(s: Shape) -> u64 {
    let (mut s, mut most) = (s, 1);
    while s.width > 1 || s.height > 1 {
        (s, most) = (halved(s), most + 1);
    }
    most
}

impl Comparison {
    // A level of a file: its fields, and its picture into so many words more than it has, or as many less, in both orders. The picture must be that
    // of its own bytes, cut out.
    pub fn level(&mut self, file: &[u8], level: u64, more: isize) {
        let (at, read) = (self.lay(file), Reading { file, level });
        let fields = [0, 1, 2, 3, 4, 5, 6, u32::MAX].map(|n| unsafe { plate_level_field(at, file.len(), level, n) });
        if fields != read.fields() {
            self.differs(file.len(), format!("level {level} has the fields {fields:?}, expected {:?} for {}", read.fields(), bytes(file)));
        }
        let described = read.described();
        let (mut room, mut expected, mut texels) = (16, described, 0);
        if described == 0 {
            let (s, data) = (read.place().0, read.data());
            // a level without its bytes may be too large for the lent memory
            if data.len() >= s.need(STORED) {
                room = s.texels().saturating_add_signed(more);
            }
            expected = self.expect(data, s, STORED, room);
            texels = s.texels();
            self.levels.larger += (expected == 0 && s.has_more(STORED)) as u64;
            self.levels.later += (expected == 0 && level > 0) as u64;
        }
        for order in self.both_orders() {
            let call = |image: &mut [u32]| unsafe { plate_level(at, file.len(), level, order, image.as_mut_ptr(), image.len()) };
            if let Some(answer) = self.wrong_answer(order, expected, texels, room, call) {
                let asked = format!("order {order}, {room} words, {}", bytes(file));
                self.differs(file.len() + room, format!("level {level} answers {answer}, expected {expected}: {asked}"));
            }
            self.tallies[LEVELS].count(expected, texels);
        }
        let kind = read.is_ktx() as usize;
        *self.levels.described[kind].entry(described).or_default() += 1;
        *self.levels.decoded[kind].entry(expected).or_default() += 1;
    }
}
