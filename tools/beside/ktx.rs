// KTX files: a plain reading of document 02, and the calls on them held to it and to the block call's pictures.

use std::collections::BTreeMap;

use crate::both::{draw, plate_convert, plate_ktx, plate_ktx_picture};
use crate::shape::{Shape, RUSTS, STORED};
use crate::{bytes, field, first, line, Comparison, Tally, BY_HEADER, LARGE, OUT, WORDS};

pub const IDENTIFIER: [u8; 12] = [0xab, 0x4b, 0x54, 0x58, 0x20, 0x31, 0x31, 0xbb, 0x0d, 0x0a, 0x1a, 0x0a];

// The refusals of each call, in document 02's order.
const HEADER: [u64; 6] = [31, 32, 33, 34, 35, 37];
const PICTURE: [u64; 12] = [31, 32, 33, 34, 35, 37, 1, 2, 36, 3, 4, 5];
const PROGRAM: [u64; 13] = [31, 32, 33, 34, 35, 21, 37, 1, 22, 23, 36, 3, 5];

// How much was compared, and how often each number was the answer of the picture call and of the program's function; of the pictures, how many
// store more blocks than cover them.
#[derive(Default)]
pub struct Counts {
    pub tally: Tally,
    pictures: BTreeMap<u64, u64>,
    larger: u64,
    outputs: BTreeMap<u64, u64>,
}

impl Counts {
    pub fn print(&self) {
        println!();
        println!("KTX pictures, refusal and how often: {:?}; of those that are not refused, {} have a larger grid", self.pictures, self.larger);
        println!("the program's output for these files: {:?}", self.outputs);
    }
}

// A KTX file, read plainly.
pub struct Reading<'a>(pub &'a [u8]);

impl<'a> Reading<'a> {
    fn field(&self, at: usize) -> usize {
        field(self.0, at)
    }

    pub fn payload(&self) -> usize {
        64 + self.field(60) + 4
    }

    fn size_word(&self) -> usize {
        self.field(self.payload() - 4)
    }

    pub fn data(&self) -> &'a [u8] {
        self.0.get(self.payload()..).unwrap_or(&[])
    }

    pub fn shape(&self) -> Shape {
        Shape { width: self.field(36), height: self.field(40), is2bpp: matches!(self.field(28), 0x8c01 | 0x8c03) }
    }

    fn faulty(&self, number: u64, room: usize) -> bool {
        match number {
            31 => self.0.len() < 64,
            32 => self.0[..12] != IDENTIFIER,
            33 => self.0[12..16] != [1, 2, 3, 4],
            34 => self.field(16) != 0 || self.field(24) != 0 || !(0x8c00..=0x8c03).contains(&self.field(28)),
            35 => self.field(44) != 0 || self.field(48) != 0 || self.field(52) != 1,
            21 => self.field(60) > 4096,
            37 => self.0.len() < self.payload(),
            36 => self.size_word() != self.shape().need(STORED),
            _ => self.shape().faulty(number, STORED, self.data().len(), room),
        }
    }

    pub fn header(&self) -> u64 {
        first(&HEADER, |number| self.faulty(number, 0))
    }

    fn picture(&self, room: usize) -> u64 {
        first(&PICTURE, |number| self.faulty(number, room))
    }

    // The program's number. What does not begin as KTX is taken as PVR, which it is not either.
    fn program(&self) -> u64 {
        if self.0.starts_with(&IDENTIFIER[..4]) {
            return first(&PROGRAM, |number| self.faulty(number, WORDS));
        }
        assert!(!self.0.starts_with(b"PVR\x03"), "a PVR file");
        if self.0.len() < 52 { 11 } else { 12 }
    }

    // What plate_ktx must answer for fields 0 to 5, and for two that there are not.
    fn fields(&self) -> [u64; 8] {
        let s = self.shape();
        match self.header() {
            0 => [0, s.width, s.height, s.bits(), self.payload(), self.size_word(), 0, 0].map(|field| field as u64),
            number => [number, 0, 0, 0, 0, 0, 0, 0],
        }
    }
}

// What a file has around its data, with drawn fields where these have no effect, and for a PVR file flags that are accepted.
pub struct Wrap {
    flags: u32,
    format: u32,
    key_values: Vec<u8>,
    size_word: u32,
    unread: [u32; 3],
    behind: Vec<u8>,
}

impl Wrap {
    // Key/value bytes: mostly none or few, at times about the program's limit.
    pub fn key_values(state: &mut u64) -> Vec<u8> {
        let drawn = draw(state) as usize;
        let count = match drawn % 256 {
            0 => 4094 + (drawn >> 8) % 6,
            1..=99 => (drawn >> 8) % 41,
            _ => 0,
        };
        (0..count).map(|_| draw(state) as u8).collect()
    }

    // A field that has no effect: 0, 1, or any.
    pub fn unread(state: &mut u64) -> u32 {
        let drawn = draw(state);
        let any = (drawn >> 32) as u32;
        if drawn & 1 == 0 { any >> 31 } else { any }
    }

    // The need as the size word; in one of eight files of a small picture, another number or, if it so falls, the same.
    fn size_word(state: &mut u64, s: Shape, len: usize) -> u32 {
        let (need, rusts, drawn) = (s.need(STORED) as u32, s.need(RUSTS) as u32, draw(state));
        let others = [rusts, need ^ 1, need.wrapping_add(8), need / 2, need << 8, 0, u32::MAX, len as u32, drawn as u32];
        let large = s.width.saturating_mul(s.height) > LARGE;
        if large || drawn >> 40 & 7 != 0 { need } else { others[(drawn >> 43) as usize % others.len()] }
    }

    // For data of so many bytes. Bytes stand behind it only if it is enough without them.
    pub fn drawn(state: &mut u64, s: Shape, len: usize) -> Wrap {
        let drawn = draw(state);
        let behind = if len < s.need(STORED) || drawn & 1 == 0 { 0 } else { drawn >> 1 & 15 };
        Wrap {
            flags: (drawn >> 40 & 2) as u32,
            format: 0x8c00 + s.is2bpp as u32 + (drawn >> 32 & 2) as u32,
            key_values: Wrap::key_values(state),
            size_word: Wrap::size_word(state, s, len),
            unread: [(); 3].map(|_| Wrap::unread(state)),
            behind: (0..behind).map(|_| draw(state) as u8).collect(),
        }
    }

    pub fn ktx(&self, s: Shape, data: &[u8]) -> Vec<u8> {
        let [type_size, base_format, levels] = self.unread;
        let (width, height, key_values) = (s.width as u32, s.height as u32, self.key_values.len() as u32);
        let mut file = Vec::with_capacity(68 + self.key_values.len() + data.len() + self.behind.len());
        file.extend(IDENTIFIER);
        for field in [0x0403_0201, 0, type_size, 0, self.format, base_format, width, height, 0, 0, 1, levels, key_values] {
            file.extend(field.to_le_bytes());
        }
        file.extend(&self.key_values);
        file.extend(self.size_word.to_le_bytes());
        file.extend(data);
        file.extend(&self.behind);
        file
    }

    // The PVR file of the same plate, with the key/value bytes as its metadata.
    fn pvr(&self, s: Shape, data: &[u8]) -> Vec<u8> {
        let format = 2 * !s.is2bpp as u32 + (self.format >> 1 & 1);
        let (width, height, key_values) = (s.width as u32, s.height as u32, self.key_values.len() as u32);
        let mut file = Vec::with_capacity(52 + self.key_values.len() + data.len());
        for field in [0x0352_5650, self.flags, format, 0, 0, 0, height, width, 1, 1, 1, 1, key_values] {
            file.extend(field.to_le_bytes());
        }
        file.extend(&self.key_values);
        file.extend(data);
        file
    }
}

impl Comparison {
    // The picture in `theirs` from a KTX file of its data; and what the program's function writes for that, beside the PVR file of the plate.
    pub fn wrapped(&mut self, data: &[u8], s: Shape, room: usize) {
        if s.width > u32::MAX as usize || s.height > u32::MAX as usize {
            return;
        }
        let wrap = Wrap::drawn(&mut self.around, s, data.len());
        let (file, pvr) = (wrap.ktx(s, data), wrap.pvr(s, data));
        let (refused, from_pvr) = (Reading(&file).program(), self.output(&pvr));
        let expected = if refused == 0 { from_pvr.clone() } else { line(refused) };
        if refused != 36 && from_pvr != expected {
            self.differs(pvr.len(), format!("convert does not refuse with {refused}: {}", bytes(&pvr)));
        }
        self.ktx_calls(&file, room);
        self.ktx_converted(&file, &expected);
    }

    // What the program's function writes for a file.
    fn output(&mut self, file: &[u8]) -> Vec<u8> {
        let at = self.lay(file);
        let (image, out) = (self.image.words(WORDS), self.out.bytes(OUT));
        let n = unsafe { plate_convert(at, file.len(), image.as_mut_ptr(), WORDS, out.as_mut_ptr(), OUT) };
        out[..n as usize].to_vec()
    }

    fn ktx_converted(&mut self, file: &[u8], expected: &[u8]) {
        *self.ktx.outputs.entry(Reading(file).program()).or_default() += 1;
        let at = self.lay(file);
        self.converted(at, file, expected);
    }

    // The fields of a KTX file, and its picture into `room` lent words in both orders: that in `theirs`, or as it was if it is refused.
    fn ktx_calls(&mut self, file: &[u8], room: usize) {
        let (at, read) = (self.lay(file), Reading(file));
        let fields = [0, 1, 2, 3, 4, 5, 6, u32::MAX].map(|n| unsafe { plate_ktx(at, file.len(), n) });
        if fields != read.fields() {
            self.differs(file.len(), format!("KTX header answers {fields:?}, expected {:?} for {}", read.fields(), bytes(file)));
        }
        let (expected, s) = (read.picture(room), read.shape());
        for order in self.both_orders() {
            let call = |image: &mut [u32]| unsafe { plate_ktx_picture(at, file.len(), order, image.as_mut_ptr(), image.len()) };
            if let Some(answer) = self.wrong_answer(order, expected, s.texels(), room, call) {
                let asked = format!("order {order}, {room} words, {}", bytes(file));
                self.differs(file.len() + room, format!("KTX picture answers {answer}, expected {expected}: {asked}"));
            }
            self.ktx.tally.count(expected, s.texels());
        }
        *self.ktx.pictures.entry(expected).or_default() += 1;
        self.ktx.larger += (expected == 0 && s.has_more(STORED)) as u64;
    }

    // A damaged KTX file: its data by the calls that take data, if its header is accepted; then the calls on the file, and the program's function.
    pub fn ktx_file(&mut self, file: &[u8]) {
        let read = Reading(file);
        let s = read.shape();
        let place = s.width.saturating_mul(s.height);
        let room = match self.draw() % 8 {
            _ if place > LARGE => 16,
            0 => place.saturating_sub(1),
            1 => place + 7,
            _ => place,
        };
        if read.header() == 0 {
            self.decoded(read.data(), s, room);
        } else {
            self.tallies[BY_HEADER].count(read.header(), 0);
        }
        self.ktx_calls(file, room);
        let expected = self.expected_output(read.program(), s, read.data());
        self.ktx_converted(file, &expected);
    }
}
