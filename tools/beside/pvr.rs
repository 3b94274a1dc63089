// PVR files: a plain reading of documents 01 and 02, and the calls on them held to it and to the original's pictures.

use std::collections::BTreeMap;

use crate::both::plate_header;
use crate::shape::{Shape, STORED};
use crate::{bytes, field, first, Comparison, BY_HEADER, LARGE, WORDS};

// The refusals of the header, and of the program, in their order.
const HEADER: [u64; 8] = [11, 12, 18, 13, 14, 15, 16, 17];
const PROGRAM: [u64; 14] = [11, 12, 18, 13, 14, 15, 16, 17, 21, 1, 22, 23, 3, 5];

// How often each number was the answer of the header's reader, and of the program's function.
#[derive(Default)]
pub struct Counts {
    headers: BTreeMap<u64, u64>,
    outputs: BTreeMap<u64, u64>,
}

impl Counts {
    pub fn print(&self) {
        println!();
        println!("PVR headers, refusal and how often: {:?}", self.headers);
        println!("the program's output for these files: {:?}", self.outputs);
    }
}

// A PVR file, read plainly.
pub struct Reading<'a>(pub &'a [u8]);

impl<'a> Reading<'a> {
    fn field(&self, at: usize) -> usize {
        field(self.0, at)
    }

    fn payload(&self) -> usize {
        52 + self.field(48)
    }

    fn data(&self) -> &'a [u8] {
        self.0.get(self.payload()..).unwrap_or(&[])
    }

    pub fn shape(&self) -> Shape {
        Shape { width: self.field(28), height: self.field(24), is2bpp: self.field(8) < 2 }
    }

    fn faulty(&self, number: u64) -> bool {
        match number {
            11 => self.0.len() < 52,
            12 => !self.0.starts_with(b"PVR\x03"),
            18 => !matches!(self.field(4), 0 | 2),
            13 => self.field(8) > 3 || self.field(12) != 0,
            14 => self.field(32) != 1,
            15 => self.field(36) != 1,
            16 => self.field(40) != 1,
            17 => self.field(44) == 0,
            21 => self.field(48) > 4096,
            _ => self.shape().faulty(number, STORED, self.data().len(), WORDS),
        }
    }

    pub fn header(&self) -> u64 {
        first(&HEADER, |number| self.faulty(number))
    }

    fn program(&self) -> u64 {
        first(&PROGRAM, |number| self.faulty(number))
    }

    // What plate_header must answer for fields 0 to 4, and for two that there are not.
    fn fields(&self) -> [u64; 7] {
        let s = self.shape();
        match self.header() {
            0 => [0, s.width, s.height, s.bits(), self.payload(), 0, 0].map(|field| field as u64),
            number => [number, 0, 0, 0, 0, 0, 0],
        }
    }
}

impl Comparison {
    // A damaged PVR file by its header and by the program's function, then its data by the other calls, if its header is accepted.
    pub fn pvr_file(&mut self, file: &[u8]) {
        let (at, read) = (self.lay(file), Reading(file));
        let fields = [0, 1, 2, 3, 4, 5, u32::MAX].map(|n| unsafe { plate_header(at, file.len(), n) });
        if fields != read.fields() {
            self.differs(file.len(), format!("PVR header answers {fields:?}, expected {:?} for {}", read.fields(), bytes(file)));
        }
        let (number, s) = (read.header(), read.shape());
        *self.pvr.headers.entry(number).or_default() += 1;
        *self.pvr.outputs.entry(read.program()).or_default() += 1;
        let expected = self.expected_output(read.program(), s, read.data());
        self.converted(at, file, &expected);
        if number != 0 {
            self.tallies[BY_HEADER].count(number, 0);
        } else {
            let place = s.width.saturating_mul(s.height);
            self.picture(read.data(), s, if place > LARGE { 16 } else { place });
        }
    }
}
