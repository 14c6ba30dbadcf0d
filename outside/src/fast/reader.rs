//! The places of a file's records, found while the file is tested.

use crate::Verdict;
use std::ops::Range;

/// The length of a point's record.
pub const RECORD: usize = 5;
const PROGRAM: usize = 7;

/// Where things stand in a file that has been read.
pub struct Layout {
    variables: usize,
    pub points: usize,
    pub shapes: usize,
    /// The start of each record, and behind the last its end.
    starts: [u16; 513],
    /// The number of the first shape at each point, and behind the last M.
    first: [u16; 65],
}

fn refuse(number: u32, a: usize) -> Result<(), Verdict> {
    Err(Verdict { number, a, b: 0 })
}

impl Layout {
    pub fn new() -> Layout {
        Layout {
            variables: 0,
            points: 0,
            shapes: 0,
            starts: [0; 513],
            first: [0; 65],
        }
    }

    /// The numbers of the shapes at a point.
    pub fn at(&self, point: usize) -> Range<usize> {
        self.first[point] as usize..self.first[point + 1] as usize
    }

    /// The part of the file that holds a shape's record.
    pub fn record(&self, number: usize) -> Range<usize> {
        self.starts[number] as usize..self.starts[number + 1] as usize
    }

    /// Where a shape's record starts.
    pub fn start(&self, number: usize) -> usize {
        self.starts[number] as usize
    }

    pub fn statement<'a>(&self, file: &'a [u8], point: usize) -> &'a [u8; RECORD] {
        let start = PROGRAM + RECORD * point;
        file[start..]
            .first_chunk()
            .expect("the program has been read")
    }

    pub fn read(&mut self, file: &[u8]) -> Result<(), Verdict> {
        let length = file.len();
        if length < 3 {
            return refuse(1, length);
        }
        if &file[..3] != b"SHC" {
            return refuse(2, 0);
        }
        if length < 5 {
            return refuse(1, length);
        }
        if file[3..5] != [1, 0] {
            return refuse(3, 3);
        }
        if length < 6 {
            return refuse(1, length);
        }
        if file[5] > 8 {
            return refuse(4, 5);
        }
        if length < 7 {
            return refuse(1, length);
        }
        if file[6] == 0 || file[6] > 64 {
            return refuse(4, 6);
        }
        self.variables = file[5] as usize;
        self.points = file[6] as usize;
        let mut at = self.program(file)?;
        if length < at + 2 {
            return refuse(1, length);
        }
        let shapes = u16::from_le_bytes([file[at], file[at + 1]]) as usize;
        if shapes > 512 {
            return refuse(4, at);
        }
        self.shapes = shapes;
        at += 2;
        let mut before = 0;
        for number in 0..shapes {
            self.starts[number] = at as u16;
            let Some(&point) = file.get(at) else {
                return refuse(1, length);
            };
            let point = point as usize;
            if point >= self.points || point < before {
                return refuse(6, at);
            }
            if point > before {
                self.first[before + 1..=point].fill(number as u16);
                before = point;
            }
            at = self.shape(file, at + 1)?;
        }
        self.starts[shapes] = at as u16;
        self.first[before + 1..=self.points].fill(shapes as u16);
        if at < length {
            return refuse(1, at);
        }
        Ok(())
    }

    /// Tests the point records and gives the place behind them.
    fn program(&self, file: &[u8]) -> Result<usize, Verdict> {
        let end = PROGRAM + RECORD * self.points;
        let program = &file[PROGRAM..end.min(file.len())];
        let variable = self.variables;
        let point = self.points;
        for (index, record) in program.chunks(RECORD).enumerate() {
            // Each field's first wrong value; an unused field is wrong from 1 on.
            let limits = match record[0] {
                0 => [10, 1, 1, 1, 1],
                1 => [10, 1, 1, point, 1],
                2 | 4 | 6 => [10, variable, 1, point, 1],
                3 | 5 | 7 => [10, variable, variable, point, 1],
                8 => [10, variable, 1, point, point],
                9 => [10, variable, variable, point, point],
                _ => [0; RECORD],
            };
            for (field, (&value, limit)) in record.iter().zip(limits).enumerate() {
                if value as usize >= limit {
                    refuse(5, PROGRAM + RECORD * index + field)?;
                }
            }
        }
        if end > file.len() {
            refuse(1, file.len())?;
        }
        Ok(end)
    }

    /// Tests a shape's record from its k on and gives the place behind it.
    fn shape(&self, file: &[u8], at: usize) -> Result<usize, Verdict> {
        let Some(&count) = file.get(at) else {
            refuse(1, file.len())?;
            return Ok(at);
        };
        let count = count as usize;
        if count > self.variables + 2 {
            refuse(4, at)?;
        }
        let header = at + 1;
        let links = header + 2 * count;
        let end = links + count * count;
        let outside = !((1u16 << self.variables) - 1);
        let mut held = outside;
        let mut before = -1;
        for (index, pair) in file[header..links.min(file.len())].chunks(2).enumerate() {
            let place = header + 2 * index;
            let mask = u16::from(pair[0]);
            if mask & held != 0 {
                refuse(6, place)?;
            }
            held |= mask;
            let Some(&flags) = pair.get(1) else {
                break;
            };
            let key = i32::from(mask) + 256 * i32::from(flags & 1);
            if flags > 3 || (flags >= 2 && mask != 0) || key <= before {
                refuse(6, place + 1)?;
            }
            before = key;
        }
        if links > file.len() {
            refuse(1, file.len())?;
        }
        let values = &file[links..end.min(file.len())];
        if values.iter().fold(0, |most, &value| most.max(value)) > 2 {
            let wrong = values.iter().position(|&value| value > 2);
            refuse(6, links + wrong.expect("a value above 2"))?;
        }
        if end > file.len() {
            refuse(1, file.len())?;
        }
        Ok(end)
    }
}
