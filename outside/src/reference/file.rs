//! The claim file, version 1: reading it a field at a time, writing it, and the part that holds a record.

use super::program::{used_fields, Statement};
use super::shapes::{Key, Shape, Truth};
use crate::Verdict;
use std::ops::Range;

/// What a file claims: V, a statement for each point, and the listed shapes with their points in file order.
#[derive(Clone, Debug, PartialEq, Eq)]
pub struct Claim {
    pub variables: u8,
    pub program: Vec<Statement>,
    pub listed: Vec<(u8, Shape)>,
}

/// A claim and, for each of its shapes, the part of the file that holds its record.
#[derive(Clone, Debug, PartialEq, Eq)]
pub struct Reading {
    pub claim: Claim,
    pub parts: Vec<Range<usize>>,
}

struct Reader<'a> {
    file: &'a [u8],
    at: usize,
}

fn wrong(number: u32, offset: usize) -> Verdict {
    Verdict {
        number,
        a: offset,
        b: 0,
    }
}

impl<'a> Reader<'a> {
    /// The next field and its offset; a field that isn't wholly there is refused with 1.
    fn field(&mut self, length: usize) -> Result<(usize, &'a [u8]), Verdict> {
        let start = self.at;
        let Some(bytes) = self.file.get(start..start + length) else {
            return Err(wrong(1, self.file.len()));
        };
        self.at += length;
        Ok((start, bytes))
    }

    /// A field of one byte that is refused with the number given unless it is right.
    fn byte(&mut self, number: u32, right: impl Fn(u8) -> bool) -> Result<u8, Verdict> {
        let (offset, bytes) = self.field(1)?;
        if right(bytes[0]) {
            Ok(bytes[0])
        } else {
            Err(wrong(number, offset))
        }
    }

    /// A field of 16 bits, low byte first.
    fn pair(&mut self, number: u32, right: impl Fn(usize) -> bool) -> Result<usize, Verdict> {
        let (offset, bytes) = self.field(2)?;
        let value = bytes[0] as usize + 256 * bytes[1] as usize;
        if right(value) {
            Ok(value)
        } else {
            Err(wrong(number, offset))
        }
    }

    fn statement(&mut self, variables: u8, points: u8) -> Result<Statement, Verdict> {
        let op = self.byte(5, |op| op <= 9)?;
        let mut record = [op, 0, 0, 0, 0];
        for (field, used) in used_fields(op).into_iter().enumerate() {
            let limit = if field < 2 { variables } else { points };
            record[field + 1] =
                self.byte(5, |value| if used { value < limit } else { value == 0 })?;
        }
        Ok(Statement::from_record(record))
    }

    fn shape(&mut self, variables: u8) -> Result<Shape, Verdict> {
        let count = self.byte(4, |k| k <= variables + 2)?;
        let mut shape = Shape::empty();
        for _ in 0..count {
            let mask = self.byte(6, |mask| {
                let key = Key(mask.into());
                let held = |variable| variable >= variables || shape.holder(variable).is_some();
                !key.variables().into_iter().any(held)
            })?;
            let last = shape.keys().last().copied();
            let key_of = |flags: u8| Key(256 * u16::from(flags % 2) + u16::from(mask));
            let flags = self.byte(6, |flags| {
                let summary_with_variable = flags >= 2 && mask != 0;
                flags <= 3 && !summary_with_variable && last < Some(key_of(flags))
            })?;
            shape.add(key_of(flags), flags >= 2);
        }
        for from in shape.keys() {
            for to in shape.keys() {
                let value = self.byte(6, |value| Truth::from_byte(value).is_some())?;
                let value = Truth::from_byte(value).expect("a value that was found right");
                shape.set_link(from, to, value);
            }
        }
        Ok(shape)
    }
}

/// Reads a file; the error is a refusal by 1 to 6.
pub fn read(file: &[u8]) -> Result<Reading, Verdict> {
    let mut reader = Reader { file, at: 0 };
    let (offset, mark) = reader.field(3)?;
    if mark != b"SHC" {
        return Err(wrong(2, offset));
    }
    reader.pair(3, |version| version == 1)?;
    let variables = reader.byte(4, |v| v <= 8)?;
    let points = reader.byte(4, |n| (1..=64).contains(&n))?;
    let mut program = Vec::new();
    for _ in 0..points {
        program.push(reader.statement(variables, points)?);
    }
    let count = reader.pair(4, |m| m <= 512)?;
    let mut listed = Vec::new();
    let mut parts = Vec::new();
    let mut before = 0;
    for _ in 0..count {
        let start = reader.at;
        let point = reader.byte(6, |point| point < points && point >= before)?;
        listed.push((point, reader.shape(variables)?));
        parts.push(start..reader.at);
        before = point;
    }
    if reader.at < file.len() {
        return Err(wrong(1, reader.at));
    }
    let claim = Claim {
        variables,
        program,
        listed,
    };
    Ok(Reading { claim, parts })
}

/// The second call: where the record of the shape with this number stands; empty if the file is refused by 1 to 6 or there
/// is no such shape.
pub fn record(file: &[u8], number: usize) -> Range<usize> {
    match read(file) {
        Ok(reading) => reading.parts.get(number).cloned().unwrap_or(0..0),
        Err(_) => 0..0,
    }
}

/// The record of a shape without its point: k, masks and flags, link values row by row.
pub fn shape_bytes(shape: &Shape) -> Vec<u8> {
    let keys = shape.keys();
    let mut bytes = vec![keys.len() as u8];
    for &key in &keys {
        let flags = u8::from(key.shared()) + 2 * u8::from(shape.is_summary(key));
        bytes.extend([key.mask(), flags]);
    }
    for &from in &keys {
        bytes.extend(keys.iter().map(|&to| shape.link(from, to).byte()));
    }
    bytes
}

/// Reads the record of a shape without its point; none if it isn't right or bytes are left.
pub fn shape_from_bytes(bytes: &[u8], variables: u8) -> Option<Shape> {
    let mut reader = Reader { file: bytes, at: 0 };
    let shape = reader.shape(variables).ok()?;
    (reader.at == bytes.len()).then_some(shape)
}

impl Claim {
    /// The shapes listed at a point.
    pub fn at(&self, point: u8) -> impl Iterator<Item = &Shape> {
        self.listed
            .iter()
            .filter(move |(at, _)| *at == point)
            .map(|(_, shape)| shape)
    }

    /// The file that makes this claim.
    pub fn bytes(&self) -> Vec<u8> {
        let mut bytes = b"SHC\x01\x00".to_vec();
        bytes.extend([self.variables, self.program.len() as u8]);
        for statement in &self.program {
            bytes.extend(statement.record());
        }
        bytes.extend((self.listed.len() as u16).to_le_bytes());
        for (point, shape) in &self.listed {
            bytes.push(*point);
            bytes.extend(shape_bytes(shape));
        }
        bytes
    }
}
