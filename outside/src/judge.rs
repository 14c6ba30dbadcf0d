//! Puts one input through every implementation and compares what comes back with the reference, byte by byte.

use crate::{implementations, reference, Implementation, Verdict};
use std::collections::BTreeMap;
use std::fmt;

/// Bytes before and after the answer that nothing may write to.
const GUARD: usize = 32;

/// The first thing that two implementations said differently, with the input.
pub struct Disagreement {
    pub kind: &'static str,
    pub what: String,
    pub file: Vec<u8>,
}

impl fmt::Display for Disagreement {
    fn fmt(&self, f: &mut fmt::Formatter) -> fmt::Result {
        writeln!(f, "DISAGREEMENT in {}: {}", self.kind, self.what)?;
        writeln!(f, "the file, {} bytes, hexadecimal:", self.file.len())?;
        for line in self.file.chunks(32) {
            let bytes: Vec<String> = line.iter().map(|byte| format!("{byte:02x}")).collect();
            writeln!(f, "{}", bytes.join(" "))?;
        }
        Ok(())
    }
}

/// Compares and counts.
pub struct Judge {
    reference: Implementation,
    others: Vec<(&'static str, Implementation)>,
    /// How many inputs of each kind were compared.
    pub kinds: BTreeMap<&'static str, u64>,
    /// How often each number was the verdict.
    pub numbers: [u64; 10],
}

/// What a byte of the buffer holds before a call.
fn pattern(place: usize) -> u8 {
    (place * 37 % 251) as u8 ^ 0xA5
}

/// A call with guards around an answer of this length: the verdict and the whole buffer afterwards.
fn guarded(implementation: Implementation, file: &[u8], length: usize) -> (Verdict, Vec<u8>) {
    let mut buffer: Vec<u8> = (0..GUARD + length + GUARD).map(pattern).collect();
    let verdict = (implementation.check)(file, &mut buffer[GUARD..GUARD + length]);
    (verdict, buffer)
}

/// Whether only the first `written` bytes of the answer differ from the pattern.
fn untouched(buffer: &[u8], written: usize) -> bool {
    let outside = |place: &usize| *place < GUARD || *place >= GUARD + written;
    (0..buffer.len())
        .filter(outside)
        .all(|place| buffer[place] == pattern(place))
}

impl Default for Judge {
    fn default() -> Judge {
        Judge::new()
    }
}

impl Judge {
    pub fn new() -> Judge {
        let mut all = implementations();
        let (_, reference) = all.remove(0);
        Judge {
            reference,
            others: all,
            kinds: BTreeMap::new(),
            numbers: [0; 10],
        }
    }

    /// The names of what is compared with the reference.
    pub fn names(&self) -> Vec<&'static str> {
        self.others.iter().map(|(name, _)| *name).collect()
    }

    pub fn count(&mut self, kind: &'static str, by: u64) {
        *self.kinds.entry(kind).or_default() += by;
    }

    /// Compares the verdict and the buffer for an answer of this length.
    pub fn answer(
        &mut self,
        kind: &'static str,
        file: &[u8],
        length: usize,
    ) -> Result<(Verdict, Vec<u8>), Disagreement> {
        let disagree = |what: String| {
            let file = file.to_vec();
            Err(Disagreement { kind, what, file })
        };
        let (verdict, buffer) = guarded(self.reference, file, length);
        let written = if verdict.accepted() {
            file[6] as usize
        } else {
            0
        };
        if !untouched(&buffer, written) {
            return disagree(format!("reference wrote outside, length {length}"));
        }
        for &(name, implementation) in &self.others {
            let copy = file.to_vec();
            let (other, other_buffer) = guarded(implementation, &copy, length);
            if copy != file {
                return disagree(format!("{name} wrote to the file"));
            }
            if other != verdict {
                return disagree(format!(
                    "answer of length {length}: reference {verdict}, {name} {other}"
                ));
            }
            if !untouched(&other_buffer, written) {
                return disagree(format!("{name} wrote outside, length {length}"));
            }
            if other_buffer != buffer {
                let found = &other_buffer[GUARD..GUARD + length];
                let expected = &buffer[GUARD..GUARD + length];
                return disagree(format!("bytes {expected:?}, {name} {found:?}"));
            }
        }
        self.count(kind, 1);
        self.numbers[verdict.number as usize] += 1;
        Ok((verdict, buffer[GUARD..GUARD + length].to_vec()))
    }

    /// Compares with an answer buffer that is always long enough.
    pub fn file(&mut self, kind: &'static str, file: &[u8]) -> Result<Verdict, Disagreement> {
        self.answer(kind, file, 66).map(|(verdict, _)| verdict)
    }

    /// Compares with answer buffers of every length from 0 to N + 2.
    pub fn every_length(&mut self, file: &[u8]) -> Result<(), Disagreement> {
        let points = file.get(6).copied().unwrap_or(0).min(64) as usize;
        for length in 0..=points + 2 {
            self.answer("answer buffers of every length", file, length)?;
        }
        Ok(())
    }

    /// Compares the second call for every number below M and for some beyond.
    pub fn records(&mut self, file: &[u8]) -> Result<(), Disagreement> {
        let parts = reference::read(file).map_or(Vec::new(), |reading| reading.parts);
        let beyond = [0, 1, 2, 255, 256, 511, 512, 513, 65_535, 65_536, 1 << 32];
        let numbers = (0..parts.len())
            .chain(beyond.map(|step| parts.len() + step))
            .chain([usize::MAX - 1, usize::MAX]);
        for number in numbers {
            let expected = parts.get(number).cloned().unwrap_or(0..0);
            for &(name, implementation) in &self.others {
                let found = (implementation.record)(file, number);
                if found != expected {
                    return Err(Disagreement {
                        kind: "records handed back",
                        what: format!("record {number}: reference {expected:?}, {name} {found:?}"),
                        file: file.to_vec(),
                    });
                }
            }
            self.count("records handed back", 1);
        }
        Ok(())
    }
}

#[cfg(test)]
mod tests {
    use super::*;
    use crate::large;

    #[test]
    fn large_claims_agree_and_are_counted() {
        let mut judge = Judge::new();
        let file = large::many_points(3).bytes();
        let verdict = judge.file("large", &file).map_err(|d| d.to_string());
        assert_eq!(verdict.map(|v| v.to_string()), Ok("accept 24 0".into()));
        assert!(judge.every_length(&file).is_ok() && judge.records(&file).is_ok());
        assert_eq!(judge.kinds["answer buffers of every length"], 6);
        assert_eq!((judge.numbers[0], judge.numbers[9]), (4, 3));
    }

    #[test]
    fn a_wrong_implementation_is_found() {
        let lies = Implementation {
            check: |file, answer| {
                let verdict = reference::check(file, answer);
                answer.last_mut().into_iter().for_each(|byte| *byte = 5);
                verdict
            },
            record: |_, _| 0..0,
        };
        let mut judge = Judge::new();
        judge.others = vec![("lies", lies)];
        let file = large::many_points(3).bytes();
        assert!(judge.file("large", &file).is_err());
        assert!(judge.records(&file).is_err());
    }
}
