//! The statements of a program, one for each op of document 01.

/// What stands at a point. `next`, `yes` and `no` are points, `x` and `y` variables.
#[derive(Clone, Copy, Debug, PartialEq, Eq)]
pub enum Statement {
    Stop,
    GoOn { next: u8 },
    SetNull { x: u8, next: u8 },
    Copy { x: u8, y: u8, next: u8 },
    New { x: u8, next: u8 },
    Follow { x: u8, y: u8, next: u8 },
    ClearLink { x: u8, next: u8 },
    SetLink { x: u8, y: u8, next: u8 },
    IsNull { x: u8, yes: u8, no: u8 },
    Same { x: u8, y: u8, yes: u8, no: u8 },
}

use Statement::*;

/// Which of the fields x, y, s1, s2 an op uses.
pub fn used_fields(op: u8) -> [bool; 4] {
    match op {
        0 => [false, false, false, false],
        1 => [false, false, true, false],
        2 | 4 | 6 => [true, false, true, false],
        3 | 5 | 7 => [true, true, true, false],
        8 => [true, false, true, true],
        9 => [true, true, true, true],
        _ => unreachable!("op {op} isn't below 10"),
    }
}

impl Statement {
    /// The statement of a record op, x, y, s1, s2 that has been found right.
    pub fn from_record([op, x, y, s1, s2]: [u8; 5]) -> Statement {
        match op {
            0 => Stop,
            1 => GoOn { next: s1 },
            2 => SetNull { x, next: s1 },
            3 => Copy { x, y, next: s1 },
            4 => New { x, next: s1 },
            5 => Follow { x, y, next: s1 },
            6 => ClearLink { x, next: s1 },
            7 => SetLink { x, y, next: s1 },
            8 => IsNull { x, yes: s1, no: s2 },
            9 => Same {
                x,
                y,
                yes: s1,
                no: s2,
            },
            _ => unreachable!("op {op} isn't below 10"),
        }
    }

    /// The record op, x, y, s1, s2; unused fields are 0.
    pub fn record(self) -> [u8; 5] {
        match self {
            Stop => [0, 0, 0, 0, 0],
            GoOn { next } => [1, 0, 0, next, 0],
            SetNull { x, next } => [2, x, 0, next, 0],
            Copy { x, y, next } => [3, x, y, next, 0],
            New { x, next } => [4, x, 0, next, 0],
            Follow { x, y, next } => [5, x, y, next, 0],
            ClearLink { x, next } => [6, x, 0, next, 0],
            SetLink { x, y, next } => [7, x, y, next, 0],
            IsNull { x, yes, no } => [8, x, 0, yes, no],
            Same { x, y, yes, no } => [9, x, y, yes, no],
        }
    }

    /// The variable that is dereferenced, if any: y in op 5, x in ops 6 and 7.
    pub fn dereferenced(self) -> Option<u8> {
        match self {
            Follow { y, .. } => Some(y),
            ClearLink { x, .. } | SetLink { x, .. } => Some(x),
            _ => None,
        }
    }
}

#[cfg(test)]
mod tests {
    use super::*;

    #[test]
    fn records_come_back_and_unused_fields_are_0() {
        for op in 0..10 {
            let mut record = [op, 0, 0, 0, 0];
            for (field, used) in used_fields(op).into_iter().enumerate() {
                if used {
                    record[field + 1] = field as u8 + 3;
                }
            }
            assert_eq!(Statement::from_record(record).record(), record);
        }
    }
}
