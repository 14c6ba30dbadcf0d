//! The examples of document 01: T1 to T11, file F and its variants.

use outside::notation::{shape, text};
use outside::reference::{step, Statement};
use outside::{implementations, printed};

/// Name, shape, record of the step, results in order.
type Example = (
    &'static str,
    &'static str,
    [u8; 5],
    &'static [(u8, &'static str)],
);

const EXAMPLES: [Example; 11] = [
    ("T1", "{}", [4, 0, 0, 1, 0], &[(1, "{1}")]),
    ("T2", "{1}", [4, 0, 0, 1, 0], &[(1, "{0, 1}")]),
    ("T3", "{0, 1}", [4, 0, 0, 1, 0], &[(1, "{0s, 1}")]),
    ("T4", "{0}", [6, 0, 0, 1, 0], &[]),
    ("T5", "{1}", [7, 0, 0, 1, 0], &[(1, "{1} 1>1:1")]),
    (
        "T6",
        "{1, 2} 1>1:1",
        [7, 1, 0, 1, 0],
        &[(1, "{2, 257} 2>257:1 257>257:1")],
    ),
    (
        "T7",
        "{2, 257} 2>257:1 257>257:1",
        [6, 1, 0, 1, 0],
        &[(1, "{1, 2} 1>1:1")],
    ),
    (
        "T8",
        "{0s, 1} 1>0:h 0>0:h",
        [5, 1, 0, 1, 0],
        &[
            (1, "{0s, 1} 0>0:h"),
            (1, "{1, 2} 1>2:1"),
            (1, "{0s, 1, 2} 1>2:1 2>0:h 0>0:h"),
        ],
    ),
    (
        "T9",
        "{0s, 1} 1>0:1 0>0:h",
        [5, 1, 0, 1, 0],
        &[(1, "{1, 2} 1>2:1")],
    ),
    ("T10", "{}", [9, 0, 1, 1, 2], &[(1, "{}")]),
    (
        "T11",
        "{0, 1, 2} 0>1:h",
        [7, 1, 0, 1, 0],
        &[(1, "{0, 1, 2} 2>1:1"), (1, "{0, 2, 257} 2>257:1 0>257:h")],
    ),
];

#[test]
fn t1_to_t11() {
    for (name, start, record, results) in EXAMPLES {
        let found: Vec<(u8, String)> = step(&shape(start), Statement::from_record(record))
            .into_iter()
            .map(|(successor, result)| (successor, text(&result)))
            .collect();
        let expected: Vec<(u8, String)> = results
            .iter()
            .map(|&(successor, result)| (successor, text(&shape(result))))
            .collect();
        assert_eq!(found, expected, "{name}");
    }
}

fn file_f() -> Vec<u8> {
    "53 48 43 01 00 01 02 04 00 00 01 00 00 00 00 00 00 02 00 00 00 01 01 01 00 00"
        .split(' ')
        .map(|byte| u8::from_str_radix(byte, 16).unwrap())
        .collect()
}

fn with(offset: usize, byte: u8) -> Vec<u8> {
    let mut file = file_f();
    file[offset] = byte;
    file
}

#[test]
fn file_f_and_its_variants() {
    let f = file_f();
    let mut longer = f.clone();
    longer.push(0);
    let mut first_shape_only = f[..21].to_vec();
    first_shape_only[17] = 1;
    let cases: [(&[u8], &str); 14] = [
        (&f, "accept 2 0\n4 4\n"),
        (&f[..25], "refuse 1 25 0\n"),
        (&longer, "refuse 1 26 0\n"),
        (&first_shape_only, "refuse 8 0 1\n"),
        (&with(25, 2), "accept 2 0\n4 4\n"),
        (&with(25, 1), "refuse 8 0 1\n"),
        (&with(24, 2), "refuse 6 24 0\n"),
        (&[], "refuse 1 0 0\n"),
        (&with(5, 9), "refuse 4 5 0\n"),
        (&with(6, 65), "refuse 4 6 0\n"),
        (b"XY", "refuse 1 2 0\n"),
        (b"XYZ", "refuse 2 0 0\n"),
        (&with(3, 2), "refuse 3 3 0\n"),
        (&with(7, 10), "refuse 5 7 0\n"),
    ];
    for (name, implementation) in implementations() {
        for (file, expected) in cases {
            assert_eq!(
                printed(implementation.check, file),
                expected,
                "{name} {file:?}"
            );
        }
    }
}

#[test]
fn a_short_answer_is_refused_with_9_before_8_and_after_7() {
    let mut no_entry = file_f()[..17].to_vec();
    no_entry.extend([0, 0]);
    let mut uncovered = file_f()[..21].to_vec();
    uncovered[17] = 1;
    for (name, implementation) in implementations() {
        let verdict = |file: &[u8], length: usize| {
            let mut answer = vec![0xAA; length];
            let verdict = (implementation.check)(file, &mut answer);
            assert!(answer.iter().all(|&byte| byte == 0xAA), "{name}");
            verdict.to_string()
        };
        assert_eq!(verdict(&file_f(), 1), "refuse 9 2 0", "{name}");
        assert_eq!(verdict(&uncovered, 1), "refuse 9 2 0", "{name}");
        assert_eq!(verdict(&uncovered, 2), "refuse 8 0 1", "{name}");
        assert_eq!(verdict(&no_entry, 0), "refuse 7 0 0", "{name}");
    }
}

#[test]
fn the_second_call_hands_back_the_record() {
    for (name, implementation) in implementations() {
        let record = implementation.record;
        assert_eq!(record(&file_f(), 0), 19..21, "{name}");
        assert_eq!(record(&file_f(), 1), 21..26, "{name}");
        assert_eq!(record(&file_f(), 2), 0..0, "{name}");
        assert_eq!(record(&with(25, 3), 0), 0..0, "{name}");
        assert_eq!(record(&with(25, 1), 1), 21..26, "{name}");
    }
}
