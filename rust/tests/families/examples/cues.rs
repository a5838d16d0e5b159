//! Cue lines.

use super::{answers, both, Want};
use crate::oracle::desk;

/// The cue program's matrix.
const MATRIX: (usize, usize) = (64, 128);

/// A good line of 80 characters, and a blank.
const LONG: &[u8] =
    b"   MIC       0000000000007  TO     LSP    00000000000000031    GAIN         -120 ";

/// Seven words and 59 blanks, and an eighth word behind them.
const EIGHT: &[u8] =
    b"MIC 7 TO LSP 31 GAIN 0                                                           0";

#[rustfmt::skip]
const CUES: &[(&str, (usize, usize), &[u8], Want<(usize, usize, i64), (u8, Option<u8>)>)] = &[
    // 01's three lines
    ("ok", MATRIX, b"MIC 7 TO LSP 31 GAIN -120", Ok((7, 31, -120))),
    ("outside", MATRIX, b"MIC 65 TO LSP 1 GAIN 0", Err((12, None))),
    ("short", MATRIX, b"MIC 7 TO LSP", Err((11, Some(5)))),
    // the ends of the matrix and of the gain
    ("corner", MATRIX, b"MIC 64 TO LSP 128 GAIN 120", Ok((64, 128, 120))),
    ("other-corner", MATRIX, b"MIC 1 TO LSP 1 GAIN -960", Ok((1, 1, -960))),
    ("mic-zero", MATRIX, b"MIC 0 TO LSP 1 GAIN 0", Err((12, None))),
    ("lsp-over", MATRIX, b"MIC 1 TO LSP 129 GAIN 0", Err((12, None))),
    ("gain-over", MATRIX, b"MIC 1 TO LSP 1 GAIN 121", Err((12, None))),
    ("gain-under", MATRIX, b"MIC 1 TO LSP 1 GAIN -961", Err((12, None))),
    // a smaller matrix; sizes outside their range
    ("smaller", (7, 128), b"MIC 8 TO LSP 1 GAIN 0", Err((12, None))),
    ("size-zero", (0, 128), b"MIC 1 TO LSP 1 GAIN 0", Err((3, None))),
    ("size-over", (64, 129), b"MIC 1 TO LSP 1 GAIN 0", Err((3, None))),
    // 7 or 8 from left to right, and 12 only then
    ("seven-first", MATRIX, b"MIC x TO LSP 34359738368 GAIN 0", Err((7, None))),
    ("eight-first", MATRIX, b"MIC 34359738368 TO LSP x GAIN 0", Err((8, None))),
    ("twelve-last", MATRIX, b"MIC 65 TO LSP x GAIN 0", Err((7, None))),
    ("in-range", MATRIX, b"MIC 34359738367 TO LSP 1 GAIN 0", Err((12, None))),
    // 11 before any number, with the first wrong or missing word by its place: no words at all, capitals only, a tab
    // is no blank
    ("empty", MATRIX, b"", Err((11, Some(1)))),
    ("blanks", MATRIX, b"    ", Err((11, Some(1)))),
    ("other-word", MATRIX, b"FOO", Err((11, Some(1)))),
    ("small-letters", MATRIX, b"mic 1 TO LSP 1 GAIN 0", Err((11, Some(1)))),
    ("tab", MATRIX, b"MIC\t7 TO LSP 31 GAIN 0", Err((11, Some(1)))),
    // cut behind each word
    ("one-word", MATRIX, b"MIC", Err((11, Some(2)))),
    ("two-words", MATRIX, b"MIC 7", Err((11, Some(3)))),
    ("three-words", MATRIX, b"MIC 7 TO", Err((11, Some(4)))),
    ("five-words", MATRIX, b"MIC 7 TO LSP 31", Err((11, Some(6)))),
    ("six-words", MATRIX, b"MIC 7 TO LSP 31 GAIN", Err((11, Some(7)))),
    // each fixed word wrong, and a number's word that is none stands in its place all the same
    ("third-word", MATRIX, b"MIC 7 to LSP 31 GAIN 0", Err((11, Some(3)))),
    ("fourth-word", MATRIX, b"MIC 7 TO LSPS 31 GAIN 0", Err((11, Some(4)))),
    ("sixth-word", MATRIX, b"MIC 7 TO LSP 31 GAI 0", Err((11, Some(6)))),
    ("by-place", MATRIX, b"MIC TO LSP 3 GAIN 0", Err((11, Some(3)))),
    ("no-number-first", MATRIX, b"MIC x TO LSP y GAINS z", Err((11, Some(6)))),
    // the first of two
    ("two-wrong", MATRIX, b"MIC 7 LSP TO 31 GAIN 0", Err((11, Some(3)))),
    // a word too many, behind all others
    ("eight-words", MATRIX, b"MIC 7 TO LSP 31 GAIN 0 0", Err((11, Some(8)))),
    ("nine-words", MATRIX, b"MIC 7 TO LSP 31 GAIN 0 0 0", Err((11, Some(8)))),
    ("eight-and-no-number", MATRIX, b"MIC x TO LSP 1 GAIN 0 0", Err((11, Some(8)))),
    ("not-eight", MATRIX, b"MIC 7 TO LSP 31 gain 0 0", Err((11, Some(6)))),
    // 80 characters, and 81, whatever the words are
    ("at-most", MATRIX, LONG.split_at(80).0, Ok((7, 31, -120))),
    ("too-long", MATRIX, LONG, Err((11, Some(0)))),
    ("blanks-80", MATRIX, &[32; 80], Err((11, Some(1)))),
    ("blanks-81", MATRIX, &[32; 81], Err((11, Some(0)))),
    ("seven-and-blanks", MATRIX, EIGHT.split_at(81).0, Err((11, Some(0)))),
    ("long-eight", MATRIX, EIGHT, Err((11, Some(0)))),
    // 2 goes before it
    ("long-byte-128", MATRIX, &[128; 81], Err((2, None))),
    // a byte over 127 goes before the form
    ("byte-128", MATRIX, b"MIC 7 TO LSP \x80", Err((2, None))),
    // only 32 is a blank
    ("return", MATRIX, b"MIC 7 TO LSP 31 GAIN 0\r", Err((7, None))),
];

#[test]
fn examples_of_cue_lines() {
    assert_eq!((LONG.len(), EIGHT.len()), (81, 82));
    for &(example, (microphones, loudspeakers), line, want) in CUES {
        for (whose, read_cue) in both([strlib::read_cue, desk::read_cue]) {
            let cue = read_cue(line, microphones, loudspeakers);
            let cue = cue.map(|cue| (cue.microphone, cue.loudspeaker, cue.gain));
            answers(example, whose, cue, want);
        }
    }
}
