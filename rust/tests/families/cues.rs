//! Cue lines.

use crate::oracle::desk as oracle;
use crate::support::rng::Rng;
use crate::support::{raw, rounds, Call, ROUNDS};
use strlib::{ffi, Cue, CueRefusal};

/// A number's word: in or around these bounds, out of the conversion's range, or no number.
fn number_word(rng: &mut Rng, least: i64, most: i64) -> Vec<u8> {
    let number = match rng.below(40) {
        0 => rng.pick(&[
            34_359_738_367,
            34_359_738_368,
            -34_359_738_368,
            -34_359_738_369,
        ]),
        1 => rng.next() as i64,
        2 => rng.pick(&[least - 1, most + 1, 0]),
        3..=8 => rng.pick(&[least, most]),
        _ => least + rng.up_to((most - least) as usize) as i64,
    };
    let word = match rng.below(30) {
        0 => format!("{number:05}"),
        1 => rng
            .pick(&["-", "x", "1x", "+1", "--1", "1-", "0x1", "\t1", "1\r", "-0"])
            .to_string(),
        2 => format!("{number}{number}"),
        _ => number.to_string(),
    };
    word.into_bytes()
}

/// A line of the grammar, with blanks between and around its words.
fn line(rng: &mut Rng, microphones: usize, loudspeakers: usize) -> Vec<u8> {
    let mut words: Vec<Vec<u8>> = vec![
        b"MIC".to_vec(),
        number_word(rng, 1, microphones.clamp(1, 64) as i64),
        b"TO".to_vec(),
        b"LSP".to_vec(),
        number_word(rng, 1, loudspeakers.clamp(1, 128) as i64),
        b"GAIN".to_vec(),
        number_word(rng, -960, 120),
    ];
    let i = rng.below(words.len());
    match rng.below(30) {
        0 => {
            words.remove(i);
        }
        1 => words.insert(i, words[i].clone()),
        2 => words.swap(i, 0),
        3 => words[i].make_ascii_lowercase(),
        4 => {
            words[i] = rng
                .pick(&[b"MIC".as_slice(), b"TO", b"GAI", b"LSPS", b"7"])
                .to_vec()
        }
        _ => {}
    }
    let blanks = match rng.below(8) {
        0 => 14,
        1 => 3,
        _ => 1,
    };
    let outer = rng.pick(&[0, 0, 0, 2, 50]);
    let mut line = vec![32; rng.up_to(outer)];
    for (i, word) in words.iter().enumerate() {
        if i > 0 {
            line.extend(vec![32; 1 + rng.below(blanks)]);
        }
        line.extend_from_slice(word);
    }
    line.extend(vec![32; rng.up_to(outer)]);
    line
}

/// A byte changed, dropped or doubled, or the line's end cut off.
fn damage(rng: &mut Rng, line: &mut Vec<u8>) {
    let i = rng.below(line.len());
    match rng.below(5) {
        0 => line[i] = rng.pick(b"\x80\xffMm0- \t\0\r\n"),
        1 => line[i] = rng.below(256) as u8,
        2 => {
            line.remove(i);
        }
        3 => line.insert(i, line[i]),
        _ => line.truncate(i),
    }
}

/// What comes with 11.
const WORDS: [&str; 9] = [
    "over 80", "word 1", "word 2", "word 3", "word 4", "word 5", "word 6", "word 7", "word 8",
];

#[test]
fn cues_as_the_document_says() {
    let tally = rounds("cues", ROUNDS, |round| {
        let rng = &mut round.rng;
        let (microphones, loudspeakers) = match rng.below(30) {
            0 => (rng.pick(&[0, 65, 256 + 7, usize::MAX]), 1),
            1 => (1, rng.pick(&[0, 129, 256 + 7, usize::MAX])),
            2..=9 => (1 + rng.below(64), 1 + rng.below(128)),
            _ => (64, 128),
        };
        let mut line = line(rng, microphones, loudspeakers);
        if rng.one_in(4) {
            damage(rng, &mut line);
        }
        match rng.below(1_200) {
            0 => line.resize(65_536, rng.pick(b" x")),
            1 => line.resize(65_537, rng.pick(b" \x80")),
            2 => line.resize(65_536, b'\x80'),
            3 => line.resize(80, 32),
            4 => line.resize(81, 32),
            _ => {}
        }
        let answer = round.check(
            Call::new("read_cue", &line, (microphones, loudspeakers)),
            |l| oracle::read_cue(l, microphones, loudspeakers),
            |l| strlib::read_cue(l, microphones, loudspeakers),
            |l| unsafe { ffi::strlib_read_cue(l.as_mut_ptr(), l.len(), microphones, loudspeakers) },
            raw::cue,
        );
        if let Err(CueRefusal {
            word: Some(word), ..
        }) = answer
        {
            round.met("read_cue", WORDS[word as usize]);
        }
        if let Ok(cue) = answer {
            let kind = match cue.gain {
                -960 => "least gain",
                120 => "greatest gain",
                _ => "a gain",
            };
            round.met("read_cue", kind);
            if cue.microphone == microphones || cue.loudspeaker == loudspeakers {
                round.met("read_cue", "at the matrix's bound");
            }
        }
    });
    tally.expect(
        "read_cue",
        &[2, 3, 7, 8, 11, 12],
        &[
            "least gain",
            "greatest gain",
            "a gain",
            "at the matrix's bound",
        ],
    );
    tally.expect("read_cue", &[2, 3, 7, 8, 11, 12], &WORDS);
}

/// The refusal's number and word.
fn plain(answer: Result<Cue, CueRefusal>) -> Result<Cue, (u8, Option<u8>)> {
    answer.map_err(|refusal| (refusal.number, refusal.word))
}

fn read(line: &[u8]) -> Result<Cue, (u8, Option<u8>)> {
    plain(strlib::read_cue(line, 64, 128))
}

#[test]
fn lines_by_hand() {
    let cue = |microphone, loudspeaker, gain| {
        Ok(Cue {
            microphone,
            loudspeaker,
            gain,
        })
    };
    assert_eq!(read(b"MIC 7 TO LSP 31 GAIN -120"), cue(7, 31, -120));
    assert_eq!(read(b"MIC 65 TO LSP 1 GAIN 0"), Err((12, None)));
    assert_eq!(read(b"MIC 7 TO LSP"), Err((11, Some(5))));
    assert_eq!(read(b"  MIC  64 TO LSP 0128 GAIN 120 "), cue(64, 128, 120));
    assert_eq!(read(b"MIC 1 TO LSP 1 GAIN -960"), cue(1, 1, -960));
    assert_eq!(read(b"MIC 1 TO LSP 1 GAIN -961"), Err((12, None)));
    assert_eq!(read(b"MIC 1 TO LSP 1 GAIN 121"), Err((12, None)));
    assert_eq!(read(b"MIC 0 TO LSP 1 GAIN 0"), Err((12, None)));
    assert_eq!(read(b"MIC -1 TO LSP 1 GAIN 0"), Err((12, None)));
    assert_eq!(read(b"MIC 1 TO LSP 129 GAIN 0"), Err((12, None)));
    assert_eq!(read(b"MIC 65 TO LSP x GAIN 0"), Err((7, None)));
    assert_eq!(read(b"MIC 100000000000 TO LSP x GAIN 0"), Err((8, None)));
    assert_eq!(read(b"MIC 34359738367 TO LSP 1 GAIN 0"), Err((12, None)));
    assert_eq!(read(b"MIC 34359738368 TO LSP 1 GAIN 0"), Err((8, None)));
    assert_eq!(read(b"MIC 1 TO LSP 1 GAIN 0\r"), Err((7, None)));
    assert_eq!(read(b"MIC 1 TO LSP 1 GAIN\t0"), Err((11, Some(6))));
    assert_eq!(read(b"mic 1 TO LSP 1 GAIN 0"), Err((11, Some(1))));
    assert_eq!(read(b"MIC x TO LSP 1 GAINS 0"), Err((11, Some(6))));
    assert_eq!(read(b"MIC x TO LSP 1 GAIN 0 0"), Err((11, Some(8))));
    assert_eq!(read(b"MIC x TO \x80 1 GAIN 0 0"), Err((2, None)));
    assert_eq!(read(b""), Err((11, Some(1))));
    assert_eq!(read(b"       "), Err((11, Some(1))));
    let small = strlib::read_cue(b"MIC 2 TO LSP 1 GAIN 0", 1, 1);
    assert_eq!(plain(small), Err((12, None)));
    for (microphones, loudspeakers) in [(0, 1), (65, 1), (64, 129), (64, 0)] {
        let sizes = strlib::read_cue(b"\x80", microphones, loudspeakers);
        assert_eq!(plain(sizes), Err((3, None)));
    }
    let said = |line: &[u8]| strlib::read_cue(line, 64, 128).unwrap_err().to_string();
    assert_eq!(said(b"MIC 65 TO LSP 1 GAIN 0"), "refusal 12");
    assert_eq!(said(b"MIC 7 TO LSP"), "refusal 11 at word 5");
    assert_eq!(said(&[32; 81]), "refusal 11, over 80 characters");
}

#[test]
fn lines_of_80_characters_are_the_longest() {
    let line = b"MIC 7 TO LSP 31 GAIN -120".to_vec();
    for front in [0, 1, 40, 55] {
        let mut line = [vec![32; front], line.clone()].concat();
        line.resize(80, 32);
        assert!(read(&line).is_ok());
        line.push(32);
        assert_eq!(read(&line), Err((11, Some(0))));
    }
    let mut line = b"MIC 7 TO LSP 31 GAIN ".to_vec();
    line.resize(80, b'0');
    assert!(read(&line).is_ok());
    line.push(b'0');
    assert_eq!(read(&line), Err((11, Some(0))));
    line.resize(65_536, 32);
    assert_eq!(read(&line), Err((11, Some(0))));
    line[65_535] = 128;
    assert_eq!(read(&line), Err((2, None)));
    line.push(32);
    assert_eq!(read(&line), Err((3, None)));
}
