//! Answers as the C interface gives them: a refusal leaves every other field 0 but a cue line's word and a label list's
//! offset, and so does nothing found but the number that a run read.

use strlib::ffi::*;
use strlib::{
    Character, Comparison, Copied, Cue, CueRefusal, LabelRefusal, Match, Name, Note, Refusal,
    Round, Run, Split, StrPtr,
};

pub fn done(answer: &Result<(), Refusal>) -> u8 {
    match *answer {
        Ok(()) => 0,
        Err(Refusal(refusal)) => refusal,
    }
}

macro_rules! answers {
    ($($name:ident: $given:ty => $answer:ident, $($shape:pat => { $($field:ident: $value:expr),* }),+;)*) => {
        $(pub fn $name(answer: &Result<$given, Refusal>) -> $answer {
            let mut raw = $answer::default();
            match *answer {
                Err(Refusal(refusal)) => raw.refusal = refusal,
                $($shape => { $(raw.$field = $value;)* })+
            }
            raw
        })*
    };
}

answers! {
    string: StrPtr => StringAnswer,
        Ok(string) => { string: string };
    comparison: Comparison => ComparisonAnswer,
        Ok(Comparison { yes, sign, split }) => { yes: yes, sign: sign, split: split };
    copied: Copied => CopiedAnswer,
        Ok(Copied { to, completed }) => { to: to, completed: completed };
    round: Round => RoundAnswer,
        Ok(Round { to, completed, next }) => { to: to, completed: completed, next: next };
    matched: Option<Match> => MatchAnswer,
        Ok(None) => {},
        Ok(Some(Match { number, before, matched, after })) => {
            found: true, number: number, before: before, matched: matched, after: after
        };
    split: Option<Split> => SplitAnswer,
        Ok(None) => {},
        Ok(Some(Split { number, front, back })) => { found: true, number: number, front: front, back: back };
    run: Run => NoteAnswer,
        Ok(Run { note: None, read }) => { read: read },
        Ok(Run { note: Some(Note { string, pos1, pos2 }), read }) => {
            found: true, string: string, pos1: pos1, pos2: pos2, read: read
        };
    character: Option<Character> => CharacterAnswer,
        Ok(None) => {},
        Ok(Some(Character { code, position })) => { found: true, code: code, position: position };
    number: i64 => NumberAnswer,
        Ok(value) => { value: value };
}

pub fn cue(answer: &Result<Cue, CueRefusal>) -> CueAnswer {
    let mut raw = CueAnswer::default();
    match *answer {
        Ok(cue) => {
            raw.microphone = cue.microphone;
            raw.loudspeaker = cue.loudspeaker;
            raw.gain = cue.gain;
        }
        Err(CueRefusal { number, word }) => {
            raw.refusal = number;
            raw.word = word.unwrap_or(0);
        }
    }
    raw
}

pub fn size(answer: &Result<usize, LabelRefusal>) -> SizeAnswer {
    let mut raw = SizeAnswer::default();
    match *answer {
        Ok(value) => raw.value = value,
        Err(LabelRefusal { number, offset }) => (raw.refusal, raw.offset) = (number, offset),
    }
    raw
}

pub fn name(answer: &Result<Option<Name>, LabelRefusal>) -> NameAnswer {
    let mut raw = NameAnswer::default();
    match *answer {
        Ok(None) => {}
        Ok(Some(Name { place, length })) => {
            (raw.found, raw.place, raw.length) = (true, place, length)
        }
        Err(LabelRefusal { number, offset }) => (raw.refusal, raw.offset) = (number, offset),
    }
    raw
}
