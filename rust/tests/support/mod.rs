//! What every family of tests shares: rounds of random inputs, the comparison of a call with the oracle, and the tally of what
//! was met.

pub mod raw;
pub mod rng;
pub mod shapes;

use rng::Rng;
use std::collections::BTreeMap;
use std::fmt::{self, Debug};
use std::{env, str::FromStr};
use strlib::{CueRefusal, LabelRefusal, Refusal, StrPtr};

const SEED: u64 = 1979;

fn from_environment<T: FromStr>(name: &str) -> Option<T> {
    let value = env::var(name).ok()?;
    match value.parse() {
        Ok(value) => Some(value),
        Err(_) => panic!("{name} is no number: {value}"),
    }
}

/// Rounds of a family's random test, each with an input for every call of the family.
pub const ROUNDS: u64 = 200_000;

/// `usual`, or in proportion to it if STRLIB_ROUNDS stands in place of [`ROUNDS`].
fn in_proportion(usual: u64) -> u64 {
    match from_environment::<u64>("STRLIB_ROUNDS") {
        Some(rounds) => (usual * rounds).div_ceil(ROUNDS),
        None => usual,
    }
}

/// Runs `each` for `usual` rounds or in proportion, every round with random numbers of its own.
pub fn rounds(family: &'static str, usual: u64, each: impl FnMut(&mut Round)) -> Tally {
    let rounds = in_proportion(usual);
    run(family, rounds, rounds >= usual, each)
}

/// Runs `each` once for each of so many cases, or for the first of them if STRLIB_ROUNDS asks for less.
pub fn cases(family: &'static str, cases: u64, each: impl FnMut(&mut Round)) {
    run(family, in_proportion(cases).min(cases), false, each);
}

fn run(family: &'static str, rounds: u64, full: bool, mut each: impl FnMut(&mut Round)) -> Tally {
    let seed = from_environment("STRLIB_SEED").unwrap_or(SEED);
    let mut tally = Tally {
        family,
        full,
        met: BTreeMap::new(),
    };
    for number in 0..rounds {
        each(&mut Round {
            rng: Rng::of_round(seed, family, number),
            seed,
            number,
            tally: &mut tally,
        });
    }
    tally
}

/// One round of a random test.
pub struct Round<'a> {
    pub rng: Rng,
    seed: u64,
    number: u64,
    tally: &'a mut Tally,
}

impl Round<'_> {
    /// Makes the call three times, each on memory of its own: by the oracle, by the safe wrapper and by the C interface. The
    /// answers must be the same, unused fields 0 included, and so must the memory. Gives the oracle's answer.
    pub fn check<M, A, R>(
        &mut self,
        call: Call<M, impl Debug>,
        oracle: impl FnOnce(&mut M) -> A,
        wrapper: impl FnOnce(&mut M) -> A,
        c: impl FnOnce(&mut M) -> R,
        as_c: impl FnOnce(&A) -> R,
    ) -> A
    where
        M: Lent,
        A: Outcome + PartialEq + Debug,
        R: PartialEq + Debug,
    {
        let (answer, after) = lend(call.lent, oracle);
        if answer.refusal() != 0 {
            self.same(&call, "after a refusal", &after, call.lent);
        }
        let (wrapped, wrapped_after) = lend(call.lent, wrapper);
        self.same(&call, "by the wrapper", &wrapped, &answer);
        self.same(&call, "memory after the wrapper", &wrapped_after, &after);
        let (raw, raw_after) = lend(call.lent, c);
        self.same(&call, "by the C interface", &raw, &as_c(&answer));
        self.same(&call, "memory after the C call", &raw_after, &after);
        self.tally.add(call.name, refusal_name(answer.refusal()));
        answer
    }

    /// Fails with the seed, the round and the input unless the library's answer is the oracle's.
    pub fn same<M: Lent, T: PartialEq + Debug>(
        &self,
        call: &Call<M, impl Debug>,
        what: &str,
        got: &T,
        want: &T,
    ) {
        assert!(
            got == want,
            "{} differs, {what}\n  got  {}\n  want {}\n  with {}\n  lent {}\n  STRLIB_SEED={}, {} round {}",
            call.name,
            shown(got),
            shown(want),
            shown(&call.arguments),
            shown(call.lent),
            self.seed,
            self.tally.family,
            self.number,
        );
    }

    pub fn number(&self) -> u64 {
        self.number
    }

    /// A pointer that a call returns is good for the same store.
    pub fn returned(&self, call: &'static str, store: &[u8], string: StrPtr) {
        let lent = store.to_vec();
        let call = Call::new(call, &lent, string);
        self.same(&call, "is it good", &string.is_good(store.len()), &true);
    }

    /// Counts a kind of answer.
    pub fn met(&mut self, call: &'static str, kind: &'static str) {
        self.tally.add(call, kind);
    }
}

/// For messages; the seed and the round give again what is too long to be shown.
fn shown(value: &impl Debug) -> String {
    let text = format!("{value:?}");
    match text.get(..4_000) {
        Some(front) => format!("{front} ..."),
        None => text,
    }
}

/// A call by its name, what it is lent, and its other arguments.
pub struct Call<'a, M, A> {
    name: &'static str,
    lent: &'a M,
    arguments: A,
}

impl<'a, M, A> Call<'a, M, A> {
    pub fn new(name: &'static str, lent: &'a M, arguments: A) -> Call<'a, M, A> {
        Call {
            name,
            lent,
            arguments,
        }
    }
}

/// Memory that a call is lent.
pub trait Lent: Clone + PartialEq + Debug {}
impl<T: Clone + PartialEq + Debug> Lent for T {}

fn lend<M: Lent, A>(memory: &M, call: impl FnOnce(&mut M) -> A) -> (A, M) {
    let mut own = memory.clone();
    let answer = call(&mut own);
    (answer, own)
}

/// An answer's refusal, 0 being none.
pub trait Outcome {
    fn refusal(&self) -> u8;
}

impl<T, E: Numbered> Outcome for Result<T, E> {
    fn refusal(&self) -> u8 {
        match self {
            Ok(_) => 0,
            Err(refusal) => refusal.number(),
        }
    }
}

/// A refusal, whatever comes with its number.
pub trait Numbered {
    fn number(&self) -> u8;
}

impl Numbered for Refusal {
    fn number(&self) -> u8 {
        self.0
    }
}

impl Numbered for CueRefusal {
    fn number(&self) -> u8 {
        self.number
    }
}

impl Numbered for LabelRefusal {
    fn number(&self) -> u8 {
        self.number
    }
}

/// The answer of a call that never refuses.
#[derive(PartialEq)]
pub struct Always<T>(pub T);

impl<T> Outcome for Always<T> {
    fn refusal(&self) -> u8 {
        0
    }
}

impl<T: Debug> Debug for Always<T> {
    fn fmt(&self, f: &mut fmt::Formatter) -> fmt::Result {
        self.0.fmt(f)
    }
}

const NAMES: [&str; 15] = [
    "answered",
    "refused 1",
    "refused 2",
    "refused 3",
    "refused 4",
    "refused 5",
    "refused 6",
    "refused 7",
    "refused 8",
    "refused 9",
    "refused 10",
    "refused 11",
    "refused 12",
    "refused 13",
    "refused 14",
];

fn refusal_name(number: u8) -> &'static str {
    NAMES[number as usize]
}

/// How often each refusal and each kind of answer was met, by call.
pub struct Tally {
    family: &'static str,
    full: bool,
    met: BTreeMap<&'static str, BTreeMap<&'static str, u64>>,
}

impl Tally {
    fn add(&mut self, call: &'static str, kind: &'static str) {
        *self.met.entry(call).or_default().entry(kind).or_default() += 1;
    }

    /// In a full test, the call must have answered, have refused with each of these numbers and no other, and have met each of
    /// these kinds.
    pub fn expect(&self, call: &'static str, refusals: &[u8], kinds: &[&'static str]) {
        if !self.full {
            return;
        }
        let met = &self.met[call];
        println!("{}: {call} {met:?}", self.family);
        for (number, name) in NAMES.iter().enumerate() {
            let allowed = number == 0 || refusals.contains(&(number as u8));
            assert_eq!(met.contains_key(name), allowed, "{call}: {name}");
        }
        for kind in kinds {
            assert!(met.contains_key(kind), "{call} never met: {kind}");
        }
    }
}
