//! The library compared with documents 01 and 02: every call, its whole answer and all lent memory, on random, damaged
//! and small inputs (`families`), against an independent implementation of the document (`oracle`). Both are held to
//! worked examples.
//!
//! STRLIB_SEED sets the seed; STRLIB_ROUNDS sets the number of rounds of each family, 200,000 else, other tests in proportion.
//! A test of all its rounds fails too if a refusal or a kind of answer that the document allows was never met.

mod families;
mod oracle;
mod support;
