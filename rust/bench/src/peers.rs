//! The peers that are programs or crates of their own.

use std::io::Write;
use std::path::Path;
use std::process::{Command, Stdio};
use std::time::{Duration, Instant};

/// How long GNU grep takes to count the lines of a file in which a listed string occurs, and how many there are.
pub fn grep(strings: &[Vec<u8>], file: &Path) -> Option<(Duration, usize)> {
    let from = Instant::now();
    let mut command = Command::new("grep");
    command.env("LC_ALL", "C").args(["-F", "-c"]);
    for string in strings {
        command
            .arg("-e")
            .arg(String::from_utf8(string.clone()).ok()?);
    }
    let said = command.arg(file).output().ok()?;
    let took = from.elapsed();
    Some((
        took,
        String::from_utf8(said.stdout).ok()?.trim().parse().ok()?,
    ))
}

/// How long Python's re takes over the lines of a file, its start and its reading left out, and in how many it finds a listed string.
pub fn python(strings: &[Vec<u8>], file: &Path) -> Option<(Duration, usize)> {
    let program = b"
import re, sys, time
strings = [s.encode() for s in sys.argv[2:]]
lines = open(sys.argv[1], 'rb').read().split(b'\\n')[:-1]
found = re.compile(b'|'.join(map(re.escape, strings)))
begin = time.perf_counter()
count = sum(found.search(line) is not None for line in lines)
print(time.perf_counter() - begin, count)
";
    let mut child = Command::new("python3")
        .arg("-")
        .arg(file)
        .args(
            strings
                .iter()
                .map(|s| String::from_utf8_lossy(s).into_owned()),
        )
        .stdin(Stdio::piped())
        .stdout(Stdio::piped())
        .spawn()
        .ok()?;
    child.stdin.take()?.write_all(program).ok()?;
    let said = String::from_utf8(child.wait_with_output().ok()?.stdout).ok()?;
    let (seconds, count) = said.trim().split_once(' ')?;
    Some((
        Duration::from_secs_f64(seconds.parse().ok()?),
        count.parse().ok()?,
    ))
}

/// The crate aho-corasick as a DFA that answers by the earliest start and then the first listed, with and without its prefilter.
#[cfg(feature = "peers")]
pub mod aho {
    use strlib_peers::aho_corasick::{AhoCorasick, AhoCorasickBuilder, MatchKind};

    pub fn build(strings: &[Vec<u8>], prefilter: bool) -> AhoCorasick {
        AhoCorasickBuilder::new()
            .match_kind(MatchKind::LeftmostFirst)
            .dfa(true)
            .prefilter(prefilter)
            .build(strings)
    }
}
