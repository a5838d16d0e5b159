//! Translating and running, beside the crate aho-corasick (feature `peers`), GNU grep -F and Python's re.

use std::fs;
use std::hint::black_box;
use std::time::{Duration, Instant};
use strlib::{BurstRun, StrList, BURST_MAX, TABLE_MIN};

use crate::{best, full, peers, row};

/// Characters of a line of the scanned file, and its lines.
const LINE: usize = 65_535;
const LINES: usize = 1_000;

struct Lists {
    name: &'static str,
    strings: Vec<Vec<u8>>,
}

fn lists() -> [Lists; 3] {
    let names = ["CELLO", "VIOLA DA GAMBA", "VIOLA"];
    let labels = (0..32).map(|i| format!("LABEL{i:02}").into_bytes());
    [
        Lists {
            name: "3 names",
            strings: names.iter().map(|s| s.as_bytes().to_vec()).collect(),
        },
        Lists {
            name: "32 labels of 7",
            strings: labels.collect(),
        },
        Lists {
            name: "1 string of 240",
            strings: vec![vec![b'A'; 240]],
        },
    ]
}

/// A store that holds the strings one behind the other, and the list of them.
fn store_of(strings: &[Vec<u8>]) -> (Vec<u8>, StrList) {
    let mut store = Vec::new();
    let mut pointers = Vec::new();
    for string in strings {
        pointers.push(full(store.len(), string.len()));
        store.extend_from_slice(string);
    }
    (store, StrList::new(&pointers))
}

/// Remarks in small letters and capitals in which no listed string stands, though many begin.
fn remarks(n: usize) -> Vec<u8> {
    let text = b"MIC 7 to LSP 31 lower, VIOLIN as before; CELLI LABEL AAAA ";
    text.iter().copied().cycle().take(n).collect()
}

pub fn all() {
    for list in lists() {
        one_list(&list);
    }
    file(&lists()[0]);
}

fn one_list(list: &Lists) {
    let (store, pointers) = store_of(&list.strings);
    let mut table = vec![0; TABLE_MIN];
    let translated =
        best(|| strlib::translate(black_box(&store), black_box(&pointers), &mut table).unwrap());
    let host = remarks(65_536);
    let over = full(0, host.len());
    let ran = best(|| {
        let said = strlib::run(black_box(&host), over, black_box(&table)).unwrap();
        assert!(said.note.is_none() && said.read == host.len());
    });
    // the plain search takes its list from the host's store, so the host is shorter by the strings
    let mut both = store.clone();
    both.extend_from_slice(&host[..host.len() - store.len()]);
    let shorter = full(store.len(), host.len() - store.len());
    let searched = best(|| {
        assert!(strlib::search(black_box(&both), shorter, &pointers)
            .unwrap()
            .is_none());
    });
    row(
        &format!("run, {}", list.name),
        "the library's plain search",
        ran,
        searched,
    );
    let in_bursts = best(|| {
        let mut run = BurstRun::fresh();
        for burst in black_box(&host).chunks(BURST_MAX) {
            run.push(burst, black_box(&table)).unwrap();
        }
        let carried = run.carried();
        assert!(carried.note.is_none() && carried.read == host.len());
    });
    row(
        &format!("run in bursts of 300, {}", list.name),
        "the run of the whole host",
        in_bursts,
        ran,
    );
    early(list, host.clone(), ran);
    with_aho(list, &host, translated, ran);
}

/// The last string of the list stands in the first hundred characters of a long remark: nothing behind it can matter.
fn early(list: &Lists, mut host: Vec<u8>, to_the_end: Duration) {
    let last = &list.strings[list.strings.len() - 1];
    let Some(at) = 99_usize.checked_sub(last.len()) else {
        return;
    };
    host[at..99].copy_from_slice(last);
    let (mut store, pointers) = store_of(&list.strings);
    let mut table = vec![0; TABLE_MIN];
    strlib::translate(&store, &pointers, &mut table).unwrap();
    // both read the same host, which is shorter by the strings
    let over = full(store.len(), host.len() - store.len());
    store.extend_from_slice(&host[..over.length]);
    let ran = best(|| {
        let said = strlib::run(black_box(&store), over, black_box(&table)).unwrap();
        assert!(said.note.is_some() && said.read <= 100);
    });
    let searched = best(|| {
        let found = strlib::search(black_box(&store), over, &pointers).unwrap();
        assert!(found.is_some_and(|found| found.matched.start == over.start + at));
    });
    let what = format!("run, {}, found in the first 100", list.name);
    row(&what, "the library's plain search", ran, searched);
    row(&what, "the run of a host without them", ran, to_the_end);
}

#[cfg(not(feature = "peers"))]
fn with_aho(_: &Lists, _: &[u8], _: Duration, _: Duration) {}

#[cfg(feature = "peers")]
fn with_aho(list: &Lists, host: &[u8], translated: Duration, ran: Duration) {
    let name = list.name;
    let built = best(|| {
        black_box(peers::aho::build(black_box(&list.strings), false));
    });
    row(
        &format!("translate, {name}"),
        "aho-corasick: build of a DFA",
        translated,
        built,
    );
    for (prefilter, said) in [(false, "no prefilter"), (true, "with its prefilter")] {
        let peer = peers::aho::build(&list.strings, prefilter);
        let found = best(|| assert!(black_box(&peer).find(black_box(host)).is_none()));
        row(
            &format!("run, {name}"),
            &format!("aho-corasick: DFA, {said}"),
            ran,
            found,
        );
    }
}

/// A file of 65 MB, as many lines; a tenth of them name a channel near their end.
fn file(list: &Lists) {
    let path = std::env::temp_dir().join(format!("strlib-bench-{}", std::process::id()));
    let mut text = Vec::new();
    for i in 0..LINES {
        let mut line = remarks(LINE);
        if i % 10 == 0 {
            line[LINE - 9..LINE - 4].copy_from_slice(b"CELLO");
        }
        text.extend_from_slice(&line);
        text.push(b'\n');
    }
    fs::write(&path, &text).unwrap();
    let (store, pointers) = store_of(&list.strings);
    let mut table = vec![0; TABLE_MIN];
    let mut ours = Duration::MAX;
    let mut scanned = Duration::MAX;
    for _ in 0..5 {
        let from = Instant::now();
        let bytes = fs::read(&path).unwrap();
        let read = from.elapsed();
        strlib::translate(&store, &pointers, &mut table).unwrap();
        let lines = bytes[..bytes.len() - 1].split(|b| *b == b'\n');
        let found = lines.filter(|line| {
            strlib::run(line, full(0, line.len()), &table)
                .unwrap()
                .note
                .is_some()
        });
        assert_eq!(found.count(), LINES / 10);
        let took = from.elapsed();
        ours = ours.min(took);
        scanned = scanned.min(took - read);
    }
    let grep = (0..5)
        .filter_map(|_| peers::grep(&list.strings, &path))
        .min();
    if let Some((took, count)) = grep {
        assert_eq!(count, LINES / 10);
        row(
            "read and run, 1,000 lines of 65,535",
            "GNU grep -F -c, its start included",
            ours,
            took,
        );
    }
    let python = (0..3)
        .filter_map(|_| peers::python(&list.strings, &path))
        .min();
    if let Some((took, count)) = python {
        assert_eq!(count, LINES / 10);
        row(
            "run, 1,000 lines of 65,535",
            "Python re.search, an alternation",
            scanned,
            took,
        );
    }
    fs::remove_file(&path).unwrap();
}
