//! Fixed cases: the worked tape, both sides of the edge, what is easy to get wrong, unreadable
//! records and the probe's own edges. Lines worked out by hand stand beside their case.

use crate::conversion;
use crate::homing;
use crate::layout::{self, distance, put4, NEXT, PREVIOUS, SMALL_NEXT};
use crate::levels;
use crate::script::Script;
use crate::state::Layout;
use crate::tape::{Request, LONGEST};

pub struct TapeCase {
    pub name: String,
    pub tape: Vec<u8>,
    /// The whole output, where it was worked out by hand.
    pub lines: Option<String>,
}

pub struct ProbeCase {
    pub name: String,
    pub input: Vec<u8>,
    pub lines: Option<String>,
}

/// A random case for the probe, whose calls were held to laws as it was made.
pub struct LawCase {
    pub name: String,
    pub input: Vec<u8>,
    /// Laws that this program itself broke.
    pub faults: Vec<String>,
}

/// Name, number of cases, and what makes the numbered case of a seed and counts the branches that it
/// takes.
pub type Group<Counts> = (&'static str, u64, fn(u64, u64, &mut Counts) -> LawCase);

pub const WORKED_TAPE: &str =
    "L 1024, T 10, T 100, T 61, T 200, G 172, T 32, T 72, G 172, G 276, T 100, G 556, S";

pub const WORKED_LINES: &str = "\
1 L 0 1024
2 T 0 1012
3 T 0 172
4 T 0 276
5 T 0 348
6 G 0 100
7 T 0 972
8 T 0 556
9 G 5 0
10 G 0 68
11 T 0 172
12 G 0 76
13 S 0 4 368 0 1 416 484 404
";

/// A tape written as requests: letter and number, split at commas.
pub fn tape_of(requests: &str) -> Vec<u8> {
    let mut tape = Vec::new();
    for request in requests.split(',') {
        let mut words = request.split_whitespace();
        let letter = words.next().expect("a request has a letter");
        let number = words.next().map_or(0, |word| word.parse().expect("a 32-bit number"));
        let request = match letter {
            "L" => Request::LayOut(Layout::One, number),
            "M" => Request::LayOut(Layout::Two, number),
            "T" => Request::Take(number),
            "G" => Request::GiveBack(number),
            "S" => Request::Figures,
            _ => panic!("no request has the letter {}", letter),
        };
        request.append_to(&mut tape);
    }
    tape
}

/// Answers written without record numbers, split at commas, as the lines of a tape.
fn lines_of(answers: &str) -> String {
    let numbered = answers.split(',').enumerate();
    numbered.map(|(index, answer)| format!("{} {}\n", index + 1, answer.trim())).collect()
}

/// Name, requests, answers.
const BY_HAND: [(&str, &str, &str); 40] = [
    ("s = 1 and 4 need 8", "L 1024, T 1, T 4", "L 0 1024, T 0 1020, T 0 1012"),
    ("5 and 12 need 16", "L 1024, T 5, T 12", "L 0 1024, T 0 1012, T 0 996"),
    ("60 needs 64", "L 1024, T 60, G 964", "L 0 1024, T 0 964, G 0 60"),
    ("61 needs 72", "L 1024, T 61, G 172", "L 0 1024, T 0 172, G 0 68"),
    ("0 is refused with 3", "L 1024, T 0, S", "L 0 1024, T 3 0, S 0 0 0 0 0 856 852 844"),
    ("n = 176", "L 176, S, T 1, T 0", "L 0 176, S 0 0 0 0 0 8 4 0, T 4 0, T 3 0"),
    ("n = 168", "L 168, S", "L 1 0, S 1 0"),
    ("n = 175", "L 175, S", "L 1 0, S 1 0"),
    ("n = 65,544", "L 65544, S", "L 1 0, S 1 0"),
    ("n = 65,536", "L 65536, S", "L 0 65536, S 0 0 0 0 0 65368 65364 65356"),
    ("greatest held block", "L 65536, T 65356, G 172", "L 0 65536, T 0 172, G 0 65356"),
    ("one byte above it", "L 65536, T 65357", "L 0 65536, T 4 0"),
    ("fresh 1,024", "L 1024, S", "L 0 1024, S 0 0 0 0 0 856 852 844"),
    ("remainder 16, b = 8", "L 184, T 1, S", "L 0 184, T 0 180, S 0 1 8 0 0 8 4 0"),
    ("remainder 16, b = 16", "L 184, T 5, S", "L 0 184, T 4 0, S 0 0 0 0 0 16 12 4"),
    (
        "free large 144 and remainder 8, b = 72",
        "L 392, T 140, T 68, G 172, T 68, S",
        "L 0 392, T 0 172, T 0 316, G 0 140, T 0 172, S 0 2 144 0 1 8 76 68",
    ),
    (
        "free large 144 and remainder 8, b = 144",
        "L 392, T 140, T 68, G 172, T 140, S",
        "L 0 392, T 0 172, T 0 316, G 0 140, T 0 172, S 0 2 216 0 0 8 4 0",
    ),
    (
        "free large 144 and remainder 8, b = 80, then the larger 144 passes",
        "L 392, T 140, T 68, G 172, T 76, T 140",
        "L 0 392, T 0 172, T 0 316, G 0 140, T 4 0, T 0 172",
    ),
    (
        "176 bytes are not given for 112",
        "L 424, T 172, T 68, G 172, T 108, S",
        "L 0 424, T 0 172, T 0 348, G 0 172, T 4 0, S 0 1 72 0 1 8 180 172",
    ),
    (
        "a joined neighbour leaves its bin",
        "L 1024, T 68, T 68, T 68, T 68, G 244, G 172, T 68, T 140, S",
        "L 0 1024, T 0 172, T 0 244, T 0 316, T 0 388, G 0 68, G 0 68, T 0 172, T 0 460, \
         S 0 4 360 0 1 424 492 412",
    ),
    (
        "the chain is mended when a joined neighbour was first",
        "L 1024, T 68, T 68, T 76, T 68, T 84, T 68, G 172, G 316, G 468, G 244, T 84, T 76, S",
        "L 0 1024, T 0 172, T 0 244, T 0 316, T 0 396, T 0 468, T 0 556, G 0 68, G 0 76, \
         G 0 84, G 0 68, T 0 468, T 0 172, S 0 4 312 0 1 400 540 388",
    ),
    (
        "old heads inside a free run are no starts",
        "L 1024, T 68, T 68, T 68, G 244, G 172, G 244, T 140, G 244, G 172",
        "L 0 1024, T 0 172, T 0 244, T 0 316, G 0 68, G 0 68, G 5 0, T 0 172, G 5 0, G 0 140",
    ),
    (
        "take, give back and figures before any L",
        "T 8, T 0, G 172, G 0, S, L 1024, T 8",
        "T 1 0, T 1 0, G 1 0, G 1 0, S 1 0, L 0 1024, T 0 1012",
    ),
    (
        "a refused L keeps the old pool",
        "L 1024, T 10, L 168, L 65544, L 4294967288, S",
        "L 0 1024, T 0 1012, L 1 0, L 1 0, L 1 0, S 0 1 16 0 0 840 836 828",
    ),
    (
        "L again over an old pool",
        "L 1024, T 100, T 10, L 512, G 172, S, L 2048, G 172, S",
        "L 0 1024, T 0 172, T 0 1012, L 0 512, G 5 0, S 0 0 0 0 0 344 340 332, L 0 2048, G 5 0, \
         S 0 0 0 0 0 1880 1876 1868",
    ),
    (
        "sizes near 2^32",
        "L 1024, T 4294967295, T 4294967292, T 4294967284, T 2147483648, T 65536",
        "L 0 1024, T 4 0, T 4 0, T 4 0, T 4 0, T 4 0",
    ),
    (
        "offsets near 2^32 and past n",
        "L 1024, G 4294967295, G 4294967292, G 1024, G 1028, G 0, G 3, G 100, G 172",
        "L 0 1024, G 5 0, G 5 0, G 5 0, G 5 0, G 5 0, G 5 0, G 5 0, G 5 0",
    ),
    (
        "small blocks are not taken from larger bins or free large blocks",
        "L 400, T 60, T 4, T 68, T 68, G 340, G 172, T 5, S, T 60, T 68, T 5",
        "L 0 400, T 0 340, T 0 332, T 0 172, T 0 244, G 0 60, G 0 68, T 4 0, \
         S 0 2 80 1 1 16 148 68, T 0 340, T 0 172, T 4 0",
    ),
    (
        "the largest grant is the remainder's, which keeps 8 bytes",
        "L 1024, S, T 852, T 845, T 844, S, T 1",
        "L 0 1024, S 0 0 0 0 0 856 852 844, T 4 0, T 4 0, T 0 172, S 0 1 848 0 0 8 4 0, T 4 0",
    ),
    (
        "the largest grant is a large bin's, where the remainder is as large",
        "L 528, T 140, T 68, G 172, S, T 141, T 140, S",
        "L 0 528, T 0 172, T 0 316, G 0 140, S 0 1 72 0 1 144 284 140, T 4 0, T 0 172, \
         S 0 2 216 0 0 144 140 132",
    ),
    (
        "the largest grant is a small bin's",
        "L 256, T 4, T 60, T 4, G 252, S, G 188, S, T 61, T 60, S, T 4, S, G 180, S",
        "L 0 256, T 0 252, T 0 188, T 0 180, G 0 4, S 0 2 72 1 0 8 12 4, G 0 60, \
         S 0 1 8 2 0 8 76 60, T 4 0, T 0 188, S 0 2 72 1 0 8 12 4, T 0 252, S 0 3 80 0 0 8 4 0, \
         G 0 4, S 0 2 72 0 0 16 12 4",
    ),
    (
        "the largest grant of the worked tape",
        "L 1024, T 10, T 100, T 61, T 200, G 172, T 32, T 72, G 172, G 276, T 100, G 556, S, \
         T 412, T 405, T 404, S",
        "L 0 1024, T 0 1012, T 0 172, T 0 276, T 0 348, G 0 100, T 0 972, T 0 556, G 5 0, \
         G 0 68, T 0 172, G 0 76, S 0 4 368 0 1 416 484 404, T 4 0, T 4 0, T 0 556, \
         S 0 5 776 0 1 8 76 68",
    ),
    (
        "a small bin is last in, first out",
        "L 1024, T 4, T 4, T 4, T 4, G 1012, G 1020, G 1004, T 4, T 4, T 4",
        "L 0 1024, T 0 1020, T 0 1012, T 0 1004, T 0 996, G 0 4, G 0 4, G 0 4, T 0 1004, T 0 1020, \
         T 0 1012",
    ),
    (
        "the second of a large bin is used, and entering is at second place",
        "L 1024, T 68, T 76, T 68, T 76, T 68, T 76, G 172, G 324, G 476, T 68, T 68, T 68",
        "L 0 1024, T 0 172, T 0 244, T 0 324, T 0 396, T 0 476, T 0 548, G 0 68, G 0 68, G 0 68, \
         T 0 476, T 0 324, T 0 172",
    ),
    (
        "the worked tape on layout 2",
        "M 1024, T 10, T 100, T 61, T 200, G 172, T 32, T 72, G 172, G 276, T 100, G 556, S",
        "M 0 1024, T 0 1012, T 0 172, T 0 276, T 0 348, G 0 100, T 0 972, T 0 556, G 5 0, \
         G 0 68, T 0 172, G 0 76, S 0 4 368 0 1 416 484 404",
    ),
    ("M of lengths that are not allowed", "M 0, M 168, M 175, S", "M 1 0, M 1 0, M 1 0, S 1 0"),
    ("M of the least and the greatest", "M 176, M 65536, M 65544", "M 0 176, M 0 65536, M 1 0"),
    (
        "a refused M keeps the old pool, of either layout",
        "L 1024, T 10, M 168, S, M 1024, T 10, M 65544, L 177, S",
        "L 0 1024, T 0 1012, M 1 0, S 0 1 16 0 0 840 836 828, M 0 1024, T 0 1012, M 1 0, L 1 0, \
         S 0 1 16 0 0 840 836 828",
    ),
    (
        "M over an old pool, and L over that",
        "L 1024, T 100, T 68, G 172, M 512, G 172, T 100, T 68, G 172, S, L 1024, G 172, S",
        "L 0 1024, T 0 172, T 0 276, G 0 100, M 0 512, G 5 0, T 0 172, T 0 276, G 0 100, \
         S 0 1 72 0 1 168 268 156, L 0 1024, G 5 0, S 0 0 0 0 0 856 852 844",
    ),
    (
        // 32,768 at 168, 16,384 at 33,008.
        "bins of heights 13 and 12",
        "M 65536, T 32764, T 68, T 16380, T 68, G 172, G 33012, T 16380, T 32764, T 32764, S",
        "M 0 65536, T 0 172, T 0 32940, T 0 33012, T 0 49396, G 0 32764, G 0 16380, T 0 33012, \
         T 0 172, T 4 0, S 0 4 49296 0 0 16072 16068 16060",
    ),
];

pub fn worked_tape() -> TapeCase {
    TapeCase {
        name: "the worked tape".to_string(),
        tape: tape_of(WORKED_TAPE),
        lines: Some(WORKED_LINES.to_string()),
    }
}

pub fn tape_cases() -> Vec<TapeCase> {
    let mut cases: Vec<TapeCase> = BY_HAND
        .iter()
        .map(|(name, requests, answers)| TapeCase {
            name: name.to_string(),
            tape: tape_of(requests),
            lines: Some(lines_of(answers)),
        })
        .collect();
    cases.extend(unreadable_cases());
    cases.extend(length_cases());
    cases
}

fn unreadable_cases() -> Vec<TapeCase> {
    let mut cases = Vec::new();
    let pool = tape_of("L 1024, T 10");
    let done = "1 L 0 1024\n2 T 0 1012\n";
    for kind in [0u8, 6, 7, 10, 48, 76, 77, 84, 127, 128, 129, 255] {
        let record = [kind, 0, 4, 0, 0];
        for behind in [0, 4] {
            cases.push(unreadable(&[], "", &record[..1 + behind]));
            cases.push(unreadable(&pool, done, &record[..1 + behind]));
        }
    }
    for kind in [1u8, 2, 3, 5] {
        for body in 0..4 {
            let record = [kind, 0, 4, 0];
            cases.push(unreadable(&[], "", &record[..1 + body]));
            cases.push(unreadable(&pool, done, &record[..1 + body]));
        }
    }
    let mut middle = pool.clone();
    middle.push(9);
    middle.extend(tape_of("T 10, S"));
    cases.push(TapeCase {
        name: "another kind in the middle".to_string(),
        tape: middle,
        lines: Some(format!("{}3 X 7 0\n", done)),
    });
    cases
}

fn unreadable(before: &[u8], done: &str, record: &[u8]) -> TapeCase {
    let place = done.lines().count() + 1;
    TapeCase {
        name: format!("record {} with bytes {:?}", place, record),
        tape: [before, record].concat(),
        lines: Some(format!("{}{} X 7 0\n", done, place)),
    }
}

fn length_cases() -> Vec<TapeCase> {
    let case = |name: &str, tape: Vec<u8>, lines: Option<&str>| TapeCase {
        name: name.to_string(),
        tape,
        lines: lines.map(str::to_string),
    };
    let pool = tape_of("L 1024");
    let filled = |length: usize| {
        let mut tape = pool.clone();
        tape.resize(length, 4);
        tape
    };
    let mut takes = tape_of("L 65536");
    while takes.len() + 5 <= LONGEST {
        takes.extend(tape_of("T 4"));
    }
    vec![
        case("the empty tape", Vec::new(), Some("")),
        case("32,768 bytes", filled(LONGEST), None),
        case("32,768 bytes of figures without a pool", vec![4; LONGEST], None),
        case("32,768 bytes, the last record short", [filled(LONGEST - 1), vec![2]].concat(), None),
        case("as many takes as a tape holds", takes, None),
        case("32,769 bytes", filled(LONGEST + 1), Some("0 X 7 0\n")),
        case("32,769 bytes, the first unreadable", vec![0; LONGEST + 1], Some("0 X 7 0\n")),
        case("100,000 bytes", filled(100_000), Some("0 X 7 0\n")),
        case("32,768 bytes, the first unreadable", vec![0; LONGEST], Some("1 X 7 0\n")),
    ]
}

/// Cases of the paper that only the bytes show.
pub fn probe_cases() -> Vec<ProbeCase> {
    let mut cases = vec![
        calls_then_dump("fresh 1,024 over zeros", vec![0; 1024], None, ""),
        calls_then_dump("fresh 1,024 over 255s", vec![255; 1024], None, ""),
        calls_then_dump("first block held, 104 bytes", vec![0; 1024], None, "T 100"),
        calls_then_dump("held 72 above a free 104", vec![0; 1024], None, "T 100, T 68, G 172"),
        calls_then_dump("free equals at 168 and 400", vec![255; 1024], None, EQUALS),
        calls_then_dump("the worked tape's bytes", vec![170; 1024], None, &WORKED_TAPE[8..]),
        class_case(),
        every_class_case(),
        false_head_case(),
    ];
    cases.extend(ring_cases());
    cases.extend(forged_cases());
    cases.extend(levels::probe_cases());
    cases.extend(conversion::fixed::cases());
    cases.extend(homing::fixed::cases());
    cases
}

pub const EQUALS: &str = "T 100, T 124, T 100, T 68, G 172, G 404";

/// Laid out by L, or by M with the number; then the requests, each with a verdict and all bytes.
pub fn calls_then_dump(
    name: &str,
    image: Vec<u8>,
    layout: Option<u32>,
    requests: &str,
) -> ProbeCase {
    let mut script = Script::new();
    script.image(&image);
    match layout {
        None => script.plain(b'L'),
        Some(number) => script.number(b'M', number),
    };
    script.plain(b'D');
    for request in requests.split(',').filter(|request| !request.is_empty()) {
        let words: Vec<&str> = request.split_whitespace().collect();
        match words[..] {
            [letter, number] => script.number(letter.as_bytes()[0], number.parse().unwrap()),
            _ => script.plain(words[0].as_bytes()[0]),
        };
        script.plain(b'N').plain(b'D');
    }
    ProbeCase { name: name.to_string(), input: script.input, lines: None }
}

/// Payloads 12 and 60 count in classes 2 and 12; the order of refusals is 1, 2, 6.
fn class_case() -> ProbeCase {
    let mut script = Script::new();
    script.number(b'C', 53).number(b'C', 52).image(&[0; 1024]).number(b'C', 52).plain(b'L');
    script.number(b'T', 12).number(b'T', 60).number(b'C', 53);
    script.number(b'C', 52).number(b'C', 54).number(b'C', 0);
    let mut counters = vec![0; 53];
    counters[2] = 1;
    counters[12] = 1;
    let all = |value: usize, k: usize| format!(" {}", value).repeat(k);
    let counted: String = counters.iter().map(|counter| format!(" {}", counter)).collect();
    let lines = format!(
        "C 1 0{}\nC 1 0{}\nI 0 1024\nC 2 0{}\nL 0 1024\nT 0 1012\nT 0 948\n\
         C 0 2{}\nC 6 0{}\nC 6 0{}\nC 6 0\n",
        all(7, 53),
        all(7, 52),
        all(7, 52),
        counted,
        all(7, 52),
        all(7, 54),
    );
    ProbeCase { name: "classes".to_string(), input: script.input, lines: Some(lines) }
}

/// Every payload that a block of a pool can have, alone in a fresh pool: the class count tells its
/// class.
fn every_class_case() -> ProbeCase {
    let mut script = Script::new();
    script.image(&[0; 65_536]);
    for payload in (4..=65_356).step_by(8) {
        script.plain(b'L').number(b'T', payload).number(b'C', 53);
    }
    ProbeCase { name: "every payload's class".to_string(), input: script.input, lines: None }
}

/// A word that looks like a head is written into a held payload; no call believes it.
fn false_head_case() -> ProbeCase {
    let mut script = Script::new();
    script.image(&[0; 1024]).plain(b'L').number(b'T', 200).number(b'T', 68);
    let word = layout::head(72, true, true).to_le_bytes();
    script.write_part(172, &[[0; 4], word].concat());
    script.number(b'G', 180).number(b'A', 180).number(b'P', 180).write_part(180, &[1]).plain(b'N');
    let lines = "I 0 1024\nL 0 1024\nT 0 172\nT 0 380\nW 0 204 204\nG 5 0\nA 5 0\nP 5 0 0 -\n\
                 W 5 0 0\nN 0 1024\n";
    ProbeCase {
        name: "a false head in a payload".to_string(),
        input: script.input,
        lines: Some(lines.to_string()),
    }
}

/// Lists that close into a ring, on the bin's first block and apart from it: never sound.
fn ring_cases() -> Vec<ProbeCase> {
    let mut pool = vec![0; 1024];
    crate::calls::lay_out(&mut pool, 1).unwrap();
    for s in [68, 76, 68, 76, 68, 76, 4, 4, 4, 4] {
        crate::calls::take(&mut pool, s).unwrap();
    }
    for offset in [172, 324, 476, 1020, 1012, 1004] {
        crate::calls::give_back(&mut pool, offset).unwrap();
    }
    // The large list is 168, 472, 320 and the small one 1000, 1008, 1016, above a held block at E.
    let words: [(&str, &[(usize, u32)]); 6] = [
        ("small ring on the first", &[(1016 + SMALL_NEXT, 1000)]),
        ("small ring behind the first", &[(1016 + SMALL_NEXT, 1008)]),
        (
            "small ring apart from the first",
            &[(1000 + SMALL_NEXT, 0), (1008 + SMALL_NEXT, 1016), (1016 + SMALL_NEXT, 1008)],
        ),
        ("large ring on the first", &[(320 + NEXT, -152i32 as u32), (168 + PREVIOUS, 152)]),
        ("large ring behind the first", &[(320 + NEXT, 152)]),
        (
            "large ring apart from the first",
            &[(168 + NEXT, 0), (320 + NEXT, 152), (472 + PREVIOUS, -152i32 as u32)],
        ),
    ];
    assert_eq!(distance(320, 472), 152);
    let mut cases = vec![verdict_case("no ring", &pool, "N 0 1024")];
    for (name, changes) in words {
        let mut image = pool.clone();
        for (at, value) in changes {
            put4(&mut image, *at, *value);
        }
        cases.push(verdict_case(name, &image, "N 2 0"));
    }
    cases
}

/// In the last bytes of the greatest pool a small bin leads to what looks like its free block, and
/// stands inside a held payload: sound only where the bin leads to the true one.
fn forged_cases() -> Vec<ProbeCase> {
    let mut pool = vec![0; 65_536];
    crate::calls::lay_out(&mut pool, 1).unwrap();
    assert_eq!(crate::calls::take(&mut pool, 4), Ok(65_532));
    assert_eq!(crate::calls::take(&mut pool, 20), Ok(65_508));
    crate::calls::give_back(&mut pool, 65_532).unwrap();
    // the head of a free block of 8 bytes, with no next one
    put4(&mut pool, 65_512, 8 << 2 | 2);
    put4(&mut pool, 65_512 + SMALL_NEXT, 0);
    let mut forged = pool.clone();
    put4(&mut forged, 32, 65_512);
    vec![
        verdict_case("a forged block beside the true one", &pool, "N 0 65536"),
        verdict_case("a forged block in place of the true one", &forged, "N 2 0"),
    ]
}

pub fn verdict_case(name: &str, image: &[u8], verdict: &str) -> ProbeCase {
    let mut script = Script::new();
    script.image(image).plain(b'N');
    let lines = Some(format!("I 0 {}\n{}\n", image.len(), verdict));
    ProbeCase { name: name.to_string(), input: script.input, lines }
}

/// Unknown letters, short bodies, counts too great, calls before any image.
pub fn probe_edges() -> Vec<ProbeCase> {
    let case =
        |name: String, input: Vec<u8>, lines: Option<String>| ProbeCase { name, input, lines };
    let stop = |done: &str| Some(format!("{}X 7 0\n", done));
    let mut cases = vec![case("no input".to_string(), Vec::new(), Some(String::new()))];
    for letter in [0, 10, 32, b'0', b'b', b'X', b'Z', b'd', b'h', b'y', b'i', b'l', b'n', b's', 255]
    {
        cases.push(case(format!("letter {}", letter), vec![letter, b'D'], stop("")));
        let after = vec![b'D', letter, b'D'];
        cases.push(case(format!("D, letter {}", letter), after, stop("D 0 0 -\n")));
    }
    let numbers = b"TGAPCMY".iter().map(|letter| (*letter, 4));
    for (letter, body) in numbers.chain([(b'I', 10), (b'W', 14)]) {
        for length in 0..body {
            let input = short_body(letter, length);
            let name = format!("{} with {} bytes of body", letter as char, length);
            cases.push(case(name, input, stop("N 1 0\n")));
        }
    }
    cases.extend(counts_too_great());
    cases.push(before_any_image());
    cases.push(empty_image());
    cases
}

/// N, then a command whose body is cut; I and W name 6 bytes to follow.
fn short_body(letter: u8, length: usize) -> Vec<u8> {
    let body: &[u8] = match letter {
        b'I' => &[6, 0, 0, 0, 1, 1, 1, 1, 1],
        b'W' => &[172, 0, 0, 0, 6, 0, 0, 0, 1, 1, 1, 1, 1],
        _ => &[8, 0, 0],
    };
    [&[b'N', letter], &body[..length]].concat()
}

fn counts_too_great() -> Vec<ProbeCase> {
    let mut cases = Vec::new();
    for n in [65_537, 65_544, 1 << 31, u32::MAX] {
        let mut script = Script::new();
        script.plain(b'N').number(b'I', n).plain(b'D');
        cases.push((format!("I of {} bytes", n), script.input));
        let mut script = Script::new();
        script.plain(b'N').number(b'W', 172);
        script.input.extend_from_slice(&n.to_le_bytes());
        cases.push((format!("W of {} bytes", n), script.input));
    }
    for k in [65, 66, 1 << 16, u32::MAX] {
        let mut script = Script::new();
        script.plain(b'N').number(b'C', k).plain(b'D');
        cases.push((format!("C of {} counters", k), script.input));
    }
    let mut whole = Script::new();
    whole.plain(b'N').number(b'I', 65_537);
    whole.input.resize(80_000, b'D');
    cases.push(("I of 65,537 bytes that are there".to_string(), whole.input));
    let lines = Some("N 1 0\nX 7 0\n".to_string());
    let case = |(name, input)| ProbeCase { name, input, lines: lines.clone() };
    cases.into_iter().map(case).collect()
}

fn every_call(script: &mut Script) {
    script
        .plain(b'L')
        .number(b'M', 2)
        .number(b'M', 9)
        .number(b'Y', 1)
        .number(b'Y', 9)
        .plain(b'H')
        .plain(b'N')
        .number(b'T', 8)
        .number(b'T', 0)
        .number(b'G', 172);
    script.number(b'A', 172).number(b'P', 172).write_part(172, &[1, 2, 3]).write_part(0, &[]);
    script.plain(b'S').number(b'C', 53).number(b'C', 0).number(b'C', 64).plain(b'D');
}

fn every_call_refused() -> String {
    let sevens = |k: usize| " 7".repeat(k);
    format!(
        "L 1 0\nM 1 0\nM 1 0\nY 1 0\nY 1 0\nH 1 0\nN 1 0\nT 1 0\nT 1 0\nG 1 0\nA 1 0\nP 1 0 0 -\n\
         W 1 0 0\nW 1 0 0\nS 1 0\nC 1 0{}\nC 1 0\nC 1 0{}\nD 0 0 -\n",
        sevens(53),
        sevens(64)
    )
}

fn before_any_image() -> ProbeCase {
    let mut script = Script::new();
    every_call(&mut script);
    let name = "all calls before any I".to_string();
    ProbeCase { name, input: script.input, lines: Some(every_call_refused()) }
}

fn empty_image() -> ProbeCase {
    let mut script = Script::new();
    script.image(&[0; 176]).image(&[]);
    every_call(&mut script);
    let lines = format!("I 0 176\nI 0 0\n{}", every_call_refused());
    let name = "all calls on an image of 0 bytes".to_string();
    ProbeCase { name, input: script.input, lines: Some(lines) }
}
