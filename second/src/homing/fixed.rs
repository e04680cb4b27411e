//! Fixed cases of going home (request 2026-06): lines and words worked out by hand, every byte of a
//! small pool, and every line of the refusals.

use crate::banks::fixed::{case, dump};
use crate::calls;
use crate::cases::ProbeCase;
use crate::layout::{get4, put4, small_bin_word, SMALL_NEXT};
use crate::levels::pool_after;
use crate::script::Script;

const FILLER: u8 = 238;
/// A word of such bytes.
const OLD: u32 = 0xeeee_eeee;

/// A name, requests on a fresh pool of 1,024 bytes of 238, none of them refused, and words behind them.
type Words = (&'static str, &'static str, &'static [(usize, u32)]);

/// 8 at 1016, 16 at 1000, 8 at 992, 16 at 976, 8 at 968 and 32 at E = 936.
const SIX: &str = "T 4, T 12, T 4, T 12, T 4, T 28";

const BY_HAND: [Words; 4] = [
    (
        // Bin 8 is 1016, 968 and bin 16 is 976; 992 and 1000 are held. 936, 968 and 976 go home.
        "up to a held block, from two bins",
        "T 4, T 12, T 4, T 12, T 4, T 28, G 972, G 1020, G 980, G 940",
        &[
            (0, 828),
            (24, 992),
            (168, 4 * 824 + 2),
            (32, 1016),
            (40, 0),
            (56, 0),
            // The given-back block as it was held, the others as they were free.
            (936, 4 * 32 + 3),
            (940, OLD),
            (968, 4 * 8 + 2),
            (972, 0),
            (976, 4 * 16 + 2),
            (980, 0),
            // The link led to 968.
            (1016, 4 * 8 + 2),
            (1020, 0),
        ],
    ),
    (
        // Bin 8 is 992, 1016, 984, 1008, and 1000 is held: 1016 becomes first and leads to 1008.
        "every second block of a list",
        "T 4, T 4, T 4, T 4, T 4, T 4, G 1012, G 988, G 1020, G 996, G 980",
        &[
            (0, 844),
            (24, 1000),
            (168, 4 * 832 + 2),
            (32, 1016),
            (976, 4 * 8 + 3),
            (984, 4 * 8 + 2),
            (988, 1008),
            (992, 4 * 8 + 2),
            (996, 1016),
            (1016 + 4, 1008),
            (1008 + 4, 0),
        ],
    ),
    (
        // Three of three, up to n: nothing but a fresh pool's words is governed.
        "up to n",
        "T 4, T 4, T 4, G 1020, G 1012, G 1004",
        &[
            (0, 852),
            (24, 1024),
            (168, 4 * 856 + 2),
            (32, 0),
            (1000, 4 * 8 + 3),
            (1004, OLD),
            (1008, 4 * 8 + 2),
            (1012, 1016),
            (1016, 4 * 8 + 2),
            (1020, 0),
        ],
    ),
    (
        // A block of its own size stays free above a held one.
        "alone",
        "T 4, T 4, T 4, G 1020, G 1004",
        &[
            (0, 844),
            (24, 1008),
            (168, 4 * 840 + 2),
            (32, 1016),
            (1000, 4 * 8 + 3),
            (1004, OLD),
            (1016, 4 * 8 + 2),
            (1020, 0),
        ],
    ),
];

/// The words that turn a pool after `SIX` and some give-backs into one by the old rule, in which the
/// block at E = 936 was given back too; then what bringing in answers, and words behind it.
type OldWords =
    (&'static str, &'static str, &'static [(usize, u32)], usize, &'static [(usize, u32)]);

const OLD_BY_HAND: [OldWords; 3] = [
    (
        "three go home, from three bins",
        "G 972, G 1020, G 980",
        &[(0, 828), (56, 936), (936, 4 * 32 + 2), (940, 0)],
        3,
        &[
            (0, 828),
            (24, 992),
            (168, 4 * 824 + 2),
            (32, 1016),
            (40, 0),
            (56, 0),
            (936, 4 * 32 + 2),
            (940, 0),
            (944, OLD),
            (972, 0),
            (980, 0),
            (1020, 0),
        ],
    ),
    (
        "one goes home",
        "G 1020, G 1004",
        &[(0, 820), (56, 936), (936, 4 * 32 + 2), (940, 0)],
        1,
        &[
            (0, 820),
            (24, 968),
            (168, 4 * 800 + 2),
            (32, 1016),
            (40, 1000),
            (56, 0),
            (936, 4 * 32 + 2),
            (940, 0),
            (968, 4 * 8 + 3),
        ],
    ),
    (
        // Bin 8 is 992, 968, 1016 and bin 16 is 1000, 976.
        "all six go home",
        "G 980, G 1020, G 972, G 1004, G 996",
        &[(0, 852), (56, 936), (936, 4 * 32 + 2), (940, 0)],
        6,
        &[
            (0, 852),
            (24, 1024),
            (168, 4 * 856 + 2),
            (32, 0),
            (40, 0),
            (56, 0),
            (940, 0),
            (992 + 4, 968),
            (968 + 4, 1016),
            (1000 + 4, 976),
        ],
    ),
];

/// On a layout, the pool by the old rule.
fn old_pool(layout: u32, given_back: &str, words: &[(usize, u32)]) -> Vec<u8> {
    let requests = format!("{}, {}", SIX, given_back);
    let mut pool = pool_after(vec![FILLER; 1024], layout, &requests);
    words.iter().for_each(|(at, value)| put4(&mut pool, *at, *value));
    pool
}

fn wrong_word(pool: &[u8], words: &[(usize, u32)]) -> Option<String> {
    let wrong = words.iter().find(|(at, value)| get4(pool, *at) != *value);
    wrong.map(|(at, value)| format!("the word at {} is not {}", at, value))
}

/// Each case on both layouts, and the first of its words that is not as it was worked out.
pub fn words_by_hand() -> Vec<(String, Option<String>)> {
    let mut found = Vec::new();
    for layout in [1, 2] {
        for (name, requests, words) in BY_HAND {
            let pool = pool_after(vec![FILLER; 1024], layout, requests);
            let name = format!("going home, {}, layout {}", name, layout);
            found.push((name, wrong_word(&pool, words)));
        }
        for (name, given_back, old, count, words) in OLD_BY_HAND {
            let mut pool = old_pool(layout, given_back, old);
            let wrong = match calls::bring_in(&mut pool) {
                Ok(went) if went == count => wrong_word(&pool, words),
                other => Some(format!("brought in: {:?}", other)),
            };
            found.push((format!("bringing in, {}, layout {}", name, layout), wrong));
        }
    }
    found
}

pub fn cases() -> Vec<ProbeCase> {
    let mut cases = vec![lines(), order_of_a_list(), every_byte(), refusals(), rings()];
    for (name, requests, _) in BY_HAND {
        for layout in [None, Some(2)] {
            let image = vec![FILLER; 1024];
            cases.push(crate::cases::calls_then_dump(name, image, layout, requests));
        }
    }
    for layout in [1, 2] {
        for (name, given_back, old, count, _) in OLD_BY_HAND {
            let name = format!("{}, layout {}", name, layout);
            cases.push(brought_in(&name, &old_pool(layout, given_back, old), count));
        }
    }
    cases
}

fn lines() -> ProbeCase {
    case(
        "blocks at E go home",
        &[
            ("I 1024", "I 0 1024"),
            ("L", "L 0 1024"),
            ("H", "H 0 0"),
            ("T 4", "T 0 1020"),
            ("T 4", "T 0 1012"),
            ("T 4", "T 0 1004"),
            ("T 4", "T 0 996"),
            ("G 1012", "G 0 4"),
            ("S", "S 0 3 24 1 0 824 828 812"),
            ("H", "H 0 0"),
            // 992 alone: 1000 is held.
            ("G 996", "G 0 4"),
            ("S", "S 0 2 16 1 0 832 836 820"),
            ("G 996", "G 5 0"),
            // 1000 and 1008.
            ("G 1004", "G 0 4"),
            ("S", "S 0 1 8 0 0 848 844 836"),
            ("A 1012", "A 5 0"),
            ("A 1020", "A 0 4"),
            ("H", "H 0 0"),
            ("G 1020", "G 0 4"),
            ("S", "S 0 0 0 0 0 856 852 844"),
            ("N", "N 0 1024"),
            // A large give-back sends nothing home, and what is above a held block stays.
            ("T 4", "T 0 1020"),
            ("T 4", "T 0 1012"),
            ("T 100", "T 0 172"),
            ("G 1020", "G 0 4"),
            ("G 172", "G 0 100"),
            ("S", "S 0 1 8 1 0 840 844 828"),
            ("Y 1", "Y 0 1024"),
            ("G 1012", "G 0 4"),
            ("S", "S 0 0 0 0 0 856 852 844"),
        ],
    )
}

/// Bin 8 is 992, 1016, 984, 1008 above the block at E = 976, and 1000 is held.
fn order_of_a_list() -> ProbeCase {
    case(
        "the blocks that stay keep their order",
        &[
            ("I 1024", "I 0 1024"),
            ("L", "L 0 1024"),
            ("T 4", "T 0 1020"),
            ("T 4", "T 0 1012"),
            ("T 4", "T 0 1004"),
            ("T 4", "T 0 996"),
            ("T 4", "T 0 988"),
            ("T 4", "T 0 980"),
            ("G 1012", "G 0 4"),
            ("G 988", "G 0 4"),
            ("G 1020", "G 0 4"),
            ("G 996", "G 0 4"),
            ("G 980", "G 0 4"),
            ("S", "S 0 1 8 2 0 832 844 820"),
            ("T 4", "T 0 1020"),
            ("T 4", "T 0 1012"),
            ("T 4", "T 0 996"),
        ],
    )
}

/// A pool of 200 bytes: two blocks of 8, the upper one given back, then the lower one at E = 184; and
/// the same by the old rule, brought in.
fn every_byte() -> ProbeCase {
    let mut pool = vec![FILLER; 200];
    pool[..168].fill(0);
    for (at, word) in [(0, 20), (8, 96), (16, 168), (24, 184), (108, 1), (168, 4 * 16 + 2)] {
        put4(&mut pool, at, word);
    }
    for (at, word) in [(184, 4 * 8 + 3), (192, 4 * 8 + 2), (196, 0), (32, 192)] {
        put4(&mut pool, at, word);
    }
    let one_free = dump(&pool);
    let mut home = pool.clone();
    for (at, word) in [(0, 28), (24, 200), (32, 0), (168, 4 * 32 + 2)] {
        put4(&mut home, at, word);
    }
    let mut old = pool.clone();
    for (at, word) in [(0, 28), (32, 184), (184, 4 * 8 + 2), (188, 192)] {
        put4(&mut old, at, word);
    }
    let mut brought = old.clone();
    for (at, word) in [(24, 200), (32, 0), (168, 4 * 32 + 2)] {
        put4(&mut brought, at, word);
    }
    let mut whole = case(
        "every byte of a small pool, home and brought in",
        &[
            ("I 200", "I 0 200"),
            ("L", "L 0 200"),
            ("T 4", "T 0 196"),
            ("T 4", "T 0 188"),
            ("G 196", "G 0 4"),
            ("D", &one_free),
            ("H", "H 0 0"),
            ("D", &one_free),
            ("G 188", "G 0 4"),
            ("D", &dump(&home)),
        ],
    );
    let mut script = Script::new();
    script.image(&old).plain(b'H').plain(b'D').plain(b'H').plain(b'D').plain(b'N');
    whole.input.extend(script.input);
    let more = format!("I 0 200\nH 0 2\n{0}\nH 0 0\n{0}\nN 0 200\n", dump(&brought));
    whole.lines = whole.lines.map(|lines| lines + &more);
    whole
}

/// Every other call refuses the pool until it is brought in, and changes nothing.
fn brought_in(name: &str, old: &[u8], count: usize) -> ProbeCase {
    let mut script = Script::new();
    script.image(old).plain(b'N').number(b'T', 4).number(b'T', 0).number(b'T', 100);
    script.number(b'G', 996).number(b'G', 940).number(b'G', 3).number(b'A', 996).number(b'P', 996);
    script.write_part(996, &[1, 2, 3]).plain(b'S').number(b'C', 53).number(b'C', 52);
    script.number(b'Y', 1).number(b'Y', 2).number(b'Y', 3).plain(b'D');
    let sevens = |k: usize| " 7".repeat(k);
    let mut lines = format!(
        "I 0 1024\nN 2 0\nT 2 0\nT 2 0\nT 2 0\nG 2 0\nG 2 0\nG 2 0\nA 2 0\nP 2 0 0 -\nW 2 0 0\n\
         S 2 0\nC 2 0{}\nC 2 0{}\nY 2 0\nY 2 0\nY 8 0\n{}\n",
        sevens(53),
        sevens(52),
        dump(old)
    );
    script.plain(b'H').plain(b'N').plain(b'H').number(b'T', 0).number(b'G', 940);
    lines.push_str(&format!("H 0 {}\nN 0 1024\nH 0 0\nT 3 0\nG 5 0\n", count));
    let name = format!("brought in: {}", name);
    ProbeCase { name, input: script.input, lines: Some(lines) }
}

/// 1, then 2 by the old rule; nothing changes. Of every image what bringing in answers.
fn refusals() -> ProbeCase {
    let (_, given_back, words, _, _) = OLD_BY_HAND[0];
    let mut images: Vec<(Vec<u8>, &str)> = vec![(Vec::new(), "H 1 0")];
    for layout in [1, 2] {
        let old = old_pool(layout, given_back, words);
        let with = |changes: &[(usize, u32)]| {
            let mut pool = old.clone();
            changes.iter().for_each(|(at, value)| put4(&mut pool, *at, *value));
            pool
        };
        images.extend([
            (old[..168].to_vec(), "H 1 0"),
            (old[..1020].to_vec(), "H 1 0"),
            ([&old[..], &[0; 4]].concat(), "H 1 0"),
            // Shorter, and no block ends there.
            (old[..1016].to_vec(), "H 2 0"),
            (vec![FILLER; 1024], "H 2 0"),
            (with(&[(0, 829)]), "H 2 0"),
            (with(&[(4, 1)]), "H 2 0"),
            (with(&[(108, 2)]), "H 2 0"),
            // E elsewhere, and the remainder's head with it, as if 936 had gone home already.
            (with(&[(24, 968), (168, 4 * 800 + 2)]), "H 2 0"),
            // The same with the block out of its bin: it is home.
            (with(&[(24, 968), (168, 4 * 800 + 2), (56, 0)]), "H 0 2"),
            // The block at E in no bin, in another bin, with P = 0, and held and in a bin.
            (with(&[(56, 0)]), "H 2 0"),
            (with(&[(56, 0), (64, 936)]), "H 2 0"),
            (with(&[(936, 4 * 32)]), "H 2 0"),
            (with(&[(936, 4 * 32 + 3)]), "H 2 0"),
            // What would go home is in order, and a list above it is not.
            (with(&[(1020, 992)]), "H 2 0"),
            (with(&[(1000, 4 * 16 + 2)]), "H 2 0"),
        ]);
    }
    let mut script = Script::new();
    let mut lines = String::new();
    for (image, line) in images {
        script.image(&image).plain(b'H');
        lines.push_str(&format!("I 0 {}\n{}\n", image.len(), line));
        if line != "H 0 2" {
            script.plain(b'D');
            let dumped = if image.is_empty() { "D 0 0 -".to_string() } else { dump(&image) };
            lines.push_str(&format!("{}\n", dumped));
        }
    }
    ProbeCase { name: "bring-ins refused".to_string(), input: script.input, lines: Some(lines) }
}

/// Lists of blocks that would go home, closed into rings: no call may follow them for ever.
fn rings() -> ProbeCase {
    // Bin 8 is 992, 968, 1016 and bin 16 is 1000, 976, all free up to n.
    let (_, given_back, words, _, _) = OLD_BY_HAND[2];
    let old = old_pool(1, given_back, words);
    let mut script = Script::new();
    let mut lines = String::new();
    for (at, to) in [
        (1016 + SMALL_NEXT, 992),
        (1016 + SMALL_NEXT, 968),
        (968 + SMALL_NEXT, 968),
        (976 + SMALL_NEXT, 1000),
        (936 + SMALL_NEXT, 936),
        (small_bin_word(24), 936),
    ] {
        let mut pool = old.clone();
        put4(&mut pool, at, to);
        script.image(&pool).plain(b'N').plain(b'H').plain(b'D');
        lines.push_str(&format!("I 0 1024\nN 2 0\nH 2 0\n{}\n", dump(&pool)));
    }
    ProbeCase { name: "rings at E".to_string(), input: script.input, lines: Some(lines) }
}
