//! Fixed cases of the move (request 2026-05): what it leaves in every word that it writes or keeps,
//! worked out by hand, and every line of the refusals.

use crate::calls;
use crate::cases::ProbeCase;
use crate::layout::put4;
use crate::levels::{pool_after, wrong_word, FALSE, STEPS};
use crate::script::Script;

/// Words by hand, as in `levels`: where the first stands, and the values from there downwards.
type Words = &'static [(usize, &'static [i32])];

/// A name, the pool's length, requests on a fresh pool of layout 1 over bytes of 238, none of them
/// refused; the words behind the move to layout 2, and behind the way back.
type Case = (&'static str, usize, &'static str, Words, Words);

const FILLER: u8 = 238;
/// A word of such bytes.
const OLD: i32 = 0xeeee_eeee_u32 as i32;

const BY_HAND: [Case; 9] = [
    (
        "no bin",
        176,
        "",
        &[(108, &[13, 0, 0, 0]), (FALSE, &[0; 13]), (164, &[0])],
        &[(108, &[1, 0, 0, 0]), (FALSE, &[0; 13]), (164, &[0])],
    ),
    (
        // 72 at 168, height 1: the layouts differ in the false block's level word alone.
        "one bin of height 1",
        1024,
        "T 68, T 68, G 172",
        &[
            (108, &[13]),
            (FALSE, &[72, 0, 0, 0, 0, 0, 0, 0, 0, 0, 0, 0, 0]),
            (168 + 12, &[1]),
            (168 + 64, &[0, OLD, OLD, OLD, OLD, OLD, OLD, OLD, OLD, OLD, OLD, OLD, OLD]),
        ],
        &[
            (108, &[1]),
            (FALSE, &[72, 0, 0, 0, 0, 0, 0, 0, 0, 0, 0, 0, 0]),
            (168 + 12, &[1]),
            (168 + 64, &[0, OLD, OLD, OLD, OLD, OLD, OLD, OLD, OLD, OLD, OLD, OLD, OLD]),
        ],
    ),
    (
        // 96 at 168, height 3. Back in layout 1 the two upper words stay 0.
        "one bin of height 3",
        1024,
        "T 92, T 68, G 172",
        &[
            (108, &[13]),
            (FALSE, &[72, 72, 72, 0, 0, 0, 0, 0, 0, 0, 0, 0, 0]),
            (168 + 12, &[3]),
            (168 + 64, &[0, 0, 0, OLD, OLD, OLD, OLD, OLD, OLD, OLD, OLD, OLD, OLD]),
        ],
        &[
            (108, &[1]),
            (FALSE, &[72, 0, 0, 0, 0, 0, 0, 0, 0, 0, 0, 0, 0]),
            (168 + 12, &[1]),
            (168 + 64, &[0, 0, 0, OLD, OLD, OLD, OLD, OLD, OLD, OLD, OLD, OLD, OLD]),
        ],
    ),
    (
        // 32,768 at 168, height 13: no word of the block is left over.
        "one bin of height 13",
        65_536,
        "T 32764, T 68, G 172",
        &[(108, &[13]), (FALSE, &[72; 13]), (168 + 12, &[13]), (168 + 64, &[0; 13])],
        &[
            (108, &[1]),
            (FALSE, &[72, 0, 0, 0, 0, 0, 0, 0, 0, 0, 0, 0, 0]),
            (168 + 12, &[1]),
            (168 + 64, &[0; 13]),
        ],
    ),
    (
        // 96 at 168 and behind it at 336: of the second no word but its links is governed.
        "two blocks in one bin",
        1024,
        "T 92, T 68, T 92, T 68, G 172, G 340",
        &[
            (FALSE, &[72, 72, 72, 0, 0, 0, 0, 0, 0, 0, 0, 0, 0]),
            (168 + 12, &[3, 168, 0]),
            (168 + 64, &[0, 0, 0, OLD]),
            (336 + 64, &[OLD; 14]),
            (336 + 8, &[0, -168]),
        ],
        &[
            (FALSE, &[72, 0, 0, 0, 0, 0, 0, 0, 0, 0, 0, 0, 0]),
            (168 + 12, &[1, 168, 0]),
            (168 + 64, &[0, 0, 0, OLD]),
            (336 + 64, &[OLD; 14]),
            (336 + 8, &[0, -168]),
        ],
    ),
    (
        // 72 at 168, 80 at 312, 96 at 464, 128 at 632: heights 1, 2, 3 and 5.
        "four bins",
        1024,
        STEPS,
        &[
            (108, &[13]),
            (FALSE, &[72, 216, 368, 536, 536, 0, 0, 0, 0, 0, 0, 0, 0]),
            (168 + 12, &[1]),
            (168 + 64, &[144, OLD]),
            (312 + 12, &[2]),
            (312 + 64, &[152, 152, OLD]),
            (464 + 12, &[3]),
            (464 + 64, &[168, 168, 168, OLD]),
            (632 + 12, &[5]),
            (632 + 64, &[0, 0, 0, 0, 0, OLD]),
        ],
        &[
            (108, &[1]),
            (FALSE, &[72, 0, 0, 0, 0, 0, 0, 0, 0, 0, 0, 0, 0]),
            (168 + 12, &[1]),
            (168 + 64, &[144, OLD]),
            (312 + 12, &[1]),
            (312 + 64, &[152, 152, OLD]),
            (464 + 12, &[1]),
            (464 + 64, &[168, 168, 168, OLD]),
            (632 + 12, &[1]),
            (632 + 64, &[0, 0, 0, 0, 0, OLD]),
        ],
    ),
    (
        // 72 at 368, 96 at 512 and 128 at 168: up and down, and from level 2 on past the first.
        "three bins in no order",
        1024,
        "T 124, T 68, T 68, T 68, T 92, T 68, G 172, G 372, G 516",
        &[
            (FALSE, &[272, 416, 416, 72, 72, 0, 0, 0, 0, 0, 0, 0, 0]),
            (368 + 12, &[1]),
            (368 + 64, &[144, OLD]),
            (512 + 12, &[3]),
            (512 + 64, &[-344, -344, -344, OLD]),
            (168 + 12, &[5]),
            (168 + 64, &[0, 0, 0, 0, 0, OLD]),
        ],
        &[
            (FALSE, &[272, 0, 0, 0, 0, 0, 0, 0, 0, 0, 0, 0, 0]),
            (368 + 12, &[1]),
            (368 + 64, &[144, OLD]),
            (512 + 12, &[1]),
            (512 + 64, &[-344, -344, -344, OLD]),
            (168 + 12, &[1]),
            (168 + 64, &[0, 0, 0, 0, 0, OLD]),
        ],
    ),
    (
        // 72 at 168, 80 at 312, 96 at 464, 128 at 632, 192 at 832, 256 at 1,096, then twice as much
        // each time: at 1,424, 2,008, 3,104, 5,224, 9,392, 17,656. Heights 1, 2, 3, 5, 4, 6, 7 to 12.
        "every height to 12, upwards",
        65_536,
        "T 68, T 68, T 76, T 68, T 92, T 68, T 124, T 68, T 188, T 68, T 252, T 68, T 508, T 68, \
         T 1020, T 68, T 2044, T 68, T 4092, T 68, T 8188, T 68, T 16380, T 68, G 1428, G 172, \
         G 17660, G 316, G 836, G 636, G 468, G 1100, G 2012, G 9396, G 3108, G 5228",
        &[
            (FALSE, &[72, 216, 368, 536, 536, 1000, 1328, 1912, 3008, 5128, 9296, 17_560, 0]),
            (168 + 12, &[1]),
            (168 + 64, &[144, OLD]),
            (312 + 12, &[2]),
            (312 + 64, &[152, 152, OLD]),
            (464 + 12, &[3]),
            (464 + 64, &[168, 168, 168, OLD]),
            (632 + 12, &[5]),
            (632 + 64, &[200, 200, 200, 200, 464, OLD]),
            (832 + 12, &[4]),
            (832 + 64, &[264, 264, 264, 264, OLD]),
            (1_096 + 12, &[6]),
            (1_096 + 64, &[328, 328, 328, 328, 328, 328, OLD]),
            (1_424 + 12, &[7]),
            (1_424 + 64, &[584; 7]),
            (2_008 + 12, &[8]),
            (2_008 + 64, &[1_096; 8]),
            (3_104 + 12, &[9]),
            (3_104 + 64, &[2_120; 9]),
            (5_224 + 12, &[10]),
            (5_224 + 64, &[4_168; 10]),
            (9_392 + 12, &[11]),
            (9_392 + 64, &[8_264; 11]),
            (17_656 + 12, &[12]),
            (17_656 + 64, &[0, 0, 0, 0, 0, 0, 0, 0, 0, 0, 0, 0, OLD]),
        ],
        &[
            (FALSE, &[72, 0, 0, 0, 0, 0, 0, 0, 0, 0, 0, 0, 0]),
            (168 + 12, &[1]),
            (632 + 12, &[1]),
            (632 + 64, &[200, 200, 200, 200, 464, OLD]),
            (9_392 + 12, &[1]),
            (9_392 + 64, &[8_264; 11]),
            (17_656 + 12, &[1]),
        ],
    ),
    (
        // The other way round, without 16,384, and with 32,768 at 168: 8,192 at 33,008, then at
        // 41,272, 45,440, 47,560, 48,656, 49,240 half as much each time, 128 at 49,568, 192 at
        // 49,768, 96 at 50,032, 80 at 50,200, 72 at 50,352.
        "heights to 11 and 13, downwards",
        65_536,
        "T 32764, T 68, T 8188, T 68, T 4092, T 68, T 2044, T 68, T 1020, T 68, T 508, T 68, \
         T 252, T 68, T 124, T 68, T 188, T 68, T 92, T 68, T 76, T 68, T 68, T 68, G 172, \
         G 50356, G 33012, G 50204, G 41276, G 45444, G 50036, G 47564, G 49772, G 48660, G 49572, \
         G 49244",
        &[
            (
                FALSE,
                &[
                    50_256, 50_104, 49_936, 49_472, 49_472, 49_144, 48_560, 47_464, 45_344, 41_176,
                    32_912, 72, 72,
                ],
            ),
            (50_352 + 12, &[1]),
            (50_352 + 64, &[-152, OLD]),
            (50_200 + 12, &[2]),
            (50_200 + 64, &[-168, -168, OLD]),
            (50_032 + 12, &[3]),
            (50_032 + 64, &[-464, -464, -464, OLD]),
            (49_568 + 12, &[5]),
            (49_568 + 64, &[200, 200, 200, 200, -328, OLD]),
            (49_768 + 12, &[4]),
            (49_768 + 64, &[-528, -528, -528, -528, OLD]),
            (49_240 + 12, &[6]),
            (49_240 + 64, &[-584; 6]),
            (48_656 + 12, &[7]),
            (48_656 + 64, &[-1_096; 7]),
            (47_560 + 12, &[8]),
            (47_560 + 64, &[-2_120; 8]),
            (45_440 + 12, &[9]),
            (45_440 + 64, &[-4_168; 9]),
            (41_272 + 12, &[10]),
            (41_272 + 64, &[-8_264; 10]),
            (33_008 + 12, &[11]),
            (33_008 + 64, &[-32_840; 11]),
            (168 + 12, &[13]),
            (168 + 64, &[0; 13]),
        ],
        &[
            (FALSE, &[50_256, 0, 0, 0, 0, 0, 0, 0, 0, 0, 0, 0, 0]),
            (49_568 + 12, &[1]),
            (49_568 + 64, &[200, 200, 200, 200, -328, OLD]),
            (33_008 + 64, &[-32_840; 11]),
            (168 + 12, &[1]),
            (168 + 64, &[0; 13]),
        ],
    ),
];

/// Each case there and back, and the first of its words that is not as it was worked out.
pub fn words_by_hand() -> Vec<(String, Option<String>)> {
    let mut found = Vec::new();
    for (name, n, requests, there, back) in BY_HAND {
        let mut pool = pool_after(vec![FILLER; n], 1, requests);
        for (old, words) in [(1, there), (2, back)] {
            let wrong = match calls::convert(&mut pool, old) {
                Ok(_) => wrong_word(&pool, words),
                Err(refusal) => Some(format!("refused {}", refusal.number())),
            };
            found.push((format!("{}, moved from layout {}", name, old), wrong));
        }
    }
    found
}

pub fn cases() -> Vec<ProbeCase> {
    let mut cases = vec![numbers(), refusals()];
    for (name, n, requests, _, _) in BY_HAND {
        for old in [1, 2] {
            cases.push(there_and_back(name, &pool_after(vec![FILLER; n], old, requests), old));
        }
    }
    cases
}

/// Twice, so that the second time starts from what the first one left.
fn there_and_back(name: &str, pool: &[u8], old: u32) -> ProbeCase {
    let mut script = Script::new();
    script.image(pool).plain(b'D');
    for _ in 0..2 {
        script.number(b'Y', old).plain(b'N').plain(b'S').plain(b'D');
        script.number(b'Y', 3 - old).plain(b'N').plain(b'D');
    }
    let name = format!("{}, there and back from layout {}", name, old);
    ProbeCase { name, input: script.input, lines: None }
}

fn hex(pool: &[u8]) -> String {
    pool.iter().map(|byte| format!("{:02x}", byte)).collect()
}

/// Every byte of the least pools, by hand: a fresh one has nothing to move but its level word.
fn numbers() -> ProbeCase {
    let mut script = Script::new();
    let mut lines = String::new();
    for n in [176, 184] {
        let mut pool = vec![0xa5; n];
        script.image(&pool).plain(b'L').number(b'Y', 1).plain(b'D');
        pool[..168].fill(0);
        for (at, word) in [(0, n - 172), (8, 96), (16, 168), (24, n), (168, 4 * (n - 168) + 2)] {
            put4(&mut pool, at, word as u32);
        }
        pool[108] = 13;
        lines.push_str(&format!("I 0 {}\nL 0 {}\nY 0 {}\nD 0 {} {}\n", n, n, n, n, hex(&pool)));
        script.number(b'Y', 2).plain(b'D');
        pool[108] = 1;
        lines.push_str(&format!("Y 0 {}\nD 0 {} {}\n", n, n, hex(&pool)));
        script.number(b'M', 2).number(b'Y', 2).plain(b'D').number(b'Y', 2).plain(b'D');
        let line = format!("D 0 {} {}\n", n, hex(&pool));
        lines.push_str(&format!("M 0 {}\nY 0 {}\n{}Y 13 0\n{}", n, n, line, line));
    }
    ProbeCase { name: "fresh pools moved".to_string(), input: script.input, lines: Some(lines) }
}

/// Each refusal alone and before each that comes after it: 1, 8, 2, 13. Of every image the numbers
/// that are asked, and the answer to each.
fn refusals() -> ProbeCase {
    const NONE: &[u32] = &[0, 3, 4, 13, 257, 258, 65_537, 65_538, 1 << 31, u32::MAX];
    let one = pool_after(vec![FILLER; 1024], 1, STEPS);
    let two = pool_after(vec![FILLER; 1024], 2, STEPS);
    let fresh = pool_after(vec![FILLER; 1024], 1, "");
    let with = |pool: &[u8], at: usize, value: u32| {
        let mut pool = pool.to_vec();
        put4(&mut pool, at, value);
        pool
    };
    let images: [(Vec<u8>, &[u32], &str); 16] = [
        // 1, whatever the number and the bytes are
        (Vec::new(), &[0, 1, 2, 3], "Y 1 0"),
        (one[..168].to_vec(), &[0, 1, 2, 3], "Y 1 0"),
        (one[..1020].to_vec(), &[1, 2, 0, u32::MAX], "Y 1 0"),
        ([&two[..], &[0]].concat(), &[1, 2, 0, u32::MAX], "Y 1 0"),
        // 8 before 2, and before 13
        (vec![FILLER; 1024], NONE, "Y 8 0"),
        (one.clone(), NONE, "Y 8 0"),
        (two.clone(), NONE, "Y 8 0"),
        // 2, whatever the level word says: it is that of either layout, or of none
        (vec![FILLER; 1024], &[1, 2], "Y 2 0"),
        (with(&one, 0, 0), &[1, 2], "Y 2 0"),
        (with(&two, 0, 0), &[1, 2], "Y 2 0"),
        (with(&one, 108, 13), &[1, 2], "Y 2 0"),
        (with(&two, 108, 1), &[1, 2], "Y 2 0"),
        (with(&fresh, 108, 2), &[1, 2], "Y 2 0"),
        // 13
        (one, &[2, 2], "Y 13 0"),
        (two, &[1, 1], "Y 13 0"),
        // without bins the level word alone is the layout
        (with(&fresh, 108, 13), &[1, 1], "Y 13 0"),
    ];
    let mut script = Script::new();
    let mut lines = String::new();
    for (image, numbers, line) in images {
        script.image(&image);
        lines.push_str(&format!("I 0 {}\n", image.len()));
        for number in numbers {
            script.number(b'Y', *number);
            lines.push_str(&format!("{}\n", line));
        }
        script.plain(b'D');
        let bytes = if image.is_empty() { "-".to_string() } else { hex(&image) };
        lines.push_str(&format!("D 0 {} {}\n", image.len(), bytes));
    }
    ProbeCase { name: "moves refused".to_string(), input: script.input, lines: Some(lines) }
}
