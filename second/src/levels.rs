//! Fixed cases of layout 2 (request 2026-04): what stands in the index after some requests, every
//! word of it worked out by hand, and images that are of one layout, of the other or of neither.

use crate::calls;
use crate::cases::{self, verdict_case, ProbeCase};
use crate::layout::{get4, put4};
use crate::script::Script;
use crate::tape::Request;

/// A name, the pool's length, requests on a fresh pool of layout 2, none of them refused, and words
/// by hand: where the first stands, and their values from there downwards, 4 bytes apart, as the
/// index words of a block do.
type Words = (&'static str, u32, &'static str, &'static [(usize, &'static [i32])]);

/// The false block's lowest index word; the word of level j stands 4 (j - 1) bytes before.
pub const FALSE: usize = 160;

pub const STEPS: &str =
    "T 68, T 68, T 76, T 68, T 92, T 68, T 124, T 68, G 172, G 316, G 468, G 636";

const BY_HAND: [Words; 8] = [
    (
        "fresh",
        1024,
        "",
        &[(108, &[13]), (FALSE, &[0; 13]), (164, &[0]), (96, &[0]), (100, &[0]), (104, &[0])],
    ),
    (
        // 72 at 168, 80 at 312, 96 at 464, 128 at 632: heights 1, 2, 3 and 5.
        "four bins",
        1024,
        STEPS,
        &[
            (108, &[13]),
            (FALSE, &[72, 216, 368, 536, 536, 0, 0, 0, 0, 0, 0, 0, 0]),
            (168 + 12, &[1]),
            (168 + 64, &[144]),
            (312 + 12, &[2]),
            (312 + 64, &[152, 152]),
            (464 + 12, &[3]),
            (464 + 64, &[168, 168, 168]),
            (632 + 12, &[5]),
            (632 + 64, &[0, 0, 0, 0, 0]),
        ],
    ),
    (
        // 96 at 168 and then at 408. 264 joins 168, and 408 becomes first; the run of 168 bytes has
        // height 1, and keeps the two upper words that the old first block had.
        "the second becomes first",
        1024,
        "T 92, T 68, T 68, T 92, T 68, T 76, T 68, T 124, T 68, G 172, G 412, G 580, G 732, G 268",
        &[
            (FALSE, &[480, 480, 312, 632, 632, 0, 0, 0, 0, 0, 0, 0, 0]),
            (576 + 12, &[2]),
            (576 + 64, &[-168, -168]),
            (408 + 12, &[3, 0, 0]),
            (408 + 64, &[320, 320, 320]),
            (728 + 12, &[5]),
            (728 + 64, &[-560, 0, 0, 0, 0]),
            (168 + 12, &[1, 0, 0]),
            (168 + 64, &[0, 560, 560]),
        ],
    ),
    (
        // 80 at 536, 96 at 168, 128 at 336: the block between the last two comes back, and the one
        // below stands before the one above at three levels.
        "both leave, the smaller below",
        1024,
        "T 92, T 68, T 124, T 68, T 76, T 68, G 172, G 340, G 540, G 268",
        &[
            (FALSE, &[440, 440, 0, 0, 0, 0, 0, 0, 0, 0, 0, 0, 0]),
            (536 + 12, &[2]),
            (536 + 64, &[-368, 0]),
            (168 + 12, &[1]),
            (168 + 64, &[0, 168, 168]),
            (336 + 12, &[5, 0, 0]),
            (336 + 64, &[0, 0, 0, 0, 0]),
        ],
    ),
    (
        // The same with 128 at 168 and 96 at 368, whose words stay as they were.
        "both leave, the smaller above",
        1024,
        "T 124, T 68, T 92, T 68, T 76, T 68, G 172, G 372, G 540, G 300",
        &[
            (FALSE, &[440, 440, 0, 0, 0, 0, 0, 0, 0, 0, 0, 0, 0]),
            (536 + 64, &[-368, 0]),
            (168 + 12, &[1]),
            (168 + 64, &[0, 0, 0, 0, 0]),
            (368 + 12, &[3, 0, 0]),
            (368 + 64, &[-200, -200, -200]),
        ],
    ),
    (
        // 256 at 168, height 6: its low 128 are taken, and the rest at 296 has height 5.
        "a split",
        1024,
        "T 252, T 68, G 172, T 124",
        &[
            (FALSE, &[200, 200, 200, 200, 200, 0, 0, 0, 0, 0, 0, 0, 0]),
            (296 + 12, &[5]),
            (296 + 64, &[0, 0, 0, 0, 0]),
        ],
    ),
    (
        // 8,192 at 49,464, 16,384 at 33,008 and 32,768 at 168: heights 11, 12 and 13.
        "the highest levels",
        65_536,
        "T 32764, T 68, T 16380, T 68, T 8188, T 68, G 172, G 33012, G 49468",
        &[
            (
                FALSE,
                &[
                    49_368, 49_368, 49_368, 49_368, 49_368, 49_368, 49_368, 49_368, 49_368, 49_368,
                    49_368, 32_912, 72,
                ],
            ),
            (49_464 + 12, &[11]),
            (49_464 + 64, &[-16_456; 11]),
            (33_008 + 12, &[12]),
            (33_008 + 64, &[-32_840; 12]),
            (168 + 12, &[13]),
            (168 + 64, &[0; 13]),
        ],
    ),
    (
        // The block of height 13 is taken again; then 72 at 49,392 joins 16,384 and 8,192 to 24,648,
        // which is 8 times an odd number.
        "the highest levels left",
        65_536,
        "T 32764, T 68, T 16380, T 68, T 8188, T 68, G 172, G 33012, G 49468, T 32764, G 49396",
        &[
            (FALSE, &[32_912, 0, 0, 0, 0, 0, 0, 0, 0, 0, 0, 0, 0]),
            (33_008 + 12, &[1]),
            (33_008 + 64, &[0, 0, 0, 0, 0, 0, 0, 0, 0, 0, 0, 0]),
            (49_464 + 12, &[11, 0, 0]),
            (49_464 + 64, &[-16_456; 11]),
        ],
    ),
];

/// The pool that requests make of a buffer, laid out with the layout.
pub fn pool_after(mut pool: Vec<u8>, layout: u32, requests: &str) -> Vec<u8> {
    calls::lay_out(&mut pool, layout).expect("the length is allowed");
    let tape = if requests.is_empty() { Vec::new() } else { cases::tape_of(requests) };
    let mut rest = &tape[..];
    while let Some((request, length)) = Request::read(rest) {
        let answer = match request {
            Request::Take(s) => calls::take(&mut pool, s),
            Request::GiveBack(offset) => calls::give_back(&mut pool, offset),
            other => panic!("{:?} is neither take nor give-back", other),
        };
        answer.expect("no request of these cases is refused");
        rest = &rest[length..];
    }
    pool
}

/// Each case, and the first of its words that is not as it was worked out.
pub fn words_by_hand() -> Vec<(&'static str, Option<String>)> {
    let case = |(name, n, requests, words): &Words| {
        let pool = pool_after(vec![0; *n as usize], 2, requests);
        (*name, wrong_word(&pool, words))
    };
    BY_HAND.iter().map(case).collect()
}

/// The first of these words that is not as it was worked out.
pub fn wrong_word(pool: &[u8], words: &[(usize, &[i32])]) -> Option<String> {
    let each = |(first, values): &(usize, &[i32])| {
        let first = *first;
        let at = move |(place, value): (usize, &i32)| (first - 4 * place, *value);
        values.iter().enumerate().map(at).collect::<Vec<(usize, i32)>>()
    };
    let all: Vec<(usize, i32)> = words.iter().flat_map(each).collect();
    let wrong = all.into_iter().find(|(at, value)| get4(pool, *at) as i32 != *value);
    wrong.map(|(at, value)| format!("the word at {} is not {}", at, value))
}

pub fn probe_cases() -> Vec<ProbeCase> {
    let mut cases = vec![numbers_case()];
    for (name, n, requests, _) in BY_HAND {
        for (filler, old) in [("zeros", 0), ("255s", 255)] {
            let name = format!("layout 2, {}, over {}", name, filler);
            let image = vec![old; n as usize];
            cases.push(cases::calls_then_dump(&name, image, Some(2), requests));
        }
    }
    cases.extend(verdicts());
    cases
}

/// Which numbers are a layout's; 1 is asked before 8, and a refusal changes no byte.
fn numbers_case() -> ProbeCase {
    let mut script = Script::new();
    let mut lines = String::new();
    for number in [0, 1, 2, 3] {
        script.number(b'M', number);
        lines.push_str("M 1 0\n");
    }
    let old = vec![0xa5; 184];
    script.image(&old);
    lines.push_str("I 0 184\n");
    for number in [0, 3, 4, 8, 13, 256, 257, 258, 65_537, 65_538, 1 << 31, u32::MAX] {
        script.number(b'M', number);
        lines.push_str("M 8 0\n");
    }
    script.plain(b'D');
    lines.push_str(&format!("D 0 184 {}\n", "a5".repeat(184)));
    let mut pool = old;
    pool[..168].fill(0);
    for (at, word) in [(0, 12), (8, 96), (16, 168), (24, 184), (108, 1), (168, 4 * 16 + 2)] {
        put4(&mut pool, at, word);
    }
    let hex = |pool: &[u8]| pool.iter().map(|byte| format!("{:02x}", byte)).collect::<String>();
    script.number(b'M', 1).plain(b'N').plain(b'D');
    lines.push_str(&format!("M 0 184\nN 0 184\nD 0 184 {}\n", hex(&pool)));
    script.number(b'M', 2).plain(b'N').plain(b'D');
    pool[108] = 13;
    lines.push_str(&format!("M 0 184\nN 0 184\nD 0 184 {}\n", hex(&pool)));
    script.plain(b'L').plain(b'D');
    pool[108] = 1;
    lines.push_str(&format!("L 0 184\nD 0 184 {}\n", hex(&pool)));
    script.image(&[0; 180]).number(b'M', 2).number(b'M', 3);
    lines.push_str("I 0 180\nM 1 0\nM 1 0\n");
    ProbeCase { name: "layouts' numbers".to_string(), input: script.input, lines: Some(lines) }
}

/// Words that are changed, and whether the pool is sound then.
type Verdict = (&'static str, &'static [(usize, u32)], bool);

/// Of the pool with four bins (72 at 168, 80 at 312, 96 at 464, 128 at 632).
const OF_TWO: [Verdict; 19] = [
    ("as it is", &[], true),
    ("level word 1 in the false block", &[(108, 1)], false),
    ("level word 2 in the false block", &[(108, 2)], false),
    ("level word 12 in the false block", &[(108, 12)], false),
    ("level word 14 in the false block", &[(108, 14)], false),
    ("no level 3 from the false block", &[(FALSE - 8, 0)], false),
    ("level 6 leads from the false block to 632", &[(FALSE - 20, 536)], false),
    ("level 3 leads to 632 and passes 464 over", &[(FALSE - 8, 536)], false),
    ("level 2 leads from 312 to 632 and passes 464 over", &[(312 + 60, 320)], false),
    ("level 2 leads from the false block to 168, which is lower", &[(FALSE - 4, 72)], false),
    ("height 3 at 312", &[(312 + 12, 3)], false),
    ("height 1 at 312", &[(312 + 12, 1)], false),
    ("height 2 at 168, with its word", &[(168 + 12, 2), (168 + 60, 144)], false),
    ("a level more at 168, and all words for it", LEVEL_MORE, false),
    (
        "words above the heights",
        &[(168 + 60, 7), (312 + 56, 7), (632 + 44, 7), (632 + 16, 7)],
        true,
    ),
    ("the false block's last word", &[(164, 1)], false),
    ("level 5 leads from 632 to the false block", &[(632 + 48, 0u32.wrapping_sub(536))], false),
    ("level 5 leads from 632 to offset 0", &[(632 + 48, 0u32.wrapping_sub(632))], false),
    (
        "level 13 leads from the false block to offset 0",
        &[(FALSE - 48, 0u32.wrapping_sub(96))],
        false,
    ),
];

const LEVEL_MORE: &[(usize, u32)] = &[(168 + 12, 2), (168 + 60, 144), (FALSE - 4, 72)];

/// Images of layout 1 that are told to be of layout 2: with words to match they are.
const OF_ONE: [(&str, &str, bool); 5] = [
    ("no bins", "", true),
    ("a bin of height 1", "T 68, T 68, G 172", true),
    ("two bins of height 1", "T 68, T 68, T 84, T 68, G 172, G 316", true),
    ("a bin of height 2", "T 76, T 68, G 172", false),
    ("four bins", STEPS, false),
];

fn verdicts() -> Vec<ProbeCase> {
    let line = |sound: bool| if sound { "N 0 1024" } else { "N 2 0" };
    let mut cases = Vec::new();
    for (name, changes, sound) in OF_TWO {
        let mut pool = pool_after(vec![0; 1024], 2, STEPS);
        changes.iter().for_each(|(at, value)| put4(&mut pool, *at, *value));
        cases.push(verdict_case(&format!("layout 2, {}", name), &pool, line(sound)));
    }
    for (name, requests, sound) in OF_ONE {
        let mut pool = pool_after(vec![0; 1024], 1, requests);
        cases.push(verdict_case(&format!("layout 1, {}", name), &pool, line(true)));
        put4(&mut pool, 108, 13);
        let name = format!("layout 1 with level word 13, {}", name);
        cases.push(verdict_case(&name, &pool, line(sound)));
    }
    cases
}
