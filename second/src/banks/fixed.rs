//! Fixed cases of the bank, with every line worked out by hand from the two documents.

use crate::bank::PISTONS;
use crate::cases::ProbeCase;
use crate::layout::put4;
use crate::script::Script;

/// A command and its line. In both `..` stands for as many zeros as make a bank of 32 numbers.
/// I has the image's length, and each of its bytes is 238. K has the piston, the kind and the body,
/// W an offset and the bytes, in hex, `-` for none.
type Steps = &'static [(&'static str, &'static str)];

const BY_HAND: [(&str, Steps); 11] = [
    (
        "set, recall, set again, clear",
        &[
            ("I 1024", "I 0 1024"),
            ("L", "L 0 1024"),
            ("V", "V 0 32 .."),
            ("R 0", "R 0 0 -"),
            ("Q 0", "Q 0 1024"),
            // 9 bytes need 16: cut from the remainder at 1008. The last 3 of 12 stay as they were.
            ("K 0 1 a1a2a3a4a5a6a7a8", "K 0 1024"),
            ("V", "V 0 32 1012 .."),
            ("R 0", "R 0 9 01a1a2a3a4a5a6a7a8"),
            ("P 1012", "P 0 12 12 01a1a2a3a4a5a6a7a8eeeeee"),
            // 33 bytes need 40: cut at 968; then 1008 goes into bin 16.
            ("K 0 3 000102030405060708090a0b0c0d0e0f101112131415161718191a1b1c1d1e1f", "K 0 1024"),
            ("V", "V 0 32 972 .."),
            ("R 0", "R 0 33 03000102030405060708090a0b0c0d0e0f101112131415161718191a1b1c1d1e1f"),
            ("A 1012", "A 5 0"),
            ("S", "S 0 1 40 1 0 800 812 788"),
            // The block at 1008 again, from its bin.
            ("K 31 1 b1b2b3b4b5b6b7b8", "K 0 1024"),
            ("V", "V 0 32 972 .. 1012"),
            // 17 bytes need 24: cut at 944; then 968 goes into bin 40.
            ("K 0 2 c0c1c2c3c4c5c6c7c8c9cacbcccdcecf", "K 0 1024"),
            ("V", "V 0 32 948 .. 1012"),
            ("R 31", "R 0 9 01b1b2b3b4b5b6b7b8"),
            ("R 0", "R 0 17 02c0c1c2c3c4c5c6c7c8c9cacbcccdcecf"),
            ("Q 0", "Q 0 1024"),
            ("V", "V 0 32 .. 1012"),
            ("R 0", "R 0 0 -"),
            ("Q 0", "Q 0 1024"),
            ("R 31", "R 0 9 01b1b2b3b4b5b6b7b8"),
            // 944 stood at E, and 968 above it was free: both are home.
            ("S", "S 0 1 16 0 0 840 836 828"),
        ],
    ),
    (
        "with no room the old setting stays",
        &[
            ("I 192", "I 0 192"),
            ("L", "L 0 192"),
            ("K 3 2 c0c1c2c3c4c5c6c7c8c9cacbcccdcecf", "K 4 0"),
            // The remainder of 24 gives 16 and keeps 8.
            ("K 3 1 a1a2a3a4a5a6a7a8", "K 0 192"),
            ("K 3 1 b1b2b3b4b5b6b7b8", "K 4 0"),
            ("K 4 1 b1b2b3b4b5b6b7b8", "K 4 0"),
            ("V", "V 0 32 0 0 0 180 .."),
            ("R 3", "R 0 9 01a1a2a3a4a5a6a7a8"),
            ("R 4", "R 0 0 -"),
            ("Q 3", "Q 0 192"),
            ("K 4 1 b1b2b3b4b5b6b7b8", "K 0 192"),
            ("V", "V 0 32 0 0 0 0 180 .."),
            ("R 3", "R 0 0 -"),
            ("R 4", "R 0 9 01b1b2b3b4b5b6b7b8"),
        ],
    ),
    (
        "the last bytes of the greatest pool",
        &[
            ("I 65536", "I 0 65536"),
            ("L", "L 0 65536"),
            // 9 bytes need 16: the block at 65520.
            ("K 0 1 a1a2a3a4a5a6a7a8", "K 0 65536"),
            ("V", "V 0 32 65524 .."),
            // Inside the block, and past the pool.
            ("B 65532 ..", "B 0 32"),
            ("R 0", "R 12 0 -"),
            ("Q 0", "Q 12 0"),
            ("B 65524 .. 65532", "B 0 32"),
            ("R 0", "R 12 0 -"),
            ("B .. 65540", "B 0 32"),
            ("K 0 1 a1a2a3a4a5a6a7a8", "K 12 0"),
            ("B .. 65524", "B 0 32"),
            ("R 31", "R 0 9 01a1a2a3a4a5a6a7a8"),
            ("Q 31", "Q 0 65536"),
            ("V", "V 0 32 .."),
        ],
    ),
    (
        "refusals 10, 11 and 12",
        &[
            ("I 1024", "I 0 1024"),
            ("L", "L 0 1024"),
            ("K 31 1 a1a2a3a4a5a6a7a8", "K 0 1024"),
            ("K 32 1 a1a2a3a4a5a6a7a8", "K 10 0"),
            ("Q 32", "Q 10 0"),
            ("R 32", "R 10 0 -"),
            ("K 4294967295 1 a1a2a3a4a5a6a7a8", "K 10 0"),
            ("Q 4294967295", "Q 10 0"),
            ("R 4294967295", "R 10 0 -"),
            ("K 0 0 a1a2a3a4a5a6a7a8", "K 11 0"),
            ("K 0 4 a1a2a3a4a5a6a7a8", "K 11 0"),
            ("K 0 255 a1a2a3a4a5a6a7a8", "K 11 0"),
            ("K 0 1 a1a2a3a4a5a6a7", "K 11 0"),
            ("K 0 1 a1a2a3a4a5a6a7a8a9", "K 11 0"),
            ("K 0 2 a1a2a3a4a5a6a7a8", "K 11 0"),
            ("K 0 3 -", "K 11 0"),
            ("K 0 0 -", "K 11 0"),
            ("K 0 0 a1a2a3a4", "K 11 0"),
            ("S", "S 0 1 16 0 0 840 836 828"),
            ("V", "V 0 32 .. 1012"),
            ("B 1008 ..", "B 0 32"),
            ("K 0 1 a1a2a3a4a5a6a7a8", "K 12 0"),
            ("K 5 1 a1a2a3a4a5a6a7a8", "K 12 0"),
            ("Q 0", "Q 12 0"),
            ("Q 5", "Q 12 0"),
            ("R 0", "R 12 0 -"),
            ("R 5", "R 12 0 -"),
            ("V", "V 0 32 1008 .."),
            // 4 past the remainder's start, and 65,536 past a held payload's.
            ("B .. 172", "B 0 32"),
            ("R 0", "R 12 0 -"),
            ("B 66548 ..", "B 0 32"),
            ("R 0", "R 12 0 -"),
            ("B 1012 .. 1012", "B 0 32"),
            ("K 5 1 a1a2a3a4a5a6a7a8", "K 12 0"),
            ("Q 0", "Q 12 0"),
            ("R 31", "R 12 0 -"),
            ("V", "V 0 32 1012 .. 1012"),
            ("B 1012 ..", "B 0 32"),
            ("R 0", "R 0 9 01a1a2a3a4a5a6a7a8"),
            ("S", "S 0 1 16 0 0 840 836 828"),
        ],
    ),
    (
        "the order 1, 2, 10, 12, 11, 4",
        &[
            ("B 3 ..", "B 0 32"),
            ("K 32 0 -", "K 1 0"),
            ("Q 32", "Q 1 0"),
            ("R 32", "R 1 0 -"),
            ("I 184", "I 0 184"),
            ("K 32 0 -", "K 2 0"),
            ("Q 32", "Q 2 0"),
            ("R 32", "R 2 0 -"),
            ("L", "L 0 184"),
            ("K 32 0 -", "K 10 0"),
            ("Q 32", "Q 10 0"),
            ("R 32", "R 10 0 -"),
            ("K 31 0 -", "K 12 0"),
            ("Q 31", "Q 12 0"),
            ("R 31", "R 12 0 -"),
            ("K 31 1 a1a2a3a4a5a6a7a8", "K 12 0"),
            ("B ..", "B 0 32"),
            ("K 31 0 -", "K 11 0"),
            ("K 31 1 a1a2a3a4a5a6a7a8", "K 4 0"),
            ("Q 31", "Q 0 184"),
            ("R 31", "R 0 0 -"),
        ],
    ),
    (
        "one offset twice with another between, and records that do not read",
        &[
            ("I 1024", "I 0 1024"),
            ("L", "L 0 1024"),
            // Payloads of 12 and 20 bytes.
            ("K 0 1 a1a2a3a4a5a6a7a8", "K 0 1024"),
            ("K 1 2 c0c1c2c3c4c5c6c7c8c9cacbcccdcecf", "K 0 1024"),
            ("V", "V 0 32 1012 988 .."),
            ("B 1012 988 .. 1012", "B 0 32"),
            ("R 1", "R 12 0 -"),
            ("B 1012 988 ..", "B 0 32"),
            ("W 1012 00", "W 0 12 12"),
            ("R 0", "R 12 0 -"),
            ("R 1", "R 0 17 02c0c1c2c3c4c5c6c7c8c9cacbcccdcecf"),
            ("R 2", "R 0 0 -"),
            ("W 1012 04", "W 0 12 12"),
            ("R 0", "R 12 0 -"),
            ("W 1012 02", "W 0 12 12"),
            ("R 0", "R 12 0 -"),
            ("W 1012 01", "W 0 12 12"),
            ("R 0", "R 0 9 01a1a2a3a4a5a6a7a8"),
            ("W 988 03", "W 0 20 20"),
            ("R 1", "R 12 0 -"),
            ("W 988 01", "W 0 20 20"),
            ("R 1", "R 0 9 01c0c1c2c3c4c5c6c7"),
            // Only recall reads the record.
            ("W 988 ff", "W 0 20 20"),
            ("Q 1", "Q 0 1024"),
            ("W 1012 ff", "W 0 12 12"),
            // 984 is home again, so the block is cut at 992.
            ("K 0 1 b1b2b3b4b5b6b7b8", "K 0 1024"),
            ("V", "V 0 32 996 .."),
            ("R 0", "R 0 9 01b1b2b3b4b5b6b7b8"),
        ],
    ),
    (
        "payloads of 4, 28 and 68 bytes",
        &[
            ("I 1024", "I 0 1024"),
            ("L", "L 0 1024"),
            ("T 4", "T 0 1020"),
            ("T 28", "T 0 988"),
            ("T 68", "T 0 172"),
            ("W 1020 01", "W 0 4 4"),
            ("W 988 03", "W 0 28 28"),
            ("W 172 03", "W 0 68 68"),
            ("B 1020 988 172 ..", "B 0 32"),
            ("R 0", "R 12 0 -"),
            ("R 1", "R 12 0 -"),
            ("R 2", "R 0 33 03eeeeeeeeeeeeeeeeeeeeeeeeeeeeeeeeeeeeeeeeeeeeeeeeeeeeeeeeeeeeeeee"),
            ("W 988 02", "W 0 28 28"),
            ("R 1", "R 0 17 02eeeeeeeeeeeeeeeeeeeeeeeeeeeeeeee"),
        ],
    ),
    (
        "a block that another gives back and takes again",
        &[
            ("I 1024", "I 0 1024"),
            ("L", "L 0 1024"),
            ("K 0 1 a1a2a3a4a5a6a7a8", "K 0 1024"),
            // The block at E is held, so that the other one stays.
            ("T 4", "T 0 1004"),
            ("G 1012", "G 0 12"),
            ("R 0", "R 12 0 -"),
            ("Q 0", "Q 12 0"),
            ("K 5 1 b1b2b3b4b5b6b7b8", "K 12 0"),
            ("T 12", "T 0 1012"),
            // The link of the free block stands where the kind and three bytes of the body stood.
            ("R 0", "R 12 0 -"),
            ("W 1012 01", "W 0 12 12"),
            ("R 0", "R 0 9 01000000a4a5a6a7a8"),
            ("Q 0", "Q 0 1024"),
            ("G 1012", "G 5 0"),
            ("V", "V 0 32 .."),
        ],
    ),
    (
        "a block that another sends home and takes again",
        &[
            ("I 1024", "I 0 1024"),
            ("L", "L 0 1024"),
            ("K 0 1 a1a2a3a4a5a6a7a8", "K 0 1024"),
            ("G 1012", "G 0 12"),
            ("S", "S 0 0 0 0 0 856 852 844"),
            ("R 0", "R 12 0 -"),
            ("T 12", "T 0 1012"),
            // No byte of a block that goes home is touched, so the record reads as before.
            ("R 0", "R 0 9 01a1a2a3a4a5a6a7a8"),
        ],
    ),
    (
        "large blocks that the bank names",
        &[
            ("I 1024", "I 0 1024"),
            ("L", "L 0 1024"),
            ("T 100", "T 0 172"),
            ("T 68", "T 0 276"),
            ("B 172 276 ..", "B 0 32"),
            ("Q 0", "Q 0 1024"),
            ("V", "V 0 32 0 276 .."),
            ("S", "S 0 1 72 0 1 680 780 668"),
            // 276 joins the free block below it and the remainder.
            ("K 1 1 a1a2a3a4a5a6a7a8", "K 0 1024"),
            ("V", "V 0 32 0 1012 .."),
            ("S", "S 0 1 16 0 0 840 836 828"),
        ],
    ),
    (
        "the bank is empty before the first B, and an I leaves it as it is",
        &[
            ("V", "V 0 32 .."),
            ("K 0 1 a1a2a3a4a5a6a7a8", "K 1 0"),
            ("Q 0", "Q 1 0"),
            ("R 0", "R 1 0 -"),
            ("I 0", "I 0 0"),
            ("R 0", "R 1 0 -"),
            ("I 1028", "I 0 1028"),
            ("R 0", "R 1 0 -"),
            ("I 1024", "I 0 1024"),
            ("R 0", "R 2 0 -"),
            ("L", "L 0 1024"),
            ("K 0 1 a1a2a3a4a5a6a7a8", "K 0 1024"),
            ("I 512", "I 0 512"),
            ("V", "V 0 32 1012 .."),
            ("L", "L 0 512"),
            ("R 1", "R 12 0 -"),
            ("B ..", "B 0 32"),
            ("R 1", "R 0 0 -"),
        ],
    ),
];

pub fn cases() -> Vec<ProbeCase> {
    let mut cases: Vec<ProbeCase> = BY_HAND.iter().map(|(name, steps)| case(name, steps)).collect();
    cases.push(every_byte());
    cases
}

pub fn case(name: &str, steps: &[(&str, &str)]) -> ProbeCase {
    let mut script = Script::new();
    let mut lines = String::new();
    for (command, line) in steps {
        append(&mut script, command);
        lines.push_str(&filled(line, 3).join(" "));
        lines.push('\n');
    }
    ProbeCase { name: name.to_string(), input: script.input, lines: Some(lines) }
}

/// The words, with zeros for a `..` among those behind the first few.
fn filled(text: &str, first: usize) -> Vec<String> {
    let mut words: Vec<String> = text.split(' ').map(str::to_string).collect();
    if let Some(place) = words.iter().position(|word| word == "..") {
        let zeros = first + PISTONS + 1 - words.len();
        words.splice(place..place + 1, vec!["0".to_string(); zeros]);
    }
    words
}

fn append(script: &mut Script, command: &str) {
    let words = filled(command, 1);
    let letter = words[0].as_bytes()[0];
    let number = |place: usize| -> u32 { words[place].parse().expect("a 32-bit number") };
    match letter {
        b'I' => script.image(&vec![238; number(1) as usize]),
        b'B' => {
            let mut bank = [0; PISTONS];
            bank.iter_mut().enumerate().for_each(|(piston, offset)| *offset = number(piston + 1));
            script.bank(&bank)
        }
        b'K' => script.set(number(1), number(2) as u8, &bytes(&words[3])),
        b'W' => script.write_part(number(1), &bytes(&words[2])),
        _ if words.len() == 2 => script.number(letter, number(1)),
        _ => script.plain(letter),
    };
}

fn bytes(hex: &str) -> Vec<u8> {
    let digits = if hex == "-" { "" } else { hex };
    let byte = |place: usize| u8::from_str_radix(&digits[place..place + 2], 16).expect("hex");
    (0..digits.len()).step_by(2).map(byte).collect()
}

/// A pool of 192 bytes: laid out, set, set again without room, cleared.
fn every_byte() -> ProbeCase {
    let mut pool = vec![238; 192];
    pool[..168].fill(0);
    for (at, word) in [(0, 20), (8, 96), (16, 168), (24, 192), (108, 1), (168, 4 * 24 + 2)] {
        put4(&mut pool, at, word);
    }
    let laid_out = dump(&pool);
    for (at, word) in [(0, 4), (24, 176), (168, 4 * 8 + 2), (176, 4 * 16 + 3)] {
        put4(&mut pool, at, word);
    }
    pool[180..189].copy_from_slice(&[1, 0xa1, 0xa2, 0xa3, 0xa4, 0xa5, 0xa6, 0xa7, 0xa8]);
    let set = dump(&pool);
    // The block stood at E: its head and its payload stay as they were.
    for (at, word) in [(0, 20), (24, 192), (168, 4 * 24 + 2)] {
        put4(&mut pool, at, word);
    }
    let cleared = dump(&pool);
    case(
        "every byte of a small pool",
        &[
            ("I 192", "I 0 192"),
            ("L", "L 0 192"),
            ("D", &laid_out),
            ("K 9 1 a1a2a3a4a5a6a7a8", "K 0 192"),
            ("D", &set),
            ("K 9 1 b1b2b3b4b5b6b7b8", "K 4 0"),
            ("Q 8", "Q 0 192"),
            ("R 9", "R 0 9 01a1a2a3a4a5a6a7a8"),
            ("D", &set),
            ("Q 9", "Q 0 192"),
            ("D", &cleared),
            ("Q 9", "Q 0 192"),
            ("D", &cleared),
        ],
    )
}

/// The line of a D.
pub fn dump(pool: &[u8]) -> String {
    let hex: String = pool.iter().map(|byte| format!("{:02x}", byte)).collect();
    format!("D 0 {} {}", pool.len(), hex)
}

/// The bank's commands with bodies that are short, or with more than 64 bytes to set.
pub fn edges() -> Vec<ProbeCase> {
    let mut inputs = short_bodies();
    for k in [65, 66, 1 << 16, u32::MAX] {
        let mut input = Script::new().set(0, 1, &[7; 90]).input.clone();
        input[6..10].copy_from_slice(&u32::to_le_bytes(k));
        inputs.push((format!("K with a body of {} bytes", k), input));
    }
    let unreadable = |(name, input): (String, Vec<u8>)| {
        let input = [b"N", &input[..]].concat();
        ProbeCase { name, input, lines: Some("N 1 0\nX 7 0\n".to_string()) }
    };
    let mut cases: Vec<ProbeCase> = inputs.into_iter().map(unreadable).collect();
    let longest = format!("K 0 3 {}", "07".repeat(64));
    let steps =
        [("I 176", "I 0 176"), ("L", "L 0 176"), (&longest[..], "K 11 0"), ("V", "V 0 32 ..")];
    cases.push(case("the longest body", &steps));
    cases
}

fn short_bodies() -> Vec<(String, Vec<u8>)> {
    let mut inputs = Vec::new();
    let commands = [
        Script::new().set(0, 1, &[7; 8]).input.clone(),
        Script::new().bank(&[0; PISTONS]).input.clone(),
        Script::new().number(b'Q', 0).input.clone(),
        Script::new().number(b'R', 0).input.clone(),
    ];
    for command in commands {
        let body = command.len() - 1;
        // A bank's body is long; its beginning and its last byte will do.
        for length in (0..body).filter(|length| *length < 17 || length + 1 == body) {
            let name = format!("{} with {} bytes of body", command[0] as char, length);
            inputs.push((name, command[..1 + length].to_vec()));
        }
    }
    inputs
}
