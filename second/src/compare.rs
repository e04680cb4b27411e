//! Holds two other programs, a tape program and a probe, against this one, byte for byte.

use crate::banks;
use crate::branches::{self, Counts, Outcome, Taken};
use crate::cases::{self, Group};
use crate::child::{self, Fault};
use crate::conversion;
use crate::damage;
use crate::homing;
use crate::images;
use crate::random::Random;
use crate::report::{Program, Report};
use crate::rules;
use crate::script::Script;
use crate::state::{Layout, State};
use crate::tape::Request;
use crate::tapes::{edge_offset, edge_size, joining_offset, odd_offset, payload_of, random_tape};
use crate::{layout, probe, tape};
use std::path::PathBuf;

pub const TAPES: u64 = 2_400;
const IMAGES: u64 = 1_200;
const RUNS: u64 = 300;
const TALL: u64 = 60;
const DAMAGED: u64 = 8_000;
/// Images that one probe process serves.
const BATCH: usize = 25;

pub struct Options {
    pub tape: Vec<String>,
    pub probe: Vec<String>,
    pub seed: u64,
    pub keep: PathBuf,
    /// The other probe has the pool's calls and no bank.
    pub pool_only: bool,
    /// The first difference is enough.
    pub first: bool,
}

struct Case {
    name: String,
    input: Vec<u8>,
}

struct Compare {
    options: Options,
    report: Report,
    /// Runs of the other programs that did not end.
    endless: u32,
}

/// True when nothing differed.
pub fn run(options: Options) -> bool {
    let report = if options.first { Report::until_first } else { Report::new }(&options.keep);
    let mut compare = Compare { options, report, endless: 0 };
    compare.fixed();
    let (mut by_tapes, mut by_images) = (Counts::new(), Counts::new());
    compare.random_tapes(&mut by_tapes);
    compare.sound_images(&mut by_images);
    compare.branches(&by_tapes, &by_images);
    compare.damaged_images();
    compare.edges();
    compare.conversions();
    compare.homings();
    if !compare.options.pool_only {
        compare.banks();
    }
    compare.report.close()
}

fn own_output(program: Program, input: &[u8]) -> Vec<u8> {
    match program {
        Program::Tape => tape::run(input).into_bytes(),
        Program::Probe => probe::run(input).into_bytes(),
    }
}

impl Compare {
    /// After three runs without an end no more are tried, so that the comparison itself ends.
    fn other_output(&mut self, program: Program, input: &[u8]) -> Result<Vec<u8>, Fault> {
        if self.endless == 3 {
            return Err(Fault::Bad("not run, since three runs did not end".to_string()));
        }
        let output = match program {
            Program::Tape => child::run(&self.options.tape, input),
            Program::Probe => child::run(&self.options.probe, input),
        };
        self.endless += (output == Err(Fault::NoEnd)) as u32;
        output
    }

    /// One case in a process of its own, also held to its lines by hand where there are any.
    fn one(&mut self, program: Program, name: &str, input: &[u8], by_hand: Option<&str>) -> bool {
        let own = own_output(program, input);
        if let Some(lines) = by_hand.filter(|lines| lines.as_bytes() != &own[..]) {
            let name = format!("{} (this program against the lines by hand)", name);
            self.report.differ(program, &name, input, lines.as_bytes(), &own);
            return false;
        }
        match self.other_output(program, input) {
            Ok(output) if output == own => {
                self.report.pass(1);
                return true;
            }
            Ok(output) => self.report.differ(program, name, input, &own, &output),
            Err(why) => self.report.broken(program, name, input, &why.in_words()),
        }
        false
    }

    /// Cases for the probe, many to a process. Only where a batch differs is each case run alone.
    fn batch(&mut self, cases: &[Case]) {
        let input: Vec<u8> = cases.iter().flat_map(|case| case.input.iter().copied()).collect();
        let own = own_output(Program::Probe, &input);
        if self.other_output(Program::Probe, &input).as_ref() == Ok(&own) {
            return self.report.pass(cases.len() as u64);
        }
        let mut alone = true;
        for case in cases {
            alone &= self.one(Program::Probe, &case.name, &case.input, None);
        }
        if alone {
            let name = format!("all from {} in one run", cases[0].name);
            self.one(Program::Probe, &name, &input, None);
        }
    }

    fn batches(&mut self, count: u64, mut make: impl FnMut(u64) -> Case) {
        let mut cases: Vec<Case> = Vec::new();
        for number in 0..count {
            cases.push(make(number));
            let bytes: usize = cases.iter().map(|case| case.input.len()).sum();
            if cases.len() == BATCH || bytes > 4_000_000 || number + 1 == count {
                self.batch(&cases);
                cases.clear();
            }
        }
    }

    fn fixed(&mut self) {
        self.report.begin("worked tape");
        let worked = cases::worked_tape();
        self.one(Program::Tape, &worked.name, &worked.tape, worked.lines.as_deref());
        self.report.end();
        self.report.begin("fixed tapes");
        for case in cases::tape_cases() {
            self.one(Program::Tape, &case.name, &case.tape, case.lines.as_deref());
        }
        self.report.end();
        self.report.begin("fixed images");
        for case in cases::probe_cases() {
            self.one(Program::Probe, &case.name, &case.input, case.lines.as_deref());
        }
        self.report.end();
    }

    fn random_tapes(&mut self, counts: &mut Counts) {
        let seed = self.options.seed;
        self.report.begin("random tapes");
        for number in 0..TAPES {
            let tape = random_tape(seed, number, counts);
            let name = format!("seed {}, tape {}", seed, number);
            self.one(Program::Tape, &name, &tape, None);
        }
        self.report.end();
    }

    /// No branch may be left out, neither where lines are compared nor where every byte is.
    fn branches(&mut self, by_tapes: &Counts, by_images: &Counts) {
        print_branches(by_tapes, by_images);
        self.report.begin("branches taken");
        for (name, taken) in by_tapes.table() {
            self.taken(&name, taken, "by a tape");
        }
        for (name, taken) in by_images.table() {
            if branches::of_a_pool(&name) {
                self.taken(&name, taken, "on an image");
            }
        }
        self.report.end();
    }

    fn taken(&mut self, name: &str, taken: Taken, how: &str) {
        for layout in Layout::BOTH {
            if branches::of_layout(name, layout) {
                let what = format!("never taken {} in layout {}: {}", how, layout.number(), name);
                self.report.check(taken[layout as usize - 1] > 0, &what);
            }
        }
    }

    fn sound_images(&mut self, counts: &mut Counts) {
        let seed = self.options.seed;
        self.report.begin("sound images");
        self.batches(IMAGES, |number| sound_image_case(seed, number, counts));
        self.report.end();
        self.report.begin("extreme images");
        let mut random = Random::of_case(seed, 6, 0);
        let states = images::extreme_states(&mut random);
        for (number, state) in states.iter().enumerate() {
            let old = random.bytes(state.n);
            let bytes = layout::write(state, &old);
            let name = format!("seed {}, extreme image {}", seed, number);
            let input = every_call(state, &bytes, 2, &mut random, counts);
            self.batch(&[Case { name, input }]);
        }
        self.report.end();
        self.report.begin("images with tall bins");
        self.batches(TALL, |number| tall_case(seed, number, counts));
        self.report.end();
        self.report.begin("runs of calls on one image");
        self.batches(RUNS, |number| run_case(seed, number, counts));
        self.report.end();
    }

    fn damaged_images(&mut self) {
        let seed = self.options.seed;
        self.report.begin("damaged images");
        print_verdicts(seed);
        self.batches(DAMAGED, |number| damaged_case(seed, number));
        self.report.end();
    }

    fn edges(&mut self) {
        self.report.begin("probe edges");
        for case in cases::probe_edges() {
            self.one(Program::Probe, &case.name, &case.input, case.lines.as_deref());
        }
        self.report.end();
    }

    fn conversions(&mut self) {
        let mut counts = conversion::Counts::new();
        for group in conversion::GROUPS {
            self.group(group, &mut counts);
        }
        print_table(CONVERSIONS, &counts.table());
        self.all_taken("branches of the conversion taken", &counts.table());
    }

    fn homings(&mut self) {
        let mut counts = homing::Counts::new();
        for group in homing::GROUPS {
            self.group(group, &mut counts);
        }
        print_table(HOMINGS, &counts.table());
        self.all_taken("branches of going home taken", &counts.table());
    }

    fn banks(&mut self) {
        self.report.begin("fixed banks");
        for case in banks::fixed::cases().into_iter().chain(banks::fixed::edges()) {
            self.one(Program::Probe, &case.name, &case.input, case.lines.as_deref());
        }
        self.report.end();
        let mut counts = banks::Counts::new();
        for group in banks::GROUPS {
            self.group(group, &mut counts);
        }
        print_table(BANKS, &counts.table());
        self.all_taken("branches of the bank taken", &counts.table());
    }

    fn all_taken(&mut self, group: &str, table: &[(String, u64)]) {
        self.report.begin(group);
        for (name, count) in table {
            self.report.check(*count > 0, &format!("never taken: {}", name));
        }
        self.report.end();
    }

    /// A law that this program broke is a failure even where the other program breaks it too.
    fn group<Counts>(&mut self, (name, count, make): Group<Counts>, counts: &mut Counts) {
        let seed = self.options.seed;
        let mut faults = Vec::new();
        self.report.begin(name);
        self.batches(count, |number| {
            let case = make(seed, number, counts);
            faults.extend(case.faults.iter().map(|fault| format!("{}: {}", case.name, fault)));
            Case { name: case.name, input: case.input }
        });
        faults.iter().for_each(|fault| self.report.fail(fault));
        self.report.end();
    }
}

const CONVERSIONS: &str = "branches of the conversion, with every byte compared:";
const HOMINGS: &str = "branches of going home, with every byte compared:";
const BANKS: &str = "branches of the bank, on pools with every byte compared:";

fn print_table(title: &str, table: &[(String, u64)]) {
    println!("{}", title);
    for (name, count) in table {
        println!("{:>8}  {}", count, name);
    }
}

pub fn print_branches(by_tapes: &Counts, by_images: &Counts) {
    println!("branches taken by random tapes, and on images with every byte compared;");
    println!("of each, the first column is layout 1 and the second layout 2:");
    for ((name, tapes), (_, images)) in by_tapes.table().into_iter().zip(by_images.table()) {
        let all = branches::of_a_pool(&name);
        let columns = [(tapes, true), (images, all)].map(|(taken, there)| {
            Layout::BOTH.map(|layout| match there && branches::of_layout(&name, layout) {
                true => taken[layout as usize - 1].to_string(),
                false => "-".to_string(),
            })
        });
        let [[tapes1, tapes2], [images1, images2]] = columns;
        println!("{:>8} {:>8} {:>8} {:>8}  {}", tapes1, tapes2, images1, images2, name);
    }
}

/// How often the random inputs of a seed take each branch, without another program.
pub fn count(seed: u64) {
    let (mut by_tapes, mut by_images) = (Counts::new(), Counts::new());
    (0..TAPES).for_each(|number| drop(random_tape(seed, number, &mut by_tapes)));
    (0..IMAGES).for_each(|number| drop(sound_image_case(seed, number, &mut by_images)));
    (0..TALL).for_each(|number| drop(tall_case(seed, number, &mut by_images)));
    (0..RUNS).for_each(|number| drop(run_case(seed, number, &mut by_images)));
    print_branches(&by_tapes, &by_images);
    let mut counts = conversion::Counts::new();
    make_all(seed, conversion::GROUPS, &mut counts);
    print_table(CONVERSIONS, &counts.table());
    let mut counts = homing::Counts::new();
    make_all(seed, homing::GROUPS, &mut counts);
    print_table(HOMINGS, &counts.table());
    let mut counts = banks::Counts::new();
    make_all(seed, banks::GROUPS, &mut counts);
    print_table(BANKS, &counts.table());
}

fn make_all<Counts, const N: usize>(seed: u64, groups: [Group<Counts>; N], counts: &mut Counts) {
    for (_, count, make) in groups {
        (0..count).for_each(|number| drop(make(seed, number, counts)));
    }
}

/// How many damaged images of each sort this program finds sound; some rightly are.
fn print_verdicts(seed: u64) {
    let mut sound = vec![0; damage::SORTS.len()];
    let mut all = vec![0; damage::SORTS.len()];
    for number in 0..DAMAGED {
        let index = number as usize % damage::SORTS.len();
        all[index] += 1;
        sound[index] += layout::read(&damage::damaged(seed, number).bytes).is_ok() as u64;
    }
    println!("damaged images, sound and not sound:");
    for (index, (name, _)) in damage::SORTS.iter().enumerate() {
        println!("{:>6} {:>6}  {}", sound[index], all[index] - sound[index], name);
    }
    let total: u64 = sound.iter().sum();
    println!("{:>6} {:>6}  in all", total, DAMAGED - total);
}

fn sound_image_case(seed: u64, number: u64, counts: &mut Counts) -> Case {
    let mut random = Random::of_case(seed, 3, number);
    let n = match number % 100 {
        99 => 65_536,
        _ => images::random_pool_size(&mut random),
    };
    let (state, bytes) = images::random_image(&mut random, n);
    let times = if n > 4_000 { 2 } else { 6 };
    let input = every_call(&state, &bytes, times, &mut random, counts);
    Case { name: format!("seed {}, image {} of {} bytes", seed, number, n), input }
}

/// Every call on the image; each that may change bytes gets the image anew and a dump behind it.
fn every_call(
    state: &State,
    bytes: &[u8],
    times: usize,
    random: &mut Random,
    counts: &mut Counts,
) -> Vec<u8> {
    let mut script = Script::new();
    script.image(bytes).plain(b'N').plain(b'S').number(b'C', 53);
    script.number(b'C', *random.pick(&[0, 1, 52, 54, 64]));
    for _ in 0..times {
        let letter = *random.pick(b"AP");
        script.number(letter, held_offset(state, random)).number(letter, odd_offset(state, random));
    }
    script.plain(b'D');
    counts.observe(Some(state), Request::Figures, None);
    let largest = rules::largest_grant(state) as u32;
    for s in [largest, largest + 1, *random.pick(&[largest + 8, u32::MAX])] {
        let _ = changing(script.image(bytes), state, Request::Take(s), counts);
    }
    for _ in 0..times {
        let s = some_size(state, random);
        let _ = changing(script.image(bytes), state, Request::Take(s), counts);
        let offset = held_offset(state, random);
        let _ = changing(script.image(bytes), state, Request::GiveBack(offset), counts);
    }
    let offset = odd_offset(state, random);
    let _ = changing(script.image(bytes), state, Request::GiveBack(offset), counts);
    for _ in 0..2 {
        let length = *random.pick(&[0, 1, 4, 5, 60, 100, 1_000]);
        let content = random.bytes(length);
        let offset = if random.chance(3, 4) {
            held_offset(state, random)
        } else {
            odd_offset(state, random)
        };
        script.image(bytes).write_part(offset, &content).plain(b'N').plain(b'D');
    }
    script.image(bytes).plain(b'L').plain(b'N').plain(b'D');
    script.image(bytes).number(b'M', 2).plain(b'N').plain(b'D');
    let number = *random.pick(&[0, 1, 3, 13, 257, 258, u32::MAX]);
    script.image(bytes).number(b'M', number).plain(b'N').plain(b'D');
    script.image(bytes).plain(b'H').plain(b'D');
    script.input
}

/// A take or give-back with a dump behind it; its outcome, counted by its branches.
fn changing(script: &mut Script, state: &State, request: Request, counts: &mut Counts) -> Outcome {
    let outcome = match request {
        Request::GiveBack(offset) => {
            script.number(b'G', offset);
            rules::give_back(state, offset)
        }
        Request::Take(s) => {
            script.number(b'T', s);
            rules::take(state, s)
        }
        other => panic!("{:?} is neither take nor give-back", other),
    };
    script.plain(b'D');
    counts.observe(Some(state), request, Some(&outcome));
    outcome
}

fn held_offset(state: &State, random: &mut Random) -> u32 {
    // Large blocks first, since they have the longer rules.
    let large: Vec<usize> =
        state.low.iter().filter(|block| block.held).map(|block| block.start).collect();
    let held: Vec<usize> = state.held().map(|block| block.start).collect();
    if random.chance(1, 3) {
        if let Some(offset) = joining_offset(state, random) {
            return offset;
        }
    }
    if random.chance(1, 8) {
        if let Some(offset) = edge_offset(state) {
            return offset;
        }
    }
    let start = if !large.is_empty() && random.chance(2, 3) {
        *random.pick(&large)
    } else if !held.is_empty() {
        *random.pick(&held)
    } else {
        state.remainder_start()
    };
    start as u32 + 4
}

fn some_size(state: &State, random: &mut Random) -> u32 {
    let large: Vec<usize> = state.large_bins.keys().copied().collect();
    let bins: Vec<usize> = large.iter().chain(state.small_bins.keys()).copied().collect();
    if !bins.is_empty() && random.chance(1, 4) {
        return payload_of(*random.pick(&bins), random);
    }
    if large.len() > 1 && random.chance(1, 2) {
        let split = random.pick(&large).saturating_sub(*random.pick(&large));
        return payload_of(split.max(72), random);
    }
    let any = random.between(1, 200) as u32;
    edge_size(state, random).unwrap_or(any)
}

/// Takes and give-backs in a great pool whose bins reach the high levels, each on the image anew.
fn tall_case(seed: u64, number: u64, counts: &mut Counts) -> Case {
    let mut random = Random::of_case(seed, 15, number);
    let state = images::tall_state(&mut random);
    let old = random.bytes(state.n);
    let bytes = layout::write(&state, &old);
    let mut script = Script::new();
    script.image(&bytes).plain(b'N').plain(b'S');
    for _ in 0..4 {
        let s = some_size(&state, &mut random);
        let _ = changing(script.image(&bytes), &state, Request::Take(s), counts);
        let tallest = state.low.iter().filter(|block| block.held);
        let tallest = tallest.max_by_key(|block| (state.layout.height(block.size), block.start));
        let offset = match tallest.filter(|_| random.chance(1, 2)) {
            Some(block) => block.start as u32 + 4,
            None => held_offset(&state, &mut random),
        };
        let _ = changing(script.image(&bytes), &state, Request::GiveBack(offset), counts);
    }
    Case { name: format!("seed {}, tall bins {}", seed, number), input: script.input }
}

/// Calls one after another on one image, each with a dump, so that old bytes show through.
fn run_case(seed: u64, number: u64, counts: &mut Counts) -> Case {
    let mut random = Random::of_case(seed, 5, number);
    let top = *random.pick(&[60, 150, 300, 500]);
    let n = random.between(22, top) * 8;
    let (mut state, bytes) = images::random_image(&mut random, n);
    let mut script = Script::new();
    script.image(&bytes);
    for _ in 0..random.between(10, 60) {
        let request = match random.below(10) {
            0..=4 => Request::Take(some_size(&state, &mut random)),
            5..=8 => Request::GiveBack(held_offset(&state, &mut random)),
            _ => Request::GiveBack(odd_offset(&state, &mut random)),
        };
        if let Ok((after, _)) = changing(&mut script, &state, request, counts) {
            state = after;
        }
    }
    script.plain(b'S').number(b'C', 53);
    Case { name: format!("seed {}, run {} of {} bytes", seed, number, n), input: script.input }
}

/// The verdict, and every call behind it: where the image is not sound, no byte may change, but by
/// bringing in, which comes last.
fn damaged_case(seed: u64, number: u64) -> Case {
    let damaged = damage::damaged(seed, number);
    let offset = damaged.offset;
    let mut script = Script::new();
    script.image(&damaged.bytes).plain(b'N').number(b'T', 8).number(b'G', offset).plain(b'S');
    script.number(b'T', 72).number(b'A', offset).number(b'P', offset);
    script.write_part(offset, &[1, 2, 3, 4]).number(b'C', 53).number(b'C', 52);
    script.number(b'Y', 1).number(b'Y', 2).plain(b'D').plain(b'H').plain(b'D');
    let name = format!("seed {}, damaged image {} ({})", seed, number, damaged.sort);
    Case { name, input: script.input }
}
