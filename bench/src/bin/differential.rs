//! Random and damaged charts and lists of calls through the exported functions and through plain
//! Rust, for so many seconds, to the first difference.
//!
//! `differential SECONDS [SEED]`
use bench::kinds::{numbers, place, shown, NO_CALL};
use bench::plain::{convert, effective, show_box, Runner, Told};
use bench::random::Random;
use bench::{charts, exported, kinds};
use std::time::{Duration, Instant};

const STRIDE: usize = 24;

/// A list of calls as numbers, the files that its loads, shows and conversions name, and where
/// those begin in which two box blocks are exchanged and those that plain Rust converted.
struct Script {
    files: Vec<u8>,
    words: Vec<[u32; STRIDE]>,
    exchanged: Vec<u32>,
    converted: Vec<u32>,
}

fn call(arguments: &[u32]) -> [u32; STRIDE] {
    let mut words = [0; STRIDE];
    words[..arguments.len()].copy_from_slice(arguments);
    words
}

fn begin(random: &mut Random, k: u32) -> [u32; STRIDE] {
    let mode = if random.one_in(20) { random.number() } else { random.below(3) };
    let count = if random.one_in(20) { random.below(18) } else { k };
    let allowed = match random.below(20) {
        0 => random.number(),
        1 => 1u32.checked_shl(k).unwrap_or(0),
        _ => (random.word() as u32) & ((1u64 << k) - 1) as u32,
    };
    let limit = match random.below(12) {
        0 => random.number(),
        1 => 0,
        2 => 65535,
        _ => 1 + random.below(300),
    };
    let mut words = call(&[1, mode, allowed, limit, count]);
    for word in &mut words[5..22] {
        *word = random.number();
    }
    words
}

/// An amount to advance by: of any size, and often the limit of the last begin or near it, from
/// which on a high-water run accepts amounts.
fn amount(random: &mut Random, limit: u32) -> u32 {
    match random.below(12) {
        0 => 0,
        1 => u32::MAX - random.below(2),
        2..=4 => random.below(4),
        5 => 65535,
        6..=7 => random.below(200),
        8..=9 => limit,
        10 => limit - 1,
        _ => limit.saturating_add(1 + random.below(100)),
    }
}

/// How many bytes of the buffer to lend for a file: of any number, and often as many as the file
/// has, or one fewer.
fn room(random: &mut Random, length: u32) -> u32 {
    match random.below(6) {
        0 => random.below(2600),
        1 => length.saturating_sub(1),
        2..=3 => length,
        _ => 2599,
    }
    .min(2599)
}

/// The other edition's file, where there is one.
fn conversion(file: &[u8]) -> Option<Vec<u8>> {
    let mut buf = [0; 2560];
    match convert(file, &mut buf) {
        Told::Written(length) => Some(buf[..length].to_vec()),
        _ => None,
    }
}

impl Script {
    /// Puts a file of k inputs among the files, a load of it and other calls in the list; `limit`
    /// is that of the last begin.
    fn add(&mut self, random: &mut Random, file: &[u8], k: u32, limit: &mut u32) {
        let (from, length) = (self.files.len() as u32, file.len() as u32);
        self.files.extend(file);
        self.words.push(call(&[0, from, length]));
        for _ in 0..random.below(40) {
            self.words.push(match random.below(16) {
                0..=2 => {
                    let begin = begin(random, k);
                    *limit = effective(begin[3]);
                    begin
                }
                3..=6 => call(&[2, amount(random, *limit)]),
                7..=8 => call(&[3]),
                9 => call(&[4]),
                10 => call(&[5, room(random, length)]),
                11 => call(&[6, from, length, if random.one_in(2) { random.below(12) } else { random.below(256) }]),
                12 => call(&[7, from, length, room(random, length)]),
                13..=14 => call(&[8]),
                _ => call(&[random.number().max(9), from, length, random.below(12)]),
            });
        }
    }
}

fn script(random: &mut Random) -> Script {
    let mut script = Script { files: Vec::new(), words: Vec::new(), exchanged: Vec::new(), converted: Vec::new() };
    let mut limit = effective(0);
    for _ in 0..1 + random.below(4) {
        let mut file = charts::random_chart(random);
        let k = u32::from(file[5]);
        let converted = if random.one_in(3) { conversion(&file) } else { None };
        if random.one_in(3) {
            charts::damage(random, &mut file);
        } else if random.one_in(6) && charts::exchange(random, &mut file) {
            script.exchanged.push(script.files.len() as u32);
        }
        script.add(random, &file, k, &mut limit);
        if let Some(converted) = converted {
            script.converted.push(script.files.len() as u32);
            script.add(random, &converted, k, &mut limit);
        }
    }
    script
}

fn sum_of(bytes: &[u8]) -> u32 {
    bytes.iter().fold(0, |sum: u32, b| ((sum << 5) ^ (sum >> 3)).wrapping_add(u32::from(*b)))
}

/// What plain Rust tells for one call.
fn plain(runner: &mut Runner, files: &[u8], words: &[u32; STRIDE], buf: &mut [u8]) -> [u32; 4] {
    let file = || &files[words[1] as usize..(words[1] + words[2]) as usize];
    let (told, sum) = match words[0] {
        0 => (numbers(runner.load(file())), 0),
        1 => (numbers(runner.begin(words[1], &words[5..5 + words[4] as usize], words[2], words[3])), 0),
        2 => (numbers(runner.advance(words[1])), 0),
        3 => (numbers(runner.answer()), 0),
        4 => (numbers(runner.abandon()), 0),
        5 => {
            let told = numbers(runner.write_back(&mut buf[..words[1] as usize]));
            (told, sum_of(buf))
        }
        6 => {
            let part = show_box(file(), words[3]);
            (shown(part), sum_of(part))
        }
        7 => {
            let told = convert(file(), &mut buf[..words[3] as usize]);
            if let Told::Written(length) = told {
                assert!(conversion(&buf[..length]).as_deref() == Some(file()), "converting back gives another file");
            }
            (numbers(told), sum_of(buf))
        }
        8 => (numbers(runner.rewrite()), 0),
        _ => (NO_CALL, 0),
    };
    [told[0], told[1], told[2], sum]
}

/// How many boxes of the chart held are of kind 4.
fn kind_4_boxes(runner: &Runner) -> u64 {
    let mut file = [0; 2560];
    runner.write_back(&mut file);
    (0..204).filter(|p| file[512 * (1 + p / 51) + 10 * (p % 51)] == 4).count() as u64
}

fn main() {
    let words: Vec<String> = std::env::args().skip(1).collect();
    let seconds: u64 = words.first().map_or(10, |w| w.parse().expect("SECONDS is a number"));
    let seed: u64 = words.get(1).map_or(1, |w| w.parse().expect("SEED is a number"));
    let end = Instant::now() + Duration::from_secs(seconds);
    let mut random = Random::new(seed);
    let (mut scripts, mut calls) = (0u64, 0u64);
    let mut counts = [0u64; kinds::NAMES.len()];
    let mut refusals = [0u64; 25];
    let mut accepted = [0u64; 3];
    let mut exchanged = [[0u64; 2]; 3];
    let mut conversions = [[0u64; 2]; 3];
    let mut converted = 0u64;
    let mut rewritings = [0u64; 2];
    let mut replaced = 0u64;
    while Instant::now() < end {
        let script = script(&mut random);
        let flat: Vec<u32> = script.words.iter().flatten().copied().collect();
        let mut told = vec![0; 4 * script.words.len()];
        let junk = random.word() as u8;
        let (mut ours, mut theirs) = ([junk; 2600], [junk; 2600]);
        let made = exported::script(&script.files, &flat, &mut told, &mut ours);
        assert_eq!(made, script.words.len());
        let mut runner = Runner::new();
        for (i, (words, told)) in script.words.iter().zip(told.chunks(4)).enumerate() {
            let before = if words[0] == 8 { kind_4_boxes(&runner) } else { 0 };
            let expected = plain(&mut runner, &script.files, words, &mut theirs);
            counts[place(expected[0])] += 1;
            let name = kinds::NAMES[place(expected[0])];
            let edition = || usize::from(script.files[words[1] as usize + 4]);
            match name {
                "refused" => refusals[expected[1] as usize] += 1,
                "chart" => accepted[edition()] += 1,
                _ => {}
            }
            if words[0] == 0 && script.exchanged.contains(&words[1]) {
                match (name, expected[1]) {
                    ("chart", _) => exchanged[edition()][0] += 1,
                    ("refused", 2) => exchanged[edition()][1] += 1,
                    _ => {}
                }
            }
            match (words[0], name, expected[1]) {
                (0, "chart", _) if script.converted.contains(&words[1]) => converted += 1,
                (7, "written", _) => conversions[edition()][0] += 1,
                (7, "refused", 14) => conversions[edition()][1] += 1,
                (8, "done", _) => {
                    rewritings[0] += 1;
                    replaced += kind_4_boxes(&runner) - before;
                }
                (8, "refused", 15) => rewritings[1] += 1,
                _ => {}
            }
            if told != expected {
                println!("seed {seed}, list {scripts}, call {i}: {words:?}");
                println!("the library told {told:?}, plain Rust {expected:?}");
                std::process::exit(1);
            }
        }
        assert!(ours == theirs, "seed {seed}, list {scripts}: the buffers differ");
        scripts += 1;
        calls += made as u64;
    }
    println!("{scripts} lists, {calls} calls, no difference");
    for (name, count) in kinds::NAMES.iter().zip(counts) {
        println!("{name} {count}");
    }
    for (number, count) in refusals.iter().enumerate().filter(|(_, count)| **count > 0) {
        println!("refused by {number}: {count}");
    }
    for edition in [1, 2] {
        println!("loads of edition {edition}: {}", accepted[edition]);
    }
    for edition in [1, 2] {
        let [loaded, refused] = exchanged[edition];
        println!("exchanged blocks in edition {edition}: {loaded} loaded, {refused} refused by 2");
    }
    for edition in [1, 2] {
        let [made, refused] = conversions[edition];
        println!("conversions from edition {edition}: {made} made, {refused} refused by 14");
    }
    println!("loads of converted charts: {converted}");
    let [made, refused] = rewritings;
    println!("rewritings: {made} made, in which {replaced} decisions were replaced, {refused} refused by 15");
}
