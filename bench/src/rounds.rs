//! Many rounds of one call, or of a health check, for both plain runners; what each told is folded
//! into a sum. The rounds are those of `crates/bench_rounds` and `crates/bench_checks`.
use crate::by_value;
use crate::kinds::numbers;
use crate::plain;
use crate::plain::{Told, GREATEST_LIMIT};

pub fn fold(sum: u64, word: u32) -> u64 {
    (sum ^ sum >> 7).wrapping_add(word.into())
}

fn fold_told(sum: u64, told: Told) -> u64 {
    numbers(told).into_iter().fold(sum, fold)
}

/// The byte at a place, which becomes 255; 0 past the end.
fn take_byte(bytes: &mut [u8], at: usize) -> u32 {
    bytes.get_mut(at).map_or(0, |b| std::mem::replace(b, 255)).into()
}

/// Health checks: begin, advance to the end, answer. Input 0 is one more each round.
pub fn checks(file: &[u8], mode: u32, inputs: &[u32], allowed: u32, limit: u32, rounds: u32) -> u64 {
    let mut runner = plain::Runner::new();
    runner.load(file);
    let mut own = [0; 16];
    let k = inputs.len().min(16);
    own[..k].copy_from_slice(&inputs[..k]);
    let mut sum = 0;
    for _ in 0..rounds {
        own[0] = own[0].wrapping_add(1);
        runner.begin(mode, &own[..k], allowed, limit);
        runner.advance(GREATEST_LIMIT);
        sum = fold_told(sum, runner.answer());
    }
    sum
}

/// The same by value.
pub fn checks_by_value(file: &[u8], mode: u32, inputs: &[u32], allowed: u32, limit: u32, rounds: u32) -> u64 {
    let mut runner = by_value::Runner::new().load(file).runner;
    let mut own = [0; 16];
    let k = inputs.len().min(16);
    own[..k].copy_from_slice(&inputs[..k]);
    let mut sum = 0;
    for _ in 0..rounds {
        own[0] = own[0].wrapping_add(1);
        let turn = runner.begin(mode, &own[..k], allowed, limit).runner.advance(GREATEST_LIMIT).runner.answer();
        sum = fold_told(sum, turn.told);
        runner = turn.runner;
    }
    sum
}

/// The next boxes of a chart's boxes, byte 5 of each, followed for so many steps from its first
/// box.
pub fn next_boxes(file: &[u8], steps: u32, rounds: u32) -> u64 {
    let table: Vec<u8> = file[512..].chunks(512).flat_map(|block| &block[..510]).copied().collect();
    let mut sum = 0;
    let mut half = 5 * usize::from(file[7]);
    for _ in 0..rounds {
        for _ in 0..steps {
            half = 5 * usize::from(table[2 * half + 5]);
        }
        sum = fold(sum, half as u32);
    }
    sum
}

/// Loads of two files in turn, each of which is a half of the bytes.
pub fn loads(files: &[u8], rounds: u32) -> u64 {
    let (one, other) = files.split_at(files.len() / 2);
    let mut runner = plain::Runner::new();
    let mut sum = 0;
    for i in 0..rounds {
        let file = if i % 2 == 0 { one } else { other };
        sum = fold_told(sum, runner.load(file));
    }
    sum
}

/// Write backs of one chart; of each, one byte of the buffer is folded too.
pub fn writes(file: &[u8], buf: &mut [u8], rounds: u32) -> u64 {
    let mut runner = plain::Runner::new();
    runner.load(file);
    let mut sum = 0;
    for i in 0..rounds {
        sum = fold_told(sum, runner.write_back(buf));
        sum = fold(sum, take_byte(buf, i as usize % 2048));
    }
    sum
}

/// Conversions of one file; of each, one byte of the buffer is folded too.
pub fn converts(file: &[u8], buf: &mut [u8], rounds: u32) -> u64 {
    let mut sum = 0;
    for i in 0..rounds {
        sum = fold_told(sum, plain::convert(file, buf));
        sum = fold(sum, take_byte(buf, i as usize % 2048));
    }
    sum
}

/// Rewritings of two charts in turn, whose files are each a half of the bytes. The last chart
/// rewritten is written back, and the first byte of the check of its first boxes is folded too.
pub fn rewrites(files: &[u8], buf: &mut [u8], rounds: u32) -> u64 {
    let (one, other) = files.split_at(files.len() / 2);
    let charts = [one, other].map(|file| {
        let mut runner = plain::Runner::new();
        runner.load(file);
        runner
    });
    let mut runner = plain::Runner::new();
    let mut sum = 0;
    for i in 0..rounds {
        runner = charts[i as usize % 2].clone();
        sum = fold_told(sum, runner.rewrite());
    }
    sum = fold_told(sum, runner.write_back(buf));
    fold(sum, take_byte(buf, 1022))
}

/// Boxes shown, by numbers below 256; of each, the length and the byte at 5 are folded.
pub fn shows(file: &[u8], rounds: u32) -> u64 {
    let mut sum = 0;
    for i in 0..rounds {
        let part = plain::show_box(file, i % 256);
        sum = fold(sum, part.len() as u32);
        if part.len() == 10 {
            sum = fold(sum, part[5].into());
        }
    }
    sum
}
