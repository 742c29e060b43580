//! Chart files: the boxes of a chart, sealed in blocks, and random ones.
use crate::plain::reads;
use crate::random::Random;

pub type Box10 = [u8; 10];

pub fn assign(target: u8, op: u8, left: u8, right: u8, next: u8) -> Box10 {
    [1, target, op, left, right, next, 0, 0, 0, 0]
}

pub fn constant(target: u8, value: u32, next: u8) -> Box10 {
    let c = value.to_le_bytes();
    [1, target, 0, 0, 0, next, c[0], c[1], c[2], c[3]]
}

pub fn decide(comparison: u8, left: u8, right: u8, next: u8, other: u8) -> Box10 {
    [2, 0, comparison, left, right, next, other, 0, 0, 0]
}

/// A kind 4 box, of edition 2 alone: `yes` is copied where the comparison holds, else `no`.
pub fn choose(target: u8, comparison: u8, left: u8, right: u8, next: u8, yes: u8, no: u8) -> Box10 {
    [4, target, comparison, left, right, next, yes, no, 0, 0]
}

pub const HALT: Box10 = [3, 0, 0, 0, 0, 0, 0, 0, 0, 0];

/// Writes the check of each block by an edition's rule: in edition 2 the check of block j adds 511
/// times j.
fn seal_by(edition: u8, file: &mut [u8]) {
    let added = if edition == 2 { 511 } else { 0 };
    for (j, block) in (0u32..).zip(file.chunks_exact_mut(512)) {
        let check = block[..510].iter().zip(1u32..).fold(added * j, |sum, (b, i)| sum.wrapping_add(i * u32::from(*b)));
        block[510..].copy_from_slice(&(check as u16).to_le_bytes());
    }
}

/// Writes the check of each block by the rule of the edition in byte 4.
pub fn seal(file: &mut [u8]) {
    if let Some(&edition) = file.get(4) {
        seal_by(edition, file);
    }
}

/// The file of a chart of an edition and k inputs whose first box is `first`.
pub fn file(edition: u8, k: u8, first: u8, boxes: &[Box10]) -> Vec<u8> {
    let mut file = vec![0; 512 * (1 + boxes.len().div_ceil(51))];
    file[..8].copy_from_slice(&[b'F', b'L', b'O', b'W', edition, k, boxes.len() as u8, first]);
    for (p, b) in boxes.iter().enumerate() {
        let at = 512 * (1 + p / 51) + 10 * (p % 51);
        file[at..at + 10].copy_from_slice(b);
    }
    seal(&mut file);
    file
}

/// Chart A of the scope document, of edition 1.
pub fn chart_a() -> Vec<u8> {
    file(1, 2, 0, &[assign(31, 1, 0, 0, 1), assign(31, 1, 1, 0, 2), HALT])
}

/// Adds input 0 to 31 as often as variable 17 counts down from the greatest number, which no limit
/// lets it finish: two assignments and a decision a turn.
pub fn counting(edition: u8) -> Vec<u8> {
    let boxes = [
        constant(17, u32::MAX, 1),
        constant(18, 1, 2),
        assign(31, 2, 31, 0, 3),
        assign(17, 3, 17, 18, 4),
        decide(0, 17, 16, 5, 2),
        HALT,
    ];
    file(edition, 2, 0, &boxes)
}

/// Every operation in a circle.
pub fn operations(edition: u8) -> Vec<u8> {
    let mut boxes = vec![constant(18, 1_000_003, 1)];
    for op in 1..12u8 {
        let right = if reads(edition, op).1 { 18 } else { 0 };
        let left = if op == 1 { 0 } else { 19 };
        boxes.push(assign(19 + op % 2, op, left, right, op + 1));
    }
    boxes.push(assign(19, 4, 20, 18, 13));
    boxes.push(assign(19, 2, 19, 0, 14));
    boxes.push(assign(31, 2, 31, 19, 1));
    file(edition, 2, 0, &boxes)
}

/// Decisions in a circle, some taken and some not.
pub fn decisions(edition: u8) -> Vec<u8> {
    let mut boxes = Vec::new();
    for p in 0..30u8 {
        let next = (p + 1) % 30;
        boxes.push(if p % 10 == 9 { assign(16, 2, 16, 1, next) } else { decide(p % 3, 16, 17, next, next) });
    }
    file(edition, 2, 0, &boxes)
}

/// Kind 4 boxes in a circle, some of whose comparisons hold and some not.
pub fn choices() -> Vec<u8> {
    let mut boxes = Vec::new();
    for p in 0..30u8 {
        let next = (p + 1) % 30;
        let (left, right) = if p % 2 == 0 { (16, 19) } else { (19, 16) };
        boxes.push(if p % 10 == 9 { assign(16, 2, 16, 1, next) } else { choose(17 + p % 2, p % 3, left, right, next, p % 2, 16 + p % 3) });
    }
    file(2, 2, 0, &boxes)
}

/// A chart of edition 2 and 204 boxes: decisions between two copies, by one comparison, in a
/// circle.
pub fn forks(comparison: u8) -> Vec<u8> {
    let mut boxes = Vec::new();
    for p in (0..204u8).step_by(3) {
        let next = (p + 3) % 204;
        boxes.extend([decide(comparison, 0, 16, p + 1, p + 2), assign(31, 1, 0, 0, next), assign(31, 1, 1, 0, next)]);
    }
    file(2, 2, 0, &boxes)
}

/// A chart of edition 1 and 16 inputs that adds them all.
pub fn sixteen() -> Vec<u8> {
    let mut boxes: Vec<Box10> = (0..16u8).map(|j| assign(31, 2, 31, j, j + 1)).collect();
    boxes.push(HALT);
    file(1, 16, 0, &boxes)
}

/// A straight chart of an edition and so many boxes, the halt included; the others have one
/// operation, which reads left and right.
pub fn straight(edition: u8, op: u8, n: usize) -> Vec<u8> {
    let mut boxes: Vec<Box10> = (1..n).map(|p| assign(31, op, 31, 0, p as u8)).collect();
    boxes.push(HALT);
    file(edition, 2, 0, &boxes)
}

/// A variable 16 to 31, mostly one of four, so that what a box gives is read and answered.
fn variable(random: &mut Random) -> u8 {
    match random.below(6) {
        0..=1 => 31,
        2 => 16 + random.below(16) as u8,
        _ => 16 + random.below(3) as u8,
    }
}

fn operand(random: &mut Random, k: u8) -> u8 {
    if k > 0 && random.one_in(2) {
        random.below(u32::from(k)) as u8
    } else {
        variable(random)
    }
}

const OPERATIONS: [u8; 12] = [0, 1, 2, 3, 4, 5, 6, 7, 8, 9, 10, 11];

/// Those that are the same in both editions.
const SHARED: [u8; 9] = [0, 1, 4, 5, 6, 7, 8, 9, 10];

fn random_decision(random: &mut Random, k: u8, next: u8, other: u8) -> Box10 {
    decide(random.below(3) as u8, operand(random, k), operand(random, k), next, other)
}

fn random_choice(random: &mut Random, k: u8, target: u8, next: u8) -> Box10 {
    let comparison = random.below(3) as u8;
    choose(target, comparison, operand(random, k), operand(random, k), next, operand(random, k), operand(random, k))
}

/// Box p, followed by the next one or by any; a shared one is the same in both editions.
fn random_box(random: &mut Random, edition: u8, k: u8, n: u8, p: u8, shared: bool) -> Box10 {
    let mut next = || if random.one_in(2) { random.below(u32::from(n)) as u8 } else { (p + 1) % n };
    let (a, b) = (next(), next());
    let target = variable(random);
    match random.below(12) {
        0 => HALT,
        1..=3 => random_decision(random, k, a, b),
        4..=5 if edition == 2 && !shared => random_choice(random, k, target, a),
        _ => {
            let operations = if shared { &SHARED[..] } else { &OPERATIONS[..] };
            let op = operations[random.below(operations.len() as u32) as usize];
            match reads(edition, op) {
                (false, _) => constant(target, random.number(), a),
                (_, false) => assign(target, op, operand(random, k), 0, a),
                _ => assign(target, op, operand(random, k), operand(random, k), a),
            }
        }
    }
}

/// A decision at p between copies at q and r with one target and one next box, which a rewriting
/// replaces; or, often, something near to that, which may involve box s. With `kind_4` there may be
/// a box of that kind.
fn put_fork(random: &mut Random, k: u8, kind_4: bool, boxes: &mut [Box10], [p, q, r, s]: [u8; 4]) {
    let n = boxes.len() as u32;
    let [at_p, at_q, at_r, at_s] = [p, q, r, s].map(usize::from);
    let (target, next) = (variable(random), if random.one_in(2) { s } else { random.below(n) as u8 });
    let (yes, no) = if random.one_in(2) { (q, r) } else { (r, q) };
    boxes[at_q] = assign(target, 1, operand(random, k), 0, next);
    boxes[at_r] = assign(target, 1, operand(random, k), 0, next);
    boxes[at_p] = random_decision(random, k, yes, no);
    match random.below(16) {
        // The next boxes are one.
        0 => boxes[at_p][6] = yes,
        // One next box has another target, another next box, another operation or another kind.
        1 => boxes[at_q][1] = variable(random),
        2 => boxes[at_q][5] = random.below(n) as u8,
        3 => boxes[at_q][2] = 9 + random.below(2) as u8,
        4 => boxes[at_q] = constant(target, random.number(), next),
        5 if kind_4 => boxes[at_q] = random_choice(random, k, target, next),
        // Another decision's next boxes are this one, which is replaced, and a copy, or both
        // copies.
        6 => boxes[at_s] = random_decision(random, k, p, q),
        7 => boxes[at_s] = random_decision(random, k, no, yes),
        8..=9 => boxes[at_s] = HALT,
        _ => {}
    }
}

/// A chart that load accepts, of either edition. In one of three every box is the same in both; in
/// one of six those below some box are. One of two has many decisions between copies.
pub fn random_chart(random: &mut Random) -> Vec<u8> {
    let edition = 1 + random.below(2) as u8;
    let k = random.below(17) as u8;
    let n = if random.one_in(2) { 1 + random.below(12) } else { 1 + random.below(204) } as u8;
    let shared = match random.below(6) {
        0..=1 => n,
        2 => random.below(u32::from(n)) as u8,
        _ => 0,
    };
    let mut boxes: Vec<Box10> = (0..n).map(|p| random_box(random, edition, k, n, p, p < shared)).collect();
    let mut first = random.below(u32::from(n)) as u8;
    if n >= 3 && random.one_in(2) {
        let mut places: Vec<u8> = (0..n).collect();
        random.shuffle(&mut places);
        if random.one_in(2) {
            first = places[0];
        }
        for i in (0..places.len()).step_by(4) {
            if !random.one_in(4) {
                put_fork(random, k, edition == 2 && shared == 0, &mut boxes, [0, 1, 2, 3].map(|j| places[(i + j) % places.len()]));
            }
        }
    }
    file(edition, k, first, &boxes)
}

/// Exchanges two box blocks, their checks with them, where the file has two; whether it has.
pub fn exchange(random: &mut Random, file: &mut [u8]) -> bool {
    let last = file.len() as u32 / 512 - 1;
    if last < 2 {
        return false;
    }
    let i = 1 + random.below(last - 1);
    let j = i + 1 + random.below(last - i);
    let (front, back) = file.split_at_mut(512 * j as usize);
    front[512 * i as usize..][..512].swap_with_slice(&mut back[..512]);
    true
}

/// Damage of one kind or another, the checks mended or not, or the checks of the other edition's
/// rule. One in four draws the edition anew, from 0 to 3, and mostly mends the checks with nothing
/// else damaged.
pub fn damage(random: &mut Random, file: &mut Vec<u8>) {
    if random.one_in(4) {
        file[4] = random.below(4) as u8;
        if !random.one_in(3) {
            return seal(file);
        }
    }
    match random.below(7) {
        0 => file.truncate(random.below(file.len() as u32 + 1) as usize),
        1 => file.resize(512 * random.below(7) as usize, 0),
        2 => {
            let at = random.below(8.min(file.len() as u32)) as usize;
            file[at] = random.word() as u8;
        }
        3 => {
            let at = 512 + random.below(file.len() as u32 - 512) as usize;
            file[at] ^= 1 << random.below(8);
        }
        4 => {
            let at = random.below(file.len() as u32) as usize;
            file[at] = random.below(40) as u8;
        }
        5 => {
            let at = 8 + random.below(502) as usize;
            file[at] = random.word() as u8;
        }
        _ => return seal_by(if file[4] == 2 { 1 } else { 2 }, file),
    }
    if !random.one_in(3) {
        seal(file);
    }
}
