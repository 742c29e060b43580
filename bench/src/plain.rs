//! Charts by the scope document, in plain Rust: the runner behind `&mut self`, the boxes read out
//! of the same byte table.

/// The greatest limit; an advance by so many boxes ends a run in every mode.
pub const GREATEST_LIMIT: u32 = 65535;

/// What a call tells: a refusal is its number and detail; a notice names a set of withheld inputs,
/// of which bit j is input j.
#[derive(Clone, Copy, PartialEq, Eq, Debug)]
pub enum Told {
    Done,
    Chart { inputs: u8, boxes: u8 },
    Running(u32),
    Ended(u32),
    Value { value: u32, steps: u32 },
    Notice { steps: u32, named: u16 },
    Spent(u32),
    Written(usize),
    Refused(u32, u32),
}

#[derive(Clone, Copy, PartialEq, Eq)]
pub enum State {
    Resting,
    Running,
    Value,
    Notice,
    Spent,
}

/// An ending: its state, its value and the set that it names, 0 where there is none.
type Ending = (State, u32, u16);

/// What block 0 says of its chart; a new runner's has no boxes.
#[derive(Clone, Copy, Default)]
pub struct Header {
    edition: u8,
    inputs: u8,
    boxes: u8,
    first: u8,
}

/// A mark is a set of withheld inputs, 0 where there is none; `named` is the set of the notice
/// told, 0 without one.
#[derive(Clone)]
pub struct Runner {
    table: [u8; 2040],
    vars: [u32; 32],
    marks: [u16; 32],
    counter: u16,
    header: Header,
    mode: u8,
    /// The inputs that an assignment keeps of its target's old set, by the mode.
    keep: u16,
    /// And those that it takes of the sets read.
    take: u16,
    at: u8,
    limit: u32,
    steps: u32,
    value: u32,
    named: u16,
    state: State,
}

/// The check of block j, modulo 65,536 by its type: in edition 2 it adds 511 times j.
fn check_of(edition: u8, j: u16, block: &[u8]) -> u16 {
    let added = if edition == 2 { 511 * j } else { 0 };
    block[..510].iter().zip(1u16..).fold(added, |sum, (b, i)| sum.wrapping_add(i.wrapping_mul(u16::from(*b))))
}

fn is_sealed(edition: u8, j: u16, block: &[u8]) -> bool {
    check_of(edition, j, block).to_le_bytes() == block[510..512]
}

/// Writes the check of block j.
fn seal(edition: u8, j: u16, block: &mut [u8]) {
    let check = check_of(edition, j, block);
    block[510..512].copy_from_slice(&check.to_le_bytes());
}

/// Whether an operation reads left and whether it reads right.
pub fn reads(edition: u8, op: u8) -> (bool, bool) {
    match op {
        0 => (false, false),
        1 | 9 | 10 => (true, false),
        11 => (true, edition == 2),
        _ => (true, true),
    }
}

fn readable(v: u8, k: u8) -> bool {
    v < k || (16..32).contains(&v)
}

fn is_box(b: &[u8], header: Header) -> bool {
    let Header { edition, inputs: k, boxes: n, .. } = header;
    let operand = |read: bool, v: u8| if read { readable(v, k) } else { v == 0 };
    match b[0] {
        1 => {
            let (left, right) = reads(edition, b[2]);
            (16..32).contains(&b[1])
                && b[2] <= 11
                && operand(left, b[3])
                && operand(right, b[4])
                && b[5] < n
                && (b[2] == 0 || b[6..10] == [0; 4])
        }
        2 => b[1] == 0 && b[2] <= 2 && readable(b[3], k) && readable(b[4], k) && b[5] < n && b[6] < n && b[7..10] == [0; 3],
        3 => b[1..10] == [0; 9],
        4 if edition == 2 => {
            (16..32).contains(&b[1])
                && b[2] <= 2
                && [b[3], b[4], b[6], b[7]].iter().all(|v| readable(*v, k))
                && b[5] < n
                && b[8..10] == [0; 2]
        }
        _ => false,
    }
}

fn place(file: &[u8], p: usize) -> &[u8] {
    let at = 512 * (1 + p / 51) + 10 * (p % 51);
    &file[at..at + 10]
}

/// Load's input checks: the header, or the refusal.
pub fn check(file: &[u8]) -> Result<Header, (u32, u32)> {
    if ![1024, 1536, 2048, 2560].contains(&file.len()) {
        return Err((1, 0));
    }
    let header = Header { edition: file[4], inputs: file[5], boxes: file[6], first: file[7] };
    if let Some((j, _)) = (0..).zip(file.chunks(512)).find(|(j, block)| !is_sealed(header.edition, *j, block)) {
        return Err((2, u32::from(j)));
    }
    let n = header.boxes;
    if &file[..4] != b"FLOW" || ![1, 2].contains(&header.edition) {
        return Err((3, 0));
    }
    if header.inputs > 16 || n == 0 || n > 204 || header.first >= n || file[8..510].iter().any(|b| *b != 0) {
        return Err((4, 0));
    }
    if file.len() != 512 * (1 + (usize::from(n) + 50) / 51) {
        return Err((5, 0));
    }
    for p in 0..51 * (file.len() / 512 - 1) {
        let b = place(file, p);
        let right = if p < usize::from(n) { is_box(b, header) } else { b == [0; 10] };
        if !right {
            return Err((6, p as u32));
        }
    }
    Ok(header)
}

/// The steps that a limit means.
pub fn effective(limit: u32) -> u32 {
    if limit == 0 {
        4096
    } else {
        limit
    }
}

/// The ten bytes of a box as a part of its file.
pub fn show_box(file: &[u8], number: u32) -> &[u8] {
    match check(file) {
        Ok(header) if number < u32::from(header.boxes) => place(file, number as usize),
        _ => &[],
    }
}

/// Whether both editions have such a box, and it does the same in both.
fn is_shared(b: &[u8]) -> bool {
    match b[0] {
        1 => ![2, 3, 11].contains(&b[2]),
        kind => kind != 4,
    }
}

/// The other edition's file, with the same boxes, at the buffer's front.
pub fn convert(file: &[u8], buf: &mut [u8]) -> Told {
    let header = match check(file) {
        Ok(header) => header,
        Err((number, detail)) => return Told::Refused(number, detail),
    };
    // Places past the last box are zeros, as `check` has seen, so of neither kind.
    let mut places = file[512..].chunks_exact(512).flat_map(|block| block[..510].chunks_exact(10));
    if let Some(p) = places.position(|b| !is_shared(b)) {
        return Told::Refused(14, p as u32);
    }
    let Some(to) = buf.get_mut(..file.len()) else {
        return Told::Refused(12, 0);
    };
    let edition = 3 - header.edition;
    to.copy_from_slice(file);
    to[4] = edition;
    for (j, block) in (0..).zip(to.chunks_mut(512)) {
        seal(edition, j, block);
    }
    Told::Written(file.len())
}

/// Whether a comparison holds.
fn holds(comparison: u8, x: u32, y: u32) -> bool {
    match comparison {
        0 => x == y,
        1 => x < y,
        _ => x <= y,
    }
}

/// The kind 4 box that a decision becomes: its two next boxes differ, and are copies with one
/// target and one next box.
fn choice(boxes: &[[u8; 10]], b: &[u8; 10]) -> Option<[u8; 10]> {
    if b[0] != 2 || b[5] == b[6] {
        return None;
    }
    let (yes, no) = (&boxes[usize::from(b[5])], &boxes[usize::from(b[6])]);
    let copies = yes[0] == 1 && yes[2] == 1 && no[0] == 1 && no[2] == 1;
    (copies && yes[1] == no[1] && yes[5] == no[5]).then_some([4, yes[1], b[2], b[3], b[4], yes[5], yes[3], no[3], 0, 0])
}

impl Runner {
    pub fn new() -> Runner {
        Runner {
            table: [0; 2040],
            vars: [0; 32],
            marks: [0; 32],
            counter: 0,
            header: Header::default(),
            mode: 0,
            keep: 0,
            take: 0,
            at: 0,
            limit: 0,
            steps: 0,
            value: 0,
            named: 0,
            state: State::Resting,
        }
    }

    fn rest(&mut self, state: State, value: u32, named: u16) {
        self.vars = [0; 32];
        self.marks = [0; 32];
        self.counter = 0;
        self.state = state;
        self.value = value;
        self.named = named;
    }

    pub fn load(&mut self, file: &[u8]) -> Told {
        if self.state == State::Running {
            return Told::Refused(22, 0);
        }
        match check(file) {
            Err((number, detail)) => Told::Refused(number, detail),
            Ok(header) => {
                self.table = [0; 2040];
                for (to, block) in self.table.chunks_mut(510).zip(file[512..].chunks(512)) {
                    to.copy_from_slice(&block[..510]);
                }
                self.header = header;
                self.rest(State::Resting, 0, 0);
                Told::Chart { inputs: header.inputs, boxes: header.boxes }
            }
        }
    }

    pub fn begin(&mut self, mode: u32, inputs: &[u32], allowed: u32, limit: u32) -> Told {
        let refused = |number| Told::Refused(number, 0);
        if self.header.boxes == 0 {
            return refused(21);
        }
        if self.state == State::Running {
            return refused(22);
        }
        if mode > 2 {
            return refused(7);
        }
        if inputs.len() != usize::from(self.header.inputs) {
            return refused(9);
        }
        if allowed >> self.header.inputs != 0 {
            return refused(8);
        }
        if limit > GREATEST_LIMIT {
            return refused(10);
        }
        self.vars = [0; 32];
        self.vars[..inputs.len()].copy_from_slice(inputs);
        self.marks = [0; 32];
        let withheld = !allowed as u16;
        for j in 0..inputs.len() {
            self.marks[j] = withheld & 1 << j;
        }
        self.counter = 0;
        self.mode = mode as u8;
        self.keep = if mode == 1 { 0 } else { 65535 };
        self.take = if mode == 0 { 0 } else { 65535 };
        self.at = self.header.first;
        self.limit = effective(limit);
        self.steps = 0;
        self.value = 0;
        self.named = 0;
        self.state = State::Running;
        Told::Done
    }

    /// Stores to a target a value and the mark that goes with the marks read, and goes to the next
    /// box.
    fn store(&mut self, t: usize, value: u32, read: u16, next: u8) {
        self.marks[t] = read & self.take | self.marks[t] & self.keep;
        self.vars[t] = value;
        self.at = next;
    }

    fn assign(&mut self, b: [u8; 10]) {
        let edition = self.header.edition;
        let (t, i, j) = (usize::from(b[1] % 32), usize::from(b[3] % 32), usize::from(b[4] % 32));
        let (x, y) = (self.vars[i], self.vars[j]);
        let value = match b[2] {
            0 => u32::from_le_bytes([b[6], b[7], b[8], b[9]]),
            1 => x,
            2 if edition == 2 => x.saturating_add(y),
            2 => x.wrapping_add(y),
            3 if edition == 2 => x.saturating_sub(y),
            3 => x.wrapping_sub(y),
            4 => x.wrapping_mul(y),
            5 => x.checked_div(y).unwrap_or(0),
            6 => x.checked_rem(y).unwrap_or(x),
            7 => x.min(y),
            8 => x.max(y),
            9 => x.count_ones(),
            10 => x.leading_zeros(),
            11 if edition == 2 => x.trailing_zeros().min(y),
            _ => x.trailing_zeros(),
        };
        let read = match reads(edition, b[2]) {
            (false, _) => 0,
            (_, false) => self.marks[i],
            _ => self.marks[i] | self.marks[j],
        };
        self.store(t, value, read, b[5]);
    }

    /// A kind 4 box, which reads all four variables whichever it copies.
    fn choose(&mut self, b: [u8; 10]) {
        let [t, i, j, yes, no] = [b[1], b[3], b[4], b[6], b[7]].map(|v| usize::from(v % 32));
        let value = if holds(b[2], self.vars[i], self.vars[j]) { self.vars[yes] } else { self.vars[no] };
        let read = self.marks[i] | self.marks[j] | self.marks[yes] | self.marks[no];
        self.store(t, value, read, b[5]);
    }

    /// Runs the box at hand; the ending, if it is one.
    fn step(&mut self) -> Option<Ending> {
        let p = 10 * usize::from(self.at);
        let b: [u8; 10] = match self.table.get(p..p + 10) {
            Some(b) => b.try_into().unwrap(),
            None => return Some((State::Notice, 0, 0)),
        };
        match b[0] {
            1 => self.assign(b),
            4 => self.choose(b),
            2 => {
                let (i, j) = (usize::from(b[3] % 32), usize::from(b[4] % 32));
                let read = self.marks[i] | self.marks[j];
                if self.mode == 1 && read != 0 {
                    return Some((State::Notice, 0, read));
                }
                if self.mode == 2 {
                    self.counter |= read;
                }
                self.at = if holds(b[2], self.vars[i], self.vars[j]) { b[5] } else { b[6] };
            }
            _ => {
                let output = self.marks[31];
                return Some(match self.mode {
                    1 if output != 0 => (State::Notice, 0, output),
                    2 if output | self.counter != 0 => (State::Notice, 0, 0),
                    _ => (State::Value, self.vars[31], 0),
                });
            }
        }
        None
    }

    /// Ends the run and tells so. In high-water mode a notice and a spent run end alike, as a
    /// notice of no steps, and the steps of a value are left to the answer.
    fn close(&mut self, (state, value, named): Ending) -> Told {
        self.rest(state, value, named);
        if self.mode != 2 {
            return Told::Ended(self.steps);
        }
        if state != State::Value {
            self.state = State::Notice;
            self.steps = 0;
        }
        Told::Ended(0)
    }

    pub fn advance(&mut self, m: u32) -> Told {
        if self.state != State::Running {
            return Told::Refused(23, 0);
        }
        if self.mode == 2 && m < self.limit {
            return Told::Refused(13, 0);
        }
        for _ in 0..m {
            let ending = self.step();
            self.steps += 1;
            if let Some(ending) = ending {
                return self.close(ending);
            }
            if self.steps >= self.limit {
                return self.close((State::Spent, 0, 0));
            }
        }
        Told::Running(self.steps)
    }

    pub fn answer(&self) -> Told {
        match self.state {
            State::Value => Told::Value { value: self.value, steps: self.steps },
            State::Notice => Told::Notice { steps: self.steps, named: self.named },
            State::Spent => Told::Spent(self.steps),
            _ => Told::Refused(24, 0),
        }
    }

    pub fn abandon(&mut self) -> Told {
        if self.state != State::Running {
            return Told::Refused(23, 0);
        }
        self.rest(State::Resting, 0, 0);
        Told::Done
    }

    pub fn write_back(&self, buf: &mut [u8]) -> Told {
        let Header { edition, inputs, boxes, first } = self.header;
        if boxes == 0 {
            return Told::Refused(21, 0);
        }
        let length = 512 * (1 + (usize::from(boxes) + 50) / 51);
        if buf.len() < length {
            return Told::Refused(12, 0);
        }
        for (j, block) in buf[..length].chunks_mut(512).enumerate() {
            if j == 0 {
                block[..510].fill(0);
                block[..4].copy_from_slice(b"FLOW");
                block[4..8].copy_from_slice(&[edition, inputs, boxes, first]);
            } else {
                block[..510].copy_from_slice(&self.table[510 * (j - 1)..510 * j]);
            }
            seal(edition, j as u16, block);
        }
        Told::Written(length)
    }

    /// Makes a kind 4 box of each decision between two copies. Only decisions change and only
    /// assignments are looked at, so all are judged on the old chart.
    pub fn rewrite(&mut self) -> Told {
        if self.header.boxes == 0 {
            return Told::Refused(21, 0);
        }
        if self.state == State::Running {
            return Told::Refused(22, 0);
        }
        if self.header.edition == 1 {
            return Told::Refused(15, 0);
        }
        let (boxes, _) = self.table.as_chunks_mut::<10>();
        for p in 0..usize::from(self.header.boxes) {
            if let Some(put) = choice(boxes, &boxes[p]) {
                boxes[p] = put;
            }
        }
        self.rest(State::Resting, 0, 0);
        Told::Done
    }
}

impl Default for Runner {
    fn default() -> Runner {
        Runner::new()
    }
}
