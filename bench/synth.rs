// The same run as `synth` in plain Rust: the same clauses in the same order, the same search, the same order of dropping. A measure for
// it, and a second program that ought to print the same. Reads a model from standard input.
//
//     plain-synth < MODEL            prints what `synth` prints
//     plain-synth --counts < MODEL   prints one line on standard error too: the most exceptions at one time, and the questions asked
//
// rustc --edition 2024 -O -o target/plain-synth bench/synth.rs

use std::io::Read;

mod plain;

const ROWS: usize = 64;
const EXCEPTIONS: usize = 256;
const NUMBERS: usize = 16_384;

// A solver by unit propagation and backtracking.
struct Search {
    cells: Vec<u32>,
    count: usize,
    value: Vec<u32>,
    trail: Vec<u32>,
    reason: Vec<u32>,
    seen: Vec<u32>,
    n: usize,
    asked: u64,
}

fn state(clause: &[u32], value: &[u32]) -> (u8, u32) {
    let (mut kind, mut first) = (0u8, 0u32);
    for &l in clause {
        let is = value[(l / 2) as usize];
        if is == 1 + l % 2 {
            return (3, 0);
        }
        if is == 0 {
            if kind == 0 {
                kind = 1;
                first = l;
            } else {
                kind = 2;
            }
        }
    }
    (kind, first)
}

impl Search {
    fn new(variables: usize) -> Search {
        let zeros = || vec![0u32; variables + 1];
        Search { cells: Vec::new(), count: 0, value: zeros(), trail: zeros(), reason: zeros(), seen: zeros(), n: 0, asked: 0 }
    }

    fn hold(&mut self, clause: &[u32]) {
        self.cells.push(clause.len() as u32);
        self.cells.extend_from_slice(clause);
        self.count += 1;
    }

    fn keep(&mut self, kept: usize) {
        let mut at = 0;
        for _ in 0..kept {
            at += 1 + self.cells[at] as usize;
        }
        self.cells.truncate(at);
        self.count = kept;
    }

    fn push(&mut self, l: u32, why: u32) {
        self.value[(l / 2) as usize] = 1 + l % 2;
        self.trail[self.n] = l;
        self.reason[self.n] = why;
        self.n += 1;
    }

    // Done, stuck at a clause, or a literal to decide.
    fn propagate(&mut self, front: &mut usize) -> Result<Option<u32>, usize> {
        let mut at = *front;
        let (mut changed, mut open) = (false, None);
        loop {
            if at >= self.cells.len() {
                if changed && *front < self.cells.len() {
                    at = *front;
                    changed = false;
                    open = None;
                    continue;
                }
                return Ok(if changed { None } else { open });
            }
            let len = self.cells[at] as usize;
            let next = at + 1 + len;
            let (kind, l) = state(&self.cells[at + 1..next], &self.value);
            match kind {
                0 => return Err(at),
                1 => {
                    self.push(l, 2 * (at as u32 + 1));
                    changed = true;
                    if *front == at {
                        *front = next;
                    }
                }
                2 => {
                    if open.is_none() {
                        open = Some(l);
                    }
                }
                _ => {
                    if *front == at {
                        *front = next;
                    }
                }
            }
            at = next;
        }
    }

    fn see(&mut self, at: usize) {
        let len = self.cells[at] as usize;
        for &l in &self.cells[at + 1..at + 1 + len] {
            self.seen[(l / 2) as usize] = 1;
        }
    }

    fn trace(&mut self, base: usize, at: usize) -> Option<usize> {
        self.see(at);
        let (mut every, mut place) = (false, None);
        for i in (base..self.n).rev() {
            let v = (self.trail[i] / 2) as usize;
            let why = self.reason[i];
            if why % 2 == 1 {
                if place.is_none() && (every || self.seen[v] != 0) {
                    place = Some(i);
                }
            } else if self.seen[v] != 0 {
                if why == 0 {
                    every = true;
                } else {
                    self.see((why / 2 - 1) as usize);
                }
            }
            self.seen[v] = 0;
        }
        place
    }

    // Yes, or the assumptions that were seen.
    fn decide(&mut self, assumed: &[u32]) -> Result<(), Vec<bool>> {
        self.asked += 1;
        self.value.fill(0);
        self.seen.fill(0);
        self.n = 0;
        let marks = |s: &Search| Err(assumed.iter().map(|l| s.seen[(l / 2) as usize] != 0).collect());
        for &l in assumed {
            let is = self.value[(l / 2) as usize];
            if is == 0 {
                self.push(l, 0);
            } else if is != 1 + l % 2 {
                self.seen[(l / 2) as usize] = 1;
                return marks(self);
            }
        }
        let base = self.n;
        let mut front = 0;
        loop {
            match self.propagate(&mut front) {
                Ok(None) => return Ok(()),
                Ok(Some(l)) => {
                    let why = 2 * front as u32 + 1;
                    self.push(l, why);
                }
                Err(at) => match self.trace(base, at) {
                    None => return marks(self),
                    Some(place) => {
                        while self.n > place {
                            self.n -= 1;
                            self.value[(self.trail[self.n] / 2) as usize] = 0;
                        }
                        front = (self.reason[place] / 2) as usize;
                        let l = self.trail[place] ^ 1;
                        self.push(l, 0);
                    }
                },
            }
        }
    }

    // The same, with no mark past the first ones that could be left out alone.
    fn narrow(&mut self, assumed: &[u32], first: usize) -> Result<(), Vec<bool>> {
        let mut marks = match self.decide(assumed) {
            Ok(()) => return Ok(()),
            Err(marks) => marks,
        };
        marks[..first].fill(true);
        for i in first..assumed.len() {
            if !marks[i] {
                continue;
            }
            marks[i] = false;
            let places: Vec<usize> = (0..assumed.len()).filter(|k| marks[*k]).collect();
            let picked: Vec<u32> = places.iter().map(|k| assumed[*k]).collect();
            match self.decide(&picked) {
                Ok(()) => marks[i] = true,
                Err(again) => {
                    for (k, seen) in places.iter().zip(again) {
                        marks[*k] = *k < first || seen;
                    }
                }
            }
        }
        Err(marks)
    }

    fn number(&self, literals: &[u32]) -> u32 {
        literals.iter().enumerate().fold(0, |n, (j, l)| n | ((self.value[(l / 2) as usize] == 1) as u32) << j)
    }
}

struct Run {
    latches: Vec<u32>,
    nexts: Vec<u32>,
    events: Vec<u32>,
    answers: Vec<u32>,
    candidate: Search,
    answer: Search,
    maximum: u32,
    rows: Vec<(u32, u32, u32)>,
    exceptions: usize,
    most: usize,
}

enum End {
    Kept,
    Lost,
    Refused(u32),
}

fn signed(literals: &[u32], number: u32) -> Vec<u32> {
    literals.iter().enumerate().map(|(j, l)| l ^ (number >> j & 1 ^ 1)).collect()
}

fn cared(literals: &[u32], care: u32, value: u32) -> Vec<u32> {
    let all = signed(literals, value);
    (0..all.len()).filter(|j| care >> j & 1 == 1).map(|j| all[j]).collect()
}

fn mask(marks: &[bool]) -> u32 {
    marks.iter().enumerate().fold(0, |n, (j, m)| n | (*m as u32) << j)
}

impl Run {
    fn new(model: &plain::Model) -> Run {
        let maximum = model.maximum as u32;
        let truth = 2 * (maximum + 1);
        let literal = |l: u16| match l {
            0 => truth + 1,
            1 => truth,
            _ => l as u32,
        };
        let side = |answers: bool| model.inputs.iter().filter(|i| i.1 == answers).map(|i| i.0 as u32).collect();
        let mut candidate = Search::new(model.size() + 2 * ROWS + 2);
        let mut answer = Search::new(model.size() + 2);
        for solver in [&mut candidate, &mut answer] {
            for g in &model.gates {
                let (o, l, r) = (literal(g.output), literal(g.left), literal(g.right));
                solver.hold(&[o ^ 1, l]);
                solver.hold(&[o ^ 1, r]);
                solver.hold(&[o, l ^ 1, r ^ 1]);
            }
            solver.hold(&[truth]);
        }
        candidate.hold(&[2 * (maximum + 2) + 1, literal(model.output)]);
        answer.hold(&[literal(model.output) ^ 1]);
        Run {
            latches: model.latches.iter().map(|l| l.0 as u32).collect(),
            nexts: model.latches.iter().map(|l| literal(l.1)).collect(),
            events: side(false),
            answers: side(true),
            candidate,
            answer,
            maximum,
            rows: Vec::new(),
            exceptions: 0,
            most: 0,
        }
    }

    fn due(&self, place: usize) -> u32 {
        2 * (self.maximum + 2 + 2 * place as u32)
    }

    fn turn(&mut self) -> Option<End> {
        let place = self.rows.len();
        let due = self.due(place);
        if self.candidate.decide(&[due]).is_err() {
            return Some(End::Kept);
        }
        let state = self.candidate.number(&self.latches);
        let event = self.candidate.number(&self.events);
        let mut assumed = signed(&self.events, event);
        assumed.extend(signed(&self.latches, state));
        match self.answer.narrow(&assumed, self.events.len()) {
            Err(marks) => {
                let care = mask(&marks[self.events.len()..]);
                self.add_row(place, (care, state & care, event))
            }
            Ok(()) => {
                let given = self.answer.number(&self.answers);
                let mut assumed = signed(&self.answers, given);
                assumed.push(due);
                assumed.extend(signed(&self.latches, state));
                assumed.extend(signed(&self.events, event));
                let states = self.answers.len() + 1;
                let marks = self.candidate.narrow(&assumed, states).expect_err("the answer is good");
                if self.exceptions == EXCEPTIONS {
                    return Some(End::Refused(34));
                }
                let events = states + self.latches.len();
                let mut inside = cared(&self.latches, mask(&marks[states..events]), state);
                inside.extend(cared(&self.events, mask(&marks[events..]), event));
                let clause: Vec<u32> = inside.iter().map(|l| l ^ 1).collect();
                self.candidate.hold(&clause);
                self.exceptions += 1;
                self.most = self.most.max(self.exceptions);
                None
            }
        }
    }

    fn add_row(&mut self, place: usize, row: (u32, u32, u32)) -> Option<End> {
        if place == ROWS {
            return Some(End::Refused(33));
        }
        self.rows.push(row);
        let (care, value, _) = row;
        self.candidate.keep(self.candidate.count - self.exceptions);
        self.exceptions = 0;
        let negated = |literals: Vec<u32>| -> Vec<u32> { literals.iter().map(|l| l ^ 1).collect() };
        self.candidate.hold(&negated(cared(&self.latches, care, value)));
        let entry = self.due(place) + 2;
        for l in cared(&self.nexts, care, value) {
            self.candidate.hold(&[entry ^ 1, l]);
        }
        self.candidate.hold(&[self.due(place + 1) ^ 1, entry, self.due(place)]);
        self.answer.hold(&negated(cared(&self.nexts, care, value)));
        (value == 0).then_some(End::Lost)
    }
}

fn main() {
    let mut file = Vec::new();
    std::io::stdin().read_to_end(&mut file).expect("standard input");
    let model = plain::read(&file).expect("a model");
    let (m, a, l, e) = (model.size(), model.gates.len(), model.latches.len(), model.inputs_of(false) as usize);
    let fits = |variables: usize, cells: usize| 4 * (variables + 1) + cells <= NUMBERS;
    if !fits(m + 2 * ROWS + 2, 10 * a + (4 * l + 5) * ROWS + (l + e + 1) * EXCEPTIONS + 8) {
        return println!("refused 31 at 0");
    }
    if !fits(m + 2, 10 * a + (l + 1) * ROWS + 8) {
        return println!("refused 32 at 0");
    }
    let mut run = Run::new(&model);
    let end = loop {
        if let Some(end) = run.turn() {
            break end;
        }
    };
    match end {
        End::Kept => println!("kept {}", run.rows.len()),
        End::Lost => println!("lost {}", run.rows.len()),
        End::Refused(number) => println!("refused {number} at {}", run.rows.len()),
    }
    if !matches!(end, End::Refused(_)) {
        for (place, (care, value, event)) in run.rows.iter().enumerate() {
            println!("row {place} care {care} value {value} event {event}");
        }
    }
    if std::env::args().nth(1).is_some_and(|a| a == "--counts") {
        eprintln!("exceptions {} questions {}", run.most, run.candidate.asked + run.answer.asked);
    }
}
