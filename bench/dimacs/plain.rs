// The same algorithm in plain Rust, with its bounds checks: a measure for `dimacs`. Reads a DIMACS CNF from standard input.
use std::io::Read;

fn state(clause: &[u32], value: &[u32]) -> (u8, u32) {
    let (mut kind, mut first) = (0u8, 0u32);
    for &l in clause {
        let is = value[(l / 2) as usize];
        if is == 1 + l % 2 {
            return (3, 0);
        }
        if is == 0 {
            if kind == 0 {
                kind = 1;
                first = l;
            } else {
                kind = 2;
            }
        }
    }
    (kind, first)
}

struct Search {
    cells: Vec<u32>,
    value: Vec<u32>,
    trail: Vec<u32>,
    reason: Vec<u32>,
    seen: Vec<u32>,
    n: usize,
}

impl Search {
    fn push(&mut self, l: u32, why: u32) {
        self.value[(l / 2) as usize] = 1 + l % 2;
        self.trail[self.n] = l;
        self.reason[self.n] = why;
        self.n += 1;
    }

    // Done, stuck at a clause, or a literal to decide.
    fn propagate(&mut self, front: &mut usize) -> Result<Option<u32>, usize> {
        let mut at = *front;
        let (mut changed, mut open) = (false, None);
        loop {
            if at >= self.cells.len() {
                if changed && *front < self.cells.len() {
                    at = *front;
                    changed = false;
                    open = None;
                    continue;
                }
                return Ok(if changed { None } else { open });
            }
            let len = self.cells[at] as usize;
            let next = at + 1 + len;
            let (kind, l) = state(&self.cells[at + 1..next], &self.value);
            match kind {
                0 => return Err(at),
                1 => {
                    self.push(l, 2 * (at as u32 + 1));
                    changed = true;
                    if *front == at {
                        *front = next;
                    }
                }
                2 => {
                    if open.is_none() {
                        open = Some(l);
                    }
                }
                _ => {
                    if *front == at {
                        *front = next;
                    }
                }
            }
            at = next;
        }
    }

    fn see(&mut self, at: usize) {
        let len = self.cells[at] as usize;
        for &l in &self.cells[at + 1..at + 1 + len] {
            self.seen[(l / 2) as usize] = 1;
        }
    }

    fn trace(&mut self, at: usize) -> Option<usize> {
        self.see(at);
        let (mut every, mut place) = (false, None);
        for i in (0..self.n).rev() {
            let v = (self.trail[i] / 2) as usize;
            let why = self.reason[i];
            if why % 2 == 1 {
                if place.is_none() && (every || self.seen[v] != 0) {
                    place = Some(i);
                }
            } else if self.seen[v] != 0 {
                if why == 0 {
                    every = true;
                } else {
                    self.see((why / 2 - 1) as usize);
                }
            }
            self.seen[v] = 0;
        }
        place
    }

    fn solve(&mut self) -> bool {
        let mut front = 0;
        loop {
            match self.propagate(&mut front) {
                Ok(None) => return true,
                Ok(Some(l)) => {
                    let why = 2 * front as u32 + 1;
                    self.push(l, why);
                }
                Err(at) => match self.trace(at) {
                    None => return false,
                    Some(place) => {
                        while self.n > place {
                            self.n -= 1;
                            self.value[(self.trail[self.n] / 2) as usize] = 0;
                        }
                        front = (self.reason[place] / 2) as usize;
                        let l = self.trail[place] ^ 1;
                        self.push(l, 0);
                    }
                },
            }
        }
    }
}

fn main() {
    let mut text = String::new();
    std::io::stdin().read_to_string(&mut text).unwrap();
    let mut words = text.lines().filter(|l| !l.starts_with('c')).flat_map(|l| l.split_whitespace());
    assert!(words.next() == Some("p") && words.next() == Some("cnf"));
    let v: usize = words.next().unwrap().parse().unwrap();
    words.next();
    let mut cells = Vec::new();
    let mut clause = Vec::new();
    for w in words {
        let x: i64 = w.parse().unwrap();
        if x == 0 {
            cells.push(clause.len() as u32);
            cells.append(&mut clause);
        } else {
            clause.push((2 * x.unsigned_abs() + (x < 0) as u64) as u32);
        }
    }
    let zeros = || vec![0u32; v + 1];
    let mut s = Search { cells, value: zeros(), trail: zeros(), reason: zeros(), seen: zeros(), n: 0 };
    if s.solve() {
        println!("s SATISFIABLE");
        let line: Vec<String> = (1..=v).map(|x| if s.value[x] == 1 { x.to_string() } else { format!("-{x}") }).collect();
        println!("v {} 0", line.join(" "));
    } else {
        println!("s UNSATISFIABLE");
    }
}
