// The plain program: the same table of values and the same order of work, in safe Rust.
// Models are read with the same checks. What the benchmarks share.
#![allow(dead_code)]

const MAX_VARIABLE: usize = 4096;

#[derive(Clone, Copy)]
pub struct Gate {
    pub output: u16,
    pub left: u16,
    pub right: u16,
}

pub struct Model {
    pub maximum: u16,
    // An input, and whether the answer sets it.
    pub inputs: Vec<(u16, bool)>,
    // A latch, and what it takes over.
    pub latches: Vec<(u16, u16)>,
    pub output: u16,
    pub gates: Vec<Gate>,
}

fn holds(literal: u16, values: &[bool]) -> bool {
    values[(literal / 2) as usize] != (literal % 2 == 1)
}

impl Model {
    pub fn inputs_of(&self, answers: bool) -> u32 {
        self.inputs.iter().filter(|(_, side)| *side == answers).count() as u32
    }

    pub fn size(&self) -> usize {
        self.maximum as usize
    }

    pub fn step(&self, state: u32, event: u32, answer: u32) -> Option<(bool, u32)> {
        if (state as u64) >= 1 << self.latches.len()
            || (event as u64) >= 1 << self.inputs_of(false)
            || (answer as u64) >= 1 << self.inputs_of(true)
        {
            return None;
        }
        let mut values = [false; MAX_VARIABLE + 1];
        let (mut event, mut answer, mut state) = (event, answer, state);
        for (literal, answers) in &self.inputs {
            let number = if *answers { &mut answer } else { &mut event };
            values[(literal / 2) as usize] = *number % 2 == 1;
            *number /= 2;
        }
        for (literal, _) in &self.latches {
            values[(literal / 2) as usize] = state % 2 == 1;
            state /= 2;
        }
        for gate in &self.gates {
            let left = holds(gate.left, &values);
            let right = holds(gate.right, &values);
            values[(gate.output / 2) as usize] = left && right;
        }
        let mut next = 0;
        for (j, (_, literal)) in self.latches.iter().enumerate() {
            if holds(*literal, &values) {
                next += 1u32 << j;
            }
        }
        Some((holds(self.output, &values), next))
    }

    pub fn walk(&self, count: u32) -> u64 {
        let events = 1u32 << self.inputs_of(false);
        let answers = 1u32 << self.inputs_of(true);
        let mut state = 0;
        for i in 0..count {
            if let Some((_, next)) = self.step(state, i % events, i / events % answers) {
                state = next;
            }
        }
        state as u64
    }
}

fn number(word: &[u8]) -> Option<u16> {
    if word.is_empty() || (word.len() > 1 && word[0] == b'0') {
        return None;
    }
    let mut n: u32 = 0;
    for b in word {
        if !b.is_ascii_digit() {
            return None;
        }
        n = n * 10 + (b - b'0') as u32;
        if n > 65535 {
            return None;
        }
    }
    Some(n as u16)
}

fn numbers<const N: usize>(line: &[u8]) -> Option<[u16; N]> {
    let mut words = line.split(|b| *b == b' ');
    let mut all = [0; N];
    for n in &mut all {
        *n = number(words.next()?)?;
    }
    words.next().is_none().then_some(all)
}

// The model of a file that keeps every rule, or nothing.
pub fn read(file: &[u8]) -> Option<Model> {
    if file.len() > 65536 {
        return None;
    }
    let mut lines = file.split_inclusive(|b| *b == b'\n').map(|l| l.strip_suffix(b"\n"));
    let [maximum, i, l, o, a] = numbers::<5>(lines.next()??.strip_prefix(b"aag ")?)?;
    let fits = maximum <= 4096 && i <= 24 && l <= 32 && o == 1 && a <= 2048 && maximum >= i + l + a;
    if !fits {
        return None;
    }
    let mut known = [false; MAX_VARIABLE + 1];
    known[0] = true;
    let define = |literal: u16, known: &mut [bool]| {
        let fresh = literal <= 2 * maximum + 1 && literal % 2 == 0 && literal != 0 && !known[(literal / 2) as usize];
        if fresh {
            known[(literal / 2) as usize] = true;
        }
        fresh.then_some(())
    };
    let is_known = |literal: u16, known: &[bool]| (literal <= 2 * maximum + 1 && known[(literal / 2) as usize]).then_some(());
    let mut inputs = Vec::new();
    for _ in 0..i {
        let [literal] = numbers(lines.next()??)?;
        define(literal, &mut known)?;
        inputs.push((literal, false));
    }
    let mut latches = Vec::new();
    for _ in 0..l {
        let [literal, next] = numbers(lines.next()??)?;
        define(literal, &mut known)?;
        latches.push((literal, next));
    }
    let [output] = numbers(lines.next()??)?;
    let mut gates = Vec::new();
    for _ in 0..a {
        let [output, left, right] = numbers(lines.next()??)?;
        is_known(left, &known)?;
        is_known(right, &known)?;
        define(output, &mut known)?;
        gates.push(Gate { output, left, right });
    }
    for (_, next) in &latches {
        is_known(*next, &known)?;
    }
    is_known(output, &known)?;
    let mut named = [[false; 32]; 3];
    for line in lines {
        let line = line?;
        if line == b"c" {
            break;
        }
        let space = line.iter().position(|b| *b == b' ')?;
        let at = number(line.get(1..space)?)? as usize;
        let name = &line[space + 1..];
        let (kind, count) = match line[0] {
            b'i' => (0, inputs.len()),
            b'l' => (1, latches.len()),
            b'o' => (2, 1),
            _ => return None,
        };
        if at >= count || named[kind][at] || name.is_empty() {
            return None;
        }
        named[kind][at] = true;
        if kind == 0 {
            inputs[at].1 = name.starts_with(b"controllable_");
        }
    }
    let answers = inputs.iter().filter(|(_, side)| *side).count();
    if answers > 12 || inputs.len() - answers > 12 {
        return None;
    }
    Some(Model { maximum, inputs, latches, output, gates })
}
