// Checks what `synth` printed of a model, by working out every step of it. Knows nothing of solvers; for models of up to 2^26 steps.
//
//     brute MODEL...                 prints for each model `kept, 14 lost states of 64: MODEL`
//     brute --check MODEL < OUTPUT   one line: `ok ...`, or what is wrong and exit status 1; status 2 where there are too many steps
//
// rustc --edition 2024 -O -o target/brute bench/brute.rs

use std::io::Read;

const ROWS: u64 = 64;
const EXCEPTIONS: u64 = 256;
const NUMBERS: u64 = 16_384;
const TOO_MANY: &str = "too many steps to work out";

struct Model {
    maximum: usize,
    events: Vec<usize>,
    answers: Vec<usize>,
    latches: Vec<(usize, usize)>,
    output: usize,
    gates: Vec<[usize; 3]>,
}

// A file that keeps the rules of the form. Which rule a refused file breaks is not this program's affair.
fn read(file: &[u8]) -> Option<Model> {
    if file.len() > 65_536 {
        return None;
    }
    let mut lines = file.split_inclusive(|b| *b == b'\n').map(|l| l.strip_suffix(b"\n"));
    let mut line = move || lines.next().flatten();
    let numbers = |text: &[u8], count: usize| -> Option<Vec<usize>> {
        let words: Vec<&[u8]> = text.split(|b| *b == b' ').collect();
        let number = |w: &[u8]| -> Option<usize> {
            let plain = !w.is_empty() && w.iter().all(u8::is_ascii_digit) && (w[0] != b'0' || w.len() == 1) && w.len() <= 5;
            let n: usize = plain.then(|| std::str::from_utf8(w).ok()?.parse().ok())??;
            (n <= 65_535).then_some(n)
        };
        let all: Vec<usize> = words.iter().map(|w| number(w)).collect::<Option<_>>()?;
        (all.len() == count).then_some(all)
    };
    let head = numbers(line()?.strip_prefix(b"aag ")?, 5)?;
    let (m, i, l, o, a) = (head[0], head[1], head[2], head[3], head[4]);
    if m > 4096 || i > 24 || l > 32 || o != 1 || a > 2048 || i + l + a > m {
        return None;
    }
    let mut defined = vec![false; m + 1];
    defined[0] = true;
    let define = |literal: usize, defined: &mut Vec<bool>| -> Option<()> {
        let fresh = literal % 2 == 0 && literal / 2 <= m && !defined[literal / 2];
        fresh.then(|| defined[literal / 2] = true)
    };
    let mut inputs = Vec::new();
    for _ in 0..i {
        inputs.push(numbers(line()?, 1)?[0]);
        define(inputs[inputs.len() - 1], &mut defined)?;
    }
    let mut latches = Vec::new();
    for _ in 0..l {
        let n = numbers(line()?, 2)?;
        define(n[0], &mut defined)?;
        latches.push((n[0], n[1]));
    }
    let output = numbers(line()?, 1)?[0];
    let mut gates = Vec::new();
    for _ in 0..a {
        let n = numbers(line()?, 3)?;
        if n[1..].iter().any(|x| x / 2 > m || !defined[x / 2]) {
            return None;
        }
        define(n[0], &mut defined)?;
        gates.push([n[0], n[1], n[2]]);
    }
    let late = latches.iter().map(|l| l.1).chain([output]);
    if late.into_iter().any(|x| x / 2 > m || !defined[x / 2]) {
        return None;
    }
    let mut names: std::collections::HashMap<(u8, usize), Vec<u8>> = Default::default();
    let mut rest = file;
    for _ in 0..1 + i + l + 1 + a {
        rest = &rest[rest.iter().position(|b| *b == b'\n')? + 1..];
    }
    while !rest.is_empty() {
        let end = rest.iter().position(|b| *b == b'\n')?;
        let text = &rest[..end];
        if text == b"c" {
            break;
        }
        let space = text.iter().position(|b| *b == b' ')?;
        let place = numbers(text.get(1..space)?, 1)?[0];
        let count = match text[0] {
            b'i' => i,
            b'l' => l,
            b'o' => 1,
            _ => return None,
        };
        let name = text[space + 1..].to_vec();
        if place >= count || name.is_empty() || names.insert((text[0], place), name).is_some() {
            return None;
        }
        rest = &rest[end + 1..];
    }
    let is_answer = |p: usize| names.get(&(b'i', p)).is_some_and(|n| n.starts_with(b"controllable_"));
    let (answers, events): (Vec<usize>, Vec<usize>) = (0..i).partition(|p| is_answer(*p));
    if answers.len() > 12 || events.len() > 12 {
        return None;
    }
    let literals = |places: Vec<usize>| places.into_iter().map(|p| inputs[p]).collect();
    Some(Model { maximum: m, events: literals(events), answers: literals(answers), latches, output, gates })
}

impl Model {
    fn states(&self) -> u64 {
        1 << self.latches.len()
    }

    fn events(&self) -> u64 {
        1 << self.events.len()
    }

    // The size refusal that is due, or 0.
    fn refusal(&self) -> u64 {
        let (m, a) = (self.maximum as u64, self.gates.len() as u64);
        let (l, e) = (self.latches.len() as u64, self.events.len() as u64);
        let fits = |variables: u64, cells: u64| 4 * (variables + 1) + cells <= NUMBERS;
        if !fits(m + 2 * ROWS + 2, 10 * a + (4 * l + 5) * ROWS + (l + e + 1) * EXCEPTIONS + 8) {
            31
        } else if !fits(m + 2, 10 * a + (l + 1) * ROWS + 8) {
            32
        } else {
            0
        }
    }
}

// For each state and event the states that some answer leads to by a step that is not bad, each once.
struct Steps {
    states: usize,
    events: usize,
    first: Vec<u32>,
    next: Vec<u32>,
}

impl Steps {
    // 64 answers, or copies of fewer, are worked out at once: bit i of a word is the value with the i-th of them.
    fn of(model: &Model) -> Option<Steps> {
        if model.latches.len() + model.events.len() + model.answers.len() > 26 {
            return None;
        }
        let answers = 1usize << model.answers.len();
        let (states, events) = (model.states() as usize, model.events() as usize);
        let mut values = vec![0u64; model.maximum + 1];
        let word = |literal: usize, values: &[u64]| if literal % 2 == 1 { !values[literal / 2] } else { values[literal / 2] };
        let (mut first, mut next) = (Vec::with_capacity(states * events + 1), Vec::new());
        let mut found = Vec::new();
        for state in 0..states {
            for event in 0..events {
                first.push(next.len() as u32);
                found.clear();
                for block in (0..answers).step_by(64) {
                    for (j, (literal, _)) in model.latches.iter().enumerate() {
                        values[literal / 2] = if state >> j & 1 == 1 { !0 } else { 0 };
                    }
                    for (j, literal) in model.events.iter().enumerate() {
                        values[literal / 2] = if event >> j & 1 == 1 { !0 } else { 0 };
                    }
                    for (j, literal) in model.answers.iter().enumerate() {
                        values[literal / 2] = (0..64).fold(0, |w, i| w | (((block + i) >> j & 1) as u64) << i);
                    }
                    for [output, left, right] in &model.gates {
                        values[output / 2] = word(*left, &values) & word(*right, &values);
                    }
                    let bad = word(model.output, &values);
                    for i in 0..answers.min(64) {
                        if bad >> i & 1 == 0 {
                            let bits = model.latches.iter().enumerate();
                            found.push(bits.fold(0u32, |n, (j, (_, x))| n | ((word(*x, &values) >> i & 1) as u32) << j));
                        }
                    }
                }
                found.sort_unstable();
                found.dedup();
                next.extend_from_slice(&found);
            }
        }
        first.push(next.len() as u32);
        Some(Steps { states, events, first, next })
    }

    fn ends(&self, state: usize, event: usize) -> &[u32] {
        let at = state * self.events + event;
        &self.next[self.first[at] as usize..self.first[at + 1] as usize]
    }

    // Whether every answer is bad or leads into the set.
    fn forced(&self, state: usize, event: usize, set: &[bool]) -> bool {
        self.ends(state, event).iter().all(|n| set[*n as usize])
    }

    // A state is lost where some event forces a bad step or a lost state; as often as that adds any.
    fn lost(&self) -> Vec<bool> {
        let mut lost = vec![false; self.states];
        loop {
            let fresh: Vec<usize> =
                (0..self.states).filter(|s| !lost[*s] && (0..self.events).any(|e| self.forced(*s, e, &lost))).collect();
            if fresh.is_empty() {
                return lost;
            }
            fresh.iter().for_each(|s| lost[*s] = true);
        }
    }
}

#[derive(Clone, Copy)]
struct Row {
    care: usize,
    value: usize,
    event: usize,
}

impl Row {
    fn covers(&self, state: usize) -> bool {
        state & self.care == self.value
    }

    fn is_justified(&self, steps: &Steps, covered: &[bool]) -> bool {
        (0..steps.states).all(|s| !self.covers(s) || steps.forced(s, self.event, covered))
    }
}

// The numbers of a line that is exactly these words with one space between, `#` standing for a number.
fn fields(line: &str, form: &str) -> Option<Vec<u64>> {
    let (words, forms): (Vec<&str>, Vec<&str>) = (line.split(' ').collect(), form.split(' ').collect());
    if words.len() != forms.len() {
        return None;
    }
    let mut all = Vec::new();
    for (w, f) in words.iter().zip(forms) {
        if f == "#" {
            let n: u64 = w.parse().ok()?;
            if n.to_string() != *w {
                return None;
            }
            all.push(n);
        } else if *w != f {
            return None;
        }
    }
    Some(all)
}

fn check(file: &[u8], output: &str) -> Result<String, String> {
    let Some(text) = output.strip_suffix('\n') else {
        return Err("the output does not end with a line feed".into());
    };
    let mut lines = text.split('\n');
    let head = lines.next().unwrap_or("");
    let refused = head.split(':').next().and_then(|h| fields(h, "refused # at #"));
    if refused.is_some() && lines.next().is_some() {
        return Err("lines after a refusal".into());
    }
    let Some(model) = read(file) else {
        return match refused {
            Some(n) if (1..=10).contains(&n[0]) => Ok(format!("no model, {head}")),
            _ => Err(format!("not a model, and yet: {head}")),
        };
    };
    let due = model.refusal();
    if let Some(n) = refused {
        return match (n[0], due) {
            (31 | 32, d) if d == n[0] => Ok(format!("too large, {head}")),
            (33 | 34, 0) if n[1] <= ROWS => Ok(format!("no verdict, {head}")),
            _ => Err(format!("{head}, and refusal {due} is due")),
        };
    }
    if due != 0 {
        return Err(format!("{head}, and refusal {due} is due"));
    }
    let (kept, count) = match (fields(head, "kept #"), fields(head, "lost #")) {
        (Some(n), _) => (true, n[0]),
        (_, Some(n)) => (false, n[0]),
        _ => return Err(format!("no verdict: {head}")),
    };
    let steps = Steps::of(&model).ok_or(TOO_MANY)?;
    let lost = steps.lost();
    let number = lost.iter().filter(|l| **l).count();
    if kept == lost[0] {
        return Err(format!("{head}, but reset is {}", if lost[0] { "lost" } else { "safe" }));
    }
    let mut covered = vec![false; steps.states];
    let mut place = 0u64;
    for line in lines {
        let n = fields(line, "row # care # value # event #").ok_or(format!("not a row: {line}"))?;
        let wrong = |why: &str| Err(format!("{why}: {line}"));
        if n[0] != place {
            return wrong("not the next place");
        }
        if n[1] >= model.states() || n[2] & !n[1] != 0 || n[3] >= model.events() {
            return wrong("out of range");
        }
        if covered[0] {
            return wrong("an earlier row covers reset");
        }
        let row = Row { care: n[1] as usize, value: n[2] as usize, event: n[3] as usize };
        if !row.is_justified(&steps, &covered) {
            return wrong("not justified by the earlier rows");
        }
        for j in (0..model.latches.len()).filter(|j| row.care >> j & 1 == 1) {
            let wider = Row { care: row.care & !(1 << j), value: row.value & !(1 << j), ..row };
            if wider.is_justified(&steps, &covered) {
                return Err(format!("not tight, bit {j} can be left out: {line}"));
            }
        }
        let mut is_new = false;
        for s in 0..steps.states {
            if row.covers(s) && !covered[s] {
                is_new = true;
                covered[s] = true;
            }
        }
        if !is_new {
            return wrong("every state of it is covered by earlier rows");
        }
        place += 1;
    }
    if place != count {
        return Err(format!("{head}, but {place} rows"));
    }
    if place > ROWS {
        return Err(format!("{place} rows in {ROWS} places"));
    }
    if kept && covered != lost {
        let s = (0..steps.states).find(|s| covered[*s] != lost[*s]).unwrap_or(0);
        return Err(format!("state {s} is {} and {}", if lost[s] { "lost" } else { "safe" }, if covered[s] { "covered" } else { "uncovered" }));
    }
    if !kept && !covered[0] {
        return Err("no row covers reset".into());
    }
    Ok(format!("{head}, {number} lost states of {}", steps.states))
}

fn verdict(file: &[u8]) -> Result<String, String> {
    let model = read(file).ok_or("not a model")?;
    let steps = Steps::of(&model).ok_or(TOO_MANY)?;
    let lost = steps.lost();
    let number = lost.iter().filter(|l| **l).count();
    Ok(format!("{}, {number} lost states of {}", if lost[0] { "lost" } else { "kept" }, steps.states))
}

fn main() {
    let mut paths: Vec<String> = std::env::args().skip(1).collect();
    let checks = paths.first().is_some_and(|p| p == "--check");
    if checks {
        paths.remove(0);
    }
    let mut output = Vec::new();
    if checks {
        assert_eq!(paths.len(), 1, "one model for --check");
        std::io::stdin().read_to_end(&mut output).expect("standard input");
    }
    let mut status = 0;
    for path in paths {
        let file = std::fs::read(&path).expect("a file");
        let said = if checks { check(&file, &String::from_utf8_lossy(&output)) } else { verdict(&file) };
        match said {
            Ok(line) if checks => println!("ok {path}: {line}"),
            Ok(line) => println!("{line}: {path}"),
            Err(why) if why == TOO_MANY => {
                println!("unchecked {path}: {why}");
                status = if status == 1 { 1 } else { 2 };
            }
            Err(why) => {
                println!("wrong {path}: {why}");
                status = 1;
            }
        }
    }
    std::process::exit(status);
}
