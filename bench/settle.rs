// Times the proved sessions beside a plain Rust program of the same job, and compares what they answer.
//
//     bench-settle COUNT MODEL ROWS [MODEL ROWS]...      ROWS is a file with what `synth` prints of the model, which is kept
//
// The proved function reads the model, runs the synthesis, opens a session and settles COUNT events. What is timed is that, less the time of
// the same call for no events.

use std::hint::black_box;
use std::time::Instant;

mod plain;

unsafe extern "C" {
    // The last state in the low 32 bits, above it how many wishes were replaced; all ones where the file has no model that is kept.
    fn dilgrast_settles(file: *const u8, length: usize, count: u32) -> u64;
}

fn proved(file: &[u8], count: u32) -> u64 {
    unsafe { dilgrast_settles(file.as_ptr(), file.len(), count) }
}

#[derive(Clone, Copy)]
pub struct Row {
    care: u32,
    value: u32,
}

// A model with the rows of a kept run.
pub struct Region {
    model: plain::Model,
    rows: Vec<Row>,
}

pub struct Waiting {
    state: u32,
}

pub struct Raised {
    state: u32,
    event: u32,
}

pub struct Settled {
    pub answer: u32,
    pub replaced: bool,
    pub session: Waiting,
}

impl Region {
    fn states(&self) -> u64 {
        1 << self.model.latches.len()
    }

    fn events(&self) -> u32 {
        1 << self.model.inputs_of(false)
    }

    fn answers(&self) -> u32 {
        1 << self.model.inputs_of(true)
    }

    fn covers(&self, state: u32) -> bool {
        self.rows.iter().any(|r| state & r.care == r.value)
    }

    fn is_uncovered(&self, state: u32) -> bool {
        (state as u64) < self.states() && !self.covers(state)
    }

    fn passes(&self, state: u32, event: u32, answer: u32) -> Option<u32> {
        let (bad, next) = self.model.step(state, event, answer)?;
        (!bad && !self.covers(next)).then_some(next)
    }

    fn lowest_passing(&self, state: u32, event: u32) -> Option<(u32, u32)> {
        (0..self.answers()).find_map(|answer| Some((answer, self.passes(state, event, answer)?)))
    }

    // Event and wish of call i are taken from i.
    pub fn settles(&self, count: u32) -> u64 {
        let (events, answers) = (self.events(), self.answers());
        let mut session = Waiting { state: 0 };
        let mut replaced = 0u64;
        for i in 0..count {
            let settled = match session.raise(self, i % events) {
                Ok(raised) => raised.settle(self, i / events % answers),
                Err(_) => return u64::MAX,
            };
            match settled {
                Ok(settled) => {
                    replaced += settled.replaced as u64;
                    session = settled.session;
                }
                Err(_) => return u64::MAX,
            }
        }
        replaced << 32 | session.state as u64
    }
}

impl Waiting {
    pub fn raise(self, region: &Region, event: u32) -> Result<Raised, (Waiting, u8)> {
        if !region.is_uncovered(self.state) {
            return Err((self, 42));
        }
        if event >= region.events() {
            return Err((self, 43));
        }
        Ok(Raised { state: self.state, event })
    }
}

impl Raised {
    pub fn settle(self, region: &Region, wish: u32) -> Result<Settled, (Raised, u8)> {
        if !region.is_uncovered(self.state) || self.event >= region.events() {
            return Err((self, 42));
        }
        if wish >= region.answers() {
            return Err((self, 43));
        }
        if let Some(next) = region.passes(self.state, self.event, wish) {
            return Ok(Settled { answer: wish, replaced: false, session: Waiting { state: next } });
        }
        let (answer, next) = region.lowest_passing(self.state, self.event).expect("some answer passes at an uncovered state");
        Ok(Settled { answer, replaced: true, session: Waiting { state: next } })
    }
}

// What `synth` prints of a kept model.
pub fn region(file: &[u8], printed: &str) -> Region {
    let mut lines = printed.lines();
    assert!(lines.next().is_some_and(|l| l.starts_with("kept ")), "the model is not kept");
    let row = |line: &str| -> Row {
        let words: Vec<&str> = line.split(' ').collect();
        let ["row", _, "care", care, "value", value, "event", _] = words[..] else { panic!("not a row: {line}") };
        Row { care: care.parse().expect("a care"), value: value.parse().expect("a value") }
    };
    Region { model: plain::read(file).expect("a model"), rows: lines.map(row).collect() }
}

fn time(job: impl FnOnce()) -> f64 {
    let start = Instant::now();
    job();
    start.elapsed().as_secs_f64()
}

fn main() {
    let args: Vec<String> = std::env::args().skip(1).collect();
    let count: u32 = args[0].parse().expect("a count");
    println!("| settles a second | rows | wishes replaced | proved | plain Rust | time, proved to plain |");
    println!("|---|---|---|---|---|---|");
    for pair in args[1..].chunks(2) {
        let file = std::fs::read(&pair[0]).expect("a model's file");
        let region = region(&file, &std::fs::read_to_string(&pair[1]).expect("a file of rows"));
        for n in [0, 1, 2, 3, 10, 1000, count] {
            assert_eq!(proved(&file, n), region.settles(n), "after {n} settles of {}", pair[0]);
        }
        // The shortest of nine each, in turn.
        let mut best = [f64::MAX; 3];
        for _ in 0..9 {
            best[0] = best[0].min(time(|| { black_box(proved(black_box(&file), 0)); }));
            best[1] = best[1].min(time(|| { black_box(proved(black_box(&file), count)); }));
            best[2] = best[2].min(time(|| { black_box(black_box(&region).settles(black_box(count))); }));
        }
        let (p, q) = (best[1] - best[0], best[2]);
        let name = pair[0].rsplit('/').next().unwrap_or("");
        let replaced = 100.0 * (region.settles(count) >> 32) as f64 / count as f64;
        println!(
            "| {name} | {} | {replaced:.0}% | {:.0} | {:.0} | {:.2} |",
            region.rows.len(), count as f64 / p, count as f64 / q, p / q
        );
    }
}
