//! What was measured, as a table and as JSON.

use json::Value;

use crate::measure::Medians;
use crate::rows::{slots_name, Row, CHAINS, SLOTS, TEXTS, WRITES};

/// What holds of the buffers in all rows.
const BUFFERS: &str = "each checker has its own; filled once for each row and not cleared between runs";

/// Highest geometric mean of the ratios.
const MEAN_GOAL: f64 = 0.6;

/// Highest ratio of a row.
const ROW_GOAL: f64 = 1.0;

/// Highest time for a listed vertex at 4,096 slots, as a multiple of that at 64.
const VERTEX_GOAL: f64 = 1.5;

/// Highest time for a byte of the longest written file, or of a large text, as a multiple of that for one of half its length.
const BYTE_GOAL: f64 = 1.5;

pub struct Report {
    pub machine: String,
    pub runs: usize,
    pub rows: Vec<Timed>,
}

/// A row and its times.
pub struct Timed {
    pub row: Row,
    pub medians: Medians,
}

/// The kernel's time for a listed vertex at a number of slots, in nanoseconds.
struct Vertex {
    slots: usize,
    /// All of the call.
    whole: f64,
    /// Without the time of the call that has no slot.
    walk: f64,
}

/// What was measured for a goal, and the highest number that meets it.
struct Goal {
    name: &'static str,
    what: &'static str,
    measured: f64,
    limit: f64,
}

impl Timed {
    fn line(&self) -> String {
        let Timed { row, medians } = self;
        let (kernel, second, ratio) = (medians.kernel / 1e3, medians.second / 1e3, medians.ratio());
        let (name, what) = (&row.name, &row.what);
        format!("{name:<16} {what:<50} {kernel:>10.2} {second:>10.2} {ratio:>6.2}")
    }

    fn json(&self) -> Value {
        let Timed { row, medians } = self;
        Value::Object(vec![
            ("row", Value::Text(row.name.clone())),
            ("what", Value::Text(row.what.clone())),
            ("calls", Value::Number(row.calls.len() as u64)),
            ("kernel_ns", Value::Decimal(medians.kernel, 1)),
            ("second_ns", Value::Decimal(medians.second, 1)),
            ("ratio", Value::Decimal(medians.ratio(), 4)),
        ])
    }
}

impl Vertex {
    fn line(&self) -> String {
        let Vertex { slots, whole, walk } = self;
        format!("kernel, nanoseconds per listed vertex at {slots:>4} slots: {whole:>6.1}, without reading and checks {walk:>6.1}")
    }

    fn json(&self) -> Value {
        Value::Object(vec![
            ("slots", Value::Number(self.slots as u64)),
            ("kernel_ns", Value::Decimal(self.whole, 2)),
            ("kernel_walk_ns", Value::Decimal(self.walk, 2)),
        ])
    }
}

impl Goal {
    fn new(name: &'static str, what: &'static str, measured: f64, limit: f64) -> Goal {
        Goal {
            name,
            what,
            measured,
            limit,
        }
    }

    fn met(&self) -> bool {
        self.measured <= self.limit
    }

    fn line(&self) -> String {
        let met = if self.met() { "met" } else { "not met" };
        let Goal {
            what, measured, limit, ..
        } = self;
        format!("goal: {what:<38} {measured:>6.2}, at most {limit:.1}: {met}")
    }

    /// The goal's name and what is said of it.
    fn json(&self) -> (&'static str, Value) {
        let said = Value::Object(vec![
            ("measured", Value::Decimal(self.measured, 4)),
            ("limit", Value::Decimal(self.limit, 1)),
            ("met", Value::Truth(self.met())),
        ]);
        (self.name, said)
    }
}

/// A line for each item.
fn lines<T>(items: &[T], line: impl Fn(&T) -> String) -> String {
    items.iter().map(line).collect::<Vec<_>>().join("\n")
}

impl Report {
    fn ratios(&self) -> impl Iterator<Item = f64> + '_ {
        self.rows.iter().map(|timed| timed.medians.ratio())
    }

    fn mean(&self) -> f64 {
        let logarithms: f64 = self.ratios().map(f64::ln).sum();
        (logarithms / self.rows.len() as f64).exp()
    }

    fn row(&self, name: &str) -> &Timed {
        let timed = self.rows.iter().find(|timed| timed.row.name == name);
        timed.expect("the row is measured")
    }

    /// The kernel's time for a byte of the second row's file or text, as a multiple of that of the first row.
    fn byte_times(&self, rows: [(&str, usize); 2]) -> f64 {
        let [half, whole] = rows.map(|(name, _)| {
            let Timed { row, medians } = self.row(name);
            medians.kernel / row.bytes() as f64
        });
        whole / half
    }

    /// The kernel's time of the call with so many slots.
    fn slots_time(&self, slots: usize) -> f64 {
        self.row(&slots_name(slots)).medians.kernel
    }

    fn vertices(&self) -> [Vertex; SLOTS.len() - 1] {
        let checks = self.slots_time(SLOTS[0]);
        std::array::from_fn(|place| {
            let slots = SLOTS[place + 1];
            let whole = self.slots_time(slots);
            Vertex {
                slots,
                whole: whole / slots as f64,
                walk: (whole - checks) / slots as f64,
            }
        })
    }

    fn goals(&self) -> [Goal; 7] {
        let [least, .., most] = self.vertices();
        let worst = self.ratios().fold(0.0, f64::max);
        let whole = most.whole / least.whole;
        let walk = most.walk / least.walk;
        let [write, text, chain] = [WRITES, TEXTS, CHAINS].map(|rows| self.byte_times(rows));
        [
            Goal::new("mean", "geometric mean of kernel/second", self.mean(), MEAN_GOAL),
            Goal::new("row", "highest kernel/second of a row", worst, ROW_GOAL),
            Goal::new("vertex", "time per vertex, 4,096 slots/64", whole, VERTEX_GOAL),
            Goal::new("vertex-walk", "the same without reading and checks", walk, VERTEX_GOAL),
            Goal::new("byte", "time per byte, 82,023 written/41,063", write, BYTE_GOAL),
            Goal::new("text-byte", "time per byte, 4,096 edges/2,048", text, BYTE_GOAL),
            Goal::new("chain-byte", "time per byte, 100,000 operands/50,000", chain, BYTE_GOAL),
        ]
    }

    pub fn table(&self) -> String {
        let Report { machine, runs, .. } = self;
        let head =
            format!("machine: {machine}\nmedians of {runs} runs of each checker, in turn; microseconds of processor time for a call");
        let columns = format!("{:<67} {:>10} {:>10} {:>6}", "row", "kernel", "second", "ratio");
        let rows = lines(&self.rows, Timed::line);
        let vertices = lines(&self.vertices(), Vertex::line);
        let goals = lines(&self.goals(), Goal::line);
        format!("{head}\nbuffers: {BUFFERS}\n\n{columns}\n{rows}\n\n{vertices}\n\n{goals}")
    }

    pub fn json(&self) -> Value {
        Value::Object(vec![
            ("machine", Value::Text(self.machine.clone())),
            ("runs", Value::Number(self.runs as u64)),
            ("buffers", Value::Text(BUFFERS.into())),
            ("rows", Value::List(self.rows.iter().map(Timed::json).collect())),
            (
                "vertices",
                Value::List(self.vertices().iter().map(Vertex::json).collect()),
            ),
            ("goals", Value::Object(self.goals().iter().map(Goal::json).collect())),
        ])
    }
}
