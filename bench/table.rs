//! Times the two sides of every row and prints the table.

use std::fmt::Debug;
use std::hint::black_box;
use std::process::exit;
use std::time::{Duration, Instant};

/// The rows are timed one after another, and this many times over, so that a
/// busy spell takes a little from many rows and not all from one.
const PASSES: usize = 5;

/// In each pass a row ends when it has had both.
const ROUNDS: usize = 60 / PASSES;
const TIME: Duration = Duration::from_millis(1500 / PASSES as u64);

/// One call of the library and its ordinary peer. They are of one type, so that
/// the loop that times them is one loop.
#[derive(Clone, Copy)]
pub struct Sides<F> {
    pub ours: F,
    pub peer: F,
}

/// A number of calls of either side, on the same inputs. It is long enough for
/// the clock to count little, and short enough to fall between interruptions.
pub struct Batch {
    calls: usize,
    /// What the two sides returned, if that differs.
    difference: Option<String>,
    run: Box<dyn FnMut(Side)>,
}

#[derive(Clone, Copy)]
enum Side {
    Ours,
    Peer,
}

impl Batch {
    /// One call for each input. Every result starts out blank.
    pub fn each<F: Copy + 'static, I: 'static, R: Clone + PartialEq + Debug + 'static>(
        sides: Sides<F>,
        inputs: Vec<I>,
        blank: R,
        call: impl Fn(F, &I, &mut R) + 'static,
    ) -> Batch {
        let results = vec![blank; inputs.len()];
        Batch::new(inputs.len(), sides, results, move |side, results| {
            for (input, result) in inputs.iter().zip(results) {
                call(side, input, result);
            }
        })
    }

    /// `run` makes the calls and leaves what they return in the results.
    pub fn new<F: Copy + 'static, R: Clone + PartialEq + Debug + 'static>(
        calls: usize,
        sides: Sides<F>,
        mut results: R,
        run: impl Fn(F, &mut R) + 'static,
    ) -> Batch {
        // Hidden from the compiler, so that neither side is called directly.
        let ours = black_box(sides.ours);
        let peer = black_box(sides.peer);

        let mut of_peer = results.clone();
        run(peer, &mut of_peer);
        run(ours, &mut results);
        let difference =
            (results != of_peer).then(|| format!("ours: {results:?}\nRust: {of_peer:?}"));

        let run = move |side| {
            let call = match side {
                Side::Ours => ours,
                Side::Peer => peer,
            };
            run(call, &mut results);
        };
        Batch {
            calls,
            difference,
            run: Box::new(run),
        }
    }
}

/// One timed thing: a side of a batch, and the shortest time of all rounds.
struct Timed {
    batch: usize,
    side: Side,
    shortest: Duration,
}

/// What a row says of its batches: of one batch the two times, of an outer and an
/// inner batch how much longer the outer takes, in percent or for each byte.
enum Kind {
    Times,
    Over,
    Rest { bytes: usize },
}

struct Row {
    name: String,
    kind: Kind,
    batches: Vec<Batch>,
    timed: Vec<Timed>,
}

impl Row {
    /// Two programs that differ are not worth timing.
    fn new(name: String, kind: Kind, batches: Vec<Batch>) -> Row {
        if let Some(difference) = batches.iter().find_map(|batch| batch.difference.as_ref()) {
            eprintln!("{name}: the two sides differ\n{difference}");
            exit(1);
        }
        let timed = (0..batches.len())
            .flat_map(|batch| [Side::Ours, Side::Peer].map(|side| (batch, side)))
            .map(|(batch, side)| Timed {
                batch,
                side,
                shortest: Duration::MAX,
            })
            .collect();
        Row {
            name,
            kind,
            batches,
            timed,
        }
    }

    /// Every round has each timed thing once, and the next round goes the other
    /// way about, so that none always follows the same one.
    fn time(&mut self) {
        let start = Instant::now();
        let mut rounds = 0;
        while rounds < ROUNDS || start.elapsed() < TIME {
            for timed in &mut self.timed {
                let run = &mut self.batches[timed.batch].run;
                let before = Instant::now();
                run(timed.side);
                timed.shortest = timed.shortest.min(before.elapsed());
            }
            self.timed.reverse();
            rounds += 1;
        }
    }

    /// Nanoseconds a call of our side and of the peer.
    fn times(&self, batch: usize) -> [f64; 2] {
        let calls = self.batches[batch].calls as f64;
        let mut times = [0.0; 2];
        for timed in self.timed.iter().filter(|timed| timed.batch == batch) {
            times[timed.side as usize] = timed.shortest.as_nanos() as f64 / calls;
        }
        times
    }
}

#[derive(Default)]
pub struct Table {
    rows: Vec<Row>,
    /// The rows of the plot, by name, with the sizes of their files.
    growth: Vec<(String, usize)>,
}

impl Table {
    pub fn row(&mut self, name: impl Into<String>, batch: Batch) {
        self.push(name.into(), Kind::Times, vec![batch]);
    }

    /// A row that is a point of the plot too: the verdict on a file of that size.
    pub fn growing(&mut self, name: impl Into<String>, bytes: usize, batch: Batch) {
        let name = name.into();
        self.growth.push((name.clone(), bytes));
        self.row(name, batch);
    }

    /// A row of how much longer a call takes than another that it contains, on
    /// either side.
    pub fn overhead(&mut self, name: impl Into<String>, outer: Batch, inner: Batch) {
        self.push(name.into(), Kind::Over, vec![outer, inner]);
    }

    /// A row of what a call takes for each byte, less another that it contains.
    pub fn rest(&mut self, name: impl Into<String>, bytes: usize, outer: Batch, inner: Batch) {
        self.push(name.into(), Kind::Rest { bytes }, vec![outer, inner]);
    }

    fn push(&mut self, name: String, kind: Kind, batches: Vec<Batch>) {
        self.rows.push(Row::new(name, kind, batches));
    }

    /// The points of the plot that were timed: size, our time, the peer's.
    pub fn growth(&self) -> Vec<(usize, [f64; 2])> {
        let point = |(name, bytes): &(String, usize)| {
            let row = self.rows.iter().find(|row| row.name == *name)?;
            Some((*bytes, row.times(0)))
        };
        self.growth.iter().filter_map(point).collect()
    }

    /// Leaves only the rows whose names contain one of the parts.
    pub fn keep(&mut self, parts: &[String]) {
        self.rows
            .retain(|row| parts.iter().any(|part| row.name.contains(part.as_str())));
        if self.rows.is_empty() {
            eprintln!("no row has such a name");
            exit(2);
        }
    }

    pub fn time(&mut self) {
        for _ in 0..PASSES {
            self.rows.iter_mut().for_each(Row::time);
        }
    }

    pub fn print(&self) {
        let lengths = self.rows.iter().map(|row| row.name.chars().count());
        let width = lengths.max().unwrap_or(0);
        println!("ratio = Rust time / our time: above 1 means ours is faster");
        println!();
        println!(
            "{:width$} {:>11} {:>11} {:>8}",
            "", "ours ns", "Rust ns", "ratio"
        );
        for row in &self.rows {
            let name = &row.name;
            let [ours, peer] = row.times(0);
            match row.kind {
                Kind::Times => {
                    let ratio = peer / ours;
                    println!("{name:width$} {ours:>11.2} {peer:>11.2} {ratio:>8.3}");
                }
                Kind::Over => {
                    let [our_inner, peer_inner] = row.times(1);
                    let ours = percent_over(ours, our_inner);
                    let peer = percent_over(peer, peer_inner);
                    println!("{name:width$} {ours:>+9.1} % {peer:>+9.1} % {:>8}", "-");
                }
                Kind::Rest { bytes } => {
                    let [our_inner, peer_inner] = row.times(1);
                    let ours = (ours - our_inner) / bytes as f64;
                    let peer = (peer - peer_inner) / bytes as f64;
                    let ratio = peer / ours;
                    println!("{name:width$} {ours:>11.2} {peer:>11.2} {ratio:>8.3}");
                }
            }
        }
    }
}

fn percent_over(outer: f64, inner: f64) -> f64 {
    (outer / inner - 1.0) * 100.0
}
