//! Deposits and openings per second: the proved library beside the same sharing in plain Rust.

mod plain;
mod proved;

use plain::{Blocks, Cabinet, Group, Multiply, Sums, Terms, Walk, prime_above};
use proved::{Lent, Proved};
use std::hint::black_box;
use std::process::ExitCode;
use std::time::Duration;

const SCHEMES: [(usize, usize); 4] = [(2, 3), (5, 9), (16, 30), (30, 30)];
const MODULUS: u32 = 2147483647;
/// A run takes at least so long, or makes so many calls, which is fewer than a cabinet's epochs.
const LEAST: Duration = Duration::from_millis(100);
const MOST_ROUNDS: u32 = 500_000;
/// The best of so many runs counts: other work on the machine only slows one down.
const RUNS: u32 = 5;

/// Numbers that look random, the same in every run.
struct Numbers(u64);

impl Numbers {
    fn next(&mut self) -> u32 {
        self.0 = self
            .0
            .wrapping_mul(6364136223846793005)
            .wrapping_add(1442695040888963407);
        (self.0 >> 33) as u32
    }
}

/// A group of the plain implementation, with how its elements are made up.
trait Measured: Group + Proved<Element = <Self as Group>::Element> {
    const NAME: &str;

    fn new() -> Self;
    fn element(numbers: &mut Numbers) -> <Self as Group>::Element;
}

impl Measured for Sums {
    const NAME: &str = "sums";

    fn new() -> Self {
        Sums { modulus: MODULUS }
    }

    fn element(numbers: &mut Numbers) -> u32 {
        numbers.next() % MODULUS
    }
}

impl Measured for Blocks {
    const NAME: &str = "blocks";

    fn new() -> Self {
        Blocks
    }

    fn element(numbers: &mut Numbers) -> [u8; 16] {
        std::array::from_fn(|_| (numbers.next() >> 8) as u8)
    }
}

/// C's time, and its clock of the processor time that this process has had.
#[repr(C)]
struct Timespec {
    seconds: i64,
    nanoseconds: i64,
}

const PROCESS_CLOCK: i32 = 2;

unsafe extern "C" {
    fn clock_gettime(clock: i32, time: &mut Timespec) -> i32;
}

fn processor_time() -> Duration {
    let mut time = Timespec {
        seconds: 0,
        nanoseconds: 0,
    };
    // SAFETY: the call writes one such struct.
    let status = unsafe { clock_gettime(PROCESS_CLOCK, &mut time) };
    assert!(status == 0);
    Duration::new(time.seconds as u64, time.nanoseconds as u32)
}

fn timed(run: &mut impl FnMut(u32), rounds: u32) -> Duration {
    let start = processor_time();
    run(rounds);
    processor_time() - start
}

/// Rounds per second: of more and more rounds until a run takes long enough, and then the best run.
fn per_second(mut run: impl FnMut(u32)) -> f64 {
    let mut rounds = 1;
    while timed(&mut run, rounds) < LEAST && rounds < MOST_ROUNDS {
        rounds = (rounds * 2).min(MOST_ROUNDS);
    }
    let best = (0..RUNS).map(|_| timed(&mut run, rounds)).min().unwrap();
    f64::from(rounds) / best.as_secs_f64()
}

/// The same inputs for both.
struct Inputs<E> {
    key: E,
    coefficients: Vec<E>,
    helpers: Vec<u32>,
}

fn inputs<G: Measured>(t: usize, n: usize, q: usize) -> Inputs<<G as Group>::Element> {
    let mut numbers = Numbers((t * 100 + n) as u64);
    // every other holder from the last down, and then the others
    let mut helpers: Vec<u32> = (1..=n as u32).rev().step_by(2).collect();
    helpers.extend((1..=n as u32).rev().skip(1).step_by(2));
    helpers.truncate(t);
    Inputs {
        key: G::element(&mut numbers),
        coefficients: (0..(t - 1) * (q - 1))
            .map(|_| G::element(&mut numbers))
            .collect(),
        helpers,
    }
}

/// Whether both leave the same shares after some deposits, and open the same key.
fn same_results<G: Measured, M: Multiply>(
    t: usize,
    n: usize,
    given: &Inputs<<G as Group>::Element>,
) -> bool {
    let Inputs {
        key,
        coefficients,
        helpers,
    } = given;
    let mut lent = Lent::new(t, n, prime_above(n), G::new().zero());
    let mut cabinet = Cabinet::new(G::new(), t, n);
    for rounds in 1..=5 {
        let told = G::new().open(1, *key, coefficients, helpers, &mut lent);
        if told != Some(*key)
            || !G::new().deposit(rounds, *key, coefficients, &mut lent)
            || !cabinet.deposit::<M>(*key, coefficients)
            || lent.shares != cabinet.shares()
            || rounds == 1 && cabinet.open::<M>(helpers) != told
        {
            return false;
        }
    }
    true
}

/// Deposits per second of the plain code.
fn plain_deposits<G: Measured, M: Multiply>(
    t: usize,
    n: usize,
    key: <G as Group>::Element,
    cs: &[<G as Group>::Element],
) -> f64 {
    per_second(|rounds| {
        let mut cabinet = Cabinet::new(G::new(), t, n);
        for _ in 0..rounds {
            assert!(cabinet.deposit::<M>(black_box(key), black_box(cs)));
        }
        black_box(cabinet.shares());
    })
}

/// Openings per second of the plain code.
fn plain_openings<G: Measured, M: Multiply>(
    t: usize,
    n: usize,
    given: &Inputs<<G as Group>::Element>,
) -> f64 {
    per_second(|rounds| {
        let mut cabinet = Cabinet::new(G::new(), t, n);
        assert!(cabinet.deposit::<M>(given.key, &given.coefficients));
        for _ in 0..rounds {
            assert!(cabinet.open::<M>(black_box(&given.helpers)) == Some(given.key));
        }
    })
}

fn line(group: &str, t: usize, n: usize, what: &str, proved: f64, terms: f64, walk: f64) {
    let scheme = format!("{t} of {n}");
    println!(
        "{group:<7} {scheme:<9} {what:<8} {proved:>12.1} {terms:>12.1} {:>6.2} {walk:>12.1} {:>6.2}",
        terms / proved,
        walk / proved
    );
}

/// Measures one group at one scheme. Whether the results were equal.
fn measure<G: Measured>(t: usize, n: usize) -> bool {
    let q = prime_above(n);
    let given = inputs::<G>(t, n, q);
    if !same_results::<G, Terms>(t, n, &given) || !same_results::<G, Walk>(t, n, &given) {
        println!("{} {t} of {n}: the results DIFFER", G::NAME);
        return false;
    }
    let (key, cs, helpers) = (
        black_box(given.key),
        &given.coefficients[..],
        &given.helpers[..],
    );
    let mut lent = Lent::new(t, n, q, G::new().zero());

    let proved = per_second(|rounds| assert!(G::new().deposit(rounds, key, cs, &mut lent)));
    let terms = plain_deposits::<G, Terms>(t, n, key, cs);
    let walk = plain_deposits::<G, Walk>(t, n, key, cs);
    line(G::NAME, t, n, "deposit", proved, terms, walk);

    let proved = per_second(|rounds| {
        assert!(G::new().open(rounds, key, cs, helpers, &mut lent) == Some(key))
    });
    let terms = plain_openings::<G, Terms>(t, n, &given);
    let walk = plain_openings::<G, Walk>(t, n, &given);
    line(G::NAME, t, n, "open", proved, terms, walk);
    true
}

fn main() -> ExitCode {
    println!(
        "{:<7} {:<9} {:<8} {:>12} {:>12} {:>6} {:>12} {:>6}",
        "group",
        "scheme",
        "call",
        "proved /s",
        format!("{} /s", Terms::NAME),
        "ratio",
        format!("{} /s", Walk::NAME),
        "ratio"
    );
    let mut same = true;
    for (t, n) in SCHEMES {
        same &= measure::<Sums>(t, n);
    }
    for (t, n) in SCHEMES {
        same &= measure::<Blocks>(t, n);
    }
    if !same {
        return ExitCode::FAILURE;
    }
    println!("results equal at every scheme; a ratio is plain over proved");
    ExitCode::SUCCESS
}
