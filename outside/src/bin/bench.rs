//! Times both implementations at the same work, in one run.
//!
//!     bench [--cards N] [--blocks S] [--rounds R] [--alone]
//!
//! `--alone` times the implementation here only; without the cargo feature `boundary` nothing else can be done.

use std::env;
use std::fs;
use std::hint::black_box;
use std::process::ExitCode;
use std::thread;
use std::time::{Duration, Instant};

use outside::array::{Array, Way};
use outside::bench_work::{self, Job, OWNER};
use outside::block::{BLOCK, PAYLOAD, Shape};
use outside::checksum::{Checksum, Fletcher, Turning};
use outside::finding::blank;
use outside::images::{self, Harm, Versions};
use outside::rng::Rng;
use outside::shelf::Image;
use outside::start;

type Side = fn(&Job) -> u64;

#[cfg(feature = "boundary")]
const OTHER_SIDE: Option<Side> = Some(outside::boundary::bench);
#[cfg(not(feature = "boundary"))]
const OTHER_SIDE: Option<Side> = None;

const USAGE: &str = "bench [--cards N] [--blocks S] [--rounds R] [--alone]";
const TAG: u32 = 0x5EED_0001;

struct Options {
    cards: u32,
    blocks: u32,
    rounds: u32,
    alone: bool,
}

impl Options {
    fn parse(mut arguments: impl Iterator<Item = String>) -> Result<Self, String> {
        let mut options = Self { cards: 5, blocks: 65_536, rounds: 7, alone: false };
        while let Some(argument) = arguments.next() {
            let mut number = || start::number::<u32>(&argument, arguments.next());
            match argument.as_str() {
                "--cards" => options.cards = number()?,
                "--blocks" => options.blocks = number()?,
                "--rounds" => options.rounds = number()?.max(1),
                "--alone" => options.alone = true,
                _ => return Err(format!("{argument} is unknown")),
            }
        }
        Ok(options)
    }
}

fn main() -> ExitCode {
    start::exit(run())
}

fn run() -> Result<bool, String> {
    let options = Options::parse(env::args().skip(1)).map_err(|error| format!("{error}\n{USAGE}"))?;
    let shape = Shape::new(options.cards, options.blocks).map_err(|error| format!("{error}\n{USAGE}"))?;
    let other = start::other_side(options.alone, OTHER_SIDE)?;
    print_head(&options, other.is_some());
    let fletcher = measure::<Fletcher>("Fletcher-32", &options, shape, other);
    let turning = measure::<Turning>("turning sum", &options, shape, other);
    Ok(fletcher && turning)
}

fn print_head(options: &Options, both: bool) {
    let Options { cards, blocks, rounds, .. } = options;
    let clock = match Clock::now() {
        Clock::Thread(_) => "processor time of the thread",
        Clock::Day(_) => "time of the day",
    };
    println!("{cards} cards of {blocks} blocks, an image in memory without a fault layer, one thread; {clock}.");
    println!("Each run copies the image, opens or formats the array, does the work and lets all go. The sides take");
    println!("turns for {rounds} rounds; the least time counts, less that of a run without work.");
    println!("All buffers are those of the caller; clearing and filling them by the calls is part of the time.");
    println!("ns are for each call of reads and writes, else for each stripe.");
    if both {
        println!(
            "ratio = time of rust / time of proved: above 1 the proved code is faster. The number that the results"
        );
        println!("come to has to be the same; a format gives none.");
    }
}

/// The time that this thread has run so far, which other programs hardly change; or the time of day where the system
/// does not tell.
enum Clock {
    Thread(Duration),
    Day(Instant),
}

impl Clock {
    fn now() -> Self {
        thread_time().map_or_else(|| Clock::Day(Instant::now()), Clock::Thread)
    }

    fn elapsed(&self) -> Duration {
        match self {
            Clock::Thread(started) => thread_time().unwrap_or(Duration::MAX).saturating_sub(*started),
            Clock::Day(started) => started.elapsed(),
        }
    }
}

fn thread_time() -> Option<Duration> {
    // Giving way makes the system bring its account up to date.
    thread::yield_now();
    let account = fs::read_to_string("/proc/thread-self/schedstat").ok()?;
    let nanoseconds = account.split_whitespace().next()?.parse().ok()?;
    Some(Duration::from_nanos(nanoseconds))
}

/// One row of the table.
struct Row {
    name: &'static str,
    unit: &'static str,
    what: u32,
    count: u32,
    damaged: bool,
}

fn rows(shape: Shape) -> Vec<Row> {
    let stripes = |name, what, damaged| Row { name, unit: "stripe", what, count: shape.blocks(), damaged };
    let calls = |name, what, count| Row { name, unit: "call", what, count, damaged: false };
    let in_order = shape.addresses();
    // Random calls may meet an address more than once.
    let at_random = shape.addresses().max(100_000);
    vec![
        stripes("format", bench_work::FORMAT, false),
        calls("reads in order", bench_work::READ_IN_ORDER, in_order),
        calls("reads at random", bench_work::READ_AT_RANDOM, at_random),
        calls("additive writes", bench_work::WRITE_ADDITIVE, at_random),
        calls("subtractive writes", bench_work::WRITE_SUBTRACTIVE, at_random),
        stripes("scrub, clean", bench_work::SCRUB, false),
        stripes("scrub, damaged", bench_work::SCRUB, true),
        stripes("rebuild of a card", bench_work::REBUILD, false),
    ]
}

/// The least time of each side for one kind of run, and the numbers that the runs gave.
struct Least {
    times: Vec<Duration>,
    numbers: Vec<u64>,
}

impl Least {
    fn new(sides: usize) -> Self {
        Self { times: vec![Duration::MAX; sides], numbers: vec![0; sides] }
    }

    fn run(&mut self, sides: &[Side], round: u32, job: &Job) {
        for turn in 0..sides.len() {
            // The side that goes first changes from round to round.
            let side = (turn + round as usize) % sides.len();
            let started = Clock::now();
            self.numbers[side] = black_box(sides[side](black_box(job)));
            self.times[side] = self.times[side].min(started.elapsed());
        }
    }

    fn numbers_agree(&self) -> bool {
        self.numbers.iter().all(|&number| number == self.numbers[0] && number != bench_work::REFUSED)
    }
}

fn measure<C: Checksum>(name: &str, options: &Options, shape: Shape, other: Option<Side>) -> bool {
    let mut rng = Rng::new(1);
    let clean = images::crafted::<C>(&mut rng, shape, TAG, &[OWNER], Versions::Small, Harm::None);
    let damaged = damage::<C>(shape, &clean);
    // The proved side comes first.
    let sides: Vec<Side> = other.into_iter().chain([bench_work::bench as Side]).collect();
    let rows = rows(shape);
    let job = Job {
        sum: u32::from(C::MARK),
        cards: shape.cards(),
        blocks: shape.blocks(),
        tag: TAG,
        what: bench_work::OPEN,
        count: 0,
        image: &clean,
    };

    let mut idle = Least::new(sides.len());
    let mut least: Vec<Least> = rows.iter().map(|_| Least::new(sides.len())).collect();
    for round in 0..options.rounds {
        for (row, least) in rows.iter().zip(&mut least) {
            idle.run(&sides, round, &job);
            let image = if row.damaged { &damaged } else { &clean };
            least.run(&sides, round, &Job { what: row.what, count: row.count, image, ..job });
        }
    }

    print_table(name, &rows, &least, &idle);
    let agree = idle.numbers_agree() && least.iter().all(Least::numbers_agree);
    if !agree {
        println!("the sides gave different numbers, or one refused the image");
    }
    agree
}

fn print_table(name: &str, rows: &[Row], least: &[Least], idle: &Least) {
    let both = idle.times.len() == 2;
    println!();
    print!("{name:<20}{:<8}", "");
    if both {
        print!("{:>12}", "proved ns");
    }
    print!("{:>12}", "rust ns");
    println!("{}", if both { "   ratio  number" } else { "" });
    for (row, least) in rows.iter().zip(least) {
        print!("{:<20}{:<8}", row.name, row.unit);
        let times: Vec<f64> = least
            .times
            .iter()
            .zip(&idle.times)
            .map(|(time, idle)| time.saturating_sub(*idle).as_nanos() as f64 / f64::from(row.count))
            .collect();
        times.iter().for_each(|time| print!("{time:>12.1}"));
        if let [proved, rust] = times[..] {
            let agree = match least.numbers_agree() {
                _ if row.what == bench_work::FORMAT => "none",
                true => "same",
                false => "DIFFERENT",
            };
            print!("{:>8.2}  {agree}", rust / proved);
        }
        println!();
    }
    let idle: Vec<String> = idle.times.iter().map(|time| format!("{:.2}", time.as_secs_f64() * 1e3)).collect();
    println!("subtracted: {} ms", idle.join(" and "));
}

/// The image with one bad block in every fourth stripe, in turn blind, broken and behind, over all slots.
fn damage<C: Checksum>(shape: Shape, clean: &[u8]) -> Vec<u8> {
    let stripes: Vec<u32> = (0..shape.blocks()).step_by(4).collect();
    let image = Image::open(shape.cards(), shape.blocks(), clean.to_vec()).expect("the image is valid");
    let mut array = Array::<Image, C>::open(image, TAG).map_err(|(refusal, _)| refusal).expect("the tag is not 0");
    for (turn, &stripe) in stripes.iter().enumerate().filter(|(turn, _)| turn % 3 == 2) {
        let address = address_in(shape, stripe, turn);
        array.write(address, OWNER, &[9; PAYLOAD], Way::Subtractive, &mut blank(0)).expect("the stripe is clean");
    }
    let mut bytes = array.close().into_bytes();
    let flags = shape.places() * BLOCK;
    for (turn, &stripe) in stripes.iter().enumerate() {
        let place = |slot: usize| slot * shape.blocks() as usize + stripe as usize;
        let slot = turn % shape.cards() as usize;
        match turn % 3 {
            0 => bytes[flags + place(slot)] = 1,
            1 => bytes[place(slot) * BLOCK + turn % BLOCK] ^= 0x10,
            _ => {
                // One of the two blocks of the last write gets its old bytes back.
                let spot = shape.locate(address_in(shape, stripe, turn)).expect("the address is in the array");
                let slot = if turn % 2 == 0 { spot.slot } else { spot.parity };
                let old = place(slot) * BLOCK..(place(slot) + 1) * BLOCK;
                bytes[old.clone()].copy_from_slice(&clean[old]);
            }
        }
    }
    bytes
}

fn address_in(shape: Shape, stripe: u32, turn: usize) -> u32 {
    let data = shape.cards() - 1;
    stripe * data + turn as u32 % data
}
