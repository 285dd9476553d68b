//! Plays random scripts on both implementations and compares all that they answer, byte for byte.
//!
//!     compare [--scripts N] [--seed X] [--seconds T] [--script Y] [--alone] [--verbose]
//!
//! `--script` plays only the script of that seed and shows it. `--alone` plays on the implementation here only, to see
//! what the scripts cover; without the cargo feature `boundary` nothing else can be done. `--verbose` prints the seed of
//! each script before it is played.

use std::env;
use std::process::ExitCode;
use std::time::{Duration, Instant};

use outside::bench_work::{self, Job};
use outside::block;
use outside::call::{Call, Hex};
use outside::checksum::{Checksum, Fletcher, Turning};
use outside::coverage::Coverage;
use outside::finding::{Condition, blank};
use outside::generate::{Script, generate};
use outside::replay::{Part, Piece, Setup, replay, replay_with_pieces};
use outside::rng::Rng;
use outside::shelf::{ImageView, ReadableShelf};
use outside::start;
use outside::stripe::{ALL_IN, Stripe};

/// The two functions of the other side.
#[derive(Clone, Copy)]
struct Side {
    replay: fn(&Setup, &[u8], usize) -> Vec<u8>,
    bench: fn(&Job) -> u64,
}

#[cfg(feature = "boundary")]
const OTHER_SIDE: Option<Side> = Some(Side { replay: outside::boundary::replay, bench: outside::boundary::bench });
#[cfg(not(feature = "boundary"))]
const OTHER_SIDE: Option<Side> = None;

/// Room for answers that the other side gives beyond those expected.
const SLACK: usize = 4096;

const USAGE: &str = "compare [--scripts N] [--seed X] [--seconds T] [--script Y] [--alone] [--verbose]";

struct Options {
    scripts: Option<u64>,
    seed: u64,
    seconds: Option<u64>,
    script: Option<u64>,
    alone: bool,
    verbose: bool,
}

impl Options {
    fn parse(mut arguments: impl Iterator<Item = String>) -> Result<Self, String> {
        let mut options = Self { scripts: None, seed: 1, seconds: None, script: None, alone: false, verbose: false };
        while let Some(argument) = arguments.next() {
            let mut number = || start::number::<u64>(&argument, arguments.next());
            match argument.as_str() {
                "--scripts" => options.scripts = Some(number()?),
                "--seed" => options.seed = number()?,
                "--seconds" => options.seconds = Some(number()?),
                "--script" => options.script = Some(number()?),
                "--alone" => options.alone = true,
                "--verbose" => options.verbose = true,
                _ => return Err(format!("{argument} is unknown")),
            }
        }
        if options.scripts.is_none() && options.seconds.is_none() {
            options.scripts = Some(10_000);
        }
        Ok(options)
    }
}

fn main() -> ExitCode {
    start::exit(run())
}

fn run() -> Result<bool, String> {
    let options = Options::parse(env::args().skip(1)).map_err(|error| format!("{error}\n{USAGE}"))?;
    let other = start::other_side(options.alone, OTHER_SIDE)?;
    Ok(match options.script {
        Some(seed) => play_one(seed, other),
        None => play_many(&options, other),
    })
}

/// Plays the script of one seed and shows it.
fn play_one(seed: u64, other: Option<Side>) -> bool {
    let (script, _) = generate(seed, &mut Coverage::default());
    show_script(&script);
    match other {
        Some(other) => compare(seed, &script, other) && compare_work(seed, &script.setup, other),
        None => true,
    }
}

fn play_many(options: &Options, other: Option<Side>) -> bool {
    let started = Instant::now();
    let time = options.seconds.map_or(Duration::MAX, Duration::from_secs);
    let count = options.scripts.unwrap_or(u64::MAX);
    let mut seeds = Rng::new(options.seed);
    let mut coverage = Coverage::default();
    while coverage.scripts < count && started.elapsed() < time {
        let seed = seeds.word64();
        if options.verbose {
            eprintln!("script {seed}");
        }
        let (script, answers) = generate(seed, &mut coverage);
        check_replay(seed, &script, &answers);
        if let Some(other) = other
            && !(compare(seed, &script, other) && compare_work(seed, &script.setup, other))
        {
            return false;
        }
    }
    let verb = if other.is_some() { "compared" } else { "played on one side alone" };
    println!("{verb}: {} scripts with {} calls, seed {}", coverage.scripts, coverage.calls, options.seed);
    println!("{coverage}");
    match coverage.missing()[..] {
        [] => println!("every call met acceptance and every refusal that it can meet"),
        ref missing => println!("not met: {}", missing.join("; ")),
    }
    match other {
        Some(_) => println!("no difference"),
        None => println!("nothing was compared"),
    }
    true
}

/// The answers that were given while the script was made have to be those of its bytes.
fn check_replay(seed: u64, script: &Script, answers: &[u8]) {
    let again = replay(&script.setup, &script.bytes(), script.limit.unwrap_or(usize::MAX));
    let same = match script.limit {
        None => again == answers,
        Some(_) => answers.starts_with(&again),
    };
    assert!(same, "script {seed} answers other than while it was made");
}

/// The answers of both sides.
fn play_both(script: &Script, other: Side) -> (Vec<u8>, Vec<u8>) {
    let calls = script.bytes();
    let here = replay(&script.setup, &calls, script.limit.unwrap_or(usize::MAX));
    let there = (other.replay)(&script.setup, &calls, script.limit.unwrap_or(here.len() + SLACK));
    (here, there)
}

fn differs(script: &Script, other: Side) -> bool {
    let (here, there) = play_both(script, other);
    here != there
}

fn compare(seed: u64, script: &Script, other: Side) -> bool {
    if !differs(script, other) {
        return true;
    }
    println!("DIFFERENCE in the script of seed {seed} (compare --script {seed})");
    show_difference(script, other);
    let short = shorten(script, other);
    println!("shortened from {} calls to {}:", script.calls.len(), short.calls.len());
    show_script(&short);
    show_difference(&short, other);
    false
}

/// Compares the numbers that the work of the benchmark gives over the image of a script. Few scripts are chosen.
fn compare_work(seed: u64, setup: &Setup, other: Side) -> bool {
    let mut rng = Rng::new(seed ^ 1);
    if setup.made != 0 || setup.image.len() > 100_000 || !rng.chance(10) {
        return true;
    }
    for what in bench_work::OPEN..=bench_work::REBUILD {
        let blocks = setup.blocks;
        let count = rng.pick(&[0, 1, blocks.min(1000), blocks.min(1000) + 1, blocks.min(1000) * 5, 65_537]);
        let &Setup { sum, cards, blocks, tag, ref image, .. } = setup;
        let job = Job { sum, cards, blocks, tag, what, count, image };
        let (here, there) = (bench_work::bench(&job), (other.bench)(&job));
        if here != there {
            println!("DIFFERENCE in the benchmark's work over the image of seed {seed} (compare --script {seed})");
            println!("what {what}, count {count}, checksum {sum}, cards {cards}, blocks {blocks}, tag {tag}");
            println!("  here:  {here}\n  there: {there}");
            return false;
        }
    }
    true
}

/// Leaves out what can be left out while the sides still differ.
fn shorten(script: &Script, other: Side) -> Script {
    let mut short = script.clone();
    let simplify: [fn(&mut Script); 3] = [
        |script| script.limit = None,
        |script| script.tail.clear(),
        |script| script.setup = Setup { made: 1, begun: 1, image: Vec::new(), ..script.setup },
    ];
    for simplify in simplify {
        let mut simple = short.clone();
        simplify(&mut simple);
        if differs(&simple, other) {
            short = simple;
        }
    }
    let mut chunk = short.calls.len() / 2;
    while chunk > 0 {
        let mut dropped = false;
        let mut end = short.calls.len();
        while end > 0 {
            let start = end.saturating_sub(chunk);
            let mut less = short.clone();
            less.calls.drain(start..end);
            if differs(&less, other) {
                short = less;
                dropped = true;
            }
            end = start;
        }
        if chunk > 1 {
            chunk /= 2;
        } else if !dropped {
            break;
        }
    }
    short
}

fn show_script(script: &Script) {
    let setup = &script.setup;
    println!(
        "checksum {} ({}), cards {}, blocks {}, tag {}, {}, then {}",
        setup.sum,
        if setup.sum == 1 { "Fletcher-32" } else { "turning sum" },
        setup.cards,
        setup.blocks,
        setup.tag,
        if setup.made == 0 { format!("image of {} bytes opened", setup.image.len()) } else { "zero image".to_string() },
        if setup.begun == 0 { "open" } else { "format" },
    );
    if setup.made == 0 && setup.blocks <= 16 {
        match setup.sum {
            1 => show_image::<Fletcher>(setup),
            _ => show_image::<Turning>(setup),
        }
    }
    for (number, call) in script.calls.iter().enumerate() {
        println!("  {number:3}  {call}");
    }
    if !script.tail.is_empty() {
        println!("  bytes after the calls: {}", Hex(&script.tail));
    }
    if let Some(limit) = script.limit {
        println!("  room for {limit} bytes of answers");
    }
}

/// One line for each stripe: what is found of each block, with its versions and owner.
fn show_image<C: Checksum>(setup: &Setup) {
    let Ok(view) = ImageView::open(setup.cards, setup.blocks, &setup.image) else {
        return;
    };
    let mut stripe = Stripe::new(view.shape(), setup.tag);
    let mut findings = blank(0);
    for number in 0..setup.blocks {
        stripe.look::<C, _>(&view, &ALL_IN, number);
        stripe.report(&mut findings);
        print!("  stripe {number}:");
        for (slot, finding) in findings.iter().enumerate().take(setup.cards as usize) {
            let block = stripe.block(slot);
            let (kind, used) =
                if slot == view.shape().parity_slot(number) { ("P ", setup.cards as usize - 1) } else { ("", 1) };
            match finding.condition {
                Condition::Readable | Condition::Behind => {
                    let versions = &block::versions(block)[..used];
                    print!(" | {kind}{:?} {versions:?} owner {}", finding.condition, block::owner(block));
                }
                condition => print!(" | {kind}{condition:?}"),
            }
        }
        println!();
    }
}

fn show_difference(script: &Script, other: Side) {
    let (here, there) = play_both(script, other);
    let at = here.iter().zip(&there).take_while(|(a, b)| a == b).count();
    let (_, pieces) = replay_with_pieces(&script.setup, &script.bytes(), script.limit.unwrap_or(usize::MAX));
    println!("first difference at byte {at}; lengths: {} here, {} there", here.len(), there.len());
    let Some(piece) = pieces.iter().find(|piece| at < piece.start + piece.length) else {
        println!("  all answers of this side are there, and then more");
        return;
    };
    println!("  in {}", describe(piece, script, at));
    println!("  here:  {}", show_piece(piece, &here, at));
    println!("  there: {}", show_piece(piece, &there, at));
}

fn describe(piece: &Piece, script: &Script, at: usize) -> String {
    let part = match piece.part {
        Part::Made => "the making of the image".to_string(),
        Part::Begun => "format or open".to_string(),
        Part::Call(number) => format!("call {number}, {}", name_of(script.calls.get(number))),
        Part::Closing => "the closing part".to_string(),
    };
    let row = piece.row.map_or(String::new(), |row| format!("finding {row}, "));
    let byte = at - piece.start;
    let place = match piece.name {
        "image" => format!(", {}", place_in_image(&script.setup, byte)),
        _ if piece.length > 4 => format!(", byte {byte}"),
        _ => String::new(),
    };
    format!("{part}: {row}{}{place}", piece.name)
}

fn name_of(call: Option<&Call>) -> &'static str {
    call.map_or("?", Call::name)
}

fn place_in_image(setup: &Setup, byte: usize) -> String {
    let (cards, blocks) = (setup.cards as usize, setup.blocks as usize);
    let flags = cards * blocks * 128;
    if byte >= flags {
        let place = byte - flags;
        format!("flag of slot {}, block {}", place / blocks, place % blocks)
    } else {
        let place = byte / 128;
        format!("slot {}, block {}, byte {}", place / blocks, place % blocks, byte % 128)
    }
}

/// A word as a number, a short string as hex, and of a long one the bytes around the difference.
fn show_piece(piece: &Piece, answers: &[u8], at: usize) -> String {
    let (start, end) = match piece.name {
        "image" => {
            let start = piece.start + (at - piece.start) / 128 * 128;
            (start, (start + 128).min(piece.start + piece.length))
        }
        _ => (piece.start, piece.start + piece.length),
    };
    let bytes = answers.get(start..end.min(answers.len())).unwrap_or_default();
    match *bytes {
        [] => "nothing".to_string(),
        [a, b, c, d] => u32::from_be_bytes([a, b, c, d]).to_string(),
        _ => Hex(bytes).to_string(),
    }
}
