//! Times the library on kinds of sheets, in turn with a peer that solves the same networks.
//!
//! Run with the name of a kind of full size, it only draws each sheet of that kind once: valgrind counts
//! the instructions of these calls. Run with `totals`, it prints the table of totals at many widths alone.
//! Run with `climb`, it looks for sheets that take long.

mod climb;
mod clock;
mod measure;
mod peer;
mod sample;
mod table;

use std::env;

use clock::Clock;
use measure::{least, Drawn, ROUNDS};
use peer::Peer;
use sample::Sample;
use strip_tests::count::millions;
use strip_tests::kinds::{bad, full, panels, undrawn, with_nodes, Kind};
use strip_tests::random::Random;
use table::{cells, print_head, print_row};

/// Prints the tables, or that of totals or of climbing alone, or draws the sheets of one kind. Cargo adds an
/// argument of its own.
fn main() {
    match env::args().skip(1).find(|argument| argument != "--bench") {
        Some(name) if name == "climb" => print_climbed(),
        Some(name) if name == "totals" => {
            print_unit();
            print_totals(&Clock::new(), &full(), &others());
        }
        Some(name) => draw_each(&name),
        None => print_tables(),
    }
}

/// Draws each sheet of a kind of full size once.
fn draw_each(name: &str) {
    let kind = full().into_iter().find(|kind| kind.name == name);
    for mut sample in samples(&kind.expect("a kind of full size")) {
        assert!(sample.draw().is_some());
    }
}

/// The samples of a kind.
fn samples(kind: &Kind) -> Vec<Sample> {
    let bytes = kind.sheets.iter().map(|draft| draft.bytes());
    bytes.map(Sample::new).collect()
}

/// The kinds of sheets with a drawing that are not of full size.
fn others() -> Vec<Kind> {
    let mut others: Vec<Kind> = [128, 64, 32, 16].map(with_nodes).into();
    others.push(panels());
    others
}

/// Prints what the tables have.
fn print_unit() {
    println!("microseconds of processor time, the least of {ROUNDS} rounds for each sheet");
}

/// Prints the tables of drawing, of the other calls, of totals, and of refusals.
fn print_tables() {
    print_unit();
    let clock = Clock::new();
    let (full, others) = (full(), others());
    print_drawn(&clock, &full, &others);
    print_head(&["read", "check", "narrowest"], "");
    for kind in full.iter().chain(&others) {
        print_calls(&clock, kind);
    }
    print_totals(&clock, &full, &others);
    print_head(&["draw", "narrowest"], "");
    for kind in undrawn() {
        print_refused(&clock, &kind.name, samples(&kind));
    }
    let bad = bad().into_iter().map(Sample::new);
    print_refused(&clock, "bad sheets", bad.collect());
}

/// Prints the table of drawing the worst sheet that climbing finds from each kind of full size.
fn print_climbed() {
    let clock = Clock::new();
    let mut random = Random::new(3);
    let climbed = full().into_iter().map(|kind| Kind {
        name: kind.name,
        sheets: vec![climb::worst(&clock, &mut random, kind.sheets)],
    });
    let climbed: Vec<Kind> = climbed.collect();
    let mut peers = print_drawn_head();
    print_rows(&clock, &mut peers, &climbed, |_| None);
}

/// Prints the table of drawing; sheets of full size have a row for all of them, too.
fn print_drawn(clock: &Clock, full: &[Kind], others: &[Kind]) {
    let mut peers = print_drawn_head();
    let all = print_rows(clock, &mut peers, full, |kind| {
        let count = kind.sheets.len() as f64;
        millions(&[&kind.name]).map(|millions| millions / count)
    });
    print_times("all of full size", &all, None);
    print_rows(clock, &mut peers, others, |_| None);
}

/// Prints the head of a table of drawing, and starts the peer that it is to have.
fn print_drawn_head() -> Option<[Peer; 2]> {
    let peers = Peer::start();
    if peers.is_none() {
        println!("no peer: g++ or LEMON is missing");
    }
    let heads = [
        "draw",
        "LEMON",
        "LEMON, fast",
        "draw / LEMON",
        "/ LEMON, fast",
    ];
    print_head(&heads, "  million instructions");
    peers
}

/// Prints a row of drawing for each kind, with the instructions where they are counted; the times of all.
fn print_rows(
    clock: &Clock,
    peers: &mut Option<[Peer; 2]>,
    kinds: &[Kind],
    instructions: fn(&Kind) -> Option<f64>,
) -> Drawn {
    let mut all = Drawn::default();
    for kind in kinds {
        let drawn = match peers {
            Some(peers) => Drawn::in_turn(clock, peers, &mut samples(kind)),
            None => Drawn::alone(clock, &mut samples(kind)),
        };
        print_times(&kind.name, &drawn, instructions(kind));
        all.extend(drawn);
    }
    all
}

/// Prints a row of drawing, with the instructions for a sheet where they are counted.
fn print_times(name: &str, drawn: &Drawn, millions: Option<f64>) {
    let peers = drawn.peers.each_ref();
    let times = peers.map(|peer| cells(peer, 1)).concat();
    let ratios = peers.map(|peer| cells(&drawn.ratios(peer), 2)).concat();
    let times = cells(&drawn.library, 1) + &times + &ratios;
    let millions = millions.map_or("-".to_owned(), |millions| format!("{millions:.3}"));
    print_row(name, drawn.library.len(), &format!("{times}{millions:>9}"));
}

/// Prints a row of the other calls.
fn print_calls(clock: &Clock, kind: &Kind) {
    let mut samples = samples(kind);
    assert!(samples.iter_mut().all(|sample| sample.draw().is_some()));
    let calls = [Sample::read, Sample::check, Sample::narrowest];
    let times = calls.map(|call| cells(&least(clock, &mut samples, call), 1));
    print_row(&kind.name, samples.len(), &times.concat());
}

/// Prints the table of totals at 64 different widths, beside one drawing.
fn print_totals(clock: &Clock, full: &[Kind], others: &[Kind]) {
    print_head(&["draw", "64 totals", "64 totals / draw"], "");
    for kind in full.iter().chain(others) {
        let mut samples = samples(kind);
        samples.iter_mut().for_each(Sample::choose_widths);
        let draw = least(clock, &mut samples, |sample| sample.draw().is_some());
        let totals = least(clock, &mut samples, Sample::totals);
        let ratios: Vec<f64> = totals.iter().zip(&draw).map(|(t, d)| t / d).collect();
        let times = [cells(&draw, 1), cells(&totals, 0), cells(&ratios, 1)];
        print_row(&kind.name, samples.len(), &times.concat());
    }
}

/// Prints a row of refusals; the minimum width may be told.
fn print_refused(clock: &Clock, name: &str, mut samples: Vec<Sample>) {
    let draw = least(clock, &mut samples, |sample| sample.draw().is_none());
    let narrowest = least(clock, &mut samples, |sample| {
        sample.narrowest();
        true
    });
    let times = cells(&draw, 1) + &cells(&narrowest, 1);
    print_row(name, samples.len(), &times);
}
