//! The solver's guess is taken: no contract says so, since a guess that fails costs time only. Valgrind counts the
//! instructions of `draw`, and a guess that fails takes more of them.

use compare::page;
use strip_tests::count::millions;
use strip_tests::planted::{planted, Plan};
use strip_tests::random::Random;

/// How many sheets there are of each plan.
const SHEETS: usize = 8;
/// Sheets of full size that leave little, some and much room to move.
const PLANS: [Plan; 3] = [Plan::FULL_TIGHT, Plan::FULL_LOOSE, Plan::FULL_WIDE];
/// More millions of instructions than a sheet takes whose guess is taken, on average.
const LIMIT: f64 = 3.2;

/// Draws the sheets; the test below runs this one under valgrind.
#[test]
fn draws() {
    let mut random = Random::new(26);
    let mut places = [0; strip::MAX_PLACES];
    let mut list = [0; strip::MAX_LIST];
    for plan in PLANS {
        for _ in 0..SHEETS {
            let sheet = planted(&mut random, &plan).bytes();
            assert!(strip::draw(&sheet, &mut places, &mut list).is_ok());
        }
    }
}

#[test]
fn the_guess_is_taken() {
    let count = PLANS.len() * SHEETS;
    page::check_said(&format!(
        "on {count} sheets of full size: fewer than {LIMIT} million for a sheet on average"
    ));
    let millions = millions(&["--exact", "draws"]).expect("valgrind") / count as f64;
    assert!(millions > 0.0, "nothing is counted");
    assert!(millions < LIMIT, "{millions} million instructions a sheet");
}
