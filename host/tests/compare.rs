//! The product and the fast forms equal the definitions on drawn inputs, and these meet every number of refusal.

mod common;

use nyokazerubi_host::calls::{Calls, Fast, Reference};
use nyokazerubi_host::compare::{compare, Tally};
use nyokazerubi_host::product::Product;

/// Rounds of the tests: NYOKAZERUBI_ROUNDS, or enough for every number to be met.
fn rounds() -> usize {
    let given = std::env::var("NYOKAZERUBI_ROUNDS").ok();
    given.map_or(6000, |rounds| rounds.parse().expect("a number of rounds"))
}

fn agree(right: &dyn Calls, seed: u64) -> Tally {
    let tally = compare(&Reference, right, seed, rounds()).unwrap_or_else(|difference| panic!("{difference}"));
    println!("{tally}");
    assert_eq!(tally.gaps(), [""; 0], "inputs that were not drawn");
    tally
}

/// Every number from 1 to 20 a hundred times and more, in more than a hundred thousand inputs.
#[test]
fn product_agrees() {
    let tally = agree(&Product, 4);
    assert!(tally.inputs() >= 100_000, "{} inputs", tally.inputs());
    for number in 1..=20 {
        assert!(tally.met_at_all(number) >= 100, "{number} was met {} times", tally.met_at_all(number));
    }
}

#[test]
fn fast_agrees() {
    agree(&Fast, 1);
}

#[test]
fn c_agrees() {
    agree(&common::c(), 2);
}

#[test]
fn c_agrees_and_behaves() {
    agree(&common::c_trapping(), 3);
}
