//! The cases whose outcome the programs of `tests/` work out from documents 01 and 02 (§2, §6, §7, §8, §9, §10, §12)
//! alone, run through the library: each line of a stored file has to come out as it stands there.

mod raw;
mod stored {
    pub mod arrival;
    pub mod card;
    pub mod code;
    pub mod correct;
    pub mod digest;
    pub mod forms;
    pub mod layers;
    pub mod order;
    pub mod plan;
    pub mod repair;
    pub mod samples;
    pub mod steps;
    pub mod stretches;
    pub mod trial;
}

use stored::{arrival, card, code, correct, layers, order, plan, repair, samples, steps, stretches};

/// Tells the first line that differs.
fn assert_stored(made: &str, stored: &str) {
    for (index, (line, expected)) in made.lines().zip(stored.lines()).enumerate() {
        assert_eq!(line, expected, "line {}", index + 1);
    }
    assert!(made == stored, "{} lines, {} are stored", made.lines().count(), stored.lines().count());
}

#[test]
fn samples_of_the_documents() {
    assert_stored(&samples::lines(), include_str!("../../tests/stored/samples.txt"));
}

#[test]
fn archives() {
    assert_stored(&code::lines(), include_str!("../../tests/stored/code.txt"));
}

#[test]
fn many_stretches() {
    assert_stored(&stretches::lines(), include_str!("../../tests/stored/stretches.txt"));
}

#[test]
fn corrections() {
    assert_stored(&correct::lines(), include_str!("../../tests/stored/correct.txt"));
}

#[test]
fn calls_of_a_repair() {
    assert_stored(&steps::lines(), include_str!("../../tests/stored/steps.txt"));
}

#[test]
fn messages_as_they_arrive() {
    assert_stored(&arrival::lines(), include_str!("../../tests/stored/arrival.txt"));
}

#[test]
fn whole_repairs() {
    assert_stored(&repair::lines(), include_str!("../../tests/stored/repair.txt"));
}

#[test]
fn cards() {
    assert_stored(&card::lines(), include_str!("../../tests/stored/card.txt"));
}

#[test]
fn plans() {
    assert_stored(&plan::lines(), include_str!("../../tests/stored/plan.txt"));
}

#[test]
fn lists_of_losses() {
    assert_stored(&layers::lines(), include_str!("../../tests/stored/layers.txt"));
}

#[test]
fn orders_of_transfers() {
    assert_stored(&order::lines(), include_str!("../../tests/stored/order.txt"));
}
