//! The comparison: the services of the library and the built programs, held to the rules.

mod faulty;
pub mod inputs;
pub mod long_lists;
pub mod programs;
mod record;
pub mod report;
pub mod self_test;
mod services;
mod trial;

use crate::cases::{kinds, CLAIM, CLAIMS, SERVICES};
use programs::Built;
use record::Record;
use std::fs::File;
use std::io::{self, Read};
use std::time::{Duration, Instant};

/// How long a long run takes unless it is said.
pub const LONG_SECONDS: u64 = 600;
const CASES_OF_ROUND: u64 = 100_000;

/// Tries what no seed changes on the rules alone. Answers whether nothing failed, as the others do.
pub fn fixed() -> bool {
    let mut record = Record::default();
    services::try_fixed(&mut record, false);
    record.finish()
}

/// Tries the one random case with this number.
pub fn one(seed: u64, case: u64) -> bool {
    let mut record = Record::default();
    services::try_random(&mut record, seed, case..=case);
    record.finish()
}

/// Tries the programs, the worked lists, so many random cases and long lists.
pub fn all(built: &[Built], seed: u64, cases: u64) -> bool {
    let mut record = expecting_all(built);
    programs::compare(&mut record, built, &inputs::fixed());
    programs::compare(&mut record, built, &inputs::of_random_cases(seed));
    services::try_fixed(&mut record, true);
    services::try_random(&mut record, seed, 1..=cases);
    long_lists::compare(&mut record, seed);
    record.finish()
}

/// A run as long as wished: rounds of random cases and of input for the programs, each round with a
/// seed of its own. Every round but the last, which the end of the time cuts off, is the same in
/// each run from the same first seed.
pub fn long(built: &[Built], first_seed: u64, seconds: u64) -> bool {
    println!("first seed {first_seed}; again: compare/run --long {seconds} --seed {first_seed}");
    let mut record = expecting_all(built);
    record.end = Some(Instant::now() + Duration::from_secs(seconds));
    services::try_fixed(&mut record, true);
    programs::compare(&mut record, built, &inputs::fixed());
    let mut rounds = 0;
    while !record.is_over() {
        let seed = first_seed.wrapping_add(rounds);
        programs::compare(&mut record, built, &inputs::of_random_cases(seed));
        services::try_random(&mut record, seed, 1..=CASES_OF_ROUND);
        long_lists::compare(&mut record, seed);
        rounds += 1;
    }
    println!("first seed {first_seed}; rounds of {CASES_OF_ROUND} cases begun: {rounds}");
    record.finish()
}

/// The record of a run that must try every kind, and show every answer of the services and of these
/// programs.
fn expecting_all(built: &[Built]) -> Record {
    let mut record = Record::default();
    for service in SERVICES {
        let declared = service.declared();
        record.expected.push((service.name(), declared.answers));
        let places = declared.places.iter();
        let places = places.map(|&(number, least)| ((service.name(), number), least));
        record.expected_places.extend(places);
    }
    record.expected.push((CLAIM, CLAIMS));
    let kinds = kinds::all().into_iter();
    record.expected_kinds = kinds.map(|(kind, _)| kind).collect();
    let programs = built.iter().map(|built| built.program);
    record
        .expected
        .extend(programs.map(|it| (it.kind, it.answers)));
    record
}

/// A first seed that no run before has had: half a word, so that the seeds of all rounds fit in one.
pub fn fresh_seed() -> io::Result<u64> {
    let mut bytes = [0; 4];
    File::open("/dev/urandom")?.read_exact(&mut bytes)?;
    Ok(u64::from(u32::from_le_bytes(bytes)))
}
