//! How long the longest jobs take. A measure and no test: cli/tests/times runs it.

use super::read;
use super::round_trips::records;
use crate::job;
use crate::limits::MOST_MOVES;
use crate::shorten::{shorten, Asked};
use crate::table::{table, Style};
use std::time::{Duration, Instant};

/// Of so many runs of a job the best counts.
const RUNS: usize = 5;

/// What a job is to take at most, the start of the process and the launcher with it.
const GOAL: Duration = Duration::from_millis(30);

#[test]
#[ignore = "a measure"]
fn of_the_longest_jobs() {
    let records = records();
    let texts = records.iter().filter_map(|it| text_of_longest(it));
    let mut times: Vec<Duration> = texts.map(|it| best_of(&it)).collect();
    times.sort();
    let count = times.len();
    let late = times.iter().filter(|it| **it > GOAL).count();
    println!(
        "{count} jobs of {MOST_MOVES} moves, read, shortened and shown: {late} above {GOAL:?}"
    );
    for (what, at) in [
        ("median", count / 2),
        ("nine of ten", count * 9 / 10),
        ("longest", count - 1),
    ] {
        println!("{what}: {:.2} ms", times[at].as_secs_f64() * 1e3);
    }
}

/// The job of a record whose list is valid and as long as it may be.
fn text_of_longest(record: &[u8]) -> Option<String> {
    let lodged = read("words", record).ok()?;
    let is_longest = lodged.job.list.len() == MOST_MOVES && lodged.check().is_ok();
    is_longest.then(|| job::write(&lodged.job))
}

fn best_of(text: &str) -> Duration {
    let style = Style {
        has_colours: false,
        columns: None,
    };
    let runs = (0..RUNS).map(|_| {
        let start = Instant::now();
        let lodged =
            read("a.job", text.as_bytes()).unwrap_or_else(|it| panic!("{:?}", it.messages));
        let answered = shorten(&lodged, Asked::Licence).expect("every valid list is answered");
        let shown = table(&lodged.job, &answered, style);
        std::hint::black_box(shown);
        start.elapsed()
    });
    runs.min().unwrap_or_default()
}
