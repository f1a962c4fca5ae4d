//! What the program says of itself.

use crate::options::Verb;

/// The sources that it was built from, by a digest, and the prover that proved the library.
const SOURCES: &str = env!("HOLLCHIKU_SOURCES");
const PROVER: &str = env!("HOLLCHIKU_PROVER");

pub fn version() -> String {
    format!("hollchiku 1.0, sources {SOURCES}, library proved by {PROVER}")
}

const ALL: &str = "\
Hollchiku strikes from a list of moves what it does not need, and says what is proved of the list left.

usage: hollchiku COMMAND JOB [OPTIONS]

  shorten JOB             strike what the list does not need; a table of all moves, the prices, the claim
  check JOB               whether the list is valid, or the first move that can't be done and what it lacks
  words JOB               the job as a text of words, or with --binary in the proved programs' form
  job WORDS               the job with names that words mean
  page JOB -o FILE.html   the page to lodge
  COMMAND --help          more about a command
  --version               the version: its sources and its prover

JOB is a file, or - for standard input: a job with names (docs/JOB.md), a text of words, words in the programs'
binary form, or a planner's output.sas with its plan file behind it. Which it is, is told by what is in it.

  $ hollchiku shorten examples/weir.job
  $ hollchiku shorten output.sas sas_plan

The exit status is 0 for an answer, 1 for a refusal, 2 where something can't be read, written or understood.
";

const SHORTEN: &str = "\
usage: hollchiku shorten JOB [OPTIONS]
       hollchiku shorten OUTPUT.SAS PLAN [OPTIONS]

Strikes what the list does not need. Every valid list is answered, with the strongest claim that is proved of what is
left: that it is the least, that nothing more can be struck, or that this is open. Where it is open, that is told on
standard error too, whatever is printed.

  --exact       the exact reduction alone: the cheapest, then the shortest; refuses more than 20 unmarked moves
  --greedy      greedy elimination alone
  --eliminate   elimination alone
  --cheaper     the cheaper of both eliminations
  --kept        print the shortened list alone: as a job, or of a planner's text as a plan file
  --plain       print document 01's lines
  -o FILE       write the answer to FILE

In the table a move is kept, struck or marked; a marked move is one that no valid striking drops.
";

const CHECK: &str = "\
usage: hollchiku check JOB
       hollchiku check OUTPUT.SAS PLAN

Says whether the list is valid: each move can be done in turn, and the goal is met after the last. If not, it names the
first move that can't be done, and what it lacks.
";

const WORDS: &str = "\
usage: hollchiku words JOB [--binary] [-o FILE]
       hollchiku words OUTPUT.SAS PLAN [--binary] [-o FILE]

Writes the words of the job's sheet and list: as a text, or with --binary as little-endian words, the form that the
proved programs read (crates/license/out/license < FILE).
";

const JOB: &str = "\
usage: hollchiku job WORDS [-o FILE]
       hollchiku job OUTPUT.SAS [PLAN] [-o FILE]

Writes the job with names that words mean: a text of words, words in the programs' binary form, or a planner's text.
What has no name is called v3, a12, and so on. docs/JOB.md says how a job is written.
";

const PAGE: &str = "\
usage: hollchiku page JOB -o FILE.html
       hollchiku page OUTPUT.SAS PLAN -o FILE.html

Writes the page to lodge: the job, the shortened list, what becomes of every move, a picture of each variable, the
prices, what was proved by which version, and the words to run it again. It is one file and needs no network. Where it
is open whether the list may be lodged, that is told on standard error too.
";

pub fn help(verb: Option<Verb>) -> &'static str {
    match verb {
        None => ALL,
        Some(Verb::Shorten) => SHORTEN,
        Some(Verb::Check) => CHECK,
        Some(Verb::Words) => WORDS,
        Some(Verb::Job) => JOB,
        Some(Verb::Page) => PAGE,
    }
}
