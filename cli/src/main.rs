//! The front end of Hollchiku: it reads jobs, names their parts and shows answers. Every answer
//! comes from the proved library that it is linked with; what stands here is tested.
//!
//! - `options`, `help`: the command line;
//! - `input`: a job in any of its forms; `job`: the one with names; `planner`: a planner's names and plans;
//! - `task`, `sheet`, `limits`: a task with names, and as words;
//! - `library`: the exports; `reply`: what their words mean; `shorten`, `course`: what is asked of them;
//!   `answer`: what they answer;
//! - `refusal`, `failure`, `fault`, `nearest`: what is said where there is no answer;
//! - `table`, `terminal`, `page`: how an answer is shown.

mod answer;
mod commands;
mod course;
mod failure;
mod fault;
mod help;
mod input;
mod job;
mod library;
mod limits;
mod nearest;
mod options;
mod page;
mod planner;
mod refusal;
mod reply;
mod sheet;
mod shorten;
mod table;
mod task;
mod terminal;
#[cfg(test)]
mod tests;

use failure::Failure;
use std::process::ExitCode;

fn main() -> ExitCode {
    let words: Vec<String> = std::env::args_os()
        .skip(1)
        .map(|it| it.to_string_lossy().into_owned())
        .collect();
    match options::parse(&words).and_then(commands::run) {
        Ok(()) => ExitCode::SUCCESS,
        Err(Failure {
            status, messages, ..
        }) => {
            for message in messages {
                eprintln!("{message}");
            }
            ExitCode::from(status)
        }
    }
}
