//! Why a command gives no answer: what it says, and its exit status.

use crate::fault::Fault;
use crate::reply::{Refusal, Unknown};
use std::io;

/// What the exit status tells, beside 0 for an answer.
const REFUSED: u8 = 1;
const UNREAD: u8 = 2;

/// Of a text with many faults so many are told.
const MOST_FAULTS: usize = 10;

#[derive(Debug)]
pub struct Failure {
    pub status: u8,
    /// Lines for standard error.
    pub messages: Vec<String>,
    /// The cause in document 01's table, if it is one of them.
    pub refusal: Option<Refusal>,
}

impl Failure {
    /// The library has refused what it was asked.
    pub fn refused(refusal: Refusal, message: String) -> Failure {
        Failure {
            status: REFUSED,
            messages: vec![message],
            refusal: Some(refusal),
        }
    }

    /// Something can't be read, written or understood.
    pub fn unread(message: String) -> Failure {
        Failure {
            status: UNREAD,
            messages: vec![message],
            refusal: None,
        }
    }

    /// A text has faults.
    pub fn faulty(file: &str, faults: &[Fault]) -> Failure {
        let told = faults.iter().take(MOST_FAULTS);
        let mut messages: Vec<String> = told.map(|it| at_fault(file, it)).collect();
        if let Some(more) = faults.len().checked_sub(MOST_FAULTS).filter(|it| *it > 0) {
            messages.push(format!("{file}: and {more} more"));
        }
        Failure {
            messages,
            ..Failure::unread(String::new())
        }
    }

    /// A file can't be read or written.
    pub fn of_file(file: &str, done: &str, error: &io::Error) -> Failure {
        let why = match error.kind() {
            io::ErrorKind::NotFound => "there is no such file or folder".to_string(),
            io::ErrorKind::IsADirectory => "it is a folder".to_string(),
            io::ErrorKind::PermissionDenied => "it is not allowed".to_string(),
            io::ErrorKind::StorageFull => "the disk is full".to_string(),
            io::ErrorKind::BrokenPipe => "the reader has closed it".to_string(),
            _ => error.to_string(),
        };
        Failure::unread(format!("{file}: can't be {done}: {why}"))
    }
}

/// The library's words are none that it answers with.
impl From<Unknown> for Failure {
    fn from(words: Unknown) -> Failure {
        let message = format!(
            "hollchiku: the library's answer can't be understood: {words}; this is a fault of hollchiku itself"
        );
        Failure::unread(message)
    }
}

fn at_fault(file: &str, fault: &Fault) -> String {
    let Fault { place, message } = fault;
    match place {
        Some(place) => format!("{file}:{}:{}: {message}", place.line, place.column),
        None => format!("{file}: {message}"),
    }
}
