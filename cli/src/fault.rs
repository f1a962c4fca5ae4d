//! What is wrong with a text, and where.

/// A place in a text, from 1; columns are counted in characters.
#[derive(Clone, Copy, Debug, PartialEq, Eq, PartialOrd, Ord)]
pub struct Place {
    pub line: usize,
    pub column: usize,
}

#[derive(Clone, Debug, PartialEq)]
pub struct Fault {
    /// Of what is missing from a whole text there is none.
    pub place: Option<Place>,
    pub message: String,
}

impl Fault {
    pub fn at(place: Place, message: impl Into<String>) -> Fault {
        Fault {
            place: Some(place),
            message: message.into(),
        }
    }

    pub fn of_all(message: impl Into<String>) -> Fault {
        Fault {
            place: None,
            message: message.into(),
        }
    }
}
