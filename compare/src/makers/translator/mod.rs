//! Texts as Fast Downward's translator writes them: of tasks in any style, with what a sheet can't
//! hold, and with damaged lines.

pub mod damage;
pub mod faults;
mod listing;
pub mod names;
mod text;

pub use listing::{Change, Listing, Number, Operator, Pair, Variable};
pub use text::{Holds, Text};
