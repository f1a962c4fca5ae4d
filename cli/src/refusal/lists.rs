//! Causes 8 to 12: what is wrong with a list.

use super::{out_of_table, quoted};
use crate::failure::Failure;
use crate::input::{Lodged, Part};
use crate::library;
use crate::limits::{MOST_MOVES, MOST_UNMARKED};
use crate::reply::{NoAnswer, Refusal, Unknown};
use crate::sheet;
use crate::task::Fact;

/// The refusal of a sheet or of a list.
pub fn of_list(refusal: Refusal, lodged: &Lodged) -> Failure {
    let (place, moves) = (refusal.place as usize, lodged.job.list.len());
    let message = match (refusal.number, place) {
        (1..=7, _) => return lodged.wrong_sheet(refusal),
        (8, _) => return lodged.too_long(refusal, moves),
        (9, 1..) if place <= moves => Ok(lodged.unknown_action(place - 1)),
        (10, _) => Ok(lodged.no_room()),
        (11, 1..) if place <= moves => lodged.undoable(place - 1),
        (11, _) if place == moves + 1 => lodged.unmet_goal(),
        (12, _) => Ok(lodged.unmarked(place)),
        _ => return out_of_table(refusal),
    };
    match message {
        Ok(message) => Failure::refused(refusal, message),
        // The library has refused this list, and does not refuse to tell its states.
        Err(NoAnswer::Refused(other)) => out_of_table(other),
        Err(NoAnswer::Unknown(words)) => words.into(),
    }
}

impl Lodged {
    /// The index of a move's word, behind the sheet and the list's length.
    fn word_of(&self, move_at: usize) -> usize {
        self.sheet.len() + 1 + move_at
    }

    pub fn too_long(&self, refusal: Refusal, moves: usize) -> Failure {
        let message = format!("the list has {moves} moves, and {MOST_MOVES} at most are read");
        let message = self.at(Part::Move(MOST_MOVES), self.sheet.len(), &message);
        Failure::refused(refusal, message)
    }

    /// The front end lends room for every list, so this is never to be seen.
    fn no_room(&self) -> String {
        self.at(
            Part::Whole,
            0,
            "the answer has no room, which is a fault of hollchiku itself",
        )
    }

    /// More moves than the exact reduction takes, and what to do about it.
    fn unmarked(&self, moves: usize) -> String {
        let message = format!(
            "{moves} moves are unmarked, and the exact reduction takes {MOST_UNMARKED} at most; without --exact every \
             valid list is answered"
        );
        self.at(Part::Whole, 0, &message)
    }

    fn unknown_action(&self, move_at: usize) -> String {
        let (action, actions) = (self.job.list[move_at], sheet::actions(&self.sheet));
        let message = format!(
            "move {} is action {action}, and there are {actions}, counted from 0",
            move_at + 1
        );
        self.at(Part::Move(move_at), self.word_of(move_at), &message)
    }

    /// The first move that can't be done, and what it lacks.
    fn undoable(&self, move_at: usize) -> Result<String, NoAnswer> {
        let action = self.job.list[move_at] as usize;
        let lacks = self.lacks(&self.job.task.actions[action].needs, move_at)?;
        let message = format!(
            "move {}, {}, can't be done: it needs {lacks}",
            move_at + 1,
            self.action(action)
        );
        Ok(self.at(Part::Move(move_at), self.word_of(move_at), &message))
    }

    fn unmet_goal(&self) -> Result<String, NoAnswer> {
        let moves = self.job.list.len();
        let lacks = self.lacks(&self.job.task.goal, moves)?;
        let message = format!("the goal is not met after the last move: it asks for {lacks}");
        Ok(self.at(Part::Goal, sheet::part(&self.sheet, 2).at, &message))
    }

    /// Which facts do not hold after the first moves, and what holds instead.
    fn lacks(&self, facts: &[Fact], moves: usize) -> Result<String, NoAnswer> {
        let task = &self.job.task;
        // Each of these moves can be done: the library has refused a later place.
        let states = library::course(&self.sheet, &self.job.list)?;
        let values = states.get(moves).ok_or_else(|| Unknown {
            what: "a number of states that ends before the place of a refusal",
            words: vec![states.len() as u64, moves as u64],
        })?;
        let lacking = facts
            .iter()
            .filter(|it| values[it.variable] as usize != it.value);
        let told = lacking.map(|fact| {
            let Fact { variable, value } = *fact;
            let named = &task.variables[variable];
            let [wanted, there] =
                [value, values[variable] as usize].map(|it| quoted(named.values[it].clone()));
            format!(
                "{} to be {wanted}, and it is {there}",
                self.variable(variable)
            )
        });
        let told: Vec<String> = told.collect();
        Ok(told.join("; "))
    }
}
