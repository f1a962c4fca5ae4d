//! A list that was shortened, as a table for people.

use crate::answer::{Move, Outcome, Shortened};
use crate::job::Job;
use crate::shorten::claim;
use crate::task::{Action, Task};
use std::fmt::Write;

/// How a table is shown.
#[derive(Clone, Copy)]
pub struct Style {
    pub has_colours: bool,
    /// The columns of a terminal; elsewhere the table is no wider than it needs.
    pub columns: Option<usize>,
}

/// The terminal's sign for an outcome: struck moves faint, marked ones bold.
fn colour(outcome: Outcome) -> &'static str {
    match outcome {
        Outcome::Kept => "",
        Outcome::Struck => "\x1b[2;9m",
        Outcome::Marked => "\x1b[1m",
    }
}

const PLAIN: &str = "\x1b[0m";

/// All moves with what becomes of each, the prices, and what is proved.
pub fn table(job: &Job, shortened: &Shortened, style: Style) -> String {
    let mut text = rows(job, shortened, style);
    let tallies = [
        ("lodged", shortened.lodged),
        ("kept", shortened.left),
        ("saved", shortened.saved),
    ];
    text.push('\n');
    for (what, tally) in tallies {
        let price = tally.price;
        let _ = writeln!(text, "{what:<6}  {:>9}, price {price}", tally.so_many());
    }
    let width = style.columns.unwrap_or(PAGE);
    let _ = write!(text, "\n{}", filled(&claim(shortened.way), width));
    text
}

/// So wide are paragraphs where no terminal says otherwise.
const PAGE: usize = 100;

const NAME: &str = "name";
const PRICE: &str = "price";

fn rows(job: &Job, shortened: &Shortened, style: Style) -> String {
    let actions = job.list.iter().map(|it| &job.task.actions[*it as usize]);
    let widest = |widths: &mut dyn Iterator<Item = usize>, head: &str| {
        widths.max().unwrap_or(0).max(head.len())
    };
    let columns = Columns {
        task: &job.task,
        name: widest(&mut actions.clone().map(|it| width(&shown(&it.name))), NAME),
        price: widest(
            &mut shortened.moves.iter().map(|it| it.price.to_string().len()),
            PRICE,
        ),
        style,
    };
    let rows = actions.zip(&shortened.moves).enumerate();
    let rows = rows.map(|(index, (action, told))| columns.row(index + 1, action, told));
    let rows: String = rows.collect();
    columns.head() + &rows
}

/// How wide the columns of names and prices are.
struct Columns<'a> {
    task: &'a Task,
    name: usize,
    price: usize,
    style: Style,
}

impl Columns<'_> {
    fn head(&self) -> String {
        let width = self.price;
        format!("move  {}  {PRICE:>width$}\n", padded(NAME, self.name))
    }

    /// The row of a move. What it does stands behind, where a terminal has room for it.
    fn row(&self, position: usize, action: &Action, told: &Move) -> String {
        let name = padded(&shown(&action.name), self.name);
        let Move { price, outcome, .. } = *told;
        let price_width = self.price;
        let mut row = format!("{position:>4}  {name}  {price:>price_width$}  {outcome:<6}");
        let does = effects(action, self.task);
        let room = self
            .style
            .columns
            .unwrap_or(0)
            .saturating_sub(width(&row) + 2);
        if width(&does) <= room {
            let _ = write!(row, "  {does}");
        }
        let row = row.trim_end();
        match self.style.has_colours {
            true => format!("{}{row}{PLAIN}\n", colour(outcome)),
            false => format!("{row}\n"),
        }
    }
}

/// What an action does, for the last column of a wide terminal.
fn effects(action: &Action, task: &Task) -> String {
    let facts = action.effects.iter();
    let facts = facts.map(|it| shown(&format!("{} {}", task.variable_of(*it), task.value_of(*it))));
    let facts: Vec<String> = facts.collect();
    facts.join(", ")
}

/// A name without what would move a terminal's cursor or turn its text around.
pub fn shown(name: &str) -> String {
    let is_hidden = |it: char| {
        it.is_control() || matches!(it, '\u{202a}'..='\u{202e}' | '\u{2066}'..='\u{2069}')
    };
    name.chars()
        .map(|it| {
            if is_hidden(it) {
                char::REPLACEMENT_CHARACTER
            } else {
                it
            }
        })
        .collect()
}

fn padded(text: &str, columns: usize) -> String {
    let missing = columns.saturating_sub(width(text));
    format!("{text}{}", " ".repeat(missing))
}

/// How many columns a text takes: marks above letters none, letters of East Asia two.
fn width(text: &str) -> usize {
    text.chars().map(char_width).sum()
}

fn char_width(it: char) -> usize {
    match it {
        '\u{300}'..='\u{36f}'
        | '\u{591}'..='\u{5bd}'
        | '\u{64b}'..='\u{65f}'
        | '\u{200b}'..='\u{200f}' => 0,
        '\u{1100}'..='\u{115f}' | '\u{2e80}'..='\u{a4cf}' | '\u{ac00}'..='\u{d7a3}' => 2,
        '\u{f900}'..='\u{faff}'
        | '\u{fe30}'..='\u{fe6f}'
        | '\u{ff00}'..='\u{ff60}'
        | '\u{1f300}'..='\u{1faff}' => 2,
        _ => 1,
    }
}

/// A paragraph in lines no wider than this.
pub fn filled(paragraph: &str, columns: usize) -> String {
    let (mut text, mut used) = (String::new(), 0);
    for word in paragraph.split_whitespace() {
        let wide = width(word);
        let sign = match used {
            0 => "",
            _ if used + 1 + wide > columns => "\n",
            _ => " ",
        };
        used = if sign == " " { used + 1 + wide } else { wide };
        text.push_str(sign);
        text.push_str(word);
    }
    text + "\n"
}
