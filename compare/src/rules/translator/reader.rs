//! The parts of a text, in their order. How many lines a part has is told by counts alone, never
//! by the look of a line.

use super::cursor::{Cursor, Read};
use super::draft::Draft;

const VERSION: u32 = 3;
/// What every operator costs without a metric.
const PLAIN_COST: u32 = 1;

pub struct Reader<'a> {
    cursor: Cursor<'a>,
    draft: Draft,
    /// Whether operators cost what they say.
    has_costs: bool,
    /// The first line with something that sheets don't have.
    unsupported: Option<usize>,
    /// The facts of the group that is read, and the effects beside it; kept from operator to
    /// operator.
    facts: Vec<u32>,
    effects: Vec<u32>,
}

impl<'a> Reader<'a> {
    pub fn of(text: &'a [u8]) -> Self {
        Reader {
            cursor: Cursor::at_start_of(text),
            draft: Draft::new(),
            has_costs: false,
            unsupported: None,
            facts: Vec::new(),
            effects: Vec::new(),
        }
    }

    /// The line that was read last, or that broke the form.
    pub fn line(&self) -> usize {
        self.cursor.line
    }

    pub fn first_unsupported(&self) -> Option<usize> {
        self.unsupported
    }

    /// The words of the sheet, if it keeps to the limits and rules of sheets.
    pub fn into_words(self) -> Option<Vec<u32>> {
        self.draft.into_words()
    }

    pub fn read(&mut self) -> Read<()> {
        self.version()?;
        self.metric()?;
        self.variables()?;
        self.mutex_groups()?;
        self.state()?;
        self.goal()?;
        self.operators()?;
        self.axioms()?;
        self.cursor.end()
    }

    fn version(&mut self) -> Read<()> {
        self.cursor.keyword("begin_version")?;
        self.cursor.number_line_within(VERSION..=VERSION)?;
        self.cursor.keyword("end_version")
    }

    fn metric(&mut self) -> Read<()> {
        self.cursor.keyword("begin_metric")?;
        self.has_costs = self.cursor.number_line_within(0..=1)? == 1;
        self.cursor.keyword("end_metric")
    }

    /// Notes that the line at the cursor has something that sheets don't have.
    fn note_unsupported(&mut self) {
        self.unsupported.get_or_insert(self.cursor.line);
    }

    fn variables(&mut self) -> Read<()> {
        for _ in 0..self.cursor.number_line()? {
            self.cursor.keyword("begin_variable")?;
            self.cursor.name()?;
            if self.cursor.number_unless_minus_one()?.is_some() {
                self.note_unsupported();
            }
            self.cursor.line_end()?;
            let size = self.cursor.number_line()?;
            for _ in 0..size {
                self.cursor.name()?;
            }
            self.draft.add_variable(size);
            self.cursor.keyword("end_variable")?;
        }
        self.draft.end_part();
        Ok(())
    }

    /// Their facts may be of any variables and values.
    fn mutex_groups(&mut self) -> Read<()> {
        for _ in 0..self.cursor.number_line()? {
            self.cursor.keyword("begin_mutex_group")?;
            self.pass_over_pairs()?;
            self.cursor.keyword("end_mutex_group")?;
        }
        Ok(())
    }

    /// A count, and so many lines of a variable and a value.
    fn pass_over_pairs(&mut self) -> Read<()> {
        for _ in 0..self.cursor.number_line()? {
            self.cursor.pair_line()?;
        }
        Ok(())
    }

    fn state(&mut self) -> Read<()> {
        self.cursor.keyword("begin_state")?;
        for variable in 0..self.draft.variables() {
            let value = self.cursor.number_line()?;
            self.draft.add_start(variable, value);
        }
        self.draft.end_part();
        self.cursor.keyword("end_state")
    }

    fn goal(&mut self) -> Read<()> {
        self.cursor.keyword("begin_goal")?;
        self.facts()?;
        self.draft.add_group(&mut self.facts);
        self.draft.end_part();
        self.cursor.keyword("end_goal")
    }

    /// A count, and so many facts.
    fn facts(&mut self) -> Read<()> {
        self.facts.clear();
        for _ in 0..self.cursor.number_line()? {
            let [variable, value] = self.cursor.pair_line()?;
            self.facts.push(self.draft.fact(variable, value));
        }
        Ok(())
    }

    fn operators(&mut self) -> Read<()> {
        for _ in 0..self.cursor.number_line()? {
            self.cursor.keyword("begin_operator")?;
            self.cursor.name()?;
            self.facts()?;
            self.effects.clear();
            for _ in 0..self.cursor.number_line()? {
                self.effect()?;
            }
            let said = self.cursor.number_line()?;
            let cost = if self.has_costs { said } else { PLAIN_COST };
            let (facts, effects) = (&mut self.facts, &mut self.effects);
            self.draft.add_action(cost, facts, effects);
            self.cursor.keyword("end_operator")?;
        }
        Ok(())
    }

    /// An old value is one more precondition.
    fn effect(&mut self) -> Read<()> {
        let conditions = self.cursor.number()?;
        self.cursor.space()?;
        if conditions > 0 {
            self.note_unsupported();
        }
        for _ in 0..conditions {
            self.cursor.pair()?;
            self.cursor.space()?;
        }
        let (variable, old, new) = self.cursor.change()?;
        if let Some(old) = old {
            self.facts.push(self.draft.fact(variable, old));
        }
        self.effects.push(self.draft.fact(variable, new));
        Ok(())
    }

    fn axioms(&mut self) -> Read<()> {
        let count = self.cursor.number()?;
        if count > 0 {
            self.note_unsupported();
        }
        self.cursor.line_end()?;
        for _ in 0..count {
            self.cursor.keyword("begin_rule")?;
            self.pass_over_pairs()?;
            self.cursor.change()?;
            self.cursor.keyword("end_rule")?;
        }
        Ok(())
    }
}
