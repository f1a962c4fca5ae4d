//! A task with names: what an accepted job sheet means, and what people call its parts.

/// A task of document 01: variables with their starting values, the goal, and the actions.
#[derive(Clone, Debug, Default, PartialEq)]
pub struct Task {
    pub variables: Vec<Variable>,
    pub goal: Vec<Fact>,
    pub actions: Vec<Action>,
}

#[derive(Clone, Debug, PartialEq)]
pub struct Variable {
    pub name: String,
    /// The names of its values, as many as its domain has.
    pub values: Vec<String>,
    pub start: usize,
}

/// A variable at a value, by their indices.
#[derive(Clone, Copy, Debug, PartialEq, Eq, PartialOrd, Ord)]
pub struct Fact {
    pub variable: usize,
    pub value: usize,
}

#[derive(Clone, Debug, PartialEq)]
pub struct Action {
    pub name: String,
    pub price: u32,
    pub needs: Vec<Fact>,
    pub effects: Vec<Fact>,
}

impl Task {
    /// The name of a fact's variable.
    pub fn variable_of(&self, fact: Fact) -> &str {
        &self.variables[fact.variable].name
    }

    /// The name of a fact's value.
    pub fn value_of(&self, fact: Fact) -> &str {
        &self.variables[fact.variable].values[fact.value]
    }
}
