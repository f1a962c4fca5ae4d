//! The job itself: its variables, its goal and its actions.

use super::escape::{Grouped, Name};
use super::facts::{blocks, fact};
use super::table::{cell, head, row, Table};
use crate::task::{Action, Fact, Task, Variable};

/// All of the job that the list is judged by.
pub fn section(task: &Task) -> String {
    format!(
        "<section>\n<h2>The job</h2>\n<h3>Variables</h3>\n{}\
         <h3>Goal</h3>\n{}<h3>Actions</h3>\n{}</section>\n",
        variables(task),
        goal(task),
        actions(task)
    )
}

fn variables(task: &Task) -> String {
    let table = Table {
        attributes: r#"class="variables stack""#,
        columns: &["Variable", "At the start", "Its values"],
        rows: task.variables.iter().map(variable_row).collect(),
        sums: String::new(),
    };
    table.html()
}

fn variable_row(variable: &Variable) -> String {
    let values: Vec<String> = variable
        .values
        .iter()
        .map(|value| Name(value).to_string())
        .collect();
    let start = Name(&variable.values[variable.start]);
    row(&[
        head(Name(&variable.name)),
        cell(start),
        cell(values.join(", ")),
    ])
}

fn goal(task: &Task) -> String {
    if task.goal.is_empty() {
        return "<p>There is none: the list may end in any state.</p>\n".to_string();
    }
    let items = task
        .goal
        .iter()
        .map(|&wanted| format!("<li>{}</li>\n", fact(task, wanted)));
    format!("<ul class=\"goal\">\n{}</ul>\n", items.collect::<String>())
}

fn actions(task: &Task) -> String {
    let table = Table {
        attributes: r#"class="actions stack""#,
        columns: &["Action", "Price", "Needs", "Sets"],
        rows: task
            .actions
            .iter()
            .map(|action| action_row(task, action))
            .collect(),
        sums: String::new(),
    };
    table.html()
}

fn action_row(task: &Task, action: &Action) -> String {
    let facts = |facts: &[Fact]| blocks(facts.iter().map(|&one| fact(task, one)));
    row(&[
        head(Name(&action.name)),
        cell(Grouped(action.price.into())),
        cell(facts(&action.needs)),
        cell(facts(&action.effects)),
    ])
}

#[cfg(test)]
mod tests {
    use super::super::sample::Sample;
    use super::*;

    #[test]
    fn a_variable_has_its_start_and_its_values() {
        let job = section(&Sample::new().task);
        let cells = "<td><bdi>shut</bdi></td><td><bdi>shut</bdi>, <bdi>open</bdi></td>";
        assert!(job.contains(&format!("<bdi>gate</bdi></th>{cells}")));
    }

    #[test]
    fn the_goal_is_listed() {
        let mut task = Sample::new().task;
        assert!(section(&task).contains("<li><bdi>gate</bdi>: <bdi>open</bdi></li>"));
        task.goal.clear();
        assert!(section(&task).contains("There is none"));
    }

    #[test]
    fn an_action_has_its_price_needs_and_effects() {
        let job = section(&Sample::new().task);
        let needs = "<div><bdi>gate</bdi>: <bdi>shut</bdi></div>";
        let effects =
            "<div><bdi>gate</bdi>: <bdi>open</bdi></div><div><bdi>lamp</bdi>: <bdi>off</bdi></div>";
        assert!(job.contains(&format!("<td>1,000</td><td>{needs}</td><td>{effects}</td>")));
        assert!(job.contains("<bdi>look</bdi></th><td>2</td><td>nothing</td><td>nothing</td>"));
    }

    #[test]
    fn a_nasty_name_is_escaped() {
        let mut sample = Sample::new();
        sample.rename_all("a<!--b");
        let job = section(&sample.task);
        assert!(job.contains("a&lt;!--b"));
        assert!(!job.contains("<!--"));
    }
}
