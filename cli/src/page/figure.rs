//! The picture of one variable, in strips.

use super::columns::Columns;
use super::escape::Name;
use super::levels::{Labels, Levels};
use super::strip::Strip;
use super::track::{Span, Track};
use super::Contents;
use crate::task::{Task, Variable};

/// Up to so many levels are drawn in every strip. Of more, a strip has only those that it shows.
const MOST_SHARED: usize = 12;

/// A part of a picture.
enum Part {
    Drawn(Span),
    /// Spans in which nothing happens: a sentence says as much as their drawing.
    Told(Span),
}

/// The picture of the variable with this number.
pub fn figure(contents: &Contents, number: usize, track: &Track) -> String {
    let variable = &contents.task.variables[number];
    let moves = contents.list.len();
    let levels = Levels::of(track.values(Span::whole(moves)));
    let labels = Labels::of(variable, &levels);
    let draw = |span, levels: &Levels| {
        let columns = Columns::of(span, moves);
        Strip {
            name: &variable.name,
            track,
            columns,
            levels,
            labels: &labels,
            moves: &contents.shortened.moves,
        }
        .svg()
    };
    let strips = parts(track, moves).into_iter().map(|part| match part {
        Part::Drawn(span) if levels.values().len() <= MOST_SHARED => draw(span, &levels),
        Part::Drawn(span) => draw(span, &Levels::of(track.values(span))),
        Part::Told(span) => {
            let value = Name(&variable.values[track.left[span.first] as usize]);
            format!(
                "<p>Moves {} to {}: stays {value}</p>\n",
                span.first, span.last
            )
        }
    });
    let strips: String = strips.collect();
    let caption = caption(contents.task, number, &labels, &levels);
    format!("<figure>\n<figcaption>{caption}</figcaption>\n{strips}</figure>\n")
}

/// The spans of a list. Two or more in a row in which nothing happens become one that is told.
fn parts(track: &Track, moves: usize) -> Vec<Part> {
    let mut parts = Vec::new();
    for run in
        Span::parts(moves).chunk_by(|one, next| track.is_still(*one) && track.is_still(*next))
    {
        match run {
            [first, .., last] => parts.push(Part::Told(Span {
                first: first.first,
                last: last.last,
            })),
            single => parts.extend(single.iter().copied().map(Part::Drawn)),
        }
    }
    parts
}

/// The variable's name, where it starts and must end, and the values whose labels are cut.
fn caption(task: &Task, number: usize, labels: &Labels, levels: &Levels) -> String {
    let variable = &task.variables[number];
    let name = Name(&variable.name);
    let start = Name(&variable.values[variable.start]);
    let end = match task.goal.iter().find(|goal| goal.variable == number) {
        Some(&goal) => format!("must end {}", Name(task.value_of(goal))),
        None => "may end at any value".to_string(),
    };
    let key = if labels.is_numbered() {
        key(variable, levels)
    } else {
        String::new()
    };
    format!("<strong>{name}</strong>: starts {start}, {end}{key}")
}

/// The full names of the values, under the numbers that their labels have.
fn key(variable: &Variable, levels: &Levels) -> String {
    let entry = |&value: &u32| {
        let name = Name(&variable.values[value as usize]);
        format!("<li value=\"{value}\">{name}</li>\n")
    };
    let entries: String = levels.values().iter().map(entry).collect();
    format!("\n<ol class=\"key\">\n{entries}</ol>\n")
}

#[cfg(test)]
mod tests {
    use super::super::sample::Sample;
    use super::*;

    fn gate_of(sample: &Sample) -> String {
        figure(&sample.contents(), 0, &Track::of(&sample.course, 0))
    }

    #[test]
    fn the_caption_tells_start_and_goal() {
        let mut sample = Sample::new();
        assert!(gate_of(&sample).contains("starts <bdi>shut</bdi>, must end <bdi>open</bdi>"));
        sample.task.goal.clear();
        assert!(gate_of(&sample).contains("may end at any value"));
    }

    #[test]
    fn spans_without_a_change_are_told_together() {
        let mut values = vec![0; 256];
        values[250..].fill(1);
        let track = Track {
            lodged: values.clone(),
            left: values,
        };
        let parts = parts(&track, 255);
        assert!(matches!(
            parts[..],
            [
                Part::Told(Span {
                    first: 1,
                    last: 232
                }),
                Part::Drawn(_)
            ]
        ));
    }

    #[test]
    fn a_single_span_without_a_change_is_drawn() {
        let mut values = vec![0; 41];
        values[30..].fill(1);
        let track = Track {
            lodged: values.clone(),
            left: values,
        };
        assert!(matches!(
            parts(&track, 40)[..],
            [Part::Drawn(_), Part::Drawn(_)]
        ));
    }

    #[test]
    fn long_names_have_a_key() {
        let mut sample = Sample::new();
        assert!(!gate_of(&sample).contains("<ol"));
        sample.task.variables[0].values = ["<wide> open", "<wide> open or shut"]
            .map(String::from)
            .into();
        let figure = gate_of(&sample);
        assert!(figure.contains(r#"<li value="0"><bdi>&lt;wide&gt; open</bdi></li>"#));
        assert!(figure.contains(r#"<li value="1"><bdi>&lt;wide&gt; open or shut</bdi></li>"#));
    }
}
