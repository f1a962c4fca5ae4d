//! The pictures: each variable's values over the moves, or a line where they never change.

use super::escape::Name;
use super::figure::figure;
use super::strip::{path, CROSS, KEPT, LODGED, SHADE};
use super::track::{Span, Track};
use super::Contents;
use crate::task::Variable;

/// A line across a sample of the legend.
const ACROSS: &str = "M0 8H32";

/// All pictures, then a line for each variable that has none because it never changes.
pub fn section(contents: &Contents) -> String {
    let whole = Span::whole(contents.list.len());
    let (mut figures, mut lines) = (String::new(), String::new());
    for (number, variable) in contents.task.variables.iter().enumerate() {
        let track = Track::of(contents.course, number);
        if track.is_still(whole) {
            lines += &still_line(variable);
        } else {
            figures += &figure(contents, number, &track);
        }
    }
    if !figures.is_empty() {
        figures = legend() + &figures;
    }
    if !lines.is_empty() {
        lines = format!("<h3>Never changed</h3>\n<ul class=\"still\">\n{lines}</ul>\n");
    }
    format!("<section>\n<h2>The variables, move by move</h2>\n{figures}{lines}</section>\n")
}

fn still_line(variable: &Variable) -> String {
    let value = Name(&variable.values[variable.start]);
    format!("<li>{}: {value}</li>\n", Name(&variable.name))
}

/// What the lines mean, each with a sample that is drawn as in the strips.
fn legend() -> String {
    let struck = path(SHADE, "M10 0h12v16h-12z") + &path(CROSS, "M13 5l5 5m0-5l-5 5");
    let entries = [
        entry(&path(KEPT, ACROSS), "the course of the kept moves"),
        entry(
            &path(LODGED, ACROSS),
            "the course of the lodged list, where it is another",
        ),
        entry(&struck, "a struck move"),
    ];
    format!("<ul class=\"legend\">\n{}</ul>\n", entries.concat())
}

/// The sample says nothing to those who can't see it, so it is hidden from what reads aloud.
fn entry(sample: &str, meaning: &str) -> String {
    let attributes = r#"class="sample" aria-hidden="true" width="32" height="16""#;
    format!("<li><svg {attributes}>{sample}</svg> {meaning}</li>\n")
}

#[cfg(test)]
mod tests {
    use super::super::sample::Sample;
    use super::*;

    #[test]
    fn a_variable_that_changes_has_a_picture_and_the_other_a_line() {
        let section = section(&Sample::new().contents());
        assert_eq!(section.matches("<figure>").count(), 1);
        assert!(section.contains("<figcaption><strong><bdi>gate</bdi></strong>"));
        assert!(section.contains("<li><bdi>lamp</bdi>: <bdi>off</bdi></li>"));
    }

    #[test]
    fn a_list_without_moves_has_lines_only() {
        let section = section(&Sample::empty().contents());
        assert!(!section.contains("<svg"));
        assert_eq!(section.matches("<li>").count(), 2);
    }

    #[test]
    fn a_nasty_name_is_escaped_in_a_line() {
        let mut sample = Sample::empty();
        sample.rename_all("<u>");
        let escaped = "<bdi>&lt;u&gt;</bdi>";
        assert!(section(&sample.contents()).contains(&format!("<li>{escaped}: {escaped}</li>")));
    }
}
