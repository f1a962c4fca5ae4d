//! A strip: the drawing of one variable over one span of moves.
//!
//! Broader windows show several strips beside each other. So none is ever made smaller until it
//! can't be read.

use super::columns::{Columns, GUTTER};
use super::escape::Isolated;
use super::levels::{Labels, Levels};
use super::track::Track;
use crate::answer::Move;

/// Where the labels of the levels end.
const LABEL_END: usize = GUTTER - 6;

/// The room under the plot, for the ticks and the positions.
const AXIS: usize = 22;
const TICK: usize = 5;
const POSITION_LINE: usize = 18;

/// By this much the line of a text lies below the middle of its letters.
const HALF_LETTER: usize = 4;

/// The classes of the lines, which the legend has too.
pub const SHADE: &str = "shade";
pub const CROSS: &str = "cross";
pub const LODGED: &str = "lodged";
pub const KEPT: &str = "kept";

/// All that a strip is drawn from.
pub struct Strip<'a> {
    pub name: &'a str,
    pub track: &'a Track,
    pub columns: Columns,
    pub levels: &'a Levels,
    pub labels: &'a Labels<'a>,
    /// The lodged moves.
    pub moves: &'a [Move],
}

impl Strip<'_> {
    /// The strip as an element. What is struck lies under what is kept.
    pub fn svg(&self) -> String {
        let (width, height) = (self.columns.right(), self.floor() + AXIS);
        let class = if self.levels.is_dense() { "dense" } else { "" };
        let size = format!(r#"width="{width}" height="{height}" viewBox="0 0 {width} {height}""#);
        let span = self.columns.span;
        let title = format!(
            "{}, moves {} to {}",
            Isolated(self.name),
            span.first,
            span.last
        );
        let parts = [
            path(SHADE, &self.shade()),
            path("guide", &self.guides()),
            self.level_labels(),
            self.position_labels(),
            path("axis", &self.axis()),
            path(CROSS, &self.crosses()),
            path(LODGED, &self.lodged()),
            path(KEPT, &self.left()),
        ];
        let parts = parts.concat();
        format!("<svg class=\"{class}\" role=\"img\" {size}><title>{title}</title>{parts}</svg>\n")
    }

    /// Where the plot ends and the axis begins.
    fn floor(&self) -> usize {
        self.levels.height()
    }

    /// The positions of the kept moves, or those of the struck ones.
    fn positions(&self, kept: bool) -> impl Iterator<Item = usize> + '_ {
        self.columns
            .span
            .positions()
            .filter(move |&position| self.moves[position - 1].is_struck() != kept)
    }

    /// The columns of the struck moves.
    fn shade(&self) -> String {
        let (width, floor) = (self.columns.width, self.floor());
        let column = |at| format!("M{} 0h{width}v{floor}h-{width}z", self.columns.edge(at));
        self.positions(false).map(column).collect()
    }

    /// A thin line along each level.
    fn guides(&self) -> String {
        let right = self.columns.right();
        let guide = |&value| format!("M{GUTTER} {}H{right}", self.levels.depth(value));
        self.levels.values().iter().map(guide).collect()
    }

    fn level_labels(&self) -> String {
        let label = |&value| {
            let line = self.levels.depth(value) + HALF_LETTER;
            text("value", LABEL_END, line, &self.labels.label(value))
        };
        self.levels.values().iter().map(label).collect()
    }

    fn position_labels(&self) -> String {
        let line = self.floor() + POSITION_LINE;
        let label = |at: usize| text("position", self.columns.middle(at), line, &at.to_string());
        self.columns.told().map(label).collect()
    }

    /// The axis, with a tick for each kept move.
    fn axis(&self) -> String {
        let floor = self.floor();
        let tick = |at| format!("M{} {floor}v{TICK}", self.columns.middle(at));
        let ticks: String = self.positions(true).map(tick).collect();
        format!("M{GUTTER} {floor}H{}{ticks}", self.columns.right())
    }

    /// A cross under each struck move, which is seen without the shade too.
    fn crosses(&self) -> String {
        let top = self.floor() + 1;
        let cross = |at| {
            let left = self.columns.middle(at) - TICK / 2;
            format!("M{left} {top}l{TICK} {TICK}m0-{TICK}l-{TICK} {TICK}")
        };
        self.positions(false).map(cross).collect()
    }

    /// The course of the kept moves.
    fn left(&self) -> String {
        let depth = |position: usize| self.levels.depth(self.track.left[position]);
        let mut data = format!("M{GUTTER} {}", depth(self.columns.span.first - 1));
        for position in self.columns.span.positions() {
            if depth(position) != depth(position - 1) {
                data += &format!("H{}V{}", self.columns.middle(position), depth(position));
            }
        }
        data + &format!("H{}", self.columns.right())
    }

    /// The course of all lodged moves, only where it is another.
    fn lodged(&self) -> String {
        let depth = |position: usize| self.levels.depth(self.track.lodged[position]);
        let span = self.columns.span;
        let mut data = String::new();
        if self.track.differs(span.first - 1) {
            data += &format!("M{GUTTER} {}", depth(span.first - 1));
        }
        for position in span.positions() {
            let (middle, after) = (self.columns.middle(position), depth(position));
            match (
                self.track.differs(position - 1),
                self.track.differs(position),
            ) {
                (false, false) => {}
                (false, true) => data += &format!("M{middle} {}V{after}", depth(position - 1)),
                (true, _) => data += &format!("H{middle}V{after}"),
            }
        }
        if self.track.differs(span.last) {
            data += &format!("H{}", self.columns.right());
        }
        data
    }
}

/// A path of a class, if it has any lines.
pub fn path(class: &str, data: &str) -> String {
    if data.is_empty() {
        return String::new();
    }
    format!(r#"<path class="{class}" d="{data}"/>"#)
}

/// A text of a class. Its content is ready for the page.
fn text(class: &str, x: usize, y: usize, content: &str) -> String {
    format!(r#"<text class="{class}" x="{x}" y="{y}">{content}</text>"#)
}

#[cfg(test)]
mod tests {
    use super::super::sample::Sample;
    use super::super::track::Span;
    use super::*;

    /// The gate's strip over some moves.
    fn svg_of(sample: &Sample, first: usize, last: usize) -> String {
        let variable = &sample.task.variables[0];
        let track = Track::of(&sample.course, 0);
        let levels = Levels::of(track.values(Span::whole(sample.list.len())));
        let strip = Strip {
            name: &variable.name,
            track: &track,
            columns: Columns::of(Span { first, last }, sample.list.len()),
            levels: &levels,
            labels: &Labels::of(variable, &levels),
            moves: &sample.shortened.moves,
        };
        strip.svg()
    }

    #[test]
    fn the_kept_course_is_whole_and_the_lodged_one_shows_where_it_differs() {
        let svg = svg_of(&Sample::new(), 1, 4);
        assert!(svg.contains(&path(KEPT, "M80 30H140V10H176")), "{svg}");
        assert!(svg.contains(&path(LODGED, "M92 30V10H116V30")), "{svg}");
    }

    #[test]
    fn struck_moves_are_shaded_and_crossed() {
        let svg = svg_of(&Sample::new(), 1, 4);
        assert!(
            svg.contains(&path(SHADE, "M80 0h24v40h-24zM104 0h24v40h-24z")),
            "{svg}"
        );
        assert_eq!(svg.matches("m0-5").count(), 2);
    }

    #[test]
    fn a_span_without_struck_moves_has_one_course_and_no_shade() {
        let svg = svg_of(&Sample::new(), 3, 4);
        assert!(!svg.contains(SHADE));
        assert!(!svg.contains(LODGED));
        assert!(!svg.contains(CROSS));
    }

    #[test]
    fn a_course_that_differs_at_the_edge_of_a_span_goes_on() {
        let sample = Sample::new();
        assert!(svg_of(&sample, 1, 1).contains(&path(LODGED, "M92 30V10H104")));
        assert!(svg_of(&sample, 2, 2).contains(&path(LODGED, "M80 10H92V30")));
    }

    #[test]
    fn levels_and_positions_are_told() {
        let svg = svg_of(&Sample::new(), 1, 4);
        assert!(svg.contains(&text("value", 74, 34, "\u{2068}shut\u{2069}")));
        assert!(svg.contains(&text("position", 164, 58, "4")));
    }

    #[test]
    fn nasty_names_are_escaped_in_labels_and_title() {
        let mut sample = Sample::new();
        sample.rename_all("'</svg>\u{202E}\"");
        let svg = svg_of(&sample, 1, 4);
        let escaped = "&#39;&lt;/svg&gt;\u{FFFD}&quot;";
        assert_eq!(svg.matches("</svg>").count(), 1);
        assert!(svg.contains(&format!(
            "<title>\u{2068}{escaped}\u{2069}, moves 1 to 4</title>"
        )));
        assert!(svg.contains(&format!("{escaped}\u{2069}</text>")));
    }
}
