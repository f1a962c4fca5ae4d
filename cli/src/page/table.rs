//! The parts of tables: every table has heads for its columns and for its rows.

use std::fmt::Display;

/// What stands over the positions of moves.
pub const POSITION: &str = r#"<abbr title="Position">No.</abbr>"#;

/// A table with the class or other attributes of its own.
pub struct Table<'a> {
    pub attributes: &'a str,
    pub columns: &'a [&'a str],
    pub rows: String,
    /// The row of sums, or nothing.
    pub sums: String,
}

impl Table<'_> {
    /// The table as an element. A browser that prints repeats the head on each contents.
    pub fn html(&self) -> String {
        let heads: String = self
            .columns
            .iter()
            .map(|column| format!(r#"<th scope="col">{column}</th>"#))
            .collect();
        format!(
            "<table {}>\n<thead>\n{}</thead>\n<tbody>\n{}</tbody>\n<tfoot>\n{}</tfoot>\n</table>\n",
            self.attributes,
            row(&[heads]),
            self.rows,
            self.sums
        )
    }
}

/// A row of cells.
pub fn row(cells: &[String]) -> String {
    format!("<tr>{}</tr>\n", cells.concat())
}

/// A row of a class.
pub fn row_of(class: impl Display, cells: &[String]) -> String {
    format!("<tr class=\"{class}\">{}</tr>\n", cells.concat())
}

/// The cell that says what its row is about.
pub fn head(content: impl Display) -> String {
    format!(r#"<th scope="row">{content}</th>"#)
}

pub fn cell(content: impl Display) -> String {
    format!("<td>{content}</td>")
}

#[cfg(test)]
mod tests {
    use super::*;

    #[test]
    fn columns_and_rows_have_heads() {
        let rows = row(&[head("gate"), cell(1)]) + &row_of("struck", &[head("lamp"), cell(2)]);
        let table = Table {
            attributes: r#"class="x""#,
            columns: &["Name", "Price"],
            rows,
            sums: String::new(),
        };
        assert_eq!(
            table.html().replace('\n', ""),
            concat!(
                r#"<table class="x"><thead><tr>"#,
                r#"<th scope="col">Name</th><th scope="col">Price</th></tr></thead>"#,
                r#"<tbody><tr><th scope="row">gate</th><td>1</td></tr>"#,
                r#"<tr class="struck"><th scope="row">lamp</th><td>2</td></tr></tbody>"#,
                r#"<tfoot></tfoot></table>"#,
            )
        );
    }
}
