//! The page to lodge: one file of HTML that needs no network, runs no script and prints on A4.
//!
//! It opens with what the receiving office asks first, and ends with what is needed to check it all
//! again.

mod columns;
mod escape;
mod facts;
mod figure;
mod job;
mod levels;
mod moves;
mod picture;
#[cfg(test)]
mod sample;
mod strip;
mod summary;
mod table;
mod track;

use crate::answer::{Course, Shortened};
use crate::task::Task;
use escape::{Lines, Name, Text};

const STYLE: &str = include_str!("style.css");

/// Forbids all that a page could fetch, run or send, should a name ever get past the escaping.
const POLICY: &str =
    "default-src 'none'; style-src 'unsafe-inline'; base-uri 'none'; form-action 'none'";

/// What the page is made of.
pub struct Contents<'a> {
    /// The job's title, or its file's name.
    pub title: &'a str,
    pub task: &'a Task,
    /// The lodged moves, by the numbers of their actions.
    pub list: &'a [u32],
    pub shortened: &'a Shortened,
    pub course: &'a Course,
    /// What was proved, in a sentence.
    pub claim: &'a str,
    /// The words of sheet and list, as a text with comments.
    pub words: &'a str,
    pub version: &'a str,
}

/// The whole page.
pub fn page(contents: &Contents) -> String {
    [
        head(contents),
        summary::section(contents),
        moves::left(contents),
        moves::lodged(contents),
        picture::section(contents),
        job::section(contents.task),
        foot(contents),
    ]
    .concat()
}

/// All above the summary. The policy stands before the style, since it governs what follows it.
fn head(contents: &Contents) -> String {
    format!(
        r#"<!DOCTYPE html>
<html lang="en">
<head>
<meta charset="utf-8">
<meta http-equiv="Content-Security-Policy" content="{POLICY}">
<meta name="viewport" content="width=device-width, initial-scale=1">
<title>{}</title>
<style>
{STYLE}</style>
</head>
<body>
<header>
<p>List of moves, shortened</p>
<h1>{}</h1>
</header>
<main>
"#,
        Text(contents.title),
        Name(contents.title)
    )
}

/// What was proved, by which version, and how anyone can run it again.
fn foot(contents: &Contents) -> String {
    format!(
        "</main>
<footer>
<h2>What was proved</h2>
<p>{}</p>
<p>Made by {}.</p>
<h2>To run it again</h2>
<p>Save the words below as a text, say <code>list.txt</code>, and run
<code>./hollchiku shorten list.txt</code>. What stands behind a <code>#</code> is a comment.</p>
<h3>The words of sheet and list</h3>
<pre>
{}</pre>
</footer>
</body>
</html>
",
        Text(contents.claim),
        Text(contents.version),
        Lines(contents.words)
    )
}

#[cfg(test)]
mod tests {
    use super::sample::Sample;
    use super::*;

    /// A name with all that could break out of where it stands.
    const NASTY: &str = "</title></style><script>alert(\"1\")</script> & 'q' \u{202E}\0";

    #[test]
    fn the_title_heads_the_page() {
        let page = page(&Sample::new().contents());
        assert!(page.contains("<title>Lock 7</title>"));
        assert!(page.contains("<h1><bdi>Lock 7</bdi></h1>"));
    }

    #[test]
    fn no_name_breaks_out() {
        let mut sample = Sample::new();
        sample.rename_all(NASTY);
        let contents = Contents {
            title: NASTY,
            claim: NASTY,
            words: NASTY,
            version: NASTY,
            ..sample.contents()
        };
        let page = page(&contents);
        assert!(!page.contains("<script"));
        assert_eq!(page.matches("</style>").count(), 1);
        assert!(!page.contains(['\u{202E}', '\0']));
        assert!(page.contains("&#39;q&#39;"));
    }

    #[test]
    fn the_parts_stand_in_their_order() {
        let page = page(&Sample::new().contents());
        let parts = page.split("<h2>").skip(1);
        let headings: Vec<&str> = parts
            .filter_map(|part| part.split("</h2>").next())
            .collect();
        let wanted = [
            "Summary",
            "The shortened list",
            "Every lodged move",
            "The variables, move by move",
            "The job",
            "What was proved",
            "To run it again",
        ];
        assert_eq!(headings, wanted);
    }

    #[test]
    fn an_empty_list_has_a_page() {
        let page = page(&Sample::empty().contents());
        assert!(page.contains("data-moves=\"0\""));
        assert!(!page.contains("<figure"));
    }

    #[test]
    fn the_words_can_be_copied() {
        let page = page(&Contents {
            words: "1 2 # a<b\n3\n",
            ..Sample::new().contents()
        });
        assert!(page.contains("<pre>\n1 2 # a&lt;b\n3\n</pre>"));
    }
}
