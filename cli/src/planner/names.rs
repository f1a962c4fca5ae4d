//! The names in a translator's text. A sheet has none, so they are read beside the library, which passes them over.

/// The names in a text that the library has accepted, so that its form is known to be right.
#[derive(Clone, Debug, PartialEq)]
pub struct Names {
    pub variables: Vec<String>,
    /// Those of each variable's values.
    pub values: Vec<Vec<String>>,
    pub actions: Vec<String>,
    /// Whether each action costs 1, whatever its cost line says.
    pub unit_cost: bool,
}

/// Reads the names by the text's counts: a name may read like a keyword. Bytes that are no UTF-8 become U+FFFD.
pub fn names(text: &[u8]) -> Names {
    // Version, metric, variables, mutex groups, state, goal, operators: docs/SCOPE.md has their lines.
    let mut lines = Lines(text);
    lines.framed(Lines::number);
    let unit_cost = lines.framed(Lines::number) == UNIT_METRIC;
    let (variables, values): (Vec<_>, Vec<_>) = lines.counted(Lines::variable).into_iter().unzip();
    lines.counted(|lines| lines.framed(Lines::pass_counted));
    lines.framed(|lines| lines.pass(variables.len()));
    lines.framed(Lines::pass_counted);
    let actions = lines.counted(Lines::action);
    Names {
        variables,
        values,
        actions,
        unit_cost,
    }
}

/// The metric of a text whose costs don't count.
const UNIT_METRIC: usize = 0;

/// Why nothing can be missing.
const ACCEPTED: &str = "the library has accepted the text";

/// The lines that are still to be read.
struct Lines<'a>(&'a [u8]);

impl<'a> Lines<'a> {
    fn line(&mut self) -> &'a [u8] {
        let end = self.0.iter().position(|it| *it == b'\n').expect(ACCEPTED);
        let (line, rest) = self.0.split_at(end);
        self.0 = &rest[1..];
        line
    }

    fn name(&mut self) -> String {
        String::from_utf8_lossy(self.line()).into_owned()
    }

    fn number(&mut self) -> usize {
        self.name().parse().expect(ACCEPTED)
    }

    fn pass(&mut self, lines: usize) {
        for _ in 0..lines {
            self.line();
        }
    }

    /// Passes over how many lines there are, and over these.
    fn pass_counted(&mut self) {
        let lines = self.number();
        self.pass(lines);
    }

    /// Reads how many there are, and each of them.
    fn counted<T>(&mut self, read: impl Fn(&mut Self) -> T) -> Vec<T> {
        let count = self.number();
        (0..count).map(|_| read(self)).collect()
    }

    /// Reads what stands between two lines with keywords.
    fn framed<T>(&mut self, read: impl Fn(&mut Self) -> T) -> T {
        self.line();
        let it = read(self);
        self.line();
        it
    }

    /// The name of a variable, and those of its values. The axiom layer stands between them.
    fn variable(&mut self) -> (String, Vec<String>) {
        self.framed(|lines| {
            let name = lines.name();
            lines.line();
            (name, lines.counted(Lines::name))
        })
    }

    /// The name of an action. Its conditions, its effects and its cost follow.
    fn action(&mut self) -> String {
        self.framed(|lines| {
            let name = lines.name();
            lines.pass_counted();
            lines.pass_counted();
            lines.line();
            name
        })
    }
}

#[cfg(test)]
mod tests {
    use super::*;

    #[test]
    fn of_the_lock() {
        let names = names(include_bytes!("../../../examples/lock.sas"));
        assert_eq!(names.variables, ["var0", "var1", "var2", "var3", "var4"]);
        assert_eq!(names.values[3], ["Atom level(low)", "Atom level(high)"]);
        assert_eq!(names.actions.len(), 10);
        assert_eq!(names.actions[0], "open-gate lower-gate low");
        assert_eq!(names.actions[9], "douse lamp");
        assert!(!names.unit_cost);
    }

    /// The names are empty, no UTF-8, or what would be taken for another line by a reader that looks for keywords.
    const AWKWARD: &[u8] = b"begin_version\n3\nend_version\nbegin_metric\n0\nend_metric\n\
        2\nbegin_variable\nend_variable\n-1\n2\n\n1\nend_variable\n\
        begin_variable\nb\xfft\n-1\n1\nbegin_state\nend_variable\n\
        1\nbegin_mutex_group\n2\n0 0\n1 0\nend_mutex_group\n\
        begin_state\n0\n0\nend_state\nbegin_goal\n1\n0 1\nend_goal\n\
        2\nbegin_operator\nend_operator\n1\n1 0\n1\n0 0 0 1\n7\nend_operator\n\
        begin_operator\n0\n0\n0\n7\nend_operator\n0\n";

    #[test]
    fn by_the_counts_alone() {
        let names = names(AWKWARD);
        assert_eq!(names.variables, ["end_variable", "b\u{fffd}t"]);
        assert_eq!(names.values, [vec!["", "1"], vec!["begin_state"]]);
        assert_eq!(names.actions, ["end_operator", "0"]);
        assert!(names.unit_cost);
    }
}
