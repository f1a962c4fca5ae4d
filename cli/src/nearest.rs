//! The name that a mistyped one was meant to be.

/// The nearest of these names, if one is near enough to be meant. Of equally near ones the first.
pub fn nearest<'a>(name: &str, names: impl Iterator<Item = &'a str>) -> Option<&'a str> {
    let typed = folded(name);
    let most = (typed.len() / 3).max(1);
    let distances = names.map(|it| (distance(&typed, &folded(it)), it));
    let near = distances.filter(|(distance, _)| *distance <= most);
    near.min_by_key(|(distance, _)| *distance).map(|(_, it)| it)
}

/// What to say behind a name that is unknown: the nearest one, or nothing.
pub fn hint<'a>(name: &str, names: impl Iterator<Item = &'a str>) -> String {
    nearest(name, names).map_or_else(String::new, |it| format!("; did you mean {it:?}?"))
}

/// Letters alone count, and neither case nor how words are joined.
fn folded(name: &str) -> Vec<char> {
    let joined = name.chars().map(|c| if "-_".contains(c) { ' ' } else { c });
    joined.flat_map(char::to_lowercase).collect()
}

/// How many letters must be put in, left out, exchanged for another or swapped with the next one.
fn distance(a: &[char], b: &[char]) -> usize {
    let mut before: Vec<usize> = Vec::new();
    let mut row: Vec<usize> = (0..=b.len()).collect();
    for i in 1..=a.len() {
        let mut next = vec![i];
        for j in 1..=b.len() {
            let exchanged = row[j - 1] + usize::from(a[i - 1] != b[j - 1]);
            let mut least = exchanged.min(row[j] + 1).min(next[j - 1] + 1);
            let is_swap = i > 1 && j > 1 && a[i - 1] == b[j - 2] && a[i - 2] == b[j - 1];
            if is_swap {
                least = least.min(before[j - 2] + 1);
            }
            next.push(least);
        }
        before = std::mem::replace(&mut row, next);
    }
    row[b.len()]
}

#[cfg(test)]
mod tests {
    use super::*;

    fn of(name: &str) -> Option<&'static str> {
        nearest(name, ["gate A", "gate B", "pond", "basin"].into_iter())
    }

    #[test]
    fn one_letter_off() {
        assert_eq!(of("pod"), Some("pond"));
        assert_eq!(of("pnod"), Some("pond"));
        assert_eq!(of("bassin"), Some("basin"));
        assert_eq!(of("gate-b"), Some("gate B"));
    }

    #[test]
    fn nothing_near() {
        assert_eq!(of("turbine"), None);
        assert_eq!(of(""), None);
    }

    #[test]
    fn the_first_of_equally_near_ones() {
        assert_eq!(of("gate C"), Some("gate A"));
    }
}
