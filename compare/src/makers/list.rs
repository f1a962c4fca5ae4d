//! A task with a plan of it and what is known of the plan, and plans that are joined into one: each
//! has variables and actions of its own, so that none changes what another does.

use super::answered::with_lamps;
use super::parts::laid_into_each_other;
use super::{Random, Task, Walk};

#[derive(Clone)]
pub struct List {
    pub task: Task,
    pub plan: Vec<u32>,
    pub known: Known,
}

/// What the way that a valid plan was made tells of it. Steps are told by their indices.
#[derive(Clone, Default)]
pub struct Known {
    /// How many steps are unmarked, and which ones are marked.
    pub unmarked: Option<usize>,
    pub marked: Option<Vec<usize>>,
    /// The steps that each elimination keeps, and the exact reduction.
    pub eliminated: Option<Vec<usize>>,
    pub greedy: Option<Vec<usize>>,
    pub exact: Option<Vec<usize>>,
    /// The steps that both eliminations keep and that can still be struck, all of them together.
    pub idle: Vec<usize>,
    /// How many steps are unmarked in what either elimination leaves.
    pub unmarked_left: usize,
}

impl Known {
    /// The same steps are kept in all ways, and these are all marked in what is left.
    pub fn alike(plan: &[u32], marked: Vec<usize>, kept: Vec<usize>) -> Self {
        Known {
            unmarked: Some(plan.len() - marked.len()),
            marked: Some(marked),
            eliminated: Some(kept.clone()),
            greedy: Some(kept.clone()),
            exact: Some(kept),
            ..Known::default()
        }
    }
}

impl From<Walk> for List {
    fn from(Walk { task, plan, .. }: Walk) -> Self {
        List::of(task, plan)
    }
}

impl List {
    /// Of which nothing is known.
    pub fn of(task: Task, plan: Vec<u32>) -> Self {
        let known = Known::default();
        List { task, plan, known }
    }

    /// Of which the same steps are kept in all ways, and these are all marked in what is left.
    pub fn alike(task: Task, plan: Vec<u32>, marked: Vec<usize>, kept: Vec<usize>) -> Self {
        let known = Known::alike(&plan, marked, kept);
        List { task, plan, known }
    }

    /// A list of all. So many at a time are laid into each other; they stand behind those before
    /// them. What is marked and kept of each stays so: the steps of the others change nothing for
    /// it.
    pub fn joined(random: &mut Random, lists: &[List], at_a_time: usize) -> Self {
        let mut task = Task::from_zero(Vec::new(), Vec::new(), Vec::new());
        let (mut plan, mut places) = (Vec::new(), Vec::new());
        for lists in lists.chunks(at_a_time) {
            let mut lanes = Vec::new();
            for list in lists {
                let first = task.take_in(&list.task);
                lanes.push(list.plan.iter().map(|action| first + action).collect());
            }
            let before = plan.len();
            let (steps, of_lanes) = laid_into_each_other(random, &lanes);
            plan.extend(steps);
            let behind = |lane: Vec<usize>| lane.iter().map(|place| before + place).collect();
            places.extend(of_lanes.into_iter().map(behind));
        }
        let known = known_of_all(lists, &places);
        List { task, plan, known }
    }

    /// The lists with as many lamps as make up the length, all laid into each other.
    pub fn among_lamps(random: &mut Random, mut lists: Vec<List>, length: usize) -> Self {
        let steps: usize = lists.iter().map(|list| list.plan.len()).sum();
        lists.push(with_lamps(random, 0, length - steps));
        List::joined(random, &lists, lists.len())
    }
}

/// What is known of each list, whose steps have these indices in the list of all.
fn known_of_all(lists: &[List], places: &[Vec<usize>]) -> Known {
    let of_all = |steps: fn(&Known) -> Option<&Vec<usize>>| -> Option<Vec<usize>> {
        let mut all = Vec::new();
        for (list, places) in lists.iter().zip(places) {
            all.extend(steps(&list.known)?.iter().map(|&step| places[step]));
        }
        all.sort();
        Some(all)
    };
    Known {
        unmarked: lists.iter().map(|list| list.known.unmarked).sum(),
        marked: of_all(|known| known.marked.as_ref()),
        eliminated: of_all(|known| known.eliminated.as_ref()),
        greedy: of_all(|known| known.greedy.as_ref()),
        exact: of_all(|known| known.exact.as_ref()),
        idle: of_all(|known| Some(&known.idle)).unwrap_or_default(),
        unmarked_left: lists.iter().map(|list| list.known.unmarked_left).sum(),
    }
}
