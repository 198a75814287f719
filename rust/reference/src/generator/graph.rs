//! Sound task graphs: every task but the last has one or two successors, all
//! above it; every task but task 0 has one or two predecessors.

use super::random::Random;

/// The successors of each task, first field first.
pub type Graph = Vec<Vec<u16>>;

/// At most this many tasks.
pub const MOST_TASKS: usize = 1024;

/// The shapes of graphs.
#[derive(Clone, Copy, Debug, PartialEq, Eq)]
pub enum Shape {
    Chain,
    Comb,
    ForkJoin,
    /// Layers of about `width` tasks.
    Layered {
        width: usize,
    },
    /// No order in which loose ends are taken up.
    Tangled {
        width: usize,
    },
}

/// A graph of a shape with `count` tasks (a comb may have one or two fewer).
pub fn graph(random: &mut Random, shape: Shape, count: usize) -> Graph {
    let count = count.clamp(1, MOST_TASKS);
    let drawn = match shape {
        Shape::Chain => weave(random, count, 1, false),
        Shape::Comb => comb(count),
        Shape::ForkJoin => fork_join(random, count),
        Shape::Layered { width } => weave(random, count, width, true),
        Shape::Tangled { width } => weave(random, count, width, false),
    };
    let renumbered = if random.chance(64) {
        renumber(random, &drawn)
    } else {
        drawn
    };
    turn_fields(random, renumbered)
}

/// A comb: a spine, a tooth at every task of it, and a row that collects the
/// teeth and then the spine's end. With k tasks of spine: 3k - 1 tasks.
fn comb(count: usize) -> Graph {
    if count < 2 {
        return vec![Vec::new()];
    }
    let spine = (count + 1) / 3;
    let teeth = spine - 1;
    let last = spine + 2 * teeth;
    let mut graph = Graph::new();
    for i in 0..teeth {
        graph.push(vec![(i + 1) as u16, (spine + i) as u16]);
    }
    graph.push(vec![last as u16]);
    for i in 0..teeth {
        graph.push(vec![(spine + teeth + i) as u16]);
    }
    for i in 0..teeth {
        graph.push(vec![(spine + teeth + i + 1) as u16]);
    }
    graph.push(Vec::new());
    graph
}

/// Nested forks and joins. A block is one task, or a task and a block after
/// it, or a fork, two blocks and their join.
fn fork_join(random: &mut Random, count: usize) -> Graph {
    let mut graph = vec![Vec::new(); count];
    let balanced = random.chance(128);
    fill_fork_join(random, &mut graph, 0, count, balanced);
    graph
}

/// Fills tasks `start` to `start + count - 1`, entered at the first of them
/// and left at the last.
fn fill_fork_join(
    random: &mut Random,
    graph: &mut Graph,
    start: usize,
    count: usize,
    balanced: bool,
) {
    if count < 2 {
        return;
    }
    if count < 4 || random.chance(16) {
        graph[start].push((start + 1) as u16);
        return fill_fork_join(random, graph, start + 1, count - 1, balanced);
    }
    let inner = count - 2;
    let left = if balanced {
        inner / 2
    } else {
        random.between(1, inner - 1)
    };
    let (first, second, join) = (start + 1, start + 1 + left, start + count - 1);
    graph[start].extend([first as u16, second as u16]);
    graph[second - 1].push(join as u16);
    graph[join - 1].push(join as u16);
    fill_fork_join(random, graph, first, left, balanced);
    fill_fork_join(random, graph, second, inner - left, balanced);
}

/// Loose ends: a task that still needs a successor stands here once for each.
struct Ends {
    sources: Vec<usize>,
    oldest_first: bool,
}

impl Ends {
    /// Takes one loose end whose source is not `other`.
    fn take(&mut self, random: &mut Random, other: Option<usize>) -> Option<usize> {
        let fits = |&i: &usize| Some(self.sources[i]) != other;
        let places: Vec<usize> = (0..self.sources.len()).filter(fits).collect();
        let place = if self.oldest_first {
            places.first()
        } else {
            random.pick(&places)
        };
        place.map(|&place| self.sources.remove(place))
    }

    /// Drops one of the last two loose ends if both have the same source, as
    /// a task can't be a successor twice.
    fn drop_twin(&mut self) {
        if let [a, b] = self.sources[..] {
            if a == b {
                self.sources.pop();
            }
        }
    }
}

/// Gives the tasks in number order one or two of the loose ends and lets each
/// leave one or two, with about `width` loose ends at a time. The ends always
/// suffice to be joined in the last task.
fn weave(random: &mut Random, count: usize, width: usize, oldest_first: bool) -> Graph {
    let mut graph = vec![Vec::new(); count];
    let mut ends = Ends {
        sources: Vec::new(),
        oldest_first,
    };
    for task in 0..count {
        let left = count - task;
        if left == 1 {
            ends.drop_twin();
        }
        if task > 0 {
            take_up(random, &mut graph, &mut ends, task, width, left);
        }
        let fork = ends.sources.len() + 1 < width.min(left);
        let leave = if left == 1 {
            0
        } else if fork && random.chance(160) {
            2
        } else {
            1
        };
        ends.sources.extend(std::iter::repeat(task).take(leave));
    }
    graph
}

/// Makes `task` the successor of one or two loose ends.
fn take_up(
    random: &mut Random,
    graph: &mut Graph,
    ends: &mut Ends,
    task: usize,
    width: usize,
    left: usize,
) {
    let must = ends.sources.len() >= left;
    let join = must || ends.sources.len() > width || random.chance(48);
    let first = ends.take(random, None);
    let second = if join { ends.take(random, first) } else { None };
    for source in first.into_iter().chain(second) {
        graph[source].push(task as u16);
    }
}

/// The same graph with its tasks numbered in another order in which all
/// successors are above their task.
fn renumber(random: &mut Random, graph: &Graph) -> Graph {
    let mut waiting = vec![0; graph.len()];
    for &successor in graph.iter().flatten() {
        waiting[usize::from(successor)] += 1;
    }
    let (mut ready, mut order) = (vec![0], Vec::new());
    let mut number = vec![0; graph.len()];
    while !ready.is_empty() {
        let task: usize = ready.swap_remove(random.below(ready.len()));
        number[task] = order.len() as u16;
        order.push(task);
        for &successor in &graph[task] {
            waiting[usize::from(successor)] -= 1;
            if waiting[usize::from(successor)] == 0 {
                ready.push(usize::from(successor));
            }
        }
    }
    let renamed = |&task: &usize| {
        graph[task]
            .iter()
            .map(|&s| number[usize::from(s)])
            .collect()
    };
    order.iter().map(renamed).collect()
}

/// Turns the two fields of none, some or all tasks around: the first field
/// need not be the smaller number.
fn turn_fields(random: &mut Random, mut graph: Graph) -> Graph {
    let parts = random.pick(&[0, 128, 256]).copied().unwrap_or(0);
    for successors in &mut graph {
        if random.chance(parts) {
            successors.reverse();
        }
    }
    graph
}
