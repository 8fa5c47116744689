//! Document 01's own plan and what it says about it, written down by hand.

use crate::plan::{Plan, Task, Times};

/// Plan S: tasks (a0 m0 3, a1 m1 4) and (a2 m0 1, a3 m1 5), the same times on the other machine, weight 0.5.
pub fn plan_s(steps: u32) -> Plan {
    let task = Task { category: 0, release: 0, deadline_flag: 0, deadline: 0, activities: 2 };
    let on_both = |process| [Times { setup: 0, process, teardown: 0 }; 2];
    Plan {
        tasks: vec![task.clone(), task],
        activities: vec![0; 4],
        transports: vec![vec![0; 2]; 2],
        times: [3, 4, 1, 5].into_iter().flat_map(on_both).collect(),
        candidates: vec![(0, 0), (1, 1), (2, 0), (3, 1)],
        setups: vec![],
        predecessors: vec![],
        weight: 0.5f64.to_bits(),
        steps,
        order: vec![0, 0, 1, 1],
        assignment: vec![0, 1, 0, 1],
    }
}

/// What the paper says of Plan S, by steps: outcome and, for 13 and 14, the best line fitness; for 14 the order.
pub const OUTCOMES_OF_S: [(u32, &str); 4] = [
    (0, "outcome 10\n"),
    (1, "outcome 13\nfitness 4018000000000000\n"),
    (2, "outcome 14\nfitness 4014000000000000\norder 1 1 0 0\nassignment 0 1 0 1\n"),
    (60, "outcome 14\nfitness 4014000000000000\norder 1 1 0 0\nassignment 0 1 0 1\n"),
];

/// The print of Plan S with 60 steps, as the paper shows it.
pub const PRINT_OF_S: &str = "\
outcome 14
fitness 4014000000000000
2 0 0 1 0
3 1 1 6 0
0 0 1 4 0
1 1 6 10 0
";
