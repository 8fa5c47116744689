//! Document 01's Plan S, its printed example and small plans of its table, out of the published Rust.

use compare::lines;
use compare::modes::{answer, run, run_on_lines, Mode};
use compare::paper::plan_s;
use compare::plan::{Plan, Task, Times};
use compare::published::{beyond_the_rust, Published};

fn lists(lines: &[&[u32]]) -> Vec<Vec<u32>> {
    lines.iter().map(|line| line.to_vec()).collect()
}

fn words(lines: &[&[u32]]) -> Vec<u8> {
    lines::to_bytes(&lists(lines))
}

#[test]
fn the_printed_example() {
    let print = "outcome 14\nfitness 4014000000000000\n2 0 0 1 0\n3 1 1 6 0\n0 0 1 4 0\n1 1 6 10 0\n";
    assert_eq!(answer(&plan_s(60).to_bytes(), Mode::Program, None).as_deref(), Ok(print));
}

#[test]
fn outcomes_by_steps() {
    let improved = "outcome 14\nfitness 4014000000000000\norder 1 1 0 0\nassignment 0 1 0 1\n";
    assert_eq!(run(&plan_s(0), Mode::Improve), "outcome 10\n");
    assert_eq!(run(&plan_s(1), Mode::Improve), "outcome 13\nfitness 4018000000000000\n");
    assert_eq!(run(&plan_s(2), Mode::Improve), improved);
    assert_eq!(run(&plan_s(60), Mode::Improve), improved);
    // 6.5 after one step, 5.0 after two
    let made = "made swap 1 0 fitness 401a000000000000\nmade swap 0 0 fitness 4014000000000000\n";
    assert_eq!(run(&plan_s(2), Mode::Trace), format!("{made}{improved}"));
}

#[test]
fn outcomes_11_and_12() {
    let short_order = Plan { order: vec![0, 0, 1, 7, u32::MAX], ..plan_s(60) };
    let short_assignment = Plan { assignment: vec![0, 1, 0], ..plan_s(60) };
    let unassigned = Plan { assignment: vec![0, -1, 0, 1], ..plan_s(60) };
    for plan in [short_order, short_assignment, unassigned] {
        assert_eq!(run(&plan, Mode::Improve), "outcome 11\n");
        assert_eq!(run(&plan, Mode::Time), "refused 7 0\n");
        assert_eq!(run(&plan, Mode::Step), "refused 7 0\n");
        assert_eq!(Published::differences(&plan), [""; 0]);
    }
    // a0 waits for a2, which stands after it on their line
    let contradicts = Plan { predecessors: vec![(0, 2)], ..plan_s(60) };
    assert_eq!(run(&contradicts, Mode::Improve), "outcome 12\n");
    assert_eq!(run(&contradicts, Mode::Time), "refused 8 0\n");
    assert_eq!(run(&contradicts, Mode::Program).lines().next(), Some("outcome 12"));
    assert_eq!(Published::differences(&contradicts), [""; 0]);
}

#[test]
fn a_refusal_in_every_mode() {
    let mut bytes = plan_s(60).to_bytes();
    let end = bytes.len();
    bytes.push(1);
    for (name, mode) in Mode::ALL {
        assert_eq!(Mode::named(name), Some(mode));
        assert_eq!(answer(&bytes, mode, None), Ok(format!("refused 5 {end}\n")));
        assert_eq!(answer(&[], mode, None).as_deref(), Ok("refused 1 0\n"));
    }
}

#[test]
fn timing_of_the_order_and_of_given_lines() {
    let plan = plan_s(60);
    let of_order = "fitness 4018000000000000\n0 0 0 3 0\n2 0 3 4 0\n1 1 3 7 0\n3 1 7 12 0\n";
    let sorted = |text: &str| {
        let mut lines: Vec<String> = text.lines().map(str::to_string).collect();
        lines.sort();
        lines
    };
    assert_eq!(sorted(&run(&plan, Mode::Time)), sorted(of_order));
    let timed = |lines: &[&[u32]]| answer(&plan.to_bytes(), Mode::Time, Some(&words(lines)));
    assert_eq!(timed(&[&[0, 2], &[1, 3]]), Ok(run(&plan, Mode::Time)));
    // P7's lines; and an activity on a machine that it is not assigned to
    assert_eq!(timed(&[&[3, 0], &[1, 2]]).as_deref(), Ok("refused 8 0\n"));
    let all_on_one = "fitness 401a000000000000\n0 1 0 3 0\n1 1 3 7 0\n2 1 7 8 0\n3 1 8 13 0\n";
    assert_eq!(timed(&[&[], &[0, 1, 2, 3]]).as_deref(), Ok(all_on_one));
    let long: Vec<u32> = vec![0; 129];
    let bad: [&[&[u32]]; 7] = [
        &[&[0, 2], &[1]],
        &[&[0, 2], &[1, 3, 0]],
        &[&[0, 2], &[1, 3, 4]],
        &[&[0, 2], &[1, u32::MAX]],
        &[&long],
        &[],
        &[&[0, 2], &[1], &[3]],
    ];
    for lines in bad {
        assert_eq!(timed(lines).as_deref(), Ok("refused 7 0\n"), "{lines:?}");
    }
    // An empty line of a machine that is not there is no use of it.
    assert_eq!(timed(&[&[0, 2], &[1, 3], &[]]), Ok(run(&plan, Mode::Time)));
    let cut = answer(&plan.to_bytes(), Mode::Time, Some(&words(&[&[0, 2], &[1, 3]])[..20]));
    assert!(cut.is_err_and(|message| !message.contains('\n')));
    let ragged = answer(&plan.to_bytes(), Mode::Step, Some(&[1, 2, 3]));
    assert!(ragged.is_err_and(|message| !message.contains('\n')));
}

#[test]
fn the_first_step_of_plan_s() {
    let step = "fitness 4018000000000000\npath 0 1 3\nblock swap 1 0\nkept swap 1 0 rank 13 fitness 401a000000000000\n";
    assert_eq!(run(&plan_s(60), Mode::Step), step);
    assert_eq!(run_on_lines(&plan_s(60), Mode::Step, &lists(&[&[0, 2], &[1, 3]])), step);
    assert_eq!(run_on_lines(&plan_s(60), Mode::Step, &lists(&[&[3, 0], &[1, 2]])), "refused 8 0\n");
}

#[test]
fn what_no_rust_problem_holds() {
    assert_eq!(beyond_the_rust(&plan_s(60)), [""; 0]);
    assert_eq!(run(&plan_s(60), Mode::Held), "held\n");
    let itself = Plan { transports: vec![vec![1, 0], vec![0, 0]], ..plan_s(60) };
    assert_eq!(beyond_the_rust(&itself).len(), 1);
    let mixed = Plan { candidates: vec![(0, 0), (0, 1), (1, 1), (1, 0)], ..plan_s(60) };
    assert_eq!(beyond_the_rust(&mixed).len(), 1);
    let turned = Plan { candidates: vec![(0, 1), (0, 0), (1, 1), (1, 0)], ..plan_s(60) };
    assert_eq!(beyond_the_rust(&turned), [""; 0]);
}

/// Tasks of one activity each, on machine 0 of two, with these process times.
fn single_steps(process: &[u32]) -> Plan {
    let n = process.len();
    let on_both = |&process: &u32| [Times { setup: 0, process, teardown: 0 }; 2];
    Plan {
        tasks: vec![Task { category: 0, release: 0, deadline_flag: 0, deadline: 0, activities: 1 }; n],
        activities: vec![0; n],
        times: process.iter().flat_map(on_both).collect(),
        candidates: (0..n as u32).map(|activity| (activity, 0)).collect(),
        order: (0..n as u32).collect(),
        assignment: vec![0; n],
        ..plan_s(60)
    }
}

#[test]
fn p4_no_position_between_equal_moments() {
    let plan = Plan {
        activities: vec![5, 5],
        candidates: vec![(0, 0), (0, 1), (1, 1)],
        assignment: vec![0, 1],
        ..single_steps(&[0, 0])
    };
    assert_eq!(run(&plan, Mode::Step), "fitness 4004000000000000\npath 0\n");
}

#[test]
fn p5_moves_of_a_block_of_three() {
    let step = run(&single_steps(&[1, 1, 1]), Mode::Step);
    let blocks: Vec<&str> = step.lines().filter(|line| line.starts_with("block")).collect();
    assert_eq!(blocks, ["block swap 0 0", "block swap 0 1", "block shift 0 2 0", "block shift 0 0 2"]);
    assert_eq!(step.lines().filter(|line| line.starts_with("kept")).count(), 3);
}

#[test]
fn p7_lines_contradict_at_any_times() {
    let plan = Plan { times: vec![Times { setup: 0, process: 0, teardown: 0 }; 8], ..plan_s(60) };
    assert_eq!(run_on_lines(&plan, Mode::Time, &lists(&[&[3, 0], &[1, 2]])), "refused 8 0\n");
}

#[test]
fn p8_tardiness() {
    for (deadline_flag, deadline, tardiness) in [(1, 12, 0.0), (1, 10, 0.0), (1, -5, 15.0), (0, 0, 0.0)] {
        let mut plan = Plan { weight: 1f64.to_bits(), ..single_steps(&[10]) };
        (plan.tasks[0].deadline_flag, plan.tasks[0].deadline) = (deadline_flag, deadline);
        let sheet = format!("fitness {:016x}\n0 0 0 10 0\n", f64::to_bits(tardiness));
        assert_eq!(run(&plan, Mode::Decode), sheet);
    }
}

#[test]
fn two_ways_to_one_answer_agree() {
    let orders = [[0, 0, 1, 1], [0, 1, 0, 1], [0, 1, 1, 0], [1, 0, 0, 1], [1, 0, 1, 0], [1, 1, 0, 0]];
    let waits = [vec![], vec![(1, 2)], vec![(0, 2), (3, 1)], vec![(1, 0), (1, 2), (1, 2)]];
    let mut outcomes = [0; 15];
    for (order, predecessors, assigned) in
        orders.iter().flat_map(|order| waits.iter().flat_map(move |wait| (0..16).map(move |bits| (order, wait, bits))))
    {
        for steps in [1, 7, 60] {
            let plan = Plan {
                transports: vec![vec![0, 2], vec![1, 0]],
                candidates: (0..8).map(|k| (k / 2, k % 2)).collect(),
                predecessors: predecessors.clone(),
                order: order.to_vec(),
                assignment: (0..4).map(|activity| assigned >> activity & 1).collect(),
                ..plan_s(steps)
            };
            assert_eq!(Published::differences(&plan), [""; 0], "{plan:?}");
            outcomes[Published::new(&plan).improve().outcome as usize] += 1;
        }
    }
    assert!(outcomes[12] > 0 && outcomes[13] > 0 && outcomes[14] > 0, "{outcomes:?}");
}
