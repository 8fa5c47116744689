//! Number 4 of the reader beside the text's own search for circles, on every predecessor list of up to three entries
//! over two tasks of two activities.

use compare::plan::{Plan, Task, Times};
use compare::published::beyond_the_rust;
use compare::read::{read, Refused};

fn plan(predecessors: Vec<(u32, u32)>) -> Plan {
    let task = Task { category: 0, release: 0, deadline_flag: 0, deadline: 0, activities: 2 };
    Plan {
        tasks: vec![task.clone(), task],
        activities: vec![0; 4],
        transports: vec![vec![0]],
        times: vec![Times { setup: 0, process: 1, teardown: 0 }; 4],
        candidates: vec![],
        setups: vec![],
        predecessors,
        weight: 0,
        steps: 0,
        order: vec![],
        assignment: vec![],
    }
}

#[test]
fn number_4_is_given_exactly_where_the_text_finds_a_circle() {
    let pairs: Vec<(u32, u32)> = (0..16).map(|k| (k / 4, k % 4)).collect();
    let mut lists = vec![vec![]];
    let mut longer = lists.clone();
    for _ in 0..3 {
        longer = longer.iter().flat_map(|list: &Vec<_>| pairs.iter().map(|&p| [&list[..], &[p]].concat())).collect();
        longer.retain(|list| list.is_sorted_by_key(|pair| pair.0));
        lists.extend(longer.clone());
    }
    let (mut circles, all) = (0, lists.len());
    for list in lists {
        let plan = plan(list);
        let answer = read(&plan.to_bytes());
        let circle = beyond_the_rust(&plan).iter().any(|reason| reason.contains("Circular"));
        match answer {
            Err(refused) => {
                assert_eq!(refused, Refused { number: 4, place: 0 });
                circles += 1;
            }
            Ok(ref accepted) => assert_eq!(accepted, &plan),
        }
        assert_eq!(circle, answer.is_err(), "{:?}", plan.predecessors);
    }
    assert!(0 < circles && circles < all, "{circles} of {all}");
}
