//! Every call of the library on Plan S, whose file is named as the argument.

use lavkkesto::{Answer, Checked, Ended, Looked, Rows, Views};
use lavkkesto::{CELLS, MACHINES, MOVE_CELLS, PLACES, RANK, ROW, STRETCH};

/// Room for the rows of a sheet.
struct Sheet {
    activities: [usize; PLACES],
    machines: [usize; PLACES],
    starts: [u64; PLACES],
    ends: [u64; PLACES],
    setups: [u64; PLACES],
}

impl Sheet {
    fn new() -> Sheet {
        let (numbers, times) = ([0; PLACES], [0; PLACES]);
        Sheet { activities: numbers, machines: numbers, starts: times, ends: times, setups: times }
    }

    fn lent(&mut self) -> Rows<'_> {
        let Sheet { activities, machines, starts, ends, setups } = self;
        Rows { activities, machines, starts, ends, setups }
    }

    fn show(&self, call: &str, answer: Answer) {
        match answer {
            Answer::Rows { count, fitness } => {
                println!("{call}: {count} rows, fitness {}", f64::from_bits(fitness));
                for k in 0..count {
                    let (activity, machine) = (self.activities[k], self.machines[k]);
                    println!("{activity} {machine} {} {} {}", self.starts[k], self.ends[k], self.setups[k]);
                }
            }
            Answer::Refused(refused) => println!("{call}: {refused}"),
            Answer::Unknown(numbers) => println!("{call}: {numbers:?}, from another archive"),
        }
    }
}

fn show_check(checked: Checked) {
    match checked {
        Checked::Accepted => println!("check: accepted"),
        Checked::Bad { rule, row } => println!("check: rule {rule}, row {row}"),
        Checked::Missing { activity } => println!("check: activity {activity} has no row"),
        Checked::Refused(refused) => println!("check: {refused}"),
        Checked::Unknown(numbers) => println!("check: {numbers:?}, from another archive"),
    }
}

/// Room for a step of the search.
struct Step {
    path: [usize; PLACES],
    moves: [usize; MOVE_CELLS],
    kept: [usize; PLACES],
    ranks: [u64; PLACES],
}

impl Step {
    fn lent(&mut self) -> Views<'_> {
        let Step { path, moves, kept, ranks } = self;
        Views { path, moves, kept, ranks }
    }

    fn show(&self, looked: Looked) {
        match looked {
            Looked::Seen { path, moves, blocks, others, fitness } => {
                println!("look: {path} on the path, {moves} block moves, fitness {}", f64::from_bits(fitness));
                println!("path{}", spaced(&self.path[..path]));
                for k in 0..blocks + others {
                    let (moved, rank) = (&self.kept[ROW * k..][..ROW], &self.ranks[RANK * k..][..RANK]);
                    println!("kept{} rank{}", spaced(moved), spaced(rank));
                }
            }
            Looked::Refused(refused) => println!("look: {refused}"),
            Looked::Unknown(numbers) => println!("look: {numbers:?}, from another archive"),
        }
    }
}

fn spaced<T: std::fmt::Display>(numbers: &[T]) -> String {
    numbers.iter().map(|number| format!(" {number}")).collect()
}

fn main() -> std::io::Result<()> {
    let plan = std::fs::read(std::env::args_os().nth(1).unwrap_or_default())?;
    let mut sheet = Sheet::new();

    // Lines of our own: activities 2 and 0 on machine 0, 3 and 1 on machine 1.
    let (mut cells, mut lens) = ([0; CELLS], [0; MACHINES]);
    for (machine, line) in [[2, 0], [3, 1]].iter().enumerate() {
        lens[machine] = line.len();
        cells[STRETCH * machine..][..line.len()].copy_from_slice(line);
    }
    let answer = lavkkesto::time(&plan, &cells, &lens, sheet.lent());
    sheet.show("time", answer);
    println!("time_again: {}", lavkkesto::time_again(&plan, &cells, &lens, 3));
    let mut step = Step { path: [0; PLACES], moves: [0; MOVE_CELLS], kept: [0; PLACES], ranks: [0; PLACES] };
    let looked = lavkkesto::look(&plan, &cells, &lens, step.lent());
    step.show(looked);

    let calls = [lavkkesto::time_order, lavkkesto::in_order, lavkkesto::active, lavkkesto::decode];
    for (name, call) in ["time_order", "in_order", "active", "decode"].into_iter().zip(calls) {
        let answer = call(&plan, sheet.lent());
        sheet.show(name, answer);
    }

    let mut rows = [0, 0, 0, 3, 1, 1, 3, 7, 2, 0, 3, 4, 3, 1, 7, 12];
    show_check(lavkkesto::check(&plan, &rows));
    rows[6] = 2;
    show_check(lavkkesto::check(&plan, &rows));
    show_check(lavkkesto::check(&plan, &rows[..4]));

    let (mut tasks, mut machines) = ([0; PLACES], [0; PLACES]);
    match lavkkesto::improve(&plan, &mut cells, &mut tasks, &mut machines) {
        Ended::Outcome { number, fitness: Some(bits) } => {
            println!("improve: outcome {number}, line fitness {}", f64::from_bits(bits));
            println!("tasks {:?}, machines {:?}", &tasks[..4], &machines[..4]);
        }
        Ended::Outcome { number, fitness: None } => println!("improve: outcome {number}"),
        Ended::Refused(refused) => println!("improve: {refused}"),
        Ended::Unknown(numbers) => println!("improve: {numbers:?}, from another archive"),
    }

    // A plan that ends too early, and a buffer that is too short.
    let answer = lavkkesto::decode(&plan[..plan.len() - 1], sheet.lent());
    sheet.show("decode", answer);
    let mut lent = sheet.lent();
    lent.setups = &mut [];
    let answer = lavkkesto::decode(&plan, lent);
    sheet.show("decode", answer);
    Ok(())
}
