//! The worked plans of document 01, and some more, for two people who follow them with cards on a board. The figures
//! are the Rust's answers; what is worked out here on the way (bounds, tails, lengths, blocks, what is forbidden) is
//! held against them, and no page is printed where they differ.

use std::ops::Range;

use crate::answers::{Moved, Row, Sheet, Step, Tried};
use crate::modes::{answer, Mode};
use crate::plan::Plan;
use crate::published::{beyond_the_rust, Decoder, Lines, Published};
use crate::read::read;
use crate::timing::{fitness_of, release_of, times_on, Shop};
use crate::{lines, text};

/// No line of the page is longer, tables and bars apart.
const WIDTH: usize = 120;

/// How many block moves and how many reassignments are tried.
const TRIED: usize = 3;

/// How many steps a listing lasts.
const LISTED: usize = 6;

/// A text of compare/plans, by name.
macro_rules! plan_text {
    ($name:literal) => {
        include_str!(concat!("../plans/", $name, ".plan"))
    };
}

/// What is the same in every step, told once.
const RULES: [&str; 8] = [
    "**Timing order.** Pile up the cards that wait for nothing, the lowest number first. Take the top card again and \
     again, and put on the pile what it frees: its neighbour in the line, then the next step of its task, then those \
     that wait for it by name, the lowest number first. In the tables the top of the pile is at the right.",
    "**Starts.** A card starts when all of this is over: the card before it in the line; the step before of its task, \
     with the way to this machine; the release; every card that it waits for by name. It never starts before 0. It \
     ends after setup, process and teardown.",
    "**Critical path.** Begin at the card that ends last; of several, at the latest in timing order. Go back to the \
     card that held it up: the one before in the line if it ends just then; else the step before of its task if it \
     arrives just then; else the first card that it waits for by name and that ends just then; else stop.",
    "**Blocks.** Cards that follow one another on the path and lie side by side on one machine are a block. It gives \
     these moves: swap the first two; swap the last two; shift a later card to its front, from the third on; shift an \
     earlier card to its end, up to the third from the end. The same move counts once.",
    "**Estimates.** Up to three block moves are all tried, as they come. Of more, each is estimated, and the three \
     smallest are tried, the earlier one among equals. Lay the stretch between the two places anew. For each card in \
     it add three numbers: when it could start (after the card before it in the line, the step before of its task and \
     its release), what it took so far, and the longest chain after it (through the next card in the line or the next \
     step of its task). The greatest sum is the estimate. A chain outside the stretch goes on through line, task and \
     waiting, as the cards lay. Ways between machines are left out.",
    "**Other machines.** If any card has a choice, each card of the path may also go to another machine that may run \
     it. The first place there is after the leading cards that end by its own start; the last place is after the \
     leading cards that start before its own end. For each place add when it could start, its own time there and the \
     longest chain after it: the length. Waiting by name counts here; ways between machines and the table of setups \
     do not. The least length is taken, the lower place among equals. Of all such moves the three with the least \
     length, then the least time, are tried after the block moves.",
    "**Trying.** Lay the cards as the move says, time the lines, note the fitness, lay them back. The least fitness \
     wins, the first among equals, also if it is worse than now. A forbidden move counts only if it is below the best \
     so far. If no move counts, the search stops.",
    "**Listing.** A move within a line lists two cards: the one moved (of a swap, the first) and the one at the place \
     where it goes. No move with these two may be made while they are listed. A card that changes its machine lists \
     the machine that it left: it may not go back there.",
];

type Said = Result<(), String>;

fn holds(true_here: bool, what: &str) -> Said {
    match true_here {
        true => Ok(()),
        false => Err(format!("board: {what} differs from the Rust's")),
    }
}

/// The whole page.
pub fn page() -> Result<String, String> {
    let mut page = Page::default();
    opening(&mut page);
    plan_s(&mut page)?;
    small_facts(&mut page)?;
    richer(&mut page)?;
    Ok(page.text)
}

fn opening(page: &mut Page) {
    page.text += "# The worked plans on the card board\n\n";
    page.say(
        "Cut one card for each activity and write its number on it. Draw one row for each machine: that is its line, \
         and the cards lie in it in the order in which they run. Numbers, places and steps are counted from 0.",
    );
    page.say(
        "This page is the print of `compare/run board`; `sh compare/test` prints it again and compares every letter. \
         Lines, ends, paths, moves and fitness are the published Rust's answers. The numbers in between are worked \
         out by the same program, which stops where they do not lead to these answers. The numbers of refusals are \
         the document's: the Rust has none.",
    );
    page.say(
        "In a bar drawing each letter is one unit of time. A number is the card that runs, `s` is its setup, a dot is \
         waiting. A card that takes no time cannot be drawn; it is named below the bars. Fitness stands as a decimal \
         number and as the 16 digits that the program prints. Lower is better.",
    );
    page.head("How a step is done");
    for rule in RULES {
        page.say(rule);
    }
}

fn plan_s(page: &mut Page) -> Said {
    let (s0, s1) = (plan(plan_text!("plan-s-steps-0"))?, plan(plan_text!("plan-s-steps-1"))?);
    let (s2, s60) = (plan(plan_text!("plan-s-steps-2"))?, plan(plan_text!("plan-s-steps-60"))?);
    page.head("Plan S");
    page.plan(&s60);
    page.head("P1: Plan S with no step");
    page.say("The search may take no step, so it does not even look at the lines.");
    page.outcome(&s0)?;
    page.head("P2: Plan S with one step");
    page.search(&s1, 0, 0..2)?;
    page.outcome(&s1)?;
    page.say("The one move leads to a worse plan than the first, so there is nothing to hand out.");
    page.head("P3: Plan S with two steps");
    page.say("The first step is the one of P2. The search goes on from the lines that it led to.");
    page.search(&s2, 1, 1..3)?;
    page.outcome(&s2)?;
    page.say("The worse plan after the first step was the way to a better one. That is why the search goes on from a worse plan.");
    page.sheets(&s2)?;
    page.head("P3: Plan S with sixty steps");
    page.say("The first two steps are those above. A third one follows, and is the last.");
    page.search(&s60, 2, 2..3)?;
    page.outcome(&s60)?;
    page.print(plan_text!("plan-s-steps-60"))
}

fn small_facts(page: &mut Page) -> Said {
    page.head("P4: no place on the other machine");
    let p4 = plan(plan_text!("p4-no-position"))?;
    page.plan(&p4);
    page.search(&p4, 0, 0..1)?;
    page.outcome(&p4)?;

    page.head("P5: a block of three");
    let p5 = plan(plan_text!("p5-block-of-three"))?;
    page.plan(&p5);
    page.search(&p5, 0, 0..1)?;
    page.outcome(&p5)?;

    page.head("P6: how long a move is forbidden");
    page.say(
        "Two plans show it. In both every move leaves the fitness as it is, so the first free move is made each time.",
    );
    page.say("The first plan brings the two cards of step 0 together again one step too early.");
    let early = plan(plan_text!("differs-taboo-at-5"))?;
    page.plan(&early);
    page.search(&early, 0, 0..0)?;
    page.outcome(&early)?;
    page.say("The second plan brings them together one step later.");
    let late = plan(plan_text!("differs-taboo-free-at-6"))?;
    page.plan(&late);
    page.search(&late, 0, 0..0)?;
    page.outcome(&late)?;

    page.head("P7: lines that go round");
    let p7 = plan(plan_text!("p7-lines-that-contradict"))?;
    page.plan(&p7);
    page.say("Now lay the cards as follows instead, and time these lines.");
    let given =
        text::lines(plan_text!("p7-lines-that-contradict")).map_err(|error| error.to_string())?.unwrap_or_default();
    let laid = lines::checked(&p7, &given).map_err(|refused| refused.to_string())?;
    page.lines(&laid);
    page.circle(&p7, &laid)?;
    let words = lines::to_bytes(&given);
    page.code(&answer(&p7.to_bytes(), Mode::Time, Some(&words))?);
    page.say(
        "No card takes any time, so all of them could start at 0 and no bound would be broken. The lines are refused \
         all the same: what counts is that the arrows go round.",
    );

    page.head("P8: tardiness");
    let p8 = plan(plan_text!("p8-deadlines"))?;
    page.plan(&p8);
    page.search(&p8, 0, 0..1)?;
    page.outcome(&p8)
}

fn richer(page: &mut Page) -> Said {
    page.head("More: six moves, of which three are tried");
    page.say(
        "One machine paints in two colours. The setup depends on the card before, so the order makes the difference.",
    );
    let colours = plan(plan_text!("setup-table"))?;
    page.plan(&colours);
    page.search(&colours, 0, 0..1)?;
    page.outcome(&colours)?;

    page.head("More: a card changes its machine");
    let flexible = plan(plan_text!("flexible-shop"))?;
    page.plan(&flexible);
    page.search(&flexible, 0, 0..1)?;
    page.outcome(&flexible)?;
    page.sheets(&flexible)?;

    page.head("More: ways between machines");
    let halls = plan(plan_text!("transports"))?;
    page.plan(&halls);
    page.search(&halls, 0, 0..1)?;
    page.outcome(&halls)?;

    page.head("More: the active sheet wins");
    let mut active = plan(plan_text!("differs-sheet-longer"))?;
    active.steps = 0; // its search is told on the page of differences
    page.plan(&active);
    page.outcome(&active)?;
    page.sheets(&active)?;

    page.head("More: an order that goes round");
    let order = plan(plan_text!("contradictory-order"))?;
    page.plan(&order);
    let laid = Published::new(&order).lines().ok_or("board: no lines")?;
    page.lines(&laid);
    page.circle(&order, &laid)?;
    page.outcome(&order)?;
    page.say("The decoders do not use the lines. They wait with a card until those that it waits for are placed.");
    page.sheets(&order)?;

    page.head("More: a plan that is refused");
    page.say("Here the task order and the waiting alone go round, whatever the lines are. From the plan's text:");
    let refused = plan_text!("refused-tasks-wait-for-each-other");
    let shown = |line: &&str| line.contains("step") && line.contains("activity") || line.contains(" after activity");
    let shown = refused.lines().filter(|line| !line.starts_with('#')).filter(shown);
    page.code(&shown.map(|line| format!("{}\n", line.trim())).collect::<String>());
    page.print(refused)
}

fn plan(text: &str) -> Result<Plan, String> {
    let bytes = text::parse(text).map_err(|error| error.to_string())?;
    read(&bytes).map_err(|refused| refused.to_string())
}

/// Lines that can be timed, with what the Rust says of them and what is worked out along the way.
struct Look<'a> {
    plan: &'a Plan,
    shop: Shop<'a>,
    lines: Lines,
    sheet: Sheet,
    /// By activity.
    rows: Vec<Row>,
    tails: Vec<i64>,
    step: Step,
    estimates: Vec<i64>,
}

impl<'a> Look<'a> {
    fn at(plan: &'a Plan, lines: &Lines) -> Option<Self> {
        let published = Published::new(plan).with_lines(lines);
        let (sheet, step) = (published.time(lines)?, published.step(lines)?);
        let mut rows = sheet.rows.clone();
        rows.sort_by_key(|row| row.activity);
        let (tails, estimates) = (vec![0; rows.len()], published.estimates(lines)?);
        let shop = Shop::new(plan, lines);
        let mut look = Look { plan, shop, lines: lines.clone(), sheet, rows, tails, step, estimates };
        for row in look.sheet.rows.iter().rev() {
            let a = row.activity;
            let mut after: Vec<usize> = look.shop.line_after[a].into_iter().chain(look.shop.task_after(a)).collect();
            after.extend(&look.shop.waiting[a]);
            look.tails[a] = after.into_iter().map(|b| look.span(b) + look.tails[b]).max().unwrap_or(0);
        }
        Some(look)
    }

    fn span(&self, a: usize) -> i64 {
        self.rows[a].end - self.rows[a].start
    }

    fn end(&self, a: Option<usize>) -> i64 {
        a.map_or(0, |a| self.rows[a].end)
    }

    /// Span and tail together; 0 without a card.
    fn rest(&self, a: Option<usize>) -> i64 {
        a.map_or(0, |a| self.span(a) + self.tails[a])
    }

    fn release(&self, a: usize) -> i64 {
        release_of(self.plan, a, self.shop.task[a])
    }

    /// When the task's card before arrives at this card's machine.
    fn arrival(&self, a: usize) -> Option<i64> {
        let before = self.shop.task_before(a)?;
        let way = self.plan.transports[self.rows[before].machine][self.rows[a].machine];
        Some(self.rows[before].end + i64::from(way))
    }

    fn named_end(&self, a: usize) -> Option<i64> {
        self.shop.named[a].iter().map(|&b| self.rows[b].end).max()
    }

    fn position(&self, a: usize) -> usize {
        self.lines[self.rows[a].machine].iter().position(|&b| b == a).unwrap_or_default()
    }

    /// Machine, first and last place of each block of the path.
    fn blocks(&self) -> Vec<(usize, usize, usize)> {
        let mut blocks: Vec<(usize, usize, usize)> = Vec::new();
        for &a in &self.step.path {
            let (machine, at) = (self.rows[a].machine, self.position(a));
            match blocks.last_mut() {
                Some((same, _, last)) if *same == machine && *last + 1 == at => *last = at,
                _ => blocks.push((machine, at, at)),
            }
        }
        blocks.retain(|&(_, first, last)| last > first);
        blocks
    }

    fn pair(&self, moved: Moved) -> (usize, usize) {
        match moved {
            Moved::Swap { machine, at } => (self.lines[machine][at], self.lines[machine][at + 1]),
            Moved::Shift { machine, from, to } => (self.lines[machine][from], self.lines[machine][to]),
            Moved::Reassign { activity, to, .. } => (activity, to),
        }
    }

    fn said(&self, moved: Moved) -> String {
        let (one, other) = self.pair(moved);
        match moved {
            Moved::Swap { machine, at } => {
                format!("swap {one} and {other} (machine {machine}, places {at}, {})", at + 1)
            }
            Moved::Shift { machine, from, to } => format!("shift {one} (machine {machine}, place {from} to {to})"),
            Moved::Reassign { activity, from, at, to, pos } => {
                format!("card {activity} from machine {from} (place {at}) to machine {to} (place {pos})")
            }
        }
    }

    fn after(&self, moved: Moved) -> Lines {
        let mut lines = self.lines.clone();
        match moved {
            Moved::Swap { machine, at } => lines[machine].swap(at, at + 1),
            Moved::Shift { machine, from, to } => {
                let card = lines[machine].remove(from);
                lines[machine].insert(to, card);
            }
            Moved::Reassign { activity, from, at, to, pos } => {
                lines[from].remove(at);
                lines[to].insert(pos, activity);
            }
        }
        lines
    }
}

#[derive(Default)]
struct Page {
    text: String,
}

impl Page {
    fn head(&mut self, title: &str) {
        self.text += &format!("## {title}\n\n");
    }

    /// A paragraph, filled.
    fn say(&mut self, words: &str) {
        let mut column = 0;
        for word in words.split_whitespace() {
            let wide = word.chars().count();
            match column {
                0 => column = wide,
                _ if column + 1 + wide > WIDTH => {
                    self.text.push('\n');
                    column = wide;
                }
                _ => {
                    self.text.push(' ');
                    column += 1 + wide;
                }
            }
            self.text += word;
        }
        self.text += "\n\n";
    }

    fn code(&mut self, text: &str) {
        self.text += &format!("```\n{}\n```\n\n", text.trim_end());
    }

    fn table(&mut self, head: &[String], rows: &[Vec<String>]) {
        self.text += &format!("| {} |\n|{}\n", head.join(" | "), "---|".repeat(head.len()));
        for row in rows {
            self.text += &format!("| {} |\n", row.join(" | "));
        }
        self.text.push('\n');
    }

    /// What the program prints for this text, held against the text's own word.
    fn print(&mut self, text: &str) -> Said {
        let bytes = text::parse(text).map_err(|error| error.to_string())?;
        let print = answer(&bytes, Mode::Program, None)?;
        holds(text::expected_print(text) == Some(print.clone()), "a plan's print")?;
        self.say("The program prints:");
        self.code(&print);
        Ok(())
    }
}

/// The plan, its lines and their bars.
impl Page {
    fn plan(&mut self, plan: &Plan) {
        let machines = plan.transports.len();
        let dated = plan.tasks.iter().any(|task| task.deadline_flag == 1);
        let released = plan.tasks.iter().any(|task| task.release != 0) || plan.activities.iter().any(|&at| at != 0);
        let coloured = !plan.setups.is_empty();
        let mut head = vec!["card".to_string(), "task".into(), "step".into()];
        head.extend((0..machines).map(|machine| format!("time on machine {machine}")));
        head.extend(["may run on".to_string(), "lies on".into()]);
        for (shown, name) in [(released, "release"), (dated, "deadline"), (coloured, "category")] {
            head.extend(shown.then(|| name.to_string()));
        }
        let mut rows = Vec::new();
        for (number, task) in plan.tasks.iter().enumerate() {
            for step in 1..=task.activities {
                let a = rows.len();
                let mut row = vec![a.to_string(), number.to_string(), step.to_string()];
                row.extend((0..machines).map(|machine| time_said(plan, a, machine)));
                let may: Vec<String> =
                    plan.candidates.iter().filter(|pair| pair.0 as usize == a).map(|pair| pair.1.to_string()).collect();
                row.push(match may.is_empty() {
                    true => "-".to_string(),
                    false => may.join(", "),
                });
                row.push(plan.assignment.get(a).filter(|&&m| m >= 0).map_or("-".to_string(), i32::to_string));
                row.extend(released.then(|| release_of(plan, a, number).to_string()));
                row.extend(dated.then(|| match task.deadline_flag {
                    1 => task.deadline.to_string(),
                    _ => "none".to_string(),
                }));
                row.extend(coloured.then(|| task.category.to_string()));
                rows.push(row);
            }
        }
        self.table(&head, &rows);
        if plan.times.iter().any(|times| times.setup + times.teardown > 0) {
            self.say("A time of three parts is setup + process + teardown.");
        }
        if plan.transports.iter().flatten().any(|&way| way > 0) {
            let mut head = vec!["way from".to_string()];
            head.extend((0..machines).map(|machine| format!("to machine {machine}")));
            let row = |(from, ways): (usize, &Vec<u32>)| {
                std::iter::once(format!("machine {from}")).chain(ways.iter().map(u32::to_string)).collect()
            };
            self.table(&head, &plan.transports.iter().enumerate().map(row).collect::<Vec<_>>());
        }
        if coloured {
            let head = ["machine", "category before", "own category", "setup"].map(String::from);
            let row = |entry: &crate::plan::Setup| {
                let before = match entry.previous {
                    8 => "nothing before".to_string(),
                    category => category.to_string(),
                };
                vec![entry.machine.to_string(), before, entry.category.to_string(), entry.setup.to_string()]
            };
            self.table(&head, &plan.setups.iter().map(row).collect::<Vec<_>>());
            self.say("Where this table has a row, its setup counts instead of the card's own.");
        }
        for &(a, before) in &plan.predecessors {
            self.say(&format!("Card {a} waits for card {before}."));
        }
        for beyond in beyond_the_rust(plan) {
            self.say(&format!("Of this plan `compare/run held` says: {beyond}."));
        }
        self.say(&format!("Order of the tasks: {}. Weight {}.", spaced(&plan.order), f64::from_bits(plan.weight)));
    }

    fn lines(&mut self, lines: &Lines) {
        let line = |(machine, cards): (usize, &Vec<usize>)| {
            let cards: String = cards.iter().map(|card| format!(" [{card}]")).collect();
            format!("{}\n", format!("machine {machine} {cards}").trim_end())
        };
        self.code(&lines.iter().enumerate().map(line).collect::<String>());
    }

    /// One row a machine, one letter a unit of time.
    fn bars(&mut self, machines: usize, rows: &[Row]) {
        let last = rows.iter().map(|row| row.end).max().unwrap_or(0) as usize;
        let mut scale = String::new();
        for mark in (0..=last).step_by(5) {
            scale = format!("{scale:<mark$}{mark}");
        }
        let mut drawn = format!("time       {scale}\n");
        for machine in 0..machines {
            let mut bar = vec!['.'; last];
            for row in rows.iter().filter(|row| row.machine == machine) {
                for at in row.start..row.end {
                    let digit = char::from_digit(row.activity as u32 % 10, 10).unwrap_or('?');
                    bar[at as usize] = if at < row.start + row.setup { 's' } else { digit };
                }
            }
            drawn += &format!("machine {machine}  {}\n", bar.into_iter().collect::<String>());
        }
        self.code(&drawn);
        let flat: Vec<String> = rows
            .iter()
            .filter(|row| row.start == row.end)
            .map(|row| format!("card {} on machine {} at {}", row.activity, row.machine, row.start))
            .collect();
        if !flat.is_empty() {
            self.say(&format!("Without length: {}.", flat.join("; ")));
        }
    }

    /// Completions, tardiness and what they come to.
    fn fitness(&mut self, plan: &Plan, sheet: &Sheet) -> Said {
        let task_of = crate::timing::task_of(plan);
        let mut rows = Vec::new();
        let (mut makespan, mut total) = (0, 0);
        for (number, task) in plan.tasks.iter().enumerate() {
            let own = sheet.rows.iter().filter(|row| task_of[row.activity] == number);
            let done = own.map(|row| row.end).max().unwrap_or(0);
            let (deadline, late) = match task.deadline_flag {
                1 => (task.deadline.to_string(), (done - i64::from(task.deadline)).max(0)),
                _ => ("none".to_string(), 0),
            };
            makespan = done.max(makespan);
            total += late;
            rows.push(vec![number.to_string(), done.to_string(), deadline, late.to_string()]);
        }
        holds(fitness_of(plan, &sheet.rows).to_bits() == sheet.fitness, "a fitness")?;
        self.table(&["task", "done at", "deadline", "late by"].map(String::from), &rows);
        let weight = f64::from_bits(plan.weight);
        self.say(&format!(
            "All is done at {makespan}, late by {total} in sum: (1 - {weight}) x {makespan} + {weight} x {total} = \
             {}.",
            decimal(sheet.fitness)
        ));
        Ok(())
    }

    /// Arrows that go round, one after the other.
    fn circle(&mut self, plan: &Plan, lines: &Lines) -> Said {
        holds(Published::new(plan).with_lines(lines).time(lines).is_none(), "a circle")?;
        let shop = Shop::new(plan, lines);
        let n = shop.task.len();
        let before = |a: usize| -> Vec<(usize, &str)> {
            let line = shop.line_before[a].into_iter().map(|b| (b, "lies before it in its line"));
            let task = shop.task_before(a).into_iter().map(|b| (b, "is the step before in its task"));
            line.chain(task).chain(shop.named[a].iter().map(|&b| (b, "is one that it waits for"))).collect()
        };
        // What can be taken is taken; each card that is left waits for another one that is left.
        let mut left: Vec<usize> = (0..n).collect();
        while let Some(at) = left.iter().position(|&a| before(a).iter().all(|(b, _)| !left.contains(b))) {
            left.remove(at);
        }
        let mut walked = vec![*left.first().ok_or("board: no circle")?];
        let mut arrows = Vec::new();
        loop {
            let at = walked[walked.len() - 1];
            let (next, why) = before(at).into_iter().find(|(b, _)| left.contains(b)).ok_or("board: no circle")?;
            arrows.push(format!("{at} must wait for {next}: {next} {why}\n"));
            if let Some(from) = walked.iter().position(|&a| a == next) {
                arrows.drain(..from);
                break;
            }
            walked.push(next);
        }
        self.say("Put an arrow from each card to one that it must wait for:");
        self.code(&arrows.concat());
        self.say(
            "The last arrow leads back to the card where the first one begins. None of these cards can be the first.",
        );
        Ok(())
    }

    fn outcome(&mut self, plan: &Plan) -> Said {
        let mut published = Published::new(plan);
        let (replayed, _) = published.replay();
        let improved = published.improve();
        holds(improved == replayed, "the search")?;
        let meaning = match improved.outcome {
            10 => "no step is allowed",
            11 => "a card has no machine or is not in the order",
            12 => "the lines of the order go round",
            13 => "nothing better was found",
            _ => "a better plan was found",
        };
        let best = improved.fitness.map_or(String::new(), |bits| format!(" The best fitness is {}.", decimal(bits)));
        let genes = improved.genes.map_or(String::new(), |(order, assignment)| {
            format!(" New order of the tasks: {}. Machines of the cards: {}.", spaced(&order), spaced(&assignment))
        });
        self.say(&format!("Steps allowed: {}. **Outcome {}**: {meaning}.{best}{genes}", plan.steps, improved.outcome));
        Ok(())
    }

    /// Both sheets of what the search hands out, and the one that is printed.
    fn sheets(&mut self, plan: &Plan) -> Said {
        let mut published = Published::new(plan);
        published.improve();
        let (in_order, active) = (published.decode(Decoder::InOrder), published.decode(Decoder::Active));
        let better = published.decode(Decoder::Better);
        let wins = f64::from_bits(active.fitness) < f64::from_bits(in_order.fitness);
        holds(better == if wins { active.clone() } else { in_order.clone() }, "the choice of the sheet")?;
        self.say("The sheet in order: place the first card of the order whose waiting is over, again and again.");
        self.bars(plan.transports.len(), &in_order.rows);
        self.fitness(plan, &in_order)?;
        self.say(
            "The active sheet: of the cards that may come next, find the one that could be done first. On its \
             machine, of those that could start before then, place the one that the order names first. Again and \
             again.",
        );
        self.bars(plan.transports.len(), &active.rows);
        self.say(&format!("Its fitness: {}.", decimal(active.fitness)));
        self.say(match wins {
            true => "The active sheet is better, so it is the one that is printed. Rows: card, machine, start, end, setup.",
            false => "The active sheet is not better, so the sheet in order is printed. Rows: card, machine, start, end, setup.",
        });
        self.code(&better.to_string());
        Ok(())
    }
}

/// One step of the search after the other.
impl Page {
    /// Steps before `from` are not told, those of `full` at length, others in short.
    fn search(&mut self, plan: &Plan, from: usize, full: Range<usize>) -> Said {
        let published = Published::new(plan);
        let (_, made) = published.replay();
        let mut lines = published.lines().ok_or("board: no lines")?;
        let mut best = f64::INFINITY;
        let mut listed: Vec<(usize, bool, (usize, usize))> = Vec::new();
        for step in 0..=plan.steps as usize {
            let look = Look::at(plan, &lines).ok_or("board: these lines go round")?;
            let fitness = f64::from_bits(look.sheet.fitness);
            let told = match () {
                () if step == 0 => "It is the best so far, being the first.",
                () if fitness < best => "It is a new best: order and machines are noted down.",
                () => "It is not below the best so far.",
            };
            best = best.min(fitness);
            let ends = step == plan.steps as usize;
            let mut aside = Page::default();
            let page = if step < from { &mut aside } else { &mut *self };
            page.stand(&look, step, full.contains(&step), told)?;
            if ends {
                holds(made.len() == step, "the number of moves")?;
                break;
            }
            match full.contains(&step) {
                true => page.looked_for(&look)?,
                false => page.say(&format!("Critical path: {}.", spaced(&look.step.path))),
            }
            let live = |kind, pair| listed.iter().find(|&&(until, k, p)| until > step && k == kind && p == pair);
            let mut chosen: Option<&Tried> = None;
            let mut equal = 0;
            let mut rows = Vec::new();
            for tried in look.step.kept.iter().chain(&look.step.reassignments) {
                let (kind, pair) = listing(&look, tried.moved);
                let until = live(kind, pair).map(|listed| listed.0);
                let value = tried.fitness.map(f64::from_bits);
                let counts = value.is_some_and(|value| until.is_none() || value < best);
                let least = |chosen: &Tried| chosen.fitness.map(f64::from_bits) <= value;
                if counts && !chosen.is_some_and(least) {
                    (chosen, equal) = (Some(tried), 0);
                }
                equal += usize::from(counts && chosen.is_some_and(|chosen| chosen.fitness == tried.fitness));
                rows.push(vec![
                    look.said(tried.moved),
                    tried.fitness.map_or("its lines go round".to_string(), decimal),
                    until.map_or("no".to_string(), |until| {
                        format!("yes, {} is listed until step {until}", pair_said(kind, pair))
                    }),
                    if counts { "yes" } else { "no" }.to_string(),
                ]);
            }
            if !rows.is_empty() {
                page.table(&["move tried", "fitness", "forbidden", "counts"].map(String::from), &rows);
            }
            let Some(tried) = chosen else {
                page.say(match rows.is_empty() {
                    true => "There is no move. The search stops here.",
                    false => "No move counts. The search stops here.",
                });
                return holds(made.len() == step, "the number of moves");
            };
            let known = made.get(step).is_some_and(|m| m.moved == tried.moved && Some(m.fitness) == tried.fitness);
            holds(known, "the move made")?;
            let (kind, pair) = match tried.moved {
                Moved::Reassign { activity, from, .. } => (true, (activity, from)),
                moved => listing(&look, moved),
            };
            let why = match equal {
                1 => "the least fitness of those that count",
                _ => "the least fitness of those that count, and comes first",
            };
            page.say(&format!("Chosen: {}; it has {why}.", look.said(tried.moved)));
            page.say(&format!(
                "Listed: {} until step {}, so it is forbidden at steps {} to {} and free again at step {}.",
                pair_said(kind, pair),
                step + LISTED,
                step + 1,
                step + LISTED - 1,
                step + LISTED
            ));
            listed.push((step + LISTED, kind, pair));
            lines = look.after(tried.moved);
        }
        Ok(())
    }

    /// The lines of a step, their bars and their fitness.
    fn stand(&mut self, look: &Look, step: usize, full: bool, told: &str) -> Said {
        match step == look.plan.steps as usize {
            true => self.say("**After the last step.**"),
            false => self.say(&format!("**Step {step}.**")),
        }
        self.lines(&look.lines);
        if full {
            self.timing(look)?;
        }
        self.bars(look.lines.len(), &look.sheet.rows);
        if full {
            self.fitness(look.plan, &look.sheet)?;
        }
        self.say(&format!("Fitness {}. {told}", decimal(look.sheet.fitness)));
        Ok(())
    }

    /// Path, blocks and places at length.
    fn looked_for(&mut self, look: &Look) -> Said {
        self.walk(look)?;
        self.moves(look)?;
        self.places(look)
    }

    /// Which card is taken when, and each start with its reasons.
    fn timing(&mut self, look: &Look) -> Said {
        let Look { shop, .. } = look;
        let n = shop.task.len();
        let waits = |a: usize| {
            usize::from(shop.line_before[a].is_some())
                + usize::from(shop.task_before(a).is_some())
                + shop.named[a].len()
        };
        let mut left: Vec<usize> = (0..n).map(waits).collect();
        let mut pile: Vec<usize> = (0..n).filter(|&a| left[a] == 0).collect();
        self.say(&format!("Waiting for nothing: {}.", spaced(&pile)));
        let (mut rows, mut order) = (Vec::new(), Vec::new());
        while let Some(taken) = pile.pop() {
            order.push(taken);
            let mut after: Vec<usize> = shop.line_after[taken].into_iter().chain(shop.task_after(taken)).collect();
            after.extend(&shop.waiting[taken]);
            let (mut freed, mut still) = (Vec::new(), Vec::new());
            for a in after {
                left[a] -= 1;
                match left[a] {
                    0 => freed.push(a),
                    _ => still.push(a),
                }
            }
            still.retain(|a| !freed.contains(a));
            pile.extend(&freed);
            rows.push(vec![taken.to_string(), dashed(&freed), dashed(&still), dashed(&pile)]);
        }
        holds(order.iter().eq(look.sheet.rows.iter().map(|row| &row.activity)), "the timing order")?;
        self.table(&["taken", "frees", "must still wait", "pile now"].map(String::from), &rows);
        let mut rows = Vec::new();
        for row in &look.sheet.rows {
            let a = row.activity;
            let line = shop.line_before[a].map(|b| look.rows[b].end);
            let bounds = [Some(0), line, look.arrival(a), Some(look.release(a)), look.named_end(a)];
            holds(bounds.into_iter().flatten().max() == Some(row.start), "a start")?;
            let times = times_on(look.plan, a, row.machine);
            let span = row.setup + i64::from(times.process) + i64::from(times.teardown);
            holds(row.start + span == row.end, "an end")?;
            let shown = |bound: Option<i64>| bound.map_or("-".to_string(), |bound| bound.to_string());
            let mut cells = vec![a.to_string(), row.machine.to_string()];
            cells.extend(bounds[1..].iter().map(|&bound| shown(bound)));
            let parts = match row.setup + i64::from(times.teardown) {
                0 => span.to_string(),
                _ => format!("{} + {} + {}", row.setup, times.process, times.teardown),
            };
            cells.extend([row.start.to_string(), parts, row.end.to_string()]);
            rows.push(cells);
        }
        let head =
            ["card", "machine", "line before ends", "task before arrives", "release", "waited for ends", "start"];
        let head: Vec<String> = head.into_iter().chain(["takes", "end"]).map(String::from).collect();
        self.table(&head, &rows);
        Ok(())
    }

    /// The way back from the last end.
    fn walk(&mut self, look: &Look) -> Said {
        let Look { shop, rows, .. } = look;
        let greatest = rows.iter().map(|row| row.end).max().unwrap_or(0);
        let ending: Vec<usize> =
            look.sheet.rows.iter().filter(|row| row.end == greatest).map(|row| row.activity).collect();
        let Some(&last) = ending.last() else { return Ok(()) };
        let mut told = match ending.len() {
            1 => format!("Card {last} ends last, at {greatest}: begin there.\n"),
            _ => format!(
                "Cards {} end last, at {greatest}; {last} is the latest in timing order: begin there.\n",
                spaced(&ending)
            ),
        };
        let mut path = vec![last];
        loop {
            let at = path[path.len() - 1];
            let start = rows[at].start;
            let line = shop.line_before[at].filter(|&b| rows[b].end == start);
            let task = shop.task_before(at).filter(|_| look.arrival(at) == Some(start));
            let named = shop.named[at].iter().copied().find(|&b| rows[b].end == start);
            let next = match (line, task, named) {
                (Some(b), ..) => Some((b, "the card before it in the line ends then")),
                (_, Some(b), _) => Some((b, "the step before of its task arrives then")),
                (_, _, Some(b)) => Some((b, "a card that it waits for ends then")),
                _ => None,
            };
            match next {
                Some((b, why)) => told += &format!("Card {at} starts at {start}; {why}: go to card {b}.\n"),
                None => {
                    told +=
                        &format!("Card {at} starts at {start}, and no card before it ends or arrives then: stop.\n");
                    break;
                }
            }
            path.extend(next.map(|(b, _)| b));
        }
        path.reverse();
        holds(path == look.step.path, "the path")?;
        self.say("The way back:");
        self.code(&told);
        self.say(&format!("Critical path: {}.", spaced(&path)));
        Ok(())
    }

    /// Blocks, the moves they give and, of more than three, which are kept.
    fn moves(&mut self, look: &Look) -> Said {
        let mut given: Vec<Moved> = Vec::new();
        let blocks = look.blocks();
        for &(machine, first, last) in &blocks {
            let cards = &look.lines[machine][first..=last];
            self.say(&format!("Block: cards {} on machine {machine}, places {first} to {last}.", spaced(cards)));
            let mut moves = vec![Moved::Swap { machine, at: first }, Moved::Swap { machine, at: last - 1 }];
            moves.extend((first + 2..=last).map(|from| Moved::Shift { machine, from, to: first }));
            moves.extend((first..(last + 1).saturating_sub(2)).map(|from| Moved::Shift { machine, from, to: last }));
            for moved in moves {
                if !given.contains(&moved) {
                    given.push(moved);
                }
            }
        }
        holds(given == look.step.blocks, "the block moves")?;
        if blocks.is_empty() {
            self.say("No two cards of the path lie side by side on one machine: no block, no block move.");
            return Ok(());
        }
        if given.len() <= TRIED {
            let said: Vec<String> = given.iter().map(|&moved| look.said(moved)).collect();
            self.say(&format!(
                "Moves, in this order: {}. No more than {TRIED}: no estimate is needed.",
                said.join("; ")
            ));
            return Ok(());
        }
        let mut rows = Vec::new();
        for (&moved, &estimate) in given.iter().zip(&look.estimates) {
            let kept = match look.step.kept.iter().any(|tried| tried.moved == moved) {
                true => "yes",
                false => "no",
            };
            let (stretch, terms) = self.estimate(look, moved);
            holds(terms.iter().map(|(head, span, tail)| head + span + tail).max() == Some(estimate), "an estimate")?;
            let terms: Vec<String> = terms.iter().map(|(h, s, t)| format!("{h} + {s} + {t} = {}", h + s + t)).collect();
            rows.push(vec![
                look.said(moved),
                spaced(&stretch),
                terms.join("; "),
                estimate.to_string(),
                kept.to_string(),
            ]);
        }
        let mut ranked: Vec<usize> = (0..given.len()).collect();
        ranked.sort_by_key(|&k| look.estimates[k]);
        ranked.truncate(TRIED);
        let kept = look.step.kept.iter().map(|tried| tried.moved);
        holds(ranked.into_iter().map(|k| given[k]).eq(kept), "the kept moves")?;
        self.say(&format!("{} moves, so they are estimated and {TRIED} are kept.", given.len()));
        self.table(&["move", "stretch then", "sums, card by card", "estimate", "kept"].map(String::from), &rows);
        Ok(())
    }

    /// The stretch after a move, with head, span and tail of each card.
    fn estimate(&self, look: &Look, moved: Moved) -> (Vec<usize>, Vec<(i64, i64, i64)>) {
        let (machine, low, high) = match moved {
            Moved::Swap { machine, at } => (machine, at, at + 1),
            Moved::Shift { machine, from, to } => (machine, from.min(to), from.max(to)),
            Moved::Reassign { to, pos, .. } => (to, pos, pos),
        };
        let stretch = look.after(moved)[machine][low..=high].to_vec();
        let line = &look.lines[machine];
        let mut free = look.end(low.checked_sub(1).map(|at| line[at]));
        let mut terms = Vec::new();
        for &a in &stretch {
            let head = free.max(look.end(look.shop.task_before(a))).max(look.release(a));
            free = head + look.span(a);
            terms.push((head, look.span(a), 0));
        }
        let mut behind = look.rest(line.get(high + 1).copied());
        for (k, &a) in stretch.iter().enumerate().rev() {
            terms[k].2 = behind.max(look.rest(look.shop.task_after(a)));
            behind = look.span(a) + terms[k].2;
        }
        (stretch, terms)
    }

    /// For each card of the path, each other machine that it may run on: the places there and the lengths.
    fn places(&mut self, look: &Look) -> Said {
        let may =
            |a: usize| look.plan.candidates.iter().filter(move |pair| pair.0 as usize == a).map(|pair| pair.1 as usize);
        if (0..look.rows.len()).all(|a| may(a).count() < 2) {
            return Ok(());
        }
        let (mut rows, mut found) = (Vec::new(), Vec::new());
        for &a in &look.step.path {
            let Row { machine: from, start, end, .. } = look.rows[a];
            for to in may(a).filter(|&to| to != from) {
                let line = &look.lines[to];
                let leading = |good: &dyn Fn(&Row) -> bool| line.iter().take_while(|&&b| good(&look.rows[b])).count();
                let (first, last) = (leading(&|row| row.end <= start), leading(&|row| row.start < end));
                let times = times_on(look.plan, a, to);
                let time = i64::from(times.setup) + i64::from(times.process) + i64::from(times.teardown);
                let length = |pos: usize| {
                    let mut head = look.end(look.shop.task_before(a)).max(look.release(a));
                    head =
                        head.max(look.named_end(a).unwrap_or(0)).max(look.end(pos.checked_sub(1).map(|at| line[at])));
                    let mut tail = look.rest(look.shop.task_after(a)).max(look.rest(line.get(pos).copied()));
                    tail = look.shop.waiting[a].iter().fold(tail, |tail, &b| tail.max(look.rest(Some(b))));
                    (head, tail, head + time + tail)
                };
                let lengths: Vec<String> = (first..=last)
                    .map(|pos| (pos, length(pos)))
                    .map(|(pos, (head, tail, all))| format!("place {pos}: {head} + {time} + {tail} = {all}"))
                    .collect();
                let best = (first..=last).min_by_key(|&pos| (length(pos).2, pos));
                if let Some(pos) = best {
                    let moved = Moved::Reassign { activity: a, from, at: look.position(a), to, pos };
                    found.push((moved, vec![length(pos).2, time]));
                }
                rows.push(vec![
                    format!("{a} ({start} to {end})"),
                    to.to_string(),
                    first.to_string(),
                    last.to_string(),
                    if lengths.is_empty() {
                        "none: the first place lies behind the last".to_string()
                    } else {
                        lengths.join("; ")
                    },
                    best.map_or("no move".to_string(), |pos| format!("place {pos}")),
                ]);
            }
        }
        found.sort_by(|one, other| one.1.cmp(&other.1));
        found.truncate(TRIED);
        let kept = look.step.reassignments.iter().map(|tried| (tried.moved, tried.rank.clone()));
        holds(found.into_iter().eq(kept), "the reassignments")?;
        if rows.is_empty() {
            self.say("No card of the path may run elsewhere.");
            return Ok(());
        }
        self.say("Other machines:");
        let head = ["card", "to machine", "first place", "last place", "lengths", "taken"].map(String::from);
        self.table(&head, &rows);
        Ok(())
    }
}

/// What forbids a move where it is listed, and whether it is a card with a machine: the one that it would go to. Two cards
/// go by rising number.
fn listing(look: &Look, moved: Moved) -> (bool, (usize, usize)) {
    let (one, other) = look.pair(moved);
    match moved {
        Moved::Reassign { .. } => (true, (one, other)),
        _ => (false, (one.min(other), one.max(other))),
    }
}

fn pair_said(machine: bool, (one, other): (usize, usize)) -> String {
    match machine {
        true => format!("card {one} to machine {other}"),
        false => format!("the pair {one}, {other}"),
    }
}

fn time_said(plan: &Plan, activity: usize, machine: usize) -> String {
    let times = times_on(plan, activity, machine);
    match times.setup + times.teardown {
        0 => times.process.to_string(),
        _ => format!("{} + {} + {}", times.setup, times.process, times.teardown),
    }
}

fn decimal(bits: u64) -> String {
    format!("{:?} (`{bits:016x}`)", f64::from_bits(bits))
}

fn spaced<T: ToString>(numbers: &[T]) -> String {
    numbers.iter().map(T::to_string).collect::<Vec<_>>().join(" ")
}

fn dashed(numbers: &[usize]) -> String {
    match numbers.is_empty() {
        true => "-".to_string(),
        false => spaced(numbers),
    }
}
