use super::line::Line;
use super::parse::weight;
use super::show::weight_text;
use super::*;
use crate::damage;
use crate::generate::{self, Class, Rng};

/// Every kind of line once.
const SAMPLE: &str = r#"plan "Every kind of line"   # a comment

tasks
  task 0: category 0, release 0, no deadline, 2 activities
  task 1: category 3, release -5, deadline 12, 1 activity
  TASK 2: category 9, release 7, deadline flag 2 word -3, 0 activities
activities
  activity 0 (task 0, step 1): release 0
  activity 1: release -2147483648
  activity 2 (task 1, step 1): release 4
  activity 3 (no task): release 2147483647
machines
  machine 0: transports 0 5
  machine 1: transport 4294967295 0
times
  activity 0 on every machine: process 3
  activity 1 on machine 0: setup 1, process 2, teardown 3
  activity 1 on machine 1: process 2, teardown 3
  activity 2 on every machine: setup 1, process 0
candidates
  activity 0: machines 0 1
  activity 1: machine 1
setups
  machine 0, after category 1, category 0: setup 5
  machine 0, after nothing, category 0: setup 2
predecessors
  activity 2 after activity 0
search
  weight 0.5, steps 60
order
  0 0
  1 4294967295
assignment
  0 - -2
damage
  count of order is 7
  word at byte 4 is -1
  word at byte 8 is 0xff
  stray bytes 00 fF
  cut at byte 500
"#;

fn words(bytes: &[u8]) -> Vec<u32> {
    bytes.chunks_exact(4).map(|word| u32::from_le_bytes([word[0], word[1], word[2], word[3]])).collect()
}

/// The sample up to its damage, with the cut left out: the stored form is shorter than that.
fn undamaged() -> &'static str {
    SAMPLE.split("damage").next().unwrap_or("")
}

#[test]
fn every_kind_of_line_is_stored() {
    #[rustfmt::skip]
    let wanted: Vec<u32> = vec![
        3, 0, 0, 0, 0, 2, 3, -5i32 as u32, 1, 12, 1, 9, 7, 2, -3i32 as u32, 0,
        4, 0, 1 << 31, 4, (1 << 31) - 1,
        2, 0, 5, u32::MAX, 0,
        6, 0, 3, 0, 0, 3, 0, 1, 2, 3, 0, 2, 3, 1, 0, 0, 1, 0, 0,
        3, 0, 0, 0, 1, 1, 1,
        2, 0, 1, 0, 5, 0, 8, 0, 2,
        1, 2, 0,
        1, 0, 0x3fe0_0000, 60,
        4, 0, 0, 1, u32::MAX,
        3, 0, u32::MAX, -2i32 as u32,
    ];
    assert_eq!(words(&parse(undamaged()).unwrap()), wanted);
}

#[test]
fn damage_is_done_in_the_order_written() {
    let whole = parse(undamaged()).unwrap();
    let text = format!(
        "{}damage\n count of tasks is 9\n word at byte 4 is -1\n cut at byte 9\n stray bytes 0a FF",
        undamaged()
    );
    assert_eq!(parse(&text).unwrap(), [9, 0, 0, 0, 255, 255, 255, 255, whole[8], 10, 255]);
    let text = format!("{}damage\n cut at byte 8\n count of order is 1", undamaged());
    let error = parse(&text).unwrap_err();
    assert_eq!(error.line, 2 + undamaged().lines().count() + 1);
    assert!(error.message.starts_with("no whole word stands at byte"), "{error}");
}

#[test]
fn lines_for_timing_are_read_and_not_stored() {
    let with = |extra: &str| format!("{}{extra}", undamaged());
    let text = with(
        "lines\n machine 0: activities 3 0\n machine 1: nothing\n machine 2: activities\ndamage\n cut at byte 4\n",
    );
    assert_eq!(lines(&text), Ok(Some(vec![vec![3, 0], vec![], vec![]])));
    assert_eq!(parse(&text).as_deref(), Ok(&[3, 0, 0, 0][..]));
    assert_eq!(parse(&with("lines\n machine 0: activities 9\n")), parse(undamaged()));
    assert_eq!(lines(undamaged()), Ok(None));
    assert_eq!(lines(&with("lines\n")), Ok(Some(vec![])));
    let says = |extra: &str| lines(&with(extra)).unwrap_err().message;
    assert!(says("lines\n machine 1: nothing").starts_with("this is machine 0 by its position, not 1"));
    assert!(says("lines\n machine 0: 3").starts_with("expected 'activities', found '3' (a line of lines reads"));
    assert!(says("damage\nlines\n").starts_with("the heading 'lines' comes too late here"));
}

#[test]
fn a_cut_past_the_end_is_told() {
    let error = parse(SAMPLE).unwrap_err();
    assert_eq!(error.line, SAMPLE.lines().count());
    assert!(error.to_string().contains("no cut at byte 500"), "{error}");
}

/// What `parse` says to the sample with one piece of it replaced.
fn says(old: &str, new: &str) -> String {
    assert!(SAMPLE.contains(old), "{old}");
    parse(&SAMPLE.replacen(old, new, 1)).unwrap_err().to_string()
}

#[test]
fn mistakes_are_told_with_their_line() {
    let cases = [
        ("task 1:", "task 2:", "line 5: this is task 1 by its position, not 2"),
        ("category 3", "category x", "line 5: expected a category, found 'x'"),
        ("release -5", "release 99999999999", "line 5: expected a release from -2147483648 to 2147483647"),
        ("category 3", "category -3", "line 5: expected a category from 0 to 4294967295, found '-3'"),
        ("deadline 12,", "deadline 12", "line 5: expected ',', found '1'"),
        ("no deadline", "deadline", "line 4: expected a deadline, found ','"),
        ("(task 1, step 1)", "(task 1, step 2)", "line 10: this is step 1 by its position, not 2"),
        ("(no task)", "(task 2, step 1)", "line 11: the tasks have fewer activities than this"),
        ("transports 0 5", "transports 0 5 5", "line 13: machine 0 has 3 transports, but there are 2 machines"),
        ("on every machine: process 3", "on machine 1: process 3", "line 16: this is machine 0 by its position, not 1"),
        ("on machine 1: process 2", "on every machine: process 2", "line 18: some machines of this activity"),
        ("setup 1, process 2, teardown 3", "", "line 17: expected 'process', found the end of the line"),
        ("machines 0 1", "machines", "line 21: expected the number of a machine, found the end of the line"),
        ("after nothing", "after noting", "line 25: expected 'category' or 'nothing', found 'noting'"),
        ("after activity 0", "before activity 0", "line 27: expected 'after', found 'before'"),
        ("weight 0.5", "weight nan", "line 29: expected a decimal like 0.5"),
        ("weight 0.5", "weight 1e999", "line 29: expected a decimal like 0.5"),
        ("weight 0.5", "weight bits 0x12345678123456781", "line 29: expected 0x and up to 16 hex digits"),
        ("0 - -2", "0 x -2", "line 34: expected '-' or the number of a machine, found 'x'"),
        ("setups\n", "setup\n", "line 23: expected 'activity', found 'setup'"),
        ("setups\n", "predecessors\n", "line 23: the heading 'setups' is due here, not 'predecessors'"),
        ("tasks\n", "", "line 3: expected the heading 'tasks', found 'task'"),
        ("damage\n", "tasks\n", "line 35: the heading 'tasks' comes too late here"),
        ("  cut", "damage\n", "line 40: the heading 'damage' comes too late here"),
        ("  cut", "plan \"again\"\n", "line 40: the title stands before everything else"),
        ("line\"", "line", "line 1: a quote is opened and not closed"),
        ("release 4", "release 4;", "line 10: the character ';' has no meaning here"),
        ("word at byte 4", "word at byte 5", "line 37: no word starts at byte 5"),
        ("count of order", "count of orders", "line 36: expected the name of a section, found 'orders'"),
        ("stray bytes 00 fF", "stray bytes 0", "line 39: expected a byte of two hex digits, found '0'"),
        ("60\n", "60 60\n", "line 29: expected the end of the line, found '60'"),
    ];
    for (old, new, wanted) in cases {
        let said = says(old, new);
        assert!(said.starts_with(wanted), "{said}");
    }
    assert!(says("weight", "wait").contains("reads 'weight 0.5, steps 60', and the next heading is 'order'"));
}

#[test]
fn a_text_that_ends_early_is_told() {
    assert_eq!(parse("").unwrap_err().to_string(), "line 1: the text ends before the heading 'tasks'");
    assert_eq!(parse("tasks\n\n#\n").unwrap_err().to_string(), "line 3: the text ends before the heading 'activities'");
}

#[test]
fn windows_line_ends_and_a_mark_at_the_start_do_no_harm() {
    let text = undamaged();
    assert_eq!(parse(&format!("\u{feff}{}", text.replace('\n', "\r\n"))), parse(text));
}

#[test]
fn weights_keep_their_bits() {
    let mut rng = Rng::new(5);
    let special =
        [0, 1, 1 << 63, (1 << 63) + 1, (1 << 52) - 1, 1 << 52, 0x7ff0 << 48, 0xfff0 << 48, 0x7ff8 << 48, u64::MAX];
    for bits in special.into_iter().chain((0..20_000).map(|_| rng.next())) {
        let text = format!("search\n weight {}, steps 1", weight_text(bits));
        let mut line = Line::new(1, &text[8..]).unwrap();
        line.word("weight").unwrap();
        assert_eq!(weight(&mut line), Ok(bits), "{text}");
    }
    let shown: Vec<String> = [0.5, 0.0, 1.0, 0.1, 5e-324].iter().map(|w: &f64| weight_text(w.to_bits())).collect();
    assert_eq!(shown, ["0.5", "0", "1", "0.1", "5e-324"]);
    assert_eq!(weight_text(1 << 63), "bits 0x8000000000000000");
}

fn goes_round(bytes: &[u8]) {
    let text = show(bytes).unwrap();
    assert_eq!(parse(&text).as_deref(), Ok(bytes));
    assert_eq!(show(&parse(&text).unwrap()), Ok(text));
}

#[test]
fn every_class_goes_round() {
    for class in Class::ALL {
        for seed in 0..60 {
            goes_round(&generate::plan(seed, class).to_bytes());
        }
    }
}

#[test]
fn refused_inputs_go_round_where_the_counts_hold() {
    let mut shown = 0;
    let by_chance = (0..3_000).map(|seed| damage::damage(&damage::sample().to_bytes(), seed));
    let all = damage::every(&damage::sample()).into_iter().map(|(_, bytes)| bytes);
    for bytes in all.chain(by_chance) {
        match show(&bytes) {
            Ok(_) => {
                goes_round(&bytes);
                shown += 1;
            }
            Err(message) => assert!(message.starts_with("byte "), "{message}"),
        }
    }
    assert!(shown > 2_000, "{shown}");
}

/// Any words under counts that hold, also with no machine, no task, no search and a wrong number of times.
#[test]
fn any_words_go_round() {
    let mut rng = Rng::new(17);
    for _ in 0..2_000 {
        let mut words = Vec::new();
        for width in [5, 1, 0, 3, 2, 4, 2, 3, 1, 1] {
            let count = rng.below(6);
            let width = if width == 0 { count } else { width };
            words.push(count as u32);
            for _ in 0..count * width {
                let any = rng.next() as u32;
                words.push(rng.pick(&[0, 1, 2, 8, any, u32::MAX, 1 << 31]));
            }
        }
        let mut bytes: Vec<u8> = words.into_iter().flat_map(u32::to_le_bytes).collect();
        bytes.resize(bytes.len() + rng.index(3), 0xab);
        goes_round(&bytes);
    }
}

#[test]
fn show_tells_where_the_words_end() {
    let bytes = damage::sample().to_bytes();
    for length in 0..bytes.len() {
        let message = show(&bytes[..length]).unwrap_err();
        assert!(message.starts_with(&format!("byte {}: ", length / 4 * 4)), "{message}");
    }
    assert_eq!(show(&[]).unwrap_err(), "byte 0: the count word of tasks is missing");
    assert_eq!(show(&[255; 7]).unwrap_err(), "byte 4: a word of tasks is cut short (its count is 4294967295)");
}

/// Pieces that mutations put into a text.
const PIECES: [&str; 24] = [
    "task",
    "activity",
    "machine",
    "every",
    "0",
    "-1",
    "99999999999999999999999999999999999999999999",
    "4294967295",
    ":",
    ",",
    "(",
    ")",
    "\"",
    "#",
    "\n",
    "damage",
    "cut at byte 3",
    "0x",
    "é",
    "\u{feff}",
    "-",
    "times",
    "bits",
    "\r",
];

fn mutate(text: &str, rng: &mut Rng) -> String {
    let mut chars: Vec<char> = text.chars().collect();
    for _ in 0..rng.within(1, 3) {
        let at = rng.index(chars.len());
        let end = (at + rng.index(12) + 1).min(chars.len());
        match rng.below(8) {
            0 => drop(chars.drain(at..end)),
            1 => drop(chars.splice(at..at, rng.pick(&PIECES).chars())),
            2 => drop(chars.splice(at..end, rng.pick(&PIECES).chars())),
            3 => {
                let piece: Vec<char> = chars[at..end].to_vec();
                let to = rng.index(chars.len());
                drop(chars.splice(to..to, piece));
            }
            4 => chars[at] = (rng.below(96) as u8 + 32) as char,
            // Another digit: often still a plan.
            _ => {
                if let Some(digit) = chars[at..].iter().position(char::is_ascii_digit) {
                    chars[at + digit] = (rng.below(10) as u8 + b'0') as char;
                }
            }
        }
        if chars.is_empty() {
            chars.push('#');
        }
    }
    chars.into_iter().collect()
}

#[test]
fn mutated_texts_are_read_or_told_never_a_panic() {
    let mut rng = Rng::new(23);
    let mut texts = vec![SAMPLE.to_string(), undamaged().to_string()];
    texts.push(format!("{}lines\n  machine 0: activities 3 0\n  machine 1: nothing\n", undamaged()));
    texts.extend((0..6).map(|seed| show(&generate::plan(seed, Class::Tiny).to_bytes()).unwrap()));
    let (mut read, mut told) = (0, 0);
    for round in 0..20_000 {
        let text = mutate(&texts[round % texts.len()], &mut rng);
        match parse(&text) {
            Ok(bytes) => {
                read += 1;
                if let Ok(shown) = show(&bytes) {
                    assert_eq!(parse(&shown), Ok(bytes));
                }
            }
            Err(error) => {
                told += 1;
                assert!((1..=text.lines().count().max(1)).contains(&error.line), "{error}");
                assert!(!error.message.is_empty());
            }
        }
    }
    assert!(read > 1_000 && told > 1_000, "{read} read, {told} told");
}

#[test]
fn the_print_that_a_text_says_is_found() {
    assert_eq!(
        expected_print("#= outcome 10\ntasks # = x\n  #=fitness 00\n").as_deref(),
        Some("outcome 10\nfitness 00\n")
    );
    assert_eq!(expected_print("tasks\n# no print\n"), None);
}

/// Refused plans must say the refusal that the judge gives, the others that they are accepted.
#[test]
fn the_plans_of_this_folder_are_read() {
    let folder = concat!(env!("CARGO_MANIFEST_DIR"), "/plans");
    let mut number = 0;
    for entry in std::fs::read_dir(folder).expect("the plans' folder") {
        let path = entry.expect("an entry of the folder").path();
        if path.extension().is_some_and(|extension| extension == "plan") {
            let text = std::fs::read_to_string(&path).expect("a plan's text");
            let bytes = parse(&text).unwrap_or_else(|error| panic!("{}: {error}", path.display()));
            let print = expected_print(&text).unwrap_or_default();
            match crate::judge::judge(&bytes) {
                Ok(()) => assert!(print.starts_with("outcome "), "{}", path.display()),
                Err((number, place)) => {
                    assert_eq!(print, format!("refused {number} {place}\n"), "{}", path.display())
                }
            }
            number += 1;
        }
    }
    assert!(number > 50, "{number}");
}
