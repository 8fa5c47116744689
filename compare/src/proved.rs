//! The proved library's calls, as the checks make them, through the wrapper that programs in Rust have (`lavkkesto`).
//! `Calls` is what the checks ask of it, so that their own tests can put an imitation in its place.

pub use lavkkesto::{Answer, Checked, Ended, Looked, CELLS, MACHINES, MOVE_CELLS, PLACES, RANK, ROW, STRETCH};

use crate::published::Decoder;

/// Lines as the calls take them: machine m's line is the first `lens[m]` cells from `128 * m` on.
#[derive(Clone, Debug, PartialEq, Eq)]
pub struct Given {
    pub cells: Vec<usize>,
    pub lens: [usize; MACHINES],
}

/// The five buffers that rows are written to, one row a place.
#[derive(Clone, Debug, PartialEq, Eq)]
pub struct Buffers {
    pub activities: Vec<usize>,
    pub machines: Vec<usize>,
    pub starts: Vec<u64>,
    pub ends: Vec<u64>,
    pub setups: Vec<u64>,
}

impl Buffers {
    fn lent(&mut self) -> lavkkesto::Rows<'_> {
        let Buffers { activities, machines, starts, ends, setups } = self;
        lavkkesto::Rows { activities, machines, starts, ends, setups }
    }
}

/// The two buffers that an improved order and its assignment are written to.
#[derive(Clone, Debug, PartialEq, Eq)]
pub struct Genes {
    pub tasks: Vec<usize>,
    pub machines: Vec<usize>,
}

/// The four buffers that a step of the search is shown in.
#[derive(Clone, Debug, PartialEq, Eq)]
pub struct Views {
    pub path: Vec<usize>,
    pub moves: Vec<usize>,
    pub kept: Vec<usize>,
    pub ranks: Vec<u64>,
}

/// The library's calls.
pub trait Calls: Sync {
    /// Times the given lines.
    fn time(&self, input: &[u8], lines: &Given, rows: &mut Buffers) -> Answer;

    /// Times the lines that the input's own Order and Assignment give.
    fn time_order(&self, input: &[u8], rows: &mut Buffers) -> Answer;

    /// Takes the plan in once and times the lines so often; the greatest end of the last timing, 0 where refused.
    fn time_again(&self, input: &[u8], lines: &Given, times: usize) -> u64;

    fn decode(&self, decoder: Decoder, input: &[u8], rows: &mut Buffers) -> Answer;

    /// Checks a sheet: rows of four numbers, one after the other.
    fn check(&self, input: &[u8], rows: &[i64]) -> Checked;

    /// Improves; the cells are work space.
    fn improve(&self, input: &[u8], cells: &mut [usize], genes: &mut Genes) -> Ended;

    /// Shows one step of the search on the given lines.
    fn look(&self, input: &[u8], lines: &Given, views: &mut Views) -> Looked;
}

/// The linked library.
#[derive(Clone, Copy)]
pub struct Library(());

impl Library {
    /// The library for a tool that makes these calls.
    pub fn linked(calls: &[&str]) -> Result<Library, String> {
        match calls.iter().find(|call| lavkkesto::lacking().any(|lacking| lacking == **call)) {
            None => Ok(Library(())),
            Some(call) if option_env!("LAVKKESTO_LIB").is_some() => {
                Err(format!("the archive that LAVKKESTO_LIB names has no {call}"))
            }
            Some(_) => Err("built without the proved library: LAVKKESTO_LIB names the archive that \
                            `compare/archive` writes, target/staticlib/liblibrary.a"
                .to_string()),
        }
    }
}

impl Calls for Library {
    fn time(&self, input: &[u8], lines: &Given, rows: &mut Buffers) -> Answer {
        lavkkesto::time(input, &lines.cells, &lines.lens, rows.lent())
    }

    fn time_order(&self, input: &[u8], rows: &mut Buffers) -> Answer {
        lavkkesto::time_order(input, rows.lent())
    }

    fn time_again(&self, input: &[u8], lines: &Given, times: usize) -> u64 {
        lavkkesto::time_again(input, &lines.cells, &lines.lens, times)
    }

    fn decode(&self, decoder: Decoder, input: &[u8], rows: &mut Buffers) -> Answer {
        match decoder {
            Decoder::InOrder => lavkkesto::in_order(input, rows.lent()),
            Decoder::Active => lavkkesto::active(input, rows.lent()),
            Decoder::Better => lavkkesto::decode(input, rows.lent()),
        }
    }

    fn check(&self, input: &[u8], rows: &[i64]) -> Checked {
        lavkkesto::check(input, rows)
    }

    fn improve(&self, input: &[u8], cells: &mut [usize], genes: &mut Genes) -> Ended {
        lavkkesto::improve(input, cells, &mut genes.tasks, &mut genes.machines)
    }

    fn look(&self, input: &[u8], lines: &Given, views: &mut Views) -> Looked {
        let Views { path, moves, kept, ranks } = views;
        lavkkesto::look(input, &lines.cells, &lines.lens, lavkkesto::Views { path, moves, kept, ranks })
    }
}
