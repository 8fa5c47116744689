//! Buffers lent to the library's calls: full of anything before, and looked at place by place after.

use crate::answers::{Sheet, Step};
use crate::generate::Rng;
use crate::proved::{Answer, Buffers, Genes, Looked, Views, PLACES, RANK, ROW};
use crate::read::Refused;

pub const TOO_SHORT: Refused = Refused { number: 6, place: 0 };

/// So many places as a buffer needs, or more.
pub fn enough(least: usize, rng: &mut Rng) -> usize {
    least + rng.pick(&[0, 0, 1, 72])
}

/// Fewer places than a buffer needs, mostly one less.
pub fn too_few(least: usize, rng: &mut Rng) -> usize {
    match rng.below(4) {
        0 => rng.index(least),
        _ => least - 1,
    }
}

/// Five places that are enough.
pub fn five(rng: &mut Rng) -> [usize; 5] {
    std::array::from_fn(|_| enough(PLACES, rng))
}

pub fn numbers(places: usize, rng: &mut Rng) -> Vec<usize> {
    (0..places).map(|_| rng.next() as usize).collect()
}

/// Buffers of so many places.
pub fn buffers(places: [usize; 5], rng: &mut Rng) -> Buffers {
    let [activities, machines, starts, ends, setups] = places;
    let (activities, machines) = (numbers(activities, rng), numbers(machines, rng));
    let mut words = |places: usize| (0..places).map(|_| rng.next()).collect();
    Buffers { activities, machines, starts: words(starts), ends: words(ends), setups: words(setups) }
}

/// The buffers with the sheet that is due; as they were where a refusal is due.
pub fn written(mut buffers: Buffers, due: &Result<Sheet, Refused>) -> Buffers {
    let rows = due.as_ref().map_or(&[][..], |sheet| &sheet.rows);
    for (k, row) in rows.iter().enumerate() {
        buffers.activities[k] = row.activity;
        buffers.machines[k] = row.machine;
        buffers.starts[k] = row.start as u64;
        buffers.ends[k] = row.end as u64;
        buffers.setups[k] = row.setup as u64;
    }
    buffers
}

/// How an answer, or a place of the buffers, is not as it must be.
pub fn amiss(due: &Result<Sheet, Refused>, answer: Answer, before: Buffers, after: &Buffers) -> Option<String> {
    let due_answer = match due {
        Ok(sheet) => Answer::Rows { count: sheet.rows.len(), fitness: sheet.fitness },
        Err(refused) => Answer::Refused(*refused),
    };
    match answer == due_answer {
        true => differing(&written(before, due), after),
        false => Some(format!("due {due_answer:x?}, not {answer:x?}")),
    }
}

/// The first place where the buffers are not as they must be.
fn differing(due: &Buffers, found: &Buffers) -> Option<String> {
    first("activities", &due.activities, &found.activities)
        .or_else(|| first("machines", &due.machines, &found.machines))
        .or_else(|| first("starts", &due.starts, &found.starts))
        .or_else(|| first("ends", &due.ends, &found.ends))
        .or_else(|| first("setups", &due.setups, &found.setups))
}

/// The same for an order and its assignment.
pub fn differing_genes(due: &Genes, found: &Genes) -> Option<String> {
    first("tasks", &due.tasks, &found.tasks).or_else(|| first("machines", &due.machines, &found.machines))
}

/// Views of so many places.
pub fn views(places: [usize; 4], rng: &mut Rng) -> Views {
    let [path, moves, kept, ranks] = places;
    let (path, moves, kept) = (numbers(path, rng), numbers(moves, rng), numbers(kept, rng));
    Views { path, moves, kept, ranks: (0..ranks).map(|_| rng.next()).collect() }
}

/// The views with the step that is due; as they were where a refusal is due. Of three block moves or fewer none is
/// ranked: their ranks are 0.
pub fn shown(mut views: Views, due: &Result<Step, Refused>) -> Views {
    let Ok(step) = due else { return views };
    views.path.iter_mut().zip(&step.path).for_each(|(place, &activity)| *place = activity);
    for (row, moved) in views.moves.chunks_mut(ROW).zip(&step.blocks) {
        row.copy_from_slice(&moved.row());
    }
    for (row, tried) in views.kept.chunks_mut(ROW).zip(step.kept.iter().chain(&step.reassignments)) {
        row.copy_from_slice(&tried.moved.row());
    }
    let by_estimate = step.blocks.len() > 3;
    let of_blocks = step.kept.iter().map(|tried| [if by_estimate { tried.rank[0] } else { 0 }, 0]);
    let of_others = step.reassignments.iter().map(|tried| [tried.rank[0], tried.rank[1]]);
    for (rank, due) in views.ranks.chunks_mut(RANK).zip(of_blocks.chain(of_others)) {
        rank.copy_from_slice(&due.map(|number| number as u64));
    }
    views
}

/// How a step's answer, or a place of the views, is not as it must be.
pub fn amiss_in_view(due: &Result<Step, Refused>, looked: Looked, before: Views, after: &Views) -> Option<String> {
    let due_answer = match due {
        Ok(step) => Looked::Seen {
            path: step.path.len(),
            moves: step.blocks.len(),
            blocks: step.kept.len(),
            others: step.reassignments.len(),
            fitness: step.fitness,
        },
        Err(refused) => Looked::Refused(*refused),
    };
    match looked == due_answer {
        true => differing_views(&shown(before, due), after),
        false => Some(format!("due {due_answer:x?}, not {looked:x?}")),
    }
}

/// The first place where the views are not as they must be.
fn differing_views(due: &Views, found: &Views) -> Option<String> {
    first("path", &due.path, &found.path)
        .or_else(|| first("moves", &due.moves, &found.moves))
        .or_else(|| first("kept", &due.kept, &found.kept))
        .or_else(|| first("ranks", &due.ranks, &found.ranks))
}

fn first<T: PartialEq + std::fmt::Display>(name: &str, due: &[T], found: &[T]) -> Option<String> {
    let k = due.iter().zip(found).position(|(due, found)| due != found)?;
    Some(format!("place {k} of {name} must hold {}, not {}", due[k], found[k]))
}

#[cfg(test)]
mod tests {
    use super::*;

    #[test]
    fn every_place_of_the_buffers_is_looked_at() {
        let before = buffers([128, 129, 130, 131, 132], &mut Rng::new(2));
        assert_eq!(differing(&before, &before.clone()), None);
        let change: [fn(&mut Buffers); 5] = [
            |buffers| buffers.activities[127] ^= 1,
            |buffers| buffers.machines[128] ^= 1,
            |buffers| buffers.starts[129] ^= 1 << 63,
            |buffers| buffers.ends[0] ^= 1,
            |buffers| buffers.setups[131] ^= 1,
        ];
        for change in change {
            let mut after = before.clone();
            change(&mut after);
            assert!(differing(&before, &after).is_some());
        }
        let before = Genes { tasks: numbers(128, &mut Rng::new(3)), machines: numbers(129, &mut Rng::new(4)) };
        assert_eq!(differing_genes(&before, &before.clone()), None);
        let change: [fn(&mut Genes); 2] = [|genes| genes.tasks[127] ^= 1, |genes| genes.machines[128] ^= 1 << 63];
        for change in change {
            let mut after = before.clone();
            change(&mut after);
            assert!(differing_genes(&before, &after).is_some());
        }
        let before = views([128, 1_536, 129, 130], &mut Rng::new(5));
        assert_eq!(differing_views(&before, &before.clone()), None);
        let change: [fn(&mut Views); 4] = [
            |views| views.path[127] ^= 1,
            |views| views.moves[1_535] ^= 1 << 63,
            |views| views.kept[128] ^= 1,
            |views| views.ranks[129] ^= 1,
        ];
        for change in change {
            let mut after = before.clone();
            change(&mut after);
            assert!(differing_views(&before, &after).is_some());
        }
    }
}
