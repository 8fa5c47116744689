//! Lines given to timing: for each machine from 0 on, its activities in their order there.

use crate::plan::Plan;
use crate::read::Refused;

/// No line is longer.
const LONGEST_LINE: usize = 128;

/// As words: for each machine a count and that many activities. An error says how the bytes do not have this form.
pub fn read(bytes: &[u8]) -> Result<Vec<Vec<u32>>, String> {
    let words = bytes.chunks(4).map(|word| word.try_into().ok().map(u32::from_le_bytes)).collect::<Option<Vec<u32>>>();
    let words = words.ok_or_else(|| format!("the lines end inside the word at byte {}", bytes.len() / 4 * 4))?;
    let mut lines = Vec::new();
    let mut left = words.as_slice();
    while let Some((&count, rest)) = left.split_first() {
        let Some((line, rest)) = rest.split_at_checked(count as usize) else {
            return Err(format!("the line of machine {} says {count}, and {} words follow", lines.len(), rest.len()));
        };
        lines.push(line.to_vec());
        left = rest;
    }
    Ok(lines)
}

pub fn to_bytes(lines: &[Vec<u32>]) -> Vec<u8> {
    let words = lines.iter().flat_map(|line| std::iter::once(line.len() as u32).chain(line.iter().copied()));
    words.flat_map(u32::to_le_bytes).collect()
}

/// The plan's R lines, machines after the last one given being empty; or number 7.
pub fn checked(plan: &Plan, lines: &[Vec<u32>]) -> Result<Vec<Vec<usize>>, Refused> {
    let machines = plan.transports.len();
    let mut missing = vec![true; plan.activities.len()];
    let mut good = lines.iter().all(|line| line.len() <= LONGEST_LINE);
    good &= lines.iter().skip(machines).all(Vec::is_empty);
    for &activity in lines.iter().flatten() {
        // known, and not named before
        good &= missing.get_mut(activity as usize).is_some_and(|missing| std::mem::replace(missing, false));
    }
    if !good || missing.contains(&true) {
        return Err(Refused { number: 7, place: 0 });
    }
    let mut own: Vec<Vec<usize>> = lines.iter().map(|line| line.iter().map(|&a| a as usize).collect()).collect();
    own.resize(machines, Vec::new());
    Ok(own)
}
