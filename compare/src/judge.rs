//! Document 01's reader once more, in other words, so that `read` and the damages are not judged by themselves.

struct Reader<'a> {
    bytes: &'a [u8],
    at: usize,
}

type Refusal = (u32, usize);

impl Reader<'_> {
    fn word(&mut self) -> Result<u32, Refusal> {
        if self.bytes.len() < self.at + 4 {
            return Err((1, self.at));
        }
        let mut word = [0; 4];
        word.copy_from_slice(&self.bytes[self.at..self.at + 4]);
        self.at += 4;
        Ok(u32::from_le_bytes(word))
    }

    fn within(&mut self, least: u32, most: u32) -> Result<u32, Refusal> {
        let word = self.word()?;
        if word < least || word > most {
            return Err((2, self.at - 4));
        }
        Ok(word)
    }
}

/// `Ok` if the bytes are accepted, else the number and the place.
pub fn judge(bytes: &[u8]) -> Result<(), Refusal> {
    const TIME: u32 = 2_147_483_647;
    let r = &mut Reader { bytes, at: 0 };
    let mut owner = Vec::new();
    for task in 0..r.within(1, 32)? {
        r.within(0, 7)?;
        r.word()?;
        let flag = r.within(0, 1)?;
        r.within(0, if flag == 0 { 0 } else { u32::MAX })?;
        for _ in 0..r.within(1, 128)? {
            owner.push(task);
        }
    }
    let n = r.within(1, 128)?;
    if n as usize != owner.len() {
        return Err((3, r.at - 4));
    }
    for _ in 0..n {
        r.word()?;
    }
    let machines = r.within(1, 16)?;
    for _ in 0..machines * machines {
        r.within(0, TIME)?;
    }
    if r.word()? != n * machines {
        return Err((3, r.at - 4));
    }
    for _ in 0..3 * n * machines {
        r.within(0, TIME)?;
    }
    let mut pairs: Vec<(u32, u32)> = Vec::new();
    for _ in 0..r.within(0, 2_048)? {
        let pair = (r.within(0, n - 1)?, r.within(0, machines - 1)?);
        if pairs.contains(&pair) || pairs.last().is_some_and(|last| last.0 > pair.0) {
            return Err((3, r.at - 8));
        }
        pairs.push(pair);
    }
    let mut last = None;
    for _ in 0..r.within(0, 1_152)? {
        let triple = Some((r.within(0, machines - 1)?, r.within(0, 8)?, r.within(0, 7)?));
        r.within(0, TIME)?;
        if triple <= last {
            return Err((3, r.at - 16));
        }
        last = triple;
    }
    let mut arcs: Vec<(u32, u32)> = Vec::new();
    for _ in 0..r.within(0, 256)? {
        let arc = (r.within(0, n - 1)?, r.within(0, n - 1)?);
        if arcs.last().is_some_and(|last| last.0 > arc.0) {
            return Err((3, r.at - 8));
        }
        arcs.push(arc);
    }
    r.within(1, 1)?;
    let low = r.at;
    let weight = f64::from_bits(u64::from(r.word()?) | u64::from(r.word()?) << 32);
    if !(0.0..=1.0).contains(&weight) {
        return Err((2, low));
    }
    r.within(0, 1_000)?;
    for _ in 0..r.within(0, 256)? {
        r.word()?;
    }
    let assigned = r.within(0, 128)?;
    if assigned > n {
        return Err((3, r.at - 4));
    }
    for _ in 0..assigned {
        let machine = r.word()?;
        if machine != u32::MAX && machine >= machines {
            return Err((2, r.at - 4));
        }
    }
    if r.at < bytes.len() {
        return Err((5, r.at));
    }
    arcs.extend((1..n).filter(|&a| owner[a as usize] == owner[a as usize - 1]).map(|a| (a, a - 1)));
    // Whoever waits for nothing left is taken away; a circle stays.
    let mut left: Vec<u32> = (0..n).collect();
    loop {
        let waits = |a: u32| arcs.iter().any(|arc| arc.0 == a && left.contains(&arc.1));
        let still: Vec<u32> = left.iter().copied().filter(|&a| waits(a)).collect();
        if still.is_empty() {
            return Ok(());
        }
        if still.len() == left.len() {
            return Err((4, 0));
        }
        left = still;
    }
}
