//! The blocks of a random function: where each goes to, and which ones come before which on every way.
use crate::rng::Rng;

/// How a block ends, by the numbers of the blocks it goes to.
pub enum Ending {
    Ret,
    Br(usize),
    CondBr(usize, usize),
    /// The default, and a target for each case.
    Switch(usize, Vec<usize>),
    Unreachable,
}

pub struct Flow {
    pub endings: Vec<Ending>,
    /// For each block, the blocks that every way to it passes, itself among them, as bits.
    before: Vec<u32>,
}

impl Flow {
    pub fn new(rng: &mut Rng, count: usize) -> Flow {
        let endings = (0..count).map(|block| ending(rng, block, count)).collect();
        let mut flow = Flow { endings, before: vec![] };
        if count > 0 {
            flow.find_dominators();
        }
        flow
    }

    pub fn targets(&self, block: usize) -> Vec<usize> {
        match &self.endings[block] {
            Ending::Ret | Ending::Unreachable => vec![],
            Ending::Br(to) => vec![*to],
            Ending::CondBr(yes, no) => vec![*yes, *no],
            Ending::Switch(default, cases) => [&[*default], &cases[..]].concat(),
        }
    }

    /// The blocks that go to this one, each once.
    pub fn predecessors(&self, block: usize) -> Vec<usize> {
        (0..self.endings.len()).filter(|from| self.targets(*from).contains(&block)).collect()
    }

    fn find_dominators(&mut self) {
        let count = self.endings.len();
        self.before = vec![(1 << count) - 1; count];
        self.before[0] = 1;
        loop {
            let mut changed = false;
            for block in 1..count {
                let every = self.predecessors(block).iter().fold((1 << count) - 1, |every, from| every & self.before[*from]);
                let now = every | 1 << block;
                changed |= now != self.before[block];
                self.before[block] = now;
            }
            if !changed {
                break;
            }
        }
        // Blocks that no way leads to.
        let reached = self.reached(0);
        for block in 1..count {
            if reached >> block & 1 == 0 {
                self.before[block] = 1 << block;
            }
        }
    }

    /// The blocks that a way leads to from here, as bits; this one only where a way leads back.
    fn reached(&self, from: usize) -> u32 {
        let mut reached = 0u32;
        let mut open = self.targets(from);
        while let Some(block) = open.pop() {
            if reached >> block & 1 == 0 {
                reached |= 1 << block;
                open.extend(self.targets(block));
            }
        }
        reached
    }

    pub fn in_loop(&self, block: usize) -> bool {
        self.reached(block) >> block & 1 == 1
    }

    pub fn dominators(&self, block: usize) -> Vec<usize> {
        (0..self.endings.len()).filter(|other| self.dominates(*other, block)).collect()
    }

    pub fn dominates(&self, first: usize, block: usize) -> bool {
        self.before[block] >> first & 1 == 1
    }

    /// Whether this edge leads back to a block that every way to its beginning has passed.
    pub fn leads_back(&self, from: usize, to: usize) -> bool {
        self.targets(from).contains(&to) && self.dominates(to, from)
    }

    /// An order in which a block comes after those that every way to it passes.
    pub fn order(&self) -> Vec<usize> {
        let mut blocks: Vec<usize> = (0..self.endings.len()).collect();
        blocks.sort_by_key(|block| self.before[*block].count_ones());
        blocks
    }
}

/// Mostly onwards by one or two, sometimes back to any block but the first.
fn target(rng: &mut Rng, block: usize, count: usize) -> usize {
    if block > 0 && rng.chance(300) {
        return if rng.chance(30) { 0 } else { rng.range(1, block) };
    }
    (block + rng.range(1, 2)).min(count - 1)
}

fn ending(rng: &mut Rng, block: usize, count: usize) -> Ending {
    if block + 1 == count {
        return match rng.below(40) {
            0 => Ending::Unreachable,
            1..=4 if count > 2 => Ending::CondBr(rng.range(1, count - 1), rng.range(1, count - 1)),
            _ => Ending::Ret,
        };
    }
    match rng.below(100) {
        0..=5 => Ending::Ret,
        6..=35 => Ending::Br(target(rng, block, count)),
        36..=74 => Ending::CondBr(target(rng, block, count), target(rng, block, count)),
        75..=98 => {
            let cases = rng.below(4);
            Ending::Switch(target(rng, block, count), (0..cases).map(|_| target(rng, block, count)).collect())
        }
        _ => Ending::Unreachable,
    }
}
