//! What the plain engine must answer, at any costs: the cheapest way by Dijkstra's rule, with no estimate and no limit; and
//! whether a path is lawful. The steps are those of the plain router.

use std::cmp::Reverse;
use std::collections::BinaryHeap;

use crate::Refusal;
use crate::room::{Config, moves};
use crate::search::{Question, Search};

/// Of an answer all but its path, which is free among the cheapest.
#[derive(Clone, Copy, Debug, Eq, PartialEq)]
pub enum Cheapest {
    Refused(Refusal),
    Cost(u64),
}

impl Cheapest {
    /// The number of a refusal; 0 for a route.
    pub fn number(&self) -> u8 {
        match self {
            Self::Refused(refusal) => refusal.number,
            Self::Cost(_) => 0,
        }
    }
}

#[derive(Clone, Copy, Debug, Eq, PartialEq)]
pub struct Swept {
    pub sweeps: usize,
    pub reached: usize,
}

impl Search {
    /// The same room, costs and ends; the node limit and the queue have no part in the plain engine, so neither is refused.
    fn without_limits(&self) -> Self {
        Self {
            config: Config {
                node_limit: 0,
                ..self.config
            },
            queue: 1,
            ..self.clone()
        }
    }

    /// What is due of the plain engine: 2, 3, 6, 5, 4, 10 or 11, in this order, or the least cost.
    pub fn cheapest(&self) -> Cheapest {
        match self.without_limits().judge() {
            Err(refusal) => Cheapest::Refused(refusal),
            Ok(room) => self.question(&room, 0).cheapest(),
        }
    }

    /// What the steps of a path add up to; none if it leads elsewhere than from start to goal, or a step is not lawful.
    pub fn lawful_cost(&self, path: &[u32]) -> Option<u64> {
        let room = self.without_limits().judge().ok()?;
        let question = self.question(&room, 0);
        let leads = path.first() == Some(&self.start) && path.last() == Some(&self.goal);
        if !leads {
            return None;
        }
        path.windows(2)
            .map(|pair| question.price(pair[0] as usize, pair[1] as usize))
            .sum()
    }

    /// How many sweeps the plain engine makes, the last of them changing nothing, and how many cells are reached then: from each
    /// known cell in number order its moves, in place. None of input that is refused.
    pub fn sweeps(&self) -> Option<Swept> {
        let room = self.without_limits().judge().ok()?;
        Some(self.question(&room, 0).sweeps())
    }
}

impl Question<'_> {
    /// The least cost from the start to the goal, or number 10 or 11.
    fn cheapest(&self) -> Cheapest {
        let ends = [self.start, self.goal];
        if let Some(cell) = ends.into_iter().find(|cell| !self.routeable(*cell)) {
            return Cheapest::Refused(Refusal::new(10, cell as u32));
        }
        let costs = self.least_costs();
        match costs[self.goal] {
            Some(cost) => Cheapest::Cost(cost),
            None => Cheapest::Refused(Refusal::new(11, costs.iter().flatten().count() as u32)),
        }
    }

    /// The least cost of each cell that lawful steps lead to. Cells are taken in the order of their cost, so the first time
    /// is the cheapest.
    fn least_costs(&self) -> Vec<Option<u64>> {
        let mut costs = vec![None; self.room.cells()];
        let mut waiting = BinaryHeap::from([Reverse((0, self.start))]);
        while let Some(Reverse((cost, cell))) = waiting.pop() {
            if costs[cell].is_none() {
                costs[cell] = Some(cost);
                let steps = moves().filter_map(|offset| self.step(cell, offset));
                waiting.extend(steps.map(|(next, price)| Reverse((cost + price.total(), next))));
            }
        }
        costs
    }

    /// The price of the step from a cell to the next of a path; none if it is not lawful.
    fn price(&self, cell: usize, next: usize) -> Option<u64> {
        let mut steps = moves().filter_map(|offset| self.step(cell, offset));
        steps
            .find(|(to, _)| *to == next)
            .map(|(_, price)| price.total())
    }

    fn sweeps(&self) -> Swept {
        let mut costs = vec![None; self.room.cells()];
        costs[self.start] = Some(0);
        let mut sweeps = 1;
        while self.sweep(&mut costs) {
            sweeps += 1;
        }
        Swept {
            sweeps,
            reached: costs.iter().flatten().count(),
        }
    }

    /// One sweep; whether it lowered a cost.
    fn sweep(&self, costs: &mut [Option<u64>]) -> bool {
        let mut changed = false;
        for cell in 0..costs.len() {
            let Some(cost) = costs[cell] else { continue };
            for (next, price) in moves().filter_map(|offset| self.step(cell, offset)) {
                let cost = cost + price.total();
                if costs[next].is_none_or(|known| cost < known) {
                    costs[next] = Some(cost);
                    changed = true;
                }
            }
        }
        changed
    }
}
