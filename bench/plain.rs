//! Branch and bound for one bay in plain Rust, with nothing proved: it goes through the tree that `crp prove` goes through
//! with one worker, and keeps its symbols in a row. The yardstick for speed.
//!
//! usage: plain BUDGET < HEAD, where HEAD is a bay as `crp prove` reads it
//! It prints the answer, the expansions and the nodes.
use std::io::Read;

/// The least ordered rank of a stack without one.
const NONE: u8 = u8::MAX;

/// A container that stands: its rank, and the least ordered rank at or below it.
#[derive(Clone, Copy, Default)]
struct Standing {
    rank: u8,
    least: u8,
}

/// The containers of a row, from bottom to top.
#[derive(Clone, Copy, Default)]
struct Stack {
    cells: [Standing; 8],
    height: usize,
}

impl Stack {
    fn containers(&self) -> &[Standing] {
        &self.cells[..self.height]
    }

    fn top(&self) -> Option<&Standing> {
        self.containers().last()
    }
}

/// What a relocation changed, besides the stacks.
struct Undo {
    from: usize,
    to: usize,
    next: u8,
}

struct Bay {
    stacks: [Stack; 12],
    rows: usize,
    tiers: usize,
    ordered: u8,
    next: u8,
    /// By rank: the row where it stands, or stood when it left.
    row_of: [usize; 97],
    blocking: u32,
}

impl Bay {
    fn least(&self, row: usize) -> u8 {
        self.stacks[row].top().map_or(NONE, |top| top.least)
    }

    fn put(&mut self, row: usize, rank: u8) {
        let below = self.least(row);
        self.blocking += u32::from(below < rank);
        let own = if rank <= self.ordered { rank } else { NONE };
        let stack = &mut self.stacks[row];
        stack.cells[stack.height] = Standing { rank, least: below.min(own) };
        stack.height += 1;
        self.row_of[rank as usize] = row;
    }

    fn lift(&mut self, row: usize) -> u8 {
        let stack = &mut self.stacks[row];
        stack.height -= 1;
        let rank = stack.cells[stack.height].rank;
        self.blocking -= u32::from(self.least(row) < rank);
        rank
    }

    fn is_done(&self) -> bool {
        self.next > self.ordered
    }

    fn source(&self) -> usize {
        self.row_of[self.next as usize]
    }

    fn is_target(&self, row: usize) -> bool {
        row != self.source() && self.stacks[row].height < self.tiers
    }

    /// Makes every retrieval that is legal.
    fn settle(&mut self) {
        while !self.is_done() && self.stacks[self.source()].top().unwrap().rank == self.next {
            self.lift(self.source());
            self.next += 1;
        }
    }

    fn relocate(&mut self, to: usize) -> Undo {
        let undo = Undo { from: self.source(), to, next: self.next };
        let rank = self.lift(undo.from);
        self.put(to, rank);
        self.settle();
        undo
    }

    fn undo(&mut self, undo: Undo) {
        while self.next > undo.next {
            self.next -= 1;
            self.put(self.source(), self.next);
        }
        let rank = self.lift(undo.to);
        self.put(undo.from, rank);
    }

    /// The greatest of the least ordered ranks of the other rows with room, where so much of each stack is left; 0 where none has room.
    fn widest(&self, heights: &[usize; 12], row: usize) -> u8 {
        let mut widest = 0;
        for other in 0..self.rows {
            if other != row && heights[other] < self.tiers {
                let least = if heights[other] == 0 { NONE } else { self.stacks[other].cells[heights[other] - 1].least };
                widest = widest.max(least);
            }
        }
        widest
    }

    /// The look-ahead bound, or as much of it as is `enough`, where it reaches `need`. Each container counts once more at most, and
    /// only one that blocks.
    fn look_ahead_reaching(&self, need: u32, enough: u32) -> Option<u32> {
        let need = need.saturating_sub(self.blocking);
        let enough = enough.saturating_sub(self.blocking).max(need);
        let mut still = self.blocking;
        if still < need {
            return None;
        }
        let mut heights = [0; 12];
        for row in 0..self.rows {
            heights[row] = self.stacks[row].height;
        }
        let mut again = 0;
        for rank in self.next..=self.ordered {
            let row = self.row_of[rank as usize];
            let stack = &self.stacks[row];
            if heights[row] == 0 || stack.cells[heights[row] - 1].least != rank {
                continue;
            }
            let mut at = heights[row] - 1;
            if stack.cells[at].rank != rank {
                let widest = self.widest(&heights, row);
                if widest == NONE {
                    break;
                }
                while stack.cells[at].rank != rank {
                    again += u32::from(widest < stack.cells[at].rank);
                    still -= 1;
                    at -= 1;
                }
                if again + still < need {
                    return None;
                }
                if again >= enough {
                    return Some(self.blocking + again);
                }
            }
            heights[row] = at;
        }
        (again >= need).then_some(self.blocking + again)
    }

    /// How many relocations the greedy plan has, if the rule leads to one.
    fn first_plan(&mut self) -> Option<u32> {
        let empty = 1 + self.stacks.iter().map(|stack| stack.height).sum::<usize>() as u16;
        let mut undos = Vec::new();
        while !self.is_done() {
            let blocker = u16::from(self.stacks[self.source()].top().unwrap().rank);
            let rows = (0..self.rows).filter(|row| self.is_target(*row));
            let ranked = rows.map(|row| (self.stacks[row].containers().iter().map(|c| u16::from(c.rank)).min().unwrap_or(empty), row));
            // the smallest least rank above the blocker, else the largest; ties go to the lowest row
            let best = ranked.min_by_key(|(rank, row)| (*rank < blocker, if *rank < blocker { empty - rank } else { *rank }, *row));
            let Some((_, row)) = best else {
                break;
            };
            undos.push(self.relocate(row));
        }
        let count = self.is_done().then_some(undos.len() as u32);
        while let Some(undo) = undos.pop() {
            self.undo(undo);
        }
        count
    }
}

struct Search {
    bay: Bay,
    limit: u32,
    lower: u32,
    left: u64,
    expanded: u64,
    symbols: Vec<u8>,
}

impl Search {
    fn cut(&mut self, symbol: u8, value: u32) {
        self.symbols.push(symbol);
        self.lower = self.lower.min(value);
    }

    /// Searches the node that so many relocations lead to.
    fn search(&mut self, length: u32) {
        if self.bay.is_done() {
            self.limit = self.limit.min(length);
            return self.cut(b'B', length);
        }
        let low = length + self.bay.blocking;
        if low >= self.limit {
            return self.cut(b'B', low);
        }
        let need = if self.left == 0 { 0 } else { self.limit - length };
        // a bound that lowers no value is counted no further; where no expansion is left, it is, since it may be the blocking bound
        let enough = if self.left == 0 { u32::MAX } else { self.lower.saturating_sub(length) };
        if let Some(bound) = self.bay.look_ahead_reaching(need, enough) {
            let high = length + bound;
            return self.cut(if high == low { b'B' } else { b'L' }, high);
        }
        self.symbols.push(b'X');
        self.left -= 1;
        self.expanded += 1;
        for row in 0..self.bay.rows {
            if self.bay.is_target(row) {
                let undo = self.bay.relocate(row);
                self.search(length + 1);
                self.bay.undo(undo);
            }
        }
    }
}

fn numbers(line: &str) -> Vec<usize> {
    line.split(' ').skip(1).map(|word| word.parse().expect("a number")).collect()
}

fn main() {
    let budget = std::env::args().nth(1).expect("a budget").parse().expect("a number");
    let mut text = String::new();
    std::io::stdin().read_to_string(&mut text).expect("a text");
    let mut lines = text.lines().skip(2);
    let size = numbers(lines.next().expect("a size"));
    let (rows, tiers, ordered) = (size[0], size[1], size[2]);
    let cap = (ordered * (tiers - 1) + 1) as u32;
    let mut bay = Bay { stacks: Default::default(), rows, tiers, ordered: ordered as u8, next: 1, row_of: [0; 97], blocking: 0 };
    for (row, line) in lines.take(rows).enumerate() {
        for rank in numbers(line) {
            bay.put(row, rank as u8);
        }
    }
    bay.settle();
    let limit = bay.first_plan().unwrap_or(cap);
    let mut search = Search { bay, limit, lower: cap, left: budget, expanded: 0, symbols: Vec::new() };
    search.search(0);
    let lower = search.lower.min(search.limit);
    println!("{lower} to {} expanded {} nodes {}", search.limit, search.expanded, search.symbols.len());
}
