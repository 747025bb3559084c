//! The yardstick of plans in turn: the same search in Rust, with a bit for each cell in place of lists of cells. It draws the
//! maps and tasks of `plan_bench`, and writes the same line: `turns ROBOTS SIDE HORIZON BLOCKED SEED PLANS`.

#[derive(Clone, Copy, PartialEq)]
struct Cell {
    row: u32,
    col: u32,
}

struct Grid {
    side: u32,
    free: Vec<bool>,
}

impl Grid {
    fn index(&self, cell: Cell) -> usize {
        (cell.row * self.side + cell.col) as usize
    }

    fn cell(&self, index: usize) -> Cell {
        Cell { row: index as u32 / self.side, col: index as u32 % self.side }
    }

    fn apart(&self, a: usize, b: usize) -> usize {
        let (a, b) = (self.cell(a), self.cell(b));
        (a.row.abs_diff(b.row) + a.col.abs_diff(b.col)) as usize
    }

    /// The cell itself and those beside it, by row, then by column.
    fn around(&self, at: usize) -> impl Iterator<Item = usize> {
        let side = self.side as usize;
        let near = [
            (at >= side).then(|| at - side),
            (at % side > 0).then(|| at - 1),
            Some(at),
            (at % side + 1 < side).then(|| at + 1),
            (at + side < self.free.len()).then(|| at + side),
        ];
        near.into_iter().flatten()
    }
}

type Path = Vec<usize>;

fn at(path: &Path, tick: usize) -> usize {
    path[tick.min(path.len() - 1)]
}

/// By cell, one more than the robot that is in it at a tick and at the next one; 0 where there is none.
struct Traffic<'a> {
    grid: &'a Grid,
    fixed: &'a [Path],
    tick: usize,
    here: Vec<u32>,
    after: Vec<u32>,
}

impl<'a> Traffic<'a> {
    fn new(grid: &'a Grid, fixed: &'a [Path]) -> Self {
        let none = vec![0; grid.free.len()];
        Traffic { grid, fixed, tick: 0, here: none.clone(), after: none }
    }

    fn turn_to(&mut self, tick: usize) {
        for path in self.fixed {
            self.here[at(path, self.tick)] = 0;
            self.after[at(path, self.tick + 1)] = 0;
        }
        self.tick = tick;
        for (robot, path) in self.fixed.iter().enumerate() {
            self.here[at(path, tick)] = robot as u32 + 1;
            self.after[at(path, tick + 1)] = robot as u32 + 1;
        }
    }

    fn end_of(&self, robot: u32) -> usize {
        let mut end = at(&self.fixed[robot as usize - 1], self.tick + 1);
        while self.here[end] != 0 {
            end = at(&self.fixed[self.here[end] as usize - 1], self.tick + 1);
        }
        end
    }

    fn may_step(&self, from: usize, to: usize) -> bool {
        self.grid.free[to] && self.after[to] == 0 && (self.here[to] == 0 || self.end_of(self.here[to]) != from)
    }
}

fn has(layer: &[u64], at: usize) -> bool {
    layer[at / 64] >> (at % 64) & 1 == 1
}

fn mark(layer: &mut [u64], at: usize) {
    layer[at / 64] |= 1 << (at % 64);
}

/// The best path that arrives by the last tick.
fn path_by(grid: &Grid, fixed: &[Path], start: usize, goal: usize, from: usize, last: usize) -> Option<Path> {
    let words = grid.free.len().div_ceil(64);
    let mut traffic = Traffic::new(grid, fixed);
    if fixed.iter().any(|path| path[0] == start) || grid.apart(start, goal) > last {
        return None;
    }
    let mut layers = vec![vec![0; words]];
    mark(&mut layers[0], start);
    let mut reached = vec![start];
    let mut arrival = 0;
    while arrival < from || !has(&layers[arrival], goal) {
        if arrival == last || reached.is_empty() {
            return None;
        }
        traffic.turn_to(arrival);
        let (mut layer, mut cells) = (vec![0; words], Vec::new());
        for &cell in &reached {
            for to in grid.around(cell) {
                if !has(&layer, to) && arrival + 1 + grid.apart(to, goal) <= last && traffic.may_step(cell, to) {
                    mark(&mut layer, to);
                    cells.push(to);
                }
            }
        }
        layers.push(layer);
        reached = cells;
        arrival += 1;
    }
    layers[arrival] = vec![0; words];
    mark(&mut layers[arrival], goal);
    let mut lead = vec![goal];
    for tick in (0..arrival).rev() {
        traffic.turn_to(tick);
        let (mut layer, mut cells) = (vec![0; words], Vec::new());
        for &to in &lead {
            for cell in grid.around(to) {
                if has(&layers[tick], cell) && !has(&layer, cell) && traffic.may_step(cell, to) {
                    mark(&mut layer, cell);
                    cells.push(cell);
                }
            }
        }
        layers[tick] = layer;
        lead = cells;
    }
    let mut path = vec![start];
    for tick in 0..arrival {
        traffic.turn_to(tick);
        let here = path[tick];
        let next = grid.around(here).find(|&to| has(&layers[tick + 1], to) && traffic.may_step(here, to));
        path.push(next?);
    }
    Some(path)
}

/// The best path, sought for a last tick that grows.
fn best_path(grid: &Grid, fixed: &[Path], start: usize, goal: usize, horizon: usize) -> Option<Path> {
    let mut from = 0;
    for path in fixed {
        if path.last() == Some(&goal) {
            return None;
        }
        from = from.max(path.iter().rposition(|&cell| cell == goal).map_or(0, |tick| tick + 1));
    }
    let near = from.max(grid.apart(start, goal)).min(horizon);
    let mut slack = 0;
    while near + 2 * slack < horizon {
        if let Some(path) = path_by(grid, fixed, start, goal, from, near + slack) {
            return Some(path);
        }
        slack = 3 * slack + near / 16 + 8;
    }
    path_by(grid, fixed, start, goal, from, horizon)
}

/// Numbers that look drawn.
struct Numbers(u64);

impl Numbers {
    fn below(&mut self, end: u32) -> u32 {
        self.0 = self.0.wrapping_mul(6364136223846793005).wrapping_add(1442695040888963407);
        ((self.0 >> 33) as u32).checked_rem(end).unwrap_or(0)
    }

    fn cell(&mut self, side: u32) -> Cell {
        Cell { row: self.below(side), col: self.below(side) }
    }
}

fn tasks(numbers: &mut Numbers, grid: &Grid, robots: usize) -> Vec<(usize, usize)> {
    let mut tasks: Vec<(usize, usize)> = Vec::new();
    for _ in 0..64 * robots {
        if tasks.len() == robots {
            break;
        }
        let start = grid.index(numbers.cell(grid.side));
        let goal = grid.index(numbers.cell(grid.side));
        let shared = tasks.iter().any(|task| task.0 == start || task.1 == goal);
        if grid.free[start] && grid.free[goal] && !shared {
            tasks.push((start, goal));
        }
    }
    tasks
}

fn outcome(grid: &Grid, tasks: &[(usize, usize)], horizon: usize) -> String {
    let mut plan: Vec<Path> = Vec::new();
    for (robot, &(start, goal)) in tasks.iter().enumerate() {
        match best_path(grid, &plan, start, goal, horizon) {
            Some(path) => plan.push(path),
            None => return format!("no path for robot {robot}"),
        }
    }
    let last = plan.iter().map(|path| path.len() - 1).max().unwrap_or(0);
    let ticks: usize = plan.iter().map(|path| path.len() - 1).sum();
    format!("last tick {last}, {ticks} ticks in all")
}

fn main() {
    let words: Vec<u32> = std::env::args().skip(1).filter_map(|word| word.parse().ok()).collect();
    let [robots, side, horizon, blocked, seed, plans] = words[..] else {
        std::process::exit(2);
    };
    let mut numbers = Numbers(u64::from(seed));
    let free = (0..side * side).map(|_| numbers.below(100) >= blocked).collect();
    let grid = Grid { side, free };
    let tasks = tasks(&mut numbers, &grid, robots as usize);
    let mut told = String::from("no plan asked");
    for _ in 0..plans {
        told = outcome(&grid, &tasks, horizon as usize);
    }
    println!("{told}");
}
