//! A plain yardstick for the proved planner.
//!
//! The planner of this repository is written in Rattle and proved. This program does the same work in plain Rust: no
//! contracts, no proofs, no code in common, only the standard library. It was written from the definition of the
//! planner's behaviour alone, and it serves two ends.
//!
//! - *Speed.* Its expansions a second say what the same search costs in ordinary Rust on the same machine.
//! - *Bytes.* What it prints must be what the proved program prints, byte for byte, on every seed, size and file.
//!
//! It knows three commands, without a budget:
//!
//! ```text
//! plain demo SEED W H
//! plain plan ENV MPRIM [--radius R] [--changes F] [--planner ad|ara] [--first E] [--step E] [--bound B]
//! plain nav ENV [--changes F] [--planner ad|ara] [--first E] [--step E] [--bound B]
//! ```
//!
//! It trusts its input: words and files that the proved program refuses make it panic, or are read as they come.
//!
//! All numbers are whole: lengths are nanometres, angles nanoradians, times nanoseconds, speeds nanometres a second,
//! inflations and bounds thousandths. Labels stand in one flat array, a record for each state. OPEN is the standard
//! `BinaryHeap` with lazy deletion: a state is pushed again where its key changes, and an entry that is no longer its
//! state's key is dropped when it is met. An arc is judged cell by cell, and only where it could help: its head's `g` is
//! above what the way over it costs at least.
//!
//! Build: `rustc -O -C target-cpu=x86-64 --edition 2021 bench/plain/main.rs -o plain`

use std::cmp::{Ordering, Reverse};
use std::collections::{BTreeMap, BinaryHeap};
use std::fmt::Write as _;

/// Stands for infinity among labels.
const FAR: u64 = 1 << 63;
/// A full turn in nanoradians.
const TAU: i128 = 6_283_185_307;
/// How many headings there are where an environment file doesn't say it, and in drawn problems.
const USUAL_HEADINGS: usize = 16;
/// The inflation and the bound of one.
const ONE: u64 = 1000;
/// The greatest inflation.
const HUNDRED: u64 = 100 * ONE;

fn main() {
    let words: Vec<String> = std::env::args().skip(1).collect();
    let words: Vec<&str> = words.iter().map(String::as_str).collect();
    match words[..] {
        ["demo", seed, width, height] => demo(number(seed), number(width), number(height)),
        ["plan", env, primitives, ref options @ ..] => plan(env, primitives, options),
        ["nav", env, ref options @ ..] => nav(env, options),
        _ => panic!("usage: plain demo SEED W H, plain plan ENV MPRIM [OPTIONS], or plain nav ENV [OPTIONS]"),
    }
}

/// Draws a problem from the seed, plans on it, and prints a line for each plan.
fn demo(seed: u64, width: i32, height: i32) {
    let problem = draw_problem(seed, width, height);
    let states = problem.env.costs.len() * problem.env.headings;
    println!("demo states {states} primitives {} batches {}", problem.primitives.len(), problem.batches.len());
    let settings = Settings { repair: true, first: 3 * ONE, step: ONE / 2, bound: ONE };
    let lattice = Lattice::new(&problem.env, &problem.primitives, problem.radius);
    let (start, goal) = (lattice.state(problem.env.start), lattice.state(problem.env.goal));
    solve(lattice, start, goal, &problem.batches, &settings, |number, plan| print!("{}", plan.line(number)));
    println!("done");
}

/// Plans on the lattice of an environment file and a file of primitives, and prints a section for each plan.
fn plan(env: &str, primitives: &str, options: &[&str]) {
    let options = Options::of(options);
    let env = read_env(Tokens::of(&read(env)));
    let primitives = read_primitives(Tokens::of(&read(primitives)), env.headings);
    let lattice = Lattice::new(&env, &primitives, options.radius);
    let (start, goal) = (lattice.state(env.start), lattice.state(env.goal));
    solve(lattice, start, goal, &options.batches, &options.settings, |number, plan| print!("{}", plan.section(number)));
    println!("done");
}

/// Plans on the grid of an environment file, and prints a section for each plan.
fn nav(env: &str, options: &[&str]) {
    let options = Options::of(options);
    let (grid, start, goal) = read_grid(Tokens::of(&read(env)));
    solve(grid, start, goal, &options.batches, &options.settings, |number, plan| print!("{}", plan.section(number)));
    println!("done");
}

/// The text of a file.
fn read(name: &str) -> String {
    std::fs::read_to_string(name).unwrap_or_else(|fault| panic!("{name}: {fault}"))
}

/// What the options say: the settings, the batches of the change file, and the radius in nanometres.
struct Options {
    settings: Settings,
    batches: Vec<Vec<Write>>,
    radius: i64,
}

impl Options {
    fn of(words: &[&str]) -> Options {
        let settings = Settings { repair: true, first: ONE, step: ONE / 2, bound: ONE };
        let mut options = Options { settings, batches: Vec::new(), radius: 0 };
        for option in words.chunks(2) {
            let thousandths = || (nano(option[1]) / 1_000_000) as u64;
            match option[0] {
                "--radius" => options.radius = nano(option[1]),
                "--changes" => options.batches = read_changes(&read(option[1])),
                "--planner" => options.settings.repair = option[1] == "ad",
                "--first" => options.settings.first = thousandths(),
                "--step" => options.settings.step = thousandths(),
                "--bound" => options.settings.bound = thousandths(),
                // A limit of states is for people; this program has none.
                "--states" => {}
                other => panic!("unknown option {other}"),
            }
        }
        options
    }
}

// ---- What is planned on ----

/// A point, in nanometres.
#[derive(Clone, Copy)]
struct Point {
    x: i64,
    y: i64,
}

/// A cell and a heading.
#[derive(Clone, Copy)]
struct Pos {
    x: i32,
    y: i32,
    heading: usize,
}

/// The map, its thresholds and scales, and where the robot is and is to go. Row `y` of the costs begins at `y * width`.
struct Env {
    width: i32,
    height: i32,
    headings: usize,
    obstacle: u8,
    inscribed: u8,
    cell: i64,
    speed: i64,
    turn45: i64,
    start: Pos,
    goal: Pos,
    costs: Vec<u8>,
}

/// A motion from a heading to a heading and to the cell `(dx, dy)` away. Its way leads through points that are given from
/// the centre of the source's cell. The angles on the way have no effect on a plan and are left out.
struct Primitive {
    id: u32,
    from: usize,
    dx: i32,
    dy: i32,
    to: usize,
    multiplier: u64,
    way: Vec<Point>,
}

/// A new cost for a cell.
#[derive(Clone, Copy)]
struct Write {
    x: i32,
    y: i32,
    cost: u8,
}

/// All that a run plans on: the first map, the primitives, batches of writes with a plan after each, and the robot's
/// radius in nanometres.
struct Problem {
    env: Env,
    primitives: Vec<Primitive>,
    batches: Vec<Vec<Write>>,
    radius: i64,
}

/// How to plan: by repair (Anytime D*) or anew on each map (ARA*), from which inflation by which steps to which bound.
struct Settings {
    repair: bool,
    first: u64,
    step: u64,
    bound: u64,
}

/// Makes the plan on the first map and one after each batch, and shows each with its number.
fn solve<G: Graph>(graph: G, start: u32, goal: u32, batches: &[Vec<Write>], settings: &Settings, show: impl Fn(usize, &Plan)) {
    let mut planner = Planner::new(graph, start, goal);
    show(0, &planner.plan(settings));
    for (number, batch) in batches.iter().enumerate() {
        planner.change(batch, settings.repair);
        show(number + 1, &planner.plan(settings));
    }
}

/// What is planned on: states, and arcs whose costs hang on a map.
trait Graph {
    /// Where a state is.
    type At: Copy;
    type Guide: Guide;

    fn states(&self) -> usize;
    fn at(&self, state: u32) -> Self::At;
    /// Where a state is, as a report says it.
    fn shown(&self, at: Self::At) -> String;
    /// The arcs out of a state.
    fn heads(&self, source: Self::At) -> impl Iterator<Item = Head>;
    /// The arcs into a state, in the order in which they are tried.
    fn tails(&self, head: Self::At) -> impl Iterator<Item = Tail<Self::At>>;
    /// What an arc's step is called in a report.
    fn name(&self, source: Self::At, arc: u32) -> u32;
    /// The arc's cost on the present map, where it is free.
    fn judge(&self, source: Self::At, arc: u32) -> Option<u64>;
    /// What no arc costs more than.
    fn dearest(&self) -> u64;
    /// Writes the costs, and answers the heads of all arcs that read a cell whose cost is now another, in order.
    fn change(&mut self, batch: &[Write]) -> Vec<u32>;
    /// Lower bounds on the way to the goal, on the present map.
    fn guide(&self, goal: u32) -> Self::Guide;
}

/// Lower bounds on the way to the goal.
trait Guide {
    fn to_goal(&self, state: u32) -> u64;
}

/// An arc seen from its source: its number, the state that it leads to, and its cost where all cells cost nothing.
struct Head {
    arc: u32,
    state: u32,
    least: u64,
}

/// An arc seen from its head.
struct Tail<At> {
    at: At,
    source: u32,
    arc: u32,
    least: u64,
}

/// The one of so many headings whose bin is nearest to the angle.
fn heading_of(headings: usize, angle: i64) -> usize {
    let n = headings as i128;
    ((2 * n * i128::from(angle).rem_euclid(TAU) + TAU) / (2 * TAU) % n) as usize
}

/// The least number of bins between two of so many headings, either way around.
fn turns_between(headings: usize, a: usize, b: usize) -> u64 {
    let apart = a.abs_diff(b);
    apart.min(headings - apart) as u64
}

impl Primitive {
    /// The milliseconds of the way or of the turn, whichever are more, times the multiplier.
    fn cost(&self, env: &Env) -> u64 {
        let length: u128 = self.way.windows(2).map(|pair| distance(&pair[0], &pair[1])).sum();
        let turn = 8000 * u128::from(turns_between(env.headings, self.from, self.to)) * env.turn45 as u128;
        let driving = (1000 * length).div_ceil(env.speed as u128);
        let turning = turn.div_ceil(env.headings as u128 * 1_000_000_000);
        self.multiplier * driving.max(turning) as u64
    }

    /// The cells of the way, from the source's cell. Lengths are doubled, so that half a cell is a whole number.
    fn centres(&self, cell: i64) -> impl Iterator<Item = (i64, i64)> + '_ {
        let over = move |length: i64| (cell + 2 * length).div_euclid(2 * cell);
        self.way.iter().map(move |point| (over(point.x), over(point.y)))
    }
}

/// The least distance, in half nanometres, of a number from the cells' row or column `at`, which is as wide as a cell.
fn apart(number: i64, at: i64, cell: i64) -> i64 {
    let (low, high) = (2 * cell * at, 2 * cell * (at + 1));
    (low - number).max(number - high).max(0)
}

/// The cells that a disc around a point covers in part, where the point is given from the centre of a cell.
fn disc(point: &Point, radius: i64, cell: i64) -> impl Iterator<Item = (i64, i64)> + '_ {
    // The cells are squares from their lower corners, the point lies half a cell further.
    let (x, y) = (2 * point.x + cell, 2 * point.y + cell);
    let around = move |number: i64| (number - 2 * radius).div_euclid(2 * cell)..=(number + 2 * radius).div_euclid(2 * cell);
    let covers = move |at_x: i64, at_y: i64| {
        let (dx, dy) = (i128::from(apart(x, at_x, cell)), i128::from(apart(y, at_y, cell)));
        dx * dx + dy * dy < 4 * i128::from(radius) * i128::from(radius)
    };
    around(y).flat_map(move |at_y| around(x).map(move |at_x| (at_x, at_y))).filter(move |&(at_x, at_y)| covers(at_x, at_y))
}

/// The distance of two points, rounded up to whole nanometres.
fn distance(a: &Point, b: &Point) -> u128 {
    let (x, y) = (u128::from(a.x.abs_diff(b.x)), u128::from(a.y.abs_diff(b.y)));
    let square = x * x + y * y;
    let root = square.isqrt();
    root + u128::from(root * root < square)
}

// ---- The lattice ----

/// The present map in a frame of cells that are never free. The frame is as wide as any arc reaches, so that a cell that
/// an arc reads is found by adding an offset to a place, and needs no look at the map's edges.
struct Map {
    width: i32,
    height: i32,
    frame_x: i32,
    frame_y: i32,
    costs: Vec<u8>,
}

/// The cost of the frame's cells. No threshold is above it.
const FRAME: u8 = u8::MAX;

impl Map {
    fn new(width: i32, height: i32, costs: &[u8], frame_x: i32, frame_y: i32) -> Map {
        let cells = (width + 2 * frame_x) as usize * (height + 2 * frame_y) as usize;
        let mut map = Map { width, height, frame_x, frame_y, costs: vec![FRAME; cells] };
        for (y, row) in costs.chunks_exact(width as usize).enumerate() {
            let from = map.place(0, y as i32);
            map.costs[from..from + row.len()].copy_from_slice(row);
        }
        map
    }

    /// How far apart two cells of a column are.
    fn stride(&self) -> isize {
        (self.width + 2 * self.frame_x) as isize
    }

    /// Where the cell `(x, y)` stands among the costs.
    fn place(&self, x: i32, y: i32) -> usize {
        (self.offset(x, y) + self.offset(self.frame_x, self.frame_y)) as usize
    }

    /// How far the cell `(dx, dy)` away stands.
    fn offset(&self, dx: i32, dy: i32) -> isize {
        dy as isize * self.stride() + dx as isize
    }

    /// The cell that stands at a place, unless it is one of the frame.
    fn cell(&self, place: usize) -> Option<(i32, i32)> {
        let x = (place as isize % self.stride()) as i32 - self.frame_x;
        let y = (place as isize / self.stride()) as i32 - self.frame_y;
        self.has(x, y).then_some((x, y))
    }

    /// Writes the costs, and answers the places whose cost is now another.
    fn write(&mut self, batch: &[Write]) -> Vec<usize> {
        let mut before = BTreeMap::new();
        for write in batch {
            let place = self.place(write.x, write.y);
            let old = std::mem::replace(&mut self.costs[place], write.cost);
            before.entry(place).or_insert(old);
        }
        before.into_iter().filter(|&(place, old)| self.costs[place] != old).map(|(place, _)| place).collect()
    }

    /// Whether the cell is on the map.
    fn has(&self, x: i32, y: i32) -> bool {
        (0..self.width).contains(&x) && (0..self.height).contains(&y)
    }
}

/// A primitive on the lattice. It is an arc of every state that has its start heading.
struct Arc {
    id: u32,
    dx: i32,
    dy: i32,
    to: usize,
    /// Its cost where all cells cost nothing.
    cost: u64,
    /// How far away the end cell and the centre cells stand, each once.
    reads: Box<[isize]>,
    /// How far away the other cells stand that the robot sweeps, each once.
    swept: Box<[isize]>,
}

/// An arc of a heading, by its number.
struct ArcOf {
    from: usize,
    arc: usize,
}

/// The graph of the planner: states are cells with headings, arcs are primitives over free cells.
struct Lattice {
    map: Map,
    headings: usize,
    /// Sources and swept cells cost less than this.
    obstacle: u8,
    /// End cells and centre cells cost less than this.
    blocked: u8,
    /// For each heading the arcs that start there, and the tails of those that end there.
    arcs: Vec<Vec<Arc>>,
    tails: Vec<Vec<ArcOf>>,
}

impl Lattice {
    fn new(env: &Env, primitives: &[Primitive], radius: i64) -> Lattice {
        // An offset that is wider than the map leads off it from everywhere. Cut to the map's width, it still does.
        let cut_x = |dx: i64| dx.clamp(-i64::from(env.width), i64::from(env.width)) as i32;
        let cut_y = |dy: i64| dy.clamp(-i64::from(env.height), i64::from(env.height)) as i32;
        let reads = |primitive: &Primitive| -> Vec<(i32, i32)> {
            let end = (i64::from(primitive.dx), i64::from(primitive.dy));
            primitive.centres(env.cell).chain([end]).map(|(dx, dy)| (cut_x(dx), cut_y(dy))).collect()
        };
        let reads: Vec<_> = primitives.iter().map(reads).collect();
        let sweeps = |primitive: &Primitive| -> Vec<(i32, i32)> {
            let cells = primitive.way.iter().flat_map(|point| disc(point, radius, env.cell));
            cells.map(|(dx, dy)| (cut_x(dx), cut_y(dy))).collect()
        };
        let sweeps: Vec<_> = primitives.iter().map(sweeps).collect();
        let all = || reads.iter().chain(&sweeps).flatten();
        let frame_x = all().map(|read| read.0.abs()).max().unwrap_or(0);
        let frame_y = all().map(|read| read.1.abs()).max().unwrap_or(0);
        let map = Map::new(env.width, env.height, &env.costs, frame_x, frame_y);

        let headings = env.headings;
        let mut arcs: Vec<Vec<Arc>> = (0..headings).map(|_| Vec::new()).collect();
        let mut tails: Vec<Vec<ArcOf>> = (0..headings).map(|_| Vec::new()).collect();
        let places = |cells: &[(i32, i32)]| {
            let mut places: Vec<isize> = cells.iter().map(|&(dx, dy)| map.offset(dx, dy)).collect();
            places.sort_unstable();
            places.dedup();
            places
        };
        for ((primitive, reads), sweep) in primitives.iter().zip(&reads).zip(&sweeps) {
            let &Primitive { id, from, dx, dy, to, .. } = primitive;
            let reads = places(reads);
            let mut swept = places(sweep);
            swept.retain(|place| reads.binary_search(place).is_err());
            let cost = primitive.cost(env);
            tails[to].push(ArcOf { from, arc: arcs[from].len() });
            arcs[from].push(Arc { id, dx, dy, to, cost, reads: reads.into(), swept: swept.into() });
        }
        Lattice { map, headings, obstacle: env.obstacle, blocked: env.obstacle.min(env.inscribed), arcs, tails }
    }

    fn state(&self, pos: Pos) -> u32 {
        (pos.y * self.map.width + pos.x) as u32 * self.headings as u32 + pos.heading as u32
    }

    fn pos(&self, state: u32) -> Pos {
        let (cell, heading) = (state / self.headings as u32, (state % self.headings as u32) as usize);
        let width = self.map.width as u32;
        Pos { x: (cell % width) as i32, y: (cell / width) as i32, heading }
    }

    /// The state to which the arc leads, unless it leads off the map.
    fn head(&self, source: Pos, arc: &Arc) -> Option<u32> {
        let (x, y) = (source.x + arc.dx, source.y + arc.dy);
        self.map.has(x, y).then(|| self.state(Pos { x, y, heading: arc.to }))
    }

    /// The heads of the arcs that read the cell at a place, some of them more than once.
    fn heads_reading(&self, place: usize) -> Vec<u32> {
        let mut heads = Vec::new();
        for (heading, arcs) in self.arcs.iter().enumerate() {
            for arc in arcs {
                for read in arc.reads.iter().chain(&arc.swept).chain(&[0]) {
                    let source = self.map.cell(place.wrapping_add_signed(-read));
                    heads.extend(source.and_then(|(x, y)| self.head(Pos { x, y, heading }, arc)));
                }
            }
        }
        heads
    }
}

impl Graph for Lattice {
    type At = Pos;
    type Guide = LatticeGuide;

    fn states(&self) -> usize {
        (self.map.width * self.map.height) as usize * self.headings
    }

    fn at(&self, state: u32) -> Pos {
        self.pos(state)
    }

    fn shown(&self, at: Pos) -> String {
        format!("{} {} {}", at.x, at.y, at.heading)
    }

    fn heads(&self, source: Pos) -> impl Iterator<Item = Head> {
        self.arcs[source.heading].iter().zip(0..).filter_map(move |(arc, number)| {
            Some(Head { arc: number, state: self.head(source, arc)?, least: arc.cost })
        })
    }

    /// In the primitives' order.
    fn tails(&self, head: Pos) -> impl Iterator<Item = Tail<Pos>> {
        self.tails[head.heading].iter().filter_map(move |&ArcOf { from, arc: number }| {
            let arc = &self.arcs[from][number];
            let at = Pos { x: head.x - arc.dx, y: head.y - arc.dy, heading: from };
            self.map.has(at.x, at.y).then(|| Tail { at, source: self.state(at), arc: number as u32, least: arc.cost })
        })
    }

    fn name(&self, source: Pos, arc: u32) -> u32 {
        self.arcs[source.heading][arc as usize].id
    }

    fn judge(&self, source: Pos, arc: u32) -> Option<u64> {
        let arc = &self.arcs[source.heading][arc as usize];
        let place = self.map.place(source.x, source.y);
        let mut worst = self.map.costs[place];
        if worst >= self.obstacle {
            return None;
        }
        for &read in &arc.reads {
            let cost = self.map.costs[place.wrapping_add_signed(read)];
            if cost >= self.blocked {
                return None;
            }
            worst = worst.max(cost);
        }
        for &read in &arc.swept {
            if self.map.costs[place.wrapping_add_signed(read)] >= self.obstacle {
                return None;
            }
        }
        Some(arc.cost * (1 + u64::from(worst)))
    }

    fn dearest(&self) -> u64 {
        self.arcs.iter().flatten().map(|arc| 256 * arc.cost).max().unwrap_or(0)
    }

    fn change(&mut self, batch: &[Write]) -> Vec<u32> {
        let changed = self.map.write(batch);
        let mut heads: Vec<u32> = changed.into_iter().flat_map(|place| self.heads_reading(place)).collect();
        heads.sort_unstable();
        heads.dedup();
        heads
    }

    fn guide(&self, goal: u32) -> LatticeGuide {
        LatticeGuide::new(self, self.pos(goal))
    }
}

/// The steps of a grid with eight neighbours. The odd ones are diagonals.
const EIGHT: [(i32, i32); 8] = [(1, 0), (1, 1), (0, 1), (-1, 1), (-1, 0), (-1, -1), (0, -1), (1, -1)];
/// What a step costs over cells that cost nothing, along an axis and on a diagonal.
const STEP_COSTS: [u64; 2] = [1000, 1414];

/// A grid with eight neighbours: states are cells, and an arc leads one cell in one of the directions.
struct Grid {
    map: Map,
    /// Cells that an arc reads cost less than this.
    obstacle: u8,
}

impl Grid {
    /// The state one step from a cell, unless it is off the map.
    fn step(&self, (x, y): (i32, i32), (dx, dy): (i32, i32)) -> Option<u32> {
        let (x, y) = (x + dx, y + dy);
        self.map.has(x, y).then_some((y * self.map.width + x) as u32)
    }
}

impl Graph for Grid {
    type At = (i32, i32);
    type Guide = Octile;

    fn states(&self) -> usize {
        (self.map.width * self.map.height) as usize
    }

    fn at(&self, state: u32) -> (i32, i32) {
        let width = self.map.width as u32;
        ((state % width) as i32, (state / width) as i32)
    }

    fn shown(&self, (x, y): (i32, i32)) -> String {
        format!("{x} {y}")
    }

    fn heads(&self, source: (i32, i32)) -> impl Iterator<Item = Head> {
        (0..8).filter_map(move |arc| {
            Some(Head { arc, state: self.step(source, EIGHT[arc as usize])?, least: STEP_COSTS[arc as usize % 2] })
        })
    }

    fn tails(&self, (x, y): (i32, i32)) -> impl Iterator<Item = Tail<(i32, i32)>> {
        (0..8).filter_map(move |arc| {
            let (dx, dy) = EIGHT[arc as usize];
            let source = self.step((x, y), (-dx, -dy))?;
            Some(Tail { at: (x - dx, y - dy), source, arc, least: STEP_COSTS[arc as usize % 2] })
        })
    }

    fn name(&self, _: (i32, i32), arc: u32) -> u32 {
        arc
    }

    fn judge(&self, (x, y): (i32, i32), arc: u32) -> Option<u64> {
        let (dx, dy) = EIGHT[arc as usize];
        let place = self.map.place(x, y);
        let cost = |dx, dy| self.map.costs[place.wrapping_add_signed(self.map.offset(dx, dy))];
        let mut worst = cost(0, 0).max(cost(dx, dy));
        if arc % 2 == 1 {
            worst = worst.max(cost(dx, 0)).max(cost(0, dy));
        }
        (worst < self.obstacle).then(|| STEP_COSTS[arc as usize % 2] * (1 + u64::from(worst)))
    }

    fn dearest(&self) -> u64 {
        256 * STEP_COSTS[1]
    }

    /// The arcs that read a cell begin and end at most one cell from it.
    fn change(&mut self, batch: &[Write]) -> Vec<u32> {
        let cells: Vec<_> = self.map.write(batch).into_iter().filter_map(|place| self.map.cell(place)).collect();
        let mut heads = Vec::new();
        for cell in cells {
            heads.extend(EIGHT.iter().chain(&[(0, 0)]).filter_map(|&step| self.step(cell, step)));
        }
        heads.sort_unstable();
        heads.dedup();
        heads
    }

    fn guide(&self, goal: u32) -> Octile {
        let (x, y) = self.at(goal);
        Octile { width: self.map.width as u32, x: x as u32, y: y as u32 }
    }
}

// ---- The heuristic ----

/// The cost for each unit, a cell or a bin, of the cheapest motion of some kind.
#[derive(Clone, Copy)]
struct Rate {
    cost: u64,
    units: u64,
}

/// What so many units cost at least. Without a motion of the kind nothing is known.
fn bound_over(units: u64, rate: Option<Rate>) -> u64 {
    rate.map_or(0, |rate| units * rate.cost / rate.units)
}

/// On a grid: the cost of the shortest way by straight and diagonal steps over cells that cost nothing.
struct Octile {
    width: u32,
    x: u32,
    y: u32,
}

impl Guide for Octile {
    fn to_goal(&self, state: u32) -> u64 {
        let (x, y) = ((state % self.width).abs_diff(self.x), (state / self.width).abs_diff(self.y));
        STEP_COSTS[0] * u64::from(x.max(y)) + (STEP_COSTS[1] - STEP_COSTS[0]) * u64::from(x.min(y))
    }
}

/// On a lattice: the greater of the bound of a state's cell and that of its heading.
struct LatticeGuide {
    cells: Vec<u64>,
    headings: Vec<u64>,
}

impl LatticeGuide {
    /// The bounds on the present map.
    fn new(lattice: &Lattice, goal: Pos) -> LatticeGuide {
        let rate = |units: &dyn Fn(usize, &Arc) -> i64| {
            let arcs = lattice.arcs.iter().enumerate().flat_map(|(from, arcs)| arcs.iter().map(move |arc| (from, arc)));
            let rates = arcs.map(|(from, arc)| (arc.cost, units(from, arc))).filter(|&(_, units)| units > 0);
            let rates = rates.map(|(cost, units)| Rate { cost, units: units as u64 });
            rates.min_by(|a, b| (a.cost * b.units).cmp(&(b.cost * a.units)))
        };
        let ways_x = [rate(&|_, arc| arc.dx.into()), rate(&|_, arc| (-arc.dx).into())];
        let ways_y = [rate(&|_, arc| arc.dy.into()), rate(&|_, arc| (-arc.dy).into())];
        let turns = rate(&|from, arc| turns_between(lattice.headings, from, arc.to) as i64);
        let along = |ways: [Option<Rate>; 2], from: i32, to: i32| {
            bound_over(from.abs_diff(to).into(), ways[usize::from(to < from)])
        };

        let mut cells = cell_bounds(lattice, goal);
        for (cell, bound) in cells.iter_mut().enumerate() {
            let pos = lattice.pos((cell * lattice.headings) as u32);
            *bound = (*bound).max(along(ways_x, pos.x, goal.x)).max(along(ways_y, pos.y, goal.y));
        }
        let turned = |heading| turns_between(lattice.headings, heading, goal.heading);
        let headings = (0..lattice.headings).map(|heading| bound_over(turned(heading), turns)).collect();
        LatticeGuide { cells, headings }
    }
}

impl Guide for LatticeGuide {
    fn to_goal(&self, state: u32) -> u64 {
        let n = self.headings.len() as u32;
        self.cells[(state / n) as usize].max(self.headings[(state % n) as usize])
    }
}

/// The least cost of a walk from each cell to the goal's, over cells alone: by Dijkstra's algorithm, backwards. A cell
/// without a walk gets the greatest cost of the others.
fn cell_bounds(lattice: &Lattice, goal: Pos) -> Vec<u64> {
    let map = &lattice.map;
    let mut steps = BTreeMap::new();
    for arc in lattice.arcs.iter().flatten().filter(|arc| (arc.dx, arc.dy) != (0, 0)) {
        // A step that is wider than the map is none of this map's.
        if arc.dx.abs() < map.width && arc.dy.abs() < map.height {
            let least = steps.entry(map.offset(arc.dx, arc.dy)).or_insert(arc.cost);
            *least = arc.cost.min(*least);
        }
    }

    let mut bounds = vec![FAR; map.costs.len()];
    let mut open = BinaryHeap::new();
    bounds[map.place(goal.x, goal.y)] = 0;
    open.push(Reverse((0, map.place(goal.x, goal.y))));
    while let Some(Reverse((bound, end))) = open.pop() {
        if bound > bounds[end] || map.costs[end] >= lattice.blocked {
            continue;
        }
        for (step, least) in &steps {
            let source = end.wrapping_add_signed(-step);
            if map.costs[source] >= lattice.obstacle {
                continue;
            }
            let sum = bound + least * (1 + u64::from(map.costs[source].max(map.costs[end])));
            if sum < bounds[source] {
                bounds[source] = sum;
                open.push(Reverse((sum, source)));
            }
        }
    }

    let farthest = bounds.iter().copied().filter(|&bound| bound < FAR).max().unwrap_or(0);
    let rows = (0..map.height).flat_map(|y| &bounds[map.place(0, y)..][..map.width as usize]);
    rows.map(|&bound| if bound < FAR { bound } else { farthest }).collect()
}

// ---- The search ----

/// The arc by which a state was reached.
#[derive(Clone, Copy, PartialEq)]
struct Back {
    source: u32,
    arc: u32,
}

/// What the search knows of a state: the cost `g` by the arcs into it, the cost `v` that its heads were given, the arc
/// that gives `g`, and the last pass that closed it.
#[derive(Clone, Copy)]
struct Label {
    g: u64,
    v: u64,
    back: Option<Back>,
    closed: u32,
}

/// The order of OPEN.
#[derive(Clone, Copy, PartialEq, Eq, PartialOrd, Ord)]
struct Key {
    first: u64,
    second: u64,
    state: u32,
}

/// The labels of all states, and what is open.
struct Search {
    labels: Vec<Label>,
    start: u32,
    goal: u32,
    open: BinaryHeap<Reverse<Key>>,
    /// States that were lowered after this pass closed them.
    inconsistent: Vec<u32>,
    /// Between passes: all states whose `g` and `v` differ.
    unsettled: Vec<u32>,
    pass: u32,
}

impl Search {
    fn new(states: usize, start: u32, goal: u32) -> Search {
        let mut labels = vec![Label { g: FAR, v: FAR, back: None, closed: 0 }; states];
        labels[start as usize].g = 0;
        let (open, inconsistent, unsettled) = (BinaryHeap::new(), Vec::new(), vec![start]);
        Search { labels, start, goal, open, inconsistent, unsettled, pass: 0 }
    }

    fn label(&self, state: u32) -> &Label {
        &self.labels[state as usize]
    }

    /// Expands states until no open key is below the goal's, and answers how many.
    fn pass<G: Graph>(&mut self, graph: &G, guide: &G::Guide, inflation: u64) -> u64 {
        self.pass += 1;
        self.open.clear();
        for state in std::mem::take(&mut self.unsettled) {
            self.place(guide, inflation, state);
        }
        let mut expanded = 0;
        while let Some(&Reverse(key)) = self.open.peek() {
            if (key.first, key.second) >= self.goal_key() {
                break;
            }
            self.open.pop();
            if self.key(guide, inflation, key.state) == Some(key) {
                expanded += 1;
                if self.label(key.state).g < self.label(key.state).v {
                    self.settle(graph, guide, inflation, key.state);
                } else {
                    self.raise(graph, guide, inflation, key.state);
                }
            }
        }
        let mut left = std::mem::take(&mut self.inconsistent);
        left.extend(self.open.iter().map(|Reverse(key)| key.state));
        self.list_unsettled(left);
        expanded
    }

    /// Adds those of the states that are unsettled to the list.
    fn list_unsettled(&mut self, states: Vec<u32>) {
        self.unsettled.extend(states);
        self.unsettled.sort_unstable();
        self.unsettled.dedup();
        let labels = &self.labels;
        self.unsettled.retain(|&state| labels[state as usize].g != labels[state as usize].v);
    }

    fn goal_key(&self) -> (u64, u64) {
        let g = self.label(self.goal).g;
        (g.saturating_mul(ONE), g)
    }

    /// The state's key, where it belongs into OPEN: where it is underconsistent, or overconsistent and not closed.
    fn key(&self, guide: &impl Guide, inflation: u64, state: u32) -> Option<Key> {
        let &Label { g, v, closed, .. } = self.label(state);
        match g.cmp(&v) {
            Ordering::Less if closed == self.pass => None,
            Ordering::Less => Some(Key { first: ONE * g + inflation * guide.to_goal(state), second: g, state }),
            Ordering::Greater => Some(Key { first: ONE * (v + guide.to_goal(state)), second: v, state }),
            Ordering::Equal => None,
        }
    }

    /// Puts the state into OPEN where it belongs there. Entries with older keys of it are thereby out of date.
    fn place(&mut self, guide: &impl Guide, inflation: u64, state: u32) {
        match self.key(guide, inflation, state) {
            Some(key) => self.open.push(Reverse(key)),
            None if self.label(state).g < self.label(state).v => self.inconsistent.push(state),
            None => {}
        }
    }

    /// Expands an overconsistent state: its heads are lowered by what it costs now.
    fn settle<G: Graph>(&mut self, graph: &G, guide: &G::Guide, inflation: u64, state: u32) {
        let label = &mut self.labels[state as usize];
        label.v = label.g;
        label.closed = self.pass;
        let (v, at) = (label.v, graph.at(state));
        for Head { arc, state: head, least } in graph.heads(at) {
            if v + least >= self.label(head).g {
                continue;
            }
            let Some(cost) = graph.judge(at, arc) else { continue };
            let label = &mut self.labels[head as usize];
            if v + cost < label.g && head != self.start {
                label.g = v + cost;
                label.back = Some(Back { source: state, arc });
                self.place(guide, inflation, head);
            }
        }
    }

    /// Expands an underconsistent state: what its heads had from it is taken back.
    fn raise<G: Graph>(&mut self, graph: &G, guide: &G::Guide, inflation: u64, state: u32) {
        self.labels[state as usize].v = FAR;
        for Head { arc, state: head, .. } in graph.heads(graph.at(state)) {
            if self.label(head).back == Some(Back { source: state, arc }) {
                self.recompute(graph, head);
                self.place(guide, inflation, head);
            }
        }
        self.place(guide, inflation, state);
    }

    /// Finds the state's `g` and the arc that gives it anew.
    fn recompute(&mut self, graph: &impl Graph, state: u32) {
        if state == self.start {
            return;
        }
        let (mut g, mut back) = (FAR, None);
        for Tail { at, source, arc, least } in graph.tails(graph.at(state)) {
            let v = self.label(source).v;
            let cost = if v < FAR && v + least < g { graph.judge(at, arc) } else { None };
            if let Some(sum) = cost.map(|cost| v + cost).filter(|&sum| sum < g) {
                (g, back) = (sum, Some(Back { source, arc }));
            }
        }
        let label = &mut self.labels[state as usize];
        (label.g, label.back) = (g, back);
    }

    /// Takes in that the map changed: each of the states may have other arcs into it.
    fn change(&mut self, graph: &impl Graph, touched: Vec<u32>) {
        for &state in &touched {
            self.recompute(graph, state);
        }
        self.list_unsettled(touched);
    }

    /// A lower bound on the cost of every path.
    fn low(&self, guide: &impl Guide) -> u64 {
        let sums = self.unsettled.iter().map(|&state| self.label(state).g.saturating_add(guide.to_goal(state)));
        sums.fold(self.label(self.goal).g, u64::min)
    }

    /// Whether the labels show that there is no path: nothing that was reached is left to expand.
    fn shows_none(&self) -> bool {
        let left = |&state: &u32| self.label(state).g < FAR && self.label(state).v == FAR;
        self.label(self.goal).g == FAR && !self.unsettled.iter().any(left)
    }

    /// Follows the back arcs from the goal to the start.
    fn walk<G: Graph>(&self, graph: &G, guide: &G::Guide) -> Walk {
        if self.label(self.goal).g == FAR {
            return Walk::None;
        }
        let (mut steps, mut cost, mut at) = (Vec::new(), 0, self.goal);
        loop {
            let label = self.label(at);
            if label.v < label.g {
                return Walk::Broken;
            }
            let Some(back) = label.back else { break };
            let source = graph.at(back.source);
            cost += graph.judge(source, back.arc).expect("a back arc is free");
            steps.push(Step { name: graph.name(source, back.arc), end: graph.shown(graph.at(at)) });
            at = back.source;
        }
        steps.reverse();
        Walk::Path(Path { start: graph.shown(graph.at(at)), steps, cost, bound: bound_of(cost, self.low(guide)) })
    }
}

/// The least bound, in thousandths, that a path of this cost keeps where no path costs less than `low`.
fn bound_of(cost: u64, low: u64) -> u64 {
    match cost {
        0 => ONE,
        _ => (u128::from(ONE) * u128::from(cost)).div_ceil(u128::from(low)).max(u128::from(ONE)) as u64,
    }
}

// ---- Plans ----

/// A step of a path: the name of its arc and where it ends.
struct Step {
    name: u32,
    end: String,
}

/// A path with its cost and its bound.
struct Path {
    start: String,
    steps: Vec<Step>,
    cost: u64,
    bound: u64,
}

/// What following the back arcs gives: a path, a chain with an underconsistent state, or nothing.
enum Walk {
    Path(Path),
    Broken,
    None,
}

/// A pass: its inflation, the states that it expanded, and the walk after it.
struct Pass {
    inflation: u64,
    expanded: u64,
    walk: Walk,
}

/// A plan: its passes, and whether the labels show that there is no path.
struct Plan {
    passes: Vec<Pass>,
    no_path: bool,
}

/// Plans on a map that changes.
struct Planner<G> {
    graph: G,
    search: Search,
}

impl<G: Graph> Planner<G> {
    fn new(graph: G, start: u32, goal: u32) -> Planner<G> {
        let longest = u128::from(graph.dearest()) * graph.states() as u128;
        assert!(longest * u128::from(HUNDRED) < u128::from(FAR), "arcs too dear for keys of 64 bits");
        let search = Search::new(graph.states(), start, goal);
        Planner { graph, search }
    }

    /// Changes the map. The search is repaired, or begun anew.
    fn change(&mut self, batch: &[Write], repair: bool) {
        let touched = self.graph.change(batch);
        if repair {
            self.search.change(&self.graph, touched);
        } else {
            self.search = Search::new(self.graph.states(), self.search.start, self.search.goal);
        }
    }

    /// Makes passes of falling inflation until the path is good enough or none can be better.
    fn plan(&mut self, settings: &Settings) -> Plan {
        let guide = self.graph.guide(self.search.goal);
        let mut passes = Vec::new();
        let mut inflation = settings.first;
        loop {
            let expanded = self.search.pass(&self.graph, &guide, inflation);
            let walk = self.search.walk(&self.graph, &guide);
            let good = matches!(&walk, Walk::Path(path) if path.bound <= settings.bound);
            passes.push(Pass { inflation, expanded, walk });
            let no_path = self.search.shows_none();
            if good || no_path || inflation == ONE {
                return Plan { passes, no_path };
            }
            inflation = inflation.saturating_sub(settings.step).max(ONE);
        }
    }
}

impl Plan {
    /// The result after the last pass, without the path's steps.
    fn result(&self) -> String {
        match &self.passes[self.passes.len() - 1].walk {
            Walk::Path(Path { steps, cost, bound, .. }) => {
                format!("path {} cost {cost} bound {}", steps.len(), thousandths(*bound))
            }
            _ if self.no_path => "nopath".into(),
            _ => "unknown".into(),
        }
    }

    /// One line for the whole plan.
    fn line(&self, number: usize) -> String {
        let expanded: u64 = self.passes.iter().map(|pass| pass.expanded).sum();
        format!("plan {number} {} expanded {expanded}\n", self.result())
    }

    /// A line for each pass, the result, and a line for each step of the path.
    fn section(&self, number: usize) -> String {
        let mut out = format!("plan {number}\n");
        for Pass { inflation, expanded, walk } in &self.passes {
            let after = match walk {
                Walk::Path(path) => format!("best {} bound {}", path.cost, thousandths(path.bound)),
                Walk::Broken => "broken".into(),
                Walk::None => "none".into(),
            };
            writeln!(out, "pass {} expanded {expanded} {after}", thousandths(*inflation)).unwrap();
        }
        writeln!(out, "{}", self.result()).unwrap();
        if let Walk::Path(Path { start, steps, .. }) = &self.passes[self.passes.len() - 1].walk {
            writeln!(out, "pose {start}").unwrap();
            for Step { name, end } in steps {
                writeln!(out, "step {name} {end}").unwrap();
            }
        }
        out
    }
}

/// A number of thousandths with three decimals.
fn thousandths(value: u64) -> String {
    format!("{}.{:03}", value / ONE, value % ONE)
}

// ---- Drawn problems ----

/// The generator of drawn problems.
struct Draws(u64);

impl Draws {
    fn draw(&mut self) -> u64 {
        self.0 = self.0.wrapping_mul(6_364_136_223_846_793_005).wrapping_add(1_442_695_040_888_963_407);
        self.0 >> 33
    }
}

/// A map of so many cells with obstacles and dear cells, eighty primitives, and three batches of up to eight writes.
fn draw_problem(seed: u64, width: i32, height: i32) -> Problem {
    let mut draws = Draws(seed);
    let ends = [(1, 1), (width - 2, height - 2)];
    let mut costs: Vec<u8> = Vec::new();
    for _ in 0..width * height {
        costs.push(match draws.draw() % 100 {
            0..15 => 254,
            15..30 => 20,
            _ => 0,
        });
    }
    for (x, y) in ends {
        costs[(y * width + x) as usize] = 0;
    }
    let mut batches = Vec::new();
    for _ in 0..3 {
        let mut batch = Vec::new();
        for _ in 0..8 {
            let x = (draws.draw() % width as u64) as i32;
            let y = (draws.draw() % height as u64) as i32;
            let cost = if draws.draw() % 2 == 1 { 254 } else { 0 };
            if !ends.contains(&(x, y)) {
                batch.push(Write { x, y, cost });
            }
        }
        batches.push(batch);
    }
    let [start, goal] = ends.map(|(x, y)| Pos { x, y, heading: 0 });
    let (cell, speed, turn45) = (25_000_000, 1_000_000_000, 2_000_000_000);
    let headings = USUAL_HEADINGS;
    let env = Env { width, height, headings, obstacle: 254, inscribed: 253, cell, speed, turn45, start, goal, costs };
    Problem { env, primitives: sixteen_headings(), batches, radius: 0 }
}

/// For each heading of drawn problems the least way along it, in cells.
#[rustfmt::skip]
const DIRECTIONS: [(i32, i32); USUAL_HEADINGS] = [
    (1, 0), (2, 1), (1, 1), (1, 2), (0, 1), (-1, 2), (-1, 1), (-2, 1),
    (-1, 0), (-2, -1), (-1, -1), (-1, -2), (0, -1), (1, -2), (1, -1), (2, -1),
];

/// The primitives of drawn problems: for each heading a short way ahead, one back, both turns, and a long way ahead.
fn sixteen_headings() -> Vec<Primitive> {
    let mut primitives = Vec::new();
    for (from, &(ux, uy)) in DIRECTIONS.iter().enumerate() {
        let (left, right) = ((from + 1) % USUAL_HEADINGS, (from + USUAL_HEADINGS - 1) % USUAL_HEADINGS);
        let mut add = |id, (dx, dy), to, multiplier| {
            // A ninth part of the way at a time, rounded to tenths of millimetres.
            let along = |cells: i32, part: i64| (500 * i64::from(cells) * part + 9).div_euclid(18) * 100_000;
            let way = (0..10).map(|part| Point { x: along(dx, part), y: along(dy, part) }).collect();
            primitives.push(Primitive { id, from, dx, dy, to, multiplier, way });
        };
        add(0, (ux, uy), from, 1);
        add(1, (-ux, -uy), from, 5);
        add(2, (0, 0), left, 1);
        add(3, (0, 0), right, 1);
        add(4, (4 * ux, 4 * uy), from, 1);
    }
    primitives
}

// ---- Files ----

/// The whole number that a text is.
fn number<T: std::str::FromStr<Err: std::fmt::Debug>>(text: &str) -> T {
    text.parse().unwrap_or_else(|fault| panic!("{text}: {fault:?}"))
}

/// The thousand millionths of a decimal. Digits after the ninth decimal are dropped.
fn nano(text: &str) -> i64 {
    let digits = text.trim_start_matches(['+', '-']);
    let (whole, decimals) = digits.split_once('.').unwrap_or((digits, ""));
    let value: i64 = number(&format!("0{whole}{decimals:0<9.9}"));
    value * if text.starts_with('-') { -1 } else { 1 }
}

/// The tokens of a file, which stand between blanks.
struct Tokens<'a>(Box<dyn Iterator<Item = &'a str> + 'a>);

impl<'a> Tokens<'a> {
    fn of(text: &'a str) -> Tokens<'a> {
        let blank = |c: char| c.is_ascii_whitespace() || c == '\x0b';
        Tokens(Box::new(text.split(blank).filter(|token| !token.is_empty())))
    }

    fn next(&mut self) -> &'a str {
        self.0.next().expect("one more token")
    }

    /// Reads one of two words that must stand here, and answers whether it is the first.
    fn either(&mut self, word: &str, other: &str) -> bool {
        let token = self.next();
        assert!(token == word || token == other);
        token == word
    }

    /// Reads the fixed word that must stand here.
    fn word(&mut self, word: &str) -> &mut Self {
        assert_eq!(self.next(), word);
        self
    }

    fn whole<T: TryFrom<i64, Error: std::fmt::Debug>>(&mut self) -> T {
        T::try_from(number(self.next())).expect("a number in range")
    }

    fn nano(&mut self) -> i64 {
        nano(self.next())
    }

    /// Reads a point and an angle.
    fn pose(&mut self) -> (Point, i64) {
        (Point { x: self.nano(), y: self.nano() }, self.nano())
    }

    /// Reads a pose as the cell and the one of so many headings that it is in.
    fn pos(&mut self, cell: i64, headings: usize) -> Pos {
        let (Point { x, y }, theta) = self.pose();
        Pos { x: x.div_euclid(cell) as i32, y: y.div_euclid(cell) as i32, heading: heading_of(headings, theta) }
    }
}

fn read_env(mut tokens: Tokens) -> Env {
    let width: i32 = tokens.word("discretization(cells):").whole();
    let height: i32 = tokens.whole();
    let mut headings = USUAL_HEADINGS;
    if tokens.either("NumThetaDirs:", "obsthresh:") {
        headings = tokens.whole();
        tokens.word("obsthresh:");
    }
    let obstacle = tokens.whole();
    let inscribed = tokens.word("cost_inscribed_thresh:").whole();
    tokens.word("cost_possibly_circumscribed_thresh:").next();
    let cell = tokens.word("cellsize(meters):").nano();
    let speed = tokens.word("nominalvel(mpersecs):").nano();
    let turn45 = tokens.word("timetoturn45degsinplace(secs):").nano();
    let start = tokens.word("start(meters,rads):").pos(cell, headings);
    let goal = tokens.word("end(meters,rads):").pos(cell, headings);
    tokens.word("environment:");
    let costs = (0..width * height).map(|_| tokens.whole()).collect();
    Env { width, height, headings, obstacle, inscribed, cell, speed, turn45, start, goal, costs }
}

/// Reads a grid with its start and its goal.
fn read_grid(mut tokens: Tokens) -> (Grid, u32, u32) {
    let width: i32 = tokens.word("discretization(cells):").whole();
    let height: i32 = tokens.whole();
    let obstacle = tokens.word("obsthresh:").whole();
    let mut state = |word| {
        let (x, y): (i32, i32) = (tokens.word(word).whole(), tokens.whole());
        (y * width + x) as u32
    };
    let (start, goal) = (state("start(cells):"), state("end(cells):"));
    tokens.word("environment:");
    let costs: Vec<u8> = (0..width * height).map(|_| tokens.whole()).collect();
    (Grid { map: Map::new(width, height, &costs, 1, 1), obstacle }, start, goal)
}

fn read_primitives(mut tokens: Tokens, headings: usize) -> Vec<Primitive> {
    tokens.word("resolution_m:").nano();
    let angles: usize = tokens.word("numberofangles:").whole();
    assert_eq!(angles, headings);
    let count: usize = tokens.word("totalnumberofprimitives:").whole();
    (0..count).map(|_| read_primitive(&mut tokens, headings)).collect()
}

fn read_primitive(tokens: &mut Tokens, headings: usize) -> Primitive {
    let id = tokens.word("primID:").whole();
    let from = tokens.word("startangle_c:").whole();
    let (dx, dy) = (tokens.word("endpose_c:").whole(), tokens.whole());
    let to = tokens.whole::<i64>().rem_euclid(headings as i64) as usize;
    let multiplier = tokens.word("additionalactioncostmult:").whole();
    let count: usize = tokens.word("intermediateposes:").whole();
    let way = (0..count).map(|_| tokens.pose().0).collect();
    Primitive { id, from, dx, dy, to, multiplier, way }
}

/// Reads batches of writes, each ended by a line `replan`.
fn read_changes(text: &str) -> Vec<Vec<Write>> {
    let mut batches = Vec::new();
    let mut batch = Vec::new();
    for line in text.lines() {
        match line.split([' ', '\t']).filter(|field| !field.is_empty()).collect::<Vec<_>>()[..] {
            ["cell", x, y, cost] => batch.push(Write { x: number(x), y: number(y), cost: number(cost) }),
            ["replan"] => batches.push(std::mem::take(&mut batch)),
            [] => {}
            _ => panic!("no line of changes: {line}"),
        }
    }
    batches
}
