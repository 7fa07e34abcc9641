const [LOWER, RAISE, OPEN, TAKE, POST] = [0, 1, 2, 3, 4];

/** The trace of a plan, played forwards; to go back it is played anew. */
class Search {
  constructor(data, trace) {
    Object.assign(this, trace);
    this.headings = data.headings;
    this.size = this.kinds.length;
    this.workers = data.workers;
    this.sources = new Float64Array(this.seats.length);
    let takes = 0;
    for (let at = 0; at < this.size; at++) if (this.kinds[at] === TAKE) this.sources[takes++] = this.states[at];
    /* what was raised before the first pass is no expansion */
    this.before = this.begins.length ? this.begins[0] : this.size;
    this.starts = new Set(this.begins);
    this.reset();
  }

  /** Before the first event. */
  reset() {
    this.at = 0;
    this.counts = [0, 0, 0, 0, 0];
    this.out = new Map();
    this.takenBy = new Float64Array(this.workers);
  }

  /** How many states were expanded so far. */
  get expanded() {
    return this.counts[LOWER] + this.counts[RAISE] + this.counts[OPEN] - Math.min(this.at, this.before);
  }

  /** Plays up to a place, and calls `paint` with the place, the kind, the state and the seat of each event. */
  play(to, paint) {
    const {kinds, states, counts, out} = this;
    for (let at = this.at; at < to; at++) {
      const kind = kinds[at];
      let seat = 0;
      /* what is out when a pass ends never comes back to it */
      if (out.size && this.starts.has(at)) out.clear();
      if (kind === TAKE) {
        const take = counts[TAKE];
        seat = this.seats[take];
        this.takenBy[seat]++;
        out.set(take, {state: states[at], seat, arc: this.arcs[take]});
      } else if (kind === POST) {
        const take = this.taken[counts[POST]];
        seat = this.seats[take];
        out.delete(take);
      }
      counts[kind]++;
      paint(at, kind, states[at], seat);
    }
    this.at = Math.max(this.at, to);
  }

  /** The pass of the event before a place; -1 before the first pass. */
  pass(at) {
    let number = -1;
    while (number + 1 < this.begins.length && this.begins[number + 1] <= Math.max(at - 1, 0)) number++;
    return number;
  }

  /** Where a pass ends. */
  end(number) {
    return number + 1 < this.begins.length ? this.begins[number + 1] : this.size;
  }
}

/** The labels of a plan. */
class Labels {
  constructor(plan, goal, start, lists) {
    this.low = plan.low;
    this.states = lists.states;
    this.heuristic = lists.heuristic;
    const count = this.states.length;
    this.g = Float64Array.from(lists.g, value => value === 0 ? Infinity : value - 1);
    this.v = Float64Array.from(lists.v, (value, at) => value === 0 ? Infinity : value === 1 ? this.g[at] : value - 2);
    this.settled = this.rim = this.most = 0;
    for (let at = 0; at < count; at++) {
      if (this.v[at] === this.g[at]) this.settled++;
      if (this.isRim(at)) this.rim++;
      if (this.g[at] < Infinity && this.g[at] > this.most) this.most = this.g[at];
    }
    this.goalCost = this.of(goal).g;
    /* with `--planner back` the search begins at the goal */
    this.fromGoal = this.of(start).g !== 0 && this.goalCost === 0;
    this.farCost = this.fromGoal ? this.of(start).g : this.goalCost;
  }

  /** Whether v is above g at a row. */
  isRim(at) {
    return this.v[at] > this.g[at];
  }

  /** The first row whose state is at least this. */
  row(state) {
    let low = 0, high = this.states.length;
    while (low < high) {
      const middle = (low + high) >> 1;
      if (this.states[middle] < state) low = middle + 1;
      else high = middle;
    }
    return low;
  }

  /** g, v and the heuristic of a state. */
  of(state) {
    const at = this.row(state);
    if (this.states[at] !== state) return {g: Infinity, v: Infinity, heuristic: null};
    return {g: this.g[at], v: this.v[at], heuristic: this.heuristic ? this.heuristic[at] : null};
  }
}
