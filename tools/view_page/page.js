const KEYS = [
  [["space"], "play or pause the search"],
  [["\u2190", "\u2192"], "a step back or on; with shift 100 steps"],
  [["page up", "page down"], "to the pass before, to the next"],
  [["home", "end"], "to the begin of the search, to its end"],
  [[",", "."], "slower, faster"],
  [["\u2191", "\u2193"], "the plan before, the next; also [ and ]"],
  [["r"], "drive the path, or stop"],
  [["j", "k"], "the pose before, the next"],
  [["+", "-", "0"], "zoom in and out, and show the whole map"],
  [["h", "l", "u", "n"], "pan to the left, right, up, down"],
  [["w", "a", "s", "d"], "move the cell whose labels are shown"],
  [["escape"], "let the cell go"],
  [["c"], "what colours the cells"],
  [["1", "\u2026", "9"], "show or hide what the legend lists"],
  [["t"], "light or dark"],
  [["?"], "show these keys"],
];
const RATES = [["all in 10 s", 0], ["1 a second", 1], ["10 a second", 10], ["100 a second", 100], ["1,000 a second", 1e3],
  ["10,000 a second", 1e4], ["100,000 a second", 1e5]];
const PLAYING = "\u275a\u275a", PAUSED = "\u25b6";

const element = name => document.getElementById(name);

/** An element with attributes and what is in it. */
function make(tag, attributes = {}, ...inside) {
  const made = document.createElement(tag);
  for (const [name, value] of Object.entries(attributes)) made.setAttribute(name, value);
  made.append(...inside);
  return made;
}

/** The page: what is chosen, and what answers keys and clicks. */
class Page {
  constructor(data) {
    this.data = data;
    this.picture = new Picture(data, element("stage"));
    this.scenes = [];
    this.number = this.wanted = 0;
    this.playing = this.driving = false;
    this.owed = this.time = 0;
    this.cell = null;
    this.kept = false;
  }

  get scene() {
    return this.scenes[this.number];
  }

  get plan() {
    return this.data.plans[this.number];
  }

  /** Unpacks what belongs to all plans, and the plan that is shown first. */
  async open() {
    this.costs = await unpack(this.data.costs);
    this.changes = await Promise.all(this.data.plans.map(plan => unpackAll(plan, ["changed", "changedTo"])));
    this.fillHead();
    this.listen();
    this.dress(this.dark, false);
    this.picture.resize();
    await this.take(this.parts());
    this.ready = true;
    document.documentElement.dataset.ready = "yes";
  }

  /** The costs of the map as it is for a plan. */
  costsOf(number) {
    const costs = this.costs.slice();
    for (const {changed, changedTo} of this.changes.slice(0, number + 1)) changed.forEach((cell, at) => costs[cell] = changedTo[at]);
    return costs;
  }

  /** The path of a plan, in cells, radians and seconds; null where there is none. */
  async path(plan) {
    if (!plan || !plan.path) return null;
    const path = await unpackAll(plan.path, ["x", "y", "theta", "time", "step"]), size = this.data.cell * 1e6;
    for (const [name, unit] of [["x", size], ["y", size], ["theta", 1e6], ["time", 1e3]]) {
      path[name] = path[name].map(value => value / unit);
    }
    path.directions = plan.legs.map(leg => leg[1]);
    path.parts = [];
    path.step.forEach((step, at) => {
      const direction = path.directions[step], last = path.parts[path.parts.length - 1];
      if (last && last.direction === direction && (direction !== "turn" || last.step === step)) last.to = at;
      else path.parts.push({direction, step, from: direction === "turn" || at === 0 ? at : at - 1, to: at});
    });
    return Object.assign(path, {seconds: plan.path.seconds, metres: plan.path.metres});
  }

  /** The scene of a plan, unpacked when it is first shown. */
  async sceneOf(number) {
    if (this.scenes[number]) return this.scenes[number];
    const {data} = this, plan = data.plans[number];
    const scene = {number, costs: this.costsOf(number), changed: this.changes[number].changed, start: plan.start, tight: plan.tight,
      swept: await unpack(plan.swept), path: await this.path(plan), before: await this.path(data.plans[number - 1]),
      search: null, labels: null, pose: null, cell: null};
    if (plan.trace) {
      const lists = await unpackAll(plan.trace, ["kinds", "states", "seats", "arcs", "taken", "costs"]);
      scene.search = new Search(data, {begins: plan.trace.begins, ...lists});
    }
    if (plan.labels) {
      const lists = await unpackAll(plan.labels, ["states", "g", "v", "heuristic"]);
      scene.labels = new Labels(plan.labels, this.stateOf(data.goal), this.stateOf(plan.start), lists);
    }
    return this.scenes[number] = scene;
  }

  /** The number of the state of a cell and a heading. */
  stateOf([x, y, heading]) {
    return (y * this.data.width + x) * this.data.headings + heading;
  }

  /* ---- what the address says ---- */

  /** The parts of the address after #. */
  parts() {
    return Object.fromEntries(decodeURIComponent(location.hash.slice(1)).split(";").filter(part => part.includes("="))
      .map(part => [part.slice(0, part.indexOf("=")), part.slice(part.indexOf("=") + 1)]));
  }

  /** Shows what the parts of an address say. */
  async take(parts) {
    const number = (text, most) => Math.min(most, Math.max(0, Math.floor(Number(text)) || 0));
    if (parts.theme) this.dress(parts.theme === "dark", false);
    if (parts.by && [...element("by").options].some(it => it.value === parts.by)) {
      element("by").value = this.picture.by = parts.by;
    }
    if (parts.view) {
      const [x, y, scale] = parts.view.split(",").map(Number);
      if (scale > 0 && Number.isFinite(x + y)) Object.assign(this.picture, {x, y, scale: Math.min(160, scale), fitted: false});
    }
    await this.choose(number(parts.plan, this.data.plans.length - 1), false);
    if (this.scene.search) this.seek("step" in parts ? number(parts.step, this.scene.search.size) : this.scene.search.size);
    if (parts.at) {
      const [x, y] = parts.at.split(",").map(Number);
      if (this.isOnMap(x, y)) this.look([x, y], true);
    }
    if (parts.drive) this.moveTo(Number(parts.drive) || 0);
  }

  /** Writes into the address what is shown, some time after the last change. */
  note() {
    clearTimeout(this.noting);
    this.noting = setTimeout(() => {
      const {picture, scene} = this, parts = ["plan=" + this.number];
      if (scene.search) parts.push("step=" + scene.search.at);
      if (this.cell && this.kept) parts.push("at=" + this.cell);
      if (this.time) parts.push("drive=" + short(this.time, 2));
      if (picture.by !== this.usual) parts.push("by=" + picture.by);
      if (!picture.fitted) parts.push("view=" + [picture.x, picture.y, picture.scale].map(value => short(value, 2)));
      if (this.chosen) parts.push("theme=" + (this.dark ? "dark" : "light"));
      try {
        this.written = "#" + parts.join(";");
        history.replaceState(null, "", this.written);
      } catch (error) {
        /* some browsers refuse this for files */
      }
    }, 400);
  }

  /** Tells those who do not see the page what changed, some time after the last change. */
  say(text) {
    clearTimeout(this.saying);
    this.saying = setTimeout(() => element("said").textContent = text, 250);
  }

  /* ---- the theme ---- */

  /** Sets the theme. */
  dress(dark, chosen) {
    this.dark = dark;
    this.chosen = this.chosen || chosen;
    document.documentElement.dataset.theme = dark ? "dark" : "light";
    element("theme").textContent = dark ? "Light" : "Dark";
    element("theme").setAttribute("aria-label", dark ? "Light colours" : "Dark colours");
    this.picture.dress(new Palette(dark));
    if (!this.scene) return;
    this.fillLegend();
    this.tellSearch();
    this.picture.draw();
  }

  /* ---- plans ---- */

  /** Shows a plan; its search stands where it was, or at its end. */
  async choose(number, told = true) {
    if (number < 0 || number >= this.data.plans.length) return;
    this.pause();
    this.stop();
    const first = !this.scenes[number];
    this.wanted = number;
    await this.sceneOf(number);
    /* meanwhile another plan can have been chosen */
    if (this.wanted !== number) return;
    this.number = number;
    this.time = 0;
    const {scene, plan} = this;
    scene.cell = this.cell;
    scene.kept = this.kept;
    element("plan").value = number;
    element("plan-name").textContent = `Plan ${number + 1} of ${this.data.plans.length}`;
    element("plan-before").disabled = number === 0;
    element("plan-after").disabled = number === this.data.plans.length - 1;
    element("plan-text").textContent = this.planText(plan, scene);
    element("player").hidden = !scene.search;
    element("drive").hidden = !scene.path;
    element("bound-part").hidden = !scene.labels;
    if (scene.labels) element("bound-text").textContent = this.boundText(plan, scene.labels);
    this.fillPasses();
    this.fillBounds();
    this.fillLegend();
    this.picture.resize();
    if (scene.search && first) scene.search.at = scene.search.size;
    this.picture.show(scene);
    if (scene.path) {
      element("time").max = Math.round(scene.path.seconds * 1000);
      scene.pose = this.poseAt(scene.path, 0);
    }
    this.tellDrive();
    this.tellSearch();
    this.tellCell();
    this.picture.draw();
    if (told) {
      this.say(`Plan ${number + 1}. ${element("plan-text").textContent}`);
      this.note();
    }
  }

  /** A plan in words. */
  planText(plan, scene) {
    const words = [], changed = scene.changed.length;
    if (plan.number) words.push(`${counted(changed, "cell")} of the map changed before this plan.`);
    const before = this.data.plans[plan.number - 1];
    if (before && String(before.start) !== String(plan.start)) {
      words.push(`The robot has moved to cell ${plan.start[0]}, ${plan.start[1]}.`);
    }
    if (plan.result === "path") {
      const {path} = scene, ways = {backward: "backward", turn: "in place"}, some = [];
      words.push(`A path of ${counted(plan.legs.length, "step")}` + (path ? `, ${short(path.metres, 2)} m` +
        (this.data.grid ? "" : ` in ${short(path.seconds, 1)} s`) : "") + `, at cost ${amount(plan.cost)}.`);
      for (const way of path ? Object.keys(ways) : []) {
        const count = path.directions.filter(it => it === way).length;
        if (count) some.push(way === "turn" ? counted(count, "turn") + " in place" : counted(count, "step") + " backward");
      }
      if (some.length) words.push(`It has ${some.join(" and ")}.`);
      words.push(Number(plan.bound) === 1 ? "No path costs less: the bound is 1.000." :
        `No path costs less than 1/${plan.bound} of that: the bound is ${plan.bound}.`);
      if (plan.spent) words.push("The budget was spent in the last pass.");
    } else if (plan.result === "nopath") {
      words.push("There is no path: no motions of these primitives are free from the start to the goal.");
    } else {
      words.push("Whether there is a path is not known: the budget was spent.");
    }
    if (plan.tight[0]) words.push("The robot does not fit at the start.");
    if (plan.tight[1]) words.push("The robot does not fit at the goal.");
    return words.join(" ");
  }

  /** The bound in words. */
  boundText(plan, labels) {
    const words = [], low = labels.low;
    if (low >= 0) {
      words.push(`The low is ${amount(low)}: no path costs less.`);
      if (plan.result === "path" && plan.cost > low) words.push(`The path costs ${short(plan.cost / (low || 1), 3)} times as much.`);
    }
    words.push(`${counted(labels.settled, "state")} ${labels.settled === 1 ? "is" : "are"} settled (v is g), and ` +
      `${amount(labels.rim)} on the rim (v above g).`);
    if (plan.result === "path") {
      words.push("A path that leaves the settled states does so through the rim, where g and the heuristic together are at " +
        "least the low.");
      if (low === labels.farCost) words.push(`The low is g of the ${labels.fromGoal ? "start" : "goal"} too.`);
    } else if (plan.result === "nopath") {
      words.push("No free arc leaves the settled states, and the goal is none of them.");
    }
    words.push(labels.fromGoal ? "g is the cost from a state to the goal." : "g is the cost from the start to a state.");
    return words.join(" ");
  }

  /* ---- the search ---- */

  /** The first row of a table. */
  headRow(names) {
    return make("tr", {}, ...names.map(it => make("th", {scope: "col"}, it)));
  }

  /** The table of passes. */
  fillPasses() {
    const {plan, scene} = this, table = element("passes");
    element("search-part").hidden = !plan.passes.length;
    table.replaceChildren(this.headRow(["Inflation", "Expanded", "Best", "Bound"]));
    plan.passes.forEach((pass, number) => {
      const name = scene.search ? make("button", {type: "button", title: "To the end of this pass"}, pass.inflation) : pass.inflation;
      if (scene.search) name.addEventListener("click", () => this.jump(scene.search.end(number)));
      table.append(make("tr", {}, ...[name, amount(pass.expanded), pass.best === null ? pass.told : amount(pass.best), pass.bound]
        .map(it => make("td", {}, it))));
    });
  }

  /** The marks where passes begin. */
  fillBounds() {
    const {search} = this.scene, marks = [];
    if (search) {
      element("step").max = search.size;
      for (const at of search.begins) {
        const style = `left: calc(8px + (100% - 16px) * ${at / search.size})`;
        if (at > 0 && at < search.size) marks.push(make("i", {style}));
      }
    }
    element("bounds").replaceChildren(...marks.slice(0, 100));
  }

  /** Tells where the search is. */
  tellSearch() {
    const {scene, plan} = this, {search} = scene;
    let text = `${counted(plan.expanded, "expansion")} in ${plan.passes.length === 1 ? "1 pass" : plan.passes.length + " passes"}.`;
    if (search) {
      const pass = search.pass(search.at), [, raised, , takes, posts] = search.counts, words = [];
      element("step").value = search.at;
      element("step").setAttribute("aria-valuetext", `${amount(search.expanded)} expansions`);
      element("count").textContent = `${amount(search.expanded)} of ${counted(plan.expanded, "expansion")}`;
      if (pass >= 0) words.push(`Pass ${pass + 1} of ${plan.passes.length}, inflation ${plan.passes[pass].inflation}.`);
      else words.push("Before the first pass.");
      words.push(`${amount(search.expanded)} of ${counted(plan.expanded, "expansion")} so far.`);
      if (search.before && raised) {
        words.push(`${counted(Math.min(search.at, search.before), "state")} raised before the first pass.`);
      }
      if (raised > search.before) words.push(`${amount(raised - search.before)} of them raised a state (v was below g).`);
      if (search.workers) {
        words.push(`${counted(takes, "arc")} handed out, ${amount(posts)} back, ${amount(search.out.size)} out now.`);
      }
      text = words.join(" ");
      [...element("passes").rows].forEach((row, number) => row.classList.toggle("now", number === pass + 1));
      element("pass-before").disabled = element("step-before").disabled = search.at === 0;
      element("pass-after").disabled = element("step-after").disabled = search.at === search.size;
      this.fillWorkers();
    }
    element("search-text").textContent = text;
  }

  /** The table of workers. */
  fillWorkers() {
    const {search} = this.scene, table = element("workers");
    table.hidden = !search.workers;
    if (!search.workers) return;
    if (table.rows.length !== search.workers + 1 || table.dataset.plan !== String(this.number)) {
      table.dataset.plan = this.number;
      table.replaceChildren(this.headRow(["Worker", "Arcs taken", "Out now"]));
      for (let seat = 0; seat < search.workers; seat++) {
        const name = make("td", {}, make("span", {class: "swatch"}), String(seat));
        table.append(make("tr", {}, name, make("td"), make("td")));
      }
    }
    const out = new Array(search.workers).fill(0);
    for (const {seat} of search.out.values()) out[seat]++;
    for (let seat = 0; seat < search.workers; seat++) {
      const {cells} = table.rows[seat + 1];
      cells[0].firstChild.style.background = css(this.picture.palette.worker(seat));
      cells[1].textContent = amount(search.takenBy[seat]);
      cells[2].textContent = amount(out[seat]);
    }
  }

  /** Goes to a place in the search. */
  seek(to) {
    const {search} = this.scene;
    if (!search) return;
    this.picture.seek(Math.min(search.size, Math.max(0, Math.round(to))));
    this.picture.drawMarks();
    this.tellSearch();
  }

  /** Goes to a place in the search at the user's wish. */
  jump(to) {
    if (!this.scene.search) return;
    this.pause();
    this.seek(to);
    this.say(element("search-text").textContent);
    this.note();
  }

  /** Goes some passes on, or back. */
  jumpPass(by) {
    const {search} = this.scene;
    if (!search) return;
    const places = [0, ...search.begins, search.size];
    this.jump(by > 0 ? places.find(at => at > search.at) ?? search.size : places.filter(at => at < search.at).pop() ?? 0);
  }

  /** Plays the search; at its end from its begin. */
  play() {
    const {search} = this.scene;
    if (!search) return this.run();
    if (this.playing) {
      this.pause();
      this.say(element("search-text").textContent);
      return this.note();
    }
    this.stop();
    if (search.at === search.size) this.seek(0);
    this.playing = true;
    this.owed = 0;
    this.showPlaying();
    this.tick();
  }

  /** Pauses the search. */
  pause() {
    this.playing = false;
    this.showPlaying();
  }

  /** Shows on the buttons what they do now. */
  showPlaying() {
    for (const [name, on, words] of [["play", this.playing, ["Play the search", "Pause the search"]],
      ["run", this.driving, ["Drive the path", "Stop the robot"]]]) {
      element(name).textContent = on ? PLAYING : PAUSED;
      element(name).setAttribute("aria-label", words[on ? 1 : 0]);
    }
  }

  /** Draws frames as long as something moves. */
  tick() {
    if (this.ticking) return;
    this.ticking = true;
    let last = performance.now();
    const frame = now => {
      const gone = Math.min(0.1, (now - last) / 1000);
      last = now;
      if (this.playing) {
        const {search} = this.scene;
        this.owed += gone * (Number(element("rate").value) || search.size / 10);
        const whole = Math.floor(this.owed);
        this.owed -= whole;
        if (whole) this.seek(search.at + whole);
        if (search.at === search.size) {
          this.pause();
          this.say("The search has ended. " + element("search-text").textContent);
          this.note();
        }
      }
      if (this.driving) {
        const {seconds} = this.scene.path;
        this.moveTo(this.time + gone * Math.max(1, seconds / 12));
        if (this.time >= seconds) {
          this.stop();
          this.say("The robot is at the goal.");
          this.note();
        }
      }
      this.ticking = this.playing || this.driving;
      if (this.ticking) requestAnimationFrame(frame);
    };
    requestAnimationFrame(frame);
  }

  /** Changes the speed by some steps of the list. */
  speed(by) {
    const rate = element("rate");
    rate.selectedIndex = Math.min(rate.options.length - 1, Math.max(0, rate.selectedIndex + by));
    this.say("Speed: " + rate.selectedOptions[0].textContent);
  }

  /* ---- the drive ---- */

  /** The pose of a path at a time. */
  poseAt(path, time) {
    let high = path.time.findIndex(it => it >= time);
    if (high < 0) high = path.time.length - 1;
    const low = Math.max(0, high - 1), span = path.time[high] - path.time[low];
    const part = span > 0 ? Math.min(1, Math.max(0, (time - path.time[low]) / span)) : 1;
    const between = name => path[name][low] + part * (path[name][high] - path[name][low]);
    const turn = Math.atan2(Math.sin(path.theta[high] - path.theta[low]), Math.cos(path.theta[high] - path.theta[low]));
    return {x: between("x"), y: between("y"), theta: path.theta[low] + part * turn, step: path.step[high]};
  }

  /** Places the robot where it is after this many seconds. */
  moveTo(time) {
    const {path} = this.scene;
    if (!path) return;
    this.time = Math.min(path.seconds, Math.max(0, time));
    this.scene.pose = this.poseAt(path, this.time);
    this.tellDrive();
    this.picture.drawMarks();
  }

  /** Tells where the robot is. */
  tellDrive() {
    const {path, pose} = this.scene;
    if (!path) return;
    const words = {forward: "forward", backward: "backward", turn: "turning"}[path.directions[pose.step]];
    element("time").value = Math.round(this.time * 1000);
    /* a grid says no speed, and a metre is driven in two seconds */
    const [gone, all, unit] = this.data.grid ? [this.time / 2, path.metres, "m"] : [this.time, path.seconds, "s"];
    element("gone").textContent = `${gone.toFixed(1)} of ${all.toFixed(1)} ${unit}, step ${pose.step + 1} of ` +
      `${path.directions.length}, ${words}`;
    element("time").setAttribute("aria-valuetext", element("gone").textContent);
    element("drive-before").disabled = this.time <= 0;
    element("drive-after").disabled = this.time >= path.seconds;
  }

  /** Drives the path, or stops; at its end from the start. */
  run() {
    const {path} = this.scene;
    if (!path) return;
    if (this.driving) {
      this.stop();
      this.say(element("gone").textContent);
      return this.note();
    }
    this.pause();
    if (this.time >= path.seconds) this.moveTo(0);
    this.driving = true;
    this.showPlaying();
    this.tick();
  }

  /** Stops the robot. */
  stop() {
    this.driving = false;
    this.showPlaying();
  }

  /** Goes to the pose before, or to the next. */
  nudge(by) {
    const {path} = this.scene;
    if (!path) return;
    this.stop();
    const near = 0.0006, times = path.time.filter(it => by > 0 ? it > this.time + near : it < this.time - near);
    this.moveTo(times.length ? times[by > 0 ? 0 : times.length - 1] : by > 0 ? path.seconds : 0);
    this.say(element("gone").textContent);
    this.note();
  }

  /* ---- the cell under the pointer ---- */

  isOnMap(x, y) {
    return Number.isInteger(x) && Number.isInteger(y) && x >= 0 && y >= 0 && x < this.data.width && y < this.data.height;
  }

  /** Shows a cell, and keeps it where the user asks for that; null for none. */
  look(cell, kept) {
    if (!kept && String(cell) === String(this.cell)) return;
    this.cell = this.scene.cell = cell;
    this.kept = this.scene.kept = kept;
    this.tellCell();
    this.picture.drawMarks();
  }

  /** Tells of the cell. */
  tellCell() {
    const {data, scene, cell} = this, part = element("cell-states");
    part.replaceChildren();
    element("cell-text").textContent = "Point at a cell, or press w, a, s, d.";
    if (!cell) return;
    const [x, y] = cell, cost = scene.costs[y * data.width + x], {labels} = scene;
    const kind = cost >= data.obsthresh ? ", an obstacle" : cost >= data.inscribed ? ", not for the robot's centre" : "";
    const words = [`Cell ${x}, ${y}`, `at ${this.metres(x + 0.5, y + 0.5)}.`, `Cost ${cost}${kind}.`];
    if (labels) {
      const first = (y * data.width + x) * data.headings, rows = [];
      for (let at = labels.row(first); at < labels.states.length && labels.states[at] < first + data.headings; at++) {
        const show = value => value === Infinity ? "\u221e" : amount(value), heading = labels.states[at] - first;
        const row = [show(labels.g[at]), show(labels.v[at])];
        if (labels.heuristic) row.push(amount(labels.heuristic[at]));
        if (!data.grid) row.unshift(`${heading} (${short(360 * heading / data.headings, 1)}\u00b0)`);
        rows.push(make("tr", {}, ...row.map(it => make("td", {}, it))));
      }
      const names = ["g", "v"];
      if (labels.heuristic) names.push("Heuristic");
      if (!data.grid) names.unshift("Heading");
      if (rows.length) part.append(this.headRow(names), ...rows);
      words.push(rows.length ? "" : "No row: g and v are infinite.");
    }
    element("cell-text").textContent = words.join(" ");
    if (this.kept) this.say(element("cell-part").innerText);
  }

  /** A point of the map in metres, in the frame of the map's file where there is one. */
  metres(x, y) {
    const {cell, origin} = this.data, [left, low] = origin || [0, 0];
    /* as many decimals as the middle of a cell needs */
    let decimals = 0;
    while (decimals < 6 && Math.abs(cell / 2 - Number((cell / 2).toFixed(decimals))) > 1e-9) decimals++;
    return `${(left + x * cell).toFixed(decimals)}, ${(low + y * cell).toFixed(decimals)} m`;
  }

  /** Shows the point under the pointer. */
  point(event) {
    const box = element("marks").getBoundingClientRect(), [x, y] = this.picture.cellAt(event.clientX - box.left, event.clientY - box.top);
    const cell = [Math.floor(x), Math.floor(y)], on = this.isOnMap(...cell);
    element("where").textContent = on ? [this.metres(x, y), `cell ${cell[0]}, ${cell[1]}`, ...this.best(cell)].join(" \u00b7 ") : "";
    return on ? cell : null;
  }

  /** The least g among the states of a cell, and the v there, in words; nothing without labels. */
  best([x, y]) {
    const {labels} = this.scene, {headings} = this.data, first = (y * this.data.width + x) * headings;
    if (!labels) return [];
    const all = Array.from({length: headings}, (_, heading) => labels.of(first + heading));
    const {g, v} = all.reduce((one, other) => other.g < one.g ? other : one);
    return g === Infinity ? ["no label"] : [`g ${amount(g)}`, `v ${v === Infinity ? "\u221e" : amount(v)}`];
  }

  /** Moves the cell by keys. */
  walk(right, up) {
    const [x, y] = this.cell ? [this.cell[0] + right, this.cell[1] + up] : this.scene.start;
    if (!this.isOnMap(x, y)) return;
    this.look([x, y], true);
    this.note();
  }

  /* ---- zoom and pan ---- */

  /** Draws all after a zoom or a pan. */
  moved() {
    this.picture.draw();
    this.fillScale();
    this.note();
  }

  zoom(factor, left, top) {
    this.picture.zoom(factor, left, top);
    this.moved();
  }

  pan(left, top) {
    this.picture.pan(left, top);
    this.moved();
  }

  fit() {
    this.picture.fit();
    this.moved();
  }

  /** The bar of the scale. */
  fillScale() {
    const metre = this.picture.scale / this.data.cell, length = roundLength(140 / metre), bar = element("scale").firstElementChild;
    const [times, unit] = length >= 1 ? [1, "m"] : length >= 0.01 ? [100, "cm"] : [1000, "mm"];
    bar.style.width = length * metre + "px";
    element("scale").replaceChildren(bar, `${short(length * times, 6)} ${unit}`);
  }

  /* ---- the legend ---- */

  /** A small drawing. */
  swatch(inside) {
    const it = make("span");
    it.innerHTML = `<svg width="28" height="16" viewBox="0 0 28 16" aria-hidden="true">${inside}</svg>`;
    return it.firstChild;
  }

  /** A bar in the colours of the scale. */
  bar() {
    const stops = [0, 0.25, 0.5, 0.75, 1].map(part => css(this.picture.palette.on(part)));
    return make("span", {class: "bar", style: `background: linear-gradient(to right, ${stops})`});
  }

  /** The legend, of what this plan shows alone; what can be hidden has a box. */
  fillLegend() {
    const {data, scene, picture} = this, {palette} = picture, {search, labels, path} = scene, entries = [];
    const box = colour => `<rect width="28" height="16" fill="${colour}"/>`, costs = new Set(scene.costs);
    const dots = colour => [0, 1, 2, 3, 4, 5, 6, 7].map(at =>
      `<rect x="${4 + 6 * (at >> 1)}" y="${4 + 6 * (at & 1)}" width="3" height="3" fill="${colour}"/>`).join("");
    const line = (name, more) => `<path d="M3 8h22" fill="none" stroke="${palette[name]}" stroke-linecap="round" ${more}/>`;
    const add = (name, drawing, ...words) => entries.push([name, drawing, words]);
    if (picture.by === "order") add("", null, "early", this.bar(), "late");
    if (picture.by === "cost") add("", null, "g: 0", this.bar(), amount(labels.most));
    if (picture.by === "pass") {
      scene.search.begins.forEach((_, at) => add("", box(css(palette.pass(at, search.begins.length))),
        `pass ${at + 1}, inflation ${this.plan.passes[at].inflation}`));
    }
    if (search && search.workers) {
      add("", `<path d="M4 12Q14 12 24 4" fill="none" stroke="${css(palette.worker(0))}" stroke-width="3"/>`,
        "an arc that a worker has out");
      if (picture.by === "worker") {
        const part = seat => `<rect x="${7 * seat}" width="28" height="16" fill="${css(palette.worker(seat))}"/>`;
        add("", [0, 1, 2, 3].slice(0, search.workers).map(part).join(""), "the last worker here, by its colour above");
      }
    }
    if (search && search.kinds.includes(RAISE)) add("raised", dots(palette.raised), "a state was raised here");
    if (labels && labels.rim) add("rim", dots(palette.rim), "rim: v above g");
    if (search && data.headings > 1) {
      add("ticks", `<path d="M14 8l8-4" stroke="${palette.ink}" stroke-width="1.6"/>`, "headings (zoom in)");
    }
    if (path) {
      const ways = new Set(path.directions);
      const words = {forward: "driving forward", backward: "driving backward", turn: "turn in place"};
      for (const way of Object.keys(words).filter(it => ways.has(it))) {
        add("path", way === "turn" ?
          `<circle cx="14" cy="8" r="4.5" fill="none" stroke="${palette.turn}" stroke-width="2.2"/>` :
          line(way, way === "backward" ? 'stroke-width="4" stroke-dasharray="0.1 7"' : 'stroke-width="3"'), words[way]);
      }
      add("robot", `<g fill="${palette.swept}" fill-opacity=".45" stroke="${palette.ink}" stroke-width="1.6"><circle cx="14" cy="8" r="6"/>
        <path d="M14 8h6"/></g>`, data.radius ? `robot, radius ${short(data.radius, 4)} m` : "robot");
      add("swept", `<rect x=".7" y=".7" width="26.6" height="14.6" fill="${palette.swept}" fill-opacity=".34"
        stroke="${palette.forward}" stroke-width="1.2"/>`,
        data.grid && !data.radius ? "cells that the path reads" : "cells that the robot sweeps");
    }
    if (scene.before) {
      add("before", line("before", 'stroke-width="2.2" stroke-dasharray="0.1 4.5"'), "path of the plan before");
    }
    const changed = [...scene.changed].map(cell => scene.costs[cell] >= data.obsthresh);
    if (changed.includes(true)) add("changed", box(palette.shut), "changed, now an obstacle");
    if (changed.includes(false)) add("changed", box(palette.open), "changed, now no obstacle");
    const least = Math.min(data.obsthresh, data.inscribed);
    const greys = [...costs].filter(cost => cost > 0 && cost < least).sort((one, other) => one - other);
    const shade = cost => css(palette.cost(cost, data.obsthresh, data.inscribed));
    if (greys.length) {
      const three = [greys[0], greys[greys.length >> 1], greys[greys.length - 1]];
      add("", three.map((cost, at) => `<rect x="${9.33 * at}" width="9.4" height="16" fill="${shade(cost)}"/>`).join(""),
        greys.length === 1 ? `cost ${greys[0]}` : `cost ${greys[0]} to ${greys[greys.length - 1]}`);
    }
    if ([...costs].some(cost => cost >= data.inscribed && cost < data.obsthresh)) {
      add("", box(palette.narrow), "not for the robot's centre");
    }
    if ([...costs].some(cost => cost >= data.obsthresh)) add("", box(palette.obstacle), "obstacle");
    if (scene.tight.includes(true)) {
      add("", `<path d="M9 3l10 10m0-10l-10 10" stroke="${palette.cross}" stroke-width="2.6"/>`, "the robot does not fit here");
    }
    this.toggles = [];
    element("legend").replaceChildren(...entries.map(([name, drawing, words]) => {
      const inside = [...(drawing ? [this.swatch(drawing)] : []), make("span", {}, ...words)];
      /* one box for what is shown and hidden together */
      if (!name || this.toggles.includes(name)) return make("li", {}, make("span", {class: "room"}), ...inside);
      const check = make("input", {type: "checkbox", "data-layer": name});
      check.checked = !picture.hidden.has(name);
      check.addEventListener("change", () => this.toggle(name));
      this.toggles.push(name);
      return make("li", {}, make("label", {title: `Show or hide (${this.toggles.length})`}, check, ...inside));
    }));
  }

  /** Shows or hides what the legend lists. */
  toggle(name) {
    const {hidden} = this.picture;
    if (!hidden.delete(name)) hidden.add(name);
    for (const check of document.querySelectorAll(`#legend input[data-layer="${name}"]`)) check.checked = !hidden.has(name);
    if (name === "changed") this.picture.paintMap();
    this.picture.draw();
  }

  /** Sets what colours the cells. */
  colour(by) {
    this.picture.by = by;
    element("by").value = by;
    this.fillLegend();
    this.picture.paintCells();
    this.picture.draw();
    this.note();
  }

  /* ---- what stands on the page from the begin ---- */

  /** Fills what all plans have in common. */
  fillHead() {
    const {data} = this, {plans} = data, labels = plans.some(it => it.labels), traces = plans.filter(it => it.trace);
    element("title").textContent = data.name;
    const [wide, high] = [data.width, data.height].map(cells => short(cells * data.cell, 2));
    element("subtitle").textContent = `${data.map}, ${wide} by ${high} m, ` +
      `${amount(data.width)} by ${amount(data.height)} cells` + (data.grid ? "" : `, ${data.headings} headings`);
    element("plans").hidden = plans.length === 1;
    element("plan").max = plans.length - 1;
    element("marks").setAttribute("aria-label", "Map with the plan and its search");
    const ways = [];
    if (traces.length) ways.push(["order", "order of expansion"], ["pass", "pass"]);
    if (traces.some(it => it.trace.seats.n)) ways.splice(0, 0, ["worker", "worker"]);
    if (labels) ways.push(["cost", "g of the labels"]);
    ways.push(["none", "cost of the map alone"]);
    element("by").append(...ways.map(([value, words]) => make("option", {value}, words)));
    element("by-part").hidden = ways.length === 1;
    this.picture.by = this.usual = ways[0][0];
    element("rate").append(...RATES.map(([words, value]) => make("option", {value}, words)));
    element("key-table").append(...KEYS.map(([keys, words]) => make("tr", {},
      make("td", {}, ...keys.flatMap(key => [make("kbd", {}, key), " "])), make("td", {}, words))));
    this.dark = matchMedia("(prefers-color-scheme: dark)").matches;
    this.showPlaying();
  }

  /** Binds keys, pointer and buttons. */
  listen() {
    const clicks = {"plan-before": () => this.choose(this.wanted - 1), "plan-after": () => this.choose(this.wanted + 1),
      theme: () => this.dressChosen(), help: () => element("keys").showModal(), close: () => element("keys").close(),
      "zoom-in": () => this.zoom(1.4), "zoom-out": () => this.zoom(1 / 1.4), fit: () => this.fit(),
      play: () => this.play(), "step-before": () => this.step(-1), "step-after": () => this.step(1),
      "pass-before": () => this.jumpPass(-1), "pass-after": () => this.jumpPass(1),
      run: () => this.run(), "drive-before": () => this.nudge(-1), "drive-after": () => this.nudge(1)};
    for (const [name, act] of Object.entries(clicks)) element(name).addEventListener("click", act);
    element("plan").addEventListener("input", event => this.choose(Number(event.target.value)));
    element("step").addEventListener("input", event => this.jump(Number(event.target.value)));
    element("time").addEventListener("input", event => {
      this.stop();
      this.moveTo(Number(event.target.value) / 1000);
      this.note();
    });
    element("by").addEventListener("change", event => this.colour(event.target.value));
    document.addEventListener("keydown", event => this.key(event));
    window.addEventListener("hashchange", () => location.hash !== this.written && this.take(this.parts()));
    matchMedia("(prefers-color-scheme: dark)").addEventListener("change", event => this.chosen || this.dress(event.matches, false));
    new ResizeObserver(() => {
      if (!this.ready) return;
      this.picture.resize();
      this.picture.draw();
      this.fillScale();
    }).observe(element("stage"));
    this.listenToPointer(element("marks"));
  }

  /** Binds the pointer on the map. */
  listenToPointer(marks) {
    const down = new Map();
    let far = 0;
    const span = () => {
      const [one, other] = [...down.values()];
      return Math.hypot(one[0] - other[0], one[1] - other[1]);
    };
    marks.addEventListener("wheel", event => {
      event.preventDefault();
      const far = event.deltaY * (event.deltaMode ? 30 : 1);
      this.zoom(Math.exp(-Math.max(-200, Math.min(200, far)) / 400), event.offsetX, event.offsetY);
      this.point(event);
    }, {passive: false});
    marks.addEventListener("pointerdown", event => {
      marks.setPointerCapture(event.pointerId);
      down.set(event.pointerId, [event.offsetX, event.offsetY]);
      if (down.size === 1) far = 0;
    });
    marks.addEventListener("pointermove", event => {
      const before = down.get(event.pointerId), now = [event.offsetX, event.offsetY];
      if (!before) {
        const cell = this.point(event);
        return this.kept || this.look(cell, false);
      }
      const wide = down.size === 2 ? span() : 0;
      down.set(event.pointerId, now);
      far += Math.hypot(now[0] - before[0], now[1] - before[1]);
      if (wide) this.zoom(span() / wide, now[0], now[1]);
      else if (far > 4) this.pan(now[0] - before[0], now[1] - before[1]);
      this.point(event);
    });
    for (const name of ["pointerup", "pointercancel"]) {
      marks.addEventListener(name, event => {
        if (!down.delete(event.pointerId) || down.size || far > 4 || name !== "pointerup") return;
        const cell = this.point(event);
        this.look(cell, Boolean(cell) && !(this.kept && String(cell) === String(this.cell)));
        this.note();
      });
    }
    marks.addEventListener("pointerleave", () => {
      element("where").textContent = "";
      if (!this.kept) this.look(null, false);
    });
  }

  dressChosen() {
    this.dress(!this.dark, true);
    this.note();
  }

  /** Goes some steps of the search on, or without a search to the next pose. */
  step(by) {
    const {search} = this.scene;
    if (search) this.jump(search.at + by);
    else this.nudge(by);
  }

  /** Answers a key. */
  key(event) {
    const {target, key} = event, tag = target.tagName;
    if (!this.ready || event.ctrlKey || event.metaKey || event.altKey || element("keys").open) return;
    /* what has the focus keeps its own keys */
    const presses = tag === "BUTTON" || tag === "INPUT" && target.type === "checkbox";
    if (tag === "SELECT" || presses && (key === " " || key === "Enter")) return;
    if (tag === "INPUT" && target.type === "range" && /^(Arrow|Page|Home|End)/.test(key)) return;
    const by = [...element("by").options].map(it => it.value), many = event.shiftKey ? 100 : 1, {search} = this.scene;
    const acts = {" ": () => this.play(), ArrowLeft: () => this.step(-many), ArrowRight: () => this.step(many),
      PageUp: () => this.jumpPass(-1), PageDown: () => this.jumpPass(1),
      Home: () => search ? this.jump(0) : this.moveTo(0), End: () => search ? this.jump(search.size) : this.moveTo(Infinity),
      ",": () => this.speed(-1), ".": () => this.speed(1), "<": () => this.speed(-1), ">": () => this.speed(1),
      ArrowUp: () => this.choose(this.wanted - 1), ArrowDown: () => this.choose(this.wanted + 1),
      "[": () => this.choose(this.wanted - 1), "]": () => this.choose(this.wanted + 1),
      r: () => this.run(), j: () => this.nudge(-1), k: () => this.nudge(1),
      "+": () => this.zoom(1.4), "=": () => this.zoom(1.4), "-": () => this.zoom(1 / 1.4), "0": () => this.fit(),
      h: () => this.pan(60, 0), l: () => this.pan(-60, 0), u: () => this.pan(0, 60), n: () => this.pan(0, -60),
      w: () => this.walk(0, 1), s: () => this.walk(0, -1), a: () => this.walk(-1, 0), d: () => this.walk(1, 0),
      Escape: () => this.look(null, false), c: () => this.colour(by[(by.indexOf(this.picture.by) + 1) % by.length]),
      t: () => this.dressChosen(), "?": () => element("keys").showModal()};
    const act = acts[key] || (/^[1-9]$/.test(key) && this.toggles[key - 1] && (() => this.toggle(this.toggles[key - 1])));
    if (!act) return;
    event.preventDefault();
    act();
  }
}

/** Opens the page; without what it needs it says so. */
(async () => {
  try {
    if (typeof DecompressionStream === "undefined") throw new Error("this browser is too old for this page: it lacks DecompressionStream");
    const page = new Page(JSON.parse(element("data").textContent));
    await page.open();
    page.fillScale();
  } catch (error) {
    document.querySelector("main").replaceChildren(make("p", {role: "alert", style: "padding: 20px"}, error.message));
    throw error;
  }
})();
