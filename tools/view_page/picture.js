/** An image with a pixel, or a square of some pixels, for each cell; row 0 of the map is its last. */
class Layer {
  constructor(width, height, fine = 1) {
    Object.assign(this, {width, height, fine, canvas: null});
    this.clean();
  }

  /** Makes the canvas, with the first paint: a map can have many cells, and a layer none. */
  make() {
    const {width, height, fine} = this;
    this.canvas = document.createElement("canvas");
    this.canvas.width = width * fine;
    this.canvas.height = height * fine;
    this.context = this.canvas.getContext("2d");
    this.image = this.context.createImageData(width * fine, height * fine);
    this.pixels = new Uint32Array(this.image.data.buffer);
  }

  /** Says that nothing is new. */
  clean() {
    [this.left, this.low, this.right, this.high] = [Infinity, Infinity, -1, -1];
  }

  /** Paints a cell. On a fine layer the cell gets a dot, so that what is below can be seen. */
  set(cell, colour) {
    if (!this.canvas) this.make();
    const y = this.height - 1 - Math.floor(cell / this.width), x = cell % this.width, fine = this.fine;
    if (x < this.left) this.left = x;
    if (x > this.right) this.right = x;
    if (y < this.low) this.low = y;
    if (y > this.high) this.high = y;
    if (fine === 1) {
      this.pixels[y * this.width + x] = colour;
      return;
    }
    const middle = (y * fine + 1) * this.width * fine + x * fine + 1, row = this.width * fine;
    for (const place of [middle, middle - 1, middle + 1, middle - row, middle + row]) this.pixels[place] = colour;
  }

  /** Takes all paint away. */
  clear() {
    if (!this.canvas) return;
    this.pixels.fill(0);
    this.context.clearRect(0, 0, this.canvas.width, this.canvas.height);
    this.clean();
  }

  /** Puts what is new on the canvas; where that is, in cells from the upper left corner, or null where nothing is. */
  flush() {
    if (this.right < 0) return null;
    const {left, low, right, high, fine} = this;
    this.context.putImageData(this.image, 0, 0, left * fine, low * fine, (right - left + 1) * fine, (high - low + 1) * fine);
    this.clean();
    return {left, low, right: right + 1, high: high + 1};
  }
}

/* from how many pixels a cell on headings are drawn, and what stays free around a map that is shown whole */
const TICKS_FROM = 9, FREE = {left: 52, top: 16, right: 16, foot: 48};

/** What is drawn: a canvas for the map, one for the search, one for headings, and one for the path and all marks. */
class Picture {
  constructor(data, stage) {
    this.data = data;
    this.stage = stage;
    this.contexts = {};
    for (const name of ["map", "search", "ticks", "marks"]) {
      this.contexts[name] = document.getElementById(name).getContext("2d");
    }
    const fine = data.width * data.height <= 1 << 20 ? 3 : 1, layer = many => new Layer(data.width, data.height, many);
    this.layers = {map: layer(1), swept: layer(1), cells: layer(1), raised: layer(fine), rim: layer(fine)};
    this.hidden = new Set(["rim"]);
    this.by = "none";
    [this.x, this.y, this.scale] = [data.width / 2, data.height / 2, 1];
    this.fitted = true;
  }

  /** Takes the size of the stage; the middle stays. */
  resize() {
    const box = this.stage.getBoundingClientRect();
    [this.wide, this.high, this.dense] = [box.width, box.height, window.devicePixelRatio || 1];
    for (const context of Object.values(this.contexts)) {
      context.canvas.width = Math.round(box.width * this.dense);
      context.canvas.height = Math.round(box.height * this.dense);
      context.setTransform(this.dense, 0, 0, this.dense, 0, 0);
    }
    if (this.fitted) this.fit();
  }

  /** Shows the whole map. */
  fit() {
    const {width, height} = this.data, {left, top, right, foot} = FREE;
    this.scale = Math.max(1e-3, Math.min((this.wide - left - right) / width, (this.high - top - foot) / height));
    [this.x, this.y] = [width / 2 - (left - right) / 2 / this.scale, height / 2 - (foot - top) / 2 / this.scale];
    this.fitted = true;
  }

  /** Zooms by a factor; what is at this point of the stage stays there. */
  zoom(factor, left = this.wide / 2, top = this.high / 2) {
    const [x, y] = this.cellAt(left, top), before = this.scale;
    this.scale = Math.min(160, Math.max(Math.min(this.wide / this.data.width, this.high / this.data.height) / 4, before * factor));
    this.x = x - (x - this.x) * before / this.scale;
    this.y = y - (y - this.y) * before / this.scale;
    this.fitted = false;
  }

  /** Moves the map by pixels. */
  pan(left, top) {
    this.x = Math.min(this.data.width, Math.max(0, this.x - left / this.scale));
    this.y = Math.min(this.data.height, Math.max(0, this.y + top / this.scale));
    this.fitted = false;
  }

  /** The point of the stage where a point of the map is, which is in cells. */
  at(x, y) {
    return [this.wide / 2 + (x - this.x) * this.scale, this.high / 2 - (y - this.y) * this.scale];
  }

  /** The point of the map, in cells, at a point of the stage. */
  cellAt(left, top) {
    return [this.x + (left - this.wide / 2) / this.scale, this.y - (top - this.high / 2) / this.scale];
  }

  /** Sets the plan that is drawn: its costs, its place in the search, its labels. */
  show(scene) {
    this.scene = scene;
    this.paintMap();
    this.paintCells();
  }

  /** Sets the theme. */
  dress(palette) {
    this.palette = palette;
    if (this.scene) this.show(this.scene);
  }

  /** Paints the map's own layers. */
  paintMap() {
    const {data, palette, scene} = this, {map, swept, rim} = this.layers;
    const shades = Array.from({length: 256}, (_, cost) => pixel(palette.cost(cost, data.obsthresh, data.inscribed)));
    const marked = [palette.open, palette.shut].map(colour => pixel(parsed(colour)));
    for (const layer of [swept, rim]) layer.clear();
    for (let cell = 0; cell < scene.costs.length; cell++) map.set(cell, shades[scene.costs[cell]]);
    if (!this.hidden.has("changed")) {
      for (const cell of scene.changed) map.set(cell, marked[scene.costs[cell] >= data.obsthresh ? 1 : 0]);
    }
    if (!scene.edge) scene.edge = this.edgeOf(scene.swept);
    const tint = pixel(parsed(palette.swept), palette.dark ? 0.24 : 0.34);
    for (const cell of scene.swept) swept.set(cell, tint);
    if (scene.labels) {
      const dot = pixel(parsed(palette.rim), rim.fine > 1 ? 0.75 : 0.45);
      for (let at = 0; at < scene.labels.states.length; at++) {
        if (scene.labels.isRim(at)) rim.set(Math.floor(scene.labels.states[at] / data.headings), dot);
      }
    }
    for (const layer of [map, swept, rim]) layer.flush();
  }

  /** The edge of an area of cells, in cells. */
  edgeOf(cells) {
    const {width} = this.data, all = new Set(cells), edge = new Path2D();
    for (const cell of cells) {
      const x = cell % width, y = Math.floor(cell / width);
      const left = x > 0 ? cell - 1 : -1, right = x + 1 < width ? cell + 1 : -1;
      for (const [other, x0, y0, x1, y1] of [[left, x, y, x, y + 1], [right, x + 1, y, x + 1, y + 1],
        [cell - width, x, y, x + 1, y], [cell + width, x, y + 1, x + 1, y + 1]]) {
        if (all.has(other)) continue;
        edge.moveTo(x0, y0);
        edge.lineTo(x1, y1);
      }
    }
    return edge;
  }

  /** Paints the cells by what the user chose, as far as the search is. */
  paintCells() {
    const {scene, palette, data} = this, {cells, raised} = this.layers;
    cells.clear();
    raised.clear();
    const to = scene.search ? scene.search.at : 0;
    if (scene.search) scene.search.reset();
    this.makeBrush();
    if (this.by === "cost" && scene.labels) {
      const least = new Map(), {states, g, most} = scene.labels;
      for (let at = 0; at < states.length; at++) {
        const cell = Math.floor(states[at] / data.headings);
        if (g[at] < Infinity && !(least.get(cell) <= g[at])) least.set(cell, g[at]);
      }
      for (const [cell, cost] of least) cells.set(cell, pixel(palette.scale[Math.floor(255 * cost / (most || 1))], 0.88));
    }
    if (scene.search) scene.search.play(to, this.brush);
    cells.flush();
    raised.flush();
  }

  /** Makes what paints the event of a search. */
  makeBrush() {
    const {scene, palette, by} = this, {cells, raised} = this.layers, {headings} = this.data, search = scene.search;
    if (!search) return;
    const dots = pixel(parsed(palette.raised), raised.fine > 1 ? 0.95 : 0.6);
    const scale = palette.scale.map(colour => pixel(colour, 0.88)), last = Math.max(1, search.size - 1);
    const passes = search.begins.map((_, at) => pixel(palette.pass(at, search.begins.length), 0.88));
    const seats = Array.from({length: search.workers}, (_, seat) => pixel(palette.worker(seat), 0.88));
    const faint = pixel(parsed(palette.soft), 0.35);
    /* by order a cell has the colour of its first expansion in the last pass that expanded it */
    const stamps = new Uint16Array(this.data.width * this.data.height);
    let pass = -1;
    this.brush = (at, kind, state, seat) => {
      const cell = Math.floor(state / headings);
      while (pass + 1 < search.begins.length && search.begins[pass + 1] <= at) pass++;
      if (kind === RAISE) raised.set(cell, dots);
      if (kind === RAISE && at < search.before) return;
      if (kind === TAKE || kind === POST) {
        if (by === "worker" && kind === TAKE) cells.set(cell, seats[seat]);
      } else if (by === "order") {
        if (kind !== RAISE && stamps[cell] === pass + 1) return;
        if (kind !== RAISE) stamps[cell] = pass + 1;
        cells.set(cell, scale[Math.floor(255 * at / last)]);
      } else if (by === "pass") {
        cells.set(cell, passes[Math.max(0, pass)]);
      } else if (by === "worker") {
        cells.set(cell, faint);
      }
    };
  }

  /** Goes to a place in the search; draws only what is new where that is ahead. */
  seek(to) {
    const {scene} = this, {cells, raised} = this.layers, from = scene.search.at;
    if (to < from) {
      scene.search.at = to;
      this.paintCells();
      this.drawSearch();
      this.drawTicks(0);
      return;
    }
    scene.search.play(to, this.brush);
    for (const part of [cells.flush(), raised.flush()]) if (part) this.drawSearch(part);
    this.drawTicks(from);
  }

  /** Draws an image over the whole map. */
  place(context, layer) {
    if (!layer.canvas) return;
    const [left, top] = this.at(0, layer.height), fine = this.scale * this.dense / layer.fine;
    context.imageSmoothingEnabled = fine < 1;
    context.imageSmoothingQuality = "medium";
    context.drawImage(layer.canvas, left, top, layer.width * this.scale, layer.height * this.scale);
  }

  /** Draws all. */
  draw() {
    this.drawMap();
    this.drawSearch();
    this.drawTicks(0);
    this.drawMarks();
  }

  /** Draws the map with its grid, where cells are large enough for one. */
  drawMap() {
    const context = this.contexts.map, {width, height} = this.data;
    context.clearRect(0, 0, this.wide, this.high);
    const [left, top] = this.at(0, height), [right, foot] = this.at(width, 0);
    context.save();
    context.shadowColor = "rgb(0 0 0 / .25)";
    context.shadowBlur = 10;
    context.fillStyle = this.palette.paper;
    context.fillRect(left, top, right - left, foot - top);
    context.restore();
    this.place(context, this.layers.map);
    if (!this.hidden.has("swept")) this.place(context, this.layers.swept);
    if (this.scale < 14) return;
    context.strokeStyle = this.palette.dark ? "rgb(255 255 255 / .09)" : "rgb(0 0 0 / .09)";
    context.lineWidth = 1;
    context.beginPath();
    const [x0, y0] = this.cellAt(0, this.high), [x1, y1] = this.cellAt(this.wide, 0);
    for (let x = Math.max(0, Math.floor(x0)); x <= Math.min(width, Math.ceil(x1)); x++) {
      const at = Math.round(this.at(x, 0)[0]) + 0.5;
      context.moveTo(at, Math.max(top, 0));
      context.lineTo(at, Math.min(foot, this.high));
    }
    for (let y = Math.max(0, Math.floor(y0)); y <= Math.min(height, Math.ceil(y1)); y++) {
      const at = Math.round(this.at(0, y)[1]) + 0.5;
      context.moveTo(Math.max(left, 0), at);
      context.lineTo(Math.min(right, this.wide), at);
    }
    context.stroke();
  }

  /** Draws the search, or a part of it alone: a rectangle in cells from the upper left corner of the map. */
  drawSearch(part) {
    const context = this.contexts.search;
    context.save();
    if (part) {
      const [x, y] = this.at(0, this.data.height), scale = this.scale, dense = this.dense;
      const low = value => Math.floor(value * dense) / dense, high = value => Math.ceil(value * dense) / dense;
      const left = low(x + part.left * scale - 1), top = low(y + part.low * scale - 1);
      context.beginPath();
      context.rect(left, top, high(x + part.right * scale + 1) - left, high(y + part.high * scale + 1) - top);
      context.clip();
    }
    context.clearRect(0, 0, this.wide, this.high);
    this.place(context, this.layers.cells);
    if (!this.hidden.has("rim") && this.scene.labels) this.place(context, this.layers.rim);
    if (!this.hidden.has("raised")) this.place(context, this.layers.raised);
    context.restore();
  }

  /** Draws the headings of the states that were expanded from a place in the search on, where cells are large enough. */
  drawTicks(from) {
    const context = this.contexts.ticks, {search} = this.scene, {width, headings} = this.data;
    if (from === 0) context.clearRect(0, 0, this.wide, this.high);
    if (!search || headings === 1 || this.scale < TICKS_FROM || this.hidden.has("ticks")) return;
    const [x0, y0] = this.cellAt(0, this.high), [x1, y1] = this.cellAt(this.wide, 0);
    context.lineWidth = this.scale > 24 ? 1.6 : 1;
    for (const wanted of [false, true]) {
      context.strokeStyle = wanted ? this.palette.raised : this.palette.ink;
      context.globalAlpha = wanted ? 1 : 0.6;
      context.beginPath();
      for (let at = from; at < search.at; at++) {
        const kind = search.kinds[at], state = search.states[at], cell = Math.floor(state / headings);
        const x = cell % width, y = Math.floor(cell / width);
        if (kind > OPEN || (kind === RAISE) !== wanted || x < x0 - 1 || x > x1 || y < y0 - 1 || y > y1) continue;
        const angle = 2 * Math.PI * (state % headings) / headings, [left, top] = this.at(x + 0.5, y + 0.5);
        const near = 0.16 * this.scale, far = 0.45 * this.scale;
        context.moveTo(left + near * Math.cos(angle), top - near * Math.sin(angle));
        context.lineTo(left + far * Math.cos(angle), top - far * Math.sin(angle));
      }
      context.stroke();
    }
    context.globalAlpha = 1;
  }

  /** Draws a line through points of a path, from one number to another. */
  line(context, path, from, to) {
    context.beginPath();
    for (let at = from; at <= to; at++) context.lineTo(...this.at(path.x[at], path.y[at]));
    context.stroke();
  }

  /** Draws the outline of an arrow head. */
  arrow(context, left, top, angle, size) {
    context.beginPath();
    for (const [ahead, aside] of [[1, 0], [-0.7, 0.62], [-0.3, 0], [-0.7, -0.62]]) {
      context.lineTo(left + size * (ahead * Math.cos(angle) - aside * Math.sin(angle)),
        top - size * (ahead * Math.sin(angle) + aside * Math.cos(angle)));
    }
    context.closePath();
  }

  /** Draws the path: its parts by direction, rings where the robot turns in place, and arrows. */
  drawPath(context, path) {
    const {palette} = this, last = path.x.length - 1;
    const kinds = {forward: [], backward: [0.1, 8], turn: []};
    context.lineJoin = context.lineCap = "round";
    context.strokeStyle = palette.panel;
    context.lineWidth = 7;
    context.globalAlpha *= 0.85;
    this.line(context, path, 0, last);
    context.globalAlpha /= 0.85;
    for (const {from, to, direction} of path.parts) {
      context.strokeStyle = palette[direction];
      context.lineWidth = direction === "backward" ? 4.4 : 3.2;
      context.setLineDash(kinds[direction]);
      if (direction !== "turn") this.line(context, path, from, to);
    }
    context.setLineDash([]);
    for (const {from, direction} of path.parts) {
      if (direction !== "turn") continue;
      const [left, top] = this.at(path.x[from], path.y[from]);
      context.beginPath();
      context.arc(left, top, 5, 0, 7);
      context.fillStyle = palette.panel;
      context.fill();
      context.strokeStyle = palette.turn;
      context.lineWidth = 2.4;
      context.stroke();
    }
    let before = null;
    for (let at = 0; at <= last; at++) {
      if (at < last && path.step[at + 1] === path.step[at]) continue;
      const point = this.at(path.x[at], path.y[at]), direction = path.directions[path.step[at]];
      if (direction === "turn" || before && Math.hypot(point[0] - before[0], point[1] - before[1]) < 26) continue;
      before = point;
      this.arrow(context, ...point, path.theta[at], 8);
      context.fillStyle = palette[direction];
      context.strokeStyle = palette.panel;
      context.lineWidth = 1.4;
      context.stroke();
      context.fill();
    }
  }

  /** Draws the start or the goal. */
  drawEnd(context, place, name, tight) {
    const {palette, data} = this, [left, top] = this.at(place[0] + 0.5, place[1] + 0.5);
    const radius = data.radius / data.cell * this.scale;
    if (radius > 10) {
      context.beginPath();
      context.arc(left, top, radius, 0, 7);
      context.strokeStyle = palette[name];
      context.lineWidth = 1.6;
      context.stroke();
    }
    context.beginPath();
    context.arc(left, top, 9, 0, 7);
    context.fillStyle = palette[name];
    context.fill();
    context.strokeStyle = palette.panel;
    context.lineWidth = 1.6;
    context.stroke();
    if (!data.grid) {
      this.arrow(context, left, top, 2 * Math.PI * place[2] / data.headings, 6.6);
      context.fillStyle = palette.panel;
      context.fill();
    }
    if (tight) {
      for (const [colour, wide] of [[palette.panel, 5], [palette.cross, 2.6]]) {
        context.strokeStyle = colour;
        context.lineWidth = wide;
        context.beginPath();
        for (const side of [-1, 1]) {
          context.moveTo(left - 8, top - 8 * side);
          context.lineTo(left + 8, top + 8 * side);
        }
        context.stroke();
      }
    }
    const away = Math.max(radius > 10 ? radius : 0, 9) + 6, above = top - away > 18;
    context.font = "600 13px system-ui, sans-serif";
    context.textAlign = left < 30 ? "left" : left > this.wide - 30 ? "right" : "center";
    context.lineWidth = 3.6;
    context.lineJoin = "round";
    context.strokeStyle = palette.panel;
    context.fillStyle = palette[name];
    const foot = above ? top - away : top + away + 10;
    context.strokeText(name, left, foot);
    context.fillText(name, left, foot);
  }

  /** Draws the robot's disc at a pose. */
  drawRobot(context, pose) {
    const {palette, data} = this, [left, top] = this.at(pose.x, pose.y), size = Math.max(data.radius / data.cell * this.scale, 7);
    context.beginPath();
    context.arc(left, top, size, 0, 7);
    context.globalAlpha = 0.45;
    context.fillStyle = palette.swept;
    context.fill();
    context.globalAlpha = 1;
    context.strokeStyle = palette.ink;
    context.lineWidth = 2;
    context.stroke();
    context.beginPath();
    context.moveTo(left, top);
    context.lineTo(left + size * Math.cos(pose.theta), top - size * Math.sin(pose.theta));
    context.stroke();
  }

  /** Draws the arcs that workers have out. */
  drawOut(context) {
    const {search} = this.scene, {data, palette} = this;
    if (!search || !search.out.size) return;
    context.lineCap = "round";
    for (const {state, seat, arc} of search.out.values()) {
      const cell = Math.floor(state / data.headings), x = cell % data.width + 0.5, y = Math.floor(cell / data.width) + 0.5;
      const [, dx, dy, , way] = data.arcs[state % data.headings][arc], points = [[x, y]];
      for (let at = 0; at < way.length; at += 2) points.push([x + way[at], y + way[at + 1]]);
      for (const [colour, wide] of [[palette.panel, 6], [css(palette.worker(seat)), 3.4]]) {
        context.strokeStyle = colour;
        context.lineWidth = wide;
        context.beginPath();
        for (const point of points) context.lineTo(...this.at(...point));
        context.stroke();
      }
      context.fillStyle = css(palette.worker(seat));
      for (const [place, size] of [[[x, y], 3], [[x + dx, y + dy], 4.5]]) {
        context.beginPath();
        context.arc(...this.at(...place), size, 0, 7);
        context.fill();
      }
    }
  }

  /** Outlines a cell. */
  drawCell(context, [x, y], colour, wide) {
    const [left, top] = this.at(x, y + 1), side = Math.max(this.scale, 5), off = (side - this.scale) / 2;
    context.strokeStyle = colour;
    context.lineWidth = wide;
    context.strokeRect(left - off - 1, top - off - 1, side + 2, side + 2);
  }

  /** Draws the path and all marks. */
  drawMarks() {
    const context = this.contexts.marks, {palette, scene, hidden, data} = this, {search} = scene;
    context.clearRect(0, 0, this.wide, this.high);
    if (!hidden.has("swept")) {
      const [left, top] = this.at(0, 0);
      context.save();
      context.translate(left, top);
      context.scale(this.scale, -this.scale);
      context.lineWidth = 1.1 / this.scale;
      context.lineCap = "square";
      context.globalAlpha = 0.55;
      context.strokeStyle = palette.forward;
      context.stroke(scene.edge);
      context.restore();
    }
    if (scene.before && !hidden.has("before")) {
      context.strokeStyle = palette.before;
      context.lineWidth = 2.2;
      context.lineCap = "round";
      context.setLineDash([0.1, 5.5]);
      this.line(context, scene.before, 0, scene.before.x.length - 1);
      context.setLineDash([]);
    }
    if (scene.path && !hidden.has("path")) {
      context.globalAlpha = search && search.at < search.size ? 0.4 : 1;
      this.drawPath(context, scene.path);
      context.globalAlpha = 1;
    }
    this.drawEnd(context, scene.start, "start", scene.tight[0]);
    this.drawEnd(context, data.goal, "goal", scene.tight[1]);
    if (scene.pose && !hidden.has("robot")) this.drawRobot(context, scene.pose);
    this.drawOut(context);
    if (search && search.at && search.at < search.size) {
      const cell = Math.floor(search.states[search.at - 1] / data.headings);
      this.drawCell(context, [cell % data.width, Math.floor(cell / data.width)], palette.ink, 2);
    }
    if (scene.cell) {
      this.drawCell(context, scene.cell, palette.panel, 4);
      this.drawCell(context, scene.cell, scene.kept ? palette.cross : palette.accent, 2);
    }
  }
}
