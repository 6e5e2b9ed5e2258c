"use strict";
// Paints the lanes and the overview.

const AXIS = 40, PILL = 18, CELL_TOP = 30, CELL = 32, MOST_SCALE = 44;
// The least width of a tick, in pixels, at which its byte is written.
const READABLE = 15;
// The least width from one pill to the next, which has room for a sign and a count, and the part of
// it that lies between them.
const LEAST_PILL = 60, GAP = 4;
const PART_COLOURS = ["frame", "word", "tag", "noframe", "other", "fill"];
// More bytes than this in view are painted as a density.
const MOST_BYTES = 24000;

/** The colours of the page, as the style sheet has them for light and dark. */
function readColours() {
  const style = getComputedStyle(document.documentElement), colours = {};
  for (const name of ["ground", "panel", "ink", "muted", "grid", "frame", "word", "tag", "noframe",
    "other", "fill", "altered", "spoiled", "bad", "onbad", "onframe", "onword", "ontag",
    "onnoframe", "onother", "onfill", "onaltered", "onspoiled", "window"]) {
    colours[name] = style.getPropertyValue(`--${name}`).trim();
  }
  return colours;
}

/** A canvas that is as sharp as the screen. */
function fitCanvas(canvas) {
  const box = canvas.getBoundingClientRect(), ratio = window.devicePixelRatio || 1;
  const width = Math.max(1, Math.round(box.width * ratio));
  const height = Math.max(1, Math.round(box.height * ratio));
  if (canvas.width !== width || canvas.height !== height) {
    canvas.width = width;
    canvas.height = height;
  }
  const context = canvas.getContext("2d");
  context.setTransform(ratio, 0, 0, ratio, 0, 0);
  return { context, width: box.width, height: box.height };
}

/** A round step of ticks, at least as many as given. */
function roundStep(least) {
  let step = 1;
  for (;;) {
    for (const factor of [1, 2, 5]) if (factor * step >= least) return factor * step;
    step *= 10;
  }
}

/** What a pill says of some notes: the first of these texts for which there is room. Of one note
 * they are all that is to be said, the note, its first word, and nothing but a sign. Of several
 * they are all that is to be said (of at most three), how many there are of each first word, and
 * how many there are. */
function notesText(notes, hasRoom) {
  if (notes.length === 1) {
    const [{ words }] = notes;
    return [words.join(", "), words[0], words[0].split(" ")[0]].find(hasRoom) || "";
  }
  const all = notes.map(({ words }) => words.join(", ")).join(" | ");
  const texts = [countsText(notes), String(notes.length)];
  return (notes.length <= 3 ? [all, ...texts] : texts).find(hasRoom) || texts[1];
}

/** How many notes there are of each first word. */
function countsText(notes) {
  const counts = new Map();
  for (const { words } of notes) {
    const [word] = words[0].split(" ");
    counts.set(word, (counts.get(word) || 0) + 1);
  }
  return [...counts].map(([word, count]) => `${word} ${count}`).join(", ");
}

class Painter {
  constructor(canvas) {
    this.canvas = canvas;
    this.session = null;
    this.from = 0;
    this.scale = 1;
    this.rate = { baud: 9600, bits: 11 };
    this.hover = null;
    this.chosen = null;
    this.pills = [];
    this.setFound([]);
    this.refresh();
  }
  setFound(found) {
    this.found = found;
    this.foundTicks = found.map((place) => place.tick);
  }
  refresh() {
    this.colours = readColours();
    const tile = document.createElement("canvas");
    tile.width = tile.height = 6;
    const brush = tile.getContext("2d");
    brush.strokeStyle = this.colours.onspoiled;
    brush.lineWidth = 1.4;
    for (const shift of [-6, 0, 6]) {
      brush.beginPath();
      brush.moveTo(shift, 6);
      brush.lineTo(shift + 6, 0);
      brush.stroke();
    }
    this.hatch = this.canvas.getContext("2d").createPattern(tile, "repeat");
  }
  x(tick) {
    return (tick - this.from) * this.scale;
  }
  tickAt(x) {
    return this.from + x / this.scale;
  }
  /** The top of a lane, and the height that each has. */
  laneHeight() {
    const room = (this.height - AXIS) / Math.max(1, this.session.shown.length);
    return Math.max(84, Math.min(150, room));
  }
  laneTop(lane) {
    return AXIS + this.session.shown.indexOf(lane) * this.laneHeight();
  }
  laneAt(y) {
    const index = Math.floor((y - AXIS) / this.laneHeight());
    return y < AXIS ? undefined : this.session.shown[index];
  }
  /** The bursts of a lane in view: the first, and the one behind the last. */
  inView(lane) {
    const line = this.session.lanes[lane];
    let from = Math.max(0, line.burstBefore(this.from));
    if (from < line.bursts && line.end(from) < this.from) from++;
    return [from, Math.max(from, line.burstBefore(this.tickAt(this.width)) + 1)];
  }
  paint() {
    const fitted = fitCanvas(this.canvas), { context } = fitted;
    this.width = fitted.width;
    this.height = fitted.height;
    this.pen = context;
    this.pills = [];
    context.fillStyle = this.colours.panel;
    context.fillRect(0, 0, this.width, this.height);
    if (!this.session) return;
    this.paintAxis();
    this.isDense = this.session.shown.some((lane) => this.bytesInView(lane) > MOST_BYTES);
    if (!this.isDense) this.paintRibbons();
    for (const lane of this.session.shown) {
      if (this.isDense) this.paintDensity(lane); else this.paintLane(lane);
    }
    this.paintFound();
    this.paintHover();
  }
  bytesInView(lane) {
    const { at } = this.session.lanes[lane];
    return lowerBound(at, this.tickAt(this.width)) - lowerBound(at, this.from);
  }
  paintAxis() {
    const { pen, colours, rate } = this, step = roundStep(110 / this.scale);
    pen.font = "12px system-ui, sans-serif";
    pen.textBaseline = "middle";
    pen.textAlign = "left";
    const first = Math.ceil(Math.max(0, this.from) / step) * step;
    for (let tick = first; this.x(tick) < this.width && tick <= this.session.ticks; tick += step) {
      const x = Math.round(this.x(tick)) + 0.5;
      pen.strokeStyle = colours.grid;
      pen.lineWidth = 1;
      pen.beginPath();
      pen.moveTo(x, 4);
      pen.lineTo(x, this.height);
      pen.stroke();
      pen.fillStyle = colours.ink;
      pen.fillText(String(tick), x + 5, 12);
      pen.fillStyle = colours.muted;
      pen.fillText(this.timeAt((tick * rate.bits) / rate.baud), x + 5, 28);
    }
    for (const lane of this.session.shown) {
      const y = Math.round(this.laneTop(lane)) + 0.5;
      pen.strokeStyle = colours.grid;
      pen.beginPath();
      pen.moveTo(0, y);
      pen.lineTo(this.width, y);
      pen.stroke();
    }
  }
  /** What the axis says of a time: the time of day if the session has a start, or else the time
   * since tick 0. */
  timeAt(seconds) {
    const { start } = this.session;
    return start ? clockWords(start, seconds).time : timeWords(seconds);
  }
  /** Where bytes are many: how much of each pixel's ticks they fill, and where trouble is. */
  paintDensity(lane) {
    const { pen, colours } = this, line = this.session.lanes[lane];
    const levels = this.session.levels[lane], top = this.laneTop(lane) + CELL_TOP;
    let place = lowerBound(line.at, this.from), burst = this.inView(lane)[0];
    for (let x = 0; x < this.width; x++) {
      const until = this.tickAt(x + 1), next = lowerBound(line.at, until, place);
      const share = Math.min(1, (next - place) * this.scale);
      if (next > place) {
        const high = Math.max(2, Math.round(share * CELL));
        pen.fillStyle = colours.frame;
        pen.fillRect(x, top + CELL - high, 1, high);
      }
      const bad = [0, 0, 0];
      for (; burst < line.bursts && line.start(burst) < until; burst++) bad[levels[burst]]++;
      this.paintShares(x, top - 3, bad);
      place = next;
    }
  }
  /** How many of a pixel's bursts are in trouble, as a bar that ends above them. */
  paintShares(x, low, bad) {
    const all = bad[0] + bad[1] + bad[2];
    let y = low;
    for (const level of [2, 1]) {
      if (bad[level] === 0) continue;
      const high = Math.max(2, Math.round((bad[level] / all) * 22));
      this.pen.fillStyle = level === 2 ? this.colours.spoiled : this.colours.altered;
      this.pen.fillRect(x, y - high, 1, high);
      y -= high;
    }
  }
  paintLane(lane) {
    const [from, to] = this.inView(lane), pills = [];
    const isComparing = lane === "came" && this.session.comparison;
    if (isComparing) this.paintLost();
    for (let burst = from; burst < to; burst++) {
      this.paintBurst(lane, burst);
      pills.push({ burst, x: this.x(this.session.lanes[lane].start(burst)) });
    }
    if (this.session.ends) {
      pills.push(...paintHeld(this, lane));
      pills.sort((one, other) => one.x - other.x);
    }
    this.paintPills(lane, pills);
  }
  /** Dashed frames where bytes left that didn't come. */
  paintLost() {
    const { comparison, lanes } = this.session, [from, to] = this.inView("sent");
    for (let burst = from; burst < to; burst++) {
      if (comparison.reached[burst]) continue;
      let place = Math.max(lanes.sent.first[burst], lowerBound(lanes.sent.at, this.from - 1));
      for (; place < lanes.sent.first[burst + 1]; place++) {
        if (lanes.sent.at[place] > this.tickAt(this.width)) break;
        this.paintMissing(lanes.sent.at[place], lanes.sent.bytes[place]);
      }
    }
  }
  /** A dashed frame for a byte that isn't in its lane. */
  paintMissing(tick, byte, lane = "came") {
    const { pen, colours, scale } = this, x = this.x(tick);
    if (x < -scale || x > this.width || this.session.lanes[lane].placeAt(tick) >= 0) return;
    const top = this.laneTop(lane) + CELL_TOP, wide = Math.max(1, scale - (scale > 8 ? 1 : 0));
    pen.strokeStyle = colours.altered;
    pen.setLineDash([3, 2]);
    pen.lineWidth = 1;
    if (scale >= 5) pen.strokeRect(x + 0.5, top + 0.5, wide - 1, CELL - 1);
    else {
      pen.beginPath();
      pen.moveTo(x, top + CELL / 2);
      pen.lineTo(x + wide, top + CELL / 2);
      pen.stroke();
    }
    pen.setLineDash([]);
    if (scale >= READABLE) this.hex(byte, x + wide / 2, top + CELL / 2, colours.altered, true);
  }
  hex(byte, x, y, colour, isStruck = false, size = 12.5) {
    const { pen } = this;
    size = Math.min(size, 0.72 * this.scale);
    pen.font = `${size}px ui-monospace, "DejaVu Sans Mono", Consolas, Menlo, monospace`;
    pen.textAlign = "center";
    pen.textBaseline = "middle";
    pen.fillStyle = colour;
    pen.fillText(hexOf(byte), x, y + 0.5);
    if (isStruck) pen.fillRect(x - size / 2 - 1.5, y - 0.2, size + 3, 1);
  }
  /** The bytes of a burst: each a cell, or where they are narrow a bar for those that are alike. */
  paintBurst(lane, burst) {
    const { session, scale } = this, line = session.lanes[lane], first = line.first[burst];
    const from = Math.max(0, lowerBound(line.at, this.from - 1) - first);
    const behind = lowerBound(line.at, this.tickAt(this.width) + 1);
    const to = Math.min(line.first[burst + 1], behind) - first;
    const parts = session.partsOf(lane, burst), marks = session.marksOf(lane, burst, from, to);
    const isFine = scale >= 5;
    for (let place = from; place < to;) {
      let end = place + 1;
      const isAlike = () => parts[end] === parts[place] && marks[end] === marks[place]
        && line.at[first + end] === line.at[first + end - 1] + 1;
      while (!isFine && end < to && isAlike()) end++;
      const x = this.x(line.at[first + place]);
      const wide = (end - place) * scale - (scale > 8 ? 1 : 0);
      if (x < this.width && x + wide > 0) {
        this.paintCell(lane, x, wide, parts[place], marks[place]);
        if (scale >= READABLE) {
          this.paintByte(lane, burst, place, x + wide / 2, parts[place], marks[place]);
        }
      }
      place = end;
    }
    if (lane === "came" && session.comparison) this.paintFate(burst);
    if (this.chosen && this.chosen.lane === lane && this.chosen.burst === burst) this.paintChosen();
  }
  paintCell(lane, x, wide, part, mark) {
    const { pen, colours } = this, top = this.laneTop(lane) + CELL_TOP;
    const width = Math.max(wide, mark ? 2 : 0.7);
    pen.fillStyle = colours[PART_COLOURS[part]];
    pen.fillRect(x, top, width, CELL);
    if (mark === 0) return;
    pen.fillStyle = mark === ALTERED_BYTE ? colours.altered : colours.spoiled;
    pen.fillRect(x, top, width, CELL - (wide >= 4 ? 5 : 0));
    if (mark === SPOILED_BYTE && wide >= 4) {
      pen.save();
      pen.globalAlpha = wide >= READABLE - 1 ? 0.35 : 0.6;
      pen.fillStyle = this.hatch;
      pen.fillRect(x, top, width, CELL - 5);
      pen.restore();
    }
    const middle = x + width / 2, reach = Math.min(5, Math.max(3, width / 2));
    pen.fillStyle = mark === ALTERED_BYTE ? colours.altered : colours.spoiled;
    pen.beginPath();
    pen.moveTo(middle - reach, top + CELL + 7);
    pen.lineTo(middle + reach, top + CELL + 7);
    pen.lineTo(middle, top + CELL + 1);
    pen.fill();
  }
  /** The byte in its cell, and beneath it what it was before it was altered or spoiled. */
  paintByte(lane, burst, place, x, part, mark) {
    const { session, colours } = this, line = session.lanes[lane];
    const index = line.first[burst] + place, top = this.laneTop(lane) + CELL_TOP;
    const on = mark === ALTERED_BYTE ? "onaltered" : mark ? "onspoiled" : `on${PART_COLOURS[part]}`;
    this.hex(line.bytes[index], x, top + CELL / 2 - (mark ? 2 : 0), colours[on]);
    if (mark === 0) return;
    let was = 0;
    if (mark === ALTERED_BYTE) was = session.comparison.leftAs(burst, index);
    else if (place < session.lengthOf(lane, burst)) {
      const { taken } = session;
      was = taken.bytes[taken.first[session.sourceOf(lane, burst)] + place];
    }
    const colour = mark === ALTERED_BYTE ? colours.altered : colours.spoiled;
    if (was >= 0) this.hex(was, x, top + CELL + 16, colour, false, 12);
  }
  /** What became of a burst on the link: a line beneath one that was added or came again; bytes
   * that didn't come. */
  paintFate(burst) {
    const { pen, colours, session } = this, { came } = session.lanes;
    const fate = session.comparison.fate[burst];
    if (fate === ALTERED) {
      const start = Math.floor(this.from) - 1, end = this.tickAt(this.width);
      const missing = session.comparison.missing(burst, start, end);
      for (const lost of missing) this.paintMissing(lost.tick, lost.byte);
    }
    if (fate !== ADDED && fate !== REPEATED) return;
    const y = this.laneTop("came") + CELL_TOP + CELL + 4;
    pen.strokeStyle = colours.altered;
    pen.lineWidth = 3;
    if (fate === REPEATED) pen.setLineDash([6, 3]);
    pen.beginPath();
    pen.moveTo(this.x(came.start(burst)), y);
    pen.lineTo(this.x(came.end(burst) + 1), y);
    pen.stroke();
    pen.setLineDash([]);
  }
  paintChosen() {
    const { pen, colours, chosen } = this, line = this.session.lanes[chosen.lane];
    if (chosen.burst < 0) return;
    const x = this.x(line.start(chosen.burst)), top = this.laneTop(chosen.lane) + CELL_TOP;
    const wide = (line.end(chosen.burst) + 1 - line.start(chosen.burst)) * this.scale;
    pen.strokeStyle = colours.ink;
    pen.lineWidth = 2;
    pen.strokeRect(x - 2, top - 2, Math.max(3, wide) + 3, CELL + 4);
  }
  /** The notes above the bursts. Those that would lie on one another share one pill, and each pill
   * says as much as there is room for up to the next one. */
  paintPills(lane, pills) {
    const { pen } = this, y = this.laneTop(lane) + 7;
    pen.font = "12px system-ui, sans-serif";
    const groups = this.groupPills(lane, pills), edge = this.width - 2;
    let free = 2;
    groups.forEach(({ left, notes }, index) => {
      const isLast = index + 1 === groups.length;
      const room = isLast ? edge - free : groups[index + 1].left - GAP - left;
      const text = notesText(notes, (words) => this.pillWidth(words) <= room);
      const wide = this.pillWidth(text), x = Math.max(free, Math.min(left, edge - wide));
      const level = Math.max(...notes.map((each) => each.level));
      const worst = notes.find((each) => each.level === level);
      this.paintPill(x, y, wide, text, level, worst.note);
      this.pills.push({ lane, x, wide, text, notes });
      free = x + wide + GAP;
    });
  }
  /** Puts the notes of bursts into groups: one that begins less than the least width of a pill
   * behind the first one of a group belongs to it. */
  groupPills(lane, pills) {
    const groups = [];
    for (const { burst, x, held } of pills) {
      const note = held || this.pillOf(lane, burst), last = groups[groups.length - 1];
      if (note.words.length === 0) continue;
      const left = Math.max(2, Math.min(x, this.width - LEAST_PILL));
      if (last && left < last.left + LEAST_PILL) last.notes.push(note);
      else groups.push({ left, notes: [note] });
    }
    return groups;
  }
  /** What a pill has to say of a burst, and where that is. */
  pillOf(lane, burst) {
    const { session } = this, line = session.lanes[lane];
    return { tick: line.start(burst), end: line.end(burst), words: session.labelOf(lane, burst),
      level: session.levels[lane][burst], note: session.noteOf(lane, burst) };
  }
  /** The pill at a place of the canvas, if it stands for several notes. */
  pillAt(x, y) {
    const isOn = (pill) => {
      const top = this.laneTop(pill.lane) + 7;
      return pill.notes.length > 1 && x >= pill.x && x < pill.x + pill.wide
        && y >= top && y < top + PILL;
    };
    return this.pills.find(isOn);
  }
  pillWidth(text) {
    return text === "" ? 22 : this.pen.measureText(text).width + 24;
  }
  paintPill(x, y, wide, text, level, note) {
    const { pen, colours } = this;
    const back = level === 2 ? colours.bad : level === 1 ? colours.altered : colours.panel;
    const front = level === 2 ? colours.onbad : level === 1 ? colours.onaltered : colours.ink;
    pen.beginPath();
    if (pen.roundRect) pen.roundRect(x, y, wide, PILL, 4); else pen.rect(x, y, wide, PILL);
    pen.fillStyle = back;
    pen.fill();
    pen.strokeStyle = level === 0 ? colours.other : back;
    pen.lineWidth = 1;
    pen.stroke();
    this.paintSign(x + 11, y + PILL / 2, note, level, front);
    pen.fillStyle = front;
    pen.textAlign = "left";
    pen.textBaseline = "middle";
    pen.fillText(text, x + 19, y + PILL / 2 + 0.5);
  }
  /** A sign that tells notes apart without colour: a tick, a cross, a bar for what is dropped,
   * unsealed or held. */
  paintSign(x, y, note, level, colour) {
    const { pen } = this, word = note && level !== 1 ? note.word : "";
    const strokes = word === "refused" ? [[-3, -3, 3, 3], [-3, 3, 3, -3]]
      : word === "held" ? [[-2, -3, -2, 3], [2, -3, 2, 3]]
      : word === "dropped" ? [[0, -4, 0, 3], [-3, 0, 0, 3], [3, 0, 0, 3]]
        : word === "unsealed" ? [[-3, 0, 3, 0]]
          : word !== "" ? [[-3, 0, -1, 3], [-1, 3, 3, -3]]
            : [[-3, 3, 0, -3], [0, -3, 3, 3], [-3, 3, 3, 3]];
    pen.strokeStyle = colour;
    pen.lineWidth = 1.7;
    pen.beginPath();
    for (const [fromX, fromY, toX, toY] of strokes) {
      pen.moveTo(x + fromX, y + fromY);
      pen.lineTo(x + toX, y + toY);
    }
    pen.stroke();
  }
  /** Faint bands from a burst to what became of it in the next lane. */
  paintRibbons() {
    const { session } = this, { device, sent, came, received } = session.lanes;
    if (session.ends) paintWireRibbons(this);
    if (device && sent) {
      this.ribbons("device", "sent", (burst) => sent.burstAt(device.start(burst)));
    }
    if (sent && came) {
      this.backwards("came", "sent", (burst) => session.comparison.origin[burst],
        (burst) => session.comparison.shift[burst] !== 0);
    }
    if (came && received) {
      this.ribbons("came", "received",
        (burst) => received.burstAt(came.start(burst) + session.protocol.delay));
    }
  }
  ribbons(above, below, next) {
    const [from, to] = this.inView(above);
    for (let burst = from; burst < to; burst++) {
      const other = next(burst);
      if (other >= 0) this.ribbon(above, burst, below, other, false);
    }
  }
  backwards(below, above, origin, isMarked) {
    const [from, to] = this.inView(below);
    for (let burst = from; burst < to; burst++) {
      const other = origin(burst);
      if (other >= 0) this.ribbon(above, other, below, burst, isMarked(burst));
    }
  }
  ribbon(above, upper, below, lower, isMarked) {
    const { pen, colours, session } = this;
    const edge = (lane, burst) => {
      const line = session.lanes[lane], start = line.start(burst);
      const live = line.at[line.first[burst] + session.lengthOf(lane, burst) - 1];
      return [this.x(start), this.x(live + 1)];
    };
    const [a, b] = edge(above, upper), [c, d] = edge(below, lower);
    const top = this.laneTop(above) + CELL_TOP + CELL + 3, low = this.laneTop(below) + CELL_TOP - 3;
    pen.beginPath();
    pen.moveTo(a, top);
    pen.bezierCurveTo(a, (top + low) / 2, c, (top + low) / 2, c, low);
    pen.lineTo(d, low);
    pen.bezierCurveTo(d, (top + low) / 2, b, (top + low) / 2, b, top);
    pen.closePath();
    pen.globalAlpha = isMarked ? 0.22 : 0.13;
    pen.fillStyle = isMarked ? colours.altered : colours.frame;
    pen.fill();
    pen.globalAlpha = 1;
  }
  /** Outlines of what a search found. */
  paintFound() {
    const { pen, colours, found } = this;
    const from = lowerBound(this.foundTicks, this.from - 600);
    pen.strokeStyle = colours.ink;
    pen.lineWidth = 1.5;
    for (let index = from; index < found.length && index < from + 2000; index++) {
      const place = found[index], x = this.x(place.tick);
      if (x > this.width) break;
      const top = this.laneTop(place.lane) + CELL_TOP;
      const wide = Math.max(3, (place.end + 1 - place.tick) * this.scale);
      pen.strokeRect(x - 1, top - 1, wide + 1, CELL + 2);
    }
  }
  paintHover() {
    if (!this.hover) return;
    const { pen, colours, scale } = this, x = this.x(this.hover.tick);
    pen.globalAlpha = 0.14;
    pen.fillStyle = colours.ink;
    pen.fillRect(x, AXIS, Math.max(1, scale), this.height - AXIS);
    pen.globalAlpha = 1;
  }
}

/** The places of trouble in the overview: a mark for each, or where they are many a bar for each
 * pixel. */
function paintTroubles(context, painter, scale, height) {
  const { session, colours } = painter, places = new Map();
  for (const { tick, lane, burst } of session.troubles) {
    const x = Math.floor(tick * scale), place = places.get(x) || { count: 0, level: 0 };
    place.count++;
    place.level = Math.max(place.level, session.levels[lane][burst]);
    places.set(x, place);
  }
  const isMany = places.size > 120;
  const most = Math.max(1, ...[...places.values()].map((place) => place.count));
  for (const [x, { count, level }] of places) {
    context.fillStyle = level === 2 ? colours.spoiled : colours.altered;
    if (isMany) {
      const high = Math.max(2, Math.round((count / most) * 13));
      context.fillRect(x, 14 - high, 1, high);
      continue;
    }
    context.beginPath();
    context.moveTo(x - 3.5, 3);
    context.lineTo(x + 4.5, 3);
    context.lineTo(x + 0.5, 12);
    context.fill();
    context.fillRect(x, 3, 1, height - 6);
  }
}

/** The overview: all ticks of the session, where bytes are in each lane, the places of trouble, and
 * what is in view. */
function paintOverview(canvas, painter) {
  const { session, colours } = painter, { context, width, height } = fitCanvas(canvas);
  context.fillStyle = colours.panel;
  context.fillRect(0, 0, width, height);
  if (!session) return;
  const scale = width / session.span, top = 16, each = (height - top - 4) / session.shown.length;
  session.shown.forEach((lane, index) => {
    const line = session.lanes[lane], high = Math.max(3, each - 3);
    context.fillStyle = colours.frame;
    let place = 0;
    for (let x = 0; x < width; x++) {
      const next = lowerBound(line.at, (x + 1) / scale, place);
      context.globalAlpha = Math.min(1, 0.25 + (next - place) * scale);
      if (next > place) context.fillRect(x, top + index * each, 1, high);
      place = next;
    }
  });
  context.globalAlpha = 1;
  paintTroubles(context, painter, scale, height);
  const left = painter.from * scale, wide = Math.max(3, (painter.width / painter.scale) * scale);
  context.fillStyle = colours.window;
  context.fillRect(left, 0, wide, height);
  context.strokeStyle = colours.ink;
  context.lineWidth = 1.5;
  context.strokeRect(left + 0.75, 0.75, wide - 1.5, height - 1.5);
}
