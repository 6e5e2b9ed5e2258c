"use strict";
// A session: its lines, their notes, and the places of trouble.

// The lanes that boxes read and write. A line that no box reads or writes has a lane of its own.
const LANES = ["device", "sent", "came", "received"];
const LANE_TITLES = {
  device: "the device's line", sent: "the link as sent",
  came: "the link as it came", received: "the received line",
  near: "the device's wires", link: "the link's wires", far: "the remote device's wires",
};

// What a byte is.
const FRAME = 0, WORD = 1, TAG = 2, NO_FRAME = 3, OTHER = 4, FILL = 5;
const PART_NAMES = ["frame", "word", "tag", "no frame", "not live", "fill"];

// What is to be said of a byte besides: it was altered on the link, it was spoiled by the receiver.
const ALTERED_BYTE = 1, SPOILED_BYTE = 2;

function isFrame(bytes, protocol) {
  if (!protocol.dnp) return bytes.length >= 4 && bytes.length <= 256 && endsIn(bytes, modbusCrc);
  if (bytes.length < 10 || bytes[0] !== 5 || bytes[1] !== 0x64 || bytes[2] < 5) return false;
  if (bytes.length !== dnpSize(bytes[2]) || !endsIn(bytes.slice(0, 10), dnpCrc)) return false;
  for (let place = 10; place < bytes.length; place += 18) {
    if (!endsIn(bytes.slice(place, place + 18), dnpCrc)) return false;
  }
  return true;
}

/** The protocol and profile that the lines look like. */
function guessProtocol(lanes) {
  const line = Object.values(lanes).find((found) => found.bursts > 0);
  if (!line) return "rtu";
  let dnp = 0;
  const looked = Math.min(line.bursts, 200);
  for (let burst = 0; burst < looked; burst++) {
    const place = line.first[burst];
    if (line.bytes[place] === 5 && line.bytes[place + 1] === 0x64) dnp++;
  }
  const short = 2 * dnp > looked ? "dnp3" : "rtu", long = short === "rtu" ? "rtu24" : "dnp24";
  const link = lanes.sent || lanes.came || lanes.link;
  return link && trailers(link, PROTOCOLS[long]) > trailers(link, PROTOCOLS[short]) ? long : short;
}

/** How many of the first bursts of a link end in a trailer of this profile's length. */
function trailers(link, protocol) {
  let count = 0;
  for (let burst = 0; burst < Math.min(link.bursts, 200); burst++) {
    const place = wordPlace(link, burst, protocol);
    const end = link.first[burst + 1];
    if (place >= 0 && end - place === protocol.word + protocol.tag) count++;
  }
  return count;
}

class Session {
  /** `titles` are the names of lanes; one that isn't named there has its usual name. `ends` are
   * those of a two-wire line, if it is one. */
  constructor(word, lanes, notes, titles = {}, ends = null) {
    this.word = word;
    this.ends = ends;
    this.protocol = PROTOCOLS[word];
    this.lanes = lanes;
    this.titles = { ...LANE_TITLES, ...titles };
    this.shown = this.arrange();
    this.ticks = Math.max(1, ...this.shown.map((lane) => lanes[lane].ticks));
    // The ticks up to the last byte of all lines; behind it is silence that the boxes added.
    const lasts = this.shown.map((lane) => lanes[lane]).filter((line) => line.bursts > 0)
      .map((line) => line.end(line.bursts - 1));
    this.span = Math.min(this.ticks, Math.max(60, ...lasts) + CUT);
    this.strays = [];
    this.counts = new Map();
    this.prepare();
    for (const note of notes) this.take(note);
    const { sent, came } = lanes;
    this.comparison = sent && came ? new Comparison(sent, came, this.protocol) : null;
    this.troubles = this.findTroubles();
  }
  /** The lanes in the order in which they are shown: those of the boxes, and then all others. */
  arrange() {
    const own = Object.keys(this.lanes).filter((lane) => !LANES.includes(lane));
    return LANES.filter((lane) => this.lanes[lane]).concat(own);
  }
  /** Makes room for the notes. */
  prepare() {
    this.sealAt = new Map();
    this.checkAt = new Map();
    this.readAt = new Map();
    this.forgedAt = new Map();
    this.homes = this.homesOf();
  }
  take(note) {
    if (note.word === "held") {
      return void this.strays.push(`${note.text}: this is a note of a two-wire line`);
    }
    const { notes, lane } = this.homes[note.word];
    const told = notes.get(note.tick);
    if (told && told.word === note.word && told.why === note.why
      && told.number === note.number && told.length === note.length) return undefined;
    if (told) this.strays.push(`two notes of tick ${note.tick}: ${told.text}; ${note.text}`);
    const shift = lane === "received" && note.word !== "read" ? this.protocol.delay : 0;
    const line = this.lanes[lane], burst = line ? line.burstAt(note.tick + shift) : 0;
    const isFree = (note.word === "read" && this.protocol.dnp)
      || (note.why === "early" && lane === "sent");
    if (burst < 0 && !isFree) {
      this.strays.push(`${note.text}: no burst of ${this.titles[lane]} begins there`);
    }
    notes.set(note.tick, note);
    this.count(note.word, 1);
    if (note.why) this.count(`${note.word} ${note.why}`, 1);
    return undefined;
  }
  /** For each word the notes among which a note belongs, and the lane whose burst it names. */
  homesOf() {
    const seal = { notes: this.sealAt, lane: this.lanes.device ? "device" : "sent" };
    const check = { notes: this.checkAt, lane: this.lanes.came ? "came" : "received" };
    return {
      sealed: seal, unsealed: seal, passed: check, refused: check,
      dropped: { notes: this.checkAt, lane: "came" },
      forged: { notes: this.forgedAt, lane: check.lane },
      read: { notes: this.readAt, lane: "received" },
    };
  }
  count(word, by) {
    this.counts.set(word, (this.counts.get(word) || 0) + by);
  }
  /** Whether a lane is a link, whose frames have a number and a tag behind them. */
  isLink(lane) {
    return lane === "sent" || lane === "came";
  }
  /** The note of a burst: of `seal` on the first two lanes, of `check` on the next two, and none on
   * those that no box reads or writes. */
  noteOf(lane, burst) {
    if (!LANES.includes(lane)) return undefined;
    const start = this.lanes[lane].start(burst);
    if (lane === "device" || lane === "sent") return this.sealAt.get(start);
    return this.checkAt.get(lane === "came" ? start : start - this.protocol.delay);
  }
  /** All notes of a burst, and what the page says of one. */
  notesOf(lane, burst) {
    const note = this.noteOf(lane, burst);
    return note ? [note] : [];
  }
  textOf(note) {
    return note.text;
  }
  isForged(lane, burst) {
    const tick = this.lanes[lane].start(burst) - (lane === "received" ? this.protocol.delay : 0);
    return (lane === "came" || lane === "received") && this.forgedAt.has(tick);
  }
  isRead(burst) {
    const line = this.lanes.received;
    if (this.readAt.size === 0) return false;
    if (this.readAt.has(line.start(burst))) return true;
    if (!this.protocol.dnp) return false;
    const from = line.first[burst], to = line.first[burst + 1];
    return line.at.subarray(from, to).some((tick) => this.readAt.has(tick));
  }
  /** The line from which a receiver takes what it sends on. */
  get taken() {
    return this.lanes.came;
  }
  /** The burst of that line whose bytes a burst has that a receiver sent on, or -1. */
  sourceOf(lane, burst) {
    if (lane !== "received" || !this.taken) return -1;
    return this.taken.burstAt(this.lanes.received.start(burst) - this.protocol.delay);
  }
  /** How many live bytes a burst has; behind a receiver without its fill. */
  lengthOf(lane, burst) {
    const line = this.lanes[lane], source = this.sourceOf(lane, burst);
    if (source < 0) return liveCount(line, burst, this.protocol);
    const count = line.first[burst + 1] - line.first[burst];
    return Math.min(count, liveCount(this.taken, source, this.protocol));
  }
  /** The live bytes of a burst. */
  frameOf(lane, burst) {
    const line = this.lanes[lane], from = line.first[burst];
    return line.bytes.subarray(from, from + this.lengthOf(lane, burst));
  }
  /** What each byte of a burst is. */
  partsOf(lane, burst) {
    const line = this.lanes[lane], from = line.first[burst];
    const parts = new Uint8Array(line.first[burst + 1] - from);
    const live = this.lengthOf(lane, burst);
    const isFilled = this.sourceOf(lane, burst) >= 0;
    const bytes = line.bytes.subarray(from, from + (isFilled ? parts.length : live));
    parts.fill(isFrame(bytes, this.protocol) ? FRAME : NO_FRAME, 0, live);
    parts.fill(isFilled ? FILL : OTHER, live);
    if (!this.isLink(lane)) return parts;
    const tick = line.at[from + live - 1] + CUT, length = this.protocol.word + this.protocol.tag;
    for (let place = live, byte = 0; place < parts.length && byte < length; place++, byte++) {
      if (line.at[from + place] !== tick + byte) break;
      parts[place] = byte < this.protocol.word ? WORD : TAG;
    }
    return parts;
  }
  /** What is to be said of each byte of a burst besides, for those from one place up to another. */
  marksOf(lane, burst, start = 0, end = MOST_TICKS) {
    const line = this.lanes[lane], from = line.first[burst];
    const marks = new Uint8Array(line.first[burst + 1] - from), last = Math.min(end, marks.length);
    if (lane === "came" && this.comparison && this.comparison.fate[burst] === ALTERED) {
      for (let place = start; place < last; place++) {
        const left = this.comparison.leftAs(burst, from + place);
        if (left !== line.bytes[from + place]) marks[place] = ALTERED_BYTE;
      }
    }
    if (this.sourceOf(lane, burst) >= 0) {
      for (let place = start; place < last; place++) {
        if (this.isSpoiled(lane, burst, place)) marks[place] = SPOILED_BYTE;
      }
    }
    return marks;
  }
  /** Whether a byte behind a receiver isn't the one that came, or isn't the 00 of a fill. */
  isSpoiled(lane, burst, place) {
    const source = this.sourceOf(lane, burst), line = this.lanes[lane], { taken } = this;
    if (source < 0) return false;
    const byte = line.bytes[line.first[burst] + place], live = this.lengthOf(lane, burst);
    return byte !== (place < live ? taken.bytes[taken.first[source] + place] : 0);
  }
  /** What there is to say of a burst, in few words. The first says how it is painted. */
  labelOf(lane, burst) {
    const note = this.noteOf(lane, burst), words = [];
    if (note && (lane !== "sent" || !note.why || !this.lanes.device)) {
      words.push(note.number >= 0 ? `${note.word} ${note.number}` : `${note.word} ${note.why}`);
    }
    if (this.isForged(lane, burst)) words.push("forged");
    if (lane === "came" && this.comparison) {
      const fate = this.comparison.fate[burst];
      if (fate !== WHOLE) words.push(FATES[fate]);
    }
    if (lane === "sent" && this.isLost(burst)) words.push("lost");
    if (lane === "received" && this.isRead(burst)) words.push("read");
    return words;
  }
  isLost(burst) {
    return this.comparison !== null && this.comparison.reached[burst] === 0;
  }
  /** How bad it is: 0 for nothing, 1 for what the link or its attacker did, 2 for what a box
   * refused. */
  levelOf(lane, burst) {
    const note = this.noteOf(lane, burst);
    if (this.isForged(lane, burst)) return 2;
    if (note && note.why && (lane !== "sent" || !this.lanes.device)) return 2;
    if (lane === "sent") return this.isLost(burst) ? 1 : 0;
    if (lane !== "came" || !this.comparison) return 0;
    return this.comparison.fate[burst] >= REPEATED ? 1 : 0;
  }
  /** Whether the trouble of a burst arose in this lane. */
  isHome(lane) {
    return lane !== "received" || !this.lanes.came;
  }
  /** The places of trouble in the order of their ticks; one for each burst, in the lane where it
   * arose. */
  findTroubles() {
    const found = [];
    this.levels = {};
    if (this.comparison) {
      const { fate, reached } = this.comparison;
      const count = (list, wanted) => list.reduce((sum, each) => sum + (each === wanted), 0);
      FATES.forEach((name, which) => this.count(name, count(fate, which)));
      this.count("lost", count(reached, 0));
    }
    for (const lane of this.shown) {
      const line = this.lanes[lane], levels = new Uint8Array(line.bursts);
      for (let burst = 0; burst < line.bursts; burst++) {
        levels[burst] = this.levelOf(lane, burst);
        if (levels[burst] > 0 && this.isHome(lane, burst)) {
          found.push({ tick: line.start(burst), lane, burst });
        }
      }
      this.levels[lane] = levels;
    }
    return this.inOrder(found);
  }
  /** Sorts places by their ticks, and those of one tick by their lanes. */
  inOrder(places) {
    const { shown } = this;
    return places.sort((a, b) => a.tick - b.tick || shown.indexOf(a.lane) - shown.indexOf(b.lane));
  }
}
