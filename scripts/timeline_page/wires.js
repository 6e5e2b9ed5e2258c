"use strict";
// A two-wire line: the wires of the devices at both ends and those of the link, with a box at each
// end. Of each end there are up to three texts: what `two_wire` read, what it wrote, and its notes.

const ENDS = ["near", "far"];
const END_TITLES = {
  near: "wires of the device, % and the link", "near.drives": "what two_wire wrote of them",
  "near.notes": "its notes", far: "wires of the remote device, % and the link",
  "far.drives": "what its two_wire wrote of them", "far.notes": "the notes of that",
};
// A box drives a tick one tick after it has decided it.
const WIRE_DELAY = 1;

function newEnds() {
  const made = () => ({ read: null, drives: null, notes: [], isGiven: false });
  return { near: made(), far: made() };
}

/** Takes a text of an end. */
function takeWires(page, text, ends) {
  const [name, kind = "read"] = text.lane.split("."), end = ends[name];
  end.isGiven = true;
  if (kind === "notes") return page.takeNotes(text, end.notes);
  const lines = page.linesOf(text);
  if (lines.length < 2) page.message(`${text.name}: no line % is there. Two lines are needed.`);
  if (end[kind]) page.message(`${text.name}: there is another text of this end; it isn't shown.`);
  else end[kind] = kind === "read" ? lines : [lines[1], lines[0]];
  return undefined;
}

/** A line that has the bytes of several, and the first tick in which two of them have different
 * ones, or -1. It has the byte of the first line that has one. */
function overlaid(lines) {
  const there = lines.filter(Boolean), places = there.map(() => 0);
  const bytes = new Growing(Uint8Array, 1024), at = new Growing(Uint32Array, 1024);
  let differs = -1;
  for (;;) {
    const heads = there.map((line, index) => line.at[places[index]]);
    const tick = Math.min(...heads.filter((head) => head !== undefined));
    if (tick === Infinity) break;
    const here = heads.flatMap((head, index) => (head === tick ? [index] : []));
    const said = here.map((index) => there[index].bytes[places[index]++]);
    if (differs < 0 && said.some((byte) => byte !== said[0])) differs = tick;
    bytes.push(said[0]);
    at.push(tick);
  }
  const ticks = Math.max(0, ...there.map((line) => line.ticks));
  return { line: new Line(bytes.done(), at.done(), ticks), differs };
}

/** The session of a two-wire line, with lines of their own below it. */
function wireSession(page, ends, protocol, own, titles) {
  const parts = (kind, which) => ENDS.map((name) => ends[name][kind] && ends[name][kind][which]);
  const wires = (which) => overlaid(["read", "drives"].flatMap((kind) => parts(kind, which)));
  const link = wires(1), seen = overlaid(parts("read", 1)), lanes = { ...own };
  for (const name of ENDS) {
    const { read, drives } = ends[name];
    if (read || drives) lanes[name] = overlaid([read && read[0], drives && drives[0]]).line;
  }
  lanes.link = link.line;
  if (seen.differs >= 0) {
    page.message(`The two ends have different bytes of the link, first in tick ${seen.differs}.`);
  }
  const word = PROTOCOLS[protocol] ? protocol : guessProtocol(lanes);
  return new WireSession(word, lanes, titles, ends);
}

class WireSession extends Session {
  constructor(word, lanes, titles, ends) {
    const notes = ENDS.flatMap((end) => ends[end].notes.map((note) => ({ ...note, end })));
    const isHeld = (note) => note.word === "held";
    const inOrder = [...notes.filter(isHeld), ...notes.filter((note) => !isHeld(note))];
    super(word, lanes, inOrder, titles, ends);
  }
  get delay() {
    return this.protocol.delay + WIRE_DELAY;
  }
  get taken() {
    return this.lanes.link;
  }
  arrange() {
    const wires = ["near", "link", "far"].filter((lane) => this.lanes[lane]);
    return wires.concat(Object.keys(this.lanes).filter((lane) => !wires.includes(lane)));
  }
  /** The notes of each burst, and what is held back at each end. */
  prepare() {
    this.said = { near: new Map(), link: new Map(), far: new Map() };
    this.held = { near: [], far: [] };
  }
  /** Puts a note to the bursts that it names: on the wires of its end, and on those of the link. */
  take(note) {
    const { word, tick, end } = note;
    if (word === "forged") return void this.strays.push(`${note.text}: no box writes this.`);
    this.count(word, 1);
    if (note.why && word !== "held") this.count(`${word} ${note.why}`, 1);
    if (word === "sealed" || word === "unsealed" || word === "read") {
      this.put(end, tick, note, true);
      if (word === "sealed") this.put("link", tick + WIRE_DELAY, note, false);
    } else if (word === "held") {
      this.held[end].push({ tick, note, burst: this.taken.burstAt(tick - this.delay) });
      this.put("link", tick - this.delay, note, true);
    } else {
      this.put("link", tick, note, true);
      const leaves = tick + this.delay;
      if (word !== "dropped" && this.isDriven(end, leaves)) this.put(end, leaves, note, false);
    }
    return undefined;
  }
  put(lane, tick, note, isNeeded) {
    const line = this.lanes[lane], burst = line ? line.burstBefore(tick) : -1;
    if (burst >= 0 && tick <= line.end(burst)) {
      const notes = this.notesOf(lane, burst).concat(note);
      const isHeld = (each) => each.word === "held";
      notes.sort((one, other) => isHeld(one) - isHeld(other));
      this.said[lane].set(burst, notes);
    } else if (isNeeded && line) {
      this.strays.push(`${note.text}: no burst of ${this.titles[lane]} is there`);
    }
  }
  isLink(lane) {
    return lane === "link";
  }
  /** Whether the box of an end drives its device's wires with a byte. Where what it wrote is
   * missing, it is taken to do so where a burst begins that it may have let through. */
  isDriven(lane, tick) {
    const { drives } = this.ends[lane];
    if (drives) return drives[0].placeAt(tick) >= 0;
    const isHeld = this.held[lane].some((held) => held.tick === tick);
    return !isHeld && this.taken.burstAt(tick - this.delay) >= 0;
  }
  sourceOf(lane, burst) {
    if (!ENDS.includes(lane)) return -1;
    const start = this.lanes[lane].start(burst);
    return this.isDriven(lane, start) ? this.taken.burstAt(start - this.delay) : -1;
  }
  notesOf(lane, burst) {
    return (this.said[lane] && this.said[lane].get(burst)) || [];
  }
  noteOf(lane, burst) {
    const notes = this.notesOf(lane, burst);
    return notes.find((note) => note.why) || notes[0];
  }
  textOf(note) {
    if (note.word === "read") return note.text;
    return `${note.text} · ${note.end === "near" ? "this box" : "the remote box"}`;
  }
  isForged() {
    return false;
  }
  /** Who said a burst of the link: "near" or "far", that box; "added", none of its bytes is one of
   * a box; "altered", some are; or "", it isn't known. */
  speakerOf(burst) {
    const driven = ENDS.filter((name) => this.ends[name].drives);
    const { link } = this.lanes, from = link.first[burst], to = link.first[burst + 1];
    const counts = driven.map((name) => {
      const [, line] = this.ends[name].drives;
      let count = 0;
      for (let place = from; place < to; place++) {
        const same = line.placeAt(link.at[place]);
        if (same >= 0 && line.bytes[same] === link.bytes[place]) count++;
      }
      return count;
    });
    const whole = counts.indexOf(to - from);
    if (whole >= 0) return driven[whole];
    if (driven.length < ENDS.length) return "";
    return counts.some((count) => count > 0) ? "altered" : "added";
  }
  /** "added" or "altered", if a burst of the link is that. */
  fateOf(lane, burst) {
    const speaker = lane === "link" ? this.speakerOf(burst) : "";
    return ENDS.includes(speaker) ? "" : speaker;
  }
  labelOf(lane, burst) {
    const words = this.notesOf(lane, burst).map((note) => (note.number >= 0
      ? `${note.word} ${note.number}`
      : note.word === "read" || note.word === "held" ? note.word : `${note.word} ${note.why}`));
    return [...new Set([...words, this.fateOf(lane, burst)])].filter(Boolean);
  }
  levelOf(lane, burst) {
    if (this.notesOf(lane, burst).some((note) => note.why)) return 2;
    return this.fateOf(lane, burst) === "" ? 0 : 1;
  }
  /** What was refused or held back arose on the link, and what wasn't sealed at its device. */
  isHome(lane, burst) {
    return lane === "link" || this.notesOf(lane, burst).some((note) => note.word === "unsealed");
  }
  findTroubles() {
    for (let burst = 0; burst < this.lanes.link.bursts; burst++) {
      const fate = this.fateOf("link", burst);
      if (fate) this.count(fate, 1);
    }
    return super.findTroubles();
  }
  /** The live bytes of what is held back, or none where the link doesn't have it. */
  bytesHeld({ burst }) {
    return burst < 0 ? [] : this.frameOf("link", burst);
  }
}

/** Who said a burst. */
function speakerWords(session, lane, burst) {
  const words = { near: "said by this box", far: "said by the remote box", altered: "altered" };
  if (lane === "link") {
    const speaker = session.speakerOf(burst), unknown = speaker === "" ? [] : ["said by no box"];
    return (words[speaker] ? [words[speaker]] : unknown).map((text) => said(text, "link"));
  }
  if (!ENDS.includes(lane)) return [];
  const isBox = session.isDriven(lane, session.lanes[lane].start(burst));
  return [said(isBox ? "said by the box" : "said by the device", "link")];
}

/** What a gate holds back in a tick. */
function heldWords(session, lane, tick) {
  return (session.held[lane] || []).flatMap((held) => {
    const bytes = session.bytesHeld(held), place = tick - held.tick;
    if (place < 0 || place >= Math.max(1, bytes.length)) return [];
    const byte = bytes.length > 0 ? [said(`held back: ${hexOf(bytes[place])}`, "bad")] : [];
    return [said(session.textOf(held.note), "bad"), ...byte];
  });
}

/** The places where what is held back would begin, whose notes have these words. */
function findHeld(session, words) {
  if (!session.ends) return [];
  return ENDS.flatMap((lane) => session.held[lane]
    .filter(({ note }) => session.lanes[lane] && hasWords(note.text, words))
    .map((held) => ({ tick: held.tick, lane, burst: -1, end: endOfHeld(session, held) })));
}

function endOfHeld(session, held) {
  return held.tick + Math.max(1, session.bytesHeld(held).length) - 1;
}

/** Paints what is held back as dashed frames, and returns the notes of it in view. */
function paintHeld(painter, lane) {
  const { session } = painter, pills = [];
  for (const held of session.held[lane] || []) {
    const end = endOfHeld(session, held);
    if (end < painter.from || held.tick > painter.tickAt(painter.width)) continue;
    session.bytesHeld(held)
      .forEach((byte, place) => painter.paintMissing(held.tick + place, byte, lane));
    const pill = { tick: held.tick, end, words: ["held"], level: 2, note: held.note };
    pills.push({ burst: -1, x: painter.x(held.tick), held: pill });
  }
  return pills;
}

/** Bands from each burst at a device to what it became on the link, or came from. */
function paintWireRibbons(painter) {
  const { session } = painter, { link } = session.lanes;
  for (const lane of ENDS.filter((name) => session.lanes[name])) {
    const line = session.lanes[lane], [from, to] = painter.inView(lane);
    for (let burst = from; burst < to; burst++) {
      const start = line.start(burst), isBox = session.isDriven(lane, start);
      const other = isBox ? session.sourceOf(lane, burst) : link.burstAt(start + WIRE_DELAY);
      if (other < 0) continue;
      if (lane === "near") painter.ribbon("near", burst, "link", other, false);
      else painter.ribbon("link", other, "far", burst, false);
    }
  }
}
