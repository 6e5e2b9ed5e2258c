"use strict";
// What the texts of a session say: lines as tick text, and notes.

// Silent ticks that end a burst; the start of a line counts as quiet.
const CUT = 4;
// The most ticks of a line that the page shows.
const MOST_TICKS = 2 ** 31;

/** The first place of a sorted list at which a number isn't below `value`. */
function lowerBound(list, value, from = 0, to = list.length) {
  while (from < to) {
    const middle = (from + to) >>> 1;
    if (list[middle] < value) from = middle + 1; else to = middle;
  }
  return from;
}

/** A list of numbers that grows, in place of an array of boxed ones. */
class Growing {
  constructor(kind, room) {
    this.kind = kind;
    this.list = new kind(room);
    this.length = 0;
  }
  /** Makes room for so many more. */
  reserve(count) {
    if (this.length + count <= this.list.length) return;
    const wider = new this.kind(2 * this.length + count + 64);
    wider.set(this.list);
    this.list = wider;
  }
  push(value) {
    this.reserve(1);
    this.list[this.length++] = value;
  }
  done() {
    return this.list.subarray(0, this.length);
  }
}

/** A line: its bytes in order, the tick of each, and where among them each burst begins. */
class Line {
  constructor(bytes, at, ticks) {
    this.bytes = bytes;
    this.at = at;
    this.ticks = ticks;
    const first = new Growing(Uint32Array, 1024);
    for (let place = 0; place < at.length; place++) {
      if (place === 0 || at[place] - at[place - 1] > CUT) first.push(place);
    }
    this.bursts = first.length;
    first.push(at.length);
    this.first = first.done();
    this.starts = this.first.subarray(0, this.bursts).map((place) => at[place]);
  }
  /** The tick of a burst's first byte, and that of its last one. */
  start(burst) {
    return this.starts[burst];
  }
  end(burst) {
    return this.at[this.first[burst + 1] - 1];
  }
  /** The place of the byte in a tick, or -1 where the tick is silent. */
  placeAt(tick) {
    const place = lowerBound(this.at, tick);
    return place < this.at.length && this.at[place] === tick ? place : -1;
  }
  /** The last burst that begins at this tick or before it, or -1. */
  burstBefore(tick) {
    return lowerBound(this.starts, tick + 1) - 1;
  }
  /** The burst that begins in a tick, or -1. */
  burstAt(tick) {
    const burst = lowerBound(this.starts, tick);
    return burst < this.bursts && this.starts[burst] === tick ? burst : -1;
  }
  /** The burst to which a place among the bytes belongs. */
  burstOf(place) {
    return lowerBound(this.first, place + 1, 0, this.bursts) - 1;
  }
}

// What each hex digit stands for, by its code; -1 for all others.
const DIGITS = new Int8Array(128).fill(-1);
for (const digit of "0123456789abcdefABCDEF") DIGITS[digit.charCodeAt(0)] = parseInt(digit, 16);

const LF = 10, CR = 13;

/** Why a text is refused: the cause's word, which the reader below adds the line to. */
class Refusal extends Error {}

/** Reads a tick text as the program does: its lines (one, or two with a mark between), and its
 * fault. */
class TickReader {
  constructor(text) {
    this.text = text;
    this.place = 0;
    this.lines = [];
    this.begin();
  }
  begin() {
    this.bytes = new Growing(Uint8Array, this.text.length >>> 1);
    this.at = new Growing(Uint32Array, this.text.length >>> 1);
    this.ticks = 0;
  }
  finish() {
    this.lines.push(new Line(this.bytes.done(), this.at.done(), this.ticks));
  }
  /** The code at a place, or -1 at the end. */
  code(place) {
    return place < this.text.length ? this.text.charCodeAt(place) : -1;
  }
  read() {
    let row = 1, fault = null;
    try {
      for (; this.place < this.text.length; row++) this.row();
    } catch (why) {
      if (!(why instanceof Refusal)) throw why;
      fault = { row, cause: why.message };
    }
    this.finish();
    return { lines: this.lines, fault };
  }
  row() {
    const code = this.code(this.place);
    if (code === 43) return this.byteRow();
    if (code === 45) return this.silentRow();
    if (code === 35) return this.comment();
    if (code === 37 && this.lines.length === 0) {
      this.endRow(this.place + 1);
      this.finish();
      return this.begin();
    }
    return this.endRow(this.place);
  }
  /** Steps over CR, LF, or CR LF, or is at the end; anything else is a wrong byte. */
  endRow(place) {
    if (this.code(place) === CR) place++;
    const code = this.code(place);
    if (code !== LF && code !== -1) throw new Refusal("char");
    this.place = place + 1;
  }
  /** Bytes are written as their digits come, and counted only once the row is right. */
  byteRow() {
    const { text } = this, start = this.place + 1, end = Math.min(text.length, start + 65);
    this.bytes.reserve(32);
    this.at.reserve(32);
    const bytes = this.bytes.list, at = this.at.list, taken = this.bytes.length;
    let place = start, high = 0;
    for (; place < end; place++) {
      const digit = DIGITS[text.charCodeAt(place)], count = place - start;
      if (!(digit >= 0)) break;
      if (count === 64) throw new Refusal("long");
      if (count % 2 === 0) high = digit; else bytes[taken + (count >>> 1)] = 16 * high + digit;
    }
    const code = this.code(place), count = place - start;
    if (code !== LF && code !== CR && code !== -1) throw new Refusal("char");
    if (count === 0) throw new Refusal("empty");
    if (count % 2 === 1) throw new Refusal("odd");
    this.endRow(place);
    this.room(count / 2);
    for (let byte = 0; byte < count / 2; byte++) at[taken + byte] = this.ticks++;
    this.bytes.length = this.at.length = taken + count / 2;
  }
  silentRow() {
    let place = this.place + 1, count = 0;
    for (;; place++) {
      const digit = this.code(place) - 48;
      if (digit < 0 || digit > 9) break;
      if (count === 0 && digit === 0) throw new Refusal("count");
      count = 10 * count + digit;
      if (count > 1000000) throw new Refusal("count");
    }
    const code = this.code(place);
    if (code !== LF && code !== CR && code !== -1) throw new Refusal("char");
    if (count === 0) throw new Refusal("empty");
    this.endRow(place);
    this.room(count);
    this.ticks += count;
  }
  comment() {
    const found = this.text.indexOf("\n", this.place);
    const end = found < 0 ? this.text.length : found;
    if (end - this.place > 121) throw new Refusal("long");
    this.place = end + 1;
  }
  room(count) {
    if (this.ticks + count > MOST_TICKS) throw new Refusal("too long");
  }
}

const DECIMAL = "(0|[1-9][0-9]*)";
const HEX = "(?:[0-9a-f]{2})+";
const NOTE = new RegExp(
  "^(?:(sealed|passed|forged) " + DECIMAL + " at " + DECIMAL
  + " (?:len " + DECIMAL + "|(" + HEX + "))"
  + "|(unsealed) at " + DECIMAL + " (form|early|spent)"
  + "|(refused) at " + DECIMAL + " (trailer|form|number|tag)"
  + "|(dropped) at " + DECIMAL + " (busy|head)"
  + "|(read) at " + DECIMAL + " (" + HEX + ")|(held) at " + DECIMAL + ")$");

/** One line of notes, or null where it is none. */
function readNote(text) {
  const m = NOTE.exec(text);
  if (!m) return null;
  if (m[1]) {
    const length = m[4] ? Number(m[4]) : m[5].length / 2;
    const number = Number(m[2]), tick = Number(m[3]);
    return { text, word: m[1], number, tick, length, why: "" };
  }
  const group = [6, 9, 12, 15, 18].find((place) => m[place]);
  const why = group === 18 ? "held" : group === 15 ? "" : m[group + 2];
  return { text, word: m[group], number: -1, tick: Number(m[group + 1]), length: 0, why };
}

/** The notes of a text, and what else stands in it: fault lines, and lines that are no note. */
function readNotes(text) {
  const notes = [], faults = [], wrong = [];
  text.split("\n").forEach((row, index) => {
    const content = row.endsWith("\r") ? row.slice(0, -1) : row;
    if (content === "") return;
    const note = readNote(content);
    if (note) notes.push(note);
    else if (content.startsWith("fault: ")) faults.push(content);
    else wrong.push({ row: index + 1, content: content.slice(0, 80) });
  });
  return { notes, faults, wrong };
}

/** Whether a text is meant as notes: its first line that is neither empty nor a comment begins with
 * a letter. */
function looksLikeNotes(text) {
  const row = /^(?![ \t\r]*$|#).+$/m.exec(text.slice(0, 100000));
  return row !== null && /^[a-z]/.test(row[0]);
}
