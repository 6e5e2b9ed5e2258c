"use strict";
// The link as it came against the link as sent: what each burst that came was when it left.

// What became of a burst. "Moved" and "repeated" ones came whole, but in other ticks.
const FATES = ["as it left", "moved", "repeated", "altered", "added"];
const WHOLE = 0, MOVED = 1, REPEATED = 2, ALTERED = 3, ADDED = 4;

// The longest frame of both protocols.
const MOST_LIVE = 292;

/** How many bytes of a burst can be a frame's: those before two silent ticks in a row, if there is
 * room. */
function liveCount(line, burst, protocol) {
  const from = line.first[burst], to = Math.min(line.first[burst + 1], from + MOST_LIVE);
  let place = from + 1;
  while (place < to && line.at[place] - line.at[place - 1] <= 2) place++;
  return Math.min(place - from, roomFor(line.bytes.subarray(from, place), protocol));
}

/** Where the word of a packet would stand among the bytes: four ticks behind the last live byte; or
 * -1. */
function wordPlace(line, burst, protocol) {
  const place = line.first[burst] + liveCount(line, burst, protocol);
  if (place + protocol.word > line.first[burst + 1]) return -1;
  const tick = line.at[place - 1] + CUT;
  for (let byte = 0; byte < protocol.word; byte++) {
    if (line.at[place + byte] !== tick + byte) return -1;
  }
  return place;
}

function wordAt(line, place, protocol) {
  let word = 0;
  for (let byte = 0; byte < protocol.word; byte++) word = 256 * word + line.bytes[place + byte];
  return word;
}

/** A number of a burst's bytes and silences, the same for two bursts that differ in when they begin
 * alone. */
function burstKey(line, burst) {
  const first = line.first[burst], start = line.at[first];
  let key = 0;
  for (let place = first; place < line.first[burst + 1]; place++) {
    key = (Math.imul(key, 31) + line.bytes[place] + 257 * (line.at[place] - start)) | 0;
  }
  return key;
}

class Comparison {
  constructor(sent, came, protocol) {
    this.sent = sent;
    this.came = came;
    this.protocol = protocol;
    this.fate = new Uint8Array(came.bursts);
    this.shift = new Float64Array(came.bursts);
    this.origin = new Int32Array(came.bursts).fill(-1);
    // Of each sent burst, whether one that came is compared with it, and whether it came whole.
    this.reached = new Uint8Array(sent.bursts);
    this.whole = new Uint8Array(sent.bursts);
    const others = [];
    for (let burst = 0; burst < came.bursts; burst++) {
      const origin = sent.burstAt(came.start(burst));
      if (origin >= 0 && this.isSame(origin, burst)) this.settle(burst, WHOLE, origin, 0);
      else others.push(burst);
    }
    if (others.length > 0) {
      this.index();
      for (const burst of others) this.find(burst);
    }
  }
  settle(burst, fate, origin, shift) {
    this.fate[burst] = fate;
    this.origin[burst] = origin;
    this.shift[burst] = shift;
    if (origin < 0) return;
    this.reached[origin] = 1;
    if (fate !== ALTERED) this.whole[origin] = 1;
  }
  /** Whether a burst has the bytes and silences of a sent one, be it in other ticks. */
  isSame(origin, burst) {
    const { sent, came } = this, a = sent.first[origin], b = came.first[burst];
    const count = came.first[burst + 1] - b, shift = came.at[b] - sent.at[a];
    if (sent.first[origin + 1] - a !== count) return false;
    for (let place = 0; place < count; place++) {
      if (sent.bytes[a + place] !== came.bytes[b + place]) return false;
      if (sent.at[a + place] + shift !== came.at[b + place]) return false;
    }
    return true;
  }
  /** The sent bursts by their content, and by the word behind them: the last of each, and of each
   * the one before. */
  index() {
    const { sent, protocol } = this;
    this.byKey = new Map();
    this.byWord = new Map();
    this.keyBefore = new Int32Array(sent.bursts);
    this.wordBefore = new Int32Array(sent.bursts);
    const add = (last, before, key, origin) => {
      const other = last.get(key);
      before[origin] = other === undefined ? -1 : other;
      last.set(key, origin);
    };
    for (let origin = 0; origin < sent.bursts; origin++) {
      add(this.byKey, this.keyBefore, burstKey(sent, origin), origin);
      const place = wordPlace(sent, origin, protocol);
      if (place >= 0) add(this.byWord, this.wordBefore, wordAt(sent, place, protocol), origin);
    }
  }
  /** The sent burst that is the same but for its ticks, the nearest if there are more; or -1. */
  copyOf(burst) {
    let origin = this.byKey.get(burstKey(this.came, burst)), best = -1;
    const far = (other) => Math.abs(this.sent.start(other) - this.came.start(burst));
    for (; origin !== undefined && origin >= 0; origin = this.keyBefore[origin]) {
      if (this.isSame(origin, burst) && (best < 0 || far(origin) < far(best))) best = origin;
    }
    return best;
  }
  /** How many bytes of a burst left as they are, so many ticks before. */
  equals(burst, shift) {
    const { sent, came } = this;
    let count = 0, left = lowerBound(sent.at, came.start(burst) - shift);
    for (let place = came.first[burst]; place < came.first[burst + 1]; place++) {
      const tick = came.at[place] - shift;
      while (left < sent.at.length && sent.at[left] < tick) left++;
      if (sent.at[left] === tick && sent.bytes[left] === came.bytes[place]) count++;
    }
    return count;
  }
  /** The sent burst that has the word behind this one, the nearest if there are more, and by how
   * much it moved. */
  byItsWord(burst) {
    const place = wordPlace(this.came, burst, this.protocol);
    if (place < 0) return null;
    let origin = this.byWord.get(wordAt(this.came, place, this.protocol)), best = null;
    for (; origin !== undefined && origin >= 0; origin = this.wordBefore[origin]) {
      const shift = this.came.at[place] - this.sent.at[wordPlace(this.sent, origin, this.protocol)];
      if (best === null || Math.abs(shift) < Math.abs(best.shift)) best = { origin, shift };
    }
    return best;
  }
  find(burst) {
    const copy = this.copyOf(burst);
    if (copy >= 0) {
      const shift = this.came.start(burst) - this.sent.start(copy);
      return this.settle(burst, this.whole[copy] ? REPEATED : MOVED, copy, shift);
    }
    const named = this.byItsWord(burst), here = this.equals(burst, 0);
    const count = this.came.first[burst + 1] - this.came.first[burst];
    if (named !== null && named.shift !== 0) {
      const equal = this.equals(burst, named.shift);
      if (2 * equal >= count && equal > here) {
        return this.settle(burst, ALTERED, named.origin, named.shift);
      }
    }
    const [from, to] = this.besides(burst);
    if (from === to) return this.settle(burst, ADDED, -1, 0);
    for (let origin = from; origin < to; origin++) this.reached[origin] = 1;
    return this.settle(burst, ALTERED, from, 0);
  }
  /** The sent bursts that share a tick with a burst: the first, and the one behind the last. */
  besides(burst) {
    const end = this.sent.burstBefore(this.came.end(burst)) + 1;
    let from = Math.max(0, this.sent.burstBefore(this.came.start(burst)));
    while (from < end && this.sent.end(from) < this.came.start(burst)) from++;
    return [from, Math.max(from, end)];
  }
  /** What left in the tick from which a byte came: a byte, or -1 for silence. */
  leftAs(burst, place) {
    const left = this.sent.placeAt(this.came.at[place] - this.shift[burst]);
    return left < 0 ? -1 : this.sent.bytes[left];
  }
  /** The bytes that left and didn't come, of the sent bursts that an altered one is compared with,
   * in some ticks. */
  missing(burst, start = 0, end = MOST_TICKS) {
    if (this.fate[burst] !== ALTERED) return [];
    const shift = this.shift[burst], found = [];
    const [from, to] = shift === 0 ? this.besides(burst)
      : [this.origin[burst], this.origin[burst] + 1];
    let place = Math.max(this.sent.first[from], lowerBound(this.sent.at, start - shift));
    for (; place < this.sent.first[to]; place++) {
      const tick = this.sent.at[place] + shift;
      if (tick >= end) break;
      if (this.came.placeAt(tick) < 0) found.push({ tick, byte: this.sent.bytes[place] });
    }
    return found;
  }
  /** How many bytes of an altered burst came as another one, came for silence, or didn't come. */
  differences(burst) {
    const count = this.came.first[burst + 1] - this.came.first[burst];
    return count - this.equals(burst, this.shift[burst]) + this.missing(burst).length;
  }
}
