"use strict";
// What the page says of a tick and of a burst, and what a search finds.

/** A line of what is said: its text, and how it is painted ("title", "bad", "link", "code", "faint"
 * or ""). */
function said(text, kind = "") {
  return { text, kind };
}

const asByte = (byte) => (byte < 0 ? "silence" : hexOf(byte));

/** What a byte is within its burst: its part, and its place in it. */
function partWords(session, lane, burst, place) {
  const parts = session.partsOf(lane, burst), part = parts[place];
  let before = 0, all = 0;
  parts.forEach((other, index) => {
    if (other !== part) return;
    all++;
    if (index < place) before++;
  });
  const whole = part === WORD ? session.protocol.word : part === TAG ? session.protocol.tag : all;
  const name = { [FRAME]: "of the frame", [WORD]: "of the word", [TAG]: "of the tag",
    [NO_FRAME]: "of bytes that are no frame", [OTHER]: "of bytes that aren't live",
    [FILL]: "of the fill" }[part];
  return `byte ${before + 1} of ${whole} ${name}`;
}

/** What the link or the receiver did to a byte. */
function changeWords(session, lane, burst, place) {
  const line = session.lanes[lane], byte = line.bytes[line.first[burst] + place];
  if (lane === "came" && session.comparison) {
    const fate = session.comparison.fate[burst];
    if (fate === ADDED) return [said(`left as silence, came as ${hexOf(byte)}`, "link")];
    const left = session.comparison.leftAs(burst, line.first[burst] + place);
    return left === byte ? [] : [said(`left as ${asByte(left)}, came as ${hexOf(byte)}`, "link")];
  }
  if (!session.isSpoiled(lane, burst, place)) return [];
  const source = session.sourceOf(lane, burst), { taken } = session;
  const isFill = place >= session.lengthOf(lane, burst);
  const came = taken.bytes[taken.first[source] + place];
  const was = isFill ? "filled as 00" : `came as ${hexOf(came)}`;
  return [said(`spoiled: ${was}, leaves as ${hexOf(byte)}`, "bad")];
}

/** Where a burst that moved, came again or was altered left. */
function originWords(session, burst) {
  const { comparison } = session;
  if (!comparison) return [];
  const fate = comparison.fate[burst], shift = comparison.shift[burst];
  if (fate === ADDED) return [said("added: nothing left in these ticks", "link")];
  const differs = fate === ALTERED ? comparison.differences(burst) : 0;
  const changed = `altered: ${differs} ${differs === 1 ? "byte" : "bytes"}`;
  if (fate === WHOLE || (fate === ALTERED && shift === 0)) {
    return fate === ALTERED ? [said(changed, "link")] : [];
  }
  const way = `${Math.abs(shift)} ticks ${shift < 0 ? "earlier" : "later"}`;
  const left = `it left at ${comparison.sent.start(comparison.origin[burst])} and came ${way}`;
  return [said(`${fate === ALTERED ? changed : FATES[fate]}: ${left}`, "link")];
}

/** The note of a burst, in the note's own words, and what else became of it. */
function noteWords(session, lane, burst) {
  const lines = session.notesOf(lane, burst)
    .map((note) => said(session.textOf(note), note.why ? "bad" : "good"));
  const forged = meaningOf({ word: "forged" }, session.protocol);
  if (session.isForged(lane, burst)) lines.push(said(forged, "bad"));
  if (lane === "came") lines.push(...originWords(session, burst));
  if (session.ends) lines.push(...speakerWords(session, lane, burst));
  if (lane === "sent" && session.isLost(burst)) lines.push(said("lost: it didn't come", "link"));
  if (lane === "received" && session.isRead(burst)) lines.push(said("the device reads it", "good"));
  return lines;
}

/** The word of a packet, as it stands behind the frame. */
function wordWords(session, lane, burst) {
  if (!session.isLink(lane)) return [];
  const line = session.lanes[lane], place = wordPlace(line, burst, session.protocol);
  if (place < 0) return [];
  const word = line.bytes.subarray(place, place + session.protocol.word);
  const tag = line.bytes.subarray(place + word.length, line.first[burst + 1]);
  const number = wordAt(line, place, session.protocol);
  const lines = [said(`word ${hexList(word)}: the low bytes of a number, ${number}`)];
  const shown = hexList(tag.subarray(0, session.protocol.tag));
  if (tag.length > 0) lines.push(said(`tag ${shown}`, "code"));
  return lines;
}

/** When a tick begins: the time since tick 0, and the date and time of day if the session has a
 * start. */
function timesOf(session, tick, rate) {
  const seconds = (tick * rate.bits) / rate.baud;
  if (!session.start) return timeWords(seconds);
  const { date, time, zone } = clockWords(session.start, seconds);
  return `${timeWords(seconds)} · ${date} ${time}${zone}`;
}

function whenWords(session, tick, rate) {
  return said(`tick ${tick} · ${timesOf(session, tick, rate)}`, "faint");
}

/** What is said of a silent tick. */
function describeSilence(session, lane, tick, rate) {
  const line = session.lanes[lane], lines = [said(session.titles[lane], "title")];
  const burst = line.burstBefore(tick);
  if (burst >= 0 && tick < line.end(burst)) lines.push(...noteWords(session, lane, burst));
  if (session.ends) lines.push(...heldWords(session, lane, tick));
  const left = lane === "came" && session.comparison ? leftIn(session, tick) : -1;
  if (left >= 0) lines.push(said(`left as ${hexOf(left)}, came as silence`, "link"));
  const next = lowerBound(line.at, tick);
  const from = next > 0 ? line.at[next - 1] + 1 : 0;
  const to = next < line.at.length ? line.at[next] - 1 : line.ticks - 1;
  if (tick < line.ticks) lines.push(said(`silent from ${from} to ${to}, ${to - from + 1} ticks`));
  else lines.push(said("the recording has ended"));
  return lines.concat(whenWords(session, tick, rate));
}

/** The byte that left and is missing in a silent tick of the link as it came, or -1. */
function leftIn(session, tick) {
  const { came } = session.lanes, { comparison } = session;
  for (const burst of [came.burstBefore(tick), came.burstBefore(tick) + 1]) {
    if (burst < 0 || burst >= came.bursts) continue;
    const missing = comparison.missing(burst, tick, tick + 1);
    if (missing.length > 0) return missing[0].byte;
  }
  const left = comparison.sent.placeAt(tick);
  return left < 0 ? -1 : comparison.sent.bytes[left];
}

/** What is said of a tick of a lane. */
function describeTick(session, lane, tick, rate) {
  const line = session.lanes[lane], place = line.placeAt(tick);
  if (place < 0) return describeSilence(session, lane, tick, rate);
  const burst = line.burstOf(place), within = place - line.first[burst];
  const frame = session.frameOf(lane, burst);
  return [
    said(session.titles[lane], "title"),
    ...noteWords(session, lane, burst),
    ...(session.ends ? heldWords(session, lane, tick) : []),
    ...changeWords(session, lane, burst, within),
    said(`${hexOf(line.bytes[place])} · ${partWords(session, lane, burst, within)}`, "code"),
    ...frameWords(frame, session.protocol).map((text) => said(text)),
    said(crcWords(frame, session.protocol)),
    whenWords(session, tick, rate),
  ].filter((row) => row.text !== "");
}

/** What is said of a pill that stands for several notes. */
function describePill(session, pill, most = 12) {
  const { lane, notes } = pill, rows = notes.slice(0, most).map(({ tick, words, level }) => {
    const kind = level === 2 ? "bad" : level === 1 ? "link" : "";
    return said(`@${tick} ${words.join(", ")}`, kind);
  });
  if (notes.length > most) rows.push(said(`and ${notes.length - most} more`, "faint"));
  return [said(`${session.titles[lane]}: ${countsText(notes)}`, "title"), ...rows];
}

/** All that there is to say of a burst. */
function describeBurst(session, lane, burst, rate) {
  const line = session.lanes[lane], frame = session.frameOf(lane, burst);
  const start = line.start(burst);
  const span = line.end(burst) - start + 1;
  const lines = [
    said(`${session.titles[lane]}, ticks ${start} to ${line.end(burst)}`, "title"),
    ...noteWords(session, lane, burst),
  ];
  const meant = session.notesOf(lane, burst)
    .map((note) => meaningOf(note, session.protocol, session.delay));
  for (const text of new Set(meant)) lines.push(said(text, "faint"));
  lines.push(...frameWords(frame, session.protocol).map((text) => said(text)));
  lines.push(said(crcWords(frame, session.protocol)), ...wordWords(session, lane, burst));
  const long = timeWords((span * rate.bits) / rate.baud);
  lines.push(said(`${timesOf(session, start, rate)}, for ${long}`, "faint"));
  return lines.filter((row) => row.text !== "");
}

/** The places of a line where bytes stand one behind the other within a burst. */
function findBytes(session, lane, wanted) {
  const line = session.lanes[lane], found = [], last = line.bytes.length - wanted.length;
  for (let place = line.bytes.indexOf(wanted[0]); place >= 0 && place <= last;
    place = line.bytes.indexOf(wanted[0], place + 1)) {
    let same = 1;
    while (same < wanted.length && line.bytes[place + same] === wanted[same]) same++;
    if (same < wanted.length) continue;
    const burst = line.burstOf(place);
    if (place + wanted.length > line.first[burst + 1]) continue;
    found.push({ tick: line.at[place], lane, burst, end: line.at[place + wanted.length - 1] });
  }
  return found;
}

/** The bursts whose notes and fates `isWanted` takes. */
function findBursts(session, isWanted) {
  const found = [];
  for (const lane of session.shown) {
    const line = session.lanes[lane];
    for (let burst = 0; burst < line.bursts; burst++) {
      if (isWanted(lane, burst)) {
        found.push({ tick: line.start(burst), lane, burst, end: line.end(burst) });
      }
    }
  }
  return found;
}

/** The text that words are sought in: the note, what became of the burst, and its function or
 * header. */
function wordsOf(session, lane, burst) {
  const notes = session.notesOf(lane, burst).map((note) => note.text).join(" ");
  const frame = session.frameOf(lane, burst);
  const labels = session.labelOf(lane, burst).join(" ");
  const extra = hasSpoiled(session, lane, burst) ? " spoiled" : "";
  const meant = frameWords(frame, session.protocol).join(" ");
  return `${notes} ${labels}${extra} ${meant}`;
}

function hasSpoiled(session, lane, burst) {
  return session.sourceOf(lane, burst) >= 0
    && (session.marksOf(lane, burst).includes(SPOILED_BYTE)
      || session.partsOf(lane, burst).includes(FILL));
}

/** Whether a text has these words, each whole, one behind the other. */
function hasWords(text, words) {
  const escaped = words.map((word) => word.replace(/[^a-z0-9]/g, "\\$&"));
  return new RegExp(`(^|[^a-z0-9])${escaped.join(".*[^a-z0-9]")}`, "i").test(text);
}

/** Whether the words of a frame have this number: an address, a register, a coil, a count, a length
 * or a value. Codes stand in brackets, in hex, and are no such numbers. */
function hasValue(frame, protocol, digits) {
  const text = frameWords(frame, protocol).join("; ").replace(/\([^)]*\)/g, "");
  return new RegExp(`(^|[^0-9a-z.])${digits}([^0-9a-z.]|$)`, "i").test(text);
}

/** What a search finds, in the order of ticks: `@TICK`, `#NUMBER`, `=VALUE`, hex, a number, or
 * words. */
function search(session, query) {
  const text = query.trim().toLowerCase(), digits = text.replace(/\s+/g, "");
  if (text === "") return [];
  if (/^@\d+$/.test(digits)) return placeOf(session, Number(digits.slice(1)));
  const byNumber = /^#?\d+$/.test(digits) ? Number(digits.replace("#", "")) : -1;
  const isByValue = /^=?(0|[1-9]\d*)$/.test(text), value = text.replace("=", "");
  const found = byNumber < 0 && !isByValue ? [] : findBursts(session, (lane, burst) => {
    const hasNumber = (note) => note.number === byNumber;
    if (byNumber >= 0 && session.notesOf(lane, burst).some(hasNumber)) return true;
    return isByValue && hasValue(session.frameOf(lane, burst), session.protocol, value);
  });
  if (/^([0-9a-f]{2})+$/.test(digits)) {
    const wanted = digits.match(/../g).map((pair) => parseInt(pair, 16));
    for (const lane of session.shown) found.push(...findBytes(session, lane, wanted));
  } else if (byNumber < 0 && !isByValue) {
    const words = text.split(/\s+/);
    const isWanted = (lane, burst) => hasWords(wordsOf(session, lane, burst), words);
    found.push(...findBursts(session, isWanted), ...findHeld(session, words));
  }
  return session.inOrder(found);
}

/** A tick as a place: the burst of the first lane that has one there, or the tick alone. */
function placeOf(session, tick) {
  if (tick >= session.ticks) return [];
  for (const lane of session.shown) {
    const line = session.lanes[lane], burst = line.burstBefore(tick);
    if (burst >= 0 && tick <= line.end(burst)) return [{ tick, lane, burst, end: tick }];
  }
  return [{ tick, lane: session.shown[0], burst: -1, end: tick }];
}
