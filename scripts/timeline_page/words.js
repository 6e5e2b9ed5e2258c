"use strict";
// What the bytes of a frame mean, in words.

const PROTOCOLS = {
  rtu: { title: "Modbus RTU, y18", dnp: false, word: 2, tag: 12, delay: 18 },
  rtu24: { title: "Modbus RTU, y24", dnp: false, word: 4, tag: 16, delay: 24 },
  dnp3: { title: "DNP3, y18", dnp: true, word: 2, tag: 12, delay: 18 },
  dnp24: { title: "DNP3, y24", dnp: true, word: 4, tag: 16, delay: 24 },
};

const MODBUS_FUNCTIONS = {
  1: "read coils", 2: "read discrete inputs", 3: "read holding registers",
  4: "read input registers", 5: "write single coil", 6: "write single register",
  7: "read exception status", 8: "diagnostics", 11: "get comm event counter",
  12: "get comm event log", 15: "write multiple coils", 16: "write multiple registers",
  17: "report server ID", 20: "read file record", 21: "write file record",
  22: "mask write register", 23: "read/write multiple registers", 24: "read FIFO queue",
  43: "encapsulated interface transport",
};

const MODBUS_EXCEPTIONS = {
  1: "illegal function", 2: "illegal data address", 3: "illegal data value",
  4: "server device failure", 5: "acknowledge", 6: "server device busy",
  8: "memory parity error", 10: "gateway path unavailable",
  11: "gateway target device failed to respond",
};

const DNP3_PRIMARY = {
  0: "reset link states", 1: "reset user process", 2: "test link states",
  3: "confirmed user data", 4: "unconfirmed user data", 9: "request link status",
};

const DNP3_SECONDARY = { 0: "ACK", 1: "NACK", 11: "link status", 15: "not supported" };

const DNP3_FUNCTIONS = {
  0: "confirm", 1: "read", 2: "write", 3: "select", 4: "operate", 5: "direct operate",
  6: "direct operate, no response", 7: "freeze", 8: "freeze, no response", 9: "freeze and clear",
  10: "freeze and clear, no response", 11: "freeze at time", 12: "freeze at time, no response",
  13: "cold restart", 14: "warm restart", 15: "initialize data", 16: "initialize application",
  17: "start application", 18: "stop application", 19: "save configuration",
  20: "enable unsolicited", 21: "disable unsolicited", 22: "assign class",
  23: "delay measurement", 24: "record current time", 25: "open file", 26: "close file",
  27: "delete file", 28: "get file information", 29: "authenticate file", 30: "abort file",
  31: "activate configuration", 32: "authentication request",
  33: "authentication request, no response", 129: "response", 130: "unsolicited response",
  131: "authentication response",
};

/** What a note says of its burst, for the profile and protocol of the session. A frame that passed
 * leaves so many ticks later. */
function meaningOf(note, protocol, delay = protocol.delay) {
  const spaced = protocol.delay + 3;
  return {
    sealed: "It is a frame. It is forwarded, and its number and tag stand behind it.",
    form: note.word === "unsealed"
      ? "It is no frame. Its live bytes are forwarded, and nothing stands behind them."
      : "It is no frame. It leaves with a wrong ending.",
    early: `It begins fewer than ${spaced} silent ticks after a sealed frame. It isn't forwarded.`,
    spent: "It is a frame, and the last number was used before. Take a new key and a new journal.",
    passed: `A frame with its number and right tag. It leaves ${delay} ticks later, as it came.`,
    trailer: "No number and tag stand behind it in their ticks. It leaves with a wrong ending.",
    number: "No number is left that its trailer can stand for. It leaves with a wrong ending.",
    tag: "Its tag isn't that of its number and its bytes. It leaves with a wrong ending.",
    busy: "It begins while the bytes of an earlier burst still leave. Nothing of it leaves.",
    head: "It begins with no good header. Nothing of it leaves.",
    held: "Somebody else may talk when it would begin. The gate keeps all of it back.",
    read: "The device reads it.",
    forged: "It passed, and wasn't sealed with this number.",
  }[note.why || note.word];
}

function hexOf(byte) {
  return (byte < 16 ? "0" : "") + byte.toString(16);
}

/** The bytes of a list in hex, the first `most` of them. */
function hexList(bytes, most = 24) {
  const shown = Array.from(bytes.slice(0, most), hexOf).join(" ");
  return bytes.length > most ? `${shown} … (${bytes.length} bytes)` : shown;
}

function crcOf(bytes, polynomial, register) {
  for (const byte of bytes) {
    register ^= byte;
    for (let bit = 0; bit < 8; bit++) register = (register >>> 1) ^ (register & 1 ? polynomial : 0);
  }
  return register;
}

const modbusCrc = (bytes) => crcOf(bytes, 0xa001, 0xffff);
const dnpCrc = (bytes) => crcOf(bytes, 0xa6bc, 0) ^ 0xffff;

/** Whether the last two bytes are the CRC of those before, the low byte first. */
function endsIn(bytes, crc) {
  const end = bytes.length;
  if (end < 2) return false;
  const value = crc(bytes.slice(0, end - 2));
  return bytes[end - 2] === (value & 255) && bytes[end - 1] === value >>> 8;
}

/** How many bytes a DNP3 frame has whose length byte is this. */
function dnpSize(length) {
  return 10 + (length - 5) + 2 * Math.ceil((length - 5) / 16);
}

/** How many bytes a frame can have that begins with these. */
function roomFor(bytes, protocol) {
  if (!protocol.dnp) return 256;
  return bytes.length >= 3 && bytes[2] >= 5 ? dnpSize(bytes[2]) : 292;
}

/** The function of a Modbus RTU frame, what it asks and which registers it brings, as far as its
 * length tells. */
function modbusWords(bytes) {
  if (bytes.length < 2) return [];
  const address = bytes[0] === 0 ? "to all devices" : `device ${bytes[0]}`;
  const code = bytes[1] & 127, known = MODBUS_FUNCTIONS[code];
  const name = `${known || "function"} (${hexOf(bytes[1])})`;
  const pair = (place) => 256 * bytes[place] + bytes[place + 1];
  if (bytes[1] & 128) {
    const why = MODBUS_EXCEPTIONS[bytes[2]] || `code ${bytes[2]}`;
    return [`${address}: ${name}`, bytes.length > 4 ? `exception: ${why}` : "exception"];
  }
  const asked = askedWords(bytes, code, pair);
  return [`${address}: ${name}`, ...asked, ...registerWords(bytes, code, pair)];
}

/** What a request of eight bytes asks, what a reply of eight bytes confirms, and where a request
 * that brings many values writes them. */
function askedWords(bytes, code, pair) {
  const isWriteOfMany = (code === 15 || code === 16) && bytes.length === 9 + bytes[6];
  const many = [`from ${pair(2)} on, ${pair(4)} of them`];
  if (isWriteOfMany) return many;
  if (bytes.length !== 8) return [];
  const states = { 0xff00: "on", 0: "off" };
  if (code === 5) return [`coil ${pair(2)}: ${states[pair(4)] || pair(4)}`];
  if (code === 6) return [`register ${pair(2)}: ${pair(4)}`];
  return code === 15 || code === 16 || (code >= 1 && code <= 4 && bytes[2] !== 3) ? many : [];
}

/** The registers that a reply brings, or that a request writes: a count of bytes, and two bytes for
 * each. */
function registerWords(bytes, code, pair) {
  const count = code === 3 || code === 4 ? 2 : code === 16 ? 6 : -1;
  const isRight = count > 0 && bytes.length === count + 3 + bytes[count];
  if (!isRight || bytes[count] === 0 || bytes[count] % 2 === 1) return [];
  const values = [], end = count + 1 + bytes[count];
  for (let place = count + 1; place < end; place += 2) values.push(pair(place));
  return [`${values.length === 1 ? "value" : "values"} ${values.join(" ")}`];
}

/** The header of a DNP3 frame, and the function of its application layer where it begins one. */
function dnpWords(bytes) {
  if (bytes.length < 10) return [`no header: ${bytes.length} of its 10 bytes`];
  if (bytes[0] !== 5 || bytes[1] !== 0x64) return ["no header: it doesn't begin with 05 64"];
  const control = bytes[3], primary = (control & 0x40) !== 0, code = control & 15;
  const name = (primary ? DNP3_PRIMARY : DNP3_SECONDARY)[code] || `function ${code}`;
  const way = control & 0x80 ? "from the master" : "from the outstation";
  const lines = [
    `${name} (control ${hexOf(control)}), ${way}`,
    `from ${bytes[6] + 256 * bytes[7]} to ${bytes[4] + 256 * bytes[5]}`,
    `LEN ${bytes[2]}` + (bytes[2] >= 5 ? `: ${dnpSize(bytes[2])} bytes` : ": too small"),
  ];
  if (!endsIn(bytes.slice(0, 10), dnpCrc)) return lines.concat("the header's CRC is wrong");
  if (primary && (code === 3 || code === 4) && bytes.length > 13 && bytes[10] & 0x40) {
    const known = DNP3_FUNCTIONS[bytes[12]];
    lines.push(`application: ${known || "function"} (${hexOf(bytes[12])})`);
  }
  return lines;
}

/** What the CRCs of a frame's bytes are. */
function crcWords(bytes, protocol) {
  if (!protocol.dnp) return endsIn(bytes, modbusCrc) ? "CRC right" : "CRC wrong";
  if (bytes.length < 10) return "";
  let wrong = 0, blocks = 0;
  for (let place = 10; place < bytes.length; place += 18, blocks++) {
    if (!endsIn(bytes.slice(place, place + 18), dnpCrc)) wrong++;
  }
  const header = endsIn(bytes.slice(0, 10), dnpCrc) ? "CRC of the header right" : "";
  const rest = blocks === 0 ? "" : wrong === 0 ? "those of the blocks right"
    : `${wrong} of ${blocks} blocks with a wrong CRC`;
  return [header, rest].filter(Boolean).join(", ");
}

function frameWords(bytes, protocol) {
  return protocol.dnp ? dnpWords(bytes) : modbusWords(bytes);
}

/** A time in words. */
function timeWords(seconds) {
  if (seconds < 10) return `${(1000 * seconds).toFixed(1)} ms`;
  if (seconds < 60) return `${seconds.toFixed(3)} s`;
  const minutes = Math.floor(seconds / 60);
  const rest = `${(seconds - 60 * minutes).toFixed(2)} s`;
  if (minutes < 60) return `${minutes} min ${rest}`;
  return `${Math.floor(minutes / 60)} h ${minutes % 60} min ${rest}`;
}

/** The time of day at so many seconds after a start, to the millisecond, as a clock shows it that
 * is set to the start. */
function clockWords(start, seconds) {
  const shown = new Date(Math.round(start.milliseconds + 1000 * seconds)).toISOString();
  return { date: shown.slice(0, 10), time: shown.slice(11, 23), zone: start.zone };
}
