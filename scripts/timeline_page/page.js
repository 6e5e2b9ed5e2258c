"use strict";
// The page: what is shown, and what keys, mouse and files do.

const byId = (id) => document.getElementById(id);
const ROW = 26;
// The most bytes of a burst that are written on the right.
const MOST_SHOWN = 600;
const BAUDS = [300, 600, 1200, 2400, 4800, 9600, 19200, 38400, 57600, 115200];

const CAUSES = {
  char: "a byte that can't stand there", long: "the line is too long",
  count: "no count from 1 to 1000000", empty: "nothing stands behind the sign",
  odd: "an odd number of hex digits", "too long": `more than ${MOST_TICKS} ticks`,
};

/** An element with a class and a text; a text is never taken as HTML. */
function element(kind, name, text) {
  const made = document.createElement(kind);
  if (name) made.className = name;
  if (text !== undefined) made.textContent = text;
  return made;
}

function fillSelect(select, choices) {
  select.replaceChildren(...choices.map(([value, title]) => {
    const option = element("option", "", title);
    option.value = value;
    return option;
  }));
}

/** What lane a file is for, by its name and what stands in it. */
function guessLane(name, content) {
  if (looksLikeNotes(content)) return "notes";
  if (/^%\r?$/m.test(content)) return "both";
  if (/receiv/i.test(name)) return "received";
  if (/alter|came|attack|arriv/i.test(name)) return "came";
  if (/link|sent|sealed/i.test(name)) return "sent";
  return "device";
}

class Page {
  constructor() {
    this.painter = new Painter(byId("lanes"));
    this.sessions = [];
    this.current = null;
    this.messages = [];
    this.found = { query: "", list: [], index: -1 };
    this.trouble = -1;
    const protocols = Object.keys(PROTOCOLS).map((word) => [word, PROTOCOLS[word].title]);
    fillSelect(byId("protocol"), protocols);
    fillSelect(byId("baud"), BAUDS.map((baud) => [String(baud), String(baud)]));
    fillSelect(byId("bits"), [["10", "10 bits"], ["11", "11 bits"]]);
    this.paintLegend();
  }
  /** Takes the sessions that stand in the page. */
  load() {
    document.querySelectorAll("script.session").forEach((holder) => {
      this.sessions.push(JSON.parse(holder.textContent));
      holder.remove();
    });
    this.choose(this.sessions[0] || { title: "", texts: [] });
  }
  choose(session) {
    this.current = session;
    byId("session").hidden = this.sessions.length < 2;
    const titles = this.sessions.map((each, index) => each.title || `session ${index + 1}`);
    fillSelect(byId("session"), titles.map((title, index) => [String(index), title]));
    byId("session").value = String(this.sessions.indexOf(session));
    byId("title").textContent = session.title || "Timeline";
    document.title = session.title ? `${session.title} · timeline` : "Timeline";
    this.build();
    this.fitAll();
  }
  message(text) {
    this.messages.push(text);
  }
  /** Reads the texts of the session anew, and makes its lines and notes. */
  build() {
    this.messages = [];
    const session = this.sessionOf(this.current);
    const word = session ? session.word : "rtu";
    if (!session && this.current.texts.length > 0) {
      this.message("No line is here: notes alone can't be shown.");
    }
    this.setRate(this.current.rate || { baud: 9600, bits: PROTOCOLS[word].dnp ? 10 : 11 });
    if (session) session.start = this.current.start;
    byId("protocol").value = word;
    if (session) this.tellStrays(session.strays);
    this.painter.session = session;
    this.painter.setFound([]);
    this.painter.chosen = null;
    this.painter.hover = null;
    this.found = { query: "", list: [], index: -1 };
    this.trouble = -1;
    this.tell();
  }
  /** The lines and notes of the texts: of one direction, or of a two-wire line; or null. */
  sessionOf({ texts, protocol, titles: given }) {
    const lanes = {}, notes = [], titles = { ...given }, ends = newEnds();
    for (const text of texts) {
      if (text.lane in END_TITLES) takeWires(this, text, ends);
      else this.take(text, lanes, notes, titles);
    }
    if (ENDS.some((name) => ends[name].read || ends[name].drives)) {
      const isOwn = ([lane]) => !LANES.includes(lane);
      const own = Object.fromEntries(Object.entries(lanes).filter(isOwn));
      if (Object.keys(own).length < Object.keys(lanes).length || notes.length > 0) {
        this.message("A two-wire line is here: lines and notes of one direction aren't shown.");
      }
      return wireSession(this, ends, protocol, own, titles);
    }
    if (Object.keys(lanes).length === 0) return null;
    const word = PROTOCOLS[protocol] ? protocol : guessProtocol(lanes);
    return new Session(word, lanes, notes, titles);
  }
  tellStrays(strays) {
    strays.slice(0, 5).forEach((stray) => this.message(stray));
    if (strays.length <= 5) return;
    const more = `${strays.length - 5} more notes that fit no burst.`;
    this.message(`${more} Do these texts belong together?`);
  }
  /** Reads one text into the lanes and notes, and the names of lanes of its own into the titles. */
  take(text, lanes, notes, titles) {
    if (text.lane === "none") return;
    if (text.lane === "notes") {
      return this.takeNotes(text, notes);
    }
    const lines = this.linesOf(text);
    const homes = this.homesOf(text, lanes, lines, titles);
    if (lines.length > homes.length) {
      this.message(`${text.name}: what stands behind the mark isn't shown.`);
    }
    if (text.lane === "own" && lines.length < homes.length) {
      this.message(`${text.name}: no line % is there, so ${text.names[1]} isn't shown.`);
    }
    homes.forEach((lane, index) => {
      if (!lines[index]) return;
      if (!lanes[lane]) lanes[lane] = lines[index];
      else this.message(`${text.name}: ${LANE_TITLES[lane]} has another text; this isn't shown.`);
    });
  }
  /** The lines of a text, and a message of its fault. */
  linesOf(text) {
    const { lines, fault } = new TickReader(text.content).read();
    if (fault) {
      this.message(`${text.name}: line ${fault.row} ${fault.cause} (${CAUSES[fault.cause]}). `
        + "The lines before it are shown.");
    }
    return lines;
  }
  /** The lanes of a text's lines. Lines of their own get new lanes, with their names or the file's
   * name. */
  homesOf(text, lanes, lines, titles) {
    if (text.lane === "both") return ["device", "came"];
    if (text.lane !== "own") return [text.lane];
    const own = (_, index) => (index ? `${text.name}, behind the %` : text.name);
    const names = text.names || lines.map(own);
    const first = Object.keys(lanes).length;
    return names.map((name, index) => {
      const lane = `own${first + index}`;
      titles[lane] = name;
      return lane;
    });
  }
  takeNotes(text, notes) {
    const read = readNotes(text.content), more = read.wrong.length - 3;
    for (const note of read.notes) notes.push(note);
    for (const fault of read.faults) this.message(`${text.name}: the run ended with "${fault}".`);
    for (const { row, content } of read.wrong.slice(0, 3)) {
      this.message(`${text.name}: line ${row} is no note: ${content}`);
    }
    if (more > 0) this.message(`${text.name}: ${more} more lines are no notes.`);
  }
  setRate(rate) {
    this.painter.rate = rate;
    const bauds = BAUDS.includes(rate.baud) ? BAUDS : BAUDS.concat(rate.baud);
    fillSelect(byId("baud"), bauds.map((baud) => [String(baud), String(baud)]));
    byId("baud").value = String(rate.baud);
    byId("bits").value = String(rate.bits);
  }
  /** Writes what stands around the canvas. */
  tell() {
    const { session } = this.painter;
    byId("empty").hidden = session !== null;
    document.body.classList.toggle("without", session === null);
    byId("messages").replaceChildren(...this.messages.map((text) => element("p", "", text)));
    byId("remark").textContent = this.current.remark || "";
    this.tellCounts();
    this.tellTexts();
    this.tellLabels();
    byId("details").replaceChildren();
    byId("found").textContent = "";
    byId("search").value = "";
    byId("troubles").scrollTop = 0;
    this.tellTroubles();
  }
  tellCounts() {
    const { session } = this.painter, chips = [];
    const kinds = {
      refused: "bad", dropped: "bad", unsealed: "bad", forged: "bad", held: "bad",
      sealed: "good", passed: "good", read: "good",
      lost: "link", added: "link", repeated: "link", moved: "link", altered: "link",
    };
    for (const [word, kind] of Object.entries(kinds)) {
      const count = session ? session.counts.get(word) || 0 : 0;
      if (count === 0) continue;
      const reasons = [...session.counts].filter(([each]) => each.startsWith(`${word} `))
        .map(([each, many]) => `${each.slice(word.length + 1)} ${many}`).join(", ");
      const chip = element("button", kind, `${word} ${count}${reasons ? ` (${reasons})` : ""}`);
      chip.type = "button";
      chip.title = `Search for ${word}`;
      chip.addEventListener("click", () => this.search(word, 1));
      chips.push(chip);
    }
    byId("counts").replaceChildren(...chips);
  }
  tellTexts() {
    const choices = [...LANES.map((lane) => [lane, LANE_TITLES[lane]]),
      ["both", "the device's line, % and the link"], ...Object.entries(END_TITLES),
      ["own", "a line of its own"],
      ["notes", "notes"], ["none", "not shown"]];
    byId("texts").replaceChildren(...this.current.texts.map((text) => {
      const row = element("div"), select = element("select");
      row.append(element("span", "", text.name), select);
      fillSelect(select, choices);
      select.value = text.lane;
      select.addEventListener("change", () => {
        text.lane = select.value;
        this.build();
        this.fitAll();
      });
      return row;
    }));
  }
  tellLabels() {
    const { session } = this.painter;
    const delay = session ? session.protocol.delay : 0;
    const own = {
      device: "before the transmitter", sent: "after the transmitter",
      came: "before the receiver", received: `after the receiver, ${delay} ticks later`,
      near: "at this box", link: "between the boxes", far: "at the remote box",
    };
    byId("labels").replaceChildren(...(session ? session.shown : []).map((lane) => {
      const label = element("div", "", session.titles[lane]);
      label.dataset.lane = lane;
      label.title = session.titles[lane];
      label.append(element("small", "", own[lane] || ""));
      return label;
    }));
  }
  /** The rows of the list of troubles that are in view; there may be very many. */
  tellTroubles() {
    const { session } = this.painter, box = byId("troubles"), rows = byId("rows");
    const troubles = session ? session.troubles : [];
    rows.style.height = `${troubles.length * ROW}px`;
    byId("place").textContent = troubles.length === 0 ? "none"
      : this.trouble < 0 ? `${troubles.length}` : `${this.trouble + 1} of ${troubles.length}`;
    const from = Math.max(0, Math.floor(box.scrollTop / ROW) - 2);
    const to = Math.min(troubles.length, from + Math.ceil(box.clientHeight / ROW) + 5);
    const shown = [];
    for (let index = from; index < to; index++) shown.push(this.troubleRow(troubles[index], index));
    rows.replaceChildren(...shown);
  }
  troubleRow(trouble, index) {
    const { session } = this.painter, { lane, burst } = trouble;
    const row = element("div", index === this.trouble ? "now" : "");
    row.style.top = `${index * ROW}px`;
    row.append(element("i", session.levels[lane][burst] === 1 ? "link" : ""),
      element("b", "", `@${trouble.tick}`), session.labelOf(lane, burst).join(", "));
    row.title = session.titles[lane];
    row.addEventListener("click", () => this.goToTrouble(index));
    return row;
  }
  goToTrouble(index) {
    const { session } = this.painter;
    if (!session || session.troubles.length === 0) return;
    const count = session.troubles.length;
    this.trouble = ((index % count) + count) % count;
    const { lane, burst } = session.troubles[this.trouble], box = byId("troubles");
    const top = this.trouble * ROW;
    if (top < box.scrollTop || top + ROW > box.scrollTop + box.clientHeight) {
      box.scrollTop = Math.max(0, top - box.clientHeight / 2);
    }
    this.keep(lane, burst);
    this.show(session.lanes[lane].start(burst), session.lanes[lane].end(burst) + 1, lane);
    this.tellTroubles();
  }
  /** The next place of trouble behind the one of now, the burst that is kept, or the left edge of
   * the view. */
  step(by) {
    const { painter } = this, { session } = painter;
    if (!session) return;
    if (this.trouble >= 0) return void this.goToTrouble(this.trouble + by);
    const { chosen } = painter;
    const start = chosen ? session.lanes[chosen.lane].start(chosen.burst) : -1;
    const isInView = start >= painter.from && start < painter.tickAt(painter.width);
    const ticks = session.troubles.map((each) => each.tick);
    const behind = lowerBound(ticks, isInView ? start : painter.from);
    this.goToTrouble(by > 0 ? behind : behind - 1);
  }
  /** Keeps a burst in the panel on the right. */
  keep(lane, burst) {
    const { session, rate } = this.painter;
    this.painter.chosen = { lane, burst };
    const lines = describeBurst(session, lane, burst, rate)
      .map((row) => element("div", `said ${row.kind}`, row.text));
    byId("details").replaceChildren(...lines, this.dump(lane, burst));
    byId("details").scrollTop = 0;
  }
  /** The bytes of a burst in hex, in the colours of the lanes. */
  dump(lane, burst) {
    const { session } = this.painter, line = session.lanes[lane], first = line.first[burst];
    const dump = element("div", "code dump");
    dump.id = "dump";
    const parts = session.partsOf(lane, burst), marks = session.marksOf(lane, burst, 0, MOST_SHOWN);
    parts.subarray(0, MOST_SHOWN).forEach((part, place) => {
      const marked = marks[place] === ALTERED_BYTE ? "altered" : "spoiled";
      const colour = marks[place] ? marked : PART_COLOURS[part];
      const byte = element("span", "", hexOf(line.bytes[first + place]));
      byte.style.background = `var(--${colour})`;
      byte.style.color = `var(--on${colour})`;
      dump.append(byte);
      if (line.at[first + place + 1] - line.at[first + place] > 1) dump.append(" ");
    });
    if (parts.length > MOST_SHOWN) dump.append(`… ${parts.length} bytes`);
    return dump;
  }
  /** Goes to the next or the one before of what a search finds. */
  search(query, by) {
    const { session } = this.painter;
    if (!session) return;
    byId("search").value = query;
    if (query !== this.found.query) {
      this.found = { query, list: search(session, query), index: -1 };
      this.painter.setFound(this.found.list);
    }
    const { list } = this.found;
    if (list.length === 0) {
      byId("found").textContent = query.trim() === "" ? "" : "nothing found";
      return void this.paint();
    }
    const start = this.found.index < 0 && by < 0 ? 0 : this.found.index;
    this.found.index = (start + by + list.length) % list.length;
    const place = list[this.found.index];
    this.trouble = -1;
    this.tellTroubles();
    byId("found").textContent = `${this.found.index + 1} of ${list.length}`;
    if (place.burst >= 0) this.keep(place.lane, place.burst);
    this.show(place.tick, place.end + 1, place.lane);
  }
  /** Brings ticks of a lane into view, and zooms in where their bytes couldn't be read. */
  show(from, to, lane) {
    const { painter } = this, room = painter.width;
    const fitting = Math.min(22, (0.8 * room) / (to - from + 8));
    const wide = (to - from) * painter.scale;
    if (painter.scale < 0.6 * fitting || (wide > 0.85 * room && painter.scale > fitting)) {
      painter.scale = Math.max(fitting, this.least());
    }
    painter.from = from - Math.max(6, (0.3 * room) / painter.scale - 0.3 * (to - from));
    this.paint();
    this.scrollTo(lane);
  }
  /** Scrolls so far that a lane is in view where the lanes are higher than the window. */
  scrollTo(lane) {
    const stage = byId("stage"), top = this.painter.laneTop(lane);
    const low = top + this.painter.laneHeight() - stage.clientHeight;
    if (low > stage.scrollTop) stage.scrollTop = low;
    if (top < stage.scrollTop) stage.scrollTop = top;
  }
  least() {
    return this.painter.width / (this.painter.session.span * 1.06 + 2);
  }
  fitAll() {
    this.paint();
    if (!this.painter.session) return;
    this.painter.scale = Math.min(MOST_SCALE, this.least());
    this.painter.from = -0.01 * this.painter.session.span - 1;
    this.paint();
  }
  zoom(by, x = this.painter.width / 2) {
    const { painter } = this;
    if (!painter.session) return;
    const tick = painter.tickAt(x);
    painter.scale = Math.max(this.least(), Math.min(MOST_SCALE, painter.scale * by));
    painter.from = tick - x / painter.scale;
    this.paint();
  }
  move(ticks) {
    this.painter.from += ticks;
    this.paint();
  }
  /** Paints before the next frame of the screen. */
  paint() {
    const { painter } = this;
    if (painter.session && painter.width) {
      const wide = painter.width / painter.scale, spare = Math.max(0.02 * wide, 2);
      painter.from = Math.max(-spare, Math.min(painter.from, painter.session.ticks + spare - wide));
      if (wide > painter.session.ticks + 2 * spare) painter.from = -spare;
    }
    painter.paint();
    paintOverview(byId("overview"), painter);
    if (painter.session) this.tellView();
  }
  tellView() {
    const { painter } = this, { session, rate } = painter;
    const from = Math.max(0, Math.floor(painter.from));
    const to = Math.min(session.ticks - 1, Math.floor(painter.tickAt(painter.width)));
    byId("view").textContent = `ticks ${from} to ${to} of ${session.ticks}, `
      + timeWords(((to + 1 - from) * rate.bits) / rate.baud);
    const { canvas } = painter;
    canvas.dataset.from = String(painter.from);
    canvas.dataset.scale = String(painter.scale);
    canvas.dataset.pills = JSON.stringify(painter.pills
      .map(({ lane, x, wide, text, notes }) => ({ lane, x, wide, text, count: notes.length })));
    const high = painter.laneHeight();
    canvas.style.minHeight = `${AXIS + 84 * session.shown.length}px`;
    for (const label of byId("labels").children) {
      label.style.top = `${painter.laneTop(label.dataset.lane)}px`;
      label.style.height = `${high}px`;
    }
  }
  paintLegend() {
    const entries = [["frame", "frame"], ["word", "word: low bytes of the number"], ["tag", "tag"],
      ["noframe", "no frame"], ["other", "not live"], ["fill", "fill"], ["altered", "altered"],
      ["altered lost", "didn't come, or held back"], ["altered added", "added or repeated"],
      ["spoiled", "spoiled"]];
    byId("legend").replaceChildren(...entries.map(([name, title]) => {
      const entry = element("span"), swatch = element("i", name);
      if (!name.includes(" lost")) swatch.style.backgroundColor = `var(--${name.split(" ")[0]})`;
      entry.append(swatch, title);
      return entry;
    }));
  }
  /** Takes files that were dropped or chosen: into the session of such files, which begins with the
   * first of them. */
  async takeFiles(files) {
    let session = this.sessions.find((each) => each.isDropped);
    if (!session) {
      session = { title: "Dropped texts", texts: [], isDropped: true };
      this.sessions.push(session);
    }
    for (const file of files) {
      const content = new TextDecoder("latin1").decode(await file.arrayBuffer());
      const text = { name: file.name, lane: guessLane(file.name, content), content };
      const old = session.texts.findIndex((each) => each.name === text.name);
      if (old >= 0) session.texts[old] = text; else session.texts.push(text);
    }
    byId("sources").open = true;
    this.choose(session);
  }
}
