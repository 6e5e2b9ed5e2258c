"use strict";
// Mouse, keys and files.

/** Shows what stands under the mouse. */
function showTip(page, event) {
  const { painter } = page, tip = byId("tip"), box = painter.canvas.getBoundingClientRect();
  const lane = painter.session ? painter.laneAt(event.clientY - box.top) : undefined;
  const tick = Math.floor(painter.tickAt(event.clientX - box.left));
  if (!lane || tick < 0 || tick >= painter.session.ticks) return hideTip(page);
  painter.hover = { lane, tick: nearest(painter, lane, event.clientX - box.left) };
  const pill = painter.pillAt(event.clientX - box.left, event.clientY - box.top);
  const lines = pill ? describePill(painter.session, pill)
    : describeTick(painter.session, lane, painter.hover.tick, painter.rate);
  tip.replaceChildren(...lines.map((row) => element("div", `said ${row.kind}`, row.text)));
  tip.hidden = false;
  const right = event.clientX + 18 + tip.offsetWidth > window.innerWidth;
  const low = event.clientY > 0.55 * window.innerHeight;
  const left = right ? event.clientX - 14 - tip.offsetWidth : event.clientX + 18;
  const top = low ? event.clientY - 48 - tip.offsetHeight : event.clientY + 18;
  tip.style.left = `${Math.max(4, left)}px`;
  tip.style.top = `${Math.max(4, top)}px`;
  page.paint();
}

/** The tick under the mouse; where ticks are narrower than three pixels, that of a byte close to
 * it. */
function nearest(painter, lane, x) {
  const tick = Math.floor(painter.tickAt(x)), line = painter.session.lanes[lane];
  if (painter.scale >= 3 || line.placeAt(tick) >= 0) return tick;
  const place = lowerBound(line.at, painter.tickAt(x - 2));
  return place < line.at.length && line.at[place] <= painter.tickAt(x + 2) ? line.at[place] : tick;
}

function hideTip(page) {
  byId("tip").hidden = true;
  if (page.painter.hover) {
    page.painter.hover = null;
    page.paint();
  }
}

/** Moves by dragging, keeps a burst by a click, zooms by the wheel. */
function listenToMouse(page) {
  const { painter } = page, { canvas } = painter;
  let grabbed = null;
  canvas.addEventListener("pointerdown", (event) => {
    if (event.button !== 0 || !painter.session) return;
    grabbed = { x: event.clientX, from: painter.from, isMoved: false };
    canvas.setPointerCapture(event.pointerId);
  });
  canvas.addEventListener("pointermove", (event) => {
    if (!grabbed) return showTip(page, event);
    if (Math.abs(event.clientX - grabbed.x) > 3) grabbed.isMoved = true;
    if (!grabbed.isMoved) return;
    byId("tip").hidden = true;
    canvas.classList.add("moving");
    painter.from = grabbed.from - (event.clientX - grabbed.x) / painter.scale;
    page.paint();
  });
  canvas.addEventListener("pointerup", (event) => {
    canvas.classList.remove("moving");
    if (grabbed && !grabbed.isMoved) keepAt(page, event);
    grabbed = null;
  });
  canvas.addEventListener("pointerleave", () => hideTip(page));
  canvas.addEventListener("wheel", (event) => {
    if (!painter.session) return;
    event.preventDefault();
    const lines = event.deltaMode === 1 ? 16 : 1;
    const sideways = event.shiftKey && event.deltaX === 0 ? event.deltaY : event.deltaX;
    if (Math.abs(sideways) > Math.abs(event.deltaY) || event.shiftKey) {
      return page.move((sideways * lines) / painter.scale);
    }
    const x = event.clientX - canvas.getBoundingClientRect().left;
    page.zoom(Math.exp(-event.deltaY * lines * 0.0022), x);
  }, { passive: false });
}

/** Keeps the burst that was clicked, or zooms in on those of a pill that stands for several. */
function keepAt(page, event) {
  const { painter } = page, box = painter.canvas.getBoundingClientRect();
  const pill = painter.pillAt(event.clientX - box.left, event.clientY - box.top);
  if (pill) {
    const last = pill.notes[pill.notes.length - 1];
    return page.show(pill.notes[0].tick, last.end + 1, pill.lane);
  }
  const lane = painter.laneAt(event.clientY - box.top);
  if (!lane) return;
  const tick = nearest(painter, lane, event.clientX - box.left), line = painter.session.lanes[lane];
  const burst = line.burstBefore(tick);
  if (burst < 0 || tick > line.end(burst)) return;
  page.keep(lane, burst);
  page.trouble = painter.session.troubles
    .findIndex((each) => each.lane === lane && each.burst === burst);
  page.tellTroubles();
  page.paint();
}

/** The overview: a click or a drag there brings these ticks into view. */
function listenToOverview(page) {
  const canvas = byId("overview"), { painter } = page;
  const go = (event) => {
    if (!painter.session || event.buttons === 0) return;
    const box = canvas.getBoundingClientRect();
    const tick = ((event.clientX - box.left) / box.width) * painter.session.span;
    painter.from = tick - painter.width / painter.scale / 2;
    page.paint();
  };
  canvas.addEventListener("pointerdown", (event) => {
    canvas.setPointerCapture(event.pointerId);
    go(event);
  });
  canvas.addEventListener("pointermove", go);
}

/** What each key does outside of the search and the lists of choices. */
function keyActions(page) {
  const { painter } = page;
  const wide = () => painter.width / painter.scale;
  return {
    n: () => page.step(1),
    p: () => page.step(-1),
    "+": () => page.zoom(1.6),
    "=": () => page.zoom(1.6),
    "-": () => page.zoom(1 / 1.6),
    0: () => page.fitAll(),
    ArrowLeft: (event) => page.move(-wide() * (event.shiftKey ? 1 : 0.2)),
    ArrowRight: (event) => page.move(wide() * (event.shiftKey ? 1 : 0.2)),
    Home: () => page.move(-painter.session.ticks),
    End: () => page.move(painter.session.ticks),
    "/": () => byId("search").focus(),
    "?": () => byId("keys").showModal(),
  };
}

function listenToKeys(page) {
  const actions = keyActions(page);
  document.addEventListener("keydown", (event) => {
    if (event.ctrlKey || event.altKey || event.metaKey || byId("keys").open) return;
    if (/^(INPUT|SELECT|TEXTAREA)$/.test(event.target.tagName)) return;
    const action = actions[event.key];
    if (!action || (!page.painter.session && event.key !== "?")) return;
    event.preventDefault();
    byId("tip").hidden = true;
    action(event);
  });
  byId("search").addEventListener("keydown", (event) => {
    if (event.key === "Enter") page.search(event.target.value, event.shiftKey ? -1 : 1);
    if (event.key !== "Escape") return;
    page.search("", 1);
    page.painter.canvas.focus();
  });
}

function listenToButtons(page) {
  const clicks = {
    next: () => page.step(1), previous: () => page.step(-1),
    after: () => page.search(byId("search").value, 1),
    before: () => page.search(byId("search").value, -1),
    in: () => page.zoom(1.6), out: () => page.zoom(1 / 1.6), all: () => page.fitAll(),
    help: () => byId("keys").showModal(),
    open: () => byId("files").click(), choose: () => byId("files").click(),
  };
  for (const [id, click] of Object.entries(clicks)) byId(id).addEventListener("click", click);
  byId("files").addEventListener("change", (event) => page.takeFiles([...event.target.files]));
  byId("session").addEventListener("change", (event) => {
    page.choose(page.sessions[Number(event.target.value)]);
  });
  byId("protocol").addEventListener("change", (event) => {
    page.current.protocol = event.target.value;
    page.build();
    page.fitAll();
  });
  for (const id of ["baud", "bits"]) {
    byId(id).addEventListener("change", () => {
      const rate = { baud: Number(byId("baud").value), bits: Number(byId("bits").value) };
      page.current.rate = rate;
      page.painter.rate = rate;
      page.paint();
    });
  }
  byId("troubles").addEventListener("scroll", () => page.tellTroubles());
}

function listenToFiles(page) {
  const isFiles = (event) => event.dataTransfer && [...event.dataTransfer.types].includes("Files");
  document.addEventListener("dragover", (event) => {
    if (!isFiles(event)) return;
    event.preventDefault();
    byId("dropping").hidden = false;
  });
  document.addEventListener("dragleave", (event) => {
    if (event.relatedTarget === null) byId("dropping").hidden = true;
  });
  document.addEventListener("drop", (event) => {
    byId("dropping").hidden = true;
    if (!isFiles(event)) return;
    event.preventDefault();
    page.takeFiles([...event.dataTransfer.files]);
  });
}

/** Says what went wrong in place of a page that shows nothing. */
function tellFault(why) {
  const reason = why && why.message ? why.message : why;
  byId("messages").append(element("p", "", `This page can't show these texts: ${reason}`));
}

function begin() {
  window.addEventListener("error", (event) => tellFault(event.error || event.message));
  window.addEventListener("unhandledrejection", (event) => tellFault(event.reason));
  const page = new Page();
  listenToMouse(page);
  listenToOverview(page);
  listenToKeys(page);
  listenToButtons(page);
  listenToFiles(page);
  const repaint = () => {
    page.painter.refresh();
    page.paint();
  };
  window.matchMedia("(prefers-color-scheme: dark)").addEventListener("change", repaint);
  new ResizeObserver(() => page.paint()).observe(byId("stage"));
  page.load();
}

begin();
