// A card for each hart: its code, registers and store buffer. An event that it can do is a button on what does it.

import { el, prose } from "./dom.js";
import { notesOf } from "./notes.js";
import { known, state } from "./state.js";
import { idle, labelsAt, locationAt, nameOf, reason, rowAt, said, short, told } from "./words.js";

// as many free places of a buffer are drawn at most
const DRAWN = 4;

export function hartCards(before) {
  return known.view.harts.map((hart, number) => card(hart, number, before?.harts[number]));
}

function card(hart, number, before) {
  const waits = hart.act.startsWith("waited");
  const current = hart.status === "running" ? rowAt(number, hart.pc) : null;
  const status = { running: `runs, pc ${hart.pc}`, ended: "ended", stopped: `stopped at pc ${hart.pc}` }[hart.status];
  return el("article", { class: "hart", "aria-label": `hart ${number}, ${status}` },
    el("h3", {}, el("b", {}, `P${number}`), el("span", {}, status)),
    code(hart, number, current),
    hart.status === "running" && !current
      ? button("a", number, hart.act, [`no instruction at pc ${hart.pc}`], `P${number} acts at pc ${hart.pc}`) : null,
    waits ? el("p", { class: "why" }, `Waits: ${reason(hart, number)}.`) : null,
    hart.stopped ? el("p", { class: "why" }, `${hart.stopped.name}: `, ...prose(hart.stopped.words[0])) : null,
    el("div", { class: "registers", role: "group", "aria-label": `registers of P${number}` },
      ...registers(hart, number, before)),
    buffer(hart, number));
}

function code(hart, number, current) {
  const { rows } = known.test.harts[number], end = 4 * rows.length, notes = notesOf(state.text, number, rows);
  return el("ol", { class: "code" },
    ...rows.flatMap((row, at) => [...labels(number, row.pc), ...noted(notes[at]), line(row, hart, number, row === current)]),
    ...labels(number, end));
}

const noted = note => note ? [el("li", { class: "note" }, el("span", { class: "cell", title: note }, note))] : [];

const labels = (number, pc) =>
  labelsAt(number, pc).map(name => el("li", { class: "label" }, el("span", {}, `${short(name)}:`)));

function line(row, hart, number, isCurrent) {
  const label = labelsAt(number, row.target)[0], target = label === undefined ? "" : ` → ${short(label)}`;
  const words = hart.act.startsWith("waited") ? `P${number} waits: ${reason(hart, number)}`
    : `P${number} executes ${row.text}${target}: ${told(hart.act)}`;
  const code = [row.text, target && el("i", {}, target)];
  const from = `line ${row.line} of the text, word ${row.word}`;
  return el("li", { "aria-current": isCurrent ? "step" : null, title: from }, breakpoint(number, row.pc), isCurrent
    ? button("a", number, hart.act,
      [el("span", { class: "what" }, ...code), el("span", { class: "does" }, said(hart.act))], words)
    : el("span", {}, ...code));
}

function button(way, hart, outcome, what, name) {
  const key = way + hart, isIdle = idle(outcome);
  return el("button", { class: `event${state.events[state.place] === key ? " next" : ""}`, "data-key": key,
    "aria-disabled": isIdle ? "true" : null, "aria-label": name, title: name }, ...what);
}

function breakpoint(hart, pc) {
  const isSet = state.breaks.some(([of, at]) => of === hart && at === pc);
  const words = `${isSet ? "Clear the" : "Set a"} breakpoint of P${hart} at pc ${pc}`;
  return el("button", { class: "pc", "aria-pressed": String(isSet), "aria-label": words, title: words,
    "data-key": `break ${hart} ${pc}` }, String(pc));
}

// those that aren't 0, that open as an address, or that the condition asks about
function registers(hart, number, before) {
  const pointers = known.test.harts[number].pointers;
  const asked = known.test.lefts.filter(({ place }) => place[0] === "register" && place[1] === number)
    .map(({ place }) => place[2]);
  const shown = new Set([...Object.keys(hart.registers), ...Object.keys(pointers)].map(Number).concat(asked));
  return [...shown].sort((one, other) => one - other).map(register => {
    const value = hart.registers[register] ?? 0, pointer = pointers[register];
    const isChanged = before && (before.registers[register] ?? 0) !== value;
    const points = pointer && locationAt(value)?.name === pointer;
    return el("span", { class: `cell${isChanged ? " changed" : ""}` }, `x${register} = ${points ? "" : value}`,
      points ? el("i", { title: `the address ${value}` }, `&${short(pointer)}`) : "");
  });
}

function buffer(hart, number) {
  const places = hart.pending.map((store, place) => {
    const words = `${nameOf(store.address, store.bytes)} := ${store.value}`;
    return place ? el("li", { class: "waits", title: `${words} lands after the stores before it` }, words)
      : el("li", { class: "oldest" }, button("l", number, hart.land,
        [el("span", { class: "what" }, words), el("span", { class: "does" }, "land ↓")],
        `P${number} lands its oldest store: ${words}`));
  });
  const free = Math.min(state.buffer - places.length, Math.max(1, DRAWN - places.length));
  for (let count = 0; count < free; count += 1) places.push(el("li", { class: "free", "aria-hidden": "true" }));
  const rule = places.length > 1 && hart.pending.length > 1 ? "; only the oldest can land" : "";
  return el("div", { class: "buffer" },
    el("div", {}, `store buffer, oldest first: ${hart.pending.length} of ${state.buffer}${rule}`),
    el("ol", { class: "queue", "aria-label": `store buffer of P${number}` }, ...places));
}
