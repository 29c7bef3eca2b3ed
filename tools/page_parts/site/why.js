// Why a key or a button does nothing now. It is said where it is seen wherever the page is scrolled to.

import { by } from "./dom.js";
import { known, state } from "./state.js";
import { reason } from "./words.js";

const SHOWN = 5000;

let hiding = 0;

export function sayWhy(words) {
  by("why").textContent = words;
  by("why").hidden = !words;
  clearTimeout(hiding);
  hiding = setTimeout(() => { by("why").hidden = true; }, SHOWN);
}

const atStart = () => "The run is at its start.";

const atEnd = () => state.events.length ? "The run is at the schedule's end." : "There is no event yet.";

function unshrinkable() {
  if (!state.events.length || state.place === state.events.length && known.view.verdict !== "Unfinished") return atEnd();
  return state.place < state.events.length ? "What is shrunk is a whole schedule: go to its end first."
    : "What is shrunk is a finished run: each hart has ended, and no store is pending.";
}

const REASONS = { "to-start": atStart, back: atStart, forward: atEnd, "to-end": atEnd, shrink: unshrinkable,
  copy: atEnd, "save-schedule": atEnd, "save-picture": atEnd, "save-image": atEnd,
  "to-break": () => state.breaks.length ? atEnd() : "There is no breakpoint: a click on a pc sets one.",
  find: () => "This program has no search." };

export const whyNot = id => REASONS[id]?.() ?? "";

// why nothing can be done with a part of the page, or nothing where it only waits for an answer
export const whyInert = () => by("fault").firstChild ? "The text has a fault, so it has no machine." : "";

// why an event does nothing
export function whyIdle(event) {
  const number = Number(event.slice(1)), hart = known.view.harts[number];
  if (!hart) return `This test has no P${number}.`;
  const [kind] = (event[0] === "a" ? hart.act : hart.land).split(" ");
  return { waited: `P${number} waits: ${reason(hart, number)}.`, nothing: `P${number} has no store to land.` }[kind]
    ?? `P${number} ${hart.status === "stopped" ? "stopped" : "has ended"} and does nothing more.`;
}
