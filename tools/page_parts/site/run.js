// The run: events are done, and the place goes back and forth along the schedule.

import { ask, isStopped, stopAll } from "./ask.js";
import { showChart } from "./chart.js";
import { allow, by, el } from "./dom.js";
import { showMachine, shut } from "./machine.js";
import { about } from "./schedules.js";
import { keep, known, state } from "./state.js";
import { showStrip } from "./strip.js";
import { sayWhy, whyIdle } from "./why.js";
import { idle, many } from "./words.js";

// as many clicks wait at most while the program answers
const WAITING = 20;

let busy = false;
let later = [];
// the rest of a schedule that another event took the place of
let dropped = null;

export function note(...words) {
  dropped = null;
  by("note").replaceChildren(...words);
}

// what was noted of another place or text; the offer to bring events back stays
export function clearNote() {
  if (!dropped) note();
}

// nothing can be done until the machine of another text comes
export function close() {
  stopAll();
  shut();
  later = [];
}

// an event, where the machine can do it; an act may go on to the hart's next access of memory
export async function happen(event, goesOn) {
  if (busy) {
    if (later.length < WAITING) later.push([event, goesOn]);
    return;
  }
  const hart = known.view.harts[Number(event.slice(1))];
  if (!hart || idle(event[0] === "a" ? hart.act : hart.land)) {
    sayWhy(whyIdle(event));
    return;
  }
  if (state.place >= known.limits.events) {
    note(`The page steps through at most ${known.limits.events} events.`);
    return;
  }
  const count = goesOn && event[0] === "a" ? await onward(Number(event.slice(1))) : 1;
  if (count) await put(Array(count).fill(event));
}

async function onward(hart) {
  busy = true;
  try {
    return (await ask("onward", { ...about(state.events.slice(0, state.place)), hart })).count;
  } catch (error) {
    if (error.fault) note(error.message);
    return 0;
  } finally {
    busy = false;
  }
}

// the schedule goes on by these events: they are its next ones, or take the place of what follows
function put(events) {
  const { place } = state, end = place + events.length;
  if (events.every((event, at) => state.events[place + at] === event)) return go(end);
  const rest = state.events.length - place;
  if (rest || !dropped) note();
  if (rest) dropped = { events: state.events, place, rest, of: "the schedule that followed" };
  state.events = [...state.events.slice(0, place), ...events];
  state.place = end;
  return move();
}

// another test begins without the schedule of the one before it
export function startAnew() {
  const { events, place } = state;
  if (!events.length) return;
  dropped = { events, place, rest: events.length, of: "the other test's schedule" };
  Object.assign(state, { events: [], place: 0 });
}

export function go(place) {
  clearNote();
  state.place = Math.max(0, Math.min(place, state.events.length));
  return move();
}

// another schedule of this test, with its run's end shown
export function setEvents(events) {
  Object.assign(state, { events, place: events.length });
  known.before = null;
  return move();
}

export async function move() {
  keep();
  busy = true;
  try {
    known.view = await ask("view", about(state.events.slice(0, state.place)));
    busy = false;
    showMachine();
    showStrip();
    showTravel();
    if (later.length) await happen(...later.shift());
    else await showChart();
  } catch (error) {
    if (isStopped(error)) return;
    busy = false;
    later = [];
    if (!error.fault) throw error;
    note(error.message);
  }
}

function showTravel() {
  const count = state.events.length, isAtEnd = state.place === count;
  for (const id of ["to-start", "back"]) allow(id, state.place > 0);
  for (const id of ["forward", "to-end", "to-break"]) allow(id, !isAtEnd);
  allow("shrink", isAtEnd && count > 0 && known.view.verdict !== "Unfinished");
  for (const id of ["copy", "save-schedule", "save-picture", "save-image"]) allow(id, count > 0);
  by("to-break").hidden = !state.breaks.length;
  by("place").textContent = count ? `${state.place} of ${many(count, "event")}` : "no event yet";
  if (dropped) showDropped();
}

function showDropped() {
  const { events, place, rest, of } = dropped;
  const back = el("button", {}, "Bring them back");
  back.addEventListener("click", () => {
    Object.assign(state, { events, place });
    note();
    move();
  });
  by("note").replaceChildren(`${many(rest, "event")} of ${of} ${rest > 1 ? "were" : "was"} left out. `, back);
}

export function toggleBreak(hart, pc) {
  const at = state.breaks.findIndex(one => one[0] === hart && one[1] === pc);
  if (at < 0) state.breaks.push([hart, pc]);
  else state.breaks.splice(at, 1);
  keep();
  known.before = null;
  showMachine();
  showTravel();
}

export async function toBreak() {
  const { place } = await ask("seek", { ...about(), place: state.place, breaks: state.breaks });
  await go(place);
}

// the events of a schedule that the outcome needs
export async function shrunk(tokens) {
  return (await ask("shrink", { text: state.text, buffer: state.buffer, tokens })).tokens;
}
