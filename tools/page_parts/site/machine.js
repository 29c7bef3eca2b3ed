// The condition with its verdict, the harts' cards and memory.

import { by, el, say } from "./dom.js";
import { numberPlaces } from "./gutter.js";
import { hartCards } from "./harts.js";
import { known } from "./state.js";
import { entriesOf, locationAt, many, nameOf } from "./words.js";

// as many events are said one by one
const SAID = 8;
const PARTS = ["machine", "run", "draw", "witnesses"];

// what is shown of a text that has no machine yet can't be used
export function shut() {
  for (const id of PARTS) by(id).inert = true;
}

export function showMachine() {
  const { view, before } = known;
  const key = document.activeElement?.dataset?.key;
  // what one event changed is marked, what a jump changed isn't
  const last = before && Math.abs(view.outcomes.length - before.outcomes.length) === 1 ? before : null;
  showVerdict();
  const scrolled = [...document.querySelectorAll(".code")].map(code => code.scrollTop);
  by("harts").replaceChildren(...hartCards(last));
  document.querySelectorAll(".code").forEach((code, at) => showLine(code, scrolled[at] ?? 0));
  by("memory").replaceChildren(el("span", { class: "quiet" }, "memory"), ...memory(last));
  numberPlaces();
  for (const id of PARTS) by(id).inert = false;
  if (before) sayMove(view, view.outcomes.length - before.outcomes.length);
  known.before = view;
  if (key) refocus(key);
}

// what the events did that are new, or where the run is after it went back
function sayMove({ outcomes, verdict }, more) {
  const entries = entriesOf(outcomes), end = verdict === "Unfinished" ? "" : `. The run is finished: ${values().join(", ")}. ${verdict}`;
  if (more > SAID) say(`${many(more, "event")}, the last: ${entries.at(-1)}${end}`);
  else if (more > 0) say(entries.slice(-more).join("; ") + end);
  else if (more < 0) say(entries.length ? `Back to event ${entries.length}: ${entries.at(-1)}` : "Back to the start");
}

// long code is scrolled to its current line
function showLine(code, scrolled) {
  const current = code.querySelector("[aria-current]");
  code.scrollTop = scrolled;
  if (!current) return;
  const top = current.offsetTop - code.offsetTop;
  if (top < code.scrollTop || top + current.offsetHeight > code.scrollTop + code.clientHeight) {
    code.scrollTop = top - code.clientHeight / 3;
  }
}

// the focus stays on the button that was pressed, or goes to one that can be
function refocus(key) {
  const same = document.querySelector(`[data-key="${CSS.escape(key)}"]`);
  const target = same && same.getAttribute("aria-disabled") !== "true" ? same
    : document.querySelector("#harts .event:not([aria-disabled=true])") ?? by("back");
  target.focus({ preventScroll: true });
}

export function values() {
  const { test, view } = known;
  return test.lefts.map(({ name, place }) => {
    const value = place[0] === "register" ? view.harts[place[1]].registers[place[2]] : view.words[place[1]];
    return `${name} = ${value ?? 0}`;
  });
}

function showVerdict() {
  const missing = known.view.harts.flatMap((hart, number) => [
    ...hart.status === "running" ? [`P${number} runs`] : hart.status === "stopped" ? [`P${number} stopped`] : [],
    ...hart.pending.length ? [`P${number} has ${many(hart.pending.length, "store")} pending`] : []]);
  by("verdict").replaceChildren(
    el("code", {}, known.test.condition),
    el("span", { class: `word ${known.view.verdict}` }, known.view.verdict),
    ...values().map(value => el("span", { class: "quiet mono" }, value)),
    el("span", { class: "quiet" }, missing.length > 4 ? `${missing.slice(0, 3).join(", ")} ..` : missing.join(", ")));
}

function memory(before) {
  const addresses = new Set([...known.test.locations.map(one => one.address), ...Object.keys(known.view.words).map(Number)]);
  return [...addresses].sort((one, other) => one - other).map(address => {
    const value = known.view.words[address] ?? 0;
    const isChanged = before && (before.words[address] ?? 0) !== value;
    return el("span", { class: `cell${isChanged ? " changed" : ""}`,
      title: `${locationAt(address)?.name ?? ""} byte address ${address}` },
    el("i", {}, `${nameOf(address)} `), String(value));
  });
}
