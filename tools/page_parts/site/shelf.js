// What the shelf has of the text in the editor: its place in the list, its witnesses, what a source excludes.

import { by, el, reveal } from "./dom.js";
import { showExcluded } from "./excluded.js";
import { note, setEvents } from "./run.js";
import { expanded } from "./schedules.js";
import { known, state } from "./state.js";

export function listShelf() {
  const families = new Map();
  for (const test of known.tests) families.set(test.family, [...families.get(test.family) ?? [], test]);
  by("shelf").replaceChildren(el("option", { value: "" }, "own text"), ...[...families].map(([family, tests]) =>
    el("optgroup", { label: family.replaceAll("-", " ") },
      ...tests.map(one => el("option", { value: one.name, title: one.question }, one.title)))));
}

export const onShelf = text => known.tests.find(one => one.text === text);

export function showShelf() {
  const found = onShelf(state.text);
  by("shelf").value = found?.name ?? "";
  by("witnesses").replaceChildren();
  showExcluded(found?.excluded ?? "");
}

// the outcomes that the shelf has a schedule of, each by the values of the condition's observed locations
export function showWitnesses() {
  const witnesses = onShelf(state.text)?.witnesses ?? [], names = known.test.lefts.map(left => left.name);
  if (!witnesses.length) return;
  const values = outcome => outcome.split("-").map((value, at) => `${names[at]} = ${value}`).join(", ");
  const head = el("span", { class: "quiet" }, "witnesses of ", el("span", { class: "mono" }, names.join("-")));
  by("witnesses").replaceChildren(head,
    ...witnesses.map(([outcome, schedule]) => el("button", { "data-schedule": schedule,
      title: `Load the shelf's shortest schedule that ends with ${values(outcome)}: ${schedule}` }, outcome)));
}

export async function loadWitness(button) {
  note(`The shelf's shortest schedule of ${button.textContent}.`);
  await setEvents(expanded(button.dataset.schedule));
  reveal(by("run"));
}
