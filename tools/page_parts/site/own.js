// One's own texts, which are those that the shelf doesn't have. Another text takes the place of the one in the editor,
// which is kept with its run: a button below the editor brings it back.

import { by, el } from "./dom.js";
import { forgetRefused, take } from "./editor.js";
import { note } from "./run.js";
import { onShelf, showShelf } from "./shelf.js";
import { known, state } from "./state.js";

// as many texts are kept, the newest first
const KEPT = 9, NAME = 24;

function keepText() {
  // what was typed just now isn't taken yet
  const text = by("text").value, { events, place } = state;
  if (text.trim() && !onShelf(text)) state.kept = [{ text, events, place }, ...without(text)].slice(0, KEPT);
}

const without = text => state.kept.filter(one => one.text !== text);

// `run` has the events and the place, and `words` are noted of the text
export async function replace(text, run, words = "") {
  if (by("text").value !== text) keepText();
  state.kept = without(text);
  note(words);
  showKept();
  await take(text, run);
}

export function showKept() {
  const buttons = state.kept.map((one, at) => {
    const name = one.text.trim().split("\n")[0].replace(/^RISCV\s+/, "").slice(0, NAME);
    const button = el("button", { title: `Bring back the text that was here: ${name}` }, name);
    button.addEventListener("click", () => bringBack(at));
    return button;
  });
  by("kept").replaceChildren(...buttons.length ? [el("span", {}, "kept, with its run: "), ...buttons] : []);
}

async function bringBack(at) {
  const { text, events, place } = state.kept[at];
  forgetRefused();
  await replace(text, { events, place });
  // the button that had the focus is gone
  by("machine").focus({ preventScroll: true });
}

// a test of the list, whose first row is one's own text: the one that is there, or the one that was there last
export function choose(name) {
  const found = known.tests.find(one => one.name === name);
  forgetRefused();
  if (found) return replace(found.text, { events: [] });
  if (state.kept.length && onShelf(by("text").value)) return bringBack(0);
  showShelf();
  by("text").focus();
  return null;
}
