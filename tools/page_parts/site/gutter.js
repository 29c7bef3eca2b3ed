// The numbers of the text's lines: the faulty one is marked, or those where a hart is.

import { by, el } from "./dom.js";
import { known, state } from "./state.js";
import { rowAt } from "./words.js";

export const LINE = 18;

const NUMBERED = 5000;

function show(marks) {
  const count = Math.min(state.text.split("\n").length, NUMBERED);
  by("numbers").replaceChildren(...Array.from({ length: count }, (_, at) => {
    const mark = marks.get(at + 1);
    return mark ? el("b", { class: mark }, String(at + 1)) : `${at + 1}\n`;
  }));
  scrollNumbers();
}

export function scrollNumbers() {
  by("numbers").scrollTop = by("text").scrollTop;
}

export const number = wrong => show(new Map(wrong ? [[wrong, "wrong"]] : []));

// the lines of the instructions that the harts are at
export function numberPlaces() {
  show(new Map(known.view.harts.flatMap(({ status, pc }, hart) => {
    const row = status === "running" ? rowAt(hart, pc) : null;
    return row ? [[row.line, "here"]] : [];
  })));
}
