// Refusals of the program, in the words of docs/errors.md: what tools/page_parts/faults.py does on a server.

import { section } from "./known.js";

const SHAPE = /^ztso: (?:refused (\d+)|(.*?))(?: at (line|byte|event) (\d+))?$/;

// an input that is refused: `said` is what the page shows of it
export class Fault extends Error {
  constructor(name, words, { line = "", number = null, place = {} } = {}) {
    super(name);
    this.said = { name, words, line, number, place };
  }
}

// a command that wasn't run to its end, in words for who asked
export class Failed extends Error {}

// the refusal that the program's line on standard error names
export function ofLine(text) {
  const line = text.trim(), [, number, other, kind, place] = SHAPE.exec(line) ?? [];
  const [name, words] = section(number ?? other) ?? [other ?? line, []];
  return new Fault(name, words, { line, number: number ? Number(number) : null, place: kind ? { [kind]: Number(place) } : {} });
}

// why a hart stopped
export function ofStop(number) {
  const [name, words] = section(number) ?? ["", [""]];
  return { name, words };
}
