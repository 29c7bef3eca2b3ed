// Questions to the program. A later question of a kind takes the place of an earlier one.

import { by } from "./dom.js";
import { WORDS, answered } from "./source.js";

export class Refused extends Error {
  constructor(fault) {
    super(fault.words.join(" ") || fault.line);
    this.fault = fault;
  }
}

const asking = {};
let open = 0;

export function waiting(more) {
  open += more;
  document.querySelector("main").setAttribute("aria-busy", String(open > 0));
}

// the kind is the route, unless another question of the route isn't to be stopped
export async function ask(route, body, kind = route) {
  stop(kind);
  const control = asking[kind] = new AbortController();
  let answer;
  waiting(1);
  try {
    answer = await answered(route, body, control.signal);
  } catch (error) {
    if (error.name === "AbortError") throw error;
    answer = { error: WORDS.gone };
  } finally {
    if (asking[kind] === control) delete asking[kind];
    waiting(-1);
  }
  trouble(answer.error);
  if (answer.error) throw new Error(answer.error);
  if (answer.fault) throw new Refused(answer.fault);
  return answer;
}

export function stop(kind) {
  asking[kind]?.abort();
}

export const isAsked = kind => kind in asking;

export function stopAll() {
  Object.keys(asking).forEach(stop);
}

export const isStopped = error => error.name === "AbortError";

// a link that isn't whole, until something else is done
export function damaged(words) {
  by("damaged").hidden = !words;
  by("damaged").textContent = words ?? "";
}

export function trouble(words) {
  by("trouble").hidden = !words;
  by("trouble").textContent = words ?? "";
}
