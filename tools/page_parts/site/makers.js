// Schedules that a command of the program makes of the test: `find` the shortest of what the condition asks about,
// `threads` what threads of the system did. A second press stops it.

import { ask, isAsked, stop } from "./ask.js";
import { by, el, reveal } from "./dom.js";
import { notShown } from "./excluded.js";
import { note, setEvents } from "./run.js";
import { expanded } from "./schedules.js";
import { known, state } from "./state.js";
import { stops, stopWords } from "./stops.js";
import { many } from "./words.js";

// a command's answer, while its button says for how long it has run
async function answered(route) {
  const name = by(route).textContent, begun = performance.now();
  const seconds = el("span", { "aria-hidden": "true" });
  by(route).replaceChildren("Stop", seconds);
  const ticks = setInterval(() => {
    seconds.textContent = ` (${Math.floor((performance.now() - begun) / 1000)} s)`;
  }, 1000);
  try {
    return await ask(route, { text: state.text, buffer: state.buffer });
  } finally {
    clearInterval(ticks);
    by(route).textContent = name;
  }
}

async function made(route, told) {
  if (isAsked(route)) {
    stop(route);
    return;
  }
  const answer = await answered(route);
  note(...await told(answer));
  if (answer.tokens !== undefined) await setEvents(expanded(answer.tokens));
  reveal(by("run"));
}

// what was found, or what is known without it: of this machine, with this buffer
async function found({ states, cut }) {
  if (states === undefined) return ["A schedule of what the condition asks about; the search finds none with fewer events."];
  const stop = stopWords(await stops(known.limits.events)), seen = many(states, "state");
  return [cut ? `Cut at ${seen}: there may be more. `
    : `Not found in ${seen}, which are all that the search reaches with a buffer of ${state.buffer}. `,
  stop && `${stop} `, ...notShown()];
}

export const find = () => made("find", found);

export const threads = () => made("threads", () =>
  ["What threads of this machine did just now. Another time they do something else."]);
