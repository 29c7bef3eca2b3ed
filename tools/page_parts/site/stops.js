// Which harts stop. The program's commands count runs that are finished, and none is where a hart stopped.

import { ask } from "./ask.js";
import { known, state } from "./state.js";

// the harts that stop where all take turns for `length` events, each with the number of its stop
export async function stops(length) {
  const turns = known.test.harts.flatMap((_, hart) => [`a${hart}`, `l${hart}`]);
  const tokens = Array.from({ length }, (_, at) => turns[at % turns.length]).join(" ");
  const { harts } = await ask("view", { text: state.text, buffer: state.buffer, tokens }, "stops");
  return harts.flatMap(({ stop, stopped }, hart) => stopped ? [`P${hart} stops by ${stop} ${stopped.name}`] : []);
}

// as words, or none where no hart stops
export const stopWords = found => found.length ? `${found.join(", ")}. A hart that stopped doesn't end.` : "";
