// The schedule's events, equal ones as one: `a1*250`. Those after the place are to come.

import { by, el } from "./dom.js";
import { groups, token } from "./schedules.js";
import { known, state } from "./state.js";
import { entriesOf, idle } from "./words.js";

// of a long schedule the part round the place is shown
const BEFORE = 60, AFTER = 40;
// of equal events as many are said one by one
const SAID = 8;

// the runs of equal events, cut at the place
function pieces() {
  const done = groups(state.events.slice(0, state.place));
  const later = groups(state.events.slice(state.place)).map(one => ({ ...one, from: one.from + state.place }));
  return [done, later];
}

export function showStrip() {
  const [done, later] = pieces(), entries = entriesOf(known.view.outcomes);
  const hidden = Math.max(0, done.length - BEFORE);
  by("strip").replaceChildren(...[
    rest(done.slice(0, hidden)),
    ...done.slice(hidden).map((one, at, all) => item(one, at === all.length - 1 ? "now" : null, entries)),
    ...later.slice(0, AFTER).map(one => item(one, "later", entries)),
    rest(later.slice(AFTER))].filter(one => one));
  const now = by("strip").querySelector(".now");
  if (now) by("strip").scrollTop = now.offsetTop - by("strip").offsetTop - 30;
}

function rest(groups) {
  const count = groups.reduce((sum, one) => sum + one.count, 0);
  return count ? el("li", { class: "quiet" }, `.. ${count} more ..`) : null;
}

function item({ event, from, count }, kind, entries) {
  const end = from + count, outcomes = known.view.outcomes.slice(from, end);
  const isIdle = outcomes.length === count && outcomes.every(idle);
  const places = count > 1 ? `${from + 1} to ${end}` : `${end}`;
  const did = entries.slice(from, end), more = did.length - SAID;
  const words = did.length ? `${places}: ${did.slice(0, SAID).join("; ")}${more > 0 ? `; and ${more} more` : ""}` : `${places}, to come`;
  return el("li", { class: [kind, isIdle ? "idle" : null].filter(one => one).join(" ") },
    el("button", { "data-key": `to ${end}`, title: words, "aria-label": `${token(event, count)}, ${words}`,
      "aria-current": kind === "now" ? "step" : null }, token(event, count)));
}
