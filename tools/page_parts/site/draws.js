// Drawn runs, in parts that follow one another along the seed's stream, so that bars grow and a stop keeps what was
// drawn.

import { ask, isStopped, stop, trouble } from "./ask.js";
import { by, el, say } from "./dom.js";
import { notShown } from "./excluded.js";
import { note, setEvents, shrunk } from "./run.js";
import { expanded } from "./schedules.js";
import { known, state } from "./state.js";
import { stops, stopWords } from "./stops.js";
import { many, stores } from "./words.js";

// the first part's runs, how long a part is to take, and how many outcomes are listed
const FIRST = 100, MILLISECONDS = 400, LISTED = 200;

const ASKED = "what the condition asks about", UNFINISHED = "unfinished";

const RANGES = { runs: [1, () => known.limits.runs], length: [0, () => known.limits.events] };

// what was drawn last, with its rows by their values, and the tokens of the first run that didn't finish
let last = null;
let drawing = false;

const number = value => Number(value.slice(value.lastIndexOf("=") + 1));

function ascending({ values: one }, { values: other }) {
  const at = one.findIndex((value, place) => number(value) !== number(other[place]));
  return at < 0 ? 0 : number(one[at]) - number(other[at]);
}

export function forget() {
  last = null;
  drawing = false;
  stop("draw");
  by("drawn").replaceChildren();
  const rows = known.test.harts.flatMap(hart => hart.rows);
  const size = rows.length + rows.filter(stores).length;
  by("length").value = Math.min(known.limits.events, Math.max(20, 10 * size));
}

// a number of the form, or what it may be
function asked(id) {
  const [least, most] = RANGES[id], value = by(id).value.trim();
  if (/^[0-9]{1,9}$/.test(value) && Number(value) >= least && Number(value) <= most()) return Number(value);
  by("drawn").replaceChildren(el("p", { role: "alert" }, `${id}: a number from ${least} to ${most()}`));
  return null;
}

export async function drawRuns() {
  if (drawing) {
    drawing = false;
    stop("draw");
    return;
  }
  const runs = asked("runs"), length = asked("length");
  if (runs === null || length === null) return;
  drawing = true;
  by("go").textContent = "Stop";
  const table = last = { rows: new Map(), done: 0, left: 0, unfinished: 0, first: null, shown: known.test.kind !== "exists", runs, length };
  try {
    await drawParts(table);
    if (isMostlyUnfinished(table)) table.stops = await stops(table.length);
  } catch (error) {
    if (!isStopped(error)) by("drawn").prepend(el("p", { role: "alert" }, error.message));
    trouble();
  } finally {
    if (last === table || !last) finish(table);
  }
}

const isMostlyUnfinished = ({ unfinished, done }) => unfinished > done / 2;

function unfinishedWords({ stops: found, done, runs }) {
  if (found?.length) return `Most runs didn't finish: ${stopWords(found)}`;
  // of what was stopped nothing was looked up
  return done < runs ? "Most runs didn't finish." : "Most runs didn't finish: draw longer ones.";
}

function finish(table) {
  drawing = false;
  by("go").textContent = "Draw";
  if (last !== table || !table.done) return;
  showTable(table);
  say(`${many(table.done, "run")}, ${many(table.rows.size, "outcome")}. ${words(answer(table))}`);
}

async function drawParts(table) {
  const asked = { text: state.text, buffer: state.buffer, draw: state.draw, seed: by("seed").value.trim(), length: table.length };
  let size = FIRST;
  by("drawn").replaceChildren(el("p", { class: "quiet" }, `Drawing ${many(table.runs, "run")} ..`));
  do {
    const begun = performance.now();
    const runs = Math.min(size, table.runs - table.done);
    add(table, await ask("draw", { ...asked, runs, skip: table.done }), runs);
    showTable(table);
    await mark(table, asked);
    if (performance.now() - begun < MILLISECONDS) size *= 2;
  } while (drawing && last === table && table.done < table.runs);
}

function add(table, { rows, left, unfinished, first, shown }, runs) {
  for (const row of rows) {
    const key = row.values.join(" "), before = table.rows.get(key);
    if (before) before.count += row.count;
    else table.rows.set(key, { ...row });
  }
  table.left += left;
  table.unfinished += unfinished;
  table.first ??= first;
  table.shown = known.test.kind === "exists" ? table.shown || shown : table.shown && shown;
  table.done += runs;
}

// which rows are what the condition asks about, as the program's verdict on each says
async function mark(table, { text, buffer }) {
  const wanted = known.test.kind === "exists" ? "Holds" : "Fails";
  for (const row of [...table.rows.values()].sort(ascending).slice(0, LISTED)) {
    if (row.wanted !== undefined) continue;
    row.wanted = (await ask("verdict", { text, buffer, tokens: row.tokens })).verdict === wanted;
    if (row.wanted) showTable(table);
  }
}

const words = parts => parts.filter(part => typeof part === "string").join("").trim();

function answer({ shown }) {
  return { exists: shown ? ["Holds: a drawn run shows it."] : ["No drawn run shows it. ", ...notShown()],
    "~exists": shown ? ["Holds in these runs: none shows it. ", ...notShown()] : ["Fails: a drawn run shows it."],
    forall: shown ? ["Holds in these runs."] : ["Fails: a drawn run breaks it."] }[known.test.kind];
}

function showTable(table) {
  const { rows, done, runs, unfinished, first, left, shown } = table;
  const sorted = [...rows.values()].sort(ascending), listed = sorted.slice(0, LISTED);
  const most = Math.max(unfinished, ...listed.map(row => row.count), 1);
  const key = document.activeElement?.dataset?.key;
  const word = known.test.kind === "exists" && !shown ? "Unfinished" : shown ? "Holds" : "Fails";
  by("drawn").replaceChildren(
    el("p", { class: "quiet" }, done < runs ? `${done} of ${many(runs, "run")}${drawing ? " .." : ", then stopped"}`
      : many(runs, "run")),
    el("table", {}, el("thead", {}, el("tr", {}, ...["outcome", "runs"].map(name => el("th", { scope: "col" }, name)),
      el("td"), el("td"))),
    el("tbody", {}, ...listed.map(row => rowOf(row, most)),
      unfinished || !listed.length ? rowOf({ values: [UNFINISHED], count: unfinished, tokens: first ?? undefined }, most) : null)),
    sorted.length > LISTED ? el("p", { class: "quiet" }, `and ${sorted.length - LISTED} outcomes more`) : "",
    left ? el("p", { class: "quiet" }, `${many(left, "run")} had outcomes that aren't counted here: too many differ.`) : "",
    drawing ? "" : el("p", { class: `word ${word}` }, ...answer(table)),
    isMostlyUnfinished(table) && !drawing ? el("p", { class: "quiet" }, unfinishedWords(table)) : "");
  if (key?.startsWith("row ")) by("drawn").querySelector(`[data-key="${CSS.escape(key)}"]`)?.focus();
}

function rowOf({ values, count, tokens, wanted }, most) {
  const key = values.join(" ");
  const bar = el("svg", { viewBox: "0 0 64 10", "aria-hidden": "true" },
    el("rect", { x: 0, y: 1, height: 8, rx: 1, width: Math.max(count ? 1 : 0, 64 * count / most) }));
  const isFinished = key !== UNFINISHED;
  return el("tr", { class: !isFinished ? "quiet" : wanted ? "wanted" : null },
    el("td", { class: "values", title: wanted ? ASKED : null },
      wanted ? el("span", { class: "unseen" }, `${ASKED}: `) : "", ...values.flatMap(value => [el("span", {}, value), " "])),
    el("td", { class: "count" }, String(count)), el("td", {}, bar),
    el("td", {}, tokens === undefined ? "" : el("button", { "data-key": `row ${key}`, "aria-label": `Step through ${key}`,
      title: isFinished ? `Shrink the schedule of this outcome and step through it: ${tokens}`
        : `Step through the first run that didn't finish, to see where each hart stands: ${tokens}` }, "Step")));
}

// the drawn run of a row: shrunk if it is finished
export async function stepRow(key) {
  if (key === UNFINISHED) {
    note(`The first of ${many(last.unfinished, "run")} that didn't finish: where each hart stands after its ${many(last.length, "event")}.`);
    await setEvents(expanded(last.first));
    return;
  }
  const { tokens, values } = last.rows.get(key);
  const events = expanded(await shrunk(tokens));
  note(`${values.join(" ")}: ${events.length} of the drawn run's ${expanded(tokens).length} events are needed.`);
  await setEvents(events);
}
