// The page's questions, each answered by commands of the program: what tools/page_parts/answers.py does on a server.
// What the program printed is taken apart here, and put into words by the page. tests/page-server holds both together.

import { Failed, Fault, ofLine, ofStop } from "./faults.js";
import { limits } from "./known.js";
import { cells, codes, linesOf, listed, parted, trimmed } from "./listing.js";
import { counted, HEAD } from "./schedules.js";

// the assembler's own refusals of a cell: its name, its operands, its numbers; and those of labels, which are of a hart's code
const OF_CELLS = [2, 3, 4], OF_LABELS = [5, 6];
// what `find` says where it has no schedule
const NOT_FOUND = /^ztso: (all|cut at) ([0-9]+) states(?: seen, none shows it)?$/;

// what a command printed on the test that is asked about, and its status
function printed(ztso, command, asked, options = [], { schedule, typed = "" } = {}) {
  const buffer = "buffer" in asked ? ["--buffer", String(asked.buffer)] : [];
  const files = { "test.litmus": asked.text, ...schedule === undefined ? {} : { "events.schedule": schedule } };
  const { status, out, err } = ztso([command, ...options, ...buffer], files, typed);
  if (err || status > 1) throw ofLine(err || `status ${status}`);
  return { out, status };
}

// what a command printed on the run that is asked about
function printedOfRun(ztso, command, asked, options = [], typed = "") {
  if (counted(asked.tokens) > limits.events) throw tooLong();
  return printed(ztso, command, asked, options, { schedule: `${HEAD}${asked.tokens}\n`, typed }).out;
}

const tooLong = events => new Fault("TooLong", [`The page steps through at most ${limits.events} events${
  events ? `, and this schedule has ${events}` : ""}.`]);

// the tokens of a schedule's text as the program writes it
const tokensOf = schedule => trimmed(parted(schedule, "\n")[1] ?? "");

// each event of a record with its outcome; equal ones that follow one another are a line of it
const moved = text => linesOf(text).slice(1).flatMap(line => {
  const [token, outcome = ""] = parted(line, " "), [event, count] = token.split("*");
  return Array.from({ length: Number(count ?? 1) }, () => [event, outcome]);
});

// what a test is, or the fault of its text
function test(ztso, asked) {
  try {
    return listed(printed(ztso, "show", asked).out, asked.text);
  } catch (fault) {
    if (fault.said?.name === "BadInstr") fault.said.cell = faultyCell(ztso, asked.text, fault.said.place.line);
    throw fault;
  }
}

// the first cell of a row that the assembler refuses, for its own sake or for its label in the hart's code, and what it says
function faultyCell(ztso, text, line) {
  const row = cells(text, line), { code, at } = codes(text, line, row.length);
  for (const [numbers, texts, place] of [[OF_CELLS, row], [OF_LABELS, code, at]]) {
    for (const [hart, one] of texts.entries()) {
      const { err } = ztso(["asm"], {}, one), said = err ? ofLine(err).said : {};
      if (numbers.includes(said.number) && (place === undefined || place === said.place.line)) {
        return { hart, text: trimmed(row[hart]), words: said.words.slice(0, 1) };
      }
    }
  }
  return null;
}

// the state after these events, what each of them did, and what each hart's next event would do
function view(ztso, asked) {
  const { harts, words, verdict: said } = stateOf(printedOfRun(ztso, "run", asked));
  // an empty line is answered by `?`, so it ends each answer
  const typed = `g\n\n${harts.map((_, hart) => `p ${hart}\n\na ${hart}\nu 1\n\nl ${hart}\nu 1\n\n`).join("")}`;
  const out = printedOfRun(ztso, "debug", asked, [], typed);
  const [outcomes, ...rest] = out.replace(/\?\n$/, "").split("?\n").map(linesOf);
  harts.forEach((hart, number) => {
    const [pending, act, land] = rest.slice(3 * number);
    Object.assign(hart, { pending: pending.map(storeOf), act: act[0], land: land[0] });
    if (hart.stop !== null) hart.stopped = ofStop(hart.stop);
  });
  return { harts, words, outcomes: outcomes.slice(0, -1), verdict: said };
}

// the harts, the words and the verdict that `run` printed
function stateOf(text) {
  const harts = [], words = {}, lines = linesOf(text), said = lines.pop();
  for (const line of lines) {
    const [name, number, ...rest] = line.replace(" = ", " ").split(" ");
    if (name === "hart") {
      const stop = rest[0] === "stopped" ? Number(rest.splice(1, 1)[0]) : null;
      harts.push({ status: rest[0], stop, pc: Number(rest[2]), registers: {} });
    } else if (name === "word") {
      words[Number(number)] = Number(rest[0]);
    } else {
      harts.at(-1).registers[Number(name.slice(1))] = Number(number);
    }
  }
  return { harts, words, verdict: said };
}

// a pending store, as `p H` prints it
function storeOf(line) {
  const [address, value, bytes = 4] = line.split(" ").map(Number);
  return { address, value, bytes };
}

// the picture of a run, and each event's outcome: an event that did nothing has no row
function chart(ztso, asked) {
  const outcomes = moved(printedOfRun(ztso, "move", asked)).map(([, outcome]) => outcome);
  const options = asked.rows === "memory" ? ["--svg", "--memory"] : ["--svg"];
  return { svg: printedOfRun(ztso, "chart", asked, options), outcomes };
}

// a schedule with the same outcome, from which no event can be left out
const shrink = (ztso, asked) => ({ tokens: tokensOf(printedOfRun(ztso, "shrink", asked)) });

const verdict = (ztso, asked) => ({ verdict: linesOf(printedOfRun(ztso, "run", asked)).at(-1) });

// how many acts of a hart go on to its next access of memory: one, and the ones after it that touch none
function onward(ztso, asked) {
  const out = printedOfRun(ztso, "debug", asked, [], `g\n\n${`a ${asked.hart}\n`.repeat(limits.onward)}`);
  const after = linesOf(parted(out, "?\n")[1]).slice(1);
  const inner = after.findIndex(line => !line.startsWith("inner "));
  return { count: Math.min(1 + (inner < 0 ? after.length : inner), limits.events - counted(asked.tokens)) };
}

// how many events are done where a breakpoint stops the schedule, from a place on, or all of them
function seek(ztso, asked) {
  const breaks = asked.breaks.slice(0, limits.breaks).map(([hart, pc]) => `b ${hart} ${pc}\n`).join("");
  const out = printedOfRun(ztso, "debug", asked, [], `${"s\n".repeat(asked.place)}${breaks}g\nt\n`);
  return { place: Number(linesOf(out).at(-1)) };
}

// the events of a schedule's text of either version, checked by the program
function read(ztso, asked) {
  const events = moved(printed(ztso, "move", asked, [], { schedule: asked.schedule }).out).map(([event]) => event);
  if (events.length > limits.events) throw tooLong(events.length);
  return { events };
}

// the outcomes of a part of a seed's runs. `left` runs had outcomes that aren't listed; `first` has the tokens of the first
// run that didn't finish, or nothing
function draw(ztso, asked) {
  if (!/^[0-9]{1,20}$/.test(asked.seed) || BigInt(asked.seed) >> 64n) {
    throw new Fault("BadSeed", ["A seed is a number from 0 to 18446744073709551615."]);
  }
  const { out, status } = printed(ztso, "try", asked, ["--seed", asked.seed, "--runs", String(asked.runs),
    "--length", String(asked.length), "--skip", String(asked.skip), "--draw", asked.draw, "--unfinished"]);
  const lines = linesOf(out), last = lines.pop(), [count, first] = parted(last, " ;");
  const rows = lines.map(line => {
    const [outcome, tokens = ""] = parted(line, " ;"), [count, ...values] = outcome.split(" ");
    return { count: Number(count), values, tokens: trimmed(tokens) };
  });
  return { rows: rows.slice(0, limits.rows), left: rows.slice(limits.rows).reduce((sum, row) => sum + row.count, 0),
    unfinished: Number(count.split(" ")[1]), first: first === undefined ? null : trimmed(first), shown: status === 0 };
}

// the shortest schedule of what the condition asks about, or how many states were seen without it
function find(ztso, asked) {
  try {
    const tokens = tokensOf(printed(ztso, "find", asked).out), events = counted(tokens);
    if (events > limits.events) throw tooLong(events);
    return { tokens };
  } catch (fault) {
    const [, how, states] = NOT_FOUND.exec(fault.said?.line ?? "") ?? [];
    if (states === undefined) throw fault;
    return { states: Number(states), cut: how === "cut at" };
  }
}

// nothing here rewrites texts of herd's: what the program takes as it is stays, and the rest is tools/from-herd's
function herd(ztso, { text }) {
  if (!ztso(["show"], { "test.litmus": text }, "").err) return { text, notes: [] };
  throw new Fault("Refused", ["this page takes texts as they are. tools/from-herd, in the repository, rewrites texts of herd's."]);
}

const ANSWERS = { test, herd, view, chart, shrink, verdict, onward, seek, read, draw, find };

// `ztso` runs a command on these files and this standard input, and answers its status and what it printed
export function answerOf(ztso, route, body) {
  try {
    return ANSWERS[route](ztso, body);
  } catch (error) {
    if (error instanceof Fault) return { fault: error.said };
    return { error: error instanceof Failed ? error.message : `the page failed: ${error.message}` };
  }
}
