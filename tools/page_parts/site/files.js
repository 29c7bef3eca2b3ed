// Files that are opened or dropped: litmus texts, texts of herd's, C, schedules. Who answers is given their text, never a
// name or a path. Why a file isn't taken is said beside the text that stays.

import { ask, damaged, isStopped, waiting } from "./ask.js";
import { by, el } from "./dom.js";
import { forgetRefused, refuse } from "./editor.js";
import { replace } from "./own.js";
import { loadSchedule } from "./saving.js";
import { WORDS } from "./source.js";
import { known } from "./state.js";

const MOST = 1 << 20;
// what begins a text that is meant for RISC-V, also where it is refused
const MEANT = /^(\s|\(\*.*?\*\))*RISCV\b/s;

// the C file that the test was made of
let source = null;

// a test comes before the schedule that was opened with it
export async function openFiles(files) {
  const isSchedule = file => file.name.endsWith(".schedule");
  forgetRefused();
  damaged();
  waiting(1);
  try {
    for (const file of [...files].sort((one, other) => isSchedule(one) - isSchedule(other))) await openFile(file);
  } finally {
    waiting(-1);
  }
}

async function openFile(file) {
  try {
    const text = await textOf(file);
    if (text !== null) await openText(file.name, text);
  } catch (error) {
    if (error.fault) refuse(`${file.name}: ${error.message}`);
    else if (!isStopped(error)) throw error;
  }
}

// a file's text, or null where it is refused
async function textOf(file) {
  if (file.size > MOST) {
    refuse(`${file.name} has more than ${MOST} bytes.`);
    return null;
  }
  try {
    const text = new TextDecoder("utf-8", { fatal: true }).decode(await file.arrayBuffer());
    if (!text.includes("\0")) return text;
  } catch { /* bytes that are no UTF-8, or a folder */ }
  refuse(`${file.name} isn't a text.`);
  return null;
}

async function openText(name, text) {
  if (text.startsWith("ztso-schedule")) {
    await loadSchedule(text);
    return;
  }
  forgetSource();
  if (name.endsWith(".c") || /^\s*C\s/.test(text)) await openC(name, text);
  else await openLitmus(name, text);
}

// a refused text that is meant for RISC-V is taken all the same, so that its fault is shown at its line
async function openLitmus(name, text) {
  let made = { text, notes: [] }, refusal = null;
  try {
    made = await ask("herd", { text });
  } catch (error) {
    if (!error.fault) throw error;
    refusal = error.message;
  }
  if (refusal === null || MEANT.test(text)) {
    await replace(made.text, { events: [] }, made.notes.length ? `Rewritten: ${made.notes.join("; ")}` : "");
  }
  if (refusal !== null) refuse(`${name}: ${refusal}`);
}

async function openC(name, text) {
  if (!known.can.c.length) {
    refuse(`${name}: ${WORDS.noC}`);
    return;
  }
  by("compiler").replaceChildren(...known.can.c.map(name => el("option", {}, name)));
  by("compiling").hidden = false;
  source = text;
  await compile();
}

// the test that the compiler makes of the C file, by the options that are chosen
async function compile() {
  if (source === null) return;
  const [compiler, fences, mapping] = ["compiler", "fences", "mapping"].map(id => by(id).value);
  const { text } = await ask("c", { text: source, compiler, fences, mapping });
  await replace(text, { events: [] },
    `Made by tools/from-c: ${compiler}, fences ${fences}${mapping ? `, atomics of ${mapping}` : ""}.`);
}

// the same by other options. The test of the ones before stays where the compiler refuses
export async function compileAnew() {
  forgetRefused();
  try {
    await compile();
  } catch (error) {
    if (!error.fault) throw error;
    refuse(error.message);
  }
}

export function forgetSource() {
  source = null;
  by("compiling").hidden = true;
}
