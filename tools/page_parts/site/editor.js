// The text of the test, how much room it needs, its faults at their line, and what looks like a slip.

import { ask } from "./ask.js";
import { by, el, prose } from "./dom.js";
import { forget } from "./draws.js";
import { LINE, number } from "./gutter.js";
import { close, move, startAnew } from "./run.js";
import { onShelf, showShelf, showWitnesses } from "./shelf.js";
import { keep, known, state } from "./state.js";

// the editor's width goes by steps, so that it doesn't move with each letter
const STEP = 8;

// mnemonics of other machines, with what they are of
const OTHERS = [
  [/^(l[dq]|s[dq]|lwu|(add|sub|sll|srl|sra)i?w|negw|sext\.w|(amo\w+|lr|sc)\.d(\..*)?)$/, "RV64"],
  [/^(lr|sc)\.w(\..*)?$/, "LR and SC"], [/^(mul|div|rem)\w*$/, "the M extension"],
  [/^(f[ls][wdq]|f\w+\.[sdqwx](\..*)?)$/, "floating point"], [/^(csr\w*|rd(cycle|time|instret)h?)$/, "control registers"],
  [/^c\.\w+$/, "compressed instructions"], [/^amo\w+\.[bh](\..*)?$/, "AMOs of bytes"]];

// the text whose machine is shown
let shown = "";

// another text, with a schedule or with the one that was there
export async function take(text, { events = null, place = null } = {}) {
  state.text = text;
  if (events) Object.assign(state, { events, place: place ?? events.length });
  if (by("text").value !== text) by("text").value = text;
  makeRoom(text);
  number();
  keep();
  close();
  showShelf();
  const before = known.test;
  try {
    known.test = await ask("test", { text });
  } catch (error) {
    if (error.fault) showFault(error.fault);
    return;
  }
  if (!events && before && isOther(before, known.test)) startAnew();
  by("fault").replaceChildren();
  showQuestion(known.test.question);
  showSlips();
  showWitnesses();
  document.title = `${known.test.title} - ztso`;
  if (text !== shown) renew(text);
  await move();
}

function makeRoom(text) {
  const lines = text.split("\n"), longest = Math.max(...lines.map(line => line.length));
  by("editor").style.setProperty("--letters", String(STEP * Math.ceil(longest / STEP)));
  by("editor").style.setProperty("--lines", String(lines.length));
}

// whether a text is of another test, and not of the one that was there and is being changed
function isOther(one, other) {
  const code = test => JSON.stringify(test.harts.map(hart => hart.rows.map(row => row.text)));
  return one.title !== other.title && code(one) !== code(other);
}

// what the test asks
function showQuestion(question) {
  by("question").textContent = by("question").title = question;
}

function renew(text) {
  if (shown) state.breaks = [];
  shown = text;
  known.before = null;
  forget();
}

function showFault({ line, number: refusal, name, words, place, cell }) {
  const where = place.line ? `Line ${place.line}${cell ? `, P${cell.hart}` : ""}: ` : "";
  by("fault").replaceChildren(
    el("p", {}, el("strong", {}, `${where}${refusal ? `${name} (${refusal}) ` : ""}`),
      cell ? el("code", {}, cell.text) : ""),
    ...ofOthers(cell).map(text => el("p", {}, ...prose(text))),
    ...(cell ? cell.words : words.length ? words : [line]).map(text => el("p", {}, ...prose(text))));
  by("slips").replaceChildren();
  showQuestion("");
  number(place.line);
  if (place.line && document.activeElement !== by("text")) by("text").scrollTop = (place.line - 5) * LINE;
}

// what a mnemonic is of that this machine doesn't have
function ofOthers(cell) {
  const mnemonic = /^(?:[\w.]+:)?\s*([a-z][\w.]*)/.exec(cell?.text ?? "")?.[1] ?? "";
  const of = OTHERS.find(([form]) => form.test(mnemonic))?.[1];
  return of ? [`\`${mnemonic}\` is ${of}: this machine has RV32I${of === "RV64" ? "" : " and the AMOs of words"}.`] : [];
}

// why something that was brought isn't taken, beside the text that stays
export function refuse(words) {
  by("refused").append(el("p", {}, ...prose(words)));
  by("refused").scrollIntoView({ block: "nearest" });
}

export const forgetRefused = () => by("refused").replaceChildren();

// what may be a slip of the pen. The shelf's are meant
function showSlips() {
  const said = onShelf(state.text) ? [] : known.test.slips;
  by("slips").replaceChildren(...said.map(text => el("p", {}, ...prose(text))));
}
