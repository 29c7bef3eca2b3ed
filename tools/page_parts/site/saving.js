// Schedules and runs come in and go out: copied, pasted, saved, and as links. A link has the whole run after its `#`,
// which a browser sends nowhere.

import { ask, damaged, waiting } from "./ask.js";
import { svg } from "./chart.js";
import { by, el } from "./dom.js";
import { forgetRefused } from "./editor.js";
import { replace } from "./own.js";
import { note, setEvents } from "./run.js";
import { HEAD, areTokens, counted, expanded, tokens } from "./schedules.js";
import { WORDS, address } from "./source.js";
import { DRAWS, known, state } from "./state.js";
import { sayWhy } from "./why.js";

const MARK = "#run=", LONGEST = 32000, MOST = 2 << 20;
// how much finer than the screen's a saved picture is, and how many points a side of it may have
const FINE = 2, SIDE = 16384;

const scheduleText = () => `${HEAD}${tokens(state.events)}\n`;

export const copySchedule = () => copy(scheduleText(), "Copied, with the head line.");

async function copy(text, words, ...more) {
  try {
    await navigator.clipboard.writeText(text);
    note(words, ...more);
  } catch {
    showPasting(true);
    by("pasted").value = text;
    by("pasted").select();
    note("The browser keeps the clipboard to itself; copy from here. ", ...more);
  }
}

export function showPasting(shows) {
  by("pasting").hidden = !shows;
  by("paste").setAttribute("aria-expanded", String(shows));
  if (shows) by("pasted").focus();
}

export async function load() {
  const text = by("pasted").value.trim();
  try {
    if (text.includes(MARK)) {
      if (!await loadLink(text)) return;
    } else {
      await loadSchedule(text.startsWith("ztso-schedule") ? text : HEAD + text);
    }
    showPasting(false);
  } catch (error) {
    if (!error.fault) throw error;
    note(`${error.message} ${error.fault.line ? `(${error.fault.line})` : ""}`);
  }
}

export async function loadSchedule(schedule) {
  damaged();
  const { events } = await ask("read", { text: state.text, buffer: state.buffer, schedule });
  note();
  await setEvents(events);
}

// files

function save(text, kind, suffix) {
  const address = URL.createObjectURL(new Blob([text], { type: kind }));
  const name = known.test.title.replace(/[^\w.+-]+/g, "-").slice(0, 60);
  el("a", { href: address, download: `${name}${suffix}` }).click();
  setTimeout(() => URL.revokeObjectURL(address), 1000);
}

export const saveSchedule = () => save(scheduleText(), "text/plain", ".schedule");

export const saveTest = () => save(state.text, "text/plain", ".litmus");

export const savePicture = () => save(alone(svg()), "image/svg+xml", ".svg");

// a picture as programs take it that know no media queries, or no classes: in light colours, on white
const alone = picture => picture.replace(/@media \(prefers-color-scheme:dark\)\{[\s\S]*?\}\}(?=<\/style>)/, "")
  .replace("<rect class='back'", "<rect class='back' fill='#ffffff'");

// the picture in the colours that are seen, twice as fine
export async function saveImage() {
  const image = by("chart").querySelector("img"), { naturalWidth: width, naturalHeight: height } = image;
  if (Math.max(width, height) * FINE > SIDE) {
    sayWhy("This picture is too large for a PNG: save it as SVG.");
    return;
  }
  const canvas = Object.assign(el("canvas"), { width: width * FINE, height: height * FINE });
  canvas.getContext("2d").drawImage(image, 0, 0, canvas.width, canvas.height);
  save(await new Promise(done => canvas.toBlob(done, "image/png")), "image/png", ".png");
}

// links

// bytes that went through a stream, which may be this many at most
async function piped(bytes, through) {
  const reader = new Blob([bytes]).stream().pipeThrough(through).getReader(), parts = [];
  let size = 0;
  waiting(1);
  try {
    for (let part = await reader.read(); !part.done; part = await reader.read()) {
      size += part.value.length;
      if (size > MOST) throw new Error("it holds too much");
      parts.push(part.value);
    }
    return new Uint8Array(await new Blob(parts).arrayBuffer());
  } finally {
    waiting(-1);
  }
}

async function fragment() {
  const { text, buffer, draw, events, place } = state;
  const bytes = new TextEncoder().encode(JSON.stringify({ text, buffer, draw, tokens: tokens(events), place }));
  const packed = await piped(bytes, new CompressionStream("deflate-raw"));
  const letters = Array.from(packed, byte => String.fromCharCode(byte)).join("");
  return MARK + btoa(letters).replaceAll("+", "-").replaceAll("/", "_").replaceAll("=", "");
}

export async function copyLink() {
  const link = address() + await fragment();
  if (link.length > LONGEST) {
    note("This test is too long for a link: save it, and its schedule.");
    return;
  }
  const opens = el("a", { href: link, target: "_blank", rel: "noopener" }, "Open it in another tab");
  await copy(link, WORDS.linked, opens, ".");
  // the note may be out of sight
  if (by("pasting").hidden) sayWhy("Copied as a link: the test, the run and the place in it.");
}

// the run that a link holds, or null
export async function runOf(link) {
  const packed = link.slice(link.indexOf(MARK) + MARK.length).trim().replaceAll("-", "+").replaceAll("_", "/");
  try {
    const bytes = Uint8Array.from(atob(packed), letter => letter.charCodeAt(0));
    const run = JSON.parse(new TextDecoder().decode(await piped(bytes, new DecompressionStream("deflate-raw"))));
    const isRun = typeof run.text === "string" && areTokens(run.tokens) && [1, 2, 4, 16].includes(run.buffer)
      && DRAWS.includes(run.draw ?? DRAWS[0]);
    return isRun && counted(run.tokens) <= known.limits.events ? run : null;
  } catch {
    return null;
  }
}

export async function loadLink(link) {
  const run = await runOf(link);
  damaged(run ? "" : "This link is damaged: it isn't a whole link of such a page, and nothing of it is shown. Copy it once more, whole.");
  if (!run) return false;
  forgetRefused();
  state.buffer = run.buffer;
  // links of 1.1 don't say it
  state.draw = run.draw ?? DRAWS[0];
  showChoices();
  const events = expanded(run.tokens), isPlace = Number.isInteger(run.place) && run.place >= 0 && run.place <= events.length;
  await replace(run.text, { events, place: isPlace ? run.place : null });
  return true;
}

// what the state says of the buffer and the draw
export function showChoices() {
  by("buffer").value = String(state.buffer);
  by("how").value = state.draw;
}

export const isLink = text => text.startsWith(MARK);
