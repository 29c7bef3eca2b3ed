// The picture of the whole schedule. What comes after the place is veiled, and a click on a row goes to the state after
// it; the list of events does the same for the keyboard.

import { ask, waiting } from "./ask.js";
import { NARROW, by, el } from "./dom.js";
import { headsOf, isWide, rowsOf } from "./rows.js";
import { about } from "./schedules.js";
import { known, state } from "./state.js";
import { entriesOf, told } from "./words.js";

const HINT = "Click an instruction to execute it. A store then waits in its hart's buffer, until you let it land.";

// fingers need rows of 24 pixels
const LEAST = 24;
// the picture's own margin, and the bar's room
const MARGIN = 24;

// the picture that is shown: of which run, its rows with their places, where they end, and its veil
let shown = null;
let address = "";

export const svg = () => shown?.svg;

export async function showChart() {
  const box = by("chart"), rows = known.can.memory && state.memory ? "memory" : "all";
  const key = JSON.stringify([state.text, state.buffer, state.events, rows, NARROW.matches]);
  by("picturing").hidden = !state.events.length;
  by("rows-of-memory").hidden = !known.can.memory;
  if (!state.events.length) {
    shown = null;
    box.replaceChildren(el("p", { class: "quiet" }, HINT));
    by("entries").replaceChildren();
    showGoesOn();
    return;
  }
  if (key !== shown?.key) {
    box.classList.add("old");
    const answer = await ask("chart", { ...about(), rows });
    box.classList.remove("old");
    await put(box, key, answer);
  }
  veil(box);
}

NARROW.addEventListener("change", () => shown && showChart());
by("chart").addEventListener("scroll", showGoesOn);

// in another width the picture that is there has another size
new ResizeObserver(async () => {
  const box = by("chart"), { key, answer, room } = shown ?? {};
  if (!answer || room === box.clientWidth) return;
  await put(box, key, answer);
  if (shown) veil(box);
}).observe(by("chart"));

// a picture that is too wide is small on a narrow window, and elsewhere as large as it is read, until the button says another
let isWhole = null;
const showsWhole = () => isWhole ?? NARROW.matches;

export async function fit() {
  isWhole = !showsWhole();
  await put(by("chart"), shown.key, shown.answer);
  veil(by("chart"));
}

// whether a part of the picture is out of sight on the right
function showGoesOn() {
  const box = by("chart"), goesOn = box.scrollWidth - box.clientWidth - box.scrollLeft > MARGIN;
  box.classList.toggle("goes-on", goesOn);
  by("goes-on").hidden = !goesOn;
}

async function put(box, key, answer) {
  const room = box.clientWidth, least = NARROW.matches ? LEAST : 0, wide = isWide(answer, least, room);
  const { rows, pitch, scale } = rowsOf(answer, least, room, wide && showsWhole());
  const top = rows[0]?.top ?? 0, end = rows.length ? rows.at(-1).top + pitch : 0;
  const cover = el("div", { class: "veil" }), bar = el("div", { class: "bar" }), area = el("div", { class: "rows" });
  Object.assign(area.style, { top: `${top}px`, height: `${end - top}px` });
  bar.style.height = `${pitch}px`;
  area.addEventListener("mousemove", moved => {
    const row = rowOf(moved);
    bar.style.top = `${row?.top}px`;
    area.title = row ? told(answer.outcomes[row.place - 1]) : "";
  });
  const drawn = answer.svg === undefined ? el("pre", {}, answer.text) : await image(answer.svg);
  if (answer.svg === undefined) drawn.style.lineHeight = `${pitch}px`;
  else drawn.style.width = `${drawn.naturalWidth * scale}px`;
  for (const id of ["save-picture", "save-image"]) by(id).hidden = answer.svg === undefined;
  by("fit").hidden = !wide;
  by("fit").setAttribute("aria-pressed", String(showsWhole()));
  const [label, title] = NARROW.matches ? ["Small", "The picture as small as it can be read, or with rows for fingers"]
    : ["Whole", "The whole picture within the page's width, or as large as it can be read"];
  Object.assign(by("fit"), { textContent: label, title });
  shown = { key, answer, room, svg: answer.svg, rows, end, cover, entries: entriesOf(answer.outcomes) };
  box.replaceChildren(el("div", { class: "picture" }, heads(answer.svg, scale), drawn, cover, bar, area));
  showGoesOn();
}

// the harts' names, over those of the picture, which stay where it is scrolled
function heads(svg, scale) {
  const found = headsOf(svg, scale);
  if (!found) return null;
  const { names, top, height, font } = found, bar = el("div", { class: "heads", "aria-hidden": "true" });
  Object.assign(bar.style, { marginTop: `${top}px`, marginBottom: `${-top - height}px`, height: `${height}px`, fontSize: `${font}px`,
    lineHeight: `${height}px`, paddingLeft: `${names[0].left}px` });
  bar.append(...names.map(({ name, left }, at) => {
    const column = el("span", {}, el("b", {}, name));
    if (at + 1 < names.length) column.style.width = `${names[at + 1].left - left}px`;
    return column;
  }));
  return bar;
}

// an image runs no script and loads nothing
async function image(svg) {
  if (address) URL.revokeObjectURL(address);
  address = URL.createObjectURL(new Blob([svg], { type: "image/svg+xml" }));
  const made = el("img", { src: address, alt: "The run as a picture; the list after it says what each event did" });
  waiting(1);
  await made.decode().catch(() => {});
  waiting(-1);
  return made;
}

function veil(box) {
  by("entries").replaceChildren(...shown.entries.map((words, at) => el("li", {}, at < state.place ? words : `to come: ${words}`)));
  const { rows, end, cover } = shown, isAtEnd = state.place === state.events.length;
  const top = rows.find(row => row.place > state.place)?.top ?? end;
  cover.hidden = isAtEnd;
  cover.style.top = `${top}px`;
  if (isAtEnd) box.scrollTop = top < box.clientHeight ? 0 : box.scrollHeight;
  else if (top > box.scrollTop + box.clientHeight - 60) box.scrollTop = top - box.clientHeight + 60;
  else if (top < box.scrollTop + rows[0]?.top) box.scrollTop = top - rows[0].top;
}

// the row under the mouse
function rowOf(event) {
  const at = shown.rows[0].top + event.offsetY;
  return shown.rows.findLast(row => row.top <= at) ?? shown.rows[0];
}

// the place after the row that was clicked, or null
export const placeOf = clicked => clicked.target.matches(".rows") ? rowOf(clicked).place : null;
