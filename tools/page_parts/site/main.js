// The page asks the program, by the module source.js. What is shown of a run is what the program answered; nothing here
// computes a step. This module gives each control what it does, and begins.

import { damaged, isStopped, trouble, waiting } from "./ask.js";
import { fit, placeOf, showChart } from "./chart.js";
import { by, menu, onPress, reveal } from "./dom.js";
import { drawRuns, stepRow } from "./draws.js";
import { forgetRefused, take } from "./editor.js";
import { compileAnew, forgetSource, openFiles } from "./files.js";
import { scrollNumbers } from "./gutter.js";
import { onKey } from "./keyboard.js";
import { find, threads } from "./makers.js";
import { choose, showKept } from "./own.js";
import { clearNote, go, happen, move, note, setEvents, shrunk, toBreak, toggleBreak } from "./run.js";
import { copyLink, copySchedule, isLink, load, loadLink, saveImage, savePicture, saveSchedule, saveTest, showChoices,
  showPasting } from "./saving.js";
import { expanded, tokens } from "./schedules.js";
import { listShelf, loadWitness } from "./shelf.js";
import { WORDS, shelf } from "./source.js";
import { keep, kept, known, state } from "./state.js";
import { sayWhy, whyNot } from "./why.js";

const PAUSE = 350;

// what a control does; a refusal is noted, and an answer that came too late is no fault
const hand = does => async (...given) => {
  try {
    await does(...given);
  } catch (error) {
    if (error.fault) note(error.message);
    else if (!isStopped(error) && by("trouble").hidden) trouble(`The page failed: ${error.message}`);
  }
};

function onClick(id, selector, does) {
  by(id).addEventListener("click", hand(clicked => {
    const found = clicked.target.closest(selector);
    return found ? does(found, clicked) : null;
  }));
}

async function shrink() {
  const before = state.events.length, events = expanded(await shrunk(tokens(state.events)));
  note(events.length < before ? `${before - events.length} of ${before} events weren't needed.`
    : "Each of these events is needed.");
  await setEvents(events);
}

function onHarts(found, clicked) {
  const [kind, ...rest] = found.dataset.key.split(" ");
  if (kind !== "break") return event(kind, by("onward").checked || clicked.shiftKey);
  toggleBreak(...rest.map(Number));
  return null;
}

// what an event changes of its hart is then in sight
async function event(kind, goesOn) {
  await happen(kind, goesOn);
  reveal(by("harts").children[Number(kind.slice(1))], "nearest");
}

function onEvents() {
  onClick("harts", "[data-key]", onHarts);
  onClick("strip", "[data-key]", found => go(Number(found.dataset.key.slice("to ".length))));
  onClick("witnesses", "button", loadWitness);
  onClick("drawn", '[data-key^="row "]', found => stepRow(found.dataset.key.slice("row ".length)).then(() => reveal(by("run"))));
  by("chart").addEventListener("click", hand(clicked => {
    const place = placeOf(clicked);
    if (place === null) return null;
    // the arrows go on from there, and don't scroll the picture
    by("chart").blur();
    return go(place);
  }));
}

function onButtons() {
  const presses = {
    "to-start": () => go(0), back: () => go(state.place - 1), forward: () => go(state.place + 1),
    "to-end": () => go(state.events.length), "to-break": toBreak, shrink, copy: copySchedule,
    paste: () => showPasting(by("pasting").hidden), load, link: copyLink,
    "save-schedule": saveSchedule, "save-test": saveTest, "save-picture": savePicture, "save-image": saveImage,
    find, threads, fit,
    open: () => by("file").click(), keys: () => by("help").showModal(), signs: () => by("legend").showModal() };
  for (const [id, does] of Object.entries(presses)) onPress(id, hand(does), () => sayWhy(whyNot(id)));
  menu("saving");
}

function onInputs() {
  by("drawing").addEventListener("submit", hand(submitted => {
    submitted.preventDefault();
    return drawRuns();
  }));
  by("buffer").addEventListener("change", hand(() => {
    state.buffer = Number(by("buffer").value);
    known.before = null;
    return move();
  }));
  by("how").addEventListener("change", hand(() => {
    state.draw = by("how").value;
    keep();
  }));
  by("memory-rows").addEventListener("change", hand(() => {
    state.memory = by("memory-rows").checked;
    keep();
    return showChart();
  }));
  by("shelf").addEventListener("change", hand(() => {
    forgetSource();
    damaged();
    return choose(by("shelf").value);
  }));
  for (const id of ["compiler", "fences", "mapping"]) by(id).addEventListener("change", hand(compileAnew));
  by("file").addEventListener("change", hand(async () => {
    await openFiles(by("file").files);
    by("file").value = "";
  }));
  onDropping();
  onTyping();
}

// files that are dragged over the page, and dropped there
function onDropping() {
  const over = isOver => document.body.classList.toggle("dropping", isOver);
  // a text that is dragged is the editor's
  const hasFiles = dragged => dragged.dataTransfer.types.includes("Files");
  document.addEventListener("dragover", dragged => {
    if (!hasFiles(dragged)) return;
    dragged.preventDefault();
    over(true);
  });
  document.addEventListener("dragleave", left => left.relatedTarget || over(false));
  document.addEventListener("drop", hand(dropped => {
    if (!hasFiles(dropped)) return null;
    dropped.preventDefault();
    over(false);
    return openFiles(dropped.dataTransfer.files);
  }));
}

// a text that is typed is taken after a pause
function onTyping() {
  let typing = 0;
  by("text").addEventListener("scroll", scrollNumbers);
  const taken = hand(async () => {
    typing = 0;
    clearNote();
    forgetRefused();
    await take(by("text").value).finally(() => waiting(-1));
  });
  by("text").addEventListener("input", () => {
    if (!typing) waiting(1);
    clearTimeout(typing);
    typing = setTimeout(taken, PAUSE);
  });
  // a tab that is left before the pause is over keeps the text too
  window.addEventListener("pagehide", () => {
    if (typing) state.text = by("text").value;
    keep();
  });
}

async function begin() {
  const answer = await shelf();
  Object.assign(known, { tests: answer.tests, sources: answer.sources, limits: answer.limits, can: answer.can });
  by("program").textContent = `, run by ${answer.program}`;
  by("built").textContent = answer.unproved;
  by("built").hidden = !answer.unproved;
  by("open").title = `Open ${WORDS.opens}, or a test with its schedule; or drop them anywhere (o)`;
  document.body.dataset.drops = `Drop ${WORDS.opens}`;
  by("find").hidden = by("find-key").hidden = !known.can.find;
  by("threads").hidden = !known.can.threads;
  listShelf();
  restore();
  if (await fromLink()) return;
  if (state.text) {
    await take(state.text);
  } else {
    await choose(known.tests.some(one => one.name === "sb") ? "sb" : known.tests[0].name);
  }
}

// what the tab had before it was loaded again, which a link then takes the place of like any other text
function restore() {
  Object.assign(state, kept());
  by("text").value = state.text;
  showChoices();
  by("memory-rows").checked = state.memory;
  showKept();
}

// a link's run is taken once, and is then the tab's own
async function fromLink() {
  const link = location.hash;
  if (!isLink(link)) return false;
  history.replaceState(null, "", location.pathname);
  const isThere = await loadLink(link);
  // who was sent a run sees its picture first
  if (isThere && state.events.length) reveal(by("run"));
  return isThere;
}

onEvents();
onButtons();
onInputs();
document.addEventListener("keydown", hand(onKey));
window.addEventListener("hashchange", hand(fromLink));
hand(begin)();
