// What a source says can't happen, and which source that is. The program shows only what can.

import { by, el, prose } from "./dom.js";
import { known } from "./state.js";

export function showExcluded(excluded) {
  const marks = [...excluded.matchAll(/\[([^\]]+)\]/g)].map(match => match[1]);
  by("excluded").hidden = !excluded;
  by("excluded").open = false;
  by("excluded").replaceChildren(el("summary", {}, "excluded by a source: ", ...prose(excluded)),
    ...[...new Set(marks)].filter(mark => known.sources[mark]).map(mark =>
      el("p", {}, el("b", {}, `[${mark}] `), ...prose(known.sources[mark].replaceAll("*", "")))),
    el("p", {}, "The page, like the program, shows only what can happen. That something can't is the source's word."));
}

// what runs that don't show an outcome say of it, and where there is more: the button opens what a source excludes
export function notShown() {
  const words = "That doesn't say that it can't happen. ";
  if (by("excluded").hidden) return [words.trim()];
  const button = el("button", { class: "source" }, "What a source excludes");
  button.addEventListener("click", () => {
    by("excluded").open = true;
    by("excluded").scrollIntoView({ block: "nearest" });
    by("excluded").querySelector("summary").focus();
  });
  return [words, button];
}
