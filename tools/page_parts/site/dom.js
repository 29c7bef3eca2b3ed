// Elements of the page. Texts reach it by textContent alone.

export const by = id => document.getElementById(id);

// a window for a thumb, in which sections stand below one another
export const NARROW = matchMedia("(max-width: 860px), (pointer: coarse)");

const SVG = ["svg", "rect"];

export function el(tag, attributes = {}, ...children) {
  const space = SVG.includes(tag) ? "http://www.w3.org/2000/svg" : "http://www.w3.org/1999/xhtml";
  const made = document.createElementNS(space, tag);
  for (const [name, value] of Object.entries(attributes)) {
    if (value !== null && value !== undefined && value !== false) made.setAttribute(name, value === true ? "" : value);
  }
  made.append(...children.filter(child => child !== null));
  return made;
}

// words of docs/errors.md, in which backquotes stand round code
export const prose = text => text.split("`").map((part, at) => at % 2 ? el("code", {}, part) : part);

// a button that can't be used now keeps the focus and its name
export const can = id => by(id).getAttribute("aria-disabled") !== "true";

export function allow(id, yes) {
  by(id).setAttribute("aria-disabled", String(!yes));
}

// what a press of a button does, where it can be used, and else
export function onPress(id, does, otherwise) {
  by(id).addEventListener("click", () => can(id) ? does() : otherwise());
}

// a menu that a press outside, Esc, the focus going elsewhere and a choice close
export function menu(id) {
  const box = by(id);
  const shut = () => box.removeAttribute("open");
  document.addEventListener("pointerdown", pressed => box.contains(pressed.target) || shut());
  box.addEventListener("focusout", left => left.relatedTarget && !box.contains(left.relatedTarget) && shut());
  box.addEventListener("click", pressed => {
    const item = pressed.target.closest("button");
    if (!item || !can(item.id)) return;
    shut();
    box.querySelector("summary").focus();
  });
  box.addEventListener("keydown", pressed => {
    if (pressed.key !== "Escape" || !box.open) return;
    shut();
    box.querySelector("summary").focus();
  });
}

// on a narrow window what changed is brought into sight
export function reveal(part, block = "start") {
  if (NARROW.matches) part?.scrollIntoView({ block });
}

// a screen reader says what changes, so the same words once more have another blank
export function say(words) {
  by("said").textContent = by("said").textContent === words ? `${words}\u00a0` : words;
}
