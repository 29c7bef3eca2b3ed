// Keys: digits are harts, and the rest press buttons.

import { by, can } from "./dom.js";
import { happen } from "./run.js";
import { sayWhy, whyInert, whyNot } from "./why.js";

const PRESSED = { ArrowLeft: "back", ArrowRight: "forward", Home: "to-start", End: "to-end", s: "shrink", c: "copy",
  d: "go", b: "to-break", f: "find", m: "onward", o: "open", "?": "keys" };
const FOCUSED = { t: "shelf", e: "text" };

export function onKey(pressed) {
  if (pressed.ctrlKey || pressed.metaKey || pressed.altKey || document.querySelector("dialog[open]")) return;
  if (pressed.target.matches("textarea, select, input:not([type=checkbox])")) {
    if (pressed.key === "Escape") pressed.target.blur();
    return;
  }
  // the picture is scrolled by the arrows while it has the focus
  if (pressed.target.matches("#chart") && pressed.key.startsWith("Arrow")) return;
  const digit = /^(?:Digit|Numpad)(\d)$/.exec(pressed.code)?.[1];
  const used = by(digit ? "machine" : PRESSED[pressed.key] ?? FOCUSED[pressed.key]);
  if (!used) return;
  pressed.preventDefault();
  // what can't be clicked has no key either
  if (used.closest("[inert]")) sayWhy(whyInert());
  else if (used.hidden || !can(used.id)) sayWhy(whyNot(used.id));
  else if (digit) happen(`${pressed.shiftKey ? "l" : "a"}${digit}`, by("onward").checked);
  else if (PRESSED[pressed.key]) used.click();
  else used.focus();
}
