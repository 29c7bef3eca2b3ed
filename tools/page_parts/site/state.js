// What the page is about, which goes with each question: who answers keeps nothing of it. `kept` are one's own texts that
// another one took the place of, each with its run.

export const state = { text: "", buffer: 4, draw: "uniform", events: [], place: 0, breaks: [], memory: false, kept: [] };

// how runs are drawn
export const DRAWS = ["uniform", "bursts"];

// what was answered: the shelf, what the program can, the test, and the machine before and now
export const known = { tests: [], sources: {}, limits: { events: 2000, runs: 100000 }, can: { c: [] },
  test: null, view: null, before: null };

// what stays when the page is read anew: of this tab alone. In another site's frame nothing does
const KEPT = "ztso", IS_FRAMED = globalThis.top !== globalThis.self;

// what is too large goes without the texts that were kept, the oldest first
export function keep() {
  if (IS_FRAMED) return;
  for (let count = state.kept.length; count >= 0; count -= 1) {
    try {
      sessionStorage.setItem(KEPT, JSON.stringify({ ...state, kept: state.kept.slice(0, count) }));
      return;
    } catch { /* too large, or switched off */ }
  }
}

export function kept() {
  if (IS_FRAMED) return null;
  try {
    return JSON.parse(sessionStorage.getItem(KEPT));
  } catch {
    return null;
  }
}
