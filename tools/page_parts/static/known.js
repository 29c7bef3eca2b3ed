// What the folder's known.json says, which scripts/static-page takes from tools/page: the limits of the page, and the
// sections of docs/errors.md by number or heading.

export let limits = {};

let sections = new Map();

export function know(known) {
  ({ limits } = known);
  sections = new Map(Object.entries(known.sections));
}

export const section = key => sections.get(String(key));
