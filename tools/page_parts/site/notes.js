// What a text says after # in an instruction's cell: in texts of --lines the line of the source that it comes from.

const NOTE = /^((?:[\w.+-]+:)?[0-9]+)(?:: (.*))?$/;
// what stands in a cell for what would end it
const WRITTEN = { "¦": "|", "⁏": ";", "∗": "*" };

const comment = (lines, hart, row) =>
  (lines[row.line - 1]?.split("|")[hart] ?? "").replace(/;\s*$/, "").split("#").slice(1).join("#").trim()
    .replace(/[¦⁏∗]/g, mark => WRITTEN[mark]);

// for each of a hart's rows its note, or nothing where that is the note of the row above. A line's text stands in the text once
export function notesOf(text, hart, rows) {
  const lines = text.split("\n"), comments = rows.map(row => comment(lines, hart, row));
  const shapes = comments.map(one => one.match(NOTE)), said = {};
  for (const shape of shapes) if (shape?.[2]) said[shape[1]] = shape[2];
  const notes = comments.map((one, at) => said[shapes[at]?.[1]] ? `${shapes[at][1]}: ${said[shapes[at][1]]}` : one);
  return notes.map((note, at) => note === notes[at - 1] ? "" : note);
}
