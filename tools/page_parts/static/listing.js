// What a test is, as the command `show` prints it (docs/formats.md): what tools/page_parts/listing.py does on a server.
// Three things that it doesn't print are read off the text: the question, the cells of a row that is refused, and which
// registers open, as an address or as 0.

import { Fault } from "./faults.js";
import { limits } from "./known.js";
import { slips } from "./slips.js";

const COMMENT = /\(\*(.*?)(?:\*\)|$)/s;
const COMMENTS = new RegExp(COMMENT, "gs");
const OPENING = /\n[ \t]*\{([^}]*)\}/;
const BLANKS = /[ \t\r\n]+/;
const ENDS = /^[ \t\r\n]+|[ \t\r\n]+$/g;
// an item of the opening part that gives a number, or a name's address, to a register
const OPENED = /^[ \t\n\r\f\v]*0*([0-9]{1,2})[ \t\n\r\f\v]*:[ \t\n\r\f\v]*([a-z0-9]+)[ \t\n\r\f\v]*=[ \t\n\r\f\v]*(-?[A-Za-z0-9_]+)[ \t\n\r\f\v]*$/;
const numbered = (letter, from, to) => Array.from({ length: to - from }, (_, at) => `${letter}${from + at}`);
const ABI = ["zero", "ra", "sp", "gp", "tp", "t0", "t1", "t2", "s0", "s1", ...numbered("a", 0, 8),
  ...numbered("s", 2, 12), ...numbered("t", 3, 7)];
const REGISTERS = new Map([...ABI.flatMap((abi, number) => [[abi, number], [`x${number}`, number]]), ["fp", 8]]);
// the row above a table's cells
const HARTS = /^[ \t]*P0[ \t]*[|;]/m;
// an instruction whose last operand is how far it jumps
const JUMP = /^(?:b[a-z]+|jal) (?:.*,)?(-?[0-9]+)$/;

// the lines of what the program printed
export const linesOf = text => text ? text.replace(/\n$/, "").split("\n") : [];

// the parts of a text before and after the first of these marks, as many times as asked for
export function parted(text, mark, times = 1) {
  const parts = [];
  let rest = text;
  for (let count = 0; count < times && rest.includes(mark); count += 1) {
    const at = rest.indexOf(mark);
    parts.push(rest.slice(0, at));
    rest = rest.slice(at + mark.length);
  }
  return [...parts, rest];
}

export const trimmed = text => text.replace(ENDS, "");

// what the page shows of a text, of which `show` printed this
export function listed(shown, text) {
  const harts = [], locations = new Map(), lefts = [], said = {};
  const takes = {
    hart: () => harts.push({ rows: [], labels: {}, pointers: {}, opens: {} }),
    label(rest) {
      const [hart, pc, , name] = rest.split(" ");
      (harts[hart].labels[Number(pc)] ??= []).push(name);
    },
    code(rest) {
      const [hart, ...row] = parted(rest, " ", 4);
      harts[hart].rows.push(rowOf(...row));
    },
    reg(rest) {
      const [hart, register, value] = rest.split(" ").map(Number);
      harts[hart].opens[register] = value;
    },
    location(rest) {
      const [address, , name] = rest.split(" ");
      locations.set(name, Number(address));
    },
    left: rest => lefts.push({ name: rest, place: placeOf(rest, locations) }) };
  for (const line of linesOf(shown)) {
    const [kind, rest = ""] = parted(line, " ");
    if (Object.hasOwn(takes, kind)) takes[kind](rest);
    else said[kind] = rest;
  }
  if (harts.reduce((sum, hart) => sum + hart.rows.length, 0) > limits.cells) {
    throw new Fault("TooLong", [`The page shows at most ${limits.cells} instructions; the commands take this test.`]);
  }
  addOpened(harts, locations, text);
  return { title: said.test, question: question(text), kind: /^~?[a-z]+/.exec(said.condition)[0],
    condition: said.condition, lefts, harts, slips: slips(harts, lefts, locations),
    locations: [...locations].map(([name, address]) => ({ name, address })) };
}

// a row of a hart's code, with the pc that it may jump to
function rowOf(pc, line, word, text) {
  const jump = JUMP.exec(text);
  return { pc: Number(pc), line: Number(line), word, text, ...jump ? { target: Number(pc) + Number(jump[1]) } : {} };
}

// what an observed location of the condition stands for: a hart's register, or the word at an address
function placeOf(left, locations) {
  const register = /^([0-9]+):x([0-9]+)$/.exec(left);
  return register ? ["register", Number(register[1]), Number(register[2])] : ["word", locations.get(left)];
}

// the registers that open as a location's address, each with the location's name, and those that open as 0
function addOpened(harts, locations, text) {
  const opening = OPENING.exec(withoutComments(text));
  for (const item of opening ? opening[1].split(";") : []) {
    const [, hart, register, value] = OPENED.exec(item) ?? [];
    if (!REGISTERS.has(register) || Number(hart) >= harts.length) continue;
    const { opens, pointers } = harts[Number(hart)], number = REGISTERS.get(register);
    opens[number] ??= 0;
    if (locations.has(value)) pointers[number] = value;
  }
}

// the first comment of a text, in which the shelf's tests have their question
function question(text) {
  const words = trimmed(COMMENT.exec(text)?.[1] ?? "");
  // how a test of C was made: the compiler's flags follow
  return words.startsWith("tools/from-c ") ? words.split("\n")[0] : words.split(BLANKS).join(" ");
}

// the cells of the row that begins on a line, as they stand
export function cells(text, line) {
  const begin = text.split("\n").slice(0, line - 1).reduce((sum, one) => sum + one.length + 1, 0);
  return withoutComments(text).slice(begin).split("\n")[0].split(";")[0].split("|");
}

// each hart's code as assembly, a line for each line below the harts' names, and which of them begins on a line of the text. It
// is blank for what is no row with this many cells
export function codes(text, line, count) {
  const bare = withoutComments(text), head = HARTS.exec(bare), end = head ? head.index + head[0].length : bare.length;
  const begin = text.split("\n").slice(0, line - 1).reduce((sum, one) => sum + one.length + 1, 0);
  const rows = bare.slice(end).split("\n").slice(1).map(one => one.includes(";") ? one.split(";")[0].split("|") : []);
  const code = Array.from({ length: count }, (_, hart) => rows.map(row => row.length === count ? row[hart] : "").join("\n"));
  return { code, at: bare.slice(end, begin).split("\n").length - 1 };
}

// the text with a blank for each character of a comment, so that a comment joins lines
const withoutComments = text => text.replace(COMMENTS, found => " ".repeat(found.length));
