// Where the rows of a picture stand, and the place in the schedule that each leads to. A row's number is that of what
// happened: an event that did nothing has none. Where rows must be higher than the program draws them, the picture is
// stretched; where it is a little wider than its room, or shown as a whole, it is made smaller.

import { idle } from "./words.js";

const TEXT = { pitch: 17 }, SVG = { pitch: 22, above: 16, font: 13 };
// a picture that is too wide is made as small as this, so that it fits; a wider one goes on
const SMALLEST = 0.68;
// and one that is to be whole on a phone no smaller than this, so that its letters have 9 pixels
const READ = 9.1 / SVG.font;

// numbers with the tops of their rows
function ofText(text) {
  return text.split("\n").flatMap((line, at) => {
    const number = /^ *(\d+)  /.exec(line);
    return number ? [[Number(number[1]), at * TEXT.pitch]] : [];
  });
}

const attribute = (tag, name) => new RegExp(` ${name}='([^']*)'`).exec(tag)?.[1];

// the row's numbers have ids, within groups that are moved down. Of a program without such ids the quiet numbers are taken
function ofSvg(svg) {
  const hasIds = svg.includes(" id='row-");
  let down = 0;
  return [...svg.matchAll(/<(?:g|text) [^>]*>(\d+)?/g)].flatMap(([tag, text]) => {
    if (tag.startsWith("<g ")) down = Number(/translate\(0 (\d+)\)/.exec(tag)?.[1] ?? 0);
    const id = /^row-(\d+)$/.exec(attribute(tag, "id") ?? "")?.[1];
    const number = hasIds ? id : attribute(tag, "class") === "quiet" ? text : null;
    return number ? [[Number(number), down + Number(attribute(tag, "y")) - SVG.above]] : [];
  });
}

// the columns' names, each with where it stands; and between which heights they do. Of a picture of text nothing
export function headsOf(svg, scale) {
  const group = svg && /<g transform='translate\(0 (\d+)\)'>([\s\S]*?)<\/g>/.exec(svg);
  if (!group) return null;
  const found = [...group[2].matchAll(/<text [^>]*\bx='(\d+)' y='(\d+)'[^>]*class='bold'[^>]*>([^<]*)</g)];
  if (!found.length) return null;
  const names = found.map(([, x, , name]) => ({ name, left: Number(x) * scale }));
  return { names, top: (Number(group[1]) + Number(found[0][2]) - SVG.above) * scale, height: SVG.pitch * scale, font: SVG.font * scale };
}

const widthOf = svg => Number(/<svg [^>]*\bwidth='(\d+)'/.exec(svg)?.[1] ?? 0);

// as large as it is read; it may be wider than its room
function readable(svg, pitch, least, room) {
  if (least > pitch || svg === undefined) return Math.max(1, least / pitch);
  const fits = room / widthOf(svg);
  return fits < 1 && fits >= SMALLEST ? fits : 1;
}

// whether it is, so that another scale shows more of it
export const isWide = ({ svg }, least, room) => svg !== undefined && widthOf(svg) * readable(svg, SVG.pitch, least, room) > room;

export function rowsOf({ svg, text, outcomes }, least, room, isWhole) {
  const places = outcomes.flatMap((outcome, at) => idle(outcome) ? [] : [at + 1]);
  const [found, { pitch }] = svg === undefined ? [ofText(text), TEXT] : [ofSvg(svg), SVG];
  const scale = isWhole ? Math.max(room / widthOf(svg), least ? READ : 0) : readable(svg, pitch, least, room);
  const rows = found.map(([number, top]) => ({ place: places[number - 1], top: top * scale })).filter(row => row.place);
  return { rows, pitch: pitch * scale, scale };
}
