// What the program prints, as one says it.

import { known } from "./state.js";

const LONGEST = 12;

export const short = name => name.length > LONGEST ? `${name.slice(0, LONGEST - 1)}…` : name;

export function locationAt(address) {
  return known.test.locations.find(one => one.address === address);
}

export function nameOf(address, bytes = 4) {
  const start = address - address % 4;
  const location = locationAt(start);
  const name = location ? short(location.name) : `@${start}`;
  return bytes === 4 ? name : `${name}+${address % 4}`;
}

const plain = kind => kind.replace(/[12]$/, "");

// an outcome in brief, for a button
export function said(outcome) {
  const [kind, , ...rest] = outcome.split(" ");
  const numbers = rest.map(Number);
  const at = () => nameOf(numbers[0], { 1: 1, 2: 2 }[kind.at(-1)] ?? 4);
  switch (plain(kind)) {
    case "load": return `${at()} = ${numbers[1]}`;
    case "store": return `${at()} := ${numbers[1]}`;
    case "amo": return `${at()}: ${numbers[1]} -> ${numbers[2]}`;
    case "fence": return rest[0] === "full" ? "full fence" : "fence";
    case "inner": return "";
    case "next": return rest[0] === "end" ? "inbox: end" : `inbox: ${rest[0]}`;
    case "took": return `took ${rest[1]} from ${rest[0]}`;
    case "closed": return `closed ${rest[0]}`;
    case "ended": return "exit";
    case "stopped": return `stops (${rest[0]})`;
    case "waited": return "waits";
    case "nothing": return "nothing to land";
    default: return outcome;
  }
}

const VERBS = { load: "loads", store: "stores", amo: "exchanges", fence: "passes a", inner: "computes",
  land: "lands its oldest store", waited: "waits for its store buffer", nothing: "has nothing to land",
  over: "is over", nohart: "isn't there" };

// an outcome as a sentence: "P0 stores x := 1"
export function told(outcome) {
  const [kind, hart] = outcome.split(" ");
  const object = ["load", "store", "amo", "fence"].includes(plain(kind)) ? ` ${said(outcome)}` : "";
  return `P${hart} ${VERBS[plain(kind)] ?? said(outcome)}${object}`;
}

// what each event did, one after the other. A landing names the store that lands, which is its hart's oldest
export function entriesOf(outcomes) {
  const pending = {};
  return outcomes.map(outcome => {
    const [kind, hart] = outcome.split(" "), waiting = pending[hart] ??= [];
    if (plain(kind) === "store") waiting.push(said(outcome));
    const landed = kind === "land" ? waiting.shift() : undefined;
    return landed === undefined ? told(outcome) : `P${hart} lands ${landed}`;
  });
}

export const idle = outcome => /^(waited|nothing|over|nohart) /.test(outcome);

export const many = (count, one) => `${count} ${one}${count === 1 ? "" : "s"}`;

export const stores = row => /^s[bhw] /.test(row?.text ?? "");

// why a hart waits: the program says only that it does
export function reason(hart, number) {
  return stores(rowAt(number, hart.pc)) ? `the store buffer is full: a store of P${number} must land first`
    : `P${number}'s store buffer must be empty first`;
}

export const rowAt = (number, pc) => known.test.harts[number].rows.find(row => row.pc === pc);

export const labelsAt = (number, pc) => known.test.harts[number].labels[pc] ?? [];
