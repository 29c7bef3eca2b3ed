// What looks like a slip of the pen in a test that the program takes, in words: what tools/page_parts/slips.py does on a
// server.

// what an instruction sets, as `show` prints it: of stores, branches and fences nothing
const SETS = /^(?!s[bhw] |b|fence)\S+ x([0-9]+),/;
// the offset and the base of the address that it touches
const TOUCHES = /^(?!jalr )\S+ .*?(-?[0-9]*)\(x([0-9]+)\)/;
const wrapped = address => (address % 2 ** 32 + 2 ** 32) % 2 ** 32;

// a line for each base register that nothing sets, one for all locations that one of several harts names, and one for each
// thing that the condition asks of and no code changes or loads
export const slips = (harts, lefts, locations) =>
  [...unsetBases(harts, locations), ...namedOnce(harts), ...untouched(harts, lefts)];

// each row that touches memory, with the base and the offset
const touches = hart => hart.rows.flatMap(row => {
  const shape = TOUCHES.exec(row.text);
  return shape ? [{ row, base: Number(shape[2]), offset: Number(shape[1]) }] : [];
});

const setByCode = hart => new Set(hart.rows.map(row => SETS.exec(row.text)).filter(Boolean).map(shape => Number(shape[1])));

function* unsetBases(harts, locations) {
  const names = new Map([...locations].map(([name, address]) => [address, name]));
  for (const [number, hart] of harts.entries()) {
    // x0 is 0 on purpose
    const known = new Set([0, ...Object.keys(hart.opens).map(Number), ...setByCode(hart)]);
    for (const { row, base, offset } of touches(hart)) {
      if (known.has(base)) continue;
      known.add(base);
      const address = wrapped(offset), place = names.has(address) ? `\`${names.get(address)}\`` : `address ${address}`;
      yield `Nothing sets P${number}'s \`x${base}\`: it is 0, and \`${row.text}\` (line ${row.line}) touches ${place}.`;
    }
  }
}

// locations that only one of several harts names
function* namedOnce(harts) {
  const namers = new Map();
  harts.forEach(({ pointers }, hart) => {
    for (const name of Object.values(pointers)) namers.set(name, (namers.get(name) ?? new Set()).add(hart));
  });
  const lone = [...namers].filter(([, of]) => of.size === 1).map(([name, [hart]]) => `\`${name}\` (P${hart})`);
  if (lone.length && harts.length > 1) yield `Only one hart names ${lone.join(" and ")}. To share a location, both harts name it.`;
}

// registers that the condition asks of and their hart never sets, and locations that no hart touches
function* untouched(harts, lefts) {
  const touched = wordsTouched(harts);
  for (const { name, place: [kind, ...place] } of lefts) {
    if (kind === "register" && !setByCode(harts[place[0]]).has(place[1])) {
      yield `The condition asks of \`${name}\`, which no instruction of P${place[0]} sets.`;
    } else if (kind === "word" && touched && !touched.has(place[0])) {
      yield `The condition asks of \`${name}\`, which no hart touches.`;
    }
  }
}

// the addresses of the words that harts touch, or null where code computes an address
function wordsTouched(harts) {
  const touched = new Set();
  for (const hart of harts) {
    const computed = setByCode(hart);
    for (const { base, offset } of touches(hart)) {
      if (computed.has(base)) return null;
      touched.add(Math.floor(wrapped((hart.opens[base] ?? 0) + offset) / 4) * 4);
    }
  }
  return touched;
}
