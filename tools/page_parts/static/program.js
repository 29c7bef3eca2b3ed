// One command of the program: an instance of ztso.wasm of its own, with its words, files and standard input in memory. It
// calls seven functions of WASI (wasi_snapshot_preview1).

import { Failed } from "./faults.js";

const OUTPUT = 16 << 20;
// what WASI answers: no fault, no such descriptor, no such file
const GOOD = 0, BAD_DESCRIPTOR = 8, MISSING = 44;
// descriptors: standard input, output and error; 3 is the folder, so files begin after it
const TYPED = 0, OUT = 1, ERR = 2, FIRST = 4;
const HALVES = /[\ud800-\udbff](?![\udc00-\udfff])|(?<![\ud800-\udbff])[\udc00-\udfff]/g;

class Ended extends Error {
  constructor(status) {
    super();
    this.status = status;
  }
}

// a text's bytes. Half of a surrogate pair is no UTF-8, which the program then says
export function bytesOf(text) {
  const parts = [], add = part => parts.push(new TextEncoder().encode(part));
  let at = 0;
  for (const { 0: half, index } of text.matchAll(HALVES)) {
    const code = half.charCodeAt(0);
    add(text.slice(at, index));
    parts.push(Uint8Array.of(0xe0 | code >> 12, 0x80 | code >> 6 & 0x3f, 0x80 | code & 0x3f));
    at = index + 1;
  }
  add(text.slice(at));
  return joined(parts);
}

function joined(parts) {
  const whole = new Uint8Array(parts.reduce((size, part) => size + part.length, 0));
  let at = 0;
  for (const part of parts) {
    whole.set(part, at);
    at += part.length;
  }
  return whole;
}

// what an instance is given and what it writes
class Host {
  constructor(words, files, typed) {
    this.words = ["ztso", ...words].map(word => joined([bytesOf(word), Uint8Array.of(0)]));
    this.files = files;
    this.open = new Map([[TYPED, { bytes: bytesOf(typed), at: 0 }]]);
    Object.assign(this, { written: { [OUT]: [], [ERR]: [] }, size: 0, next: FIRST, memory: null });
  }

  bytes(at, length) {
    return new Uint8Array(this.memory.buffer, at, length);
  }

  set(at, value) {
    new DataView(this.memory.buffer).setUint32(at, value, true);
  }

  // the buffers of a read or a write, which stand in memory as pairs of an address and a length
  buffers(at, count) {
    const numbers = new DataView(this.memory.buffer, at, 8 * count);
    return Array.from({ length: count }, (_, one) =>
      this.bytes(numbers.getUint32(8 * one, true), numbers.getUint32(8 * one + 4, true)));
  }

  args_sizes_get(count, length) {
    this.set(count, this.words.length);
    this.set(length, this.words.reduce((sum, word) => sum + word.length, 0));
    return GOOD;
  }

  args_get(places, start) {
    let at = start;
    this.words.forEach((word, index) => {
      this.set(places + 4 * index, at);
      this.bytes(at, word.length).set(word);
      at += word.length;
    });
    return GOOD;
  }

  path_open(_folder, _lookup, path, length, _how, _rights, _inherited, _flags, descriptor) {
    const name = new TextDecoder().decode(this.bytes(path, length));
    if (!Object.hasOwn(this.files, name)) return MISSING;
    this.open.set(this.next, { bytes: bytesOf(this.files[name]), at: 0 });
    this.set(descriptor, this.next);
    this.next += 1;
    return GOOD;
  }

  fd_read(descriptor, buffers, count, done) {
    const file = this.open.get(descriptor);
    if (!file) return BAD_DESCRIPTOR;
    const begun = file.at;
    for (const buffer of this.buffers(buffers, count)) {
      const piece = file.bytes.subarray(file.at, file.at + buffer.length);
      buffer.set(piece);
      file.at += piece.length;
    }
    this.set(done, file.at - begun);
    return GOOD;
  }

  fd_write(descriptor, buffers, count, done) {
    if (!(descriptor in this.written)) return BAD_DESCRIPTOR;
    const pieces = this.buffers(buffers, count).map(buffer => buffer.slice());
    const sum = pieces.reduce((size, piece) => size + piece.length, 0);
    this.written[descriptor].push(...pieces);
    this.size += sum;
    if (this.size > OUTPUT) throw new Failed("the program's answer is too long for the page");
    this.set(done, sum);
    return GOOD;
  }

  fd_close(descriptor) {
    return this.open.delete(descriptor) ? GOOD : BAD_DESCRIPTOR;
  }

  proc_exit(status) {
    throw new Ended(status);
  }

  text(descriptor) {
    return new TextDecoder("utf-8", { ignoreBOM: true }).decode(joined(this.written[descriptor]));
  }
}

const CALLS = ["args_sizes_get", "args_get", "path_open", "fd_read", "fd_write", "fd_close", "proc_exit"];

// the status, standard output and standard error of a command. The files' names are its last words
export function run(module, words, files, typed) {
  const host = new Host([...words, ...Object.keys(files)], files, typed);
  const calls = Object.fromEntries(CALLS.map(name => [name, (...given) => host[name](...given)]));
  try {
    const { exports } = new WebAssembly.Instance(module, { wasi_snapshot_preview1: calls });
    host.memory = exports.memory;
    exports._start();
  } catch (error) {
    if (error instanceof Ended) return { status: error.status, out: host.text(OUT), err: host.text(ERR) };
    if (error instanceof Failed) throw error;
    throw new Failed(`the program was ended: ${error.message}`);
  }
  throw new Failed("the program didn't say how it ended");
}
