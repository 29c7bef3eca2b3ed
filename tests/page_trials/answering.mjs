// Answers questions by the scripts of the page without a server: node answering.mjs FOLDER [PROGRAM]
//
// FOLDER has the scripts and known.json. Each line of standard input is a question, {"route": .., "body": ..}, and each
// line that is printed is its answer. FOLDER/ztso.wasm runs, or PROGRAM, which is a native one.

import { spawnSync } from "node:child_process";
import { mkdtempSync, readFileSync, rmSync, writeFileSync } from "node:fs";
import { tmpdir } from "node:os";
import { join, resolve } from "node:path";
import { createInterface } from "node:readline";
import { pathToFileURL } from "node:url";

const [folder, native] = process.argv.slice(2);
const from = name => import(pathToFileURL(resolve(folder, name)));
const { answerOf } = await from("answers.js"), { know } = await from("known.js"), { bytesOf, run } = await from("program.js");

const MOST = 16 << 20;

function byNative(words, files, typed) {
  const cwd = mkdtempSync(join(tmpdir(), "ztso-page-"));
  try {
    for (const [name, text] of Object.entries(files)) writeFileSync(join(cwd, name), bytesOf(text));
    const { status, stdout, stderr } = spawnSync(native, [...words, ...Object.keys(files)],
      { cwd, input: bytesOf(typed ?? ""), maxBuffer: MOST });
    return { status, out: stdout.toString(), err: stderr.toString() };
  } finally {
    rmSync(cwd, { recursive: true });
  }
}

function byWasm() {
  const module = new WebAssembly.Module(readFileSync(join(folder, "ztso.wasm")));
  return (words, files, typed) => run(module, words, files, typed);
}

know(JSON.parse(readFileSync(join(folder, "known.json"))));
const ztso = native ? byNative : byWasm();
for await (const line of createInterface({ input: process.stdin })) {
  const { route, body } = JSON.parse(line);
  console.log(JSON.stringify(answerOf(ztso, route, body)));
}
