// Where the page's answers come from: here two workers, each with the program compiled to WebAssembly. One answers what a
// step asks, the other what may take long. A question that is stopped or takes too long ends its worker.

export const WORDS = {
  gone: "The program doesn't answer. Load the page again; copy what you want to keep.",
  noC: "C isn't compiled here. tools/page, in the repository, takes C.",
  opens: "a litmus text or a schedule",
  linked: "Copied: whoever opens it sees this run. " };

// what a link begins with, before its `#`
export const address = () => location.origin + location.pathname;

const LONG = ["draw", "find"], SECONDS = 60;
// a step that nobody waits for any more is mostly done sooner than another worker begins
const PATIENCE = 500;
const LATE = `The search took more than ${SECONDS} seconds and was ended. The command \`find\` has no such limit.`;

// the worker's scripts, each after those that it imports
const SCRIPTS = ["state.js", "schedules.js", "known.js", "faults.js", "listing.js", "program.js", "answers.js", "worker.js"];
// a browser with trusted types starts the worker's script and no other
const policy = globalThis.trustedTypes?.createPolicy("ztso", { createScriptURL(address) {
  if (address !== scripts["worker.js"]) throw new TypeError(address);
  return address;
} });

const scripts = {};
let loading = null;

// the program, what the folder says of tests and refusals, and the worker's scripts: loaded once, so that a worker begins
// without a network too
const loaded = () => loading ??= load();

async function load() {
  const [known, program, ...texts] = await Promise.all(["known.json", "ztso.wasm", ...SCRIPTS].map(fetched));
  SCRIPTS.forEach((name, at) => {
    const text = new TextDecoder().decode(texts[at]).replace(/ from "\.\/([a-z]+\.js)";/g, (_, used) => ` from "${scripts[used]}";`);
    scripts[name] = URL.createObjectURL(new Blob([text], { type: "text/javascript" }));
  });
  // a host may not know the kind of file that compileStreaming wants
  return { known: JSON.parse(new TextDecoder().decode(known)), module: await WebAssembly.compile(program) };
}

async function fetched(name) {
  const reply = await fetch(name);
  if (!reply.ok) throw new Error(`${name} isn't there`);
  return reply.arrayBuffer();
}

export async function shelf() {
  document.getElementById("slow")?.remove();
  return (await loaded()).known;
}

// a worker, and the questions that it answers one after the other
class Answerer {
  constructor(name) {
    Object.assign(this, { name, waiting: [], asked: null, worker: null });
  }

  ask(question) {
    this.waiting.push(question);
    this.next();
  }

  async next() {
    if (this.asked || !this.waiting.length) return;
    const question = this.asked = this.waiting.shift();
    try {
      this.worker ??= await this.begin();
    } catch (error) {
      this.answer({ error: `The program can't be started: ${error.message}` });
      return;
    }
    if (question.isStopped) {
      this.answer(null);
      return;
    }
    question.clock = setTimeout(() => this.end(question.route === "find"
      ? { fault: { name: "Late", line: "", number: null, place: {}, words: [LATE] } }
      : { error: `the program took more than ${SECONDS} seconds and was ended` }), 1000 * SECONDS);
    this.worker.postMessage({ route: question.route, body: question.body });
  }

  async begin() {
    const given = await loaded();
    const script = scripts["worker.js"], address = policy?.createScriptURL(script) ?? script;
    const worker = new Worker(address, { type: "module", name: this.name });
    worker.addEventListener("message", ({ data }) => this.answer(data));
    worker.addEventListener("error", () => this.end({ error: WORDS.gone }));
    worker.postMessage(given);
    return worker;
  }

  answer(words) {
    const question = this.asked;
    clearTimeout(question.clock);
    this.asked = null;
    question.answered(words);
    this.next();
  }

  // ends the worker amid its question
  end(words) {
    this.worker.terminate();
    this.worker = null;
    if (this.asked) this.answer(words);
  }

  stop(question, patience) {
    question.isStopped = true;
    this.waiting = this.waiting.filter(one => one !== question);
    const end = () => this.asked === question && this.worker && this.end(null);
    if (patience) setTimeout(end, patience);
    else end();
  }
}

const answerers = { long: new Answerer("long"), step: new Answerer("step") };

// the answer to a question, or an AbortError where the signal stops it
export function answered(route, body, signal) {
  const kind = LONG.includes(route) ? "long" : "step";
  return new Promise((done, failed) => {
    const question = { route, body, answered: done };
    signal?.addEventListener("abort", () => {
      failed(signal.reason);
      answerers[kind].stop(question, kind === "step" ? PATIENCE : 0);
    });
    answerers[kind].ask(question);
  });
}
