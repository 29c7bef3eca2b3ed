// Answers the page's questions one after the other, by the program that runs in this thread.

import { answerOf } from "./answers.js";
import { know } from "./known.js";
import { run } from "./program.js";

let module = null;

const ztso = (words, files, typed) => run(module, words, files, typed);

self.addEventListener("message", ({ data }) => {
  if (data.module) {
    ({ module } = data);
    know(data.known);
  } else {
    self.postMessage(answerOf(ztso, data.route, data.body));
  }
});
