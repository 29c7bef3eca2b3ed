// Schedules: lists of events, `a0` for an act of hart 0 and `l0` for a landing.

import { state } from "./state.js";

export const HEAD = "ztso-schedule 1\n";

// the longest runs of equal events, each with its first place and how many they are
export function groups(events) {
  const found = [];
  events.forEach((event, from) => {
    if (found.length && found.at(-1).event === event) found.at(-1).count += 1;
    else found.push({ event, from, count: 1 });
  });
  return found;
}

export const token = (event, count) => count > 1 ? `${event}*${count}` : event;

export const tokens = events => groups(events).map(({ event, count }) => token(event, count)).join(" ");

// the tokens of a schedule that the page takes, as they stand in a link
const TOKENS = /^(?:[al][0-9]{1,2}(?:\*[0-9]{1,4})?(?: |$))*$/;

export const areTokens = text => typeof text === "string" && TOKENS.test(text);

// how many events tokens are, whatever stands between them
export const counted = text => [...text.matchAll(/[al][0-9]+(?:\*([0-9]+))?/g)].reduce((sum, [, count]) =>
  sum + Number(count ?? 1), 0);

export function expanded(text) {
  return text.split(/\s+/).filter(word => word).flatMap(word => {
    const [event, count] = word.split("*");
    return Array(Number(count ?? 1)).fill(event);
  });
}

// the members of a question about a run of the state's test
export const about = (events = state.events) => ({ text: state.text, tokens: tokens(events), buffer: state.buffer });
