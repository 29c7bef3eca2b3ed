// Where the page's answers come from: here the server of tools/page, which asks the program. A page without a server has
// a module of the same name in this one's place.

export const WORDS = {
  gone: "No answer from tools/page. If it has ended, start it again and open its new address; copy what you want to keep.",
  noC: "C can't be compiled here: a compiler for RISC-V, or its binutils, isn't installed. docs/from-c.md names the packages.",
  opens: "a litmus text, a text of herd's, C, or a schedule",
  linked: "Copied: put it after the address of any such page, or into its Paste. " };

// what a link begins with, before its `#`: nothing, since the address has the server's secret
export const address = () => "";

export async function shelf() {
  return (await fetch("shelf")).json();
}

// the answer to a question, or an AbortError where the signal stops it
export async function answered(route, body, signal) {
  const reply = await fetch(route, { method: "POST", headers: { "Content-Type": "application/json" },
    body: JSON.stringify(body), signal });
  return reply.json();
}
