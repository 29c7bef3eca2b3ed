"""The parts of tools/page: a server on 127.0.0.1 that answers a page's questions by commands of the program.

programs    finds the program, or has it built, and asks what it can do
server      who is let in, and the files of the page (site/)
questions   what a question may hold
answers     each question's commands, and what they printed, taken apart
listing     what a test is: names, code, condition
slips       what looks like a slip of the pen in a test
shelf       the tests of litmus/ with their witnesses
bringing    C, and texts of herd's, made into tests by tools/from-c and tools/from-herd
faults      refusals, in the words of docs/errors.md
calls       children, with the time, memory and output that each may take
folder      the page as a folder that needs no server: site/, with static/ in the server's place
"""

from pathlib import Path

TOOLS = Path(__file__).resolve().parent.parent
ROOT = TOOLS.parent
