"""The queue's functions for C and Rust, as an archive: their declarations, their words and how to compile them."""

import tree
from package_parts import archive

# each file's place in the archive, and in the repository: `queue.h` names docs/functions.md, which leads to the promises
FILES = {"queue.h": "examples/bare-metal/queue.h", "queue.rs": "examples/bare-metal/queue.rs",
         "functions.S": "examples/bare-metal/functions.S",
         **{f"docs/{name}.md": f"docs/{name}.md" for name in ("functions", "functions-promises")}}
README = """\
A queue of words from one hart to another, for C11, C++ and Rust: ztso {version}

queue.h                     its block, and its functions' declarations (RV32, ilp32)
queue.rs                    the same for Rust
functions.S                 the functions: of Lamport's queue, with a cached tail too, and of FastForward's
docs/functions.md           what your code owes; its links lead to pages of ztso's repository
docs/functions-promises.md  what your code gets

    #include "queue.h"

    LAMPORT_QUEUE(messages, 8);                  /* 8 slots: 7 words may wait */
    struct messages queue;                       /* all zero: empty */

    hart 0:  while (!QUEUE_TRY_SEND(&queue, word)) {{}}
    hart 1:  struct received got = QUEUE_TRY_RECEIVE(&queue);
             if (got.ok) use(got.word);

    riscv64-unknown-elf-gcc -march=rv32ima -mabi=ilp32 -ffreestanding -c mine.c functions.S

No call has a loop, takes a lock, or executes a fence or an atomic instruction. What each call does, and what your code
gets if it keeps eight rules, is proved of these words on harts with Ztso, as ztso's model defines them. Nothing is
claimed of hardware, of harts without Ztso, or of your compiler. The command `ztso callers` of the package ztso tries
whether your code keeps the rules.
"""


def write(to, epoch):
    files = [tree.File("README", README.format(version=tree.version()).encode(), False)]
    files += [tree.File(place, (tree.TOP / name).read_bytes(), False) for place, name in FILES.items()]
    return archive.write(to, "queue", files, epoch)
