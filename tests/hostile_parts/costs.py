"""What the dearest inputs cost, which docs/security.md states: processor seconds and peak memory, each with its bound."""

import itertools
import os
import subprocess
from pathlib import Path

from .limits import NONE, litmus
from .runs import brief

KINDS = ["find", "check", "try", "channel", "run", "debug", "queue"]
MINUTES = 10
# each of 4,096 words of memory is changed, and then one of them in every second state
FILL = ["fill: amoswap.w x0,x5,(x6)", "addi x6,x6,4", "addi x5,x5,1", "addi x7,x7,-1", "bnez x7,fill", "li x8,8192",
        "count: amoadd.w x0,x9,(x8)", "j count"]

# the receiver of `long_record`: it looks, and then loads the record's first word and ends
RECEIVER = """hart
open 0
state 0
share 0 0 0
leaf 0
to 1 1*0
state 4
most 1
reg 5 1*0
share 0 0 1*0
split 0 0
leaf 0
to 0
leaf 0
to 2
state 8
share 0 0 1
leaf 0
to 3
state 12
share 0 0 1
leaf 0
"""


def observed():
    """A test of 64 harts that observes 3,072 registers and words. Eight of the harts count up one word."""
    words = [f"x{number}" for number in range(1024)]
    lefts = [f"{hart}:x{register}=0" for hart in range(64) for register in range(1, 32)] + [f"{word}=0" for word in words]
    items = "".join(f"{hart}:x5=1; {hart}:x6=x0; " for hart in range(8)) + "".join(f"{word}=0; " for word in words)
    harts = [f"P{hart}" for hart in range(64)], ["amoadd.w x7,x5,(x6)"] * 8 + [""] * 56
    rows = "".join(" | ".join(cells) + " ;\n" for cells in harts)
    condition = " /\\ ".join(lefts[:3072])
    return f"RISCV X\n{{{items}}}\n{rows}exists ({condition})\n".encode()


def records(count):
    """Records of that test, each in another order of the harts, and so with another outcome."""
    orders = itertools.islice(itertools.permutations(range(8)), count)
    return "".join("ztso-schedule 2\n" + "".join(f"a{hart} amo {hart} 0 {at} {at + 1}\n" for at, hart in enumerate(order))
                   for order in orders).encode()


def racing():
    """A test of eight harts that count up one word. Each order of them is another outcome."""
    parts = [(f"{hart}:x5=1", f"P{hart}", "amoadd.w x6,x5,(x0)", f"{hart}:x6=9") for hart in range(8)]
    items, names, cells, lefts = zip(*parts)
    condition = " /\\ ".join(lefts)
    return f"RISCV X\n{{{'; '.join(items)}}}\n {' | '.join(names)} ;\n {' | '.join(cells)} ;\nexists ({condition})\n".encode()


def empty_cells():
    row = "|" * 63 + ";\n"
    names = "|".join(f"P{hart}" for hart in range(64))
    return f"RISCV X\n{{}}\n{names};\n{row * 16_120}exists (x=0)\n".encode()


def long_record(count):
    """A test whose sender stores a record byte by byte, and the certificate that shows it: a state for each byte."""
    sends = [f"sb x5,{8 + at - (8 + at + 2048) // 4096 * 4096}(x{(8 + at + 2048) // 4096})" for at in range(count)] + ["sw x5,0(x0)"]
    takes = ["L: lw x5,0(x0)", "beq x5,x0,L", "lw x6,8(x0)", *[""] * (count - 2)]
    bases = "".join(f"; 0:x{number}={4096 * number}" for number in range(1, 4))
    rows = "".join(f" {left} | {right} ;\n" for left, right in zip(sends, takes))
    known = "reg 1 4096\nreg 2 8192\nreg 3 12288\nreg 5 1\n"
    states = "".join(f"state {4 * at}\n{known}share 0 0 1\nleaf {int(at == count)}\nto {at + 1}\n" for at in range(count + 1))
    return (f"RISCV X\n{{ 0:x5=1{bases} }}\n P0 | P1 ;\n{rows}exists (1:x6=0)\n".encode(),
            (f"ztso-queues 1\nqueue 0 1 0 4 4 8 1 {count} 1 0 1 0 4294967296 0\nhart\nopen 0\n{states}"
             f"state {4 * count + 4}\nshare 0 1 0\nleaf 0\n{RECEIVER}").encode())


def large_slots():
    """A queue with a slot of 4,096 bytes, which loses no record in any run: all of them are alike. Its sender never looks, and its receiver
    looks once, and then loads the first record again and again. The certificate shows nothing, so that drawn runs are asked."""
    sends = ["L: sw x5,2000(x9)", "sw x5,8(x0)", "addi x6,x6,1", "sw x6,0(x0)", "j L"]
    takes = ["L: lw x6,0(x0)", "beq x5,x6,L", "M: lw x7,2000(x9)", "lw x7,8(x0)", "j M"]
    rows = "".join(f" {left} | {right} ;\n" for left, right in zip(sends, takes))
    states = "".join(f"hart\nopen 0\nstate 0\nshare 0 0 {free}\nleaf 0\nto 0\n" for free in (1, 0))
    return (f"RISCV X\n{{ 0:x5=7; 0:x9=4096; 1:x9=4096; }}\n P0 | P1 ;\n{rows}exists (1:x6=0)\n".encode(),
            f"ztso-queues 1\nqueue 0 1 0 4 4 8 1 4096 1 0 1 0 4294967296 0\n{states}".encode())


def rows(short):
    """The words, standard input, the file `text`, the status, and at most how many seconds and MiB."""
    yield ["find", "text", "--states", "40500"], b"", litmus(
        cells=FILL, items="0:x7=4096; 0:x5=1000000; 0:x9=1", condition="exists (0:x7=1)"), 5, 10, 12
    yield ["check", "text"], records(200), observed(), 0, 2, 16
    drawn = ["--seed", "1", "--runs", "8" if short else "64", "--length", "1048576"]
    yield ["try", "text", *drawn], b"", racing(), 1, 60, 16
    yield ["channel", "lamport", "2", "none", "--finish"], b"7 " * 520_000 + b"\n", b"", 0, 10, 256
    yield ["run", "text", "none"], b"", empty_cells(), 0, 2, 96
    stores = litmus(cells=["L: sw x0,0(x0)", "j L"])
    yield ["debug", "text", "stores"], b"g\nq\n", stores, 0, 10, 80
    text, certificate = long_record(4000)
    yield ["queue", "text", "--certificate", "/dev/stdin", "--safety", "--written", "all"], certificate, text, 0, 4, 24
    text, certificate = large_slots()
    yield ["queue", "text", "--certificate", "/dev/stdin"], certificate, text, 11, 2, 8
    if not short:
        lists = (b"7 " * 8200 + b"\n") * 63
        yield ["channel", "lamport", "2", "none", "--finish"], lists, b"", 0, 120, 256
        yield ["check", "text"], b"ztso-schedule 2\na0*1000000 inner 0\n" * 1687, litmus(cells=["L: j L"]), 0, 240, 48


def hold(runs, words, stdin, text, status, most_seconds, most_mib):
    runs.put({"text": text, "none": NONE, "stores": NONE + b"a0*2 l0 " * 131_000})
    Path("stdin").write_bytes(stdin)
    with open("stdin", "rb") as given, open("stdout", "wb") as out:
        done = subprocess.run(["/usr/bin/time", "-o", "cost", "-f", "%U %S %M", runs.program, *words], stdin=given, stdout=out,
                              stderr=subprocess.PIPE, timeout=60 * MINUTES)
    user, system, peak = Path("cost").read_text().split()[-3:]
    seconds, mib = float(user) + float(system), int(peak) / 1024
    right = done.returncode == status and seconds <= most_seconds and mib <= most_mib
    runs.hold(words[0], right, f"{brief((done.returncode, done.stderr, b''))}, {seconds:.1f} s, {mib:.0f} MiB", words)
    print(f"  {' '.join(words)}: {seconds:.1f} of {most_seconds} s, {mib:.0f} of {most_mib} MiB", flush=True)


def part(runs):
    if not os.path.exists("/usr/bin/time"):
        print("costs: no /usr/bin/time")
        return
    for row in rows(runs.short):
        hold(runs, *row)
    runs.counts("costs", KINDS)
