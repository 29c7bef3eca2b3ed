"""What one instruction does, by qemu-riscv32: its debugger's port sets the state, steps and reads it."""

import os
import socket
import subprocess
import tempfile
import time
from pathlib import Path

import binutils

QEMU = "qemu-riscv32"
# RV32I and the A extension alone
CPU = "rv32," + ",".join(f"{name}=off" for name in (
    "c", "m", "f", "d", "Zicsr", "Zifencei", "zba", "zbb", "zbc", "zbs"))
MEMORY_BYTES = 0x4000
# where the code of a row with a memory word lies; all other code lies at 0
BEHIND_MEMORY = MEMORY_BYTES
STEPPED, ILLEGAL = "T05", "T04"
SECONDS = 10


def version():
    return subprocess.run([QEMU, "--version"], check=True, stdout=subprocess.PIPE,
                          text=True).stdout.splitlines()[0]


def make_image(folder):
    """A program of zeros, from address 0 to the end of the page behind the memory."""
    source, module, image = (str(Path(folder) / f"image.{kind}") for kind in ("s", "o", "elf"))
    Path(source).write_text('.section .image, "awx", @progbits\n'
                            f".zero {BEHIND_MEMORY + 0x1000}\n")
    binutils.tool("as", "-march=rv32ia", "-mabi=ilp32", source, "-o", module)
    binutils.tool("ld", "-m", "elf32lriscv", "--section-start=.image=0", "-e", "0", "-z",
                  "max-page-size=4096", "--no-warn-rwx-segments", module, "-o", image)
    return image


class Hart:
    """A hart of its own in a new process, stopped before its first instruction."""

    def __init__(self, image):
        self.folder = tempfile.TemporaryDirectory()
        port = os.path.join(self.folder.name, "port")
        self.process = subprocess.Popen([QEMU, "-cpu", CPU, "-g", port, image],
                                        stdin=subprocess.DEVNULL, stderr=subprocess.DEVNULL)
        self.socket = socket.socket(socket.AF_UNIX)
        self.socket.settimeout(SECONDS)
        end = time.monotonic() + SECONDS
        while True:
            try:
                self.socket.connect(port)
                break
            except OSError:
                if time.monotonic() > end or self.process.poll() is not None:
                    raise
                time.sleep(0.002)
        self.answers = self.socket.makefile("rb")

    def __enter__(self):
        return self

    def __exit__(self, *_):
        self.process.kill()
        self.process.wait()
        self.answers.close()
        self.socket.close()
        self.folder.cleanup()

    def ask(self, packet):
        """The answer to a packet of the debugger's protocol."""
        body = packet.encode()
        self.socket.sendall(b"$%s#%02x" % (body, sum(body) % 256))
        answer = b""
        while not answer.endswith(b"#"):
            byte = self.answers.read(1)
            if not byte:
                raise OSError("qemu has gone")
            answer += byte
        self.answers.read(2)
        self.socket.sendall(b"+")
        return answer[:-1].lstrip(b"+$").decode()

    def command(self, packet):
        if self.ask(packet) != "OK":
            raise OSError(f"qemu refuses {packet[:20]}")

    def write_words(self, address, words):
        data = b"".join(word.to_bytes(4, "little") for word in words)
        self.command(f"M{address:x},{len(data):x}:{data.hex()}")

    def memory(self):
        """The memory's words that aren't 0, by address."""
        size = 0x400
        data = b"".join(bytes.fromhex(self.ask(f"m{address:x},{size:x}"))
                        for address in range(0, MEMORY_BYTES, size))
        words = {i: int.from_bytes(data[i:i + 4], "little") for i in range(0, MEMORY_BYTES, 4)}
        return {address: word for address, word in words.items() if word}

    def set_registers(self, registers, pc):
        """All 32, those that aren't given as 0, and the pc."""
        values = [registers.get(i, 0) for i in range(32)] + [pc]
        self.command("G" + b"".join(value.to_bytes(4, "little") for value in values).hex())

    def registers(self):
        """The registers that aren't 0, by number, and the pc."""
        data = bytes.fromhex(self.ask("g"))
        values = [int.from_bytes(data[i:i + 4], "little") for i in range(0, 33 * 4, 4)]
        return {i: value for i, value in enumerate(values[:32]) if value}, values[32]


def effect(image, code, index, registers, words):
    """Registers, pc and memory after the code's word at that index, each without what is 0.
    `words` are the memory's words by address; without any, the code lies where they would."""
    origin = BEHIND_MEMORY if words else 0
    with Hart(image) as hart:
        hart.write_words(origin, code)
        for address, word in words.items():
            hart.write_words(address, [word])
        hart.set_registers(registers, origin + 4 * index)
        if not hart.ask("s").startswith(STEPPED):
            raise ValueError(f"qemu doesn't execute {code[index]:08x}")
        after, pc = hart.registers()
        return after, (pc - origin) % 2**32, hart.memory() if words else {}


def is_illegal(image, word):
    """Whether an instruction with this word raises the signal of an illegal instruction."""
    with Hart(image) as hart:
        hart.write_words(BEHIND_MEMORY, [word])
        hart.set_registers({6: 8}, BEHIND_MEMORY)
        return hart.ask("s").startswith(ILLEGAL)
