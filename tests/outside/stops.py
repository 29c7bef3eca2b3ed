"""The words at which a hart stops: those that no row of the machine's table has, and accesses at
addresses that aren't multiples of their size.

Each is a text for the assembler with the extensions it needs, and why the machine stops there.
"""

from dataclasses import dataclass

ILLEGAL = 8
MISALIGNED = 9

# extensions for the assembler, why the word isn't in the table, the instructions
OTHER_EXTENSIONS = [
    ("rv32ia", "LR and SC: funct5 00010 and 00011 of opcode AMO",
     ("lr.w x5, (x6)", "lr.w.aqrl x5, (x6)", "sc.w x5, x7, (x6)", "sc.w.rl x0, x0, (x6)")),
    ("rv32i_zifencei", "Zifencei: funct3 001 of opcode MISC-MEM", ("fence.i",)),
    ("rv32i_zicsr", "Zicsr: funct3 other than 000 of opcode SYSTEM",
     ("csrrw x5, mscratch, x6", "csrrs x5, cycle, x0", "csrrc x0, mstatus, x6",
      "csrrwi x5, mscratch, 3", "csrrsi x5, fflags, 0", "csrrci x0, mstatus, 31")),
    ("rv32im", "M: funct7 0000001 of opcode OP",
     ("mul x5, x6, x7", "mulh x5, x6, x7", "mulhsu x5, x6, x7", "mulhu x5, x6, x7",
      "div x5, x6, x7", "divu x5, x6, x7", "rem x5, x6, x7", "remu x0, x6, x7")),
    ("rv64i", "RV64I: funct3 011 and 110 of opcode LOAD, 011 of STORE",
     ("ld x5, 0(x6)", "lwu x5, 0(x6)", "sd x5, 0(x6)")),
    ("rv64i", "RV64I: a shift amount of 32 or more sets bit 25",
     ("slli x5, x6, 32", "srli x5, x6, 33", "srai x5, x6, 32", "srai x5, x6, 63")),
    ("rv64i", "RV64I: opcodes OP-IMM-32 and OP-32",
     ("addiw x5, x6, -1", "slliw x5, x6, 31", "sraiw x5, x6, 1", "addw x5, x6, x7",
      "subw x5, x6, x7", "sraw x5, x6, x7")),
    ("rv64ia", "RV64A: funct3 011 of opcode AMO",
     ("amoadd.d x5, x7, (x6)", "amoswap.d.aqrl x5, x7, (x6)", "lr.d x5, (x6)",
      "sc.d x5, x7, (x6)")),
    ("rv32ifd_zicsr", "F and D: opcodes LOAD-FP, STORE-FP, OP-FP and MADD",
     ("flw f5, 0(x6)", "fsd f5, 0(x6)", "fadd.s f5, f6, f7", "fmadd.d f5, f6, f7, f8")),
    ("rv32i_zba_zbb", "Zba and Zbb: other funct7 and funct3 of OP and OP-IMM",
     ("andn x5, x6, x7", "sh1add x5, x6, x7", "rol x5, x6, x7", "clz x5, x6", "rori x5, x6, 3")),
    ("rv32i", "privileged: funct3 000 of SYSTEM with another funct12",
     ("mret", "sret", "wfi", "sfence.vma x0, x0")),
    ("rv32ic", "C: the two lowest bits aren't 11; here two instructions make a word",
     ("c.addi x8, 1; c.addi x8, 1", "c.lw x8, 0(x9); c.nop", "c.mv x5, x6; c.jr x1")),
]

NO_INSTRUCTION = [
    ("rv32i", "funct3 010 and 011 of opcode BRANCH",
     (".insn sb 0x63, 2, x5, x6, .+8", ".insn sb 0x63, 3, x0, x0, .+8")),
    ("rv32i", "funct3 111 of opcode LOAD", (".insn i 0x03, 7, x5, 0(x6)",)),
    ("rv32i", "funct3 100 to 111 of opcode STORE",
     (".insn s 0x23, 4, x5, 0(x6)", ".insn s 0x23, 5, x5, 0(x6)", ".insn s 0x23, 6, x5, 0(x6)",
      ".insn s 0x23, 7, x5, 0(x6)")),
    ("rv32i", "funct3 other than 000 of opcode JALR",
     (".insn i 0x67, 1, x5, x6, 0", ".insn i 0x67, 2, x5, x6, 0", ".insn i 0x67, 7, x0, x1, 0")),
    ("rv32i", "funct3 of opcode AMO that is no word or double word",
     (".insn r 0x2f, 0, 0, x5, x6, x7", ".insn r 0x2f, 1, 0, x5, x6, x7",
      ".insn r 0x2f, 7, 0, x5, x6, x7")),
    ("rv32i", "funct5 of opcode AMO that no word AMO has: 00111, 00110, 10010, 11111",
     (".insn r 0x2f, 2, 0x1c, x5, x6, x7", ".insn r 0x2f, 2, 0x18, x5, x6, x7",
      ".insn r 0x2f, 2, 0x48, x5, x6, x7", ".insn r 0x2f, 2, 0x7c, x5, x6, x7")),
    ("rv32i", "LR with rs2 other than 0", (".insn r 0x2f, 2, 0x08, x5, x6, x7",)),
    ("rv32i", "funct7 0100000 of OP with a funct3 other than those of SUB and SRA",
     (".insn r 0x33, 1, 0x20, x5, x6, x7", ".insn r 0x33, 2, 0x20, x5, x6, x7",
      ".insn r 0x33, 3, 0x20, x5, x6, x7")),
    ("rv32i", "funct7 of OP that is none of 0000000 and 0100000",
     (".insn r 0x33, 0, 0x40, x5, x6, x7", ".insn r 0x33, 5, 0x60, x5, x6, x7",
      ".insn r 0x33, 0, 0x7f, x5, x6, x7", ".insn r 0x33, 7, 0x02, x5, x6, x7")),
    ("rv32i", "bits 25 to 31 of a shift by an immediate other than 0000000, and 0100000 for SRAI",
     (".insn i 0x13, 1, x5, x6, 0x401", ".insn i 0x13, 1, x5, x6, -2047",
      ".insn i 0x13, 5, x5, x6, -2047", ".insn i 0x13, 5, x5, x6, -1023")),
    ("rv32i", "ECALL and EBREAK with rd or rs1 other than 0, and funct12 2",
     (".insn i 0x73, 0, x5, x0, 0", ".insn i 0x73, 0, x0, x6, 0", ".insn i 0x73, 0, x0, x6, 1",
      ".insn i 0x73, 0, x0, x0, 2")),
    ("rv32i", "funct3 100 of opcode SYSTEM", (".insn i 0x73, 4, x5, x6, 0",)),
    ("rv32i", "funct3 of opcode MISC-MEM other than 000 and 001",
     (".insn i 0x0f, 2, x0, x6, 0", ".insn i 0x0f, 3, x5, x6, 0", ".insn i 0x0f, 7, x0, x0, 0")),
    ("rv32i", "opcodes custom-0 to custom-3, OP-V and reserved ones",
     (".insn i 0x0b, 0, x5, x6, 0", ".insn i 0x2b, 0, x5, x6, 0", ".insn i 0x5b, 0, x5, x6, 0",
      ".insn i 0x7b, 0, x5, x6, 0", ".word 0x00000057", ".word 0x0000006b", ".word 0x00000077")),
    ("rv32i", "lengths of 48 bits and more: the lowest bits are 011111, 0111111 or 1111111",
     (".word 0x0000001f", ".word 0x0000003f", ".word 0x0000007f", ".word 0xffffffff")),
    ("rv32i", "the two lowest bits aren't 11",
     (".word 0x00000000", ".word 0x00000001", ".word 0x00000002", ".word 0xfffffffc")),
]

MISALIGNED_ACCESSES = [
    ("rv32i", "x6 is 8, so the address is no multiple of the access's size",
     ("lh x5, 1(x6)", "lhu x0, 3(x6)", "lh x31, -1(x6)", "sh x5, 2047(x6)", "lw x5, 1(x6)",
      "lw x5, 2(x6)", "sw x5, 3(x6)", "sw x5, -2(x6)")),
]


@dataclass
class Stop:
    """A word at which a hart stops, with the number of the stop."""
    text: str
    extensions: str
    why: str
    number: int


def cases():
    """The words of each case, by its name."""
    groups = {"illegal-in-other-extensions": (OTHER_EXTENSIONS, ILLEGAL),
              "illegal-by-their-fields": (NO_INSTRUCTION, ILLEGAL),
              "misaligned": (MISALIGNED_ACCESSES, MISALIGNED)}
    return {name: [Stop(text, extensions, why, number)
                   for extensions, why, texts in families for text in texts]
            for name, (families, number) in groups.items()}
