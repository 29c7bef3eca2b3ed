"""Conditions and texts of herd's: each is rewritten to what is written here, or refused for what is said here."""

import random

from bring_parts import ROOT, Refused, conditions, herd, search, text_of

import litmus

HERD = ROOT / "examples/herd"
FRONT = "RISCV T\n{\n0:x5=1; 0:x6=x; 0:x7=y;\n}\n P0 ;\n nop ;\n"
# what a text ends with, and what that becomes
ENDINGS = [
    ("exists (0:x5=1)", "exists (0:x5=1)"), ("exists 0:x5=1", "exists (0:x5=1)"), ("forall ([x]=1)", "forall (x=1)"),
    ("exists (x=1 => y=2)", "exists (~(x=1) \\/ (y=2))"),
    ("exists (x=1 => y=2 => x=3)", "exists (~(x=1) \\/ (~(y=2) \\/ (x=3)))"),
    ("exists (x=1 /\\ (y=1 => x=2))", "exists (x=1 /\\ (~(y=1) \\/ (x=2)))"),
    ("~exists (x<>1 && not y!=2)", "~exists (~x=1 /\\ ~~y=2)"), ("exists (x==1 || y=&x)", "exists (x=1 \\/ y=x)"),
    ("exists (true /\\ x=1)", "exists ((x=0 \\/ ~x=0) /\\ x=1)"),
    ("forall (false \\/ x=1)", "forall (~(x=0 \\/ ~x=0) \\/ x=1)"),
    ("locations [x; y;]\nforall (true)", "forall (((x=0 \\/ ~x=0)) /\\ (y=0 \\/ ~y=0))"),
    ("locations [int 0:x5; *y; [x]]\nexists (x=1)", "exists ((x=1) /\\ (0:x5=0 \\/ ~0:x5=0) /\\ (y=0 \\/ ~y=0))"),
    ("filter (x=1)\nforall (y=1)", "forall (~(x=1) \\/ (y=1))"),
    ("filter x=1\n~exists y=1", "~exists ((x=1) /\\ (y=1))"),
    ("locations [y]\nfilter (x=1)\nexists (x=2)", "exists (((x=1) /\\ (x=2)) /\\ (y=0 \\/ ~y=0))"),
]
BAD_ENDINGS = [
    ("", "no condition"), ("exists (x=y=1)", "no operator"), ("exists (x>1)", "no operator"),
    ("exists (true)", "no equation"), ("exists (x=1))", "isn't open"),
    ("locations [x+1;]\nexists x=1", "no register"), ("filter x=1\nfilter x=2\nexists x=1", "two parts"),
    ("locations [x]", "no condition"),
]
# an item of init, a row, and what stands in the text that is made
REWRITTEN = [
    ("uint64_t x;", "nop ;", "\nint x=0;\n"), ("uint8_t x=255;", "nop ;", "\nint x=255;\n"),
    ("int *x=&y;", "nop ;", "\nint x=y;\n"), ("uint64_t x=-1;", "nop ;", "\nint x=-1;\n"), ("atomic_int x = 1 ;", "nop ;", "\nint x=1 ;\n"),
    ("int 0:x9;", "nop ;", "\n;\n"), ("uint64_t 0:x9=3;", "nop ;", "\n0:x9=3;\n"),
    ("x=1; (* a (* b *) c; *)", "nop ;", "x=1; (* a (  b  ) c; *)\n"), ("", "bleu x5,x6,L ;", " bgeu x6,x5,L ;\n"),
    ("", "bltz x5,L  ;", " blt x5,x0,L ;\n"), ("", "b L ;", " jal x0,L ;\n"),
    ("", "sd x5,(x6) # a ;", " sw x5,(x6) # a ;\n"),
    ("", "amoadd.d.aq x5,x7,0(x6) ;", " amoadd.w.aq x5,x7,0(x6) ;\n"),
    ("", "M: fence.i      ;", " M: nop          ;\n"), ("", "pause ;", " fence w,0 ;\n"),
    *(("0:x9=1;", f"lwu x5,0(x6) ;\n li x8,1 ;\n lhu x7,0(x6) ;\n {row}", " lw x5,0(x6)  ;\n")
      for row in ("sw x5,0(x6) ;", "amoadd.w x7,x5,(x6) ;", "addiw x5,x5,1 ;", "sext.w x7,x5 ;", "xor x7,x5,x5 ;", "andi x7,x5,255 ;",
                  "beqz x5,L ;", "snez x7,x5 ;", "bne x8,x5,L ;", "bltu x5,x7,L ;", "bgtu x5,x9,L ;", "sltiu x7,x5,9 ;", "lui x5,1 ;")),
]
REFUSED = [
    ("int x[2]={1,2};", "nop ;", "array"), ("mutex_t x;", "nop ;", "the type `mutex_t`"),
    ("x;", "nop ;", "no value"), ("x=0x123456789;", "nop ;", "more than 32 bits"),
    ("uint64_t x=0xffffffff;", "nop ;", "as a word would be negative"), ("long 0:x9=0x80000000;", "nop ;", "as a word would be negative"),
    ("int8_t x=-1;", "nop ;", "isn't what `int8_t` holds"), ("", "ld x5,8(x6) ;", "a part of an object of 64 bits"),
    ("", "sd x5,0(x6) ;\n lw x5,0(x6) ;", "beside narrower ones"), ("", "mul x5,x6,x7 ;", "the M extension"),
    *(("0:x9=-1;", f"lwu x5,0(x6) ;\n lw x7,0(x6) ;\n {row} ;", f"line 10: `{row}`: x5 holds what `lwu` loads, and its upper 32 bits")
      for row in ("bltz x5,L", "blt x5,x0,L", "slt x8,x5,x0", "sra x8,x5,x7", "add x8,x5,x7", "mv x8,x5", "beq x5,x7,L", "bltu x5,x9,L",
                  "andi x8,x5,-1", "sltiu x8,x5,-1", "lw x8,0(x5)", "sw x5,0(x5)", "amoswap.w x8,x7,(x5)")),
    ("", "li x5,x6 ;", "no statement"), ("", "nop ; nop", "refused 23"), ("0:x77=1;", "nop ;", "refused 22"),
    ("7:x5=1;", "nop ;", "refused 22"), ("", "L: nop ;", "refused 24"),
]


def endings(count):
    for text, wanted in ENDINGS:
        try:
            made = conditions.ending(text).text()
            litmus.read(FRONT + made)
        except (Refused, litmus.assembly.Refused) as error:
            made = str(error)
        count.told(f"condition {text!r}", made == wanted, f"{made!r}, and {wanted!r} is wanted")
    for text, why in BAD_ENDINGS:
        try:
            made = conditions.ending(text).text()
        except Refused as refused:
            made = f"refused: {refused}"
        count.told(f"condition {text!r}", why in made, made)


def drawn_condition(draw, depth):
    """A condition as herd reads it, and a function from places' values to its truth."""
    kind = draw.choice(["=", "~", "/\\", "\\/", "=>", "/\\", "=>"] if depth else ["=", "=", "<>", "true"])
    if kind == "true":
        word = draw.choice(["true", "false"])
        return word, lambda values: word == "true"
    if kind in ("=", "<>"):
        name, value = draw.choice("xy"), draw.randrange(2)
        return f"{name}{kind}{value}", lambda values: (values[name] == value) == (kind == "=")
    first, is_first = drawn_condition(draw, depth - 1)
    if kind == "~":
        return f"{draw.choice(['~', 'not '])}({first})", lambda values: not is_first(values)
    second, is_second = drawn_condition(draw, depth - 1)
    # on the right `=>` needs no parentheses
    text = f"({first}) {kind} {second}" if kind == "=>" else f"({first}) {kind} ({second})"
    return text, {"/\\": lambda values: is_first(values) and is_second(values),
                  "\\/": lambda values: is_first(values) or is_second(values),
                  "=>": lambda values: not is_first(values) or is_second(values)}[kind]


def drawn(count, number=300):
    """Drawn conditions have the truth that they have in herd."""
    draw, wrong = random.Random(1), []
    for _ in range(number):
        text, is_true = drawn_condition(draw, draw.randrange(1, 5))
        test = litmus.read(FRONT + conditions.ending(f"exists x=0 /\\ y=0 \\/ ~x=0 \\/ ~y=0 => ({text})").text())
        at = {name: ("word", test.locations[name]) for name in "xy"}
        for x in range(2):
            for y in range(2):
                if test.holds({at["x"]: x, at["y"]: y}.get) != is_true({"x": x, "y": y}):
                    wrong.append(f"{text} at x={x} y={y}")
    count.told(f"{number} drawn conditions", not wrong, "; ".join(wrong[:3]))


def with_pieces(item, row):
    return f"RISCV T\n{{\ny=0;\n{item}\n}}\n P0 ;\n L: ;\n {row}\nexists (y=0)\n"


def pieces(count):
    for item, row, wanted in REWRITTEN + REFUSED:
        try:
            made, _ = herd.rewritten(with_pieces(item, row))
        except Refused as refused:
            made = f"refused: {refused}"
        is_good = wanted in made and made.startswith("refused: ") == ((item, row, wanted) in REFUSED)
        count.told(f"{item} {row}", is_good, made)


def of_lwu(count):
    """What a condition may ask of a register that `lwu` loads."""
    for value, row, wanted in (("-1", "nop", "refused: condition: 0:x5=-1, and 0:x5 holds"), ("x", "nop", "refused: condition: 0:x5=x"), ("1", "nop", "lw x5"),
                               ("0xffffffff", "nop", "lw x5"), ("0xffffffff", "lw x5,4(x6)", "refused: condition: 0:x5=0xffffffff")):
        try:
            made, _ = herd.rewritten(f"{FRONT} lwu x5,0(x6) ;\n {row} ;\nexists (0:x5={value})\n".replace("0:x5=1; ", ""))
        except Refused as refused:
            made = f"refused: {refused}"
        count.told(f"lwu, {row} and {value}", wanted in made and made.startswith("refused") == wanted.startswith("refused"), made)


def answers(count):
    """The texts of examples/herd, with the answers of their table."""
    rows = [line.split("\t") for line in (HERD / "answers.tsv").read_text().splitlines()[1:]]
    paths = sorted(HERD.glob("*.litmus"))
    count.told("examples/herd/answers.tsv has each text", [row[0] for row in rows] == [path.stem for path in paths], "")
    for path, (_, word, why, asked) in zip(paths, rows):
        text = text_of(path)
        try:
            made, notes = herd.rewritten(text)
        except Refused as refused:
            count.told(path.name, (word, why, asked) == ("refused", str(refused), "-"), f"refused: {refused}")
            continue
        count.told(path.name, (word, why) == ("rewritten" if notes else "as it is", "; ".join(notes)), str(notes))
        count.told(f"{path.name}: what is asked", asked == ("yes" if is_asked(made) else "no"), f"not {asked}")


def is_asked(text):
    """Whether a run of the search shows what the condition asks: a witness, or one against `~exists` or `forall`."""
    test = litmus.read(text)
    places, wanted = [place for _, place in test.lefts], test.kind == "exists"
    return any(test.holds(dict(zip(places, values)).get) == wanted for values in search.outcomes(text).schedules)


def part(count):
    endings(count)
    drawn(count)
    pieces(count)
    of_lwu(count)
    answers(count)
