"""C that a compiler takes of a C file: the locals that the condition asks for are kept, and what parameters point to is
there."""

import re

from bring_parts import Refused

# where a local's last value is kept for the condition
RESULTS = (*(f"a{number}" for number in range(8)), *(f"t{number}" for number in range(7)))
# the type of a parameter that points to no known type
VOID = re.compile(r"(?:(?:const|volatile) )*void(?: (?:const|volatile))* ?\* ?(?:(?:const|volatile|restrict) ?)*")


def results_of(source):
    """For each hart the locals that the condition asks for, each with the register that keeps it."""
    found = [{} for _ in source.functions]
    for left in source.ending.lefts():
        hart, _, name = left.partition(":")
        if not hart.isdigit():
            continue
        if int(hart) >= len(found):
            raise Refused(f"the condition asks for {left}, and there is no P{hart}")
        function, kept = source.functions[int(hart)], found[int(hart)]
        if re.search(rf"\b{name}\b", function.body):
            if re.search(r"\breturn\b", function.body):
                raise Refused(f"P{hart} has a `return`, so its local {name} has no last value: return it, and ask for "
                              f"{hart}:a0")
            if len(kept) == len(RESULTS) and name not in kept:
                raise Refused(f"the condition asks for more than {len(RESULTS)} locals of P{hart}")
            kept.setdefault(name, RESULTS[len(kept) % len(RESULTS)])
        elif name not in ("a0", "x10") or not function.returns:
            raise Refused(f"the condition asks for {left}, and P{hart} has no local of that name"
                          + ("" if function.returns else " and returns nothing"))
    return found


def kept_alive(kept):
    """C that keeps locals in their registers to the function's end."""
    checks = "".join(f"_Static_assert(sizeof({name}) <= 4, \"{name} has more than 32 bits\"); " for name in kept)
    pins = "".join(f"register __typeof__(0+({name})) result_{at} __asm__(\"{at}\") = {name}; "
                   for name, at in kept.items())
    uses = ", ".join(f"\"r\"(result_{at})" for at in kept.values())
    return f"{{ {checks}{pins}__asm__ volatile(\"\" :: {uses}); }} "


def c_text(source, results):
    """The C text with the results kept, and with storage for what the parameters name."""
    inserts = []
    for function, kept in zip(source.functions, results):
        # one that is static would be left out, since nothing calls it
        inserts.append((function.start, "__attribute__((used)) " if function.typed else "void __attribute__((used)) "))
        if kept:
            inserts.append((function.end, kept_alive(kept)))
    parts, end = [], len(source.code)
    for at, text in sorted(inserts, reverse=True):
        parts += [source.code[at:end], text]
        end = at
    code = "".join([*parts, source.code[:end]][::-1])
    include = f"#include \"{source.header}\"\n" if source.header else ""
    return f"{include}#line 1 \"{source.file}\"\n{code}\n#line 1 \"further declarations\"\n{storage_of(source)}"


def storage_of(source):
    """Declarations of shared words that are parameters, or that herd's init names alone."""
    declared = {}
    for hart, function in enumerate(source.functions):
        for each in function.parameters:
            if each.count and (hart, each.name) not in source.settings:
                if VOID.fullmatch(each.kind):
                    raise Refused(f"P{hart}'s parameter `{each.name}` is a void *: P0 and P1 take nothing, numbers, or pointers to known types")
                declared.setdefault(each.name, (f"__typeof__(*({each.kind})0)", each.count))
    if source.is_litmus:
        for name in source.words:
            declared.setdefault(name, ("int", 1))
    lines = []
    for name, (kind, count) in declared.items():
        count = max(count, len(source.words.get(name, ())))
        lines.append(f"{kind} {name}[{count}];\n" if count > 1 else f"{kind} {name};\n")
    return "".join(lines)
