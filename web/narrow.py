"""Rewrites the program's module, which was made for pointers of 64 bits, for the 32 bits of wasm32.

The module has sizes, offsets and slots of pointers baked in as 64 bits, and they stay so: a pointer keeps its slot of 8 bytes, of which the
lower 4 hold it. Rewritten is only what LLVM itself derives from the width of a pointer:

- the layout, the target and the processor;
- a slot of a pointer on the stack (`alloca ptr`) becomes one of an `i64`;
- a store of a pointer also puts zero into the upper half of its slot, which may be read as a number later;
- a load of a pair with a pointer becomes a load of each part, at the offsets that the parts had;
- the lengths of `memmove` and `memset` get 32 bits, in their calls and declarations;
- an address as a number (`ptrtoaddr`) becomes `ptrtoint`, which fills up with zeros.

All other lines stay as they are, and each has to be of a kind in which the width of a pointer plays no part. What is of another kind is
refused with `Unknown`: numbers made to pointers (`inttoptr`) and pointers to numbers in another way (`ptrtoint`), a `getelementptr` that
counts by other than bytes, a static that holds a pointer, an argument that is copied (`byval`), a vector of pointers, and each line of a
rewritten kind in another form.
"""

from __future__ import annotations

import re
from collections.abc import Iterator

SIZES = {"i1": 1, "i8": 1, "i16": 2, "i32": 4, "i64": 8, "ptr": 8}

# What of the layout is relied on: pointers of 32 bits, and numbers that are aligned as on x86-64.
LAYOUT = re.compile(r"e-m:e-p:32:32-.*i64:64-i128:128-.*")

NAME = r'(?:%"[^"]*"|%[\w.$-]+)'
VALUE = rf'(?:{NAME}|@"[^"]*"|@[\w.$-]+|null|-?[0-9]+)'
SCALAR = r"(?:i[0-9]+|<[0-9]+ x i[0-9]+>)"

STORED = re.compile(rf"  store ptr {VALUE}, ptr ({NAME}), align [0-9]+\n")
PAIR = re.compile(rf"  ({NAME}) = load \{{ (i8|i32|i64|ptr), (i8|i32|i64|ptr) \}}, ptr ({NAME}), align ([0-9]+)\n")
MOVED = re.compile(
    rf"  call void @llvm\.(memmove\.p0\.p0|memset\.p0)\.i64"
    rf"\((ptr {VALUE}), ((?:ptr|i8) {VALUE}), i64 ({VALUE}), i1 false\)\n"
)
MOVES = {
    "declare void @llvm.memset.p0.i64(ptr writeonly captures(none), i8, i64, i1 immarg)": "i8",
    "declare void @llvm.memmove.p0.p0.i64(ptr writeonly captures(none), ptr readonly captures(none), i64, i1 immarg)": "ptr",
}
ADDRESS = re.compile(rf"  {NAME} = ptrtoaddr ptr {VALUE} to i64\n")
SLOT = re.compile(rf"  {NAME} = alloca ptr, align 8\n")

# The kinds of lines that stay: where the width of a pointer plays no part.
STAYS = re.compile(
    "(?:%s)\\n"
    % "|".join(
        [
            rf"  {NAME} = (?:add|sub|mul|udiv|urem|sdiv|srem|and|or|xor|shl|lshr|ashr)(?: nuw| nsw| exact)* {SCALAR} .*",
            rf"  {NAME} = (?:zext|sext|trunc|bitcast) {SCALAR} .* to {SCALAR}",
            rf"  {NAME} = icmp [a-z]+ (?:{SCALAR}|ptr) .*",
            rf"  {NAME} = (?:insertelement|extractelement|shufflevector|select) <[0-9]+ x i[0-9]+> .*",
            rf"  {NAME} = (?:extractvalue|insertvalue) .*",
            rf"  {NAME} = getelementptr (?:inbounds )?(?:nuw )?i8, ptr {VALUE}, i64 {VALUE}",
            rf"  {NAME} = alloca (?:i[0-9]+|\[[0-9]+ x i8\]), align [0-9]+",
            rf"  {NAME} = load (?:{SCALAR}|ptr), ptr {VALUE}, align [0-9]+.*",
            rf"  store (?:{SCALAR}|\{{ i64, i64 \}}) .*, ptr {NAME}, align [0-9]+",
            rf"  (?:{NAME} = )?call .*\)(?: #[0-9]+)?",
            r"  (?:ret|br|switch) .*|  unreachable|  \]|    i[0-9]+ -?[0-9]+, label .*|[\w.$\"-]+:.*|\}|",
        ]
    )
)
OUTSIDE = re.compile(
    r"source_filename = .*|define .*|attributes #[0-9]+ = .*|![\w.]+ = .*|declare (?!.*@llvm\.).*|"
    r"declare .*@llvm\.(?:trap|cttz\.i[0-9]+|ctlz\.i[0-9]+|ctpop\.i[0-9]+)\(.*|"
    r'@[\w.$-]+ = private unnamed_addr constant \[[0-9]+ x i8\] (?:c".*"|zeroinitializer), align [0-9]+|'
)

# What no line may hold, of whatever kind it is: copied arguments, vectors of pointers, moves in other forms, and the two opcodes.
NOWHERE = re.compile(
    r"\b(?:byval|sret|inalloca|preallocated)\b|x ptr>|\[[0-9]+ x ptr\]|@llvm\.mem|\b(?:ptrtoint|inttoptr|addrspacecast)\b"
)
TEXT = re.compile(r'"[^"]*"')


class Unknown(Exception):
    """A line of which it is not known how it becomes one of 32 bits."""

    def __init__(self, line: str) -> None:
        super().__init__(f"the module has a line that cannot be rewritten for 32 bits: {line.strip()}")


def narrow(module: str, layout: str) -> str:
    """The module for wasm32 with this layout, which is the one of the compiler.

    Raises `Unknown` at the first line that cannot be rewritten.
    """
    if not LAYOUT.fullmatch(layout):
        raise Unknown(f'target datalayout = "{layout}"')
    head = {"target datalayout": f'target datalayout = "{layout}"\n', "target triple": 'target triple = "wasm32-unknown-unknown"\n'}
    made: list[str] = []
    inside = False
    for number, line in enumerate(module.splitlines(keepends=True)):
        inside = (inside or line.startswith("define ")) and line != "}\n"
        if not inside and line.split(" = ")[0] in head:
            made.append(head[line.split(" = ")[0]])
        elif inside and not line.startswith("define "):
            made.extend(of_function(line, number))
        else:
            made.append(outside(line))
    return "".join(made)


def outside(line: str) -> str:
    """What becomes of a line outside of functions, or of a function's first one."""
    for declared, kind in MOVES.items():
        if line.startswith(declared):
            return line.replace(".i64(", ".i32(").replace(f"{kind}, i64,", f"{kind}, i32,").replace("none), i64,", "none), i32,")
    if line.startswith("attributes "):
        line = line.replace('"target-cpu"="x86-64"', "")
        return same(line, '"target-' not in line)
    return same(line, bool(OUTSIDE.fullmatch(line.rstrip("\n")) or line == "}\n"))


def of_function(line: str, number: int) -> Iterator[str]:
    """The lines that one inside of a function becomes. The number makes their names unlike all others."""
    if STAYS.fullmatch(line) and holds_nothing_else(line):
        yield line
    elif SLOT.fullmatch(line):
        yield line.replace(" = alloca ptr", " = alloca i64")
    elif ADDRESS.fullmatch(line):
        yield line.replace(" = ptrtoaddr ", " = ptrtoint ")
    elif found := STORED.fullmatch(line):
        yield line
        yield f"  %over{number} = getelementptr i8, ptr {found[1]}, i64 4\n  store i32 0, ptr %over{number}, align 4\n"
    elif found := MOVED.fullmatch(line):
        yield from moved(number, *found.groups())
    elif found := PAIR.fullmatch(line):
        yield from loaded(number, *found.groups()) if "ptr" in found.group(2, 3) else [line]
    else:
        raise Unknown(line)


def holds_nothing_else(line: str) -> bool:
    """Whether a line holds nothing that no line may hold. What stands in quotation marks is a name."""
    return not NOWHERE.search(line) or not NOWHERE.search(TEXT.sub("", line))


def same(line: str, known: bool) -> str:
    """The line itself, if it is of a known kind."""
    if not known or not holds_nothing_else(line):
        raise Unknown(line)
    return line


def moved(number: int, which: str, to: str, what: str, length: str) -> Iterator[str]:
    """A move of bytes, whose length gets 32 bits."""
    if length.startswith("%"):
        yield f"  %narrow{number} = trunc i64 {length} to i32\n"
        length = f"%narrow{number}"
    yield f"  call void @llvm.{which}.i32({to}, {what}, i32 {length}, i1 false)\n"


def loaded(number: int, name: str, first: str, second: str, place: str, align: str) -> Iterator[str]:
    """A pair that is loaded part by part, each from where it stands on x86-64."""
    at = max(SIZES[first], SIZES[second])
    pair = f"{{ {first}, {second} }}"
    yield f"  %first{number} = load {first}, ptr {place}, align {min(SIZES[first], int(align))}\n"
    yield f"  %half{number} = insertvalue {pair} poison, {first} %first{number}, 0\n"
    yield f"  %at{number} = getelementptr i8, ptr {place}, i64 {at}\n"
    yield f"  %second{number} = load {second}, ptr %at{number}, align {min(SIZES[second], int(align))}\n"
    yield f"  {name} = insertvalue {pair} %half{number}, {second} %second{number}, 1\n"
