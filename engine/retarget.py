#!/usr/bin/env python3
"""Rewrites an LLVM module that rattle made for x86-64 into one for wasm32, as text.

    retarget.py < MODULE.ll > OTHER.ll

The module counts with pointers of eight bytes: it writes sizes and offsets as numbers, and reads fields by `getelementptr i8`. On wasm32 a
pointer has four. The rewriting keeps all sizes and offsets. **A pointer in memory keeps its eight bytes: its four, then four zeros.** That is
what x86-64 would hold there if the address lay below 2^32, lowest byte first, as on wasm32. So whatever reads those bytes, as a pointer, as a
number or in a copy, reads what it would there. For this

- a store of a pointer also stores the four zeros, and a pointer in a constant is followed by them;
- a local variable for a pointer has eight bytes;
- a load or a store of a struct that has a pointer becomes one of each field, at the offset that x86-64 gives it;
- an address taken as a number is that of 32 bits, extended by zeros.

All other instructions mean the same on both machines: integers, floats, vectors and structs without pointers have the same layout, an offset is
below 2^32 since no object is larger, and no address is compared by sign. Each kind of line is listed here. Any other one is refused: inline
assembly, casts from numbers to pointers, calls through pointers, vectors of pointers, unknown intrinsics, foreign functions and attributes.

A foreign function NAME is called native_NAME, since it takes sizes of 64 bits, where wasm32's C library has 32; so is `main`, which system.c calls.
What stands behind each is in system.c.
"""
import re
import sys

DATA_LAYOUT = "e-m:e-p:32:32-p10:8:8-p20:8:8-i64:64-i128:128-n32:64-S128-ni:1:10:20"
TRIPLE = "wasm32-unknown-unknown"
SOURCE = {
    "target datalayout": "e-m:e-p270:32:32-p271:32:32-p272:64:64-i64:64-i128:128-f80:128-n8:16:32:64-S128",
    "target triple": "x86_64-unknown-linux-gnu",
}
TARGET = {"target datalayout": DATA_LAYOUT, "target triple": TRIPLE}

# Instructions that have no layout in them.
PLAIN = set(
    "add sub mul udiv sdiv urem srem shl lshr ashr and or xor fneg fadd fsub fmul fdiv frem trunc zext sext fptrunc fpext fptoui fptosi uitofp"
    " sitofp bitcast icmp fcmp phi select freeze extractvalue insertvalue extractelement insertelement shufflevector br switch ret unreachable"
    " fence".split()
)
INTRINSICS = re.compile(
    r"llvm\.(trap|memset\.p0\.i64|mem(cpy|move)\.p0\.p0\.i64|(cttz|ctlz|ctpop|bswap|bitreverse|fshl|fshr|abs|[us](min|max)|[us](add|sub)\.sat"
    r"|[us](add|sub|mul)\.with\.overflow)\.i\d+|(arithmetic\.fence|fabs|floor|ceil|trunc|rint|sqrt|copysign)\.f64|lifetime\.(start|end)\.p0"
    r"|vector\.reduce\.(or|and|add|[us]min|[us]max)\.v\d+i\d+|[us](min|max)\.v\d+i\d+|(ctpop|cttz|ctlz)\.v\d+i\d+|assume)"
)
FOREIGN = set(
    "rattle_alloc rattle_realloc rattle_dealloc malloc free read write lseek rattle_errno rattle_set_errno rattle_arg rattle_arg_count rattle_env"
    " rattle_env_at _exit abort __sysv_signal syscall sched_yield pthread_create pthread_attr_init pthread_attr_setguardsize"
    " pthread_attr_setstacksize pthread_attr_destroy pthread_self pthread_detach pthread_join".split()
)
# A hint to an x86 processor in a loop that waits for another thread. It has no other effect.
PAUSE = "llvm.x86.sse2.pause"
BARRIER = 'call void asm sideeffect "", "~{memory}"()'
KEPT_ATTRIBUTES = re.compile(
    r"nounwind|nobuiltin|cold|hot|noreturn|noinline|alwaysinline|inlinehint|minsize|optsize|nocallback|nofree|nosync|willreturn|speculatable"
    r"|nocreateundeforpoison|norecurse|mustprogress|memory\([\w: ,]*\)"
)
# How x86-64 probes its stack, which processor it has, and what rattle's own compiler reads.
DROPPED_ATTRIBUTES = re.compile(
    r'sanitize_address|"(frame-pointer|probe-stack|stack-probe-size|target-cpu|target-features|tune-cpu|rattle-sig)"="[^"]*"'
)

QUOTED = re.compile(r'"[^"]*"')
CALLEE = re.compile(r'@(?:"([^"]*)"|([\w.$]+))\(')
NUMBER = r"(?:i\d+|double|float)"
SCALAR = rf"(?:{NUMBER}|ptr)"
VECTOR = rf"<\d+ x {NUMBER}>"
LOCAL_NAME = r"%[\w.]+"
OFFSET_EXPRESSION = r"getelementptr \((?:inbounds |nuw )*i8, ptr @[\w.]+, i64 -?\d+\)"
PLACE = rf"(?:{LOCAL_NAME}|@[\w.]+|{OFFSET_EXPRESSION})"
NOTES = r"(?:, ![\w.]+ !\d+)*"
BYTES = r'\[\d+ x i8\] (?:c"[^"]*"|zeroinitializer)'
ADDRESS_VALUE = rf"ptr (?:{OFFSET_EXPRESSION}|@[\w.]+|null)"

GLOBAL = re.compile(r"@[\w.]+ = (?:(?:private|internal|unnamed_addr|local_unnamed_addr) )*(?:constant|global) ")
GLOBAL_BYTES = re.compile(rf"{BYTES}, align \d+")
GLOBAL_FIELDS = re.compile(r"<\{ (.*?) \}> <\{ (.*) \}>(, align \d+)")
FIELD = re.compile(r"ptr|\[\d+ x i8\]")
VALUE = re.compile(rf"{ADDRESS_VALUE}|{BYTES}")

LOAD = re.compile(rf"{LOCAL_NAME} = load (?:(?:volatile )?(?:{SCALAR}|{VECTOR})|atomic {NUMBER}), ptr {PLACE}(?: seq_cst)?, align \d+{NOTES}")
STORE = re.compile(rf"store (?:volatile |atomic )?(?:{NUMBER} [^ ,]+|{VECTOR} (?:[^ ,<]+|<[^>]*>|splat \([^()]*\))), ptr {PLACE}(?: seq_cst)?, align \d+{NOTES}")
POINTER_STORE = re.compile(rf"( *)store ptr ({PLACE}|null), ptr ({PLACE}), align (\d+){NOTES}")
STRUCT_LOAD = re.compile(rf"( *)({LOCAL_NAME}) = load (\{{ ({SCALAR}(?:, {SCALAR})*) \}}), ptr ({PLACE}), align (\d+){NOTES}")
STRUCT_STORE = re.compile(rf"( *)store (\{{ ({SCALAR}(?:, {SCALAR})*) \}}) ({LOCAL_NAME}), ptr ({PLACE}), align (\d+){NOTES}")
NUMBERS_LOAD = re.compile(rf"{LOCAL_NAME} = load \{{ {NUMBER}(?:, {NUMBER})* \}}, ptr {PLACE}, align \d+{NOTES}")
NUMBERS_STORE = re.compile(rf"store \{{ {NUMBER}(?:, {NUMBER})* \}} {LOCAL_NAME}, ptr {PLACE}, align \d+{NOTES}")
ATOMIC = re.compile(rf"{LOCAL_NAME} = (?:atomicrmw \w+|cmpxchg) ptr {PLACE}, i(?:8|16|32|64) .*")
OFFSET = re.compile(rf"{LOCAL_NAME} = getelementptr (?:inbounds |nuw |nusw )*i8, ptr (?:{PLACE}|null), i64 (?:{LOCAL_NAME}|-?\d+)")
ADDRESS = re.compile(rf"( *)({LOCAL_NAME}) = ptrtoaddr ptr ({PLACE}|null) to i64")
LOCAL = re.compile(rf"{LOCAL_NAME} = alloca (?:{SCALAR}|\[\d+ x i8\]|{VECTOR}), align \d+")


# The forms of the other instructions that stay as they are.
SAME = {
    "load": [LOAD, NUMBERS_LOAD],
    "store": [STORE, NUMBERS_STORE],
    "atomicrmw": [ATOMIC],
    "cmpxchg": [ATOMIC],
    "getelementptr": [OFFSET],
}


class Refused(Exception):
    """A line that the rewriting does not know, with the reason."""


def size_of(scalar):
    """The bytes that a scalar has on x86-64, which are its alignment too."""
    if scalar in ("ptr", "double"):
        return 8
    if scalar == "float":
        return 4
    bits = int(scalar[1:])
    if bits not in (8, 16, 32, 64, 128):
        raise Refused(f"a field of type {scalar}")
    return bits // 8


def offsets_of(fields):
    """Where the fields of a struct stand on x86-64."""
    at, offsets = 0, []
    for size in map(size_of, fields):
        at = (at + size - 1) // size * size
        offsets.append(at)
        at += size
    return offsets


def aligned_at(alignment, offset):
    """The alignment of what stands so many bytes behind a place of this alignment."""
    while offset % alignment:
        alignment //= 2
    return alignment


class Retargeter:
    """Rewrites a module's lines, one after the other."""

    def __init__(self):
        self.made = 0
        self.foreign = set()

    def fresh(self):
        """A name that the module does not have: no name of its own ends so."""
        self.made += 1
        return f"%slot{self.made}.32"

    def store_pointer(self, pad, value, at, alignment):
        """The pointer's four bytes, then four zeros."""
        behind = self.fresh()
        return [
            f"{pad}store ptr {value}, ptr {at}, align {alignment}",
            f"{pad}{behind} = getelementptr i8, ptr {at}, i64 4",
            f"{pad}store i32 0, ptr {behind}, align {aligned_at(alignment, 4)}",
        ]

    def address(self, line):
        """An address as a number."""
        found = ADDRESS.fullmatch(line)
        if not found:
            raise Refused("this form of ptrtoaddr")
        pad, to, value = found.groups()
        low = self.fresh()
        return [f"{pad}{low} = ptrtoaddr ptr {value} to i32", f"{pad}{to} = zext i32 {low} to i64"]

    def load_struct(self, pad, to, struct, fields, at, alignment):
        """Each field by itself."""
        lines, whole = [], "poison"
        offsets = offsets_of(fields)
        for index, (field, offset) in enumerate(zip(fields, offsets)):
            place, value = self.fresh(), self.fresh()
            grown = to if index == len(fields) - 1 else self.fresh()
            lines += [
                f"{pad}{place} = getelementptr i8, ptr {at}, i64 {offset}",
                f"{pad}{value} = load {field}, ptr {place}, align {aligned_at(alignment, offset)}",
                f"{pad}{grown} = insertvalue {struct} {whole}, {field} {value}, {index}",
            ]
            whole = grown
        return lines

    def store_struct(self, pad, struct, fields, value, at, alignment):
        """Each field by itself."""
        lines = []
        for index, (field, offset) in enumerate(zip(fields, offsets_of(fields))):
            place, part = self.fresh(), self.fresh()
            lines += [
                f"{pad}{part} = extractvalue {struct} {value}, {index}",
                f"{pad}{place} = getelementptr i8, ptr {at}, i64 {offset}",
            ]
            aligned = aligned_at(alignment, offset)
            if field == "ptr":
                lines += self.store_pointer(pad, part, place, aligned)
            else:
                lines.append(f"{pad}store {field} {part}, ptr {place}, align {aligned}")
        return lines

    def call(self, line, bare):
        """A call by name, of a function of the module, of a known intrinsic, or of a known foreign function."""
        if bare.strip() == QUOTED.sub('""', BARRIER):
            if line.strip() != BARRIER:
                raise Refused("inline assembly")
            return [line]
        if " asm " in bare:
            raise Refused("inline assembly")
        callee = CALLEE.search(line)
        # With a callee by name no other `(` stands before it but that of a variadic type.
        head = line[: callee.start()] if callee else line
        if not callee or not re.fullmatch(r" *(?:%[\w.]+ = )?(?:tail |notail )?call [\w {},]*(?:i64 \(i64, ptr, i64, i64, ptr, \.\.\.\) )?", head):
            raise Refused("a call that is not by name")
        if re.search(r"\b(byval|sret|inalloca|preallocated|byref)\b", bare):
            raise Refused("an argument in memory")
        if "..." in head and callee[2] != "syscall":
            raise Refused("a variadic call")
        name = callee[1] or callee[2]
        if name == PAUSE:
            return []
        self.check_intrinsic(name)
        return [self.renamed(line)]

    def check_intrinsic(self, name):
        if name.startswith("llvm.") and not INTRINSICS.fullmatch(name):
            raise Refused(f"the intrinsic {name}")

    def renamed(self, line):
        """The line with foreign functions under their names here."""
        return CALLEE.sub(lambda it: f"@native_{it[2]}(" if it[2] in FOREIGN else it[0], line)

    def instruction(self, line, bare):
        """What stands for one instruction. `bare` is the line with nothing in its quoted names."""
        words = bare.split()
        opcode = words[2] if words[1:2] == ["="] else words[0]
        if re.search(r"\d+ x ptr\b|addrspace|\b(ptrtoint|inttoptr|blockaddress)\b", bare):
            raise Refused("a vector, array or cast of pointers")
        if opcode in ("call", "tail", "notail"):
            return self.call(line, bare)
        if opcode == "icmp" and re.search(r" icmp s\w+ ptr ", bare):
            raise Refused("addresses compared by sign")
        if opcode in PLAIN:
            return [line]
        if opcode == "ptrtoaddr":
            return self.address(line)
        if opcode == "load" and (found := STRUCT_LOAD.fullmatch(line)) and "ptr" in found[4]:
            pad, to, struct, fields, at, alignment = found.groups()
            return self.load_struct(pad, to, struct, fields.split(", "), at, int(alignment))
        if opcode == "store" and (found := STRUCT_STORE.fullmatch(line)) and "ptr" in found[3]:
            pad, struct, fields, value, at, alignment = found.groups()
            return self.store_struct(pad, struct, fields.split(", "), value, at, int(alignment))
        if opcode == "store" and (found := POINTER_STORE.fullmatch(line)):
            pad, value, at, alignment = found.groups()
            return self.store_pointer(pad, value, at, int(alignment))
        if opcode == "alloca" and LOCAL.fullmatch(line.strip()):
            return [line.replace("alloca ptr,", "alloca i64,")]
        if any(form.fullmatch(line.strip()) for form in SAME.get(opcode, ())):
            return [line]
        raise Refused(f"this form of {opcode}")

    def constant(self, line):
        """A global variable. Behind each pointer in it come four zero bytes."""
        head = GLOBAL.match(line)
        if not head:
            raise Refused("this form of a global variable")
        rest = line[head.end() :]
        if GLOBAL_BYTES.fullmatch(rest):
            return [line]
        found = GLOBAL_FIELDS.fullmatch(rest)
        if not found:
            raise Refused("a global variable that is neither bytes nor a packed struct")
        fields, values, alignment = found.groups()
        fields, parts = fields.split(", "), VALUE.findall(values)
        if not all(map(FIELD.fullmatch, fields)) or ", ".join(parts) != values:
            raise Refused("a field or value of this form")
        if [it.startswith("ptr") for it in fields] != [it.startswith("ptr") for it in parts]:
            raise Refused("values that are not of the types")
        fields = ", ".join(f"{it}, [4 x i8]" if it == "ptr" else it for it in fields)
        values = ", ".join(f"{it}, [4 x i8] zeroinitializer" if it.startswith("ptr") else it for it in parts)
        return [f"{head[0]}<{{ {fields} }}> <{{ {values} }}>{alignment}"]

    def declaration(self, line):
        """A known intrinsic or foreign function."""
        callee = CALLEE.search(line)
        name = callee and (callee[1] or callee[2])
        if name == PAUSE:
            return []
        if name and name.startswith("llvm."):
            self.check_intrinsic(name)
            return [line]
        if name not in FOREIGN:
            raise Refused("a foreign function")
        self.foreign.add(name)
        return [self.renamed(line)]

    def definition(self, line, bare):
        if re.search(r"\b(byval|sret|inalloca|preallocated|byref|personality|prefix|prologue|gc)\b|\.\.\.|addrspace|\d+ x ptr\b", bare):
            raise Refused("this form of a function")
        callee = CALLEE.search(line)
        if callee and callee[2] in FOREIGN:
            raise Refused("a foreign function's name")
        if callee and callee[2] == "main" and not re.fullmatch(r"define i32 @main\(\)( #\d+)? \{", line):
            raise Refused("this form of main")
        return [line.replace("@main(", "@native_main(")]

    def attributes(self, line):
        head, _, rest = line.partition("{")
        kept = []
        for it in re.findall(r'"[^"]*"(?:="[^"]*")?|\w+\([^)]*\)|[^\s{}]+', rest):
            if DROPPED_ATTRIBUTES.fullmatch(it):
                continue
            if not KEPT_ATTRIBUTES.fullmatch(it):
                raise Refused(f"the attribute {it}")
            kept.append(it)
        # A group is not empty.
        return [f"{head}{{ {' '.join(kept or ['nounwind'])} }}"]

    def target(self, line):
        what, _, value = line.partition(" = ")
        if value != f'"{SOURCE.get(what)}"':
            raise Refused("a module of another target")
        return f'{what} = "{TARGET[what]}"'

    def line(self, line):
        """What stands for a line."""
        bare = QUOTED.sub('""', line)
        if line.startswith("  "):
            stripped = bare.strip()
            # The cases of a switch and its end.
            if stripped == "]" or re.fullmatch(r"i\d+ -?\d+, label %[\w.]+", stripped):
                return [line]
            return self.instruction(line, bare)
        if line.startswith("@"):
            return self.constant(line)
        if line.startswith("define "):
            return self.definition(line, bare)
        if line.startswith("declare "):
            return self.declaration(line)
        if line.startswith("attributes #"):
            return self.attributes(line)
        if line.startswith("target "):
            return [self.target(line)]
        if line in ("", "}") or line.startswith(("source_filename", "!")) or re.match(r"[\w.]+:", line):
            return [line]
        if line.startswith(";"):
            return []
        raise Refused("this form of a line")


def retarget(lines):
    """The lines of the module for wasm32. Raises Refused, with the number of the line and its text, at the first line that is not known."""
    retargeter = Retargeter()
    for number, line in enumerate(lines, 1):
        try:
            yield from retargeter.line(line.rstrip("\n"))
        except Refused as why:
            raise Refused(f"line {number}: {why}: {line.strip()[:300]}") from None


def main():
    try:
        for line in retarget(sys.stdin):
            sys.stdout.write(f"{line}\n")
    except Refused as why:
        sys.exit(f"retarget: {why}")


if __name__ == "__main__":
    main()
