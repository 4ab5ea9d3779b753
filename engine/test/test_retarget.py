"""What retarget.py refuses, what it writes, and that what it writes runs as on x86-64."""
import pathlib
import subprocess
import sys
import tempfile
import unittest

HERE = pathlib.Path(__file__).resolve().parent
sys.path.insert(0, str(HERE.parent))

from module import kit  # noqa: E402
from retarget import BARRIER, Refused, retarget  # noqa: E402

HEAD = """target datalayout = "e-m:e-p270:32:32-p271:32:32-p272:64:64-i64:64-i128:128-f80:128-n8:16:32:64-S128"
target triple = "x86_64-unknown-linux-gnu"
"""

REFUSED_LINES = {
    "a number made a pointer": "%x = inttoptr i64 %a to ptr",
    "a pointer made a number with its origin": "%x = ptrtoint ptr %a to i64",
    "another address space": "%x = addrspacecast ptr %a to ptr addrspace(1)",
    "an address of 32 bits": "%x = ptrtoaddr ptr %a to i32",
    "addresses compared by sign": "%x = icmp slt ptr %a, %b",
    "inline assembly": 'call void asm sideeffect "hlt", ""()',
    "a call through a pointer": "%x = call i64 %f(i64 1)",
    "a variadic call": "%x = call i32 (ptr, ...) @printf(ptr %a)",
    "an argument in memory": "call void @f(ptr byval([16 x i8]) %a)",
    "a result in memory": "call void @f(ptr sret([16 x i8]) %a)",
    "an unknown intrinsic": "%x = call i64 @llvm.x86.rdtsc()",
    "another intrinsic of one processor": "call void @llvm.x86.sse2.mfence()",
    "a copy with a length of 32 bits": "call void @llvm.memcpy.p0.p0.i32(ptr %a, ptr %b, i32 8, i1 false)",
    "an exception": "invoke void @f() to label %a unwind label %b",
    "a jump through a pointer": "indirectbr ptr %a, [label %b]",
    "arguments of unknown number": "%x = va_arg ptr %a, i64",
    "an offset in elements": "%x = getelementptr i64, ptr %a, i64 1",
    "an offset in a struct": "%x = getelementptr { ptr, i64 }, ptr %a, i64 0, i32 1",
    "an offset of 32 bits": "%x = getelementptr i8, ptr %a, i32 1",
    "two offsets": "%x = getelementptr i8, ptr %a, i64 1, i64 2",
    "a variable of a struct": "%x = alloca { ptr, i64 }, align 8",
    "a variable of pointers": "%x = alloca [2 x ptr], align 8",
    "a variable of a length of its own": "%x = alloca i8, i64 %n, align 1",
    "a vector of pointers": "%x = load <2 x ptr>, ptr %a, align 16",
    "a struct in a struct": "%x = load { { ptr, i64 }, i64 }, ptr %a, align 8",
    "an array of pointers": "%x = load [2 x ptr], ptr %a, align 8",
    "an atomic load of a pointer": "%x = load atomic ptr, ptr %a seq_cst, align 8",
    "an atomic store of a pointer": "store atomic ptr %b, ptr %a seq_cst, align 8",
    "a volatile store of a pointer": "store volatile ptr %b, ptr %a, align 8",
    "an exchange of pointers": "%x = atomicrmw xchg ptr %a, ptr %b seq_cst, align 8",
    "a comparing exchange of pointers": "%x = cmpxchg ptr %a, ptr %b, ptr %c seq_cst seq_cst, align 8",
    "a type of x86 alone": "%x = load { x86_fp80, ptr }, ptr %a, align 16",
    "a field of an odd size": "%x = load { i24, ptr }, ptr %a, align 8",
    "an instruction of no name": "%x = frobnicate i64 %a",
}

REFUSED_MODULES = {
    "another target": 'target triple = "aarch64-unknown-linux-gnu"',
    "another layout": 'target datalayout = "e-m:e-i64:64-n32:64-S128"',
    "a foreign function": "declare i32 @printf(ptr)",
    "an intrinsic": "declare i64 @llvm.x86.rdtsc()",
    "a function under a foreign name": "define internal ptr @malloc(i64 %n) {",
    "a main with words": "define i32 @main(i32 %n, ptr %a) {",
    "a variadic function": "define internal void @f(i64 %n, ...) {",
    "an argument in memory": "define internal void @f(ptr byval([16 x i8]) %a) {",
    "a function that unwinds": "define internal void @f() personality ptr @g {",
    "module assembly": 'module asm "nop"',
    "an alias": "@a = alias i64, ptr @b",
    "a global function": "@llvm.global_ctors = appending global [1 x { i32, ptr, ptr }] zeroinitializer",
    "a variable of each thread": "@a = internal thread_local global i64 0, align 8",
    "a struct of natural layout": "@a = private constant { i8, ptr } { i8 1, ptr @b }, align 8",
    "a number in a constant with pointers": "@a = private constant <{ ptr, i64 }> <{ ptr @b, i64 1 }>, align 8",
    "a pointer in a nested struct": "@a = private constant <{ <{ ptr }> }> <{ <{ ptr }> <{ ptr @b }> }>, align 8",
    "a pointer made in a constant": "@a = private constant <{ ptr }> <{ ptr inttoptr (i64 8 to ptr) }>, align 8",
    "a pointer's number in a constant": "@a = private constant i64 ptrtoint (ptr @b to i64), align 8",
    "a section": '@a = private constant [1 x i8] c"a", section "x", align 1',
    "an attribute": 'attributes #0 = { nounwind "some-day"="1" }',
    "a named type": "%T = type { ptr, i64 }",
}


def body_of(*lines):
    return ["define internal void @f(ptr %a, ptr %b, i64 %n) {", "start:", *(f"  {it}" for it in lines), "  ret void", "}"]


def rewritten(*lines):
    """What stands for the lines of a function."""
    return [it.strip() for it in retarget(body_of(*lines))][2:-2]


class Refuses(unittest.TestCase):
    def test_instructions(self):
        for what, line in REFUSED_LINES.items():
            with self.subTest(what), self.assertRaisesRegex(Refused, "^line 3: "):
                list(retarget(body_of(line)))

    def test_lines_of_modules(self):
        for what, line in REFUSED_MODULES.items():
            with self.subTest(what), self.assertRaisesRegex(Refused, "^line 1: "):
                list(retarget([line]))

    def test_the_command_names_the_line_and_ends_with_a_status(self):
        ran = subprocess.run([HERE.parent / "retarget.py"], input="declare i32 @printf(ptr)\n", capture_output=True, text=True, check=False)
        self.assertEqual((ran.returncode, ran.stderr), (1, "retarget: line 1: a foreign function: declare i32 @printf(ptr)\n"))


class Rewrites(unittest.TestCase):
    def test_a_stored_pointer_has_four_zeros_behind_it(self):
        self.assertEqual(
            rewritten("store ptr %a, ptr %b, align 8"),
            ["store ptr %a, ptr %b, align 8", "%slot1.32 = getelementptr i8, ptr %b, i64 4", "store i32 0, ptr %slot1.32, align 4"],
        )

    def test_a_stored_address_may_be_an_expression(self):
        first = "store ptr getelementptr (i8, ptr @g, i64 5), ptr %b, align 2"
        self.assertEqual(rewritten(first), [first, "%slot1.32 = getelementptr i8, ptr %b, i64 4", "store i32 0, ptr %slot1.32, align 2"])

    def test_a_variable_of_a_pointer_has_eight_bytes(self):
        self.assertEqual(rewritten("%x = alloca ptr, align 8"), ["%x = alloca i64, align 8"])

    def test_a_struct_is_loaded_by_fields_at_the_offsets_of_x86_64(self):
        for struct, offset, alignment in (("{ i8, ptr }", 8, 8), ("{ i32, ptr }", 8, 8), ("{ ptr, ptr }", 8, 8), ("{ i64, ptr }", 8, 8), ("{ ptr, i8 }", 8, 8)):
            with self.subTest(struct):
                lines = rewritten(f"%x = load {struct}, ptr %a, align 8")
                fields = struct[2:-2].split(", ")
                self.assertEqual(lines[0], "%slot1.32 = getelementptr i8, ptr %a, i64 0")
                self.assertEqual(lines[3], f"%slot4.32 = getelementptr i8, ptr %a, i64 {offset}")
                self.assertEqual(lines[4], f"%slot5.32 = load {fields[1]}, ptr %slot4.32, align {alignment}")
                self.assertEqual(lines[5], f"%x = insertvalue {struct} %slot3.32, {fields[1]} %slot5.32, 1")

    def test_a_struct_is_stored_by_fields(self):
        lines = rewritten("store { i8, ptr } %p, ptr %a, align 8")
        self.assertEqual(lines[3:6], ["%slot4.32 = extractvalue { i8, ptr } %p, 1", "%slot3.32 = getelementptr i8, ptr %a, i64 8", "store ptr %slot4.32, ptr %slot3.32, align 8"])
        self.assertEqual(lines[-1], "store i32 0, ptr %slot5.32, align 4")

    def test_a_struct_without_pointers_stays(self):
        line = "%x = load { i8, i64 }, ptr %a, align 8"
        self.assertEqual(rewritten(line), [line])

    def test_an_address_is_extended_by_zeros(self):
        self.assertEqual(rewritten("%x = ptrtoaddr ptr %a to i64"), ["%slot1.32 = ptrtoaddr ptr %a to i32", "%x = zext i32 %slot1.32 to i64"])

    def test_the_hint_to_the_processor_goes(self):
        self.assertEqual(rewritten("call void @llvm.x86.sse2.pause()"), [])
        self.assertEqual(list(retarget(["declare void @llvm.x86.sse2.pause() #1"])), [])

    def test_the_barrier_stays(self):
        self.assertEqual(rewritten(BARRIER), [BARRIER])

    def test_a_foreign_function_has_a_name_of_its_own(self):
        self.assertEqual(list(retarget(["declare noundef ptr @malloc(i64 noundef) #3"])), ["declare noundef ptr @native_malloc(i64 noundef) #3"])
        self.assertEqual(rewritten("%x = call ptr @malloc(i64 8)"), ["%x = call ptr @native_malloc(i64 8)"])
        line = '%x = call ptr @"some::malloc"(i64 8)'
        self.assertEqual(rewritten(line), [line])

    def test_main_has_a_name_of_its_own(self):
        self.assertEqual(list(retarget(["define i32 @main() #0 {"])), ["define i32 @native_main() #0 {"])

    def test_names_in_quotes_are_not_read(self):
        line = 'call void @"f::<inttoptr, asm {> byval(x) ...("(ptr %a)'
        self.assertEqual(rewritten(line), [line])

    def test_a_pointer_in_a_constant_has_four_zeros_behind_it(self):
        self.assertEqual(
            list(retarget(['@a = private constant <{ ptr, [3 x i8], ptr }> <{ ptr getelementptr (i8, ptr @a, i64 8), [3 x i8] c"}>,", ptr null }>, align 8'])),
            [
                "@a = private constant <{ ptr, [4 x i8], [3 x i8], ptr, [4 x i8] }> <{ ptr getelementptr (i8, ptr @a, i64 8), [4 x i8] zeroinitializer, "
                '[3 x i8] c"}>,", ptr null, [4 x i8] zeroinitializer }>, align 8'
            ],
        )

    def test_the_target_and_the_attributes(self):
        layout, triple = retarget(HEAD.splitlines())
        self.assertIn("-p:32:32-", layout)
        self.assertEqual(triple, 'target triple = "wasm32-unknown-unknown"')
        self.assertEqual(
            list(retarget(['attributes #0 = { nounwind sanitize_address "probe-stack"="inline-asm" "target-cpu"="x86-64" }', 'attributes #1 = { "frame-pointer"="all" }'])),
            ["attributes #0 = { nounwind }", "attributes #1 = { nounwind }"],
        )


# Each function answers a number that is read from the layout in memory.
PROGRAM = f"""{HEAD}@text = private constant <{{ ptr, [8 x i8], ptr, [3 x i8] }}> <{{ ptr getelementptr (i8, ptr @text, i64 24), [8 x i8] c"\\02\\00\\00\\00\\00\\00\\00\\00", ptr null, [3 x i8] c"abc" }}>, align 8

; A pointer is stored over ones, and read as a number: what is above the address?
define i64 @above() {{
  %slot = alloca ptr, align 8
  store i64 -1, ptr %slot, align 8
  store ptr %slot, ptr %slot, align 8
  %number = load i64, ptr %slot, align 8
  %address = ptrtoaddr ptr %slot to i64
  %difference = sub i64 %number, %address
  ret i64 %difference
}}

; A pointer is moved as a number of eight bytes, and read as a pointer.
define i64 @moved() {{
  %value = alloca i64, align 8
  %slot = alloca ptr, align 8
  %other = alloca ptr, align 8
  store i64 42, ptr %value, align 8
  store ptr %value, ptr %slot, align 8
  %bytes = load i64, ptr %slot, align 8
  store i64 %bytes, ptr %other, align 8
  %pointer = load ptr, ptr %other, align 8
  %found = load i64, ptr %pointer, align 8
  ret i64 %found
}}

; A pair is stored by its bytes and loaded as a struct, and the other way round.
define i64 @pair() {{
  %pair = alloca [16 x i8], align 8
  %other = alloca [16 x i8], align 8
  store i8 7, ptr %pair, align 8
  %behind = getelementptr i8, ptr %pair, i64 8
  store ptr getelementptr (i8, ptr @text, i64 24), ptr %behind, align 8
  %loaded = load {{ i8, ptr }}, ptr %pair, align 8
  store {{ i8, ptr }} %loaded, ptr %other, align 8
  %place = getelementptr i8, ptr %other, i64 8
  %text = load ptr, ptr %place, align 8
  %letter = load i8, ptr %text, align 1
  %first = load i8, ptr %other, align 1
  %a = zext i8 %letter to i64
  %b = zext i8 %first to i64
  %shifted = shl i64 %a, 8
  %both = or i64 %shifted, %b
  ret i64 %both
}}

; Where the fields of a constant stand.
define i64 @constant() {{
  %text = load ptr, ptr @text, align 8
  %length = load i64, ptr getelementptr (i8, ptr @text, i64 8), align 8
  %null = load i64, ptr getelementptr (i8, ptr @text, i64 16), align 8
  %last = getelementptr i8, ptr %text, i64 %length
  %letter = load i8, ptr %last, align 1
  %wide = zext i8 %letter to i64
  %sum = add i64 %wide, %null
  ret i64 %sum
}}
"""
EXPECTED = {"above": 0, "moved": 42, "pair": 0x6107, "constant": 0x63}

RUN = """
const { exports } = new WebAssembly.Instance(new WebAssembly.Module(require("node:fs").readFileSync(process.argv[1])), {});
console.log(JSON.stringify(Object.fromEntries(process.argv.slice(2).map((name) => [name, Number(exports[name]())]))));
"""
MAIN = "#include <stdio.h>\n" + "".join(f"long {it}(void);\n" for it in EXPECTED) + "int main(void) {\n" + "".join(
    f'printf("{it} %ld\\n", {it}());\n' for it in EXPECTED) + "}\n"


class Runs(unittest.TestCase):
    """A module that looks at its own memory answers the same on both machines, with optimising and without."""

    def test_on_both_machines(self):
        clang = kit() / "toolchain/bin/clang"
        with tempfile.TemporaryDirectory() as folder:
            room = pathlib.Path(folder)
            (room / "main.c").write_text(MAIN)
            (room / "module.ll").write_text(PROGRAM)
            (room / "other.ll").write_text("".join(f"{it}\n" for it in retarget(PROGRAM.splitlines())))
            for level in ("-O0", "-O3"):
                with self.subTest(level):
                    how = {"check": True, "cwd": room}
                    subprocess.run([clang, "--no-default-config", "-w", level, "-c", "-x", "ir", "module.ll", "-o", "x86.o"], **how)
                    subprocess.run(["cc", "main.c", "x86.o", "-o", "native"], **how)
                    native = subprocess.run(["./native"], capture_output=True, text=True, **how).stdout
                    self.assertEqual(dict(zip(native.split()[::2], map(int, native.split()[1::2]))), EXPECTED)
                    subprocess.run([clang, "--no-default-config", "-w", "--target=wasm32", "-mcpu=lime1", level, "-c", "-x", "ir", "other.ll", "-o", "wasm.o"], **how)
                    words = ["wasm-ld", "-flavor", "wasm", "--no-entry", *(f"--export={it}" for it in EXPECTED), "wasm.o", "-o", "other.wasm"]
                    subprocess.run(words, executable=clang, **how)
                    ran = subprocess.run(["node", "-e", RUN, "other.wasm", *EXPECTED], capture_output=True, text=True, **how).stdout
                    self.assertEqual(ran.strip(), str(EXPECTED).replace("'", '"').replace(", ", ",").replace(": ", ":"))


if __name__ == "__main__":
    unittest.main()
