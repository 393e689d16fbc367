"""The program in WebAssembly: what is rewritten of its module and what is refused, and its heap against a model."""

import os
import shutil
import subprocess
import sys
import tempfile
import unittest

from setting import TOP, read

sys.path.insert(0, os.path.join(TOP, "web"))

from narrow import Unknown, narrow  # noqa: E402  pylint: disable=wrong-import-position

LAYOUT = "e-m:e-p:32:32-p10:8:8-p20:8:8-i64:64-i128:128-n32:64-S128-ni:1:10:20"
SHIM = ("heap.c", "shim.c")

MODULE = """\
source_filename = "rattle"
target datalayout = "e-m:e-p270:32:32-i64:64-i128:128-f80:128-n8:16:32:64-S128"
target triple = "x86_64-unknown-linux-gnu"

@text = private unnamed_addr constant [4 x i8] c"ptr\\0A", align 1

declare { i64, i64 } @rattle_alloc(i64 noundef, i64 noundef) #2

declare void @llvm.memset.p0.i64(ptr writeonly captures(none), i8, i64, i1 immarg) #3

define internal void @"a::f<i8, ptr>"(ptr noundef %a0, i64 noundef %a1) #0 {
start:
LINES  ret void
}

attributes #0 = { nounwind    "target-cpu"="x86-64" }
attributes #3 = { nocallback nofree nounwind willreturn memory(argmem: write) }

!1 = !{}
"""


def module(*lines):
    return MODULE.replace("LINES", "".join(f"  {line}\n" for line in lines))


def body(text):
    """The lines of the function, without what stands before and after them."""
    lines = text.split("\n")
    return [line.strip() for line in lines[lines.index("start:") + 1 : lines.index("  ret void")]]


class Narrow(unittest.TestCase):
    def rewritten(self, *lines):
        return body(narrow(module(*lines), LAYOUT))

    def refused(self, text, part):
        with self.assertRaises(Unknown) as caught:
            narrow(text, LAYOUT)
        self.assertIn(part, str(caught.exception))

    def test_what_stands_around_the_functions(self):
        lines = narrow(module(), LAYOUT).split("\n")
        self.assertIn(f'target datalayout = "{LAYOUT}"', lines)
        self.assertIn('target triple = "wasm32-unknown-unknown"', lines)
        self.assertIn("attributes #0 = { nounwind     }", lines)
        self.assertIn("declare void @llvm.memset.p0.i32(ptr writeonly captures(none), i8, i32, i1 immarg) #3", lines)
        self.assertIn('@text = private unnamed_addr constant [4 x i8] c"ptr\\0A", align 1', lines)

    def test_a_move_is_declared_with_32_bits(self):
        moved = "declare void @llvm.memmove.p0.p0.i64(ptr writeonly captures(none), ptr readonly captures(none), i64, i1 immarg) #4\n"
        self.assertIn(
            "@llvm.memmove.p0.p0.i32(ptr writeonly captures(none), ptr readonly captures(none), i32, i1 immarg)",
            narrow(module() + moved, LAYOUT),
        )

    def test_a_slot_of_a_pointer_keeps_its_8_bytes(self):
        self.assertEqual(self.rewritten("%r4 = alloca ptr, align 8"), ["%r4 = alloca i64, align 8"])

    def test_a_pointer_that_is_stored_leaves_no_upper_half(self):
        lines = self.rewritten("store ptr %r2, ptr %r4, align 8")
        self.assertEqual(lines[0], "store ptr %r2, ptr %r4, align 8")
        place = lines[1].split(" = ")[0]
        self.assertEqual(lines[1:], [f"{place} = getelementptr i8, ptr %r4, i64 4", f"store i32 0, ptr {place}, align 4"])

    def test_a_pair_is_loaded_from_where_its_parts_stand(self):
        lines = self.rewritten("%r68 = load { i8, ptr }, ptr %r0, align 8")
        self.assertIn(", ptr %r0, align 1", lines[0])
        self.assertTrue(lines[2].endswith("getelementptr i8, ptr %r0, i64 8"))
        self.assertRegex(lines[3], r"= load ptr, ptr %at\d+, align 8$")
        self.assertRegex(lines[4], r"^%r68 = insertvalue \{ i8, ptr \} %half\d+, ptr %second\d+, 1$")

    def test_a_pair_without_a_pointer_stays(self):
        line = "%r68 = load { i8, i64 }, ptr %r0, align 8"
        self.assertEqual(self.rewritten(line), [line])

    def test_lengths_get_32_bits(self):
        lines = self.rewritten(
            "call void @llvm.memmove.p0.p0.i64(ptr %r1, ptr %r2, i64 %r3, i1 false)",
            "call void @llvm.memset.p0.i64(ptr %r1, i8 0, i64 24, i1 false)",
        )
        self.assertRegex(lines[0], r"^%narrow\d+ = trunc i64 %r3 to i32$")
        self.assertRegex(lines[1], r"memmove\.p0\.p0\.i32\(ptr %r1, ptr %r2, i32 %narrow\d+, i1 false\)$")
        self.assertEqual(lines[2], "call void @llvm.memset.p0.i32(ptr %r1, i8 0, i32 24, i1 false)")

    def test_an_address_as_a_number_is_filled_up(self):
        self.assertEqual(self.rewritten("%r40 = ptrtoaddr ptr %r39 to i64"), ["%r40 = ptrtoint ptr %r39 to i64"])

    def test_other_lines_stay(self):
        lines = [
            "%r31 = getelementptr i8, ptr %r9, i64 8",
            '%r5 = call { ptr, i64 } @"a::byval ptrtoint"(ptr %r1, i64 -1)',
            "%r8 = load ptr, ptr %r4, align 8, !noundef !1",
            "store i8 1, ptr %r2, align 1",
            "switch i8 %r30, label %noarm.3 [",
            "  i8 0, label %arm.1",
            "]",
            "unreachable",
        ]
        self.assertEqual(self.rewritten(*lines), [line.strip() for line in lines])

    def test_what_cannot_be_rewritten_is_refused(self):
        for line in (
            "%r1 = ptrtoint ptr %r0 to i64",
            "%r1 = inttoptr i64 %r0 to ptr",
            "%r1 = getelementptr i64, ptr %r0, i64 1",
            "%r1 = getelementptr i8, ptr %r0, i32 1",
            "%r1 = getelementptr { i8, ptr }, ptr %r0, i32 0, i32 1",
            "%r1 = alloca { i8, ptr }, align 8",
            "%r1 = alloca [2 x ptr], align 8",
            "%r1 = alloca ptr, i64 2, align 8",
            "%r1 = load { i8, ptr, i8 }, ptr %r0, align 8",
            "%r1 = load { i8, ptr }, ptr %r0, align 8, !noundef !1",
            "%r1 = load <2 x ptr>, ptr %r0, align 8",
            "%r1 = load volatile i8, ptr %r0, align 1",
            "store { i8, ptr } %r1, ptr %r0, align 8",
            "store ptr %r1, ptr %r0, align 8, !nontemporal !1",
            "call void @llvm.memcpy.p0.p0.i64(ptr %r1, ptr %r2, i64 %r3, i1 false)",
            "call void @llvm.memset.p0.i64(ptr align 8 %r1, i8 0, i64 24, i1 false)",
            "call void @f(ptr byval({ i8, ptr }) %r1)",
            "call void @f(ptr inttoptr (i64 8 to ptr))",
            "%r1 = ptrtoaddr ptr %r0 to i32",
            "%r1 = atomicrmw add ptr %r0, i64 1 seq_cst, align 8",
            "%r1 = va_arg ptr %r0, i64",
        ):
            with self.subTest(line):
                self.refused(module(line), line)

    def test_outside_of_functions_too(self):
        for line in (
            "@pointer = private unnamed_addr constant ptr @text, align 8",
            "@pair = private unnamed_addr constant { ptr, i64 } { ptr @text, i64 4 }, align 8",
            "@changed = global [4 x i8] zeroinitializer, align 1",
            "declare i64 @llvm.objectsize.i64.p0(ptr, i1, i1, i1)",
            "declare void @llvm.memcpy.p0.p0.i64(ptr, ptr, i64, i1)",
            'attributes #9 = { "target-cpu"="x86-64" "target-features"="+avx2" }',
            'module asm "nop"',
        ):
            with self.subTest(line):
                self.refused(module() + line + "\n", line.split(" = ")[0].split(" ")[0])

    def test_another_layout_is_refused(self):
        with self.assertRaises(Unknown):
            narrow(module(), "e-m:e-p:64:64-i64:64-i128:128-n32:64-S128")


class Shim(unittest.TestCase):
    def test_is_short(self):
        self.assertLessEqual(sum(read(TOP, "web", name).count("\n") for name in SHIM), 300)
        self.assertLessEqual(read(TOP, "web", "loader.js").count("\n"), 80)

    @unittest.skipUnless(shutil.which("tsc"), "node-typescript is not installed")
    def test_the_types_of_the_loader(self):
        words = ["--noEmit", "--checkJs", "--allowJs", "--strict", "--target", "es2022", "--module", "commonjs", "--lib", "es2022,dom"]
        done = subprocess.run(["tsc", *words, os.path.join(TOP, "web", "loader.js")], capture_output=True, text=True, check=False)
        self.assertEqual((done.returncode, done.stdout), (0, ""))

    @unittest.skipUnless(shutil.which("cc"), "a C compiler is not installed")
    def test_the_heap_against_a_model(self):
        with tempfile.TemporaryDirectory() as folder:
            program = os.path.join(folder, "heap_fuzz")
            words = ["cc", "-O1", "-w", "-o", program, os.path.join(TOP, "web", "tests", "heap_fuzz.c")]
            checks = ["-g", "-fsanitize=address,undefined", "-fno-sanitize-recover=all"]
            if subprocess.run([*words, *checks], capture_output=True, check=False).returncode != 0:
                subprocess.run(words, check=True)
            for seed in ("1", "2", "3"):
                done = subprocess.run([program, seed, "10000"], capture_output=True, text=True, check=False)
                self.assertEqual(done.returncode, 0, done.stdout + done.stderr)


if __name__ == "__main__":
    unittest.main()
