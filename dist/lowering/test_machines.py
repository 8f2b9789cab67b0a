#!/usr/bin/env python3
"""Tests what dist/targets refuses: a small module as the kit lowers it for x86-64, with one thing changed.
bindings/c/tests/on_targets runs it."""
import re
import sys
import unittest
from pathlib import Path

sys.dont_write_bytecode = True
sys.path.insert(0, str(Path(__file__).resolve().parent))

# pylint: disable=wrong-import-position
import lowering  # noqa: E402
import machines  # noqa: E402

GOOD = r"""source_filename = "rattle"
target datalayout = "e-m:e-p270:32:32-p271:32:32-p272:64:64-i64:64-i128:128-f80:128-n8:16:32:64-S128"
target triple = "x86_64-unknown-linux-gnu"

define internal void @"heap::rattle_alloc"(ptr noundef %a0, i64 noundef %a1, i64 noundef %a2) #0 {
start:
  %r0 = call { i64, i64 } @rattle_alloc(i64 %a1, i64 %a2)
  %r1 = alloca [16 x i8], align 8
  store { i64, i64 } %r0, ptr %r1, align 8
  %r2 = getelementptr i8, ptr %r1, i64 8
  %r3 = load <16 x i8>, ptr %r1, align 1
  ret void
}

define internal i64 @"core::added"(ptr noundef %a0) #0 {
start:
  call void asm sideeffect "", "~{memory}"()
  %r0 = atomicrmw add ptr %a0, i64 1 seq_cst, align 8
  call void asm sideeffect "", "~{memory}"()
  %r1 = call i64 @llvm.ctlz.i64(i64 %r0, i1 false)
  ret i64 %r1
}

define void @takes_memory(i64 noundef %a0, ptr noundef %a1) #0 {
start:
  call void @"heap::rattle_alloc"(ptr %a1, i64 %a0, i64 8)
  %r0 = call i64 @"core::added"(ptr %a1)
  ret void
}

declare { i64, i64 } @rattle_alloc(i64 noundef, i64 noundef) #1

declare i64 @llvm.ctlz.i64(i64, i1 immarg) #1

attributes #0 = { nounwind "probe-stack"="inline-asm" "stack-probe-size"="3072" "target-cpu"="x86-64-v2" }
attributes #1 = { nobuiltin nounwind }

!llvm.ident = !{!0}

!0 = !{!"rattle logic=0"}
"""

# What is changed, and into what.
REFUSED = {
    "another layout": ("-n8:16:32:64-S128", "-n8:16:32:64-S64"),
    "another triple": ("x86_64-unknown-linux-gnu", "x86_64-unknown-freebsd"),
    "another processor's features": ('"target-cpu"="x86-64-v2"', '"target-cpu"="x86-64-v2" "target-features"="+avx2"'),
    "an intrinsic of a target": ("llvm.ctlz.i64", "llvm.x86.bmi.pext.64"),
    "an intrinsic that is not listed": ("llvm.ctlz.i64", "llvm.returnaddress.i64"),
    "another function of C": ("@rattle_alloc(", "@malloc("),
    "a heap with another answer": ("declare { i64, i64 } @rattle_alloc", "declare { i8, i64 } @rattle_alloc"),
    "a heap that takes something else": ("@rattle_alloc(i64 noundef, i64", "@rattle_alloc(i32 noundef, i64"),
    "assembly": ("  ret i64 %r1", '  call void asm sideeffect "cpuid", ""()\n  ret i64 %r1'),
    "an atomic without its barrier": ('asm sideeffect "", "~{memory}"()\n  %r0', 'asm sideeffect "", ""()\n  %r0'),
    "an atomic that is not listed": ("atomicrmw add", "atomicrmw umax"),
    "a weaker atomic": ("seq_cst", "monotonic"),
    "a place whose size the layout decides": ("alloca [16 x i8]", "alloca { i8, i64 }"),
    "a step whose size the layout decides": ("getelementptr i8,", "getelementptr { i8, i64 },"),
    "a vector of numbers": ("load <16 x i8>", "load <4 x float>"),
    "an export that takes an octet": ("@takes_memory(i64 noundef %a0", "@takes_memory(i8 noundef %a0"),
    "an export with an answer": ("define void @takes_memory", "define i64 @takes_memory"),
    "an exception": ("  ret i64 %r1", "  %r9 = landingpad { ptr, i32 } cleanup\n  ret i64 %r1"),
    "a variable of another module": ("!llvm.ident", "@there = external global i64\n\n!llvm.ident"),
}


def made(text: str, machine: machines.Machine) -> lowering.Module:
    module = lowering.read(text)
    machines.retarget(module, ["takes_memory"], machine)
    return module


class Machines(unittest.TestCase):
    def test_a_module_differs_in_the_processor_alone(self) -> None:
        for machine in machines.MACHINES:
            with self.subTest(machine.name):
                module = made(GOOD, machine)
                self.assertTrue(machines.only_named(module, lowering.read(GOOD)))
                self.assertEqual((module.triple, module.layout), (machine.triple, machine.layout))
                self.assertIn(machine.attributes, module.groups["#0"])
                self.assertNotIn("x86", "".join(module.groups.values()))

    def test_a_changed_line_is_seen(self) -> None:
        module = made(GOOD, machines.MACHINES[0])
        for it in module.functions.values():
            it.lines = [re.sub(r"i64 8$", "i64 9", line) for line in it.lines]
        self.assertFalse(machines.only_named(module, lowering.read(GOOD)))

    def test_what_is_not_known_is_refused(self) -> None:
        for what, (old, new) in REFUSED.items():
            with self.subTest(what):
                self.assertIn(old, GOOD)
                with self.assertRaises(lowering.Unknown):
                    made(GOOD.replace(old, new), machines.MACHINES[0])

    def test_other_words_of_clang_are_refused(self) -> None:
        words = ["--target=x86_64-unknown-linux-gnu", "-march=x86-64", "-mllvm", "-no-x86-call-frame-opt", "-Werror"]
        told = machines.words_for(machines.MACHINES[1], words)
        self.assertEqual(told, ["--target=riscv64-unknown-none-elf", "-march=rv64gc", "-mabi=lp64d", "-Werror"])
        for word in range(4):
            with self.assertRaises(lowering.Unknown):
                machines.words_for(machines.MACHINES[1], words[:word] + words[word + 1 :])


if __name__ == "__main__":
    unittest.main()
