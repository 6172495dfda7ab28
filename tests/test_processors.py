"""The library on other processors beside that of x86-64, byte for byte.

It is built for each processor (library/targets.mk), linked with tests/c/driver.c by Debian's cross compiler, and run under qemu-user, as
the proved library of x86-64 is run. What is printed has to be the same; what the worked inputs give is worked out in docs/FORMATS.md."""

import os
import random
import tempfile
import unittest

from driver import SEED, all_tests, by_native, compile_driver, differing, ran, verb_lines
from library import need, run
from program import TOP

TARGETS = {"aarch64-linux-gnu": "qemu-aarch64", "riscv64-linux-gnu": "qemu-riscv64"}


class Processors(unittest.TestCase):
    @classmethod
    def setUpClass(cls):
        cls.room = cls.enterClassContext(tempfile.TemporaryDirectory(prefix="pocket-processors-"))
        cls.tests = {**all_tests(random.Random(SEED)), "all nine verbs": verb_lines()}
        cls.printed = by_native(os.path.join(cls.room, "native"), cls.tests, "-DPOCKET_DESK")

    def test_native(self):
        """The library of x86-64 prints what is known."""
        for name, (_, known) in self.tests.items():
            with self.subTest(name):
                self.assertIsNone(known and differing(self.printed[name], known))

    def test_targets(self):
        for target, emulator in TARGETS.items():
            with self.subTest(target):
                need("make", emulator, f"{target}-gcc")
                run("make", "-s", "-f", "library/targets.mk", "lib", f"TARGET={target}", timeout=3600)
                driver = os.path.join(self.room, target)
                compile_driver(f"{target}-gcc", [f"{TOP}/library/out/{target}/libpocket.a"], driver, "-DPOCKET_DESK")
                for name, (lines, _) in self.tests.items():
                    with self.subTest(target, test=name):
                        self.assertIsNone(differing(ran([emulator, driver], lines), self.printed[name]))
