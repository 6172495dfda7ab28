"""The library: what `make lib` builds and installs, its calls from C and C++, and the examples beside the program."""

import glob
import os
import re
import shutil
import subprocess
import sys

from library import STRICT, LibraryTest, need, run
from program import PROGRAM, SAMPLES, TOP, Folder, text_of
from rows import PLAYED, sample

COMPILERS = [("gcc", ["-std=c99"]), ("gcc", ["-std=c17"]), ("clang", ["-std=c99"]), ("g++", ["-x", "c++"]), ("clang++", ["-x", "c++"])]
SHOWN = b"0 written b0\n1 written b1\n2-2 lost\n3 written b3\nend 3 3 0\n"
SCHEDULE = "20,4294967295,20,p\n30,30,1,fr\n"
# Memory is refused by these.
WRAPPED = "-Wl,--wrap=malloc,--wrap=realloc,--wrap=free"
PYTHON = "/usr/bin/python3"


HEADER = text_of("library/pocket.h")


class Installed(LibraryTest):
    def test_make_install(self):
        """The library is installed, pkg-config's file leads to it, the system's Python finds the module, of this version, and that the library,
        if both lie where it looks; and `make uninstall` removes all of it."""
        need(PYTHON)
        root, words, version = self.room.at("root"), ("DESTDIR=" + self.room.at("root"), "PREFIX=/usr/local"), re.search(r'POCKET_VERSION "(.*)"', HEADER)[1]
        self.make("install", *words)
        for name in "include/pocket.h lib/libpocket.a lib/libpocket.so lib/libpocket.so.1 lib/pkgconfig/pocket.pc".split():
            self.assertTrue(os.path.exists(f"{root}/usr/local/{name}"), name)
        self.assertRegex(text_of("usr/local/lib/pkgconfig/pocket.pc", root), rf"(?ms)^prefix=/usr/local$.*^Version: {re.escape(version)}$")
        folder = run("make", "-s", "--eval=where: ; @echo $(MODULES)", "where", *words).decode().strip()
        env = {"PATH": os.environ["PATH"], "PYTHONPATH": root + folder, "LD_LIBRARY_PATH": root + "/usr/local/lib", "PYTHONDONTWRITEBYTECODE": "1"}
        self.assertIn(folder, run(PYTHON, "-E", "-c", "import sys; print('\\n'.join(sys.path))").decode().split("\n"))
        code = "import pocket; print(pocket.__version__, pocket.__file__, pocket.Sender(8).send(b'\\xb0', 1).data.hex())"
        self.assertEqual(run(PYTHON, "-c", code, env=env, cwd="/").decode(), f"{version} {root}{folder}/pocket/__init__.py 85b8d600\n")
        self.make("uninstall", *words)
        self.assertEqual([name for _, _, names in os.walk(root) for name in names], [])

    def test_no_place(self):
        """If no folder for modules can be told, nothing is removed, nor is a module placed."""
        kept = Folder(self.room.at("no-place"))
        for name in ("pocket", "usr/local/bin"):
            os.makedirs(kept.at(name))
        for name in ("pocket/kept", "usr/local/bin/pocket"):
            kept.put(name, "")
        for words in (["PREFIX=/usr/local", "PYTHON=false"], ["PREFIX="]):
            for goal in ("uninstall", "install-module"):
                with self.subTest(goal, words=words), self.assertRaisesRegex(RuntimeError, "tells no folder for modules"):
                    self.make(goal, f"DESTDIR={kept.folder}", *words)
        self.assertEqual(sorted(name for _, _, names in os.walk(kept.folder) for name in names), ["kept", "pocket"])

    def test_pip(self):
        """`pip install .` brings the library along: into a folder of its own, by Debian's packages, without a registry."""
        for module in ("pip", "setuptools", "wheel"):
            if subprocess.run([PYTHON, "-c", f"import {module}"], capture_output=True).returncode:
                self.skipTest(f"python3-{module} is not there")
        copy = self.room.at("sources")
        shutil.copytree(TOP, copy, ignore=shutil.ignore_patterns(".git", "out", "crates", "page", "build", "docs"))
        words = "-q --no-build-isolation --no-deps --no-index --disable-pip-version-check --root-user-action=ignore --target".split()
        env = dict(os.environ, POCKET_LIBRARY=os.path.realpath(self.room.at("libpocket.so")), PYTHONWARNINGS="ignore")
        run(PYTHON, "-m", "pip", "install", *words, self.room.at("pip"), ".", cwd=copy, env=env)
        env = {"PATH": os.environ["PATH"], "PYTHONPATH": self.room.at("pip"), "PYTHONDONTWRITEBYTECODE": "1"}
        self.assertEqual(run(PYTHON, "-m", "pocket", "bits=8", "apid=100", env=env, cwd="/", given=PLAYED), SHOWN)

    def test_sources(self):
        """A change of any crate's code makes the library for another processor anew."""
        told = run("make", "-s", "-f", "library/targets.mk", "--eval=sources: ; @echo $(CROSS_SOURCES)", "sources").decode().split()
        self.assertEqual(set(glob.glob("crates/*/src/**/*.rt", root_dir=TOP, recursive=True)) - set(told), set())

    def test_exports(self):
        """The shared library exports the calls of the header alone, in its version, by a name that tells it."""
        names = set(re.findall(r" T (\w+@@POCKET_1)$", run("nm", "-D", self.room.at("libpocket.so")).decode(), re.M))
        own = HEADER[HEADER.index("alone has: a program"):HEADER.index("/* ---- Names ----")]
        of = lambda part: set(re.findall(r"^[\w ]+ \*?(pocket_\w+)\(", part, re.M))
        plain = lambda found: {name.replace("_checked", "") for name in found}
        self.assertEqual(names, {f"{name}@@POCKET_1" for name in of(HEADER) - of(own) - plain(of(own))})
        self.assertRegex(run("objdump", "-p", self.room.at("libpocket.so")), rb"SONAME +libpocket\.so\.1\n")


class Calls(LibraryTest):
    def test_compilers(self):
        for compiler, standard in COMPILERS:
            with self.subTest(compiler, standard=standard):
                self.passes(self.compiled("worked.c", "worked-" + compiler, compiler=compiler, standard=standard))

    def test_names(self):
        """A class in C++ keeps the names of its members, whichever of its files takes the header, and a call is its checked one."""
        need("g++")
        link = "struct Link { int pocket_send(int); int pocket_close(); };\n"
        parts = {"defines": '#include <pocket.h>\n' + link + "int Link::pocket_send(int it) { return it + 1; }\nint Link::pocket_close() { return 1; }\n",
                 "calls": link + "int both() { Link it; return it.pocket_send(40) + it.pocket_close(); }\n",
                 "checks": "#include <pocket.h>\nint both();\nint main() { return both() == 42 && pocket_close(0) == POCKET_NULL ? 0 : 1; }\n"}
        for name, text in parts.items():
            self.room.put(name + ".cpp", text)
        sources = [self.room.at(name + ".cpp") for name in parts]
        run("g++", "-std=c++11", *STRICT, "-I" + os.path.join(TOP, "library"), *sources, self.room.at("libpocket.a"), "-o", self.room.at("named"))
        run(self.room.at("named"))

    def test_sentences(self):
        """The sentences of the header."""
        self.passes(self.compiled("sentences.c", "sentences", "-O1"))

    def test_old_processor(self):
        """A processor of x86-64-v2 runs the library, as pocket.h says; one of x86-64 alone may not."""
        need("qemu-x86_64")
        self.passes("qemu-x86_64", "-cpu", "Nehalem", self.compiled("worked.c", "worked-v2", "-static"))

    def test_valgrind(self):
        """There is no error and no leak, also if memory is refused."""
        need("valgrind")
        for source, flags, words in (("worked.c", ["-g"], []), ("refused_memory.c", ["-g", WRAPPED], ["8", "1024"])):
            with self.subTest(source):
                self.passes("valgrind", "-q", "--error-exitcode=9", "--leak-check=full", self.compiled(source, "debug-" + source[:-2], *flags), *words)

    def test_refused_memory(self):
        """Each allocation is refused in turn."""
        self.passes(self.compiled("refused_memory.c", "refused", WRAPPED), "1", "8", "13", "1024", "49152")

    def test_both_ends(self):
        """Random calls of both ends, of which some packets are any bytes."""
        self.passes(self.compiled("both_ends.c", "both-ends", "-g", "-fsanitize=address"), "4000")

    def test_any_states(self):
        """Any bytes are taken for a state."""
        self.passes(self.compiled("states.c", "states", "-g", "-O1", "-fsanitize=address"), "20000")

    def test_stack(self):
        """No command takes more stack than pocket.h says."""
        found = run(self.compiled("../../bench/desk.c", "desk", "-O2")).split()
        deepest = dict(zip(found[::2], map(int, found[1::2])))
        self.assertTrue(len(deepest) == 9 and max(deepest.values()) <= 110_000, deepest)


class Examples(LibraryTest):
    def test_loops(self):
        """The two loops write what the program writes of the same recording, schedule and fields."""
        at = self.room.at
        self.room.put("plan", SCHEDULE)
        store = run(self.compiled("../../library/examples/onboard.c", "onboard", "-O2"), given=sample("hk.rec"))
        self.assertEqual(store, run(PROGRAM, "compress", f"in={SAMPLES}/hk.rec", "out=-", "bits=64", "apid=100", "robust=2", "plan=" + at("plan")))
        told = run(sys.executable, os.path.join(TOP, "library", "examples", "ground.py"), at("back"), given=store)
        run(PROGRAM, "restore", "in=-", "out=" + at("restored"), "report=" + at("report"), "bits=64", "apid=100", given=store)
        run(PROGRAM, "table", "in=" + at("restored"), "out=" + at("table"), "report=" + at("limits"), f"fields={SAMPLES}/hk.csv", "bits=64")
        self.assertEqual(self.room.get("back"), self.room.get("restored"))
        self.assertEqual(sorted(told.splitlines()), sorted(self.room.get("limits").splitlines()[1:-1]))

    def test_printed(self):
        """The programs that docs/CALLING.md prints, of at most twenty lines, send and receive the worked packet."""
        for language in ("c", "python"):
            with self.subTest(language):
                code = re.search(rf"^```{language}\n(.*?)^```$", text_of("docs/CALLING.md"), re.M | re.S)[1]
                self.assertLessEqual(len(code.splitlines()), 20)
                name = "printed." + language
                self.room.put(name, code)
                words = [self.compiled(self.room.at(name), "printed")] if language == "c" else [sys.executable, self.room.at(name)]
                self.assertEqual(run(*words), b"85 b8 d6 00\nb0\n")

    def test_show(self):
        """The module shows the verdicts of a store, and refuses one that is cut."""
        words = [sys.executable, "-m", "pocket", "bits=8", "apid=100"]
        self.assertEqual(run(*words, given=PLAYED), SHOWN)
        cut = subprocess.run(words, input=PLAYED[:-1], capture_output=True)
        self.assertEqual((cut.returncode, cut.stderr), (1, b"pocket: the packet at byte 20 is cut\n"))
