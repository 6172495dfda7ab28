"""What the Makefile installs, and all as Debian packages in a root of their own: what is there is run, and removed. The program built without
a proof."""

import filecmp
import glob
import os
import shutil
import subprocess
import tempfile
import unittest

from library import PROVED, run
from program import PROGRAM, SAMPLES, TOP, Folder, text_of

FILES = {"bin/pocket": 0o755, "share/man/man1/pocket.1": 0o644, "share/bash-completion/completions/pocket": 0o644, "share/zsh/site-functions/_pocket": 0o644}
PACKAGES = ["libpocket-dev", "libpocket1", "pocket", "python3-pocket"]
# Of the packages that those need: what dpkg is told of them, as it stands on this machine.
NEEDED = ["libc6", "libgcc-s1", "python3"]
PYTHON = "import pocket; print(pocket.Sender(8).send(b'\\xb0', 1).data.hex(' '), pocket.run('show', 'in=x', 'out=y', 'bits=8', 'apid=1', inputs={'x': b''}))"


def said(*words, **how):
    """What a command says, on either stream; one that does not end with 0 is an error."""
    return run(*words, stderr=subprocess.STDOUT, timeout=1200, **how).decode()


def installed(folder):
    """The files below a folder."""
    return [name for _, _, names in os.walk(folder) for name in names]


def root_of(folder):
    """An empty root of dpkg, whose status has the packages that those need, as they are here."""
    root = f"{folder}/debian"
    for name in ("updates", "info", "triggers"):
        os.makedirs(f"{root}/var/lib/dpkg/{name}")
    told = subprocess.run(["dpkg-query", "-s", *NEEDED], capture_output=True, text=True).stdout
    kept = [line for line in told.splitlines(True) if not line.startswith(("Depends:", "Pre-Depends:", "Recommends:"))]
    Folder(f"{root}/var/lib/dpkg").put("status", "".join(kept) + "\n")
    return root


class Install(unittest.TestCase):
    @classmethod
    def setUpClass(cls):
        cls.folder = cls.enterClassContext(tempfile.TemporaryDirectory(prefix="pocket-install-"))
        cls.told = said(PROGRAM, "--version")

    def make(self, *words):
        """What make says, which has to be nothing."""
        return said("make", "-s", *words, f"BUILD={self.folder}/build", f"PROGRAM={PROGRAM}", f"PROVED={PROVED}")

    def test_program(self):
        """`make install-program` places the program and its files, the program runs there, and `make uninstall` removes them."""
        base, words = f"{self.folder}/root/opt/pocket", (f"DESTDIR={self.folder}/root", "PREFIX=/opt/pocket")
        self.assertEqual(self.make("install-program", *words), "")
        self.assertEqual({name: os.stat(f"{base}/{name}").st_mode & 0o777 for name in FILES if os.path.exists(f"{base}/{name}")}, FILES)
        self.assertEqual(said(f"{base}/bin/pocket", "--version"), self.told)
        self.assertEqual((self.make("uninstall", *words), installed(base)), ("", []))

    def test_tools(self):
        """`make tools` makes and places what needs no toolchain, and all of it runs there, in the way that it tells."""
        base, env = f"{self.folder}/tools", {"PATH": "/usr/sbin:/usr/bin:/sbin:/bin", "HOME": self.folder}
        told = said("make", "-s", "tools", f"PREFIX={base}", f"BUILD={self.folder}/tools-build", "CFLAGS=-O0", env=env)
        module = told.strip().rpartition("PYTHONPATH=")[2]
        self.assertTrue(os.path.isdir(f"{module}/pocket"), told)
        env.update(PATH=f"{base}/bin:{env['PATH']}", PYTHONPATH=module, PYTHONDONTWRITEBYTECODE="1")
        for words in ("python3 -m pocket merge hk.store hk.store near=0 | cmp - hk.store", "pocket forecast out=- packets=9 robust=1 plan=pass.csv script=fades.csv | tail -1 | grep -x end,9,9",
                      "python3 -m pocket advise packets=1000 script=fades.csv rows=8 | grep fr", f"pocket show in=hk.store out=- bits=64 apid=100 | python3 {base}/share/pocket/pictures/draw.py listing | grep svg"):
            with self.subTest(words):
                said("sh", "-c", words, env=env, cwd=SAMPLES)
        self.assertEqual((said("make", "-s", "uninstall", f"PREFIX={base}", env=env), installed(base)), ("", []))

    def packed(self, name):
        """The Debian packages, made into a folder."""
        os.stat(PROVED)  # (else make would prove it)
        folder = f"{self.folder}/{name}"
        if not os.path.exists(folder):
            said(f"{TOP}/packaging/deb.sh", PROGRAM, folder, env=dict(os.environ, PROVED=PROVED))
        return sorted(glob.glob(f"{folder}/*.deb"))

    @unittest.skipUnless(shutil.which("dpkg-deb"), "dpkg-deb is not there")
    def test_packages(self):
        """The packages can be made, and are the same to the bit the second time."""
        one, other = self.packed("one"), self.packed("other")
        self.assertEqual([os.path.basename(path).split("_")[0] for path in one], PACKAGES)
        self.assertTrue(len(one) == len(other) and all(filecmp.cmp(*pair, shallow=False) for pair in zip(one, other)), "they differ")

    @unittest.skipUnless(shutil.which("lintian"), "lintian is not there")
    def test_lintian(self):
        self.assertEqual(said("lintian", "--allow-root", *self.packed("one")), "")

    @unittest.skipUnless(shutil.which("dpkg"), "dpkg is not there")
    def test_packages_in_a_root(self):
        """dpkg finds all that the packages need, and the program, a C program and Python run over what they place; then it removes them."""
        root = root_of(self.folder)
        dpkg = ["dpkg", f"--root={root}", "--force-not-root", "--force-script-chrootless"]
        said(*dpkg, "-i", *self.packed("one"))
        with self.assertRaises(RuntimeError, msg="libpocket1 can be removed before what needs it"):
            said("dpkg", f"--root={root}", "--force-not-root", "--no-act", "--purge", "libpocket1")
        libraries = os.path.dirname(glob.glob(f"{root}/usr/lib/*/libpocket.so.1")[0])
        self.assertEqual(said(f"{root}/usr/bin/pocket", "--version"), self.told)
        with self.subTest("C"):
            self.assertEqual(self.c_program(root, libraries), "85 b8 d6 00\nb0\n")
        with self.subTest("Python"):
            env = {"PATH": os.environ["PATH"], "PYTHONPATH": f"{root}/usr/lib/python3/dist-packages", "LD_LIBRARY_PATH": libraries, "PYTHONDONTWRITEBYTECODE": "1"}
            self.assertEqual(said("/usr/bin/python3", "-c", PYTHON, env=env, cwd="/"), "85 b8 d6 00 {'y': b'end 0 0 0\\n'}\n")
        gone = said(*dpkg, "--purge", *PACKAGES)
        self.assertEqual(installed(f"{root}/usr"), [], gone)

    def c_program(self, root, libraries):
        """What the program in C of docs/CALLING.md says over the packages."""
        Folder(self.folder).put("printed.c", text_of("docs/CALLING.md").split("```c\n")[1].split("```")[0])
        env = dict(os.environ, PKG_CONFIG_LIBDIR=f"{libraries}/pkgconfig", PKG_CONFIG_SYSROOT_DIR=root, LD_LIBRARY_PATH=libraries)
        flags = said("pkg-config", "--cflags", "--libs", "pocket", env=env).split()
        said("gcc", f"{self.folder}/printed.c", *flags, "-o", f"{self.folder}/printed")
        return said(f"{self.folder}/printed", env=env)

    def test_unproved(self):
        """`make unproved` builds the program, which says that it is unproved, and compresses as the proved one."""
        self.make("unproved")
        program = f"{self.folder}/build/unproved/pocket"
        self.assertEqual(said(program, "--version").strip(), self.told.strip().removesuffix(" (unproved)") + " (unproved)")
        words = ["compress", f"in={SAMPLES}/hk.rec", "out=-", "bits=64", "apid=100", "robust=2"]
        stores = [run(one, *words) for one in (program, PROGRAM)]
        self.assertTrue(stores[0] == stores[1] != b"", "it makes another store")
