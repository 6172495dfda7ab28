#!/usr/bin/env python3
"""Installs what the parts of the gate need of Debian's packages, if this is root, in one place before the first of them: no part depends on
what an earlier one installed. What can't be had is told, and each part skips by name what needs it."""

import os
import shutil
import subprocess
import sys

PACKAGES = {
    "linters": "pyflakes3 mypy shellcheck eslint",
    "the manual page": "mandoc",
    "completions": "zsh bash-completion",
    "installing": "make pkg-config dpkg-dev lintian python3-pip python3-setuptools python3-wheel",
    "compilers": "gcc g++ clang libclang-rt-14-dev valgrind",
    "other processors": """qemu-user gcc-aarch64-linux-gnu libc6-dev-arm64-cross gcc-riscv64-linux-gnu libc6-dev-riscv64-cross gcc-i686-linux-gnu
        libc6-dev-i386-cross gcc-arm-linux-gnueabihf libc6-dev-armhf-cross gcc-powerpc-linux-gnu libc6-dev-powerpc-cross gcc-s390x-linux-gnu
        libc6-dev-s390x-cross gcc-sparc64-linux-gnu libc6-dev-sparc64-cross gcc-multilib-sparc64-linux-gnu libc6-dev-sparc-sparc64-cross""",
    "boards": "gcc-arm-none-eabi libnewlib-arm-none-eabi gcc-riscv64-unknown-elf qemu-system-arm qemu-system-sparc qemu-system-misc",
    "many spacecraft": "redis-server python3-redis",
    "WebAssembly": "wabt binaryen esbuild",
    "browsers": "chromium chromium-driver firefox-esr webkit2gtk-driver xvfb fonts-dejavu-core",
}


def lacking():
    """The packages that are not installed."""
    names = " ".join(PACKAGES.values()).split()
    told = subprocess.run(["dpkg-query", "-W", "-f", "${Package} ${db:Status-Status}\n", *names], capture_output=True, text=True, check=False).stdout
    there = {line.split()[0] for line in told.splitlines() if line.endswith(" installed")}
    return [name for name in names if name not in there]


def install(names):
    """Installs packages; each by itself if they can't be had together."""
    words = ["apt-get", "-o", "DPkg::Lock::Timeout=600", "install", "-y", "-q", "--no-install-recommends"]
    done = subprocess.run([*words, *names], stdout=subprocess.DEVNULL, stderr=subprocess.DEVNULL, timeout=1800, check=False)
    if done.returncode and len(names) > 1:
        for name in names:
            install([name])


def main():
    if not shutil.which("apt-get"):
        sys.exit("needs: Debian's apt-get is not there: what isn't installed is skipped")
    if lacking() and os.geteuid() == 0:
        subprocess.run(["apt-get", "update", "-q"], stdout=subprocess.DEVNULL, stderr=subprocess.DEVNULL, timeout=900, check=False)
        install(lacking())
    left = lacking()
    print(f"needs: not to be had: {' '.join(left)}" if left else "needs: all packages are there")


if __name__ == "__main__":
    main()
