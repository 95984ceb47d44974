#!/usr/bin/env python3
"""Measures the C library: `bench/library.py [ROUNDS]`.

It prints the nanoseconds of user and system time that the verdict on one bundle of 200 bytes takes,
called from C and from Rust: the least of ROUNDS runs, 7 unless another number is given.
`package/library` has to be run before. It needs cc and cargo.
"""

import os
import shutil
import subprocess
import sys
import tempfile
from pathlib import Path

from make import CRC32, DATA, bundle
from measure import seconds

TOP = Path(__file__).resolve().parent.parent
TIMES = 1_000_000


def build(room):
    """Builds both programs, and returns the language and the path of each."""
    built = TOP / "package/out"
    subprocess.run(
        ["cc", "-O2", f"-I{TOP}/include", TOP / "bench/library.c", built / "libtcpclkit.a", "-o", room / "c"],
        check=True,
    )
    shutil.copytree(TOP / "bindings/rust", room / "rust", ignore=shutil.ignore_patterns("target"))
    shutil.copy(TOP / "bench/library.rs", room / "rust/examples/library.rs")
    subprocess.run(
        ["cargo", "build", "-q", "--release", "--offline", "--example", "library"],
        check=True, cwd=room / "rust", env={**os.environ, "TCPCLKIT_LIB": str(built)}, stderr=subprocess.DEVNULL,
    )
    return ("C", room / "c"), ("Rust", room / "rust/target/release/examples/library")


def main():
    rounds = int(sys.argv[1]) if len(sys.argv) > 1 else 7
    with tempfile.TemporaryDirectory() as name:
        room = Path(name)
        given = room / "bundle"
        given.write_bytes(bundle(DATA[:162], primary=CRC32))
        for language, program in build(room):
            least = min(seconds([str(program), str(TIMES)], given) for _ in range(rounds))
            print(f"{language}: {least / TIMES * 1e9:.0f} ns a bundle")


if __name__ == "__main__":
    main()
