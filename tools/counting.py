"""Runs x86-64 programs and counts the instructions that they execute: by valgrind on x86-64, elsewhere by Debian's emulator (qemu-user) with
the plugin tools/count.c. The C library is told to fill words by ordinary stores: valgrind counts a repeated store (`rep stosb`) once for each
byte, the emulator once in all."""
import functools
import os
import pathlib
import platform
import re
import shutil
import subprocess
import tempfile

ROOT = pathlib.Path(__file__).resolve().parent.parent
# The loader and the C library are the kit's, and not the system's: the same instructions on each machine.
LIB = pathlib.Path(shutil.which("rt")).resolve().parent.parent / "toolchain/lib"
REPLAY = [str(LIB / "ld-linux-x86-64.so.2"), "--library-path", str(LIB), str(ROOT / "crates/replay/out/replay")]
PLAIN_STORES = {**os.environ, "GLIBC_TUNABLES": "glibc.cpu.x86_rep_stosb_threshold=100000000"}
VALGRIND = ["valgrind", "--tool=cachegrind", "--cache-sim=no", "--cachegrind-out-file=/dev/null"]
NATIVE = platform.machine() == "x86_64"


def output(command, given):
    under = [] if NATIVE else ["qemu-x86_64"]
    return subprocess.run(under + command, input=given, capture_output=True, check=True).stdout


@functools.cache
def plugin():
    to = ROOT / "target/libcount.so"
    to.parent.mkdir(exist_ok=True)
    subprocess.run(["cc", "-O2", "-shared", "-fPIC", "-o", str(to), str(ROOT / "tools/count.c")], check=True)
    return str(to)


def instructions(command, given):
    """What is given lies in a file, so that each read gives as much as it asks for, in every run."""
    with tempfile.TemporaryFile() as file, tempfile.NamedTemporaryFile() as log:
        file.write(given)
        file.seek(0)
        if NATIVE:
            done = subprocess.run(VALGRIND + command, stdin=file, capture_output=True, check=True, env=PLAIN_STORES)
            return int(re.search(rb"I +refs: +([\d,]+)", done.stderr).group(1).replace(b",", b""))
        under = ["setarch", "-R", "qemu-x86_64", "-plugin", plugin(), "-d", "plugin", "-D", log.name]
        subprocess.run(under + command, stdin=file, stdout=subprocess.DEVNULL, check=True, env=PLAIN_STORES)
        return int(re.search(rb"executed (\d+)", log.read()).group(1))


def of_one(command, given):
    """The instructions of a case, as those of two such cases less those of one: start-up is not in it."""
    return instructions(command, given * 2) - instructions(command, given)
