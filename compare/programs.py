"""Runs the proved program `replay` and the crate's driver over many cases, and takes images apart."""
import importlib
import json
import resource
import subprocess
import sys
from pathlib import Path

# A case that grows without end must end its own run, and not burden the machine.
MOST_BYTES = 8 << 30
_, most = resource.getrlimit(resource.RLIMIT_AS)
resource.setrlimit(resource.RLIMIT_AS, (MOST_BYTES if most == resource.RLIM_INFINITY else min(MOST_BYTES, most), most))

ROOT = Path(__file__).resolve().parent.parent
sys.path.insert(0, str(ROOT / "tools"))
from image import NONE, TABLES, as_bytes  # noqa: E402

DRIVER = ROOT / "target/compare/crate_driver"
WIDTHS = (2, 2, 4, 2, 3, 9, 3, 4, 3)
MOST_SCRATCH = 262144
MOST_WORDS = 65536


def missing(what):
    sys.exit("missing: " + what)


def need_replay():
    if not (ROOT / "crates/replay/out/replay").exists():
        missing("crates/replay/out/replay; `rt run </dev/null` in crates/replay proves and builds it")


def need_driver():
    if not DRIVER.exists():
        missing("target/compare/crate_driver; `compare/crate/build.sh FOLDER` builds it from the crate's files")


def from_folder(folder, *names):
    """Modules of another folder. It has a module `image` of its own: all of this project's must have been read by then."""
    for name in names:
        if not (folder / (name + ".py")).exists():
            missing("%s.py in %s" % (name, folder))
    sys.modules.pop("image", None)
    sys.path.insert(0, str(folder))
    try:
        return [importlib.import_module(name) for name in names]
    except ImportError as error:
        missing("a module that %s needs (%s)" % (folder, error))


def tables(words):
    """An image's rows by table; the header must be right."""
    out = {}
    for t, name in enumerate(TABLES):
        count, at, width = words[2 + 2 * t], words[3 + 2 * t], WIDTHS[t]
        out[name] = [words[at + r * width : at + (r + 1) * width] for r in range(count)]
    return out


def scratch_needed(words, work):
    return 8 * work + 16 * sum(words[2:20:2]) + 4096


def most_work(words):
    """The largest budget for which the scratch of replay will do."""
    return (MOST_SCRATCH - 4096 - 16 * sum(words[2:20:2])) // 8


def case(words, work, scratch=None):
    """A case as both programs read it. Without a right header any scratch will do."""
    if scratch is None:
        scratch = scratch_needed(words, work)
    return as_bytes([0, work, scratch, len(words), *words])


def vector(words, work, scratch, reply):
    return " ".join(map(str, [work, scratch, *reply])) + " : " + " ".join(map(str, words))


def run(command, cases):
    done = subprocess.run(command, input=b"".join(cases), stdout=subprocess.PIPE)
    lines = done.stdout.decode().splitlines()
    if done.returncode != 0 or len(lines) != len(cases):
        sys.exit("%s ended with %d after %d of %d cases" % (command[0], done.returncode, len(lines), len(cases)))
    return lines


def replies(cases):
    """What the proved program answers: kind, operation, a, b, used, kept."""
    return [tuple(map(int, line.split())) for line in run([str(ROOT / "tools/program"), "replay"], cases)]


def diagnostics(cases):
    """What the crate says: see compare/crate/shim/main.rs."""
    return [json.loads(line) for line in run([str(DRIVER)], cases)]
