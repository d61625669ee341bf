#!/usr/bin/env python3
"""Tests ./lc, its tools, the runner of the tests and .ci/run, over a small repository and an `rt` that answers at once.

    tools.py
"""

from __future__ import annotations

import os
import shutil
import subprocess
import sys
import tempfile
import time
import unittest
from pathlib import Path

from checks import run_tests

TOP = Path(__file__).resolve().parent.parent
sys.path.insert(0, str(TOP / "tools"))

from crates import Crates  # noqa: E402
from run import judged  # noqa: E402
from unproved import CARRIES_OUT, without_body  # noqa: E402
from usage import faults, plain_places, usage_of  # noqa: E402

# It makes what the kit's makes, refuses a crate with a file `wrong`, and notes each call. `rt ci` ends with the status in the file `ci`.
RT = """#!/usr/bin/env bash
echo "$1 ${PWD##*/}" >>"$NOTES"
[ ! -e src/wrong ] || { echo 'a proof failed'; exit 1; }
case $1 in
  lib) mkdir -p out/rlib out/incremental && sleep 0.1 && touch out/rlib/stamp ;;
  run) mkdir -p out && cp src/program out/lc && chmod +x out/lc ;;
  ci) cat ci_says; exit "$(cat ci)" ;;
  try) echo "tried ${*: -1}"; [ "${*: -1}" = broken ] && exit 2; echo 'run=ended status=0 runners=1 proved=no' >&2 ;;
esac
"""
PROGRAM = """#!/usr/bin/env bash
[ "$1" != nothing ] || { echo 'error usage'; exit 2; }
echo "ran $*"
"""


class Repository:
    """A repository of three libraries and the program, with the scripts of this one."""

    def __init__(self, folder: Path) -> None:
        self.top = folder / "top"
        self.notes = folder / "notes"
        for name in ("tools", "docs/help", "tests", ".ci", "examples"):
            shutil.copytree(TOP / name, self.top / name, ignore=shutil.ignore_patterns("out", "__pycache__"))
        shutil.copy(TOP / "lc", self.top)
        self.write("crates.txt", "# a comment\nlow: std_io\nleft: low\nright: low # another\nlc: left right\n")
        for name in ("low", "left", "right"):
            self.write(f"crates/{name}/src/lib.rt", "")
        self.write("crates/lc/src/program", PROGRAM)
        self.write("bin/rt", RT)
        (self.top / "bin/rt").chmod(0o755)
        self.environment = {**os.environ, "PATH": f"{self.top}/bin:{os.environ['PATH']}", "NOTES": str(self.notes)}
        for name in ("LC", "LC_UNPROVED", "CI"):
            self.environment.pop(name, None)

    def write(self, name: str, text: str) -> None:
        file = self.top / name
        file.parent.mkdir(parents=True, exist_ok=True)
        file.write_text(text, encoding="utf-8")

    def run(self, *words: str, **variables: str) -> subprocess.CompletedProcess[str]:
        how = {**self.environment, **variables}
        return subprocess.run(words, cwd=self.top, env=how, stdin=subprocess.DEVNULL, capture_output=True, text=True, timeout=150, check=False)

    def noted(self) -> list[str]:
        """What `rt` was called for since the last look."""
        lines = self.notes.read_text(encoding="utf-8").splitlines() if self.notes.exists() else []
        self.notes.unlink(missing_ok=True)
        return lines


class InRepository(unittest.TestCase):
    def setUp(self) -> None:
        self.folder = tempfile.TemporaryDirectory()
        self.repository = Repository(Path(self.folder.name))
        self.run_in = self.repository.run

    def tearDown(self) -> None:
        self.folder.cleanup()


class Proves(InRepository):
    def test_order(self) -> None:
        """prove: each crate after those that it builds on, and the program last"""
        ran = self.run_in("./lc", "prove")
        self.assertEqual(ran.returncode, 0, ran.stderr)
        noted = self.repository.noted()
        self.assertEqual((noted[0], noted[-1], len(noted)), ("lib low", "run lc", 4))
        self.assertFalse((self.repository.top / "crates/lc/out/rooms").exists())

    def test_current(self) -> None:
        """prove: nothing where nothing changed, and else what changed with what builds on it"""
        self.run_in("./lc", "prove")
        self.repository.noted()
        self.run_in("./lc", "prove")
        self.assertEqual(self.repository.noted(), [])
        time.sleep(0.02)
        self.repository.write("crates/left/specs/Left.antt", "")
        self.run_in("./lc", "prove")
        self.assertEqual(self.repository.noted(), ["lib left", "run lc"])

    def test_refused(self) -> None:
        """prove: a crate that is not proved ends it with status 70, and what was proved is kept"""
        self.repository.write("crates/left/src/wrong", "")
        ran = self.run_in("./lc", "prove")
        self.assertEqual(ran.returncode, 70)
        self.assertIn("a proof failed", ran.stderr)
        self.assertTrue(ran.stderr.endswith("lc: left is not proved\n"), ran.stderr)
        self.repository.noted()
        (self.repository.top / "crates/left/src/wrong").unlink()
        self.run_in("./lc", "prove")
        self.assertNotIn("lib low", self.repository.noted())

    def test_no_program(self) -> None:
        """prove: a program that cannot be built ends it with status 70"""
        self.repository.write("crates/lc/src/wrong", "")
        self.assertEqual(self.run_in("./lc", "prove").returncode, 70)


class Runs(InRepository):
    def test_proved(self) -> None:
        """lc: the proved program runs where it is current, and else the sources unproved"""
        self.assertEqual(self.run_in("./lc", "check", "feed").stdout, "tried feed\n")
        self.run_in("./lc", "prove")
        self.assertEqual(self.run_in("./lc", "check", "feed").stdout, "ran check feed\n")
        self.assertEqual(self.run_in("./lc", "check", "feed", LC_UNPROVED="1").stdout, "tried feed\n")
        time.sleep(0.02)
        self.repository.write("crates/low/src/lib.rt", "fn f() {}\n")
        self.assertEqual(self.run_in("./lc", "check", "feed").stdout, "tried feed\n")

    def test_unproved_refused(self) -> None:
        """lc: what needs sockets does not run unproved, which status 70 says"""
        ran = self.run_in("./lc", "serve", "feed")
        self.assertEqual((ran.returncode, ran.stdout), (70, ""))

    def test_no_answer(self) -> None:
        """lc: where rt try itself fails the status is 70, and no usage is said to be wrong"""
        ran = self.run_in("./lc", "check", "broken")
        self.assertEqual(ran.returncode, 70)
        self.assertNotIn("argument", ran.stderr)

    def test_hint(self) -> None:
        """lc: after `error usage` standard error says what is wrong"""
        self.run_in("./lc", "prove")
        ran = self.run_in("./lc", "nothing")
        self.assertEqual((ran.returncode, ran.stdout), (2, "error usage\n"))
        self.assertIn("the first argument is a command: arrive ask", ran.stderr)

    def test_help(self) -> None:
        """lc help: no other file than those of commands"""
        for word in ("../USAGE", "nothing", "-x"):
            self.assertEqual(self.run_in("./lc", "help", word).returncode, 2)


class Usages(unittest.TestCase):
    def test_faults(self) -> None:
        """usage: what is wrong with arguments at the first glance"""
        serve = usage_of("serve")
        self.assertEqual(list(faults(serve, "serve", "feed 20240501 --port 1 --connections=2 --accept-updates".split())), [])
        self.assertEqual(list(faults(serve, "serve", "feed 20240501 --port 1 --connections".split())), ["--connections has no value"])
        self.assertEqual(list(faults(serve, "serve", "feed 1 --port 1 --connections 2 --cache 3".split())), ["serve has no option --cache"])
        self.assertEqual(list(faults(serve, "serve", ["feed", "1", "--port", "1"])), ["serve needs the option --connections"])
        self.assertEqual(plain_places(serve, "--days 3 feed --accept-updates 1 --cuts=whole -- --a".split()), [2, 4, 7])
        self.assertEqual(list(faults(usage_of("drill"), "drill", ["--", "--1", "2"])), ["drill takes 1 arguments beside its options, and here are 2"])


class Unproved(unittest.TestCase):
    def test_without_body(self) -> None:
        """unproved: a function without its body, and the others as they were"""
        rest = "/// Another.\nfn next() {\n    true\n}\n"
        clauses = "pub(crate) fn plan_block<F: Folder>(\n    folder: &mut F,\n) -> Block\n    ensures { IsX (record {\n        a = 1;\n    }) }\n"
        self.assertEqual(without_body(clauses + "{\n    made(Block { a })\n}\n\n" + rest, "plan_block"), clauses + "{\n    unreachable!()\n}\n\n" + rest)
        self.assertEqual(without_body("fn f(a: u8) -> u8 {\n    a\n}\n", "f"), "fn f(a: u8) -> u8 {\n    unreachable!()\n}\n")
        self.assertIsNone(without_body(rest, "plan_block"))

    def test_there(self) -> None:
        """unproved: each function that carries out one command is there"""
        crates = Crates()
        texts = [Path(file).read_text(encoding="utf-8") for name in crates.used_by("lc") for file in crates.sources(name) if file.endswith(".rt")]
        found = {name for name in CARRIES_OUT if any(without_body(text, name) for text in texts)}
        self.assertEqual(found, set(CARRIES_OUT))


class Bounds(unittest.TestCase):
    def bounded(self, seconds: str, script: str) -> tuple[int, float]:
        begun = time.monotonic()
        ran = subprocess.run([TOP / "tests/bounded.py", seconds, "bash", "-c", script], timeout=150, check=False)
        return ran.returncode, time.monotonic() - begun

    def is_gone(self, file: Path) -> bool:
        return not Path(f"/proc/{file.read_text(encoding='ascii').strip()}").exists()

    def test_status(self) -> None:
        """bounded: the status is that of the command"""
        self.assertEqual(self.bounded("20", "exit 3")[0], 3)

    def test_children(self) -> None:
        """bounded: what a command has begun ends with it, in a session of its own too"""
        with tempfile.TemporaryDirectory() as folder:
            leave = f"setsid -f sh -c 'echo $$ >{folder}/pid; exec sleep 300'; until [ -s {folder}/pid ]; do sleep 0.05; done"
            self.assertEqual(self.bounded("20", leave)[0], 0)
            self.assertTrue(self.is_gone(Path(folder, "pid")))
            status, seconds = self.bounded("1", f"{leave}; sleep 300")
            self.assertEqual(status, 124)
            self.assertLess(seconds, 30)
            self.assertTrue(self.is_gone(Path(folder, "pid")))


class Judges(unittest.TestCase):
    def failed(self, lines: list[str], status: int) -> int:
        return judged(lines, status, 60, 0).failed

    def test_judged(self) -> None:
        """run: a part that fails, ends early or has no end is one that failed"""
        self.assertEqual(self.failed(["ok: a", "1 passed, 0 failed, 0 skipped"], 0), 0)
        self.assertEqual(self.failed(["FAILED: a", "0 passed, 2 failed, 0 skipped"], 1), 2)
        self.assertEqual(self.failed(["ok: a", "1 passed, 0 failed"], 1), 1)
        self.assertEqual(self.failed(["FAILED: a", "0 passed, 1 failed, 0 skipped"], 0), 2)
        self.assertEqual(self.failed(["ok: a"], 0), 1)
        self.assertEqual(self.failed([], 127), 1)
        self.assertEqual(self.failed(["ok: a", "1 passed, 0 failed, 0 skipped"], 124), 1)


class Tests(InRepository):
    def setUp(self) -> None:
        super().setUp()
        self.write_part("good", "echo 'ok: a'; echo 'skipped: b, since c'; echo '1 passed, 0 failed, 1 skipped'")
        self.write_part("needs", "[ -n \"$LC\" ] && \"$LC\" x >/dev/null && echo '1 passed, 0 failed, 0 skipped'")
        self.repository.write("tests/parts.txt", "# a comment\ngood - 20 good.sh\nneeds proved 20 needs.sh\n")

    def write_part(self, name: str, script: str) -> None:
        self.repository.write(f"{name}.sh", f"#!/usr/bin/env bash\n{script}\n")
        (self.repository.top / f"{name}.sh").chmod(0o755)

    def last(self, *words: str) -> tuple[int, str]:
        ran = self.run_in(*words)
        return ran.returncode, (ran.stdout.splitlines() or [ran.stderr])[-1]

    def test_counts(self) -> None:
        """lc test: the checks of all parts are summed up, and what needs the proved program is skipped without it"""
        self.assertEqual(self.last("./lc", "test"), (0, "1 passed, 0 failed, 2 skipped"))
        self.run_in("./lc", "prove")
        self.assertEqual(self.last("./lc", "test"), (0, "2 passed, 0 failed, 1 skipped"))
        self.assertEqual(self.last("./lc", "test", "needs"), (0, "1 passed, 0 failed, 0 skipped"))

    def test_cases(self) -> None:
        """lc test: a program of cases whose output is another one turns it red"""
        self.repository.write("crates/rows_a/src/main.rt", "")
        self.repository.write("crates/rows_a/stdout", "tried --\n")
        with (self.repository.top / "crates.txt").open("a", encoding="utf-8") as lines:
            lines.write("rows_a: low\n")
        self.assertEqual(self.last("./lc", "test"), (0, "3 passed, 0 failed, 2 skipped"))
        self.repository.write("crates/rows_a/stdout", "tried it\n")
        self.assertEqual(self.last("./lc", "test"), (1, "2 passed, 1 failed, 2 skipped"))
        self.assertEqual(self.last("./lc", "test", "--without-cases"), (0, "1 passed, 0 failed, 2 skipped"))

    def test_bad(self) -> None:
        """lc test: a part that fails, one that has no end, and one that is not there"""
        self.write_part("bad", "echo 'FAILED: a'; echo '0 passed, 1 failed, 0 skipped'; exit 1")
        self.write_part("long", "sleep 300")
        self.repository.write("tests/parts.txt", "bad - 20 bad.sh\nlong - 1 long.sh\n")
        self.assertEqual(self.last("./lc", "test"), (1, "0 passed, 2 failed, 0 skipped"))
        self.repository.write("tests/parts.txt", "absent - 20 absent.sh\n")
        self.assertEqual(self.last("./lc", "test")[0], 1)
        self.assertEqual(self.last("./lc", "test", "nothing")[0], 1)

    def test_gate(self) -> None:
        """.ci/run: red where rt ci fails, or a part outside the crates does, and green else"""
        self.repository.write("interop/setup.sh", "#!/bin/sh\n")
        (self.repository.top / "interop/setup.sh").chmod(0o755)
        self.repository.write("ci", "0\n")
        self.repository.write("ci_says", "9 passed, 0 failed\n")
        self.run_in("./lc", "prove")
        self.assertEqual(self.last(".ci/run"), (0, "2 passed, 0 failed, 1 skipped"))
        self.write_part("needs", "echo 'FAILED: a'; echo '0 passed, 1 failed, 0 skipped'; exit 1")
        self.assertEqual(self.last(".ci/run"), (1, "1 passed, 1 failed, 1 skipped"))
        self.repository.write("ci", "1\n")
        self.repository.write("ci_says", "8 passed, 1 failed (rows_a)\n")
        self.assertEqual(self.last(".ci/run")[0], 1)


if __name__ == "__main__":
    run_tests()
