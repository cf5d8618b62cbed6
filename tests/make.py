"""Tries `make`, `make install` and `make test` over a stand-in for the kit, which hands out what is built already and proves nothing.

    python3 tests/make.py

It stands in for minutes of proofs: what is tried is what the steps say, where they leave what they make, and what becomes of a failure.
Needs build/libaukpocket.a and build/check_reel.
"""

import os
import re
import shutil
import subprocess
import sys
import tempfile
import time
import unittest
from pathlib import Path

TOP = Path(__file__).resolve().parents[1]
SECONDS = 600  # a run that takes as long hangs
KIT = next(line.split("'")[1] for line in (TOP / "tools" / "ready").read_text().splitlines() if line.startswith("kit="))

# What the gate prints: three crates, one of which was proved before and one has wrong programs, and a program.
GATE = """rt: places is kept: an earlier run on this machine proved the same files over the same libraries
== numbers
fn numbers::be16: proved
rt: numbers proved
rt: numbers: trying its must-fail edits (3)
== check_reel
fn check_reel::main: proved
rt: check_reel proved
rt: must-fail numbers/one_off.edit: refused, as it must be: ./proofs/be16/Answers.antt:8:13: error: `returns`: expected type `0`
rt: must-fail numbers/sign_lost.edit: refused, as it must be
rt: must-fail numbers/no_end.edit: refused, as it must be (only by a limit of the prover, which gave no verdict): antt ran out of stack
rt: check_reel ran, and wrote what its file stdout has
rt: check_reel ran (built by Rattle's own compiler), and wrote what its file stdout has
rt: ok; handles allowed: none; must-fail edits: 3 refused, 1 of them only by a limit; every proof and must-fail edit was done in this run
6 passed, 0 failed
"""
LIMIT = "3 refused, 1 of them only by a limit"

# It works on the crate in the folder that it is called in, or on all of the repository at its top.
RT = f"""#!/bin/sh
case "$* in ${{PWD##*/}}" in
'version in '*) echo "${{OTHER_KIT:-{KIT}}}" ;;
'lib in aukpocket')
    echo "lines of proofs"
    [ -z "${{UNPROVED:-}}" ] || {{ echo "logic=not-proved"; exit 1; }}
    mkdir -p out && cp '{TOP}/build/libaukpocket.a' out/ ;;
'run in check_reel') mkdir -p out && cp '{TOP}/build/check_reel' out/ && exec out/check_reel ;;
'ci in top')
    rm -rf crates/*/out
    mkdir -p crates/check_reel/out && cp '{TOP}/build/check_reel' crates/check_reel/out/
    cat "$GATE"
    exit "${{GATE_STATUS:-0}}" ;;
*) echo "the stand-in has no $*"; exit 2 ;;
esac
"""


class Case(unittest.TestCase):
    """Each test has a copy of what is needed, and the stand-in before the other tools."""

    def setUp(self):
        self.room = Path(tempfile.mkdtemp())
        self.top, bin = self.room / "top", self.room / "bin"
        self.top.mkdir()
        for name in ("tools", "cli", "include", "docs", "examples"):
            shutil.copytree(TOP / name, self.top / name, ignore=shutil.ignore_patterns("target", "__pycache__"))
        for name in ("Makefile", "README.md", "crates.txt"):
            shutil.copy(TOP / name, self.top)
        for name in ("numbers", "aukpocket", "check_reel"):
            (self.top / "crates" / name).mkdir(parents=True)
        bin.mkdir()
        self.tool("rt", RT)
        self.env = {key: value for key, value in os.environ.items() if not key.startswith(("MAKE", "MFLAGS"))}
        self.env["PATH"] = f"{bin}:{os.environ['PATH']}"

    def tearDown(self):
        shutil.rmtree(self.room)

    def tool(self, name, text):
        path = self.room / "bin" / name
        path.write_text(text)
        path.chmod(0o755)

    def run_make(self, *words, **env):
        run = subprocess.run(["make", *words], cwd=self.top, env={**self.env, **env}, stdin=subprocess.DEVNULL, stdout=subprocess.PIPE,
                             stderr=subprocess.STDOUT, text=True, timeout=SECONDS)
        return run.returncode, run.stdout


class Make(Case):
    def test_make_and_install(self):
        status, said = self.run_make()
        self.assertEqual(status, 0, said)
        steps = ("proving and compiling the library", "compiling the command", "making sample.record",
                 "proving and compiling the program check_reel")
        for line, step in zip(said.splitlines(), steps):
            self.assertRegex(line, f"^{step} +[0-9]+ s$")
        shown = re.search(r"^    \$ make\n((?:    .*\n)+)", (TOP / "README.md").read_text(encoding="utf-8"), re.M).group(1)
        seconds = re.compile(r" +\d+ s$", re.M)
        self.assertEqual(seconds.sub("", said), seconds.sub("", re.sub(r"^    ", "", shown, flags=re.M)))
        self.assertIn("lines of proofs", (self.top / "build/make.log").read_text())
        # What was made stands apart from what the kit has in out/, and isn't made again.
        for name in ("aukpocket", "check_reel"):
            shutil.rmtree(self.top / "crates" / name / "out")
        status, again = self.run_make()
        self.assertEqual((status, again), (0, said[said.index("sample.record is the record") :]))
        for line in again.splitlines()[1:4]:
            run = subprocess.run(line.split("  ")[1].strip(), shell=True, cwd=self.top, capture_output=True, timeout=SECONDS)
            self.assertEqual((run.returncode, run.stderr), (0, b""), line)
        run = subprocess.run(["build/check_reel"], cwd=self.top, input=(TOP / "examples/sample.sgy").read_bytes(), capture_output=True)
        self.assertEqual(run.stdout, b"taken 6 240 13029 2\n")

        # Installed, with the folder that a packager puts before it and without.
        for dest, prefix in (("", self.room / "inst"), (str(self.room / "pack"), "/usr")):
            status, said = self.run_make("install", f"PREFIX={prefix}", f"DESTDIR={dest}")
            self.assertEqual(status, 0, said)
            there = Path(f"{dest}{prefix}")
            found = {str(path.relative_to(there)): path.stat().st_mode & 0o777 for path in there.rglob("*") if path.is_file()}
            self.assertEqual(found, {
                "bin/aukpocket": 0o755, "lib/libaukpocket.a": 0o644, "include/aukpocket.h": 0o644,
                "lib/pkgconfig/aukpocket.pc": 0o644, "share/man/man1/aukpocket.1": 0o644})
            described = (there / "lib/pkgconfig/aukpocket.pc").read_text()
            self.assertIn(f"Cflags: -I{prefix}/include\nLibs: -L{prefix}/lib -laukpocket\n", described)
        there = self.room / "inst"
        flags = [f"-I{there}/include", f"-L{there}/lib", "-laukpocket"]
        if shutil.which("pkg-config"):
            run = subprocess.run(["pkg-config", "--cflags", "--libs", "aukpocket"], capture_output=True, text=True, timeout=SECONDS,
                                 env={**self.env, "PKG_CONFIG_PATH": f"{there}/lib/pkgconfig"})
            self.assertEqual((run.stdout.split(), run.stderr), (flags, ""))
        subprocess.run(["cc", TOP / "examples/c/read_reel.c", *flags, "-o", self.room / "program"], check=True, timeout=SECONDS)
        run = subprocess.run([self.room / "program", TOP / "examples/sample.sgy", self.room / "record"], capture_output=True, timeout=SECONDS)
        self.assertEqual(run.stdout, b"taken 6 240 13029 2\n")
        version = subprocess.run([there / "bin/aukpocket", "--version"], capture_output=True, text=True).stdout.split()[1]
        self.assertIn(f"Version: {version}\n", described)
        self.assertIn(f'"aukpocket {version}"', (there / "share/man/man1/aukpocket.1").read_text())
        self.assertNotEqual(self.run_make("install", "PREFIX=here")[0], 0)

        self.assertEqual(self.run_make("clean"), (0, ""))
        self.assertFalse(any((self.top / name).exists() for name in ("build", "crates/aukpocket/out", "sample.record")))

    def test_a_step_that_fails(self):
        status, said = self.run_make(UNPROVED="1")
        self.assertNotEqual(status, 0)
        self.assertRegex(said, r"^proving and compiling the library +[0-9]+ s\nlines of proofs\nlogic=not-proved\n"
                               r"FAILED: proving and compiling the library \(exit status 1\); all that it said is at the end of build/make.log\n")
        self.assertFalse((self.top / "build/libaukpocket.a").exists())

    def test_what_is_missing(self):
        status, said = self.run_make("ready", OTHER_KIT="rattle-kit-1")
        self.assertEqual((status, said), (0, f"warning: the proofs were last checked with the kit {KIT}; this one is rattle-kit-1\n"))
        (self.room / "bin/rt").unlink()
        few = self.room / "few"
        few.mkdir()
        for tool in ("sh", "make", "sed", "find"):
            (few / tool).symlink_to(shutil.which(tool))
        status, said = self.run_make("ready", PATH=str(few))
        self.assertNotEqual(status, 0)
        for tool, part in (("rt", f"unpack the kit {KIT} and put"), ("cargo", "install Rust 1.80 or newer"), ("cc", "a C compiler")):
            self.assertRegex(said, f"(?m)^{tool} is missing: .*{part}")

    def test_the_readme_names_the_kit(self):
        self.assertTrue(f"`{KIT}`" in (TOP / "README.md").read_text(encoding="utf-8"))


class Test(Case):
    """`make test`, every step of which is stood in for."""

    def setUp(self):
        super().setUp()
        # The outer make, by its own name, runs the test; what it runs finds a make that does nothing.
        for name in ("cargo", "python3", "make"):
            self.tool(name, f'#!/bin/sh\necho "{name} $*"\ncase "{name} $*" in *"${{FAILING:-none}}"*) echo "something is wrong"; exit 7 ;; esac\n')
        (self.top / "tests").mkdir()
        for name in ("byte_number_for_place", "differential", "command"):
            (self.top / "tests" / f"{name}.sh").write_text(f'[ "${{FAILING:-}}" != {name} ]\n')
        self.gate = self.room / "gate"
        self.gate.write_text(GATE)
        self.env["GATE"] = str(self.gate)

    def run_test(self, **env):
        make = shutil.which("make")
        run = subprocess.run([make, "test"], cwd=self.top, env={**self.env, **env}, stdin=subprocess.DEVNULL, stdout=subprocess.PIPE,
                             stderr=subprocess.PIPE, text=True, timeout=SECONDS)
        return run.returncode, run.stdout, run.stderr

    def test_all_well(self):
        status, said, trouble = self.run_test()
        self.assertEqual((status, trouble), (0, ""), said)
        self.assertTrue(said.endswith("\n6 passed, 0 failed\n"), said)
        self.assertRegex(said, r"(?m)^places +kept +-\nnumbers +[0-9]+ s +3\ncheck_reel +[0-9]+ s +-\nall +[0-9]+ s +3$")
        self.assertIn("  numbers proved\n", said)
        self.assertIn("  numbers: 2 wrong programs refused\n", said)
        self.assertIn("  must-fail numbers/no_end.edit: refused, as it must be (only by a limit", said)
        self.assertRegex(said, r"(?m)^the gate +[0-9]+ s$")
        self.assertEqual((self.top / "build/gate.log").read_text(), GATE)

    def test_a_gate_that_fails(self):
        for text, gate_status in (
            (GATE, "1"), (GATE.replace("6 passed, 0 failed", "5 passed, 1 failed"), "0"),
            (GATE.replace("6 passed, 0 failed", "5 passed, 1 failed"), "1"), (GATE.replace("6 passed, 0 failed\n", ""), "0"), ("", "2"),
            # Wrong programs that can't be tried any more, and a run that is not the gate.
            (GATE.replace(LIMIT, "3 refused, 1 bad"), "0"), (GATE.replace(LIMIT, f"{LIMIT}, 12 bad"), "0"),
            (GATE.replace("rt: ok; ", "rt: numbers and the crates below passed; "), "0"),
        ):
            self.gate.write_text(text)
            status, said, _ = self.run_test(GATE_STATUS=gate_status)
            self.assertNotEqual(status, 0, said)
            self.assertIn("FAILED: the gate", said)
            self.assertNotIn("differential", said)

    def test_a_step_that_fails(self):
        for failing in ("differential", "command", "byte_number_for_place", "samples.py", "check_reel.py", "bench/Cargo.toml",
                        "segyio_reels.py", "tests/make.py", "crates.txt", "make_sample_reel.py", "listing_vectors.py", "eagle_vectors.py",
                        "order_vectors.py", "code_page.py"):
            status, said, _ = self.run_test(FAILING=failing)
            self.assertNotEqual(status, 0, (failing, said))
            self.assertRegex(said, r"FAILED: .*; all that it said is at the end of build/test.log\n$")


def main():
    begun = time.monotonic()
    suite = unittest.defaultTestLoader.loadTestsFromModule(sys.modules[__name__])
    with open(os.devnull, "w") as nowhere:
        result = unittest.TextTestRunner(stream=nowhere).run(suite)
    for test, report in result.failures + result.errors:
        print(f"make: {test.id()}\n{report}")
    failed = len(result.failures) + len(result.errors)
    print(f"make: {result.testsRun - failed} tests passed, {failed} failed, {time.monotonic() - begun:.0f} s")
    sys.exit(1 if failed else 0)


if __name__ == "__main__":
    main()
