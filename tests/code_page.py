"""Holds the tables of code page 037 to Python's codec cp037, which follows Unicode's CP037.TXT, entry by entry.

    python3 tests/code_page.py

The tables are read out of the sources: `latin` of crates/code_page/specs/Page.antt, which the promises are about, and LATIN and EBCDIC of
crates/code_page/src/lib.rt, which the code has. LATIN gives the character of each code, EBCDIC the code of each character.
"""

import re
import sys
from pathlib import Path

CRATE = Path(__file__).resolve().parents[1] / "crates" / "code_page"
CHARACTERS = [ord(bytes([code]).decode("cp037")) for code in range(256)]
CODES = [chr(character).encode("cp037")[0] for character in range(256)]


def table(name, found, entry, between):
    """The numbers of the one definition that was found: each `entry` matches, and nothing but `between` stands beside them."""
    if len(found) != 1:
        sys.exit(f"code_page.py: {name} is defined {len(found)} times")
    if re.sub(rf"{entry}|{between}", "", found[0]):
        sys.exit(f"code_page.py: {name} has something else than entries")
    return [int(digits, 16) for digits in re.findall(entry, found[0])]


def table_of_specs(name):
    """A definition NAME = 0x00 ∷ 0x01 ∷ .. ∷ []"""
    text = re.sub(r"--.*", "", (CRATE / "specs" / "Page.antt").read_text(encoding="utf-8"))
    return table(name, re.findall(rf"^{name}\s*=([^=\[]*)\[\]", text, re.M), r"0x([0-9A-F]{2})\b", r"[∷\s]")


def table_of_code(name):
    r"""A constant const NAME: [u8; 256] = *b"\x00\x01..";"""
    text = re.sub(r"//.*", "", (CRATE / "src" / "lib.rt").read_text(encoding="utf-8"))
    return table(name, re.findall(rf'^const {name}: \[u8; 256\] = \*b"([^"]*)";', text, re.M), r"\\x([0-9a-f]{2})", r"\\\n *")


def main():
    faults = 0
    for name, entries, page in (
        ("latin", table_of_specs("latin"), CHARACTERS),
        ("LATIN", table_of_code("LATIN"), CHARACTERS),
        ("EBCDIC", table_of_code("EBCDIC"), CODES),
    ):
        if len(entries) != 256:
            sys.exit(f"code_page.py: {name} has {len(entries)} entries")
        for place, (entry, right) in enumerate(zip(entries, page)):
            if entry != right:
                print(f"code_page.py: {name} has {entry:02X} for {place:02X}; in code page 037 it is {right:02X}")
                faults += 1
    if faults:
        sys.exit(1)
    print("code_page.py: three tables of 256 entries are code page 037")


if __name__ == "__main__":
    main()
