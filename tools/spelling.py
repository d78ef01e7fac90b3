#!/usr/bin/env python3
"""Brings the repository's own definitions, lemmas and fields of specs/ to today's spelling, after port.py.

usage: python3 tools/spelling.py            at the top of a checkout that port.py has turned

Words that began in camel case (`isDay`) are written in snake case (`is_day`), in specs/, in proofs/ and in the clauses
of src/, and so are fields of the records of specs/ that had a dash. Names that would fall together with a field, a
module or a tactic of the same spelling get the name that OTHERS gives. Lemmas keep the dashes that join two names.
Rust code, strings and comments have no such word, and stay. Run it once: a second run changes nothing.
"""

import pathlib
import re
import sys

# names whose snake case falls together with another name
OTHERS = {
    "lastDay": "contract_last_day",  # last_day is a field of series and term operations
    "lotSize": "lot",  # lot_size is a field of securities
    "sheetText": "sheet_fault_text",  # sheet_text is a crate
    "linesFit": "fit_of_lines",  # lines_fit is a field of three records
    "goesOn": "onward",  # goes_on is a lemma
    "firstOf": "first_that_applies",  # first_of is a tactic; port.py may have respelled it already
}
# what port.py made of names of this repository that have to be told from a tactic
AFTER_PORT = {
    "crates/rates": {"first_of": "first_that_applies"},
    "crates/rules": {"first_of": "first-used"},
}
# fields of the records of specs/
FIELDS = {
    name: name.replace("-", "_")
    for name in (
        "before-fit day-fits first-fit fit-1 fit-2 fit-3 fit-4 leg-1 leg-2 leg-3 leg-4 legs-are line-feed lots-fit"
        " text-is unfit-leg"
    ).split()
}
FIELDS["leg-at"] = "at_leg"  # leg_at is a definition

CAMEL = re.compile(r"(?<![A-Za-z0-9_'-])[a-z][a-z0-9]*(?:[A-Z][a-z0-9]*)+(?![A-Za-z0-9_'])")
WORD = re.compile(r"(?<![A-Za-z0-9_'-])[a-z][a-z0-9_]*(?:-[a-z0-9_]+)*(?![A-Za-z0-9_'-])")


def snake(match):
    word = match.group()
    return OTHERS.get(word) or re.sub("[A-Z]", lambda m: "_" + m.group().lower(), word)


def respelled(text, folder, is_antt):
    text = CAMEL.sub(snake, text)
    words = dict(FIELDS) if is_antt and folder == "crates/sheet_text" else {}
    words.update(AFTER_PORT.get(folder, {}) if is_antt else {})
    return WORD.sub(lambda m: words.get(m.group(), m.group()), text) if words else text


def main():
    top = pathlib.Path(".")
    if not (top / "crates.txt").is_file():
        sys.exit("spelling: run it at the top of the repository")
    changed = 0
    for path in sorted(top.glob("crates/*/**/*")):
        if path.suffix not in (".rt", ".antt") or "out" in path.parts:
            continue
        text = path.read_text()
        new = respelled(text, "/".join(path.parts[:2]), path.suffix == ".antt")
        if new != text:
            path.write_text(new)
            changed += 1
    print(f"spelling: {changed} files")


main()
