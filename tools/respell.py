#!/usr/bin/env python3
"""Brings the repository's own definitions and lemmas to the spelling of today's Rattle, once, after the kit's port.py.

usage: python3 tools/respell.py [FOLDER]      (the folder of the checkout; . where none is given)

- a definition, lemma, field or variable in lower camel case becomes snake case: untilByte, until_byte; allIn-take, all_in-take;
- a lemma that would then have the name of the definition that it is of gets _lem: run_in, run_in_lem (LEMMAS below, each with the module that declares it);
- getD in a lemma's name is get_or, as the definition is now called.
Functions of src/, types, constructors, strings, inputs and outputs keep their names. The pages and scripts follow, for names that are declared in a crate.
It changes text only, and a second run changes nothing.
"""
import glob
import os
import re
import sys

# lemmas whose name falls together with a definition's: the file that declares each
LEMMAS = {
    "is_known": "book/proofs/Placing.antt",
    "has_room": "book/proofs/Placing.antt",
    "count_at": "field/proofs/Cuts.antt",
    "fits_width": "octet/proofs/Padded.antt",
    "run_in": "octet/proofs/Lists.antt",
    "setting_up": "promise/proofs/Refusing.antt",
    "row_is": "promise/proofs/Totals.antt",
    "row_as": "promise/proofs/Totals.antt",
    "number_read": "value/proofs/Numbers.antt",
    "range_listed": "table/proofs/Listed.antt",
    "row_listed": "table/proofs/Listed.antt",
    "body_ok": "wire/proofs/Framing.antt",
}
# the second lemma of that name
LEMMAS_TOO = {"number_read": "session/proofs/Answers.antt"}

WORD = re.compile(r"[A-Za-z_ℕ₀-₉][\w₀-₉'-]*")
CAMEL = re.compile(r"^([a-z][a-z0-9]*(?:[A-Z][a-z0-9]*)+)(['₀-₉]*)$")
STRING = re.compile(r'"(?:[^"\\\n]|\\.)*"')


def snake(part):
    m = CAMEL.match(part)
    if not m:
        return part
    if m.group(1) == "getD":
        return "get_or" + m.group(2)
    return re.sub(r"[A-Z]", lambda c: "_" + c.group(0).lower(), m.group(1)) + m.group(2)


def respelled(word):
    return "-".join(snake(p) for p in word.split("-"))


def read(path):
    with open(path, encoding="utf-8") as f:
        return f.read()


def write(path, text, was):
    if text != was:
        with open(path, "w", encoding="utf-8") as f:
            f.write(text)


def lemma_named(text, name):
    """The lemma, where it is not a step of a proof or a module of a path."""
    return re.sub(r"(?<![\w.'-])" + name + r"(?![\w'-]|\.(?:Tie|Statement|Symbol|Met))", name + "_lem", text)


def lemmas(root, antt):
    for table in (LEMMAS, LEMMAS_TOO):
        for name, home in table.items():
            if f"{name}_lem " in read(os.path.join(root, "crates", home)):
                continue
            module = "Rattle." + home[: -len(".antt")].replace("/", ".")
            uses = re.compile(r"use " + re.escape(module) + r"\.\{[^}]*(?<![\w'-])" + name + r"(?![\w'-])")
            for path in antt:
                text = read(path)
                if path.endswith("/crates/" + home) or uses.search(text):
                    write(path, lemma_named(text, name), text)


def in_code(text, strings):
    """Every camel word outside strings; a string of a .rt file is text that the program writes."""
    at, out = 0, []
    for m in STRING.finditer(text) if strings else ():
        out += [WORD.sub(lambda w: respelled(w.group(0)), text[at : m.start()]), m.group(0)]
        at = m.end()
    return "".join(out) + WORD.sub(lambda w: respelled(w.group(0)), text[at:])


def main(root):
    crates = os.path.abspath(os.path.join(root, "crates"))
    root = os.path.dirname(crates)
    antt = sorted(glob.glob(crates + "/*/specs/**/*.antt", recursive=True) + glob.glob(crates + "/*/proofs/**/*.antt", recursive=True))
    code = sorted(glob.glob(crates + "/*/src/**/*.rt", recursive=True) + glob.glob(crates + "/*/must-fail/*.edit"))
    lemmas(root, antt)
    for path in antt + code:
        text = read(path)
        write(path, in_code(text, path.endswith(".rt")), text)
    declared = set()
    for path in antt:
        declared.update(re.findall(r"(?m)^(?:  )?(?:(?:pub|abbrev|unfoldable|data|record|ruleset) )*([a-z][\w'-]*) :", read(path)))
    pages = [os.path.join(root, "README.md")] + sorted(glob.glob(root + "/docs/**/*.md", recursive=True))
    for path in pages + [os.path.join(root, "tests/promises"), os.path.join(root, "tests/places")]:
        text = read(path)
        write(path, WORD.sub(lambda w: respelled(w.group(0)) if respelled(w.group(0)) in declared else w.group(0), text), text)


if __name__ == "__main__":
    main(sys.argv[1] if len(sys.argv) > 1 else ".")
