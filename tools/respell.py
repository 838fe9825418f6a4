#!/usr/bin/env python3
"""Turns this repository's own names to the spelling of today's Rattle, behind the kit's port/port.py, in the repository's folder.

Crate core, whose name the kit's library has, becomes spi_core. Definitions and lemmas that were spelled with capitals or dashes inside
are in snake case; types, modules, the kit's names and the functions of src/ stay. It says which names fall together.
"""

import os
import re
import shutil

WORD = r"[A-Za-z_][\w'₀₁₂≢≡]*(?:-[\w'₀₁₂≢≡]+)*"
# What a name of ours is first met in: a signature, a `let`, a binder or an abbrev's body.
SIGNED = re.compile(rf"^\s*(?:(?:pub|abbrev|unfoldable)\s+)*((?:{WORD})(?:\s+{WORD})*)\s*:(?!:)")
BOUND = re.compile(rf"(?:\blet\s+|\(\s*)((?:{WORD})(?:\s+{WORD})*)\s*(?:=|:)(?!:)")
# The generated names of a proof file, which the check fixes and not this repository.
MADE = re.compile(r"^(invariant|decreases)-")


def snake(name):
    name = name.replace("-", "_")
    name = re.sub(r"(?<=[a-z0-9])([A-Z])", r"_\1", name)
    return name.lower()


def is_ours_to_turn(name):
    return ("-" in name or re.match(r"[a-z].*[A-Z]", name)) and not MADE.match(name)


def files(*ends):
    for folder, dirs, names in os.walk("crates"):
        dirs[:] = sorted(d for d in dirs if d != "out")
        for n in sorted(names):
            if n.endswith(ends):
                yield os.path.join(folder, n)


def read(path):
    with open(path, encoding="utf-8") as f:
        return f.read()


def write(path, text):
    with open(path, "w", encoding="utf-8") as f:
        f.write(text)


def code_and_comment(line):
    m = re.search(r"(?:^|\s)(?:--|//)(?:\s|$)", line)
    return (line[: m.start()], line[m.start() :]) if m else (line, "")


def declared():
    """Every name that this repository gives, by a signature, a let or a binder."""
    names = set()
    for p in files(".antt"):
        for line in read(p).splitlines():
            code, _ = code_and_comment(line)
            if code.startswith("use "):
                continue
            for m in list(SIGNED.finditer(code)) + list(BOUND.finditer(code)):
                names.update(m.group(1).split())
    return names


def turn_names(text, new, comments):
    word = re.compile(rf"(?<![\w'-]){WORD}")

    def one(part):
        return word.sub(lambda m: new.get(m.group(0), m.group(0)), part)

    out = []
    for line in text.split("\n"):
        code, said = code_and_comment(line)
        if comments:
            said = re.sub(r"[a-z]\w*[A-Z]\w*", lambda m: new.get(m.group(0), m.group(0)), said)
        out.append(one(code) + said)
    return "\n".join(out)


def tight(text):
    """The projections of an edit of specs/, written tight, as port.py writes them elsewhere."""
    if not text.startswith("file: specs/"):
        return text
    text = re.sub(r"(?<=[\w)]) \.(?=[a-z])", ".", text)
    return re.sub(r"\((\w+(?:\.\w+)+)\)", r"\1", text)


def rename_core():
    if not os.path.isdir("crates/core"):
        return
    shutil.move("crates/core", "crates/spi_core")
    # port.py took the crate for the kit's own core: the library's words and this crate's came apart only by what they name.
    for p in files(".rt", ".antt"):
        text = read(p)
        text = text.replace("Rattle.core.specs.Prelude", "Rattle.std.specs.Prelude")
        for module in ("View", "declared.Core", "declared.Stepped"):
            text = text.replace(f"Rattle.std.specs.{module}.", f"Rattle.spi_core.specs.{module}.")
        text = text.replace("Rattle.core.", "Rattle.spi_core.")
        text = re.sub(r"(?<![\w:.])core::", "spi_core::", text)
        write(p, text)
    text = read("crates.txt")
    write("crates.txt", re.sub(r"(?m)(^|(?<= ))core(?=[: \n])", "spi_core", text))


def main():
    rename_core()
    ours = declared()
    new = {n: snake(n) for n in sorted(ours) if is_ours_to_turn(n)}
    for a, b in new.items():
        if b in ours or [c for c in new if c != a and new[c] == b]:
            print(f"falls together: {a} is {b} now")
    for p in files(".antt", ".rt"):
        write(p, turn_names(read(p), new, True))
    # An edit may still have a name that port.py turned elsewhere.
    for p in files(".edit"):
        text = turn_names(tight(read(p)), new, True)
        old = {n: snake(n) for n in re.findall(r"[a-z]\w*[A-Z]\w*", text) if snake(n) in ours}
        write(p, turn_names(text, old, True))


if __name__ == "__main__":
    main()
