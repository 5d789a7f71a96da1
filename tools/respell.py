#!/usr/bin/env python3
"""Respells the repository's own names, after the kit's port.py, as today's Rattle spells them.

usage: python3 tools/respell.py     at the top of a checkout that port.py has turned, once

- Definitions, lemmas, fields and local names of specs/ and proofs/ (but for a variable that only stands on the left of an equation)
  go from dashes to snake case, types and facts to camel case.
  Names that Rattle makes (of goals, steps and invariants) and names of the kit's library keep theirs, and so does all Rattle code.
- The crate hex becomes hex_field, since the kit has a library of the name hex.
- Each root file asks for the tactics, `#![tactic(auto)]`.
- Names that come to stand for two things are printed.
"""

import os
import re
import subprocess

WORD = re.compile(r"[^\s(){}\[\].,;\u00ab\u00bb\"]+")
DECLARED = re.compile(r"(?m)^[ ]*(?:(?:abbrev|unfoldable|pub|data|record|ruleset)[ ]+)*([^\s(){}.,;:]+)[ ]*((?:[({][^(){}]*[)}][ ]*)*):[ ](.*)$")
USE = re.compile(r"(?m)^[ ]*(?:ghost )?use ([^\s{;]+?)(?:\.\{([^}]*)\}| as (\S+))?;?[ ]*$")
LOCAL = re.compile(r"\blet ([^\s:=(){}]+) |\bas ([^\s,;}]+)|\u03bb ([^.]*)\.[ ]|\(((?:[^\s(){}.,;:]+ )+): ")
OWN_CRATE = ("hex", "hex_field")


def read(path):
    with open(path, encoding="utf-8") as f:
        return f.read()


def write(path, text):
    with open(path, "w", encoding="utf-8") as f:
        f.write(text)


def crates():
    return [line.split(":")[0].split()[0] for line in read("crates.txt").splitlines() if ":" in line and not line.startswith("#")]


def files(*endings):
    listed = subprocess.run(["git", "ls-files", "crates"], capture_output=True, text=True, check=True).stdout.split("\n")
    return [f for f in listed if f.endswith(endings) and os.path.isfile(f)]


def respelled(name):
    """`Digits-below` becomes `DigitsBelow`, and `digits-below` becomes `digits_below`."""
    if name[0].isupper():
        return "".join(part[:1].upper() + part[1:] for part in name.split("-"))
    return name.replace("-", "_")


def is_word(name):
    return "-" in name.strip("-") and not name.startswith("-") and re.fullmatch(r"[\w\-\u2032']+", name) is not None


def declared(text):
    """The dashed names that a file of specs/ or proofs/ declares or binds, but for the answers to goals."""
    names = {}
    for m in DECLARED.finditer(text):
        if is_word(m.group(1)) and not re.match(r"(goal|given|need)\.", m.group(3)):
            names[m.group(1)] = True
    for m in LOCAL.finditer(text):
        for name in " ".join(g for g in m.groups() if g).split():
            if is_word(name):
                names.setdefault(name, False)
    return names


def foreign(text, own):
    """The names that a file takes from a library of the kit."""
    taken = set()
    for m in USE.finditer(text):
        parts = m.group(1).split(".")
        if parts[0] == "Rattle" and len(parts) > 1 and parts[1] in own:
            continue
        taken.update(re.split(r"\s+as\s+", n.strip())[-1] for n in (m.group(2) or "").split(","))
    return taken


def respell_names():
    own = crates()
    texts = {f: read(f) for f in files(".antt", ".rt")}
    everywhere = {}
    for f, text in texts.items():
        if f.endswith(".antt"):
            for name, is_declared in declared(text).items():
                if is_declared:
                    everywhere.setdefault(name, set()).add(f)
    for f, text in texts.items():
        local = declared(text) if f.endswith(".antt") else {}
        kept = foreign(text, own)
        before = set(WORD.findall(text))
        turned = {}

        def turn(m):
            name = m.group(0)
            if m.start() > 0 and m.string[m.start() - 1] == "." and name.endswith("-is"):
                return name
            if name in kept or not is_word(name) or (name not in everywhere and name not in local):
                return name
            turned[name] = respelled(name)
            return turned[name]

        if f.endswith(".rt"):
            new = re.sub(r"ghost use[^;]*;|(?:requires|ensures|ghost)\b[^{};]*\{.*\}", lambda m: WORD.sub(turn, m.group(0)), text)
        else:
            new = "\n".join(line if line.lstrip().startswith("--") else WORD.sub(turn, line) for line in text.split("\n"))
        for old, name in turned.items():
            if name in before:
                print(f"falls together in {f}: {old} and {name}")
        if new != text:
            write(f, new)


def rename_hex():
    old, new = OWN_CRATE
    if not os.path.isdir(f"crates/{old}"):
        return
    subprocess.run(["git", "mv", f"crates/{old}", f"crates/{new}"], check=True)
    lines = [re.sub(rf"\b{old}\b", new, line) if not line.startswith("#") else line for line in read("crates.txt").split("\n")]
    write("crates.txt", "\n".join(lines))
    for f in files(".antt", ".rt", ".edit"):
        text = read(f)
        turned = re.sub(rf"\bRattle\.{old}\b", f"Rattle.{new}", text)
        turned = re.sub(rf"\buse {old}::", f"use {new}::", turned)
        if turned != text:
            write(f, turned)


def ask_for_tactics():
    for crate in crates():
        for root in (f"crates/{crate}/src/lib.rt", f"crates/{crate}/src/main.rt"):
            if not os.path.isfile(root) or "#![tactic(auto)]" in read(root):
                continue
            lines = read(root).split("\n")
            at = 0
            while lines[at].startswith("//"):
                at += 1
            write(root, "\n".join(lines[:at] + ["#![tactic(auto)]", ""] + lines[at:]))


if __name__ == "__main__":
    respell_names()
    rename_hex()
    ask_for_tactics()
