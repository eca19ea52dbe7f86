#!/usr/bin/env python3
"""Brings this repository's own ghost names to the spelling of today's Rattle.

Run at the top, after the kit's script. It goes by tokens over crates/ (specs, proofs, sources, must-fail edits):
- a word in lower camel case becomes snake case (`goodPath`: `good_path`), also as a part of a longer name;
- a record's field and a definition with a dash get an underscore (`few-users`: `few_users`, `SET-UID`: `SET_UID`);
- a lemma keeps a dash before a name (`first-lead`) and gets an underscore before a plain word (`under_chain`).
Names of src/, strings, and names that come from the library stay. `--list` prints what it would rename.
"""
import glob
import re
import sys

TOKEN = re.compile(r"[^\s(){}\[\].,;:\"«»`@#!&|<>=/\\]+")
CAMEL = re.compile(r"^[a-z][a-z0-9]*(?:[A-Z][a-z0-9₀-₉']*)+$")
DECLARED = re.compile(r"^(\s*)((?:abbrev |unfoldable |pub |record |data )*)(\S+)((?:\s*(?:\([^)]*\)|\{[^}]*\}))*)\s*: ")
# The kit's script renames this word of the library, but not inside longer names.
WORDS = {"getD": "get_or"}

# A lemma that would have its definition's name, once that one (`entryRow`) is spelled anew.
LEMMAS = {"entry_row": "entry_row_lem"}


def snake(word):
    if word in WORDS:
        return WORDS[word]
    if not CAMEL.match(word):
        return word
    return re.sub(r"(?<=[a-z0-9])([A-Z])", lambda m: "_" + m.group(1), re.sub(r"([A-Z])([A-Z])", r"\1_\2", word)).lower()


def camel_free(name):
    return "-".join(snake(part) for part in name.split("-"))


def texts(folder):
    return sorted(glob.glob(folder + "/crates/*/specs/**/*.antt", recursive=True)
                  + glob.glob(folder + "/crates/*/proofs/**/*.antt", recursive=True))


def functions_proof(path):
    return path.count("/", path.index("/proofs/") + 8) > 0 if "/proofs/" in path else False


def gather(folder):
    own, fields, specs, types, foreign, tokens = set(), set(), set(), set(), set(), set()
    for path in texts(folder):
        record = None
        for line in open(path):
            if line.lstrip().startswith("--"):
                continue
            tokens.update(TOKEN.findall(line))
            use = re.match(r"\s*(?:pub )?use (\S+?)\.\{(.*)\}", line)
            if use:
                if not re.match(r"Rattle\.(?!std|core)", use.group(1)):
                    foreign.update(n.strip().split(" as ")[0] for n in use.group(2).split(","))
                continue
            if line.strip() and not line.startswith(" "):
                record = re.match(r"(?:pub )?record (\S+)", line)
                if record:
                    types.add(record.group(1))
                data = re.match(r"(?:pub )?data (\S+)", line)
                if data:
                    types.add(data.group(1))
            m = DECLARED.match(line)
            if not m or "record " in m.group(2) or "data " in m.group(2):
                continue
            name = m.group(3)
            if record and line.startswith("  ") and "pub" in m.group(2):
                fields.add(name)
            elif "/specs/" in path:
                specs.add(name)
            elif not functions_proof(path):
                own.add(name)
    return own, fields, specs, types, foreign, tokens


def renames(folder):
    own, fields, specs, types, foreign, tokens = gather(folder)
    words = {camel_free(n) for n in specs} | types | {n for n in foreign if "-" not in n}
    new = {name: to for name, to in LEMMAS.items() if name in own}
    for name in sorted(tokens - new.keys()):
        if name in foreign:
            continue
        to = camel_free(name)
        if "-" in to and (name in fields or name in specs):
            to = to.replace("-", "_")
        elif "-" in to and name in own:
            parts = to.split("-")
            to = parts[0]
            for before, part in zip(parts, parts[1:]):
                ascii_word = re.match(r"^[a-z][a-z0-9_]*$", part) and re.match(r"^[A-Za-z][A-Za-z0-9_']*$", before)
                to += ("_" if ascii_word and part not in words else "-") + part
        if to != name:
            new[name] = to
    # Two names that would fall together: the dash stays where that parts them; else the case must be looked at.
    taken = {}
    for name in tokens:
        taken.setdefault(new.get(name, name), set()).add(name)
    clash = {}
    for to, names in taken.items():
        if len(names) > 1:
            for name in names:
                if name in new:
                    clash[name] = to
    return new, clash


def spelled(text, new, strings):
    out = []
    for piece in re.split(r'(b?"(?:[^"\\\n]|\\.)*")' if strings else r"(\A\Z)", text):
        if strings and re.match(r'b?"', piece):
            out.append(piece)
        else:
            out.append(TOKEN.sub(lambda m: new.get(m.group(0), m.group(0)), piece))
    return "".join(out)


def main():
    folder = "."
    new, clash = renames(folder)
    keep = {name for name in clash if camel_free(name) == name}
    for name in keep:
        del new[name]
    if "--list" in sys.argv:
        for name in sorted(new):
            print(name, new[name], "CLASH" if name in clash else "")
        return
    for path in texts(folder) + sorted(glob.glob("crates/*/must-fail/*.edit")):
        text = open(path).read()
        to = spelled(text, new, False)
        if to != text:
            open(path, "w").write(to)
    for path in sorted(glob.glob("crates/*/src/**/*.rt", recursive=True)):
        text = open(path).read()
        to = spelled(text, {n: t for n, t in new.items() if n not in LEMMAS}, True)
        if to != text:
            open(path, "w").write(to)
    print(len(new), "names")


if __name__ == "__main__":
    main()
