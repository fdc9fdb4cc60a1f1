#!/usr/bin/env python3
"""Brings the repository's own names to the spelling of today's Rattle, after its port.py has run.

usage: tools/respell.py       in the repository, once

Definitions, lemmas, fields and names inside a lemma lose their hyphens (stage-after: stage_after), a type in two words
is one word in camel case (AtMost-visits: AtMostVisits), and an alias in mixed case is in snake case (plusOf: plus_of).
The crate `check`, whose name the kit has for a library, is `judgement`. Names that Rattle makes from the code keep their
hyphens, and so do those of std. Pages get the new names where they stand between backquotes. Two names that would fall
together stop the script before anything is written.
"""

import collections
import os
import re
import subprocess
import sys

NAME = r"[A-Za-z\u03b1-\u03c9_][\w'\u2080-\u2089\u2262]*(?:-[\w'\u2080-\u2089\u2262]+)+"
TOKEN = re.compile(r"(?<![\w'.-])(" + NAME + r")(?![\w'-])")
AFTER_DOT = re.compile(r"(?<=\.)(" + NAME + r")(?![\w'-])")
DECLARED = re.compile(r"^\s*(?:(?:pub|abbrev|unfoldable|private)\s+)*(" + NAME + r")\s*:", re.M)
USE = re.compile(r"^(?:ghost )?use ([\w.\u00ab\u00bb-]+)\.\{([^}]*)\}", re.M)
ALIAS = re.compile(r"\bas ([a-z]+(?:[A-Z][a-z]*)+)\b")
RESERVED = set("data record deriving module where use mod pub package open as unfoldable abbrev axiom unfold unfolding ruleset mutual infix infixl infixr elim let in do Type coe fcoe tcoe hcom com".split())
OLD_CRATE, NEW_CRATE = "check", "judgement"


def respelled(name):
    if name[0].isupper():
        return "".join(part[0].upper() + part[1:] for part in name.split("-"))
    return name.replace("-", "_")


def snake(name):
    return re.sub(r"([A-Z])", lambda m: "_" + m[1].lower(), name)


def files(*ends):
    for folder, dirs, names in os.walk("crates"):
        dirs[:] = sorted(d for d in dirs if d != "out")
        for name in sorted(names):
            if name.endswith(ends):
                yield os.path.join(folder, name)


def read(path):
    with open(path, encoding="utf-8") as f:
        return f.read()


def split_comments(text, mark):
    """The lines as pairs: code, and the comment with its mark."""
    for line in text.split("\n"):
        at = line.find(mark)
        yield (line, "") if at < 0 else (line[:at], line[at:])


def joined(pairs):
    return "\n".join(code + comment for code, comment in pairs)


def outside_strings(line, change):
    parts = re.split(r'("(?:[^"\\]|\\.)*")', line)
    return "".join(part if i % 2 else change(part) for i, part in enumerate(parts))


def is_answer(path):
    return os.path.basename(path) in ("Answers.antt", "Invariants.antt", "Proof.antt", "Choices.antt")


def code_of(path):
    return "\n".join(code for code, _ in split_comments(read(path), "--"))


def main():
    own_crates = sorted(os.listdir("crates"))
    lemmas = [p for p in files(".antt") if not is_answer(p)]
    own = set()
    for path in lemmas:
        own |= set(DECLARED.findall(code_of(path)))

    def imported(text, inside):
        """Names that the text imports from elsewhere than this repository, or from what Rattle makes from the code."""
        found = set()
        for module, names in USE.findall(text):
            parts = module.split(".")
            mine = parts[0] == "Rattle" and len(parts) > 1 and parts[1] in own_crates and not {"Goals", "Given"} & set(parts)
            if not mine:
                found |= {re.sub(r".* as ", "", n.strip()) for n in names.split(",")}
        return found

    changed = {}
    merged = collections.defaultdict(set)

    def turn(code, keep, names):
        def one(m):
            name = m[1]
            if name in keep or (names is not None and name not in names):
                return name
            merged[respelled(name)].add(name)
            return respelled(name)

        return outside_strings(code, lambda part: TOKEN.sub(one, part))

    def turn_fields(code, keep):
        return outside_strings(code, lambda part: AFTER_DOT.sub(lambda m: respelled(m[1]) if m[1] in own and m[1] not in keep else m[1], part))

    def turn_quoted(comment):
        return re.sub(r"`[^`]*`", lambda m: turn(m[0], set(), own), comment)

    for path in files(".antt"):
        text = read(path)
        pairs = list(split_comments(text, "--"))
        code = "\n".join(c for c, _ in pairs)
        keep = imported(code, path)
        if is_answer(path):
            new = [(turn(c, keep, own), turn_quoted(d)) for c, d in pairs]
        else:
            new = [(turn_fields(turn(c, keep, None), keep), turn_quoted(d)) for c, d in pairs]
        changed[path] = joined(new)
    for path in files(".rt"):
        pairs = split_comments(read(path), "//")
        new = joined((re.sub("\u00ab(" + NAME + ")\u00bb", lambda m: respelled(m[1]) if m[1] in own else m[0], turn_fields(turn(c, set(), own), set())), turn_quoted(d)) for c, d in pairs)
        changed[path] = new
    for path in list(changed):
        text = changed[path]
        for name in set(ALIAS.findall(text)):
            text = re.sub(r"\b" + name + r"\b", snake(name), text)
        changed[path] = text

    # The new spelling may not be a name that an own file declares already.
    declared = collections.Counter()
    for path in lemmas:
        for name in re.findall(r"^(?:(?:pub|abbrev|unfoldable)\s+)*([A-Za-z]\w*)\s*:", code_of(path), re.M):
            declared[name] += 1
    bad = [(new, sorted(old)) for new, old in merged.items() if len(old) > 1] + [(new, sorted(old)) for new, old in merged.items() if declared[new] and "_" in new]
    if bad:
        print("names fall together:", bad)
        return 1

    def unquoted(text):
        return re.sub("\u00ab([A-Za-z]\\w*)\u00bb", lambda m: m[0] if m[1] in RESERVED else m[1], text)

    def crate_renamed(text):
        text = re.sub(r"\bRattle\." + OLD_CRATE + r"\.", "Rattle." + NEW_CRATE + ".", text)
        return re.sub(r"\buse " + OLD_CRATE + r"::", "use " + NEW_CRATE + "::", text)

    for path, text in changed.items():
        with open(path, "w", encoding="utf-8") as f:
            f.write(crate_renamed(unquoted(text)))
    if os.path.isdir(os.path.join("crates", OLD_CRATE)):
        os.rename(os.path.join("crates", OLD_CRATE), os.path.join("crates", NEW_CRATE))
        lines = [re.sub(r"(?<![\w.])" + OLD_CRATE + r"(?!\w)", NEW_CRATE, line) if not line.startswith("#") else line for line in read("crates.txt").split("\n")]
        with open("crates.txt", "w", encoding="utf-8") as f:
            f.write("\n".join(lines))
    pages = ["README.md"] + [os.path.join("docs", p) for p in sorted(os.listdir("docs")) if p.endswith(".md")]
    for path in pages:
        text = re.sub(r"`[^`\n]*`", lambda m: turn(m[0], set(), own), read(path))
        text = text.replace("crates/" + OLD_CRATE + "/", "crates/" + NEW_CRATE + "/").replace("crates/" + OLD_CRATE + "`", "crates/" + NEW_CRATE + "`").replace("`" + OLD_CRATE + "`", "`" + NEW_CRATE + "`")
        with open(path, "w", encoding="utf-8") as f:
            f.write(text)
    for crate in sorted(os.listdir("crates")):
        subprocess.run(["rt", "fmt"], cwd=os.path.join("crates", crate), stdout=subprocess.DEVNULL, check=True)
    print(f"{sum(1 for _ in merged)} names, {len(changed)} files")
    return 0


if __name__ == "__main__":
    sys.exit(main())
