#!/usr/bin/env python3
"""Brings the repository's own names of specs/ and proofs/ to the spelling of today's Rattle, once, after the kit's port.py.

usage: python3 tools/respell.py            at the top of the repository, with everything committed

Words and lemmas are in snake case: `isDigit` becomes `is_digit`, `table-ruled` becomes `table_ruled`. A dash stays beside the
name of a type and beside an operator. The proof of a function f is `f_spec`. A name that the library has, one that would fall
together with another, and names of src/ stay. Backticked names in README.md and docs/ follow. Must-fail edits follow too.
"""

import glob
import os
import re
import sys

TOKEN = re.compile(r"[^\s(){}\[\];,.\"@\\`]+")
STRING = re.compile(r'"(?:[^"\\]|\\.)*"')
DECLARED = re.compile(
    r"^\s*(?:(?:unfoldable|abbrev|pub|opaque)\s+)*(?:(?:record|data|ruleset)\s+)?([^\s(){}\[\];,.:=\"@\\`]+)\s*(:|=|\(.*\)\s*:|\{.*\}\s*:|where)(?=\s|$)"
)
KIT = "/opt/rattle/rattle"
# A word whose new name a lemma beside it has already.
APART = {"goOn": "gone_on"}


def read(path):
    with open(path, encoding="utf-8") as f:
        return f.read()


def files(*patterns):
    for pattern in patterns:
        yield from sorted(glob.glob(pattern, recursive=True))


def library_tokens():
    tokens = set()
    for folder, _, names in os.walk(KIT):
        for name in names:
            if name.endswith(".antt"):
                with open(os.path.join(folder, name), encoding="utf-8", errors="replace") as f:
                    tokens.update(TOKEN.findall(f.read()))
    return tokens


def without_comment(line):
    at = line.find("--")
    while at > 0 and not line[at - 1].isspace():
        at = line.find("--", at + 1)
    return line if at < 0 else line[:at]


def declared():
    """The names that the repository's own antt files declare, but for those of the kit's files of a function's proof."""
    names = set()
    for path in files("crates/*/specs/**/*.antt", "crates/*/proofs/**/*.antt"):
        for line in read(path).split("\n"):
            if line.lstrip().startswith("--"):
                continue
            found = DECLARED.match(line)
            if found:
                names.add(found.group(1))
            for field in re.findall(r"(?:^|[{;(])\s*(?:pub\s+)?([^\s(){}\[\];,.:=\"@\\`]+)\s*:", without_comment(line)):
                names.add(field)
            # an arm of a data type, and several binders or fields of one type
            for group in re.findall(r"[({]([^(){}:;,\"]+?)\s*:\s", without_comment(line)):
                names.update(w for w in group.split() if re.search(r"[a-z][A-Z]|\w-\w", w))
    return names


def snake(part):
    """One part of a name between dashes."""
    if not re.match(r"[a-z]", part) or not re.search(r"[a-z0-9][A-Z]", part):
        return part
    part = re.sub(r"([a-z0-9])([A-Z])", r"\1_\2", part)
    return part.lower()


def spelled(name):
    if name in APART:
        return APART[name]
    parts = [snake(p) for p in name.replace("′", "'").split("-")]
    out = parts[0]
    for before, after in zip(parts, parts[1:]):
        words = re.match(r"^[a-z0-9_']+$", before) and re.match(r"^[a-z0-9_']+$", after)
        out += ("_" if words else "-") + after
    return out


def code_tokens(path):
    """The words of a file's code that can hide or be hidden: no comment, no path before a name, no field after a dot."""
    words = set()
    for line in read(path).split("\n"):
        if path.endswith(".rt"):
            # Of the Rust only parameters can hide a word of a clause; the clauses' own words stand in `ghost use` lines.
            line = line.split("//")[0]
            if re.search(r"\bghost use\b", line):
                words.update(TOKEN.findall(re.sub(r".*?\{|\}.*", " ", line)))
            elif re.search(r"\bfn\b|^\s+\w+: [^;]*,$", line):
                words.update(re.findall(r"(\w+):(?!:)", line))
            continue
        else:
            line = without_comment(line)
        line = re.sub(r"\b(ghost )?use [^{]*", "", line)
        line = STRING.sub("", line)
        for m in TOKEN.finditer(line):
            if not (m.start() > 0 and line[m.start() - 1] == "."):
                words.add(m.group(0))
    return words


def renamings(own, library):
    """From old to new names, and those that stay because the new one is taken."""
    uses = {}
    words = {}
    for path in files("crates/*/specs/**/*.antt", "crates/*/proofs/**/*.antt", "crates/*/src/**/*.rt"):
        words[path] = code_tokens(path)
        for word in words[path]:
            uses.setdefault(word, set()).add(path)
    to, stays, wanted = {}, {}, {}
    for name in sorted(own):
        new = spelled(name)
        if new != name and not ("-" in name and name in library):
            wanted.setdefault(new, []).append(name)

    def is_free(name, new):
        return new not in own and not (uses.get(new, set()) & uses.get(name, set()))

    for new, names in sorted(wanted.items()):
        # Of two that would fall together the word gets the plain name; the lemma keeps its dash.
        names.sort(key=lambda n: ("-" in n, n))
        for place, name in enumerate(names):
            if place == 0 and is_free(name, new):
                to[name] = new
                continue
            dashed = "-".join(snake(p) for p in name.split("-"))
            if dashed != name and dashed != new and dashed not in wanted and is_free(name, dashed):
                to[name] = dashed
            stays[name] = (new, to.get(name, name))
    return to, stays


def turn(text, to, kept_after_dot):
    """Every token of a text that is an old name, outside strings."""

    def part(piece):
        def one(m):
            token = m.group(0)
            if token not in to:
                return token
            if kept_after_dot and "-" in token and m.start() > 0 and piece[m.start() - 1] == ".":
                return token
            return to[token]

        return TOKEN.sub(one, piece)

    out, at = [], 0
    for m in STRING.finditer(text):
        if "\n" in m.group(0):
            continue
        out += [part(text[at : m.start()]), m.group(0)]
        at = m.end()
    out.append(part(text[at:]))
    return "".join(out)


def main():
    if not os.path.isdir("crates"):
        print("respell: run it at the top of the repository", file=sys.stderr)
        return 2
    own = declared()
    for path in files("crates/*/proofs/**/Proof.antt"):
        own = {n for n in own if not n.endswith("-spec")}
    to, stays = renamings(own, library_tokens())
    changed = 0
    for path in files("crates/*/specs/**/*.antt", "crates/*/proofs/**/*.antt", "crates/*/src/**/*.rt", "crates/*/must-fail/*.edit"):
        text = read(path)
        new = turn(text, to, path.endswith("/Proof.antt"))
        if path.endswith("/Proof.antt"):
            function = os.path.basename(os.path.dirname(path))
            new = re.sub(r"(?<![\w.-])" + re.escape(function.replace("_", "-")) + r"-spec(?![\w-])", function + "_spec", new)
        if new != text:
            changed += 1
            with open(path, "w", encoding="utf-8") as f:
                f.write(new)
    for path in files("README.md", "docs/**/*.md", "compare/**/*.md", "hosts/**/*.md"):
        text = read(path)
        new = re.sub(r"`[^`\n]+`", lambda m: turn(m.group(0), to, False), text)
        if new != text:
            changed += 1
            with open(path, "w", encoding="utf-8") as f:
                f.write(new)
    for name, (new, what) in sorted(stays.items()):
        print(f"taken: {name} would be {new}; it is {what}")
    print(f"respell: {len(to)} names, {changed} files")
    return 0


if __name__ == "__main__":
    raise SystemExit(main())
