#!/usr/bin/env python3
"""Spells the repository's own names as today's Rattle does: words in snake case, and a dash only between two names.

usage: tools/spelling.py [--list]      at the top of a repository that the kit's port.py has just turned; --list only prints the names

It was run once, for the port (docs/PORT.md), and stays so that the port can be followed. It renames what specs/ and proofs/ declare, in
specs/, proofs/, the clauses of src/, must-fail/ and the documents. Functions of src/ and their strings keep their names.
"""
import collections
import glob
import os
import re
import sys

ROOT = os.path.join(os.path.dirname(os.path.abspath(__file__)), "..")

# a declaration: a signature at a line's start or inside a module or record
DECLARED = re.compile(r"^(\s*)((?:abbrev|unfoldable|pub|private)\s+)*(?:(?:data|record)\s+)?([^\s(){}:;,.|=λ]+)(?:\s+\([^()]*\))*\s+:\s")
# an operator that is declared between two arguments, and its word
INFIX = re.compile(r"◌([A-Za-z][\w-]*)◌")
# what a name is made of in antt
TOKEN = re.compile(r"[^\s(){}\[\].;,:`\"|=«»λ]+")
# names of goals and of functions' proofs, which Rattle makes
MADE = re.compile(r"tie\.Need-|statement M|goal\.|^\s*(abbrev )?(pub )?(invariant|decreases)-|-requires")

# functions of the kit's library that lemmas are named after
LIBRARY = {"length", "take", "drop", "append", "set", "map", "get_or", "add", "mul", "mod", "sub", "div", "pow", "cons", "cond"}
# names that would fall together with another one that a file has in scope, or with a word of the library; and those that no rule spells
CHOSEN = {
    "is_digit": "is_digit_lem",
    "all-of": "all_of_lem",
    "bits-at": "bits_at_lem",
    "digits-only": "digits_only_lem",
    "line-most": "line_most_lem",
    "iban-characters": "iban_characters_lem",
    "lei-characters": "lei_characters_lem",
}
# the same in single files, where a function of src/ has the name elsewhere
CHOSEN_IN = {
    "text/proofs/Same.antt": {"same_text": "same_text_lem"},
    "codes/proofs/Laws.antt": {"same_text": "same_text_lem"},
    "sheet/proofs/Sheets.antt": {"same_text": "same_text_lem"},
    "report/proofs/Puts.antt": {"last_line": "last_line_lem"},
}


def snake(name):
    """`firstWrong` is `first_wrong`."""
    return re.sub(r"(?<=[a-z0-9])([A-Z])", lambda m: "_" + m.group(1).lower(), name)


def files(*kinds):
    found = []
    for kind in kinds:
        found += glob.glob(os.path.join(ROOT, "crates", "*", kind), recursive=True)
    return sorted(found)


def read(path):
    with open(path, encoding="utf-8") as file:
        return file.read()


def declarations():
    """Each name that specs/ and proofs/ declare, with the files."""
    found = collections.defaultdict(set)
    for path in files("specs/**/*.antt", "proofs/**/*.antt"):
        for line in read(path).splitlines():
            if line.lstrip().startswith("--") or MADE.search(line):
                continue
            m = DECLARED.match(line)
            if m:
                found[m.group(3)].add(path)
    return found


def renamings():
    declared = declarations()
    camel = {}
    for name in declared:
        infix = INFIX.fullmatch(name)
        word = infix.group(1) if infix else name
        if re.match(r"[a-z]\w*[A-Z]", word) and "-" not in word:
            camel[word] = snake(word)
    definitions = set()
    for name, paths in declared.items():
        if "-" not in name and any("/specs/" in p for p in paths):
            definitions.add(camel.get(name, name))
    dashed = {}
    for name in declared:
        if "-" in name and name[0].isalpha():
            parts = [camel.get(p, p) for p in name.split("-")]
            names = all(p in LIBRARY or p in definitions for p in parts)
            dashed[name] = ("-" if names else "_").join(parts)
    renamed = {**camel, **dashed, **CHOSEN}
    return {a: b for a, b in renamed.items() if a != b}, declared


def word(renamed, token):
    infix = INFIX.fullmatch(token)
    if infix:
        return "◌%s◌" % renamed.get(infix.group(1), infix.group(1))
    return renamed.get(token, token)


def respelled(renamed, text):
    return TOKEN.sub(lambda m: word(renamed, m.group()), text)


def quoted(renamed, text):
    """Only what stands between backquotes, and words in camel case anywhere: a dash in a sentence is a dash."""
    camel = {a: b for a, b in renamed.items() if "-" not in a}
    text = re.sub(r"`[^`\n]+`", lambda m: respelled(renamed, m.group()), text)
    return respelled(camel, text)


def strings_kept(line, turn):
    """A line with all but its strings turned."""
    parts = re.split(r'(b?"(?:[^"\\]|\\.)*")', line)
    return "".join(p if i % 2 else turn(p) for i, p in enumerate(parts))


def line_of(renamed, path, line):
    if path.endswith(".antt"):
        code, dash, comment = line.partition("--") if re.search(r"(^|\s)--(\s|$)", line) else (line, "", "")
        return strings_kept(code, lambda t: respelled(renamed, t)) + dash + quoted(renamed, comment)
    code, slashes, comment = line.partition("//")
    camel = {a: b for a, b in renamed.items() if "-" not in a}
    return strings_kept(code, lambda t: respelled(camel, t)) + slashes + quoted(renamed, comment)


def turned(renamed, path, text):
    if path.endswith(".md"):
        return quoted(renamed, text)
    if path.endswith(".edit"):
        target = re.search(r"(?m)^file: (\S+)", text).group(1)
        out = []
        for line in text.splitlines(keepends=True):
            if line.startswith(("old: ", "new: ")):
                out.append(line[:5] + line_of(renamed, target, line[5:]))
            else:
                out.append(quoted(renamed, line))
        return "".join(out)
    return "".join(line_of(renamed, path, line) for line in text.splitlines(keepends=True))


def chosen_in(path):
    for end, chosen in CHOSEN_IN.items():
        if path.endswith("/" + end):
            return chosen
    return {}


def falling_together(renamed):
    """Two names of one file that would be one, or a new name that the file already has."""
    said = []
    for path in files("specs/**/*.antt", "proofs/**/*.antt", "src/**/*.rt"):
        text = read(path)
        here = {**renamed, **chosen_in(path)}
        comment = "--" if path.endswith(".antt") else "//"
        tokens = set()
        for line in text.splitlines():
            tokens |= {INFIX.sub(r"\1", t) for t in TOKEN.findall(line.split(comment)[0])}
        back = collections.defaultdict(set)
        for token in tokens:
            back[here.get(token, token)].add(token)
        for new, olds in sorted(back.items()):
            if len(olds) > 1 and any(o in renamed for o in olds):
                said.append("%s: %s would all be %s" % (os.path.relpath(path, ROOT), ", ".join(sorted(olds)), new))
    return said


def main(argv):
    renamed, _ = renamings()
    if "--list" in argv:
        for old, new in sorted(renamed.items()):
            print(old, new)
        print("\n".join(falling_together(renamed)))
        return
    # Those that are left are a definition and the function of its name, as the kit's library has them too.
    count = 0
    paths = files("specs/**/*.antt", "proofs/**/*.antt", "src/**/*.rt", "must-fail/*.edit")
    paths += [os.path.join(ROOT, "README.md")] + sorted(glob.glob(os.path.join(ROOT, "docs", "**", "*.md"), recursive=True))
    for path in paths:
        text = read(path)
        new = turned({**renamed, **chosen_in(path)}, path, text)
        if new != text:
            with open(path, "w", encoding="utf-8") as file:
                file.write(new)
            count += 1
    print("spelling: %d names, %d files" % (len(renamed), count))


if __name__ == "__main__":
    main(sys.argv[1:])
