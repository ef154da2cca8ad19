#!/usr/bin/env python3
"""Spells the definitions and lemmas of the crates as Rattle's library does: words in snake case, types and modules in camel case.

usage: python3 tools/respell.py FOLDER [--names FILE]

FOLDER holds crates/. The rows of respelled.tsv beside this script (or of FILE) say what turns into what:
  old, tab, new             the name turns wherever it stands as a whole word
  old, tab, new, tab, lemma the name turns only in the .antt files that declare or import it, behind no dot: a Rust function,
                            a field or a label of the same spelling keeps it
  old, tab, new, tab, type  the name turns, but where it is a label: behind `requires`, `ensures` or a dot, or before ` =`
What turns: the code of .antt files; the code of .rt files outside strings; the lines of must-fail/*.edit; in comments and in .md files, names in
camel case, and any name between backticks. What stays: names that Rattle makes of the source (a goal that an Answers or Invariants file
answers, and what stands right behind `c.`, `l.`, `w.` or `goal.` there), names that a file imports from outside the repository, strings, and
all of out/.
Run it once: a second run takes a definition that it has respelled for the lemma of the same spelling. It prints how many files changed, and each
file where two names are spelled alike: a function and its definition may be. Then `rt fmt` lays the crates out.
"""

import os
import re
import sys

HERE = os.path.dirname(os.path.realpath(__file__))
NAME = r'[^\s(){}.;,@"«»]+'
WORD = re.compile(NAME)
ANTT_QUIET = re.compile(r'"(?:[^"\\\n]|\\.)*"|(?<![^\s(){}.;,@"«»])--[^\n]*|\{-.*?-\}', re.S)
RUST_QUIET = re.compile(r'//[^\n]*|/\*.*?\*/|b?"(?:\\.|[^"\\])*"|b\'(?:\\.|[^\'\\])\'', re.S)
DECLARED = re.compile(rf"(?m)^ *(?:(?:pub|abbrev|unfoldable) +)*({NAME})(?: +[({{][^:\n]*?)? :(?= |$)(.*)$")
USE = re.compile(r"(?m)^\s*(?:pub |ghost )?use ([^\s{;]+?)\.?(\{[^}]*\})")
SPAN = re.compile(r"`[^`\n]+`")
CAMEL = re.compile(r"[a-z]\w*[A-Z]\w*'*")
MADE = re.compile(r"/proofs/(?:.*/)?(?:Answers|Invariants)\.antt$")
HEAD = re.compile(r'(?:^|[\s(){};,])(?:c|l|w|goal)\.$')


def rows(path):
    kinds = {"": {}, "lemma": {}, "type": {}}
    with open(path, encoding="utf-8") as f:
        for line in f:
            if line.strip() and not line.startswith("#"):
                old, new, *rest = line.rstrip("\n").split("\t")
                kinds["".join(rest)][old] = new
    return kinds.values()


def between(pattern, text, inside, outside):
    out, at = [], 0
    for m in pattern.finditer(text):
        out += [outside(text[at : m.start()], at), inside(m[0])]
        at = m.end()
    return "".join(out + [outside(text[at:], at)])


class Respeller:
    def __init__(self, plain, lemmas, types, own):
        self.plain, self.lemmas, self.types, self.own, self.alike = plain, lemmas, types, own, []

    def imported(self, code, ours):
        """The names that the file imports from this repository, or from outside it."""
        names = set()
        for path, listed in USE.findall(code):
            steps = path.split(".")
            if (steps[0] == "Rattle" and len(steps) > 1 and steps[1] in self.own) == ours:
                names.update(WORD.findall(listed))
                if not ours:  # 'as' gives a name of this repository
                    names.difference_update(re.findall(rf" as ({NAME})", listed))
        return names

    def prose(self, text):
        """A comment or a page: names in camel case, and any name between backticks."""
        camel = lambda t: re.sub(rf"(?<![\w'.-]){CAMEL.pattern}(?![\w'-])", lambda m: self.plain.get(m[0], m[0]), t)
        dotted = lambda t: re.sub(r"(?<![^\s`(){}.;,@\"«»:])[^\s`(){}.;,@\"«»:]+", lambda m: self.plain.get(m[0], m[0]), t)
        return between(SPAN, text, dotted, lambda t, at: camel(t))

    def code(self, text, where, whole, quiet, made=False):
        """Code with its comments. `whole` is the whole file's code, of which imports and declarations are read."""
        foreign = self.imported(whole, False)
        declared = {n for n, kind in DECLARED.findall(whole) if not kind.strip().startswith("goal.")}
        goals = {n for n, kind in DECLARED.findall(whole) if kind.strip().startswith("goal.")}
        here = (declared | self.imported(whole, True)) & set(self.lemmas) if where.endswith(".antt") else set()
        seen = {}

        def turned(m, behind, ahead):
            name, dotted = m[0], behind.endswith(".")
            if name in self.types and not re.search(r"((requires|ensures) |\.)$", behind) and not ahead.startswith(" = "):
                return self.types[name]
            if name in goals or (made and dotted and "-" in name and HEAD.search(behind)):
                return name
            if name in foreign and not dotted:
                return name
            new = self.lemmas[name] if name in here and not dotted else self.plain.get(name, name)
            if not dotted:
                seen.setdefault(new, set()).add(name)
            return new

        def code_turned(t, at):
            return WORD.sub(lambda m: turned(m, t[max(0, m.start() - 10) : m.start()], t[m.end() : m.end() + 3]), t)

        quieted = lambda t: t if t[0] in "\"b'" else self.prose(t)
        result = between(quiet, text, quieted, code_turned)
        self.alike += [(where, new, sorted(olds)) for new, olds in seen.items() if len(olds) > 1]
        return result

    def file(self, path, text):
        if path.endswith(".antt"):
            return self.code(text, path, ANTT_QUIET.sub(" ", text), ANTT_QUIET, bool(MADE.search(path)))
        if path.endswith(".rt"):
            return self.code(text, path, RUST_QUIET.sub(" ", text), RUST_QUIET)
        if path.endswith(".edit"):
            return self.code(text, path, "", re.compile(r'(?m)^(?:#|file:|label:|--)[^\n]*|"(?:\\.|[^"\\\n])*"'))
        return self.prose(text)


def main(args):
    names = os.path.join(HERE, "respelled.tsv")
    if "--names" in args:
        at = args.index("--names")
        names = args[at + 1]
        del args[at : at + 2]
    if len(args) != 1 or not os.path.isdir(os.path.join(args[0], "crates")):
        sys.exit(__doc__)
    root = args[0]
    respeller = Respeller(*rows(names), set(os.listdir(os.path.join(root, "crates"))))
    changed = 0
    for folder, folders, files in os.walk(root):
        folders[:] = sorted(f for f in folders if f not in ("out", "target") and not f.startswith("."))
        for f in sorted(files):
            path = os.path.join(folder, f)
            if not f.endswith((".antt", ".rt", ".edit", ".md")):
                continue
            with open(path, encoding="utf-8") as it:
                old = it.read()
            new = respeller.file(path, old)
            if new != old:
                changed += 1
                with open(path, "w", encoding="utf-8") as it:
                    it.write(new)
    for where, new, olds in respeller.alike:
        print(f"alike: {os.path.relpath(where, root)}: {' and '.join(olds)} are both {new}")
    print(f"{changed} files changed, {len(respeller.alike)} with names alike")


if __name__ == "__main__":
    main(sys.argv[1:])
