#!/usr/bin/env python3
"""Brings the repository's own antt names to one spelling: snake case, a dash only between two names.

usage: python3 tools/snake_names.py          at the top of the checkout, once, right after the library's own port script
       python3 tools/snake_names.py --table  prints old name, tab, new name; writes nothing

Definitions, lemmas, fields, constructors and the variables of specs/ and proofs/ turn: `lineNext` becomes `line_next`, `no-position` becomes
`no_position`, and in `countOf-append`, which joins a definition and a word of lists, the dash stays: `count_of-append`. Types and modules keep
their capitals. Names that the library or the check makes, functions of src/, exported names, strings and what programs read and print stay.
Where two names of one kind of file would fall together, the lemma gets `_lem`, and a variable an apostrophe.
Must-fail edits are not turned here, and pages under docs/ only between backticks.
"""
import collections
import glob
import re
import sys

WORD = re.compile(r"[^\s(){}.;,@\"«»\[\]\\:`]+")
CODE = re.compile(r"--[^\n]*|\"(?:[^\"\\]|\\.)*\"|\.?[^\s(){}.;,@\"«»\[\]\\]+")
USE = re.compile(r"^(?:pub |ghost )?use ([^\n{;]*?)\.?\{([^}]*)\}", re.M)
HEAD = re.compile(r"^((?:(?:abbrev|unfoldable|opaque|pub|data|record|axiom|pattern)\s+)*)([^\s:(){}.;,]+)\s*(?:\{[^}]*\}\s*)?:")
FIELD = re.compile(r"^  (?:pub )?([^\s:(){}.;,]+) :")
OWN = re.compile(r"Rattle\.(?!std\b|core\b)")
# Words that name an operation of the library, so that a dash stays before and behind them.
WORDS = set(
    "length take drop append set sets get_or replicate map reverse sum le lt eq ne leb ltb eqb add sub mul div mod suc zero nil cons cond"
    " max min pow perm ap swap".split()
)
# Names whose turned spelling would be another name's: the choice is written out.
CHOSEN = {"as-given": "taken_as_given"}


def is_odd(word):
    if not word[0].isalpha() or word.isupper():
        return False
    return bool(re.search(r"\w-\w", word)) or (word[0].islower() and bool(re.search(r"[a-z0-9][A-Z]", word)))


def snake(part):
    if part[:1].isupper():
        return part
    return re.sub(r"(?<=[a-z0-9])([A-Z]+)", lambda m: "_" + m.group(1).lower(), part)


def read(path):
    with open(path, encoding="utf-8") as it:
        return it.read()


def lemma_files():
    return sorted(glob.glob("crates/*/specs/*.antt") + glob.glob("crates/*/proofs/*.antt"))


def function_files():
    return sorted(set(glob.glob("crates/*/proofs/**/*.antt", recursive=True)) - set(lemma_files()))


def words_of(text):
    for m in CODE.finditer(text):
        w = m.group()
        if not w.startswith("--") and w[0] not in '".':
            yield w


class Names:
    def __init__(self):
        self.defined, self.fields, self.lemmas, self.library, self.seen = set(), set(), set(), set(), set()
        self.where = collections.defaultdict(set)
        for path in lemma_files():
            text = read(path)
            for m in USE.finditer(text):
                for item in m.group(2).split(","):
                    for name in item.split(" as "):
                        if name.strip() and not OWN.match(m.group(1)):
                            self.library.add(name.strip())
            body = re.sub(r"^(?:pub )?use [^\n]*$", "", text, flags=re.M)
            for line in body.split("\n"):
                m = HEAD.match(line)
                if m:
                    is_lemma = "/proofs/" in path and not re.search(r"abbrev|unfoldable|record|data", m.group(1))
                    (self.lemmas if is_lemma else self.defined).add(m.group(2))
                    self.where[m.group(2)].add(path)
                m = FIELD.match(line)
                if m:
                    self.fields.add(m.group(1))
            for w in words_of(body):
                self.seen.add(w)
        for path in function_files():
            text = read(path)
            for m in USE.finditer(text):
                if not OWN.match(m.group(1)):
                    self.library.update(x.strip() for x in m.group(2).split(","))
            for line in text.split("\n"):
                m = HEAD.match(line)
                if m and " tie." not in line and not m.group(2).endswith(("-spec", "_spec")):
                    self.seen.add(m.group(2))
        self.fields -= self.defined | self.lemmas
        self.library -= self.defined | self.lemmas | self.fields
        self.names = {snake(n) for n in self.defined if "-" not in n} | WORDS

    def turned(self, word):
        parts = [snake(p) for p in word.split("-")]
        out, group = parts[0], parts[0]
        for i, part in enumerate(parts[1:], 1):
            is_name = group in self.names or group[:1].isupper()
            rest = parts[i:]
            next_name = any("_".join(rest[:k]) in self.names for k in range(len(rest), 0, -1)) or part[:1].isupper()
            if is_name and next_name and "_".join([group, part]) not in self.names:
                out, group = out + "-" + part, part
            else:
                out, group = out + "_" + part, group + "_" + part
        return out

    def table(self):
        rows = {}
        turning = sorted(w for w in self.seen | self.defined | self.fields | self.lemmas if is_odd(w) and w not in self.library)
        taken = collections.defaultdict(list)
        for w in turning:
            taken[CHOSEN.get(w) or self.turned(w)].append(w)
        clashes = []
        for new, olds in taken.items():
            standing = [new] if new in self.seen | self.library | self.defined | self.fields | self.lemmas and new not in olds else []
            for old in olds:
                rows[old] = new
            if len(olds) + len(standing) > 1:
                clashes.append((new, olds, standing))
        return rows, clashes

    def kind(self, w):
        return "def" if w in self.defined else "field" if w in self.fields else "lemma" if w in self.lemmas else "library" if w in self.library else "variable"


def main(argv):
    names = Names()
    rows, clashes = names.table()
    # A definition keeps the spelling, and a field may share it; a lemma gets `_lem`, and a variable an apostrophe.
    for new, olds, standing in clashes:
        holders = [w for w in olds + standing if names.kind(w) in ("def", "library")]
        for w in olds + standing:
            kind = names.kind(w)
            if kind == "lemma" and (holders or w != min(v for v in olds + standing if names.kind(v) == "lemma")):
                rows[w] = new + "_lem"
            elif kind in ("variable", "field") and w in olds:
                rows[w] = new + "'"
            elif kind == "def" and len(holders) > 1:
                print("two definitions:", new, holders, file=sys.stderr)
    if argv == ["--table"]:
        for old in sorted(rows):
            print(old, rows[old], sep="\t")
        return
    if argv == ["--clashes"]:
        for new, olds, standing in sorted(clashes):
            print(new, [(o, names.kind(o), rows[o], sorted(names.where[o])[:3]) for o in olds], [(s, names.kind(s)) for s in standing])
        return

    def code(text):
        return CODE.sub(lambda m: comment(m.group()) if m.group().startswith("--") else m.group() if m.group()[0] == '"' else dotted(m.group()), text)

    def dotted(w):
        # Behind a dot stands a field of ours, or a name that the check makes; only ours are in the table.
        if w.startswith("."):
            return "." + rows.get(w[1:], w[1:]) if w[1:] in names.defined | names.fields | names.lemmas else w
        return rows.get(w, w)

    def comment(text):
        text = re.sub(r"`[^`]*`", lambda m: WORD.sub(lambda n: rows.get(n.group(), n.group()), m.group()), text)
        # A bare word turns where only a name is spelled like it.
        return WORD.sub(lambda n: rows.get(n.group(), n.group()) if re.search(r"[a-z][A-Z]", n.group()) and n.group() in names.defined | names.lemmas else n.group(), text)

    for path in lemma_files() + function_files():
        write(path, read(path), code(read(path)))
    for path in sorted(glob.glob("crates/*/src/**/*.rt", recursive=True)):
        text = read(path)
        out, at = [], 0
        for m in re.finditer(r"ghost use [^;]*;|//[^\n]*|(?:requires|ensures)\*?\s*(?:\w+\s*)?\{", text):
            if m.start() < at:
                continue
            end = m.end()
            if text[end - 1] == "{":
                depth = 1
                while depth:
                    depth += {"{": 1, "}": -1}.get(text[end], 0)
                    end += 1
            out.append(text[at : m.start()])
            piece = text[m.start() : end]
            out.append(comment(piece) if piece.startswith("//") else code(piece))
            at = end
        write(path, text, "".join(out) + text[at:])
    for path in sorted(glob.glob("docs/*.md") + ["README.md", "compare/README.md"]):
        text = read(path)
        write(path, text, re.sub(r"`[^`\n]*`", lambda m: WORD.sub(lambda n: rows.get(n.group(), n.group()) if n.group() in names.defined | names.lemmas else n.group(), m.group()), text))


def write(path, old, new):
    if old != new:
        with open(path, "w", encoding="utf-8") as it:
            it.write(new)


if __name__ == "__main__":
    main(sys.argv[1:])
