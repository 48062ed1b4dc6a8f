"""Spells the repository's own antt names as Rattle's library does.

usage: tools/respell.py [--list] [ROOT]

Words are in snake case: `edition-one` becomes `edition_one`. In a lemma's name a dash stays where it joins two names, as in
`length-put`; every other part is added with `_`. Names of functions of src/, exported names, strings, inputs and outputs are
left alone, and so is what the library calls its own. It rewrites crates/ and the pages below ROOT (the folder above this one)
in place; --list only prints each old name with its new one. Names that would fall together stop it. Run it once.
"""
import collections
import glob
import os
import re
import sys

WORD = r"[^\s(){}.;,@\"«»\[\]\\`]+"
DASHED = re.compile(r"[^\W\d_][\w'′]*(?:-[\w'′]+)+\Z")
# What the library joins by dashes although it is no definition: the names of operators and constructors in lemmas.
JOINED = set("add sub mul div mod le lt eq append cons nil zero one suc length take drop set get-or map reverse replicate filter".split())
# Words that join nothing, though a definition of that name stands somewhere.
SMALL = set("is of by at in on to as so".split())
# Constructors of the library that no file imports by name.
THEIRS = {"All-none"}
# Definitions that are called otherwise today.
TODAY = {"getD": ["get", "or"]}


def read(path):
    with open(path, encoding="utf-8") as file:
        return file.read()


def without_comments(text):
    return re.sub(r"--[^\n]*", "", text)


def plain(name):
    return name.replace("_", "-")


def imported(text):
    """The names that a file takes from the library, each with whether it is ours."""
    for found in re.finditer(r"(?m)^\s*(?:ghost )?(?:pub )?use (\S+?)\.\{([^}]*)\}", text):
        crate = re.match(r"Rattle\.(\w+)\.", found[1])
        ours = bool(crate) and crate[1] not in ("std", "core")
        for name in found[2].split(","):
            yield name.strip().split(" as ")[0], ours


def declared(text):
    """Each name that a file of definitions and lemmas declares: the name and its kind, 'definition', 'lemma' or 'part' (a field or a constructor)."""
    block = None
    for line in text.split("\n"):
        if not line.strip():
            continue
        indent = len(line) - len(line.lstrip())
        if block is not None and indent <= block:
            block = None
        head = re.match(rf"\s*((?:(?:pub|abbrev|unfoldable|mutual|record|data) )*)(?!(?:use|mod|module|let|in|λ|ruleset)\b)({WORD})((?: (?![:=→]){WORD})*) ?(:|\(|\{{|where)", line)
        if not head:
            continue
        marks = head[1].split()
        if "record" in marks or "data" in marks:
            yield head[2], "definition"
            block = indent
        elif head[4] == ":" or marks:
            kind = "part" if block is not None else "definition" if {"abbrev", "unfoldable"} & set(marks) else "lemma"
            for name in [head[2], *head[3].split()]:
                yield name, kind


def is_type(name):
    return bool(re.match(r"[A-Z]\w*[a-z]", name))


def camel(parts):
    return "".join(part[:1].upper() + part[1:] for part in parts)


def respelled(name, kind, names):
    """A lemma keeps a dash between two of `names`; each other dash becomes `_`."""
    parts = [piece for part in name.split("-") for piece in TODAY.get(part, [part])]
    if kind != "lemma":
        return camel(parts) if is_type(name) else "_".join(parts)
    segments, at = [], 0
    while at < len(parts):
        end = next((e for e in range(len(parts), at, -1) if "-".join(parts[at:e]) in names), at + 1)
        segment = "-".join(parts[at:end])
        segments.append((camel(parts[at:end]) if is_type(segment) else "_".join(parts[at:end]), segment in names))
        at = end
    out = segments[0][0]
    for before, after in zip(segments, segments[1:]):
        out += ("-" if before[1] and after[1] else "_") + after[0]
    return out


def main(argv):
    only_list = "--list" in argv
    argv = [word for word in argv if word != "--list"]
    if len(argv) > 1 or any(word.startswith("-") for word in argv):
        print(__doc__.strip().split("\n")[2], file=sys.stderr)
        return 2
    root = argv[0] if argv else os.path.dirname(os.path.dirname(os.path.abspath(__file__)))
    if not os.path.isdir(os.path.join(root, "crates")):
        print(f"respell: no folder {root}/crates", file=sys.stderr)
        return 2
    crates = os.path.join(root, "crates")
    antt = sorted(glob.glob(f"{crates}/*/specs/**/*.antt", recursive=True) + glob.glob(f"{crates}/*/proofs/**/*.antt", recursive=True))
    # A proof by hand also cites names that Rattle makes, so only the other files are asked what is ours.
    laws = [path for path in antt if os.path.basename(path) not in ("Proof.antt", "Answers.antt", "Invariants.antt")]
    texts = {path: read(path) for path in antt}
    kinds, taken, library, everything = collections.defaultdict(set), set(), set(), set()
    for path in laws:
        text = without_comments(texts[path])
        for name, kind in declared(text):
            kinds[name].add(kind)
        everything.update(re.findall(WORD, text))
    for path in antt:
        library.update(name for name, ours in imported(texts[path]) if not ours)
    for path in glob.glob(f"{crates}/*/src/**/*.rt", recursive=True):
        library.update(name for name, ours in imported(read(path)) if not ours)
    names = {plain(name) for name, of in kinds.items() if of & {"definition"}} | JOINED
    names |= {plain(name) for name in library if re.match(r"[^\W\d_][\w-]*\Z", name) and plain(name).count("-") == 0}
    names -= SMALL
    turned = {}
    for name in everything:
        if DASHED.match(name) and name not in THEIRS and (name in kinds or name not in library):
            of = kinds.get(name, {"local"})
            kind = "lemma" if of == {"lemma"} else "part"
            turned[name] = respelled(name, kind, names)
    turned = {old: new for old, new in turned.items() if old != new}
    # Two names of one spelling in one file, or a name that stands there already, would change what the file says.
    bad = collections.defaultdict(set)
    for path in laws:
        here = set(re.findall(WORD, without_comments(texts[path])))
        of = collections.defaultdict(set)
        for name in here:
            of[turned.get(name, name)].add(name)
        for new, olds in of.items():
            if len(olds) > 1:
                bad[new] |= olds
    if only_list:
        for old, new in sorted(turned.items()):
            print(old, new, "falls together" if new in bad else "")
        return 0
    if bad:
        for new, olds in sorted(bad.items()):
            print(f"respell: {new} would stand for {', '.join(sorted(olds))} and for what has that name", file=sys.stderr)
        return 1

    def turn(text, path):
        theirs = {name for name, ours in imported(text) if not ours} & library
        return lambda token: token if token in theirs else turned.get(token, token)

    token = re.compile(WORD)
    for path in antt:
        text, of = texts[path], turn(texts[path], path)

        def line_of(line):
            code, dash, comment = re.match(r"(.*?)((?:^|(?<=\s))--(?=\s|-|$)|$)(.*)\Z", line, re.S).groups()
            code = token.sub(lambda it: of(it[0]), code)
            comment = re.sub(r"`[^`]*`", lambda it: token.sub(lambda its: of(its[0]), it[0]), comment)
            return code + dash + comment

        new = "\n".join(line_of(line) for line in text.split("\n"))
        if new != text:
            with open(path, "w", encoding="utf-8") as file:
                file.write(new)
    rest = glob.glob(f"{crates}/*/src/**/*.rt", recursive=True)
    for path in rest:
        text = read(path)
        of = turn(text, path)
        new = re.sub(r"(?m)//[^\n]*|\"(?:[^\"\\\n]|\\.)*\"|" + WORD, lambda it: (
            re.sub(r"`[^`]*`", lambda code: token.sub(lambda its: of(its[0]), code[0]), it[0]) if it[0].startswith("//")
            else it[0] if it[0].startswith('"') else of(it[0])), text)
        if new != text:
            with open(path, "w", encoding="utf-8") as file:
                file.write(new)
    for path in glob.glob(f"{crates}/*/must-fail/*.edit"):
        text = read(path)
        of = turn(text, path)
        new = "\n".join(token.sub(lambda it: of(it[0]), line) if re.match(r"(old|new): ", line) else line for line in text.split("\n"))
        if new != text:
            with open(path, "w", encoding="utf-8") as file:
                file.write(new)
    pages = [os.path.join(root, name) for name in ("README.md", "CONTRIBUTING.md")] + glob.glob(f"{root}/docs/*.md") + glob.glob(f"{root}/oracle/*.md")
    for path in pages:
        if os.path.basename(path) == "PORT.md" or not os.path.isfile(path):
            continue
        text = read(path)
        new = re.sub(r"`[^`\n]*`", lambda code: token.sub(lambda its: turned.get(its[0], its[0]), code[0]), text)
        if new != text:
            with open(path, "w", encoding="utf-8") as file:
                file.write(new)
    print(f"respell: {len(turned)} names")
    return 0


if __name__ == "__main__":
    sys.exit(main(sys.argv[1:]))
