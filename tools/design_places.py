"""Lists the places of src/ that docs/DESIGN-PASS.md counts, point by point.

usage: python3 tools/design_places.py [--list] [ROOT]

It prints a line for each kind of place: the point, the kind, how many places there are, and how many of them have a line `// Kept:` with a reason beside them (in the
comment above, or in the item). With --list each place follows, as FILE:LINE and what stands there. ROOT is a checkout; without it, the one that this file is in.
"""
import collections
import glob
import os
import re
import sys

# Variants by which an enum says that it has no value to give.
FAILS = set("Refused Unfit Cannot Full Nowhere Above Malformed Deep TooDeep Space Nothing None Large Nowhere Above".split())
# How a comment tells of a number that stands for no value.
SENTINEL = re.compile(r"//.*(\b(or|and) (\d+|the length)\b.*\b(where|past)\b|; (\d+|the length) where|: 0 where|\bNo (byte|word) is as large|A field that no line has|What stands where no)")
CODES = re.compile(r"^(pub )?const (MEMBER|REST|TAIL|ARGUMENT|LIMIT|BUFFER|DEPTH|SIZE|SPACE): u(16|32) = \d+;")
# A step of a loop that counts: by one, or down to the number before.
COUNTS = re.compile(r"\b\w+ [-+]= 1\b|\bdue = p;|\b(\w+) = \1 [-+] 1\b")
USED = re.compile(r"^(\w+): &mut \[\w+\]$")
LENGTHS = set("n depth".split())
MANY = 8


class Place:
    def __init__(self, file, line, text, kept):
        self.file, self.line, self.text, self.kept = file, line, text, kept


def split_parameters(text):
    parts, depth, start = [], 0, 0
    for i, letter in enumerate(text):
        if letter in "([<{":
            depth += 1
        elif letter in ")]>}" and text[i - 1] != "-":
            depth -= 1
        elif letter == "," and depth == 0:
            parts.append(text[start:i].strip())
            start = i + 1
    parts.append(text[start:].strip())
    return [part for part in parts if part]


def closing(text, at, opens, closes):
    depth = 0
    for i in range(at, len(text)):
        if text[i] == opens:
            depth += 1
        elif text[i] == closes:
            depth -= 1
            if depth == 0:
                return i
    return len(text)


class Function:
    """A function of a file: its name, its parameters, its body without comments, and the lines of its item."""

    def __init__(self, text, match):
        self.name = match.group(2)
        opened = text.index("(", match.end() - 1)
        closed = closing(text, opened, "(", ")")
        self.parameters = split_parameters(re.sub(r"//[^\n]*", "", text[opened + 1:closed]))
        # the body begins at the first line that is a lone bracket, or at the signature's own
        body = re.compile(r"\{[ ]*\n").search(text, closed)
        self.result = text[closed + 1:body.start()] if body else ""
        self.result = re.split(r"\n", self.result)[0].strip()
        self.start = match.start()
        self.end = closing(text, body.start(), "{", "}") if body else closed
        self.body = re.sub(r"//[^\n]*", "", text[body.start():self.end + 1]) if body else ""


def functions(text):
    return [Function(text, match) for match in re.finditer(r"^[ ]*(pub )?(?:extern \"C\" )?fn (\w+)(?=[<(])", text, re.M)]


def line_of(text, at):
    return text.count("\n", 0, at) + 1


def is_remark(line):
    return line.strip().startswith("//") or line.strip().startswith("#[")


def comment_at(lines, line):
    """The comment that line `line`, counted from 1, is in or stands right below, past attributes."""
    near, i = [], line - 2
    while i >= 0 and is_remark(lines[i]):
        near.append(lines[i])
        i -= 1
    i = line - 1
    while i < len(lines) and is_remark(lines[i]):
        near.append(lines[i])
        i += 1
    return "\n".join(near)


def shape(function):
    """A function with its names taken away: two of one shape differ in names, types or numbers."""
    words, seen = [], {}
    kinds = [re.sub(r"[ui](8|16|32|64|size)\b", "NUM", p.split(":", 1)[-1]) if ":" in p else p for p in function.parameters]
    for word in re.findall(r"\w+|[^\s\w]", function.body):
        if re.match(r"\d", word):
            words.append("0")
        elif re.match(r"(u8|u16|u32|u64|usize)\b", word):
            words.append("NUM")
        elif re.match(r"\w", word) and word not in ("let", "mut", "if", "else", "while", "loop", "for", "in", "return", "match", "as", "true", "false", "break"):
            words.append(str(seen.setdefault(word, len(seen))) + "n")
        else:
            words.append(word)
    return (tuple(kinds), " ".join(words))


def read(root):
    found = collections.OrderedDict()

    def add(point, kind, place):
        found.setdefault((point, kind), []).append(place)

    shapes = collections.defaultdict(list)
    for kind in ((1, "enums of the shape of Option or Result"), (1, "structs with a flag"), (1, "numbers that stand for no value"), (1, "numbers for kinds"),
                 (2, "functions of one shape"), (3, "loops that count by hand"), (3, "other loops by while and loop"), (4, "functions that are one cast"), (4, "casts by as"),
                 (4, "least and largest by hand"), (5, f"functions of {MANY} or more parameters"), (6, "a buffer with its length beside"), (7, "numbers for which step is next")):
        found[kind] = []
    for path in sorted(glob.glob(os.path.join(root, "crates/*/src/**/*.rt"), recursive=True)):
        name = os.path.relpath(path, root)
        text = open(path, encoding="utf-8").read()
        lines = text.split("\n")
        items = [(line_of(text, one.start), line_of(text, one.end)) for one in functions(text)]

        def place(at, end=None, what=None):
            line = line_of(text, at)
            last = line_of(text, end) if end else line
            near = comment_at(lines, line) + "\n".join(lines[line - 1:last])
            heads = [comment_at(lines, first) for first, final in items if first <= line <= final]
            return Place(name, line, what or lines[line - 1].strip(), any("// Kept:" in one for one in [near] + heads))

        for match in re.finditer(r"^(pub )?enum (\w+)[^{\n]*\{", text, re.M):
            end = closing(text, match.end() - 1, "{", "}")
            variants = re.findall(r"^    (\w+)", re.sub(r"//[^\n]*", "", text[match.end():end]), re.M)
            if FAILS & set(variants):
                add(1, "enums of the shape of Option or Result", place(match.start(), end, f"enum {match.group(2)}: {', '.join(variants)}"))
        for match in re.finditer(r"^(pub )?struct (\w+)[^{;\n]*\{", text, re.M):
            end = closing(text, match.end() - 1, "{", "}")
            fields = re.findall(r"^    (?:pub )?(\w+): ([^\n]*),$", text[match.end():end], re.M)
            if any(kind == "bool" for _, kind in fields):
                add(1, "structs with a flag", place(match.start(), end))
        for i, line in enumerate(lines):
            at = sum(len(one) + 1 for one in lines[:i])
            if SENTINEL.search(line):
                add(1, "numbers that stand for no value", place(at))
            if CODES.match(line) and not name.endswith("terms/src/bounds.rt"):
                add(1, "numbers for kinds", place(at))
            if re.match(r"\s*('\w+: )?(while|loop)\b", line):
                opened = text.index("{\n", at)
                whole = text[at:closing(text, opened, "{", "}")]
                add(3, "loops that count by hand" if COUNTS.search(whole) else "other loops by while and loop", place(at))
            if re.search(r"\battempt (==|<)|0 < attempt|== attempt", line):
                add(7, "numbers for which step is next", place(at))
            code = line.split("//")[0]
            for _ in re.findall(r"\bas (u8|u16|u32|u64|usize)\b", code):
                if not line.startswith("ghost"):
                    add(4, "casts by as", place(at))
        for function in functions(text):
            one = re.sub(r"\s+", " ", function.body)
            if re.fullmatch(r"\{ (\w+) as \w+ \}", one):
                add(4, "functions that are one cast", place(function.start, function.end))
            if function.name in ("smaller", "larger"):
                add(4, "least and largest by hand", place(function.start, function.end))
            if len(function.parameters) >= MANY:
                one = place(function.start, function.end, f"fn {function.name}, {len(function.parameters)}")
                one.kept = "// Kept:" in comment_at(lines, line_of(text, function.start)) or "// Kept:" in comment_at(lines, 1)
                add(5, f"functions of {MANY} or more parameters", one)
            for first, second in zip(function.parameters, function.parameters[1:]):
                if USED.match(first) and second.split(":")[0] in LENGTHS and second.endswith("usize"):
                    add(6, "a buffer with its length beside", place(function.start, function.end, f"fn {function.name}: {first}, {second}"))
            if function.body:
                shapes[shape(function)].append(place(function.start, function.end, f"fn {function.name}"))
    for same in shapes.values():
        if len(same) > 1:
            for one in same:
                add(2, "functions of one shape", one)
    return found


def main(arguments):
    listing = "--list" in arguments
    rest = [one for one in arguments if one != "--list"]
    if len(rest) > 1 or any(one.startswith("-") for one in rest):
        sys.exit("design_places: usage: python3 tools/design_places.py [--list] [ROOT]")
    root = rest[0] if rest else os.path.join(os.path.dirname(os.path.abspath(__file__)), "..")
    if not os.path.isdir(os.path.join(root, "crates")):
        sys.exit(f"design_places: no crates/ in {root}")
    for (point, kind), places in sorted(read(root).items()):
        print(f"{point}  {kind}: {len(places)}, kept with a reason {sum(one.kept for one in places)}")
        if listing:
            for one in places:
                print(f"     {'kept ' if one.kept else ''}{one.file}:{one.line}: {one.text}")


if __name__ == "__main__":
    main(sys.argv[1:])
