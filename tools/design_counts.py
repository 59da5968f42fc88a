"""Lists the places in crates/*/src that docs/DESIGN-PASS.md counts, point by point. Run it at the top of the repository.

    python3 tools/design_counts.py        the places, each a place to look at and no verdict
    python3 tools/design_counts.py -c     the counts alone
"""

import collections
import glob
import re
import sys

FILES = sorted(glob.glob("crates/*/src/**/*.rt", recursive=True))
LINES = {f: open(f, encoding="utf-8").read().split("\n") for f in FILES}
KEYWORDS = set("fn let mut if else match return for in while loop break struct impl pub as ref".split())


def at(pattern, skip=None):
    """Each line that has the pattern, but not `skip`."""
    return [
        f"{f}:{n}: {line.strip()}"
        for f in FILES
        for n, line in enumerate(LINES[f], 1)
        if re.search(pattern, line) and not (skip and re.search(skip, line)) and not line.strip().startswith("//")
    ]


def after(first, second):
    """Each line that has the pattern `second` right after one that has `first`."""
    return [
        f"{f}:{n + 1}: {LINES[f][n].strip()}"
        for f in FILES
        for n in range(1, len(LINES[f]))
        if re.search(first, LINES[f][n - 1]) and re.search(second, LINES[f][n])
    ]


def items(word):
    """Each item that begins with `word`: where it stands, its name, its lines."""
    for f in FILES:
        for n, line in enumerate(LINES[f]):
            m = re.match(r"^( *)(?:pub(?:\(crate\))? )?(?:final )?" + word + r" (\w+)", line)
            if not m or line.rstrip().endswith(";"):
                continue
            end = n
            while end < len(LINES[f]) and LINES[f][end] != m[1] + "}":
                end += 1
            yield f"{f}:{n + 1}", m[2], LINES[f][n : end + 1]


def shape(lines):
    """The item with names, numbers and strings made alike; comments and clauses left out."""
    kept = [x for x in lines if not re.match(r"^\s*(//|requires|ensures|#\[)", x)]
    text = re.sub(r'b?"(\\.|[^"\\])*"|b?\'(\\.|[^\'\\])+\'|\b[0-9][0-9A-Fa-fx_]*\b', "0", "\n".join(kept))
    text = re.sub(r"[A-Za-z_]\w*", lambda m: m[0] if m[0] in KEYWORDS else "x", text)
    return re.sub(r"\s+", " ", text)


def twins(word, least):
    """Items of one shape, at least so many lines long."""
    groups = collections.defaultdict(list)
    for place, name, lines in items(word):
        if len(lines) >= least:
            groups[shape(lines)].append(f"{place}: {word} {name}")
    return [f"{len(g)} alike: " + "; ".join(g) for g in groups.values() if len(g) > 1]


def repeated_clauses():
    """Clauses that stand in three functions or more."""
    found = collections.Counter()
    for f in FILES:
        for line in LINES[f]:
            m = re.match(r"^\s+(requires|ensures)( \w+)? (\{ .* \})$", line)
            if m:
                found[m[1] + " " + m[3]] += 1
    return [f"{n} times: {c}" for c, n in found.most_common() if n >= 3]


def parameters():
    """Functions of five parameters or more, and groups of three that stand in four functions or more."""
    long, together = [], collections.Counter()
    for place, name, lines in items("fn"):
        head = " ".join(lines).split(") ")[0]
        names = re.findall(r"(\w+): [&\w]", head[head.find("(") :])
        if len(names) >= 5:
            long.append(f"{place}: fn {name}({', '.join(names)})")
        for i in range(len(names) - 2):
            together[", ".join(names[i : i + 3])] += 1
    return long + [f"{n} functions take {g}" for g, n in together.most_common() if n >= 4]


POINTS = [
    ("1a own enums with a case for nothing", lambda: at(r"^ +(Nothing|Other|Missing|Absent|Nil),$")),
    ("1b flags in structs", lambda: at(r"^ +(pub )?\w+: bool,$")),
    (
        "1c numbers for kinds and refusals",
        lambda: at(r"=> \d+,$|^ +\d+ => |Word\(\d|field\(body, [^)]*, \d, |read_count\(body, \d+, \d"),
    ),
    (
        "1d an Option or a Result handed on by hand",
        lambda: after(r"else \{$", r"return (None;|Ok\(None\);|Err\()")
        + after(r"else \{$", r"^ +None$")
        + at(r"^ +(None => (None|Err)|Err\(\w+\) => Err|Some\(\w+\) => Ok|Ok\(\w+\) => Ok\(\w+\.)"),
    ),
    ("2 functions of one shape", lambda: twins("fn", 3)),
    ("2 structs of one shape", lambda: twins("struct", 2)),
    ("3 while and loop", lambda: at(r"^ +(while|loop)\b")),
    ("3 for over a range", lambda: at(r"^ +for \w+ in .*\.\.")),
    (
        "4 equality, conversion and printing by hand",
        lambda: at(r"fn (number|word|words_of|same_bytes|hex_digit|hex_value|put_decimal|number_of)\(")
        + at(r"=> (true|false),$"),
    ),
    ("5 clauses that stand three times or more", repeated_clauses),
    ("5 parameters", parameters),
    ("5 several facts in one clause", lambda: at(r"^\s+(requires|ensures)( \w+)? \{ .* × ", r"λ|→")),
    ("6 lengths beside buffers", lambda: at(r"^ +(pub )?(size|length|used|lent|count): usize,$")),
    ("6 parts from 0", lambda: at(r"\[0\.\.")),
    ("7 tests for a word, one after another", lambda: at(r"if let .*strip_prefix\(b\"")),
    (
        "7 match that chooses a step",
        lambda: at(r"^ +match (encoding|tongue|spoken\.\w+|command|call|self|message|opened_by.*|field.*) \{$"),
    ),
]


def main():
    for name, places in POINTS:
        found = places()
        print(f"{len(found):4} {name}")
        if "-c" not in sys.argv:
            for place in found:
                print("       " + place)
    written = [f for d in ("proofs", "specs") for f in glob.glob(f"crates/*/{d}/**/*.antt", recursive=True)]
    print(f"{sum(1 for f in written for x in open(f, encoding='utf-8') if x.strip()):4} 8 lines of proofs/ and specs/")


main()
