#!/usr/bin/env python3
"""forms.py [--list]: counts in crates/*/src the places of the older forms, by point of docs/DESIGN-PASS.md. With --list each place is printed."""
import collections
import glob
import itertools
import re
import sys

LIST = "--list" in sys.argv[1:]
FILES = {p: open(p, encoding="utf-8").read() for p in sorted(glob.glob("crates/*/src/**/*.rt", recursive=True))}


def show(point, places):
    print(f"{point}: {len(places)}")
    if LIST:
        for place in places:
            print("    " + place)


def lines(pattern):
    return [f"{p}:{n}: {l.strip()}" for p, t in FILES.items() for n, l in enumerate(t.split("\n"), 1) if re.search(pattern, l) and not l.strip().startswith("//")]


def enums():
    failing = re.compile(r"    (Refused|Wrong|Absent|None|Nothing|Unknown|OutOfBounds|InvalidWidth|Latest|Awaiting|Reserved)\b")
    found = []
    for p, t in FILES.items():
        for m in re.finditer(r"^(?:pub )?enum (\w+) \{\n(.*?)^\}", t, re.M | re.S):
            if any(failing.match(l) for l in m.group(2).split("\n")) and not re.search(r"\w+Error$", m.group(1)):
                found.append(f"{p}: {m.group(1)}")
    return found


def functions():
    for p, t in FILES.items():
        for m in re.finditer(r"^( *)(?:pub )?(?:extern \"C\" )?fn (\w+)(.*?)\n\1\{\n(.*?)\n\1\}", t, re.M | re.S):
            yield p, m.group(2), m.group(3), m.group(4)


def alpha(text):
    text = re.sub(r"//[^\n]*", "", text)
    seen = {}
    def name(m):
        return seen.setdefault(m.group(0), f"x{len(seen)}")
    return re.sub(r"\s+", " ", re.sub(r"b?\"[^\"]*\"|b'[^']'|[A-Za-z_]\w*|\d\w*", name, text)).strip()


def twins():
    same = collections.defaultdict(list)
    for p, name, head, body in functions():
        if len([l for l in body.split("\n") if l.strip()]) >= 3:
            same[alpha(body)].append(f"{p}: {name}")
    return [" = ".join(v) for v in same.values() if len(v) > 1]


def twin_types():
    same = collections.defaultdict(list)
    for p, t in FILES.items():
        for m in re.finditer(r"^(?:pub )?(enum|struct) (\w+) \{\n(.*?)^\}", t, re.M | re.S):
            if re.search(r"[(:]", m.group(3)):
                same[m.group(1) + alpha(m.group(3))].append(f"{p}: {m.group(2)}")
    return [" = ".join(v) for v in same.values() if len(v) > 1]


def shared():
    """Pairs of functions that share a run of six lines and more."""
    bodies = [(p, n, [l.strip() for l in b.split("\n") if l.strip() and not l.strip().startswith("//")]) for p, n, h, b in functions()]
    runs = collections.defaultdict(set)
    for p, n, ls in bodies:
        for i in range(len(ls) - 5):
            run = "\n".join(ls[i:i + 6])
            if len(run) > 60:
                runs[run].add(f"{p}: {n}")
    return sorted({" = ".join(sorted(v)) for v in runs.values() if len(v) > 1})


def travelling():
    """Sets of three parameters and more that stand together in three signatures and more: the signatures, once each."""
    sets = collections.Counter()
    heads = []
    for p, name, head, body in functions():
        args = frozenset(re.findall(r"(\w+: &?(?:mut )?[\w\[\]; ]+)", re.split(r"\n\s*(?:requires|ensures)", head)[0]))
        args = frozenset(re.sub(r"&mut ", "&", a) for a in args)
        heads.append((p, name, args))
    for (_, _, a), (_, _, b) in itertools.combinations(heads, 2):
        both = a & b
        if len(both) >= 3:
            sets[both] += 1
    often = [s for s, n in sets.items() if n >= 3]
    return [f"{p}: {n}" for p, n, a in heads if any(s <= a for s in often)]


show("1  enums of the shape of Option or Result", enums())
show("1  flags with a value beside", lines(r"pub (found|ended|goes_on|present): "))
show("1  numbers for kinds", lines(r"^pub const (USER_AGENT|SCHEME|PRINCIPAL|CREDENTIALS|ROUTING|BOOKMARKS|TX_TIMEOUT|TX_METADATA|MODE|DB|N|QID|HELLO|GOODBYE|RESET|RUN|BEGIN|COMMIT|ROLLBACK|DISCARD|PULL): u"))
show("2  groups of functions with one body", twins())
show("2  groups of types with one body", twin_types())
show("2  groups of functions that share six lines", shared())
show("3  while and loop", lines(r"^\s*('\w+: )?(while|loop)\b"))
show("4  equality, order, copy, conversion by hand", lines(r"fn (is_in|rank|is_latest|is_string|is_from|are_alike|least|number|state_of|request_of|tag|summary_of|summary_image|is_summary|outcome_of|is_outcome|renewed|wide|or_minus_one|arrival_of|mode_number|version_of|from_bytes|to_bytes|magnitude|complaint|refused)\b"))
show("5  functions with parameters that travel together", travelling())
show("5  field: field in place of field", lines(r"\b(\w+): \1,?( \})?$"))
show("6  sizes beside buffers, and tables of indices", lines(r"(_size|size|count|end|top|base): usize,$|^const (STARTS|FIRST|NEXT):"))
show("7  enums that choose a step", lines(r"^pub enum (Kind|Range) "))
