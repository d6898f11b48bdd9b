#!/usr/bin/env python3
"""Brings the repository's own names to the spelling of today's Rattle, once, after the kit's port.py.

- a definition or lemma in camel case is written in snake case, in src/ clauses, specs/, proofs/ and must-fail/;
- a lemma that would then have a definition's name gets `_lem`;
- the constructor `result` of refusal's Answer is `returned`, since `result` is what a clause calls the returned value;
- a clause that kept its λ for that reason loses it;
- the crate hex is hex_lines, since the kit has a library hex.
"""
import glob
import os
import re
import subprocess

NAME = r"[^\W\d][\w'₀-₉]*"
LEMMAS = ["all_digits", "by_entries", "first_entry", "on_list", "on_null", "run_in", "one_more", "out_of_range", "none_open"]


def snake(part):
    if not part or not part[0].islower() or re.match(r"x[0-9A-F_]+", part):
        return part
    return re.sub(r"([a-z0-9])([A-Z])(?![A-Z])", lambda m: m.group(1) + "_" + m.group(2).lower(), part)


def code_and_comment(line, mark):
    at = line.find(mark)
    return (line, "") if at < 0 else (line[:at], line[at:])


def spell(text, known):
    return re.sub(r"(?<![\w'])" + NAME, lambda m: snake(m.group(0)) if m.group(0) in known else m.group(0), text)


def answer(text):
    return re.sub(r"(?<![\w.'-])result(?![\w'-])", "returned", text)


def lemmas(text):
    for name in LEMMAS:
        text = re.sub(r"(?<![\w.'-])" + name + r"(?![\w.'-])", name + "_lem", text)
    return text


def clause(line):
    m = re.match(r"(\s*(?:ensures|requires))\*?( [\w]+)? \{ λ (\w+)\. ⌜ (.*) ⌝ \}(.*)$", line)
    if not m:
        return line
    kind, name, value, body, rest = m.groups()
    body = answer(body)
    if value != "_":
        body = re.sub(r"(?<![\w.'-])" + value + r"(?![\w'-])", "result", body)
    return f"{kind}{name or ''} {{ {body} }}{rest}"


def camel():
    """The lower camel case names that specs/ and proofs/ use."""
    known = set()
    for path in glob.glob("crates/*/specs/**/*.antt", recursive=True) + glob.glob("crates/*/proofs/**/*.antt", recursive=True):
        for line in open(path, encoding="utf-8"):
            for name in re.findall(r"(?<![\w'])" + NAME, code_and_comment(line, "--")[0]):
                if name[0].islower() and re.search(r"[a-z0-9][A-Z]", name):
                    known.add(name)
    return known


def antt(text, known):
    lines = []
    for line in text.split("\n"):
        code, comment = code_and_comment(line, "--")
        lines.append(spell(answer(lemmas(code)), known) + comment)
    return "\n".join(lines)


def rt(text, known):
    lines = []
    for line in text.split("\n"):
        if line.lstrip().startswith("//"):
            lines.append(line)
            continue
        line = clause(line)
        if line.startswith("ghost use Rattle.refusal.specs.Answer."):
            line = answer(line)
        if re.match(r"\s*(ghost|ensures|requires)\b", line):
            line = spell(line, known)
        lines.append(line)
    return "\n".join(lines)


def edit(text, known):
    lines = []
    of = ""
    for line in text.split("\n"):
        if line.startswith("file: "):
            of = line
        if re.match(r"(old|new): ", line):
            if of.endswith(".antt"):
                line = spell(answer(lemmas(line)), known)
            elif re.search(r"\b(ensures|requires|ghost)\b", line):
                line = spell(line[:5] + clause(line[5:]), known)
        lines.append(line)
    return "\n".join(lines)


def crate_hex():
    if not os.path.isdir("crates/hex"):
        return
    subprocess.run(["git", "mv", "crates/hex", "crates/hex_lines"], check=True)
    for path in ["crates.txt"] + glob.glob("crates/*/**/*", recursive=True):
        if os.path.isfile(path) and path.endswith((".rt", ".antt", ".edit", "crates.txt")):
            old = open(path, encoding="utf-8").read()
            new = re.sub(r"\bRattle\.hex\.", "Rattle.hex_lines.", old)
            new = re.sub(r"(?<![\w:.])hex::", "hex_lines::", new)
            if path == "crates.txt":
                new = re.sub(r"\bhex\b", "hex_lines", new)
            if path.endswith(".rt"):
                new = re.sub(r"^use hex;", "use hex_lines;", new, flags=re.M)
            if new != old:
                open(path, "w", encoding="utf-8").write(new)


def main():
    known = camel()
    for path in sorted(glob.glob("crates/*/**/*", recursive=True)):
        if not os.path.isfile(path) or "/out/" in path:
            continue
        turn = antt if path.endswith(".antt") else rt if path.endswith(".rt") else edit if path.endswith(".edit") else None
        if turn is None:
            continue
        old = open(path, encoding="utf-8").read()
        new = turn(old, known)
        if new != old:
            open(path, "w", encoding="utf-8").write(new)
    crate_hex()
    falling = {}
    for name in known:
        falling.setdefault(snake(name), []).append(name)
    for new, olds in falling.items():
        if len(olds) > 1:
            print("fall together:", new, olds)
    print(len(known), "names")


main()
