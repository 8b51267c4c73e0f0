#!/usr/bin/env python3
"""Brings this repository's own definitions and lemmas to the spelling of today's Rattle: words in snake case, types and modules in camel case.

usage: tools/port_names.py     at the top, once, after /opt/rattle/port/port.py and before any edit by hand

A name is a repository's own where an .antt file of it declares the name. In it a dash becomes an underscore, and a capital inside a word that
begins small becomes an underscore and a small letter: `wholeOf` is `whole_of`, `closure-sound` is `closure_sound`. A part that begins with a
capital is a fact's name and stays. Names that would fall together get the spellings of APART. A file that imports a name of the library's under
an old spelling of ours keeps it. Comments are turned where a name stands in backquotes, or at the head of a line of a list of definitions.

Then the texts of the must-fail edits are turned alike: their names, projections and holes, and what the port made of the words of the file that
they edit. An edit whose old text does not stand once in its file afterwards is left as it was and named, to be turned by hand.
"""
import collections
import difflib
import glob
import os
import re
import subprocess
import sys

TOP = os.path.dirname(os.path.dirname(os.path.realpath(__file__)))

# Names that would fall together with another name of the repository or of the library in one file, and what they are called.
APART = {
    "accepting-mark": "accepting_marked", "transition-mark": "transition_marked", "header-mark": "header_marked", "end_mark": "end_marked",
    "bad-lasso": "lasso_is_bad", "in-header": "fault_in_header", "offer-call": "by_offer_call", "open-call": "by_open_call",
    "no-entry": "without_entry", "is-entry": "entry_is", "work-after": "work_is", "word_after": "word_is", "no-slots": "no_slots_left",
    "atom-by": "atom_by_lem", "byte-before": "byte_before_lem", "class-at": "class_at_lem", "closed_on": "closed_on_lem",
    "closed-rows": "closed_rows_lem", "counters-at": "counters_at_lem", "counters-on": "counters_on_lem", "diagonal-rows": "diagonal_rows_lem",
    "file-bytes": "file_bytes_lem", "has-dead": "has_dead_lem", "header-values": "header_values_lem", "initial-from": "initial_from_lem",
    "items-bytes": "items_bytes_lem", "masks-after": "masks_after_lem", "name-end": "name_end_lem", "next-from": "next_from_lem",
    "no-letter": "no_letter_lem", "offer-answer": "offer_answer_lem", "offer-number": "offer_number_lem", "open-number": "open_number_lem",
    "read-file": "read_file_lem", "round-row": "round_row_lem", "transition-bit": "transition_bit_lem", "verdict-number": "verdict_number_lem",
    "vertex-at": "vertex_at_lem", "write-number": "write_number_lem", "no-header": "without_header", "Described-as": "DescribedAs",
    "bit-and": "bit_of_and", "bit-or": "bit_of_or", "bit-xor": "bit_of_xor", "dE": "dE", "dF": "dF", "eA": "eA", "eB": "eB",
}

TOKEN = re.compile(r"""[^\s(){}\[\];,.`"«»]+""")
DECLARED = re.compile(r"^\s*(?:(?:abbrev|unfoldable|pub|private|opaque|syntax)\s+)*([^\s(){}\[\];,.`\"«»:=]+)\s:(?:\s|$)")
LET = re.compile(r"\blet ([^\s(){}\[\];,.`\"«»:=]+) (?:=|:)")
HEAD = re.compile(r"^\s*(?:pub\s+)?(?:record|data|abbrev|unfoldable)\s+(?:pub\s+)?([^\s(){}\[\];,.`\"«»:=]+)")
IMPORT = re.compile(r"^\s*(?:pub\s+|ghost\s+)*use\s+([^\s{;]+?)\.?\{([^}]*)\}")


def antt_files():
    for folder, dirs, files in os.walk(os.path.join(TOP, "crates")):
        dirs[:] = sorted(d for d in dirs if d not in ("out", "target"))
        for f in sorted(files):
            if f.endswith((".antt", ".rt")):
                yield os.path.join(folder, f)


def respelled(name):
    parts = []
    for part in re.split(r"(?<=\w)-(?=\w)", name):
        part = part.replace("getD", "get_or")
        if part[:1].islower():
            part = re.sub(r"(?<=[a-z0-9])([A-Z])(?=[^A-Z]|$)", lambda m: "_" + m.group(1).lower(), part)
        parts.append(part)
    return "_".join(parts)


def comment_at(line, rt):
    mark = "//" if rt else "--"
    if line.lstrip().startswith(mark):
        return line.index(mark)
    i = line.find(" " + mark + " ")
    return i + 1 if i >= 0 else len(line)


def own_names():
    names, fields = set(), set()
    for path in antt_files():
        if path.endswith(".rt"):
            continue
        inside = None
        with open(path, encoding="utf-8") as f:
            for line in f:
                code = line[:comment_at(line, False)]
                indent = len(code) - len(code.lstrip())
                if code.strip() and inside is not None and indent <= inside:
                    inside = None
                m = re.match(r"^\s*(?:pub\s+)?record\s", code)
                if m and "where" in code:
                    inside = indent
                for pattern in (DECLARED, HEAD):
                    m = pattern.match(code)
                    if m:
                        names.add(m.group(1))
                        if inside is not None and indent > inside:
                            fields.add(m.group(1))
                for n in LET.findall(code):
                    names.add(n)
    return names, fields


def main():
    before = {}
    for path in sorted(glob.glob(os.path.join(TOP, "crates/*/must-fail/*.edit"))):
        for file in edited(path):
            if file not in before:
                r = subprocess.run(["git", "show", "HEAD:" + os.path.relpath(file, TOP)], cwd=TOP, capture_output=True, text=True)
                before[file] = r.stdout
    names, fields = own_names()
    told = {n: APART.get(n, respelled(n)) for n in names if APART.get(n, respelled(n)) != n and not n.startswith(("tie.", "goal."))}
    back = {}
    for n in names:
        back.setdefault(told.get(n, n), set()).add(n)
    together = {k: v for k, v in back.items() if len(v) > 1}
    if "--list" in sys.argv:
        for k in sorted(together):
            print("together", k, sorted(together[k]))
        for n in sorted(told):
            print(n, told[n])
        return
    for path in antt_files():
        rt = path.endswith(".rt")
        with open(path, encoding="utf-8") as f:
            text = f.read()
        # names that this file takes from outside the repository under the old spelling
        foreign = set()
        for m in re.finditer(r"^\s*(?:pub\s+|ghost\s+)*use\s+([^\s{;]+?)\.?\{([^}]*)\}", text, re.M):
            if not re.match(r"Rattle\.(" + "|".join(CRATES) + r")\.(specs|proofs)", m.group(1)):
                foreign |= {w.strip() for w in m.group(2).split(",")}
        out = []
        for line in text.split("\n"):
            at = comment_at(line, rt)
            out.append(turned(line[:at], told, fields, foreign) + turned_comment(line[at:], told, rt))
        new = "\n".join(out)
        if new != text:
            with open(path, "w", encoding="utf-8") as f:
                f.write(new)
    turn_edits(before, told, fields)


def edited(path):
    crate = os.path.dirname(os.path.dirname(path))
    with open(path, encoding="utf-8") as f:
        return [os.path.join(crate, line[6:].strip()) for line in f if line.startswith("file: ")]


WORD = re.compile(r"[^\W]+(?:[-'→][^\W]+)*|\S")


def tight(text):
    text = re.sub(r"(?<![\w◌])_([^\s\w(){}\[\],.;]+)_(?![\w◌])", "◌\\1◌", text)
    text = re.sub(r"(?<=[\w'₀₁₂)]) \.(?=[a-z0-9])", ".", text)
    while True:
        new = re.sub(r"(?<![\w'])\(([\w'₀₁₂]+(?:\.[\w-]+)+)\)", "\\1", text)
        if new == text:
            return text
        text = new


# What the port made of single words of a file, where a line kept its number of words.
def learned(before, after):
    found = collections.defaultdict(collections.Counter)
    a = [WORD.findall(line) for line in before]
    b = [WORD.findall(line) for line in after]
    matcher = difflib.SequenceMatcher(None, [" ".join(x) for x in a], [" ".join(x) for x in b], autojunk=False)
    for tag, i, j, k, l in matcher.get_opcodes():
        if tag == "replace" and j - i == l - k:
            for x, y in zip(a[i:j], b[k:l]):
                if len(x) == len(y):
                    for u, v in zip(x, y):
                        found[u][v] += 1
    return {u: v.most_common(1)[0][0] for u, v in found.items() if re.match(r"\w", u) and re.match(r"\w", v.most_common(1)[0][0])}


def turn_edits(before, told, fields):
    words = {}
    for file, text in before.items():
        with open(file, encoding="utf-8") as f:
            after = f.read()
        rt = file.endswith(".rt")
        lines = [turned(tight(line[:comment_at(line, rt)]), told, fields | set(told), set()) + line[comment_at(line, rt):] for line in text.split("\n")]
        words[file] = (lines, after, learned(lines, after.split("\n")), set(WORD.findall(after)))
    for path in sorted(glob.glob(os.path.join(TOP, "crates/*/must-fail/*.edit"))):
        with open(path, encoding="utf-8") as f:
            lines = f.read().split("\n")
        file, out, text, bad = None, [], None, []
        for line in lines:
            if line.startswith("file: "):
                file = os.path.join(os.path.dirname(os.path.dirname(path)), line[6:].strip())
                text = words[file][1]
            elif line.startswith(("old: ", "new: ")):
                antt, raw = file.endswith(".antt"), line[5:]
                raw = re.sub(r"Rattle·(\w+)(·(specs|proofs)\.(specs|proofs)|)\.", lambda m: "Rattle." + m.group(1) + ("." + m.group(3) if m.group(3) else "") + ".", raw)
                said = turned(tight(raw), told, fields | set(told), set())
                said = WORD.sub(lambda m: words[file][2].get(m.group(0), m.group(0)) if m.group(0) not in words[file][3] else m.group(0), said)
                if line.startswith("old: "):
                    old = said
                    if text.count(line[5:]) == 1:
                        old = said = line[5:]
                        plain = True
                    else:
                        plain = False
                    if text.count(old) != 1:
                        bad.append(f"{text.count(old)} times: {old}")
                else:
                    if plain and not antt:
                        said = turned(line[5:], told, fields, set())
                    text = text.replace(old, said)
                line = line[:5] + said
            elif line.startswith("#"):
                line = re.sub(r"`([^`]+)`", lambda m: "`" + TOKEN.sub(lambda t: told.get(t.group(0), t.group(0)), m.group(1)) + "`", line)
            out.append(line)
        if bad:
            print("left:", os.path.relpath(path, TOP), "; ".join(bad))
            continue
        new = "\n".join(out)
        if new != "\n".join(lines):
            with open(path, "w", encoding="utf-8") as f:
                f.write(new)


def turned(code, told, fields, foreign):
    def one(m):
        t = m.group(0)
        if t not in told or t in foreign:
            return t
        if m.start() > 0 and code[m.start() - 1] == "." and t not in fields:
            return t
        return told[t]

    return TOKEN.sub(one, code)


def turned_comment(text, told, rt):
    if not text:
        return text
    text = re.sub(r"`([^`]+)`", lambda m: "`" + TOKEN.sub(lambda t: told.get(t.group(0), t.group(0)), m.group(1)) + "`", text)
    m = re.match(r"^((?:--|//)\s{3})(\S.*?)(\s{2,}.*)?$", text)
    if m:
        head = TOKEN.sub(lambda t: told.get(t.group(0), t.group(0)), m.group(2))
        gap = m.group(3) or ""
        if gap and len(head) > len(m.group(2)):
            gap = " " * max(2, len(gap) - len(gap.lstrip()) - (len(head) - len(m.group(2)))) + gap.lstrip()
        text = m.group(1) + head + gap
    return text


CRATES = sorted(os.listdir(os.path.join(TOP, "crates")))

if __name__ == "__main__":
    main()
