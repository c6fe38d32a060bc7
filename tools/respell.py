#!/usr/bin/env python3
"""Brings the repository's own names in specs/ and proofs/ to today's spelling: words in snake case; a dash joins two names and nothing else.

usage: tools/respell.py      once, at the top, after /opt/rattle/port/port.py

camelCase becomes snake_case. A dash stays between two names (`length-patch`), and becomes an underscore before or after a plain word
(`whole_from_take`). Names of src/, of today's library, of types and of facts keep their spelling. A law that would get the name of a
definition gets `_lem`. Comments and documents follow where a name stands between back-quotes; edits are turned by hand.
What changed is written to tools/respelled.txt.
"""
import collections
import os
import re
import sys

WORD = re.compile(r"[^\s(){},;.:⌜⌝\[\]`\"|]+")
KEYWORDS = r"(?:(?:abbrev|unfoldable|pub|data|record|mod|private|instance|syntax|ruleset)\s+)*"
DEFINES = re.compile(r"^\s*" + KEYWORDS + r"(?P<name>[^\s(){},;.:⌜⌝\[\]`\"|]+)(?P<rest>\s[^=]*)?(?<=\s):(?=\s|$)")
OWN_USE = re.compile(r"^\s*(?:(?:ghost|pub|unfoldable|abbrev)\s+)*use\s+([A-Za-z][\w.'+-]*)\.\{([^}]*)\}", re.M)


def read(path):
    with open(path, encoding="utf-8") as f:
        return f.read()


def files(*folders, ends):
    for top in folders:
        for folder, dirs, names in os.walk(top):
            dirs[:] = sorted(d for d in dirs if d not in ("out", ".git", "target"))
            for name in sorted(names):
                if name.endswith(ends):
                    yield os.path.join(folder, name)


def bare(text):
    """antt text without comments"""
    return re.sub(r"--(?=[\s-])[^\n]*", "", text)


crates = set(os.listdir("crates"))


def is_own(module):
    parts = module.split(".")
    return parts[0] == "Rattle" and len(parts) > 1 and parts[1] in crates


antt = list(files("crates", ends=".antt"))
rt = list(files("crates", ends=".rt"))
specs = [p for p in antt if "/specs/" in p]

external, own, used = set(), collections.Counter(), collections.defaultdict(set)
for p in antt + rt:
    for module, names in OWN_USE.findall(read(p)):
        if not is_own(module):
            external |= {n.split(" as ")[0].strip() for n in names.split(",")}
for p in specs:
    for line in bare(read(p)).split("\n"):
        m = DEFINES.match(line)
        if m:
            own[m["name"]] += 1
own = {n for n in own if n not in external and not n.startswith("◌")}


def snake(name):
    """camelCase parts that begin with a small letter"""
    def one(part):
        if not part or not part[0].islower():
            return part
        words = []
        for word in part.split("_"):
            if word and word[0].islower():
                word = re.sub(r"(?<=[a-z0-9])([A-Z])", lambda m: "_" + m[1].lower(), word)
            words.append(word)
        return "_".join(words)
    return "-".join(one(part) for part in name.split("-"))


def is_camel(name):
    return any(w and w[0].islower() and re.search(r"[a-z0-9][A-Z]", w) for part in name.split("-") for w in part.split("_")) and len(name) > 3


plain = set("of in at by to from for is are and or not no none all most each every some same with without has have then first last next after before".split())
names_after = ({snake(n) for n in own if "-" not in n} | {n for n in external if "-" not in n}) - plain


def dashes(name):
    """a dash stays between two names"""
    parts = name.split("-")
    if len(parts) == 1 or any(not p for p in parts) or not parts[0][0].isalpha():
        return name
    if name == name.upper():
        return name.replace("-", "_")
    out = parts[0]
    for before, part in zip(parts, parts[1:]):
        both = (before in names_after or out in names_after) and part in names_after
        out += ("-" if both else "_") + part
    return out


respelled = {}
# every word in camelCase of the antt files: definitions, fields and variables alike
for p in antt + rt:
    text = read(p)
    for word in set(WORD.findall(bare(text) if p.endswith(".antt") else text)):
        if word in external:
            continue
        if p.endswith(".rt") and word not in own:
            continue
        new = snake(word) if is_camel(word) else word
        if word in own:
            new = dashes(new)
        if new != word:
            respelled[word] = new

# names that fall together: the law, which had a dash, gets _lem
everything = collections.defaultdict(set)
for word in own:
    everything[respelled.get(word, word)].add(word)
for new, olds in sorted(everything.items()):
    if len(olds) > 1:
        laws = [o for o in olds if "-" in o and o in respelled]
        for o in laws[: len(olds) - 1]:
            respelled[o] = new + "_lem"
            print(f"falls together: {o} becomes {new}_lem beside {sorted(olds - {o})}")

# a law that port.py had spelled as the definition is spelled from now on: it gets _lem, in the files of specs/
laws = {}
for p in specs:
    words = set(WORD.findall(bare(read(p))))
    for w in sorted(words & set(respelled)):
        new = respelled[w]
        if new in words and new not in respelled and new in own and new not in laws:
            laws[new] = new + "_lem"
            print(f"falls together: {new} becomes {new}_lem beside {w}")


def put(text, law=False):
    return WORD.sub(lambda m: respelled.get(m[0], laws.get(m[0], m[0]) if law else m[0]), text)


# in documents, whose names port.py doesn't turn: by the letters, with capitals and dashes aside
spelled = collections.defaultdict(set)
for word in own:
    final = respelled.get(word, laws.get(word, word))
    spelled[snake(final).replace("-", "_").replace("′", "'")].add(final)


def in_document(word):
    if word in respelled and is_camel(word):
        return respelled[word]
    if "-" in word or is_camel(word):
        key = snake(word).replace("-", "_").replace("′", "'")
        found = spelled.get(key + "_lem") if "-" in word and key + "_lem" in spelled else spelled.get(key)
        if found and len(found) == 1:
            return next(iter(found))
    return word


def document(text):
    def names(m):
        return m[0] if "/" in m[0] and ".edit" in m[0] else WORD.sub(lambda w: in_document(w[0]), m[0])
    return re.sub(r"`[^`\n]+`", names, text)


def quoted(text):
    """names between back-quotes, and words in camelCase"""
    text = document(text)
    return WORD.sub(lambda m: respelled[m[0]] if is_camel(m[0]) and m[0] in respelled else m[0], text)


def comment_aside(text, mark, law=False):
    out = []
    for line in text.split("\n"):
        at = re.search(mark, line)
        code, rest = (line[: at.start()], line[at.start():]) if at else (line, "")
        out.append(put(code, law) + quoted(rest))
    return "\n".join(out)


changed = 0
for p in antt + rt:
    text = read(p)
    new = comment_aside(text, r"--(?=[\s-]|$)" if p.endswith(".antt") else r"//", p in specs)
    if new != text:
        with open(p, "w", encoding="utf-8") as f:
            f.write(new)
        changed += 1
for p in ["README.md", *files("docs", "mutations", "harness", ends=".md")]:
    text = read(p)
    new = document(text)
    if new != text:
        with open(p, "w", encoding="utf-8") as f:
            f.write(new)
        changed += 1
os.makedirs("tools", exist_ok=True)
with open("tools/respelled.txt", "w", encoding="utf-8") as f:
    for word in sorted(respelled):
        f.write(f"{word} {respelled[word]}\n")
print(f"{len(respelled)} names respelled, {changed} files written")
