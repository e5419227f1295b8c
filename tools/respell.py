#!/usr/bin/env python3
"""Brings the repository's own definitions and lemmas to one spelling: words in snake case, types and modules in camel case.

usage: tools/respell.py [--list] [TOP]

A dash in a lemma's name stays where it joins the name of a definition to the rest; another dash becomes an underscore.
Names of src/, exported names, strings, inputs and outputs keep their spelling. --list prints old and new and writes nothing.
Run once, on the commit before it: a second run finds nothing to turn.
"""
import collections
import glob
import os
import re
import sys

# names of measured quantities and the like that the documents give: they stay in comments and pages
DOCUMENTS = {
    "acActivePower", "acActivePowerPerPhase", "dcPower",
}
# endings of proofs of functions, and names that the check itself makes
MADE = re.compile(r"(^|-)(spec|Need.*|statement)$|Inv-|^μ-")
# a local name that would fall together with a definition
LOCALS = {"in_map": "in_map_lem"}
WORD = re.compile(r"[^\s(){}\[\],.;:\"|`]+")
DECLARED = re.compile(r"^(\s*)((?:(?:unfoldable|abbrev|pattern|pub|axiom)\s+)*)([^\s:(){}\[\],.;]+)\s*(?:\{[^}]*\})?\s*:\s(.*)$")
RECORD = re.compile(r"^\s*(?:pub\s+)?(?:record|data)\s+([^\s:(){}]+)")
WORDS = {"record", "data", "module", "where", "use", "let", "open", "unfolding", "constructor"}


def snake(word):
    word = re.sub(r"([a-z])([A-Z])", r"\1_\2", word)
    word = re.sub(r"([0-9])([A-Z][a-z])", r"\1_\2", word)
    return word.lower()


def antt_files(top):
    return sorted(
        f for kind in ("specs", "proofs")
        for f in glob.glob(os.path.join(top, "crates", "*", kind, "**", "*.antt"), recursive=True)
    )


def declarations(top):
    """name -> the kinds of files that declare it: 'spec', 'lemma' or 'function' (beside one function's proof); and the types"""
    found, types = collections.defaultdict(set), set()
    for path in antt_files(top):
        inner = path.split("/crates/")[1] if "/crates/" in path else path
        kind = "spec" if "/specs/" in inner else ("function" if inner.endswith("Proof.antt") else "lemma")
        with open(path, encoding="utf-8") as f:
            for line in f:
                if line.lstrip().startswith("--"):
                    continue
                m = RECORD.match(line)
                if m:
                    types.add(m.group(1))
                    found[m.group(1)].add(kind)
                    continue
                m = DECLARED.match(line)
                if not m or m.group(3) in WORDS or not (m.group(2) or not m.group(1) or kind == "spec" or True):
                    continue
                indent, marks, name, type_ = m.groups()
                if indent and not marks and not re.fullmatch(r"[A-Za-z][A-Za-z0-9']*(-[A-Za-z0-9']+)*", name):
                    continue
                if kind == "function" and re.match(r"tie\.", type_):
                    found[name].add("answer")
                    continue
                found[name].add(kind)
                if kind == "spec" and not indent:
                    found[name].add("top")
                if re.search(r"Type [0-9]\s*$", type_) and name[0].isupper():
                    types.add(name)
    return found, types


def code_names(top):
    """every identifier of the sources outside comments: functions, parameters, fields, locals"""
    names = set()
    for path in glob.glob(os.path.join(top, "crates", "*", "src", "**", "*.rt"), recursive=True):
        with open(path, encoding="utf-8") as f:
            text = re.sub(r"//[^\n]*", "", f.read())
        text = re.sub(r"ghost use[^;]*;", "", text)
        names |= set(re.findall(r"\b(?:let|let mut|mut)\s+([a-z_][a-z0-9_]*)", text))
        names |= set(re.findall(r"\b([a-z_][a-z0-9_]*)\s*:", text))
    return names


def bare_words(top):
    """every word of specs/ and proofs/ that stands alone: no part of a path, and outside comments"""
    words = set()
    for path in antt_files(top):
        with open(path, encoding="utf-8") as f:
            text = re.sub(r"(^|\s)--[^\n]*", "", f.read())
        words |= {m.group(0) for m in WORD.finditer(text) if text[: m.start()][-1:] != "." and text[m.end() :][:1] != "."}
    return words


def table(top):
    found, types = declarations(top)
    words = bare_words(top)
    for path in antt_files(top):
        with open(path, encoding="utf-8") as f:
            for alias in re.findall(r"\b\S+ as ([a-z][A-Za-z0-9]*[A-Z][A-Za-z0-9]*)\b", f.read()):
                found[alias].add("lemma")
    source = code_names(top)
    new = dict(LOCALS) if "inMap" in found else {}
    taken = set(words) - set(LOCALS)
    definitions = set()
    # 1. one word in camel case: a definition, field or lemma in snake case
    for name in sorted(found):
        if "answer" in found[name] and len(found[name]) == 1 or MADE.search(name) or not name[0].islower():
            continue
        if "-" not in name and re.search(r"[a-z0-9][A-Z]", name):
            to = snake(name)
            if to in found and "spec" not in found[to]:
                # a lemma that would have its definition's name
                new[to] = to + "_lem"
                assert new[to] not in taken, to
                taken.add(new[to])
            elif to in taken:
                print(f"falls together: {name} -> {to}", file=sys.stderr)
                to += "_of"
                assert to not in taken, to
            new[name] = to
            taken.add(to)
    for name, kinds in found.items():
        if "-" not in name and "top" in kinds and len(name) > 2:
            definitions.add(new.get(name, name))
    # the words of the library that the proofs name
    for path in antt_files(top):
        with open(path, encoding="utf-8") as f:
            for module, items in re.findall(r"^use ([^\s{]+)\.\{([^}]*)\}", f.read(), re.M):
                if not module.startswith("Rattle.") or module.startswith("Rattle.std"):
                    definitions |= {w for w in re.split(r"[,\s]+", items) if re.fullmatch(r"[a-z][a-z_]{2,}", w)}
    # 2. names with a dash
    for name in sorted(found):
        if "-" not in name or MADE.search(name) or "answer" in found[name]:
            continue
        parts = [p if p in types or (p[:1].isupper()) else new.get(p, snake(p)) for p in name.split("-")]
        if any(not p for p in parts):
            continue
        dashed = "-".join(parts)
        heads = [i for i in range(1, len(parts)) if "_".join(parts[:i]) in definitions or i == 1 and parts[0][:1].isupper()]
        tails = [i for i in range(1, len(parts)) if "_" in parts[i]]
        at = heads[-1] if heads else (tails[0] if tails else 0)
        joined = "_".join(parts[:at]) + "-" + "_".join(parts[at:]) if at else "_".join(parts)
        if joined != name and (joined in taken or joined in source):
            joined = dashed
        if joined == name:
            continue
        if joined in taken:
            print(f"falls together: {name} -> {joined}", file=sys.stderr)
            continue
        new[name] = joined
        taken.add(joined)
    return new, source


def turn_antt(text, new):
    out, at = [], 0
    for m in WORD.finditer(text):
        w = m.group(0)
        if w not in new:
            continue
        before = text[: m.start()]
        line = before[before.rfind("\n") + 1 :]
        if re.search(r"(^|\s)--(\s|$)", line) and w in DOCUMENTS:
            continue
        if before.endswith(".") and "-" in w:
            head = re.search(r"([^\s(){}\[\],;:\"|]*)\.$", before)
            first = head.group(1) if head else ""
            if not re.match(r"[A-Z]", first.split(".")[-1] or "-"):
                continue
        if before.endswith('"'):
            continue
        out.append(text[at : m.start()])
        out.append(new[w])
        at = m.end()
    out.append(text[at:])
    return "".join(out)


def turn_rt(text, new):
    camel = {k: v for k, v in new.items() if "-" not in k and k != k.lower()}

    def one(m):
        w = m.group(0)
        if w not in camel:
            return w
        line = text[text.rfind("\n", 0, m.start()) + 1 : m.start()]
        if "//" in line and w in DOCUMENTS:
            return w
        return camel[w]

    parts = re.split(r'("(?:\\.|[^"\\\n])*")', text)
    return "".join(p if i % 2 else re.sub(r"[A-Za-z_][A-Za-z0-9_']*", one, p) for i, p in enumerate(parts))


class Camel(dict):
    """the names in camel case, and those of which only pages and edits still have the old spelling"""

    def __init__(self, new, known):
        super().__init__({k: v for k, v in new.items() if "-" not in k and k != k.lower()})
        self.known = known | set(new.values())
        self.lemmas = {k: v for k, v in new.items() if "-" in k}

    def __contains__(self, word):
        return dict.__contains__(self, word) or (
            re.fullmatch(r"[a-z][a-z0-9]*([A-Z][a-z0-9]*)+", word) is not None and word not in DOCUMENTS and snake(word) in self.known)

    def __missing__(self, word):
        return snake(word) if word in self else word


def turn_edit(text, new):
    return turn_antt(text, new)


def turn_page(text, new):
    def span(m):
        return re.sub(r"[A-Za-z_][A-Za-z0-9_'-]*", lambda w: new[w.group(0)] if w.group(0) in new and w.group(0) not in DOCUMENTS else w.group(0), m.group(0))

    text = re.sub(r"`[^`\n]+`", span, text)
    text = re.sub(r"(?<=[/`])[a-z][A-Za-z0-9]*[A-Z][A-Za-z0-9]*-[a-z-]+", lambda w: new.lemmas.get(w.group(0), w.group(0)), text)
    return re.sub(r"(?<=[^A-Za-z0-9]\.)[a-z][a-z0-9]*([A-Z][a-z0-9]*)+\b", lambda w: new[w.group(0)] if w.group(0) in new else w.group(0), text)


def main():
    args = [a for a in sys.argv[1:] if a != "--list"]
    top = os.path.abspath(args[0] if args else os.path.join(os.path.dirname(__file__), ".."))
    new, source = table(top)
    if "--list" in sys.argv:
        for k in sorted(new):
            print(f"{k}\t{new[k]}" + ("\t(also a name of src/)" if new[k] in source else ""))
        return
    camel = Camel(new, {n for n, kinds in declarations(top)[0].items() if "spec" in kinds or "lemma" in kinds})
    changed = 0
    jobs = [(f, turn_antt) for f in antt_files(top)]
    jobs += [(f, turn_rt) for f in glob.glob(os.path.join(top, "crates", "*", "src", "**", "*.rt"), recursive=True)]
    jobs += [(f, turn_edit) for f in glob.glob(os.path.join(top, "crates", "*", "must-fail", "*.edit"))]
    jobs += [(f, turn_page) for f in glob.glob(os.path.join(top, "*.md")) + glob.glob(os.path.join(top, "docs", "**", "*.md"), recursive=True)
             if os.path.basename(f) not in ("PORT.md", "CHANGELOG.md")]
    for path, turn in jobs:
        with open(path, encoding="utf-8") as f:
            text = f.read()
        after = turn(text, camel if turn in (turn_edit, turn_page) else new)
        if after != text:
            with open(path, "w", encoding="utf-8") as f:
                f.write(after)
            changed += 1
    print(f"{len(new)} names, {changed} files")


if __name__ == "__main__":
    main()
