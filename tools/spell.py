#!/usr/bin/env python3
"""Brings the repository's own names to one spelling: words in snake case.

usage: python3 tools/spell.py       at the top of the repository; a second run changes nothing

A name is the repository's own if one of its .antt files declares it (a definition, a lemma, a helper, a field, a constructor, a variable).
A name stays if a library or a generated module has it too, or if it is the name of a goal. The map is one for the whole repository: the
same old spelling becomes the same new one in every file. tools/respelled.tsv lists all of them, old and new, with those that changed
before this script; pages and must-fail edits are brought over by that list.
"""

import concurrent.futures
import os
import re
import subprocess
import sys

TABLE = "tools/respelled.tsv"
STOP = r"\s(){}.,;@\"«»\[\]\\"
TOKEN = re.compile(f"[^{STOP}]+")
BOUND = re.compile(f"(?<![^{STOP}])(?<!\\.)[^{STOP}]+")  # not behind a dot
KEYWORDS = set(
    "use pub abbrev unfoldable let in record data elim unfolding mod module as where open ruleset syntax ghost result requires ensures with rw simp omega cc search absurd refl "
    "break const continue crate else enum extern false fn for if impl loop match move mut ref return self static struct super trait true type unsafe while async await dyn box "
    "do final macro override priv try typeof unsized virtual yield union invariant decreases old new now "
    "case by have show from_to then return-type forall exists infix infixl infixr private opaque instance".split()
)
GOALS = ("Proof.antt", "Invariants.antt", "Answers.antt")
# A name whose first spelling would meet another's, and what it becomes instead.
CHOSEN = {}
MODS = r"(?:(?:pub|abbrev|unfoldable|private|opaque|instance)\s+)*"
HEAD = re.compile(rf"^(\s*)(?:\|\s*)?{MODS}((?:[^{STOP}:=]+\s+)+):\s(.*)$")
CLAUSE = re.compile(rf"^\s*([^{STOP}]+)\s+(.*?)\s(?:=|with)(?:\s|$)")


def read(path):
    with open(path, encoding="utf-8") as f:
        return f.read()


def write(path, text):
    with open(path, "w", encoding="utf-8") as f:
        f.write(text)


def below(top, ends):
    found = []
    for folder, dirs, files in os.walk(top):
        dirs[:] = sorted(d for d in dirs if d not in ("out", ".git", "target"))
        found += [os.path.join(folder, f) for f in sorted(files) if f.endswith(ends)]
    return found


def pieces(text, rt):
    """The text in pieces: (kind, piece) of kind code, comment or string."""
    if rt:
        cut = re.compile(r'//[^\n]*|/\*.*?\*/|b?"(?:\\.|[^"\\])*"|b?\'(?:\\.[^\']*|[^\\\'\n])\'', re.S)
    else:
        cut = re.compile(r'(?<![^\s(){}.,;@"«»\[\]\\])--[^\n]*|\{-.*?-\}|"(?:\\.|[^"\\\n])*"', re.S)
    at = 0
    for m in cut.finditer(text):
        if m.start() > at:
            yield "code", text[at : m.start()]
        yield ("comment" if m.group().startswith(("//", "/*", "--", "{-")) else "string"), m.group()
        at = m.end()
    if at < len(text):
        yield "code", text[at:]


def code_of(text, rt):
    return "".join(p if k == "code" else (" " if k == "comment" else '""') for k, p in pieces(text, rt))


def snake(name):
    s = name.replace("-", "_")
    s = re.sub(r"(?<=[a-z0-9₀-₉'])(?=[A-Z])", "_", s)
    s = re.sub(r"(?<=[A-Z])(?=[A-Z][a-z])", "_", s)
    return re.sub("_+", "_", s).lower()


def camel(name):
    s = re.sub(r"[-_]+(.)", lambda m: m.group(1).upper(), name)
    return s[:1].upper() + s[1:]


def odd(name):
    """A name that is in the old spelling."""
    if not re.match(r"[^\W\d_A-Z]", name) or "◌" in name or "--" in name or name.endswith("-"):
        return False
    return "-" in name or bool(re.search(r"[A-Z]", name))


USE = re.compile(r"(?:^|\n)[ \t]*(?:pub )?(?:ghost )?(?:pub )?use\s+([\w.'-]+?)(?:\.\{([^}]*)\}|\s+as\s+(\S+))?\s*;?(?=\s)", re.S)


def uses(code):
    for m in USE.finditer(code + "\n"):
        path, names, alias = m.groups()
        yield path, [n.strip() for n in re.split(r"[,\n]", names)] if names else [], alias


class Names:
    def __init__(self):
        self.antt = below("crates", ".antt")
        self.rt = below("crates", ".rt")
        self.own = {}
        self.heads = {}
        self.fields = set()
        self.facts = set()
        self.foreign = set()
        self.goals = set()
        self.generated = set()
        self.tokens = {}
        modules = {"Rattle." + p[len("crates/") : -len(".antt")].replace("/", "."): p for p in self.antt}
        codes = {}
        for p in self.antt + self.rt:
            codes[p] = code_of(read(p), p.endswith(".rt"))
            self.tokens[p] = set(TOKEN.findall(codes[p]))
            away = set()
            for path, names, alias in uses(codes[p]):
                if path in modules:
                    for n in names:
                        if " as " in n:
                            self.add(n.split(" as ")[1].strip(), p)
                    continue
                for n in names:
                    self.foreign.update(w for w in TOKEN.findall(n) if w != "as")
                if alias:
                    away.add(alias.rstrip(";"))
            for a in away:
                self.generated.update(re.findall(rf"(?<![^{STOP}]){re.escape(a)}((?:\.[^{STOP}]+)+)", codes[p]))
        self.generated = {w for g in self.generated for w in g.split(".")}
        for p in self.antt:
            self.declared(p, codes[p])
        for p in self.antt:
            self.goals |= {t[len("Need-") :] for t in self.tokens[p] if t.startswith("Need-")}

    def add(self, name, path):
        if odd(name):
            self.own.setdefault(name, path)

    def declared(self, path, code):
        goals = os.path.basename(path) in GOALS
        away = set()
        if goals:
            away = {alias for _, _, alias in uses(code) if alias} | {"statement"}
        lines = code.split("\n")
        heads = set()
        for i, line in enumerate(lines):
            m = HEAD.match(line)
            if m:
                names = m.group(2).split()
                self.heads.setdefault(path, set()).update(names)
                if m.group(1):
                    self.fields.update(names)
                kind = m.group(3)
                depth = len(m.group(1))
                j = i + 1
                while j < len(lines) and lines[j].strip() and len(lines[j]) - len(lines[j].lstrip()) > depth and not HEAD.match(lines[j]):
                    kind += " " + lines[j].strip()
                    j += 1
                bare = re.sub(r"^(?:\{[^}]*\}\s*|\([^)]*:[^)]*\)\s*|→\s*)+", "", kind)
                first = re.split(r"[\s.]", bare.strip(), maxsplit=1)[0] if bare.strip() else ""
                if goals and (first in away or re.match(r"^\s*(\S+)\.", kind) and kind.strip().split(".")[0] in away or "-spec" in line.split(":")[0] or "_spec" in line.split(":")[0]):
                    self.goals.update(names)
                else:
                    for n in names:
                        self.add(n, path)
                        if re.search(r"(?:^|→\s*)Type(?: \d+)?\s*$", kind.split(" = ")[0].strip()) and depth == 0:
                            self.facts.add(n)
                heads.update(names)
            c = CLAUSE.match(line)
            if c and c.group(1) in heads:
                for n in BOUND.findall(c.group(2)):
                    self.add(n, path)
        for m in re.finditer(rf"[({{]\s*((?:[^{STOP}:=]+\s+)+):\s", code):
            for n in m.group(1).split():
                self.add(n, path)
        for m in re.finditer(r"λ\s+([^.]*?)\.(?=\s)", code):
            for n in BOUND.findall(re.sub(r":[^)}]*", "", m.group(1))):
                self.add(n, path)
        for m in re.finditer(rf"(?<![^{STOP}])let\s+([^:=]*)[:=]", code):
            for n in BOUND.findall(m.group(1)):
                self.add(n, path)

    def stays(self, n):
        return n in self.foreign or n in self.goals or n in self.generated

    def seen(self):
        """For each file, the tokens that a new name there would meet: not what stands behind a dot, nor a Rust function's own name."""
        found = {}
        for p in self.antt + self.rt:
            rt = p.endswith(".rt")
            code = code_of(read(p), rt)
            if rt:
                code = re.sub(r"\bfn\s+\w+|\b\w+(?=\()|\b\w+\s*::|::\s*\w+", " ", re.sub(r"(?m)^\s*(?:pub )?use [^;]*;", " ", code))
            found[p] = set(re.findall(rf"(?<![^{STOP}])(?<!\.)[^{STOP}]+", code))
        return found

    def plan(self):
        """The map from old to new, and what met what."""
        own = sorted((n for n in self.own if not self.stays(n)), key=lambda n: ("-" in n, n))  # what specifications say has its plain name first
        seen = self.seen()
        inside = {n: [p for p, t in self.tokens.items() if n in t] for n in own}
        base = library_names()
        new, said, taken = {}, [], {}
        for n in own:
            first = camel(n) if n in self.facts else snake(n)
            tries = [CHOSEN[n]] if n in CHOSEN else [first] + [first + end for end in ("_lem", "_word", "_too", "_also", "_again") if end != ("_word" if "-" in n else "_lem")]
            why = None
            for c in tries:
                bad = None
                if c in KEYWORDS:
                    bad = "a keyword"
                elif c in self.foreign or c in base:
                    bad = "a library's name"
                elif c in self.goals:
                    bad = "a goal's name"
                else:
                    for p in inside[n]:
                        if c in seen[p]:
                            bad = "a name in " + p
                            break
                    if not bad:
                        for other in taken.get(c, []):
                            both = set(inside[n]) & set(inside[other])
                            if both:
                                bad = f"{other} in {min(both)}"
                                break
                if not bad:
                    new[n] = c
                    taken.setdefault(c, []).append(n)
                    break
                why = why or f"{c} is {bad}"
            if n not in new:
                said.append(f"{n} stays: {why}")
            elif why:
                said.append(f"{n} is {new[n]}: {why}")
        return new, said


def library_names():
    """What the two modules that every file may import say, if the library is here."""
    found = set()
    # the toolchain's own library, beside its first page
    page = subprocess.run(["rt", "doc"], capture_output=True, text=True).stdout.strip()
    for top in (os.path.join(os.path.dirname(page), "rattle"),):
        for m in ("std/specs/Prelude.antt", "std/proofs/Common.antt"):
            p = os.path.join(top, m)
            if os.path.exists(p):
                found.update(TOKEN.findall(code_of(read(p), False)))
    return found


# ---- turning the texts

MADE_AFTER = re.compile(r"\.(?:result|ensures|requires|returns|now|new|old|entry|exit|before|given|args|loop)(?![\w-])")


def turn_code(code, new, fields):
    def one(m):
        n = m.group()
        if n not in new:
            return n
        if m.start() and code[m.start() - 1] == ".":
            before = re.search(rf"([^{STOP}]*)\.$", code[: m.start()][-200:]).group(1)
            if before[:1].isupper():
                return new[n]
            if n not in fields or before in ("before", "args") or before.endswith("-args") or MADE_AFTER.match(code, m.end()):
                return n
        return new[n]

    return TOKEN.sub(one, code)


def turn_comment(text, new, near):
    """Names in backticks, names that have a capital inside, and dashed names that the file itself declares or imports."""

    def ticked(m):
        return TOKEN.sub(lambda t: new.get(t.group(), t.group()), m.group())

    def plain(m):
        n = m.group()
        return new[n] if n in new and ("-" not in n or n in near) else n

    out = []
    for i, part in enumerate(re.split(r"(`[^`\n]*`)", text)):
        word = re.compile(f"[^{STOP}:'`?!]+(?:'+(?![a-z]))?")
        out.append(word.sub(lambda t: new.get(t.group(), t.group()), part) if i % 2 else word.sub(plain, part))
    return "".join(out)


def turn_file(path, new, names):
    text = read(path)
    rt = path.endswith(".rt")
    near = set(names.heads.get(path, ()))
    for _, imported, _ in uses(code_of(text, rt)):
        near.update(imported)
    if rt:
        near = set()
    out = []
    for kind, piece in pieces(text, rt):
        out.append(piece if kind == "string" else turn_comment(piece, new, near) if kind == "comment" else turn_code(piece, new, names.fields))
    turned = "".join(out)
    if turned != text:
        write(path, turned)
    return turned != text


# ---- must-fail edits

# What no rule turns: a line's old text in the edit, and what stands there now. The wrong meaning stays.
EDITS = {
    "acts/must-fail/rows_one_short": [
        ("(r .high - r .low) (r .low)", "(r.high - r.low) r.low"),
        ("(r .high - (r .low + 1)) (r .low)", "(r.high - (r.low + 1)) r.low"),
    ],
    "commands/must-fail/area_not_carried": [("(p .area)", "p.area")],
    "exact/must-fail/first_column_too_small": [("natAbs", "nat_abs")],
    "meeting/must-fail/equal_neighbours_only": [
        ("old: use mathlib.Core.Bool.{Bool}", "old: use Rattle.std.specs.Prelude.{Bool,"),
        ("new: use mathlib.Core.Bool.{Bool, _&&_}", "new: use Rattle.std.specs.Prelude.{Bool, ◌&&◌,"),
    ],
}


PROJECTED = re.compile(r"\(([^()]+) \.([\w-]+)\)")  # (x .f) is x.f


def turn_edits(table):
    for path in below("crates", ".edit"):
        if os.sep + "must-fail" + os.sep not in path:
            continue
        text = read(path)
        lines = text
        for a, b in EDITS.get(path[len("crates/") : -len(".edit")].replace(os.sep, "/"), []):
            lines = lines.replace(a, b)
        out = []
        for line in lines.split("\n"):
            if line.startswith(("old: ", "new: ")):
                line = line[:5] + PROJECTED.sub(lambda m: f"({m.group(1)}).{m.group(2)}" if " " in m.group(1) else f"{m.group(1)}.{m.group(2)}", line[5:])
                line = line[:5] + "".join(p if k == "string" else turn_code(p, table, set(table)) for k, p in pieces(line[5:], True))
            out.append(line)
        if "\n".join(out) != text:
            write(path, "\n".join(out))


def check_edits():
    bad = 0
    for path in below("crates", ".edit"):
        crate = os.path.dirname(os.path.dirname(path))
        texts, file, old = {}, None, None
        for line in read(path).split("\n"):
            if line.startswith("file: "):
                file = os.path.join(crate, line[6:].strip())
            elif line.startswith("old: "):
                old = line[5:]
            elif line.startswith("new: "):
                if file not in texts:
                    texts[file] = read(file) if os.path.exists(file) else ""
                if texts[file].count(old) != 1:
                    bad += 1
                    print(f"spell: {path}: {texts[file].count(old)} times: {old[:100]}")
                texts[file] = texts[file].replace(old, line[5:])
    return bad


# ---- pages


def turn_page(path, table):
    text = read(path)
    word = re.compile(f"[^{STOP}:'`?!/]+(?:'+(?![a-z]))?")
    out = []
    for i, part in enumerate(re.split(r"(?ms)(^```.*?^```)", text)):
        if i % 2:
            if re.match(r"```(?:antt|rattle|rt)\b", part):
                part = word.sub(lambda t: table.get(t.group(), t.group()), part)
        else:
            part = re.sub(r"`[^`\n]+`", lambda m: word.sub(lambda t: table.get(t.group(), t.group()), m.group()), part)
        out.append(part)
    if "".join(out) != text:
        write(path, "".join(out))


def pages():
    found = [f for f in ("README.md", "CONTRIBUTING.md") if os.path.exists(f)]
    for top in ("docs", "rust", "examples", "tests"):
        found += [p for p in below(top, ".md") if not p.startswith(os.path.join("docs", "src") + os.sep)]
    return found


def fmt(crate):
    r = subprocess.run(["rt", "fmt"], cwd=os.path.join("crates", crate), capture_output=True, text=True, errors="replace")
    return "" if r.returncode == 0 else f"spell: rt fmt {crate}: {(r.stdout + r.stderr).strip()[-300:]}"


def main():
    if not os.path.isdir("crates"):
        print("spell: run it at the top of the repository", file=sys.stderr)
        return 2
    names = Names()
    new, said = names.plan()
    table = {}
    if os.path.exists(TABLE):
        table = dict(line.split("\t") for line in read(TABLE).splitlines() if line)
    for n, to in new.items():
        if table.get(n, to) != to:
            said.append(f"{n} was {table[n]} in {TABLE} and is {to} now")
    table.update(new)
    changed = sum(turn_file(p, new, names) for p in names.antt + names.rt) if new else 0
    write(TABLE, "".join(f"{a}\t{b}\n" for a, b in sorted(table.items())))
    turn_edits(table)
    for p in pages():
        turn_page(p, table)
    crates = sorted(c for c in os.listdir("crates") if os.path.isdir(os.path.join("crates", c, "src")))
    if changed:
        with concurrent.futures.ThreadPoolExecutor(4) as pool:
            for line in pool.map(fmt, crates):
                if line:
                    print(line)
    print("\n".join(said))
    bad = check_edits()
    print(f"spell: {len(new)} names, {changed} files; {bad} edits do not apply")
    return 1 if bad else 0


if __name__ == "__main__":
    raise SystemExit(main())
