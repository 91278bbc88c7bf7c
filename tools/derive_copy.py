#!/usr/bin/env python3
"""Gives each struct and enum of src/ whose fields can all be copied the derives Clone and Copy, which the older Rattle gave unasked.

usage: python3 tools/derive_copy.py    at the top of the repository, once
"""
import glob, re
PRIM = set("u8 u16 u32 u64 usize i8 i16 i32 i64 isize f32 f64 bool char".split())
HEAD = re.compile(r"#\[derive\(Drop\)\]\n((?:pub )?(struct|enum) (\w+)(<[^>]*>)? ?(\{.*?\n\}|\([^;]*\);|;))", re.S)
files = sorted(glob.glob("crates/*/src/**/*.rt", recursive=True))
texts = {f: open(f, encoding="utf-8").read() for f in files}
kinds = {}
for f, t in texts.items():
    for m in HEAD.finditer(t):
        body = re.sub(r"//[^\n]*", "", m[5])
        kinds.setdefault(m[3], []).append((f, m[2], body))
def types_of(kind, body):
    body = re.sub(r"ghost [^,]*\{[^}]*\},?", "", body)
    inner = body.strip()
    if kind == "struct" and inner.startswith("{"):
        return re.findall(r"\w+: ([^,\n]+?),?\n", inner + "\n")
    return [x for group in re.findall(r"\(([^)]*)\)", inner) for x in group.split(",")] + re.findall(r"\w+: ([^,}\n]+)", inner)
copy = set(kinds)
def ok(t):
    t = t.strip().removeprefix("pub ").strip().rstrip(",")
    if t in PRIM or t == "": return True
    if t.startswith("&") and "mut " not in t: return True
    m = re.fullmatch(r"\[(.+);[^\]]+\]", t)
    if m: return ok(m[1])
    m = re.fullmatch(r"Option<(.+)>", t)
    if m: return ok(m[1])
    if t.startswith("("): return all(map(ok, t.strip("()").split(",")))
    return re.sub(r"<.*>", "", t).split("::")[-1] in copy
while True:
    gone = {n for n in copy if not all(ok(t) for _, k, b in kinds[n] for t in types_of(k, b))}
    if not gone: break
    copy -= gone
count = 0
for f, t in texts.items():
    def put(m):
        global count
        if m[3] not in copy: return m[0]
        count += 1
        return "#[derive(Clone, Copy)]\n" + m[1]
    new = HEAD.sub(put, t)
    if new != t: open(f, "w", encoding="utf-8").write(new)
left = sorted(n for n in kinds if n not in copy)
print(f"derive_copy: {count} types can be copied; left: {' '.join(left)}")
