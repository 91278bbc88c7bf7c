#!/usr/bin/env python3
"""Turns the hand-made Proof.antt files of one crate into Invariants.antt and Answers.antt.

usage: port_proofs.py CRATE_FOLDER NAMES_JSON [FUNCTION_PATH ..]

NAMES_JSON is what 'rt names DIR' (rt check --generated DIR --old-names) writes for the crate. A Proof.antt whose proof does not end in
tie.close is left. What could not be turned is printed, as 'todo: FILE: ..', and stands in the file as it was.
"""
import glob, json, os, re, sys

W = r"[^\s(){}.;,@\"«»\[\]\\]+"
PATH = re.compile(rf"--[^\n]*|\"(?:[^\"\\]|\\.)*\"|(?<![\w)\]'])(?:{W})(?:\.{W})*")
norm = lambda s: s.replace("_", "-")
PLAIN = [("overflow-",), ("nonzero-",), ("bounds-",), ("slice-bounds-",), ("offset-bounds-",)]


class Fn:
    def __init__(self, data):
        self.d = data
        self.parent, self.label, self.new, self.arms = {}, {}, {}, {}
        for (name, par, lab, *_), new, arm in zip(data["places"], data["places_by_name"], data["arms"]):
            self.parent[name] = par
            self.label[name] = lab
            self.new[name] = new
            self.arms[name] = arm
        self.callee = {row[0]: row[3] for row in data["places"]}
        self.by_norm = {norm(n): n for n in self.parent}
        self.needs, self.at = {}, {}
        for (old, new), (place, _) in zip(data["needs"], data["asked_at"]):
            self.needs[norm(old)] = new
            self.at[new] = place
        self.loops = {}
        for (lab, vars_), changed in zip(data["loops"], data["changed"]):
            self.loops[lab[0]] = (lab[1], vars_, changed)
        self.settled = {norm(x) for x in data.get("settled", [])}

    def need(self, n):
        n = norm(n)
        for m in re.finditer(r"^(loop\d*)-holds$", n):
            n = m[1] + "-init"
        if n in self.needs:
            return self.needs[n]
        for pre in ("overflow-", "nonzero-", "offset-", "bounds-", "slice-"):
            if n.startswith(pre) and n[len(pre):] in self.needs:
                return self.needs[n[len(pre):]]
        return None


def head_of(par):
    """The first line of code of a paragraph, past its comments."""
    lines = par.split("\n")
    k = 0
    while k < len(lines) and (lines[k].startswith("--") or not lines[k].strip()):
        k += 1
    return lines[:k], lines[k:]


def paragraphs(text):
    out, cur = [], []
    lines = text.split("\n")
    for i, line in enumerate(lines):
        if line.strip() == "" and cur:
            nxt = next((l for l in lines[i + 1:] if l.strip()), "")
            if nxt and not nxt[0].isspace():
                out.append("\n".join(cur))
                cur = []
                continue
        if line.strip() or cur:
            cur.append(line)
    if cur:
        out.append("\n".join(cur).rstrip())
    res = []
    for p in out:
        # a signature at column 0 after another declaration begins one of its own
        ls = p.split("\n")
        part = []
        for l in ls:
            if part and re.match(rf"(abbrev |unfoldable )?(pub )?{W} : ", l) and not all(x.startswith("--") for x in part):
                res.append("\n".join(part))
                part = []
            part.append(l)
        res.append("\n".join(part))
    return res


class Turn:
    def __init__(self, fn, file, todo):
        self.fn, self.file, self.todo, self.places = fn, file, todo, set()

    def body(self, text, ctx, goal, renames):
        """The text with the paths from the aliases in ctx turned."""
        fn = self.fn
        ctx, steps = {k: (v, k) for k, v in ctx.items()}, {}
        out, last = [], 0
        pos = 0
        while True:
            m = PATH.search(text, pos)
            if not m:
                break
            pos = m.end()
            tok = m[0]
            if tok.startswith(("--", '"')):
                continue
            segs = tok.split(".")
            base = segs[0]
            if base in steps and base not in ctx:
                if len(segs) > 1:
                    new = ".".join([base, *self.fields(steps[base], segs[1:])])
                    out.append(text[last:m.start()] + new)
                    last = m.end()
                continue
            if base not in ctx:
                if base in renames and len(segs) == 1:
                    out.append(text[last:m.start()] + renames[base])
                    last = m.end()
                elif base == "tie" and len(segs) > 1:
                    out.append(text[last:m.start()] + self.tie(segs))
                    last = m.end()
                continue
            place, root = ctx[base]
            if len(segs) == 1:
                before = text[:m.start()]
                lam = re.search(r"(λ|let)\s*$", before)
                bound = re.search(r"λ[^.]*$", before[-60:])
                if lam or (bound and text[m.end():m.end() + 1] in (".", ")", " ") and re.match(r"[\s:ℕ\w()]*\.", text[m.end():m.end() + 40]) and bound):
                    continue
                let = re.search(rf"let ({W})(?: : [^=]*)? =\s*$", before)
                gone = re.match(r"\s+in\b\s*", text[m.end():])
                if let and gone and let.start() >= last:
                    ctx[let[1]] = (place, root)
                    out.append(text[last:let.start()])
                    last = pos = m.end() + gone.end()
                    continue
                if root != base:
                    if goal:
                        self.places.add(self.fn.new[place])
                        out.append(text[last:m.start()] + f"(goal.at.{goal} {root}).{self.fn.new[place]}")
                    else:
                        self.todo(f"a whole context is passed: {tok}")
                        out.append(text[last:m.start()] + root)
                    last = m.end()
                continue
            self.whole_step = None
            new, where = self.path(root, place, segs[1:])
            if self.whole_step:
                let = re.search(rf"let ({W})(?: : [^=]*)? =\s*$", text[:m.start()])
                if let and re.match(r"\s+in\b", text[m.end():]):
                    steps[let[1]] = self.whole_step
            if where is not None:
                before = text[:m.start()]
                let = re.search(rf"let ({W})(?: : [^=]*)? =\s*$", before)
                gone = re.match(r"\s+in\b\s*", text[m.end():])
                if let and gone and let.start() >= last:
                    ctx[let[1]] = (where, root)
                    out.append(text[last:let.start()])
                    last = pos = m.end() + gone.end()
                    continue
                elif goal:
                    self.places.add(self.fn.new[where])
                    new = f"(goal.at.{goal} {root}).{self.fn.new[where]}"
                else:
                    self.todo(f"a whole context is passed: {tok}")
                    new = base
            out.append(text[last:m.start()] + new)
            last = m.end()
        return "".join(out) + text[last:]

    def is_arg_end(self, *_):
        return True

    def tie(self, segs):
        fn = self.fn
        name = segs[1]
        m = re.fullmatch(r"(?:the-)?(invariant|decreases)-(loop\d*)", name)
        if m and m[2] in fn.loops:
            return f"goal.{m[1]}-{fn.loops[m[2]][0]}"
        if name.startswith("Need-"):
            g = fn.need(name[5:])
            if g:
                return "goal." + g
        if norm(name) in fn.by_norm:
            place = fn.new[fn.by_norm[norm(name)]]
            self.places.add(place)
            return place
        self.todo(f"no name for tie.{name}")
        return ".".join(segs)

    def path(self, base, place, segs):
        """The new path, or None and the place that it leads to."""
        fn, cur, i = self.fn, place, 0
        while i < len(segs) and segs[i] == "before":
            cur = fn.parent.get(cur) or cur
            i += 1
        if i == len(segs):
            return None, cur
        first = segs[i]
        if first == "type_size":
            first = "size-of"
        at = self.found(cur, first) or self.found(place, first)
        if not at:
            # a name that a respelling took for another's
            plain = re.sub("[_-]lem$", "", first).lower()
            short = re.sub(r"\d$", "", plain)
            at = self.found(cur, plain) or self.found(place, plain) or self.found(cur, short) or self.found(place, short)
        if not at and first == "pre":
            return ".".join([base, "requires", *segs[i + 1:]]), None
        if at:
            return self.step(base, at, fn.label[at], segs[i + 1:]), None
        if norm(first) == "well-formed":
            return ".".join([base, "well_formed", *segs[i + 1:]]), None
        if first not in ("args", "requires", "ranges", "type_inv"):
            self.todo(f"no step {first} at {cur}: {base}.{'.'.join(segs)}")
        return base + "." + ".".join(segs[i:]), None

    def found(self, at, first):
        fn = self.fn
        while at is not None:
            lab = fn.label[at]
            if lab[0] and norm(lab[0]).lower() == norm(first).lower():
                return at
            if at == "Start":
                return None
            at = fn.parent[at]

    def fields(self, at, rest):
        """The fields below a step's name: what a &mut argument holds afterwards goes by the parameter's name."""
        fn = self.fn
        lab, callee = fn.label[at], fn.callee[at]
        if lab[0].startswith(("if", "loop")) and rest and rest[0] in ("left", "taken"):
            rest = [{"left": "false", "taken": "true"}[rest[0]], *rest[1:]]
        if re.match(r"if\d", lab[0]) and rest == ["auto"]:
            return ["kept"]
        if rest and rest[0] in ("last", "new", "kept", "auto") and callee in fn.d["params"]:
            params, k = fn.d["params"][callee], 1
            while k < len(rest) and rest[k] == "1":
                k += 1
            if k < len(rest) and rest[k] == "0" and k - 1 < len(params):
                return [{"last": "new", "kept": "auto"}.get(rest[0], rest[0]), params[k - 1], *rest[k + 1:]]
            self.todo(f"{callee} {params}: .{'.'.join(rest)}")
        return rest

    def step(self, base, at, lab, rest):
        arm = self.fn.arms[at]
        if arm:
            name, _, entries = arm
            best = None
            for field, old, path in entries:
                if norm(old) == norm(lab[0]) and rest[:len(path)] == path and (path or not rest):
                    if best is None or len(path) > len(best[1]):
                        best = (field, path)
            if best:
                return ".".join([base, name, best[0], *rest[len(best[1]):]])
            self.todo(f"arm {name}: {lab[0]}.{'.'.join(rest)}")
        if not rest:
            self.whole_step = at
        return ".".join([base, lab[1], *self.fields(at, rest)])


def convert(crate, path, fn, text, file, said):
    todo = lambda what: said.append(f"todo: {file}: {what}")
    turn = Turn(fn, file, todo)
    pars = paragraphs(text)
    uses, items, comments = [], [], []
    for p in pars:
        com, code = head_of(p)
        if code and all(l.startswith(("use ", "pub use ")) or l.startswith("  ") or l.startswith("}") for l in code):
            uses += code
            comments += com
        else:
            # use lines may share a paragraph with a declaration
            k = 0
            while k < len(code) and code[k].startswith(("use ", "pub use ")):
                uses.append(code[k]); k += 1
            if code[k:]:
                items.append((com, code[k:]))
            else:
                comments += com
    uses = [u for u in uses if not re.search(rf"\.(Statement|Tie|Lts)\b", u) or not re.search(r"proofs\." + re.escape(path) + r"\.(Statement|Tie|Lts)\b", u)]
    goals, renames, invs, helpers, goal_names = {}, {}, [], [], {}
    parsed = []
    for com, code in items:
        whole = "\n".join(code)
        m = re.match(rf"(abbrev |unfoldable )?(pub )?({W}) :\s", code[0])
        if not m:
            parsed.append(("other", com, code, None, None))
            continue
        name = m[3]
        # type: up to the first line at column 0 that begins an equation or 'unfolding'
        k = 1
        while k < len(code) and (code[k].startswith((" ", "\t"))):
            k += 1
        ty = "\n".join(code[:k])[m.end():]
        n = re.match(r"tie\.Need-(\S+)", ty.strip())
        v = re.match(r"(?:tie|lts)\.(?:the-)?(invariant|decreases)-(loop\d*)\b", ty.strip())
        if n:
            g = fn.need(n[1])
            parsed.append(("goal", com, code, (name, k, n[1], g), None))
            if g:
                renames[name] = g
        elif v and v[2] in fn.loops:
            parsed.append(("inv", com, code, (name, k, v[1], v[2]), None))
            renames[name] = f"{v[1]}-{fn.loops[v[2]][0]}"
        elif re.match(r"(\{M : Type 1\} → )?statement M", ty.strip()) or "tie.close" in whole:
            parsed.append(("spec", com, code, name, None))
        else:
            parsed.append(("help", com, code, (name, k), None))
    inv_out, ans_out = [], []
    used_by_inv = set()
    for kind, com, code, info, _ in parsed:
        if kind == "inv":
            name, k, what, loop = info
            new, vars_, changed = fn.loops[loop]
            eq = "\n".join(code[k:])
            unf = ""
            while eq.startswith("unfolding"):
                line, _, eq = eq.partition("\n")
                unf += line + "\n"
            head, _, rest = eq.partition(" =")
            params = head.split()[1:]
            subst = {}
            firsts = params[:len(vars_)]
            for p, v, ch in zip(firsts, vars_, changed):
                subst[p] = f"l.initial.{v}" if ch else f"l.{v}"
            later = [v for v, ch in zip(vars_, changed) if ch]
            if len(params) != len(vars_) + len(later):
                todo(f"invariant of {loop}: {len(params)} parameters {params}, and variables {vars_} {changed}")
                # by name
                for p in params:
                    q = p.rstrip("₀")
                    subst[p] = f"l.initial.{q}" if p.endswith("₀") else f"l.{q}"
            else:
                for p, v in zip(params[len(vars_):], later):
                    subst[p] = f"l.{v}"
            subst.pop("_", None)

            def put(mm):
                t = mm[0]
                if t.startswith(("--", '"')):
                    return t
                segs = t.split(".")
                if segs[0] in subst:
                    return ".".join([subst[segs[0]], *segs[1:]])
                return t
            body = PATH.sub(put, rest)
            used_by_inv |= set(PATH.findall(body))
            inv_out.append("\n".join(com + [f"abbrev pub {what}-{new} : goal.{what}-{new}", unf + f"{what}-{new} l ={body}"]))
    # helpers that invariants use go with them
    helper_texts = {info[0]: (com, code, info[1]) for kind, com, code, info, _ in parsed if kind == "help"}
    moved, todo_names = [], [n for n in helper_texts if n in used_by_inv]
    while todo_names:
        n = todo_names.pop()
        if n in moved:
            continue
        moved.append(n)
        todo_names += [x for x in helper_texts if x not in moved and x in set(PATH.findall("\n".join(helper_texts[n][1])))]
    for kind, com, code, info, _ in parsed:
        text_ = "\n".join(code)
        if kind in ("inv", "spec"):
            continue
        if kind == "other":
            ans_out.append("\n".join(com + code))
            if "tie." in text_ or re.search(r"\bc\.before\b", text_):
                todo("a block that is no declaration cites tie or a context: " + code[0][:80])
            continue
        if kind == "help":
            name, k = info
            if name in moved:
                continue
            ty = "\n".join(code[:k])
            if "tie." in text_ or "lts." in text_:
                binders = re.findall(rf"\(({W}) : tie\.({W})[^)]*\)", ty)
                ctx = {}
                for b, pl in binders:
                    if norm(pl) in fn.by_norm:
                        ctx[b] = fn.by_norm[norm(pl)]
                eq = "\n".join(code[k:])
                # the equation's own names for the binders, in order
                mm = re.search(rf"(?m)^{re.escape(name)} ([^=\n]*?) =", eq)
                if mm and binders:
                    args = mm[1].split()
                    sig_b = re.findall(rf"[({{]([^():{{}}]+) : ([^()]*)[)}}]", ty)
                    flat = [(x, t) for xs, t in sig_b for x in xs.split()]
                    for a, (x, t) in zip(args, flat):
                        pm = re.match(rf"tie\.({W})", t.strip())
                        if pm and norm(pm[1]) in fn.by_norm:
                            ctx[a] = fn.by_norm[norm(pm[1])]
                new = turn.body(ty, ctx, None, {}) + "\n" + turn.body(eq, ctx, None, {k_: v_ for k_, v_ in renames.items() if k_ != name})
                new = re.sub(r"(goal\.\S+) (?:invariant-\S+ decreases-\S+)+", r"\1", new)
                ans_out.append("\n".join(com) + ("\n" if com else "") + new)
            else:
                ans_out.append("\n".join(com + code))
            continue
        name, k, need, g = info
        if g is None:
            if need.startswith(("same-length", "same_length")) or norm(need) in fn.settled:
                said.append(f"settled: {file}: {need}")
            else:
                body = "\n".join(code[k:])
                if re.search(r"= search rules\s*$", body):
                    said.append(f"gone: {file}: {need} (search rules)")
                else:
                    todo(f"no goal for {need}: {body[:300]!r}")
            continue
        eqs = "\n".join(code[k:])
        if re.fullmatch(rf"{re.escape(name)} \S+( \S+)? = search rules\s*", eqs):
            continue
        unf, rest = [], []
        for l in code[k:]:
            (unf if l.startswith("unfolding") and not rest else rest).append(l)
        eq = "\n".join(rest)
        mm = re.match(rf"{re.escape(name)}((?: (?!=[ \n]){W})*) =(?=[\s])", eq)
        if not mm:
            todo(f"the equation of {name} has another form")
            ans_out.append("\n".join(com + [f"pub {g} : goal.{g}"] + unf + [eq.replace(name, g)]))
            continue
        args = mm[1].split()
        ctxname = args[0] if args else "c"
        keep = args[:1]
        if len(args) > 1 and args[1:] != ["κs"]:
            if any(re.search(rf"(?<![\w.]){re.escape(a)}(?![\w])", eq[mm.end():]) for a in args[1:] if a != "κs"):
                todo(f"{name} has the arguments {args}")
                keep = args
        ctx = {ctxname: fn.at[g]}
        body = turn.body(eq[mm.end():], ctx, g, {k_: v_ for k_, v_ in renames.items() if k_ != name})
        ans_out.append("\n".join(com + [f"pub {g} : goal.{g}"] + unf + [f"{g} {' '.join(keep)} ={body}"]))
    here = f"Rattle.{crate}.proofs.{path}"
    files = {}
    com_top = comments
    if inv_out:
        body = "\n\n".join(["\n".join(helper_texts[n][0] + [re.sub(r"^(abbrev |unfoldable )?(pub )?", lambda x: (x[1] or "") + "pub ", helper_texts[n][1][0], count=1)] + helper_texts[n][1][1:]) for n in helper_texts if n in moved] + inv_out)
        files["Invariants.antt"] = prune(uses, body) + f"use {here}.Given as goal\n\n" + body + "\n"
    if ans_out:
        body = "\n\n".join(ans_out)
        inv_names = [renames[i[3][0]] for i in parsed if i[0] == "inv"]
        cited = [n for n in inv_names + moved if re.search(rf"(?<![\w.-]){re.escape(n)}(?![\w-])", body)]
        more = f"use {here}.Invariants.{{{', '.join(cited)}}}\n" if cited else ""
        files["Answers.antt"] = ("\n".join(com_top) + "\n" if com_top else "") + prune(uses, body) + more + (f"use {here}.Goals as goal\n" if "goal." in body else "") + (f"use {here}.Goals.{{{', '.join(sorted(turn.places))}}}\n" if turn.places else "") + "\n" + body + "\n"
    return files


def prune(uses, body):
    """The use lines that the body needs, with the words that it cites."""
    words = set()
    for t in PATH.findall(body):
        words.add(t)
        for s in t.split("."):
            words.add(s)
    text = "\n".join(uses)
    out = []
    for m in re.finditer(r"(?ms)^(?:pub )?use (\S+?)(?:\.\{(.*?)\}| as (\S+)|)\s*$", text):
        mod, names, alias = m[1], m[2], m[3]
        if names is not None:
            keep = []
            for n in re.split(r",\s*", re.sub(r"\s+", " ", names).strip().strip(",")):
                n = n.strip()
                if not n:
                    continue
                w = n.split(" as ")[-1]
                parts = [p for p in w.split("◌") if p]
                if ("◌" in w and all(any(p == x or p in x for x in words) or p in body for p in parts)) or w in words or w == "*":
                    keep.append(n)
            if keep:
                out.append(f"use {mod}.{{{', '.join(keep)}}}")
        elif alias:
            if alias in words:
                out.append(f"use {mod} as {alias}")
        else:
            last = mod.split(".")[-1]
            if last in words:
                out.append(m[0].strip())
    return "\n".join(out) + ("\n" if out else "")


def main():
    folder, names, only = sys.argv[1].rstrip("/"), sys.argv[2], set(sys.argv[3:])
    crate = os.path.basename(folder)
    data = json.load(open(names, encoding="utf-8"))
    said = []
    for f in sorted(glob.glob(f"{folder}/proofs/**/Proof.antt", recursive=True)):
        rel = os.path.relpath(os.path.dirname(f), f"{folder}/proofs").replace("/", ".")
        if only and rel not in only:
            continue
        text = open(f, encoding="utf-8").read()
        key = f"Rattle-{crate}-proofs.{rel}.Lts"
        if "tie.close" not in text or " as tie" not in text:
            said.append(f"left: {f}: no tie.close")
            continue
        if key not in data:
            said.append(f"left: {f}: no names")
            continue
        d = data[key]
        if "needs" not in d:
            said.append(f"left: {f}: names.json has {list(d)}")
            continue
        files = convert(crate, rel, Fn(d), text, f, said)
        os.remove(f)
        for name, t in files.items():
            open(os.path.join(os.path.dirname(f), name), "w", encoding="utf-8").write(t)
        d_ = os.path.dirname(f)
        if not os.listdir(d_):
            os.rmdir(d_)
    print("\n".join(said))


if __name__ == "__main__":
    main()
