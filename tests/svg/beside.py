"""Our reader of path data beside two that nobody here wrote, from Debian: librsvg (by rsvg-convert) and svgelements.

    beside.py OURS N SEED       OURS is outlines.c, linked with the archive; N texts of each kind

1. The language, by librsvg: its parser says for each text whether it is path data, and where not. Texts are made valid, damaged and
   cut. A text is "plain" where it has no more digits than are read here and no letter but M, L, H, V, Z and Q: librsvg reads
   more digits, exponents, and C, S, T and A too, and a letter of no command, where a command may stand, ends a text there
   without a word. On plain texts both must say the same; what ours accepts librsvg must accept always.
2. The end points, by svgelements: of each text that ours accepts, every point that a command leads to, and which outlines close.
"""
import os, random, re, struct, subprocess, sys, tempfile

WHITE = " \t\r\n"
LETTERS = {"M": 2, "m": 2, "L": 2, "l": 2, "H": 1, "h": 1, "V": 1, "v": 1, "Q": 4, "q": 4, "Z": 0, "z": 0}
ODD = "MmLlHhVvQqZz+-..,,0123456789" + WHITE + "EeCcSsTtAa/:;#%()xyz?"


def white(r):
    return "".join(r.choice(WHITE) for _ in range(r.choice([0, 0, 0, 1, 2])))


def number(r):
    sign = r.choice(["", "", "+", "-"])
    whole = "".join(r.choice("0123456789") for _ in range(r.choice([0, 1, 1, 2, 3, 6])))
    part = "".join(r.choice("0123456789") for _ in range(r.randint(0, 3)))
    if whole == "" and part == "":
        whole = "7"
    point = "." if whole == "" or (part != "" and r.random() < 0.6) or r.random() < 0.1 else ""
    return sign + whole + (point + part if point else "")


def between(r, before, after):
    apart = after[0] in "+-" or (after[0] == "." and "." in before)
    kind = r.randint(0, 3)
    if kind == 0 and apart:
        return ""
    if kind == 1:
        return white(r) + "," + white(r)
    return r.choice(WHITE) + white(r)


def command(r, letter):
    numbers = [number(r) for _ in range(LETTERS[letter] * r.choice([1, 1, 2, 3]))]
    out = letter + white(r)
    for k, n in enumerate(numbers):
        out += (between(r, numbers[k - 1], n) if k else "") + n
    return out


def valid(r):
    out = white(r)
    for k in range(r.randint(0, 7)):
        out += command(r, r.choice("Mm" if k == 0 else "".join(LETTERS))) + white(r)
    return out


def damaged(r):
    text = valid(r)
    for _ in range(r.randint(1, 2)):
        at = r.randint(0, len(text))
        text = text[:at] + r.choice(["", r.choice(ODD)]) + text[at + r.randint(0, 1):]
    return text


def cut(r):
    text = valid(r)
    return text[:r.randint(0, len(text))]


def plain(text):
    """No more digits than are read here, and no letter that isn't read here."""
    if re.search("[A-Za-z]", re.sub("[MmLlHhVvQqZz]", "", text)):
        return False
    numbers = re.findall(r"([0-9]*)(?:\.([0-9]*))?", text)
    return all(len(whole) <= 6 and len(part) <= 3 for whole, part in numbers)


# ---- ours
def ours(program, texts, depth=0):
    lines = "".join(f"{depth} {t.encode().hex() or '-'}\n" for t in texts)
    said = subprocess.run([program], input=lines, capture_output=True, text=True, check=True).stdout.splitlines()
    assert len(said) == len(texts), "an answer for each text"
    found = []
    for line in said:
        no, place, n, *bits = line.split()
        coords = [struct.unpack(">f", bytes.fromhex(b))[0] for b in bits]
        found.append((int(no), int(place), [coords[4 * k:4 * k + 4] for k in range(int(n))]))
    return found


# ---- librsvg: a path for each text, and after it one whose fault has a place of its own
MARK = 3000


def librsvg(texts):
    found, head = [], '<svg xmlns="http://www.w3.org/2000/svg" width="1" height="1">'
    for from_ in range(0, len(texts), 500):
        some = texts[from_:from_ + 500]
        escape = lambda t: "".join(f"&#{ord(c)};" for c in t)
        paths = "".join(f'<path d="{escape(t)}"/><path d="{" " * MARK}?"/>' for t in some)
        with tempfile.NamedTemporaryFile("w", suffix=".svg") as f:
            f.write(head + paths + "</svg>")
            f.flush()
            env = dict(os.environ, RSVG_LOG="1")
            said = subprocess.run(["rsvg-convert", f.name, "-o", f.name + ".png"], capture_output=True, text=True, check=True, env=env).stdout
            os.unlink(f.name + ".png")
        fault = None
        for line in said.splitlines():
            place = re.match("could not parse path: error at position ([0-9]+): (.*)", line)
            if place is None:
                continue
            if int(place[1]) >= MARK:
                found.append(fault)
                fault = None
            else:
                fault = (int(place[1]), place[2])
    assert len(found) == len(texts), f"librsvg told of {len(found)} texts, not {len(texts)}"
    return found


# ---- svgelements: what each command leads to, in doubles; a closing to the outline's start
def svgelements_lines(text):
    import svgelements

    lines, at, start, open_ = [], None, None, False
    for s in svgelements.Path(text):
        if isinstance(s, svgelements.Move):
            if open_:
                lines.append((at, start))
            at, start, open_ = (s.end.x, s.end.y), (s.end.x, s.end.y), False
        elif isinstance(s, svgelements.Close):
            lines.append((at, start))
            at, open_ = start, False
        else:
            end = (s.end.x, s.end.y)
            lines.append((at, end))
            at, open_ = end, True
    if open_:
        lines.append((at, start))
    return lines


def close_to(ours_, theirs, reach):
    return abs(ours_ - theirs) <= reach


def same_lines(ours_, theirs):
    if len(ours_) != len(theirs):
        return f"{len(ours_)} lines, not {len(theirs)}"
    # each number and each sum of a relative move is rounded to a float here, and to a double there
    most = max([abs(v) for line in ours_ for v in line] + [1.0])
    reach = 2.0 ** -22 * most * (len(ours_) + 1)
    for k, (a, ((x0, y0), (x1, y1))) in enumerate(zip(ours_, theirs)):
        if not all(close_to(p, q, reach) for p, q in zip(a, (x0, y0, x1, y1))):
            return f"line {k} is {a}, not {(x0, y0, x1, y1)}"
    return None


def fail(said):
    print("beside:", said)
    sys.exit(1)


def main():
    program, n, seed = sys.argv[1], int(sys.argv[2]), int(sys.argv[3])
    r = random.Random(seed)
    met, places, kinds = {}, [0, 0, 0], {}
    end_points = lines_held = bare_points = 0
    for kind, make in (("valid", valid), ("damaged", damaged), ("cut", cut)):
        texts = [make(r) for _ in range(n)]
        for text, (no, place, lines), fault in zip(texts, ours(program, texts), librsvg(texts)):
            row = (kind, plain(text), "accepted" if no == 0 else "refused", "accepted" if fault is None else "refused")
            met[row] = met.get(row, 0) + 1
            if no not in (0, 21):
                fail(f"ours answers {no} for {text!r}")
            if (no == 0) != (fault is None) and (plain(text) or no == 0):
                fail(f"ours: {no} at {place}; librsvg: {fault}; for {text!r}")
            if plain(text) and no == 21:
                which = 0 if fault[0] == place else 1 if fault[0] > place else 2
                places[which] += 1
                if which:
                    kinds.setdefault((which, fault[1]), []).append((text, place, fault[0]))
            if no == 0 and re.search(r"[0-9]\.(?![0-9])", text):
                bare_points += 1  # svgelements doesn't read `5.`
            elif no == 0:
                said = same_lines(lines, svgelements_lines(text))
                if said:
                    fail(f"beside svgelements: {said}; for {text!r}")
                end_points += 1
                lines_held += len(lines)
    for (kind, is_plain, a, b), count in sorted(met.items()):
        print(f"{kind:8} {'plain' if is_plain else 'more than is read here':24} ours {a:9} librsvg {b:9} {count}")
    print(f"places of faults in plain texts: {places[0]} the same, {places[1]} later by librsvg, {places[2]} earlier")
    for (which, kind), found in sorted(kinds.items()):
        text, place, theirs = min(found, key=lambda f: len(f[0]))
        print(f"    {['', 'later', 'earlier'][which]}, \"{kind}\": {len(found)}; as {text!r}: ours {place}, librsvg {theirs}")
    print(f"end points beside svgelements: {end_points} texts, {lines_held} lines, none apart by more than 2^-22 of the largest, a line")
    print(f"    left out: {bare_points} texts with a number such as `5.`, which svgelements doesn't read")


main()
