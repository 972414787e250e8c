#!/usr/bin/env python3
"""Respells the definitions and lemmas of crates/*/specs and crates/*/proofs in snake case, after port.py.

usage: snake_names.py [--list]      at the top of the repository; --list writes nothing and prints old and new names

A name is respelled where it is declared in a file of specs/ or proofs/ (a definition, lemma, field, constructor, parameter of a
lemma or alias of an import): fooBar becomes foo_bar, and foo-bar becomes foo_bar, but for a name of two parts that both are names of
functions, whose dash joins them. A name that std has too, and a generated name after `tie.` or `goal.`, is left. A name that would
fall together with another of a file where it stands is left and printed. Text of comments is left, but for what stands in backquotes.
"""
import glob, os, re, sys

TOKEN = re.compile(r"[A-Za-z_\u0370-\u03ff\u2080-\u2089\u2115\u2124][\w'\-\u2080-\u2089]*")
DECL = re.compile(r"^\s*(?:(?:abbrev|unfoldable|pub|where|abstract|private|data|record)\s+|infix \S+ )*([a-z][\w'\-\u2080-\u2089]*) :(?: |$)")
BINDER = re.compile(r"[({]((?:[a-z][\w'\-\u2080-\u2089]* )+):")
LAMBDA = re.compile(r"λ ((?:[a-z_][\w'\-\u2080-\u2089]* ?)+)\.")
ALIAS = re.compile(r"^use \S+ as ([a-z][\w'\-]*)\s*$")
LET = re.compile(r"\blet ([a-z][\w'\-]*)\b")
OUTER = re.compile(r"^(?:ghost )?use (?!Rattle\.(?!std\b|core\b)|crate)(\S+?)(?:\.\{([^}]*)\})?;?$")
JOINED = {"length", "drop", "take", "set", "append", "map", "reverse", "get_or", "sum", "neg", "add", "sub", "mul", "div", "floor", "ceil", "round"}


def files(top="."):
    for pattern in ("crates/*/specs/**/*.antt", "crates/*/proofs/**/*.antt", "crates/*/src/**/*.rt"):
        for f in sorted(glob.glob(os.path.join(top, pattern), recursive=True)):
            yield f


def read(f):
    with open(f, encoding="utf-8") as it:
        return it.read()


def snake(n):
    n = re.sub(r"([a-z0-9])([A-Z]+)(?=[A-Z][a-z]|[a-z]|$|[-_'\d])", lambda m: m.group(1) + "_" + m.group(2).lower(), n)
    n = re.sub(r"([a-z0-9])([A-Z])", lambda m: m.group(1) + "_" + m.group(2).lower(), n)
    return n[0] + n[1:].lower() if n[:1].islower() else n


def declared():
    own, outer, spec = set(), set(), set()
    for f in files():
        proof = f.endswith(("/Proof.antt", "/Answers.antt", "/Invariants.antt"))
        for l in read(f).splitlines():
            m = OUTER.match(l)
            if m:
                outer |= {w.strip() for w in (m.group(2) or "").split(",")}
                continue
            if l.startswith(("use ", "ghost use ")):
                m = ALIAS.match(l)
                if m:
                    own.add(m.group(1))
                continue
            if not f.endswith(".antt"):
                continue
            m = DECL.match(l)
            found = {m.group(1)} if m else set()
            if "/specs/" in f:
                spec |= found
            for m in BINDER.finditer(l):
                found |= set(m.group(1).split())
            for m in LAMBDA.finditer(l):
                found |= set(m.group(1).split())
            found |= set(LET.findall(l))
            own |= {n for n in found if not proof or re.match(r"[a-z]+[A-Z]", n)}
    return own, outer, spec


# Lemmas that would have their definition's name, and get the ending of such a lemma.
EXTRA = {"byClock": "by_clock", "pU": "p_u", "eU": "e_u", "cU": "c_u"}
LEMMAS = {n: n.replace("-", "_") + "_lem" for n in "goes_on none_of too_long in-float place-in by-method by-plan chart-clear chart-entry chart-pin directed-readings film-write from-below head-long is-by long-natural marks-by needle-at no-film no-ruler once-listed other-twist plan-by points-by real-key-points ruler-downgrade ruler-long ruler-plan ruler-shift ruler-upgrade ruler-write segment-marks step-marks step-spot tail-length too-high too-low".split()}


def table():
    own, outer, spec = declared()
    functions = {snake(n) for n in spec} | JOINED
    want = {}
    for n in sorted(own - outer - {"tie", "goal"}):
        new = snake(n)
        parts = new.split("-")
        if len(parts) > 1 and not (len(parts) == 2 and all(p in functions for p in parts) and n not in spec):
            new = new.replace("-", "_")
        if new != n:
            want[n] = new
    return {**want, **LEMMAS, **EXTRA}


def tokens_of(text):
    return set(TOKEN.findall(text))


def clashes(want):
    """Names that would fall together: two that get one spelling, or one whose new spelling stands in a file that has it."""
    bad = {}
    by_new = {}
    for old, new in want.items():
        by_new.setdefault(new, []).append(old)
    for new, olds in by_new.items():
        if len(olds) > 1:
            for old in olds:
                bad[old] = "two names would be " + new
    for f in files():
        if not f.endswith(".antt"):
            continue
        if f.endswith("/Proof.antt"):
            continue
        text = "\n".join(l for l in read(f).splitlines() if not l.lstrip().startswith("--"))
        here = tokens_of(re.sub(r"Rattle\.[\w.'+\-]+", "", text))
        for old in here & want.keys():
            if want[old] in here - want.keys():
                bad.setdefault(old, f"{want[old]} stands in {f}")
    return bad


def turned(line, want, comment):
    def one(m):
        w = m.group(0)
        before = line[: m.start()]
        if re.search(r"\b(tie|goal|Goals|Tie)\.$", before):
            return w
        return want.get(w, w)

    head = re.match(r"^(\s*)(--|//)", line)
    if head:
        return re.sub(r"`[^`]*`", lambda m: TOKEN.sub(lambda t: want.get(t.group(0), t.group(0)), m.group(0)), line)
    cut = None
    m = re.search(r"\s(--|//) ", line)
    if m:
        cut = m.start()
    if cut is not None:
        return TOKEN.sub(one, line[:cut]) + line[cut:]
    return TOKEN.sub(one, line)


def write(f, text):
    with open(f, "w", encoding="utf-8") as it:
        it.write(text)


def main():
    want = table()
    bad = clashes(want)
    for old, why in sorted(bad.items()):
        print(f"left: {old}: {why}")
    want = {o: n for o, n in want.items() if o not in bad}
    if "--list" in sys.argv:
        for o, n in sorted(want.items()):
            print(o, n)
        return
    for f in files():
        old = read(f)
        # A function of src/ keeps its name, also where a lemma had the same.
        here = {o: n for o, n in want.items() if f.endswith(".antt") or o not in LEMMAS}
        new = "\n".join(turned(l, here, False) for l in old.split("\n"))
        if new != old:
            write(f, new)
    quoted = lambda text: re.sub(r"`[^`\n]*`", lambda m: TOKEN.sub(lambda t: want.get(t.group(0), t.group(0)), m.group(0)), text)
    for f in ["README.md"] + sorted(glob.glob("docs/*.md")):
        if os.path.basename(f) not in ("PORT.md",):
            old = read(f)
            if quoted(old) != old:
                write(f, quoted(old))
    print(f"respelled: {len(want)} names")


main()
