#!/usr/bin/env python3
"""Counts the places of the design pass (docs/DESIGN-PASS.md): `python3 tools/places.py [COMMIT]`, at the top of the repository.

It reads the crates' code and proofs, of the working tree or of COMMIT, and prints a line for each place,

    point N: FILE:LINE NAME: what

then the extern "C" functions, and tables of the numbers. The C interface needs the form of these functions: a place in one has
`point N C:`, and a row of its own. Places are found by rules over the text, the functions point1 to point7 below. A rule knows no
meaning: where one counts too much, the comment at it says what.
"""
import collections
import difflib
import pathlib
import re
import subprocess
import sys

Item = collections.namedtuple("Item", "crate file line name kind c params result clauses body shape")
INT = r"(?:[iu](?:8|16|32|64|128|size))"
VALUE = r"\(?-?[\w.]+(?:::\w+)*(?: as \w+)?\)?"
CAST = re.compile(r" as \w+|[()]")
WORD = re.compile(r"\w+|[^\s\w]")


# ---- the text

def sources(commit):
    """The files' texts by name, and the crates, the lowest first."""
    def git(*words):
        return subprocess.run(["git", *words], check=True, capture_output=True, text=True).stdout

    if commit:
        names = git("ls-tree", "-r", "--name-only", commit, "crates").splitlines()
    else:
        names = [str(p) for kind in ("src/**/*.rt", "proofs/**/*.antt") for p in sorted(pathlib.Path("crates").glob(f"*/{kind}"))]
    names = [n for n in names if re.match(r"crates/\w+/(src/.*\.rt|proofs/.*\.antt)$", n)] + ["crates.txt"]
    texts = {n: git("show", f"{commit}:{n}") if commit else pathlib.Path(n).read_text() for n in names}
    return texts, re.findall(r"^(\w+)[^:#\n]*:", texts.pop("crates.txt"), re.M)


def bare(text):
    """The text with blanks for comments and for what stands in quotes. An arrow is one sign, so that each `>` closes a bracket."""
    away = re.compile(r'//[^\n]*|"(?:[^"\\]|\\.)*"|\'(?:[^\'\\\n]|\\.)\'', re.S)
    text = away.sub(lambda m: re.sub(r"[^\n\"]", " ", m.group()), text)
    return text.replace("->", "→ ").replace("=>", "⇒ ")


def closed(text, start):
    """The place behind the bracket that closes the one at `start`."""
    depth = 0
    for i in range(start, len(text)):
        depth += (text[i] in "([{") - (text[i] in ")]}")
        if depth == 0:
            return i + 1
    return len(text)


def parts(text, sign=",", brackets="([{<)]}>"):
    """The pieces between the signs that stand in no bracket."""
    half = len(brackets) // 2
    out, depth, last = [], 0, 0
    for i, c in enumerate(text):
        depth += (c in brackets[:half]) - (c in brackets[half:])
        if c == sign and depth == 0:
            out.append(text[last:i])
            last = i + 1
    return [" ".join(p.split()) for p in out + [text[last:]] if p.strip()]


def function(text, at):
    """Parameters, result, clauses and body of the function whose name ends at `at`."""
    depth = 0
    while text[at] != "(" or depth:
        depth += (text[at] == "<") - (text[at] == ">")
        at += 1
    end = closed(text, at)
    params = [tuple(p.split(": ", 1)) for p in parts(text[at + 1:end - 1]) if ": " in p]
    clauses, result, p = [], None, end
    mark = re.compile(r"\b(requires|ensures)\b[^{;]*\{|[\[({;]")
    while m := mark.search(text, p):
        if m.group() in "[(":
            p = closed(text, m.start())
            continue
        result = text[end:m.start()].strip(" →\n") if result is None else result
        if not m.group(1):
            return params, result, clauses, text[m.end():closed(text, m.start()) - 1] if m.group() == "{" else ""
        p = closed(text, m.end() - 1)
        clauses.append((m.group(1), " ".join(text[m.end():p - 1].split())))
    return params, "", clauses, ""


def items(texts, crates):
    """Functions, structs and enums, the lowest crate's first. A type's `params` are its fields or variants, with what each has."""
    found = []
    head = re.compile(r'^ *(?:pub(?:\([a-z]+\))? )?(?:const |unsafe )*(extern " *" )?(fn|struct|enum) (\w+)', re.M)
    for name, text in texts.items():
        crate, clean = name.split("/")[1], bare(text)
        for m in head.finditer(clean) if name.endswith(".rt") and crate in crates else ():
            line, kind = text.count("\n", 0, m.start(2)) + 1, m.group(2)
            if kind == "fn":
                params, result, clauses, body = function(clean, m.end())
            elif opened := re.compile(r"[^;({]*\{").match(clean, m.end()):
                result, clauses, body = "", [], clean[opened.end():closed(clean, opened.end() - 1) - 1]
                fields = [re.sub(r"#\[.*?\] *|\bpub(\(.*?\))? ", "", p) for p in parts(body)]
                params = [(re.match(r"\w*", f).group(), re.sub(r"^\w*:? ?", "", f)) for f in fields]
            else:
                continue
            outline = shape(m.group(3), kind, body, params)
            found.append(Item(crate, name, line, m.group(3), kind, bool(m.group(1)), params, result, clauses, body, outline))
    return sorted(found, key=lambda i: crates.index(i.crate))


def flat(body):
    return " ".join(body.split())


# ---- point 1: enums of the shape of Option or Result, a flag with a value beside it, numbers for kinds or refusals

def own_answers(all_items):
    """Enums of two cases, of which one or both hold something. (Counts too much: an honest choice of two.)"""
    out = {}
    for e in all_items:
        held = [v for _, v in e.params if v]
        if e.kind == "enum" and len(e.params) == 2 and held:
            out[e.name] = "Result" if len(held) == 2 else "Option"
    return out


NUMBERED = r"(?:\w+_)?(?:refusal|kind|code|status)(?:_\w+)?"


def point1(all_items):
    answers = own_answers(all_items)
    for i in all_items:
        body = flat(i.body)
        if i.kind == "enum" and i.name in answers:
            yield i, f"an enum of the shape of {answers[i.name]}"
        if i.kind == "struct":
            # One bool among values, or one with a name that says so. (Counts too much: a bool that says nothing of the others.)
            flags = [n for n, t in i.params if t == "bool"]
            for n in flags:
                if len(flags) == 1 and len(i.params) > 1 or n.endswith(("_enabled", "_present")):
                    yield i, f"a flag, {n}, with values beside it"
        for n, t in i.params:
            if re.fullmatch(NUMBERED, n) and re.fullmatch(INT, t) and i.kind != "enum":
                yield i, f"a number for a kind or a refusal, {n}"
        if i.kind != "fn":
            continue
        of_answer = i.name.endswith("number") and any(t in answers for _, t in i.params)
        of_c = i.c and re.search(r"⇒|put_\w+\(", body)
        if re.fullmatch(INT, i.result) and (of_answer or of_c or re.fullmatch(NUMBERED, i.name)):
            yield i, "gives a number for a refusal"
        held = r"(?: ?\((?:[^()]|\([^()]*\))*\)| \{[^{}]*\})?"
        for name in sorted(set(re.findall(rf"\b({'|'.join(answers) or '-'})::\w+{held} (?:⇒|= )", body))):
            yield i, f"takes {name} apart by hand"
        for name, n in sorted(collections.Counter(re.findall(r"\b(\w+) [!=]= \d+ \{", body)).items()):
            if n > 1 or re.search(rf"let {name} = [\w:]*{NUMBERED}\(", body):
                yield i, f"compares {name} with numbers that stand for something"
        if "Result<bool" in i.result and re.search(r"Ok\((true|false)\)", body):
            yield i, "tells an end or a failure by a bool in a Result"


# ---- point 2: twins

# Words that tell twins apart: they are left out of names, as numbers at the end are. Integers' types, numbers and bools are made one.
TELLING = set("key inter mb macroblock sub subblock y u v uv luma chroma left top vertical horizontal simple normal two four six".split())


def one_word(word):
    if re.fullmatch(INT, word) or word.isdigit() or word in ("true", "false"):
        return "0"
    return "_".join(w for w in re.sub(r"\d+\b|\d+(?=_)", "", word).split("_") if w and w.lower() not in TELLING) or "_"


def shape(name, kind, body, params):
    """The name but for numbers and for key and inter; and the body's words and signs, or a struct's fields, made one as above."""
    stem = "_".join(w for w in re.sub(r"\d+", "", name).split("_") if w not in ("key", "inter", "two", "four", "six"))
    pieces = [f"{n}: {t}" for n, t in params] if kind == "struct" else WORD.findall(body)
    return stem, tuple("".join(one_word(w) for w in WORD.findall(p)) for p in pieces)


def alike(a, b):
    """How much of the bodies is the same, if it is enough for twins, else 0."""
    # (Counts too much: functions that only pass on, and one method in two impls of a trait.)
    x, y = a.shape[1], b.shape[1]
    short, both = min(len(x), len(y)), len(x) + len(y)
    if a.kind != b.kind or a.c != b.c or short < (3 if a.kind == "struct" else 5):
        return 0
    if a.crate == b.crate and a.shape[0] == b.shape[0]:
        enough = 0.55
    elif a.kind != "fn":
        enough = 0.7
    elif short < 30:
        return x == y and (a.name == b.name or a.crate == b.crate and short > 15)
    else:
        enough = 0.85
    common = sum((collections.Counter(x) & collections.Counter(y)).values())
    if 2 * common < enough * both:
        return 0
    ratio = difflib.SequenceMatcher(None, x, y, autojunk=False).ratio()
    return ratio if ratio >= enough else 0


def point2(all_items):
    """A place is a function or type that has a twin in front of it, in its crate or in a lower one."""
    for n, i in enumerate(all_items):
        best = max(all_items[:n], key=lambda other: alike(other, i), default=None)
        if best and alike(best, i):
            where = "" if best.crate == i.crate else f" of {best.crate}"
            yield i, f"a twin of {best.name}{where}"


# ---- point 3: loops that count an index by hand

def point3(all_items):
    for i in all_items:
        if i.kind != "fn":
            continue
        for m in re.finditer(r"\bwhile ([^{]*)\{", i.body):
            inside = i.body[m.end():closed(i.body, m.end() - 1)]
            steps = [s for s in re.findall(r"\b(\w+) [+-]= ", inside) if re.search(rf"\b{s}\b", m.group(1))]
            if steps:
                yield i, f"a while loop that counts {steps[0]}"
        # (Counts too much: two slices that are read at different steps.)
        for m in re.finditer(r"\bfor (\w+) in ([^{]*\.\.[^{]*)\{", i.body):
            inside = i.body[m.end():closed(i.body, m.end() - 1)]
            if re.search(rf"\[[^\]]*\b{m.group(1)}\b[^\]]*\]|\w+ = [^;]*\b{m.group(1)} \*", inside):
                yield i, f"a for loop whose {m.group(1)} is an index"
        # Lines that differ in their numbers alone. (Counts too much: the rows of a table.)
        lines = [re.sub(r"\d+", "0", " ".join(s.split())).rstrip(",") for s in i.body.split("\n")]
        run = max((len(g) for key, g in groups(lines) if "0" in key and re.search(r"[(\[=]", key)), default=0)
        if run > 3:
            yield i, f"{run} lines that count an index"


def groups(lines):
    """Each row of neighbours that are the same, with what they are."""
    start = 0
    for n in range(1, len(lines) + 1):
        if n == len(lines) or lines[n] != lines[start]:
            yield lines[start], lines[start:n]
            start = n


# ---- point 4: equality, order, copying, conversion and printing written by hand, and what std has as methods of numbers

BRANCH = rf"if ({VALUE}) [<>]=? ({VALUE}) \{{ ({VALUE}) \}} else "
CLAMP = re.compile(rf"{BRANCH}{BRANCH}\{{ ({VALUE}) \}}")
CHOICE = re.compile(rf"if (!?{VALUE}|{VALUE} ([<>=!]=?) {VALUE}) \{{ ([^{{}};]+) \}} else \{{ ([^{{}};]+) \}}")


def of_numbers(body):
    """What an `if` of two or three values computes, and what else std has as a method of numbers."""
    for m in CLAMP.finditer(body):
        if len({CAST.sub("", x) for x in m.groups()}) < 7:
            yield "a clamp"
    for m in CHOICE.finditer(CLAMP.sub("", body)):
        test = [CAST.sub("", w) for w in re.split(r" [<>=!]=? ", m.group(1))]
        x, y = (CAST.sub("", w).strip() for w in m.groups()[2:])
        less = [f"{t} - 1" for t in test] + [str(int(t) - 1) for t in test if t.isdigit()]
        if {x, y} == {"0", "1"} and test != [x]:
            yield "a bool as a number"
        elif y == f"1 + {x}":
            yield "a bool as a number"
        elif m.group(2) and {x, y} == {f"{test[0]} - {test[1]}", f"{test[1]} - {test[0]}"} or {x, y} == {test[0], f"0 - {test[0]}"}:
            yield "an absolute difference"
        elif m.group(2) and "0" in (x, y) and {x, y} & {f"{test[0]} - {test[1]}", f"{test[1]} - {test[0]}"}:
            yield "a saturating subtraction"
        elif m.group(2) and len(test) == 2 and (x in test or x in less) and (y in test or y in less) and x != y:
            yield "a minimum or maximum"
        elif m.group(2) == "==" and test[1:] == ["0"] and x == "1" and y == test[0]:
            yield "a minimum or maximum"
    for a, b in re.findall(r"if (\w+) < (\w+) \{ let", body):
        if f"{b} - {a}" in body and f"{a} - {b}" in body:
            yield "an absolute difference"
    if any(f"{a} - {b}" in body for a, b in re.findall(r"if (\w+) < (\w+) \{ return", body)):
        yield "a checked subtraction"
    if re.search(r"\b\d{10,} - \w+ < \w+", body):
        yield "a checked sum"
    if re.search(r"\((\w+) \+ 1\) / 2|\(\w+ - 1\) / \d", body):
        yield "a division rounded up"
    if re.search(rf"\bstd::num::\w+_{INT}\(", body):
        yield "a function of std::num for a method"
    if re.search(r"\b(18446744073709551615|4294967295)\b", body):
        yield "a type's largest number, written out"
    if re.search(r"as u\d+ \+ (256|65536) \*|!\(\(\d+ - \w+\) as i\d+\)", body):
        yield "a number from bytes"


def point4(all_items):
    structs = {i.name for i in all_items if i.kind == "struct"}
    for i in all_items:
        if i.kind != "fn":
            continue
        body, types = flat(i.body), [t for _, t in i.params]
        for what in sorted(set(of_numbers(body))):
            yield i, what
        if i.result == "bool":
            if len(types) > 1 and len(set(types)) == 1 and types[0] in structs and "==" in body:
                yield i, "equality of two structs by hand"
            elif len(types) > 2 and re.fullmatch(r"\(\w+ == \w+\)( & \(\w+ == \w+\))+", body):
                yield i, "equality of several numbers by hand"
            elif re.match(r"(let \w+ = [^;]*; )?match \w+ \{", body):
                yield i, "a test of an enum by match"
        arms = re.findall(r"([\w:]+) ⇒ +([\w:]+)", body)
        if sum(a.isdigit() and b[b.rfind(":") + 1].isupper() for a, b in arms) > 2:
            yield i, "conversion of a number to an enum"
        if len({b for a, b in arms if "::" in a and b.isdigit()}) > 2:
            yield i, "conversion of an enum to a number"
        if any(t.startswith("&impl Print") for t in types) and len(types) > 1 and re.match(r"(if|match|for)\b", body):
            yield i, "printing of a value by hand"
        # (Counts too much: fields of two or three values that are wanted one by one.)
        lets = collections.Counter(re.findall(r"let (?:mut )?\w+ = (\w+)\.\w+(?=;)", body))
        if any(n > 2 for n in lets.values()):
            yield i, "fields copied into locals one by one"
        for m in re.finditer(r"\b[A-Z]\w+ \{([^{}]*)\}", body):
            kept = collections.Counter(re.findall(r"\b(\w+): (\w+)\.\1(?=[, ])", m.group(1) + " "))
            if max(collections.Counter(x for _, x in kept).values(), default=0) > 1:
                yield i, "a struct copied field by field"


# ---- point 5: facts in the contracts of three or more functions, and parameters that travel together

def point5(all_items):
    for c in (False, True):
        functions = [i for i in all_items if i.kind == "fn" and i.c == c]
        facts = collections.defaultdict(list)
        for i in functions:
            for fact in sorted({f for kind, text in i.clauses if kind == "requires" for f in parts(text, "×", "([{)]}")}):
                facts[re.sub(r"^\((.*)\)$", r"\1", fact) if closed(fact, 0) == len(fact) else fact].append(i)
        named = [(f"`{fact}` is required", found) for fact, found in facts.items() if len(found) > 2]
        named += [(f"({', '.join(n for n, _ in run)})", found) for run, found in together(functions)]
        # A place for each crate that has it, at the first of its functions.
        for what, found in sorted(named, key=lambda n: (all_items.index(n[1][0]), n[0])):
            for crate in dict.fromkeys(i.crate for i in found):
                own = [i for i in found if i.crate == crate]
                yield own[0], f"{what} in {len(own)} functions" + (f", {len(found)} in all" if len(own) < len(found) else "")


def together(functions):
    """Rows of three or more parameters that three or more functions have, the longest first. A parameter counts in one row alone."""
    left = [[(n, re.sub(r"'\w+ ", "", t)) for n, t in i.params] for i in functions]
    for size in range(max((len(p) for p in left), default=0), 2, -1):
        found = collections.defaultdict(list)
        for n, params in enumerate(left):
            for at in range(len(params) - size + 1):
                if None not in params[at:at + size]:
                    found[tuple(params[at:at + size])].append((n, at))
        for run, places in found.items():
            places = [(n, at) for n, at in places if None not in left[n][at:at + size]]
            if len(places) > 2:
                for n, at in places:
                    left[n][at:at + size] = [None] * size
                yield run, [functions[n] for n, _ in places]


# ---- point 6: buffers with a length or a place beside them, parallel arrays

PLANE = re.compile(r"(\w+_)?[yuv]\d?|s[yuv]")
LISTED = re.compile(r"&(mut )?\[\w+(; \w+)?\]")
BESIDE = set("base at from to i j n k s t stride corner first offset".split())


def point6(all_items):
    for i in all_items:
        if i.kind == "enum":
            continue
        rows = [t if LISTED.fullmatch(re.sub(r"'\w+ ", "", t)) and not PLANE.fullmatch(n) else "" for n, t in i.params]
        if i.kind == "struct":
            rows = [t if t.startswith("[") and not PLANE.fullmatch(n) else "" for n, t in i.params]
        if any(key and len(g) > 2 for key, g in groups(rows)):
            yield i, "parallel arrays"
        if i.kind == "struct":
            continue
        lengths = [n for n, t in i.params if t == "usize" and re.fullmatch(r"(\w+_)?len", n)]
        if lengths:
            yield i, f"lengths without their slices, {', '.join(lengths)}"
        # (Counts too much: a stride alone.)
        beside, after = [], False
        for n, t in i.params:
            after = LISTED.fullmatch(t) or after and t == "usize" and n in BESIDE
            beside += [n] * bool(after and t == "usize")
        if beside:
            yield i, f"a slice with a place or a length beside it, {', '.join(beside)}"


# ---- point 7: a switch on which step to run, tables of functions

CALL = re.compile(r"(?<![\w!])(?:\w+::)*([a-z]\w*)\(")


def point7(all_items):
    for i in all_items:
        if i.kind != "fn":
            continue
        body = flat(i.body)
        for name, kind in i.params:
            # A bool of the caller's that says which of two calls is made. (Counts too much: a bool that is a reason to give up.)
            for m in re.finditer(rf"if (?:\w+ & )?{name}(?: & \w+)? \{{", body) if kind == "bool" else ():
                end = closed(body, m.end() - 1)
                then, rest = set(CALL.findall(body[m.end():end])), set(CALL.findall(body[end:]))
                if then and rest and ("return" in body[m.end():end] or body[end:].startswith(" else")) and then != rest:
                    yield i, f"{name} says which step to run"
                    break
            if re.fullmatch(INT, kind):
                if m := re.search(rf"match {name} \{{", body):
                    calls = re.findall(r"\d ⇒ +(?:\w+::)*([a-z]\w*)\(", body[m.end():])
                    if len(calls) > 2:
                        yield i, f"the number {name} says which of {len(calls)} steps to run"
                if re.search(rf"if {name} < [A-Z][A-Z_]+ \{{", body):
                    yield i, f"the number {name} says in which phase the step is"
        # One call after the other, each with a text and a number: a table of steps written out.
        table = re.findall(r"\b(\w+)\(\w+, b\" *\", \d+\)", body)
        if len(table) > 3:
            yield i, f"a table of {len(table)} numbers for steps"


# ---- point 8, and the tables

def point8(texts, crates):
    """Per crate: answers, invariants, measures, and its own lemmas, with functions that only proofs use."""
    count = {c: collections.Counter() for c in crates}
    for name, text in texts.items():
        crate = name.split("/")[1]
        if not name.endswith(".antt") or crate not in count:
            continue
        record = False
        for line in re.sub(r"--[^\n]*", "", text).split("\n"):
            if line[:1].strip():
                record = bool(re.match(r"(pub |abbrev |opaque )*(record|data) ", line))
            m = re.match(r"(?:  )?(?:abbrev |opaque )*(?:pub )?([^\s:(){}]+) :(?: (goal\.)|\s|$)", line)
            if not m or record:
                continue
            kind = "answers"
            for start, other in (("invariant-", "invariants"), ("decreases-", "measures")):
                kind = other if m.group(1).startswith(start) else kind
            count[crate][kind if m.group(2) else "lemmas"] += 1
    return count


def table(head, rows):
    widths = [max(len(str(r[n])) for r in [head, *rows]) for n in range(len(head))]
    for row in [head, *rows]:
        print("  ".join(str(c).ljust(w) if n == 0 else str(c).rjust(w) for n, (c, w) in enumerate(zip(row, widths))).rstrip())


def main():
    texts, crates = sources(sys.argv[1] if len(sys.argv) > 1 else None)
    found = items(texts, crates)
    count, of_c = collections.Counter(), {(i.file, i.line, i.name): [] for i in found if i.c}
    for n, rule in enumerate((point1, point2, point3, point4, point5, point6, point7), 1):
        for i, what in rule(found):
            count[i.crate, i.c, n] += 1
            of_c.get((i.file, i.line, i.name), []).append(str(n))
            print(f"point {n}{' C' if i.c else ''}: {i.file}:{i.line} {i.name}: {what}")
    print()
    for (file, line, name), points in of_c.items():
        print(f"C: {file}:{line} {name}: " + (f"points {' '.join(points)}" if points else "no place"))
    rows = []
    for crate, c in [(k, c) for k in crates for c in (False, True)]:
        numbers = [count[crate, c, n] for n in range(1, 8)]
        if not c or any(i.c for i in found if i.crate == crate):
            rows.append([crate + " C" * c, *numbers, sum(numbers)])
    for label, end in (("all", ""), ("all C", " C")):
        sums = [r for r in rows if r[0].endswith(" C") == bool(end)]
        rows.append([label, *(sum(r[n] for r in sums) for n in range(1, 9))])
    print()
    table(["crate", *(f"point {n}" for n in range(1, 8)), "all"], rows)
    print(f"\nextern \"C\" functions: {len(of_c)}\n\npoint 8")
    kinds = ["answers", "invariants", "measures", "lemmas"]
    eight = point8(texts, crates)
    rows = [[c, *(eight[c][k] for k in kinds)] for c in crates]
    table(["crate", *kinds], rows + [["all", *(sum(r[n] for r in rows) for n in range(1, 5))]])


if __name__ == "__main__":
    main()
