#!/usr/bin/env python3
"""Counts the places of the older forms that docs/DESIGN-PASS.md is about: by crate and in all.

usage: forms.py [CHECKOUT] [-l]      CHECKOUT: this repository's top, unless another is given; -l: each place too, as file:line

What is read is crates/*/src/**/*.rt, and crates/*/proofs for point 8. Comments, strings, `ghost` items and clauses are no code, and no places but for 5a and 8 labels.
A rule is simple on purpose: it finds a place to look at, and docs/DESIGN-PASS.md says what became of it. Functions from, try_from and fmt are the new form of 4 and 7.

1a   enums with one bare variant and one with fields, no more ("Option"); enums with a variant `Refused(..)` ("Result")
1b   `Enum::Variant` of an enum of 1a, by the file's `use` lines
1c   functions that take a u32 called number, failure or refusal, or answer a u32 of such a name or by an arm `Refused(n) => n`, but those of terrain and terrain_c,
     which C calls by numbers; a literal number for such an argument or in `Refused(..)`; structs with a bool field is, has, some, any, accepted, known, is_.. or has_.. among others
2    functions with four lines of body or more that are the same text once types, constants, numbers and called functions are taken for one, locals renamed in order;
     structs and enums (but those of 1a) with the same names of fields or variants
3    `while` and `loop`, each of one kind: labels (it has one), up (`while i < ..`, i steps by one alone), down (`while 0 < n`, n steps down), until (any other);
     3run: runs of three lines or more that differ in numbers alone; 3for: `for` beside them all
4a   types whose derives have no PartialEq: `Clone, Copy` alone, others, none
4b   functions that answer a bool from the same field or index of two values, or by a match whose arms are true, false, a == b or same_..(a, b); an enum Less, Equal, Greater
4c   functions whose body is one struct of two fields or more of one argument ("fields"), or a match of their one argument whose arms are values ("match"), or
     `let mut d = x; d.f = y; d` ("setter")
4d   functions that make or read digits (b'0', 48, `n = n * 10 + d`, `n = n / 10`), that put an ASCII code as a number, or whose arms are texts
5a   the same fact of a clause (names of arguments by order, .old, .new and .now left out) in three or more functions, each clause that has it; `result ≡ ..` and
     `out.new ≡ ..` aside, which say what is answered
5b   functions with three arguments in a row, name and type, that three or more functions have in that order
6    structs with an array and a number len, count, next, .._len, .._count, or arrays of one length; arguments the same way: a slice beside a len or count, two arrays of
     one length, `&mut [..]` beside `at` where a usize is answered; `while low < high`
7    a match with literal numbers for arms; two or more tests `if x == 3` (two digits at most) of one name that return; fn pointers and tables of them
8    Answers.antt and Invariants.antt: files, lines, answers (`pub GOAL : goal.GOAL`); `use` lines of all proofs; and in src labels of clauses fact_1, value, .._value, .._2
"""

import collections
import glob
import os
import re
import sys

COLUMNS = ["1a", "1b", "1c", "2", "3", "3run", "3for", "4a", "4b", "4c", "4d", "5a", "5b", "6", "7"]
PROOFS = ["8files", "8lines", "8answers", "8use", "8labels"]
C_CRATES = ("terrain", "terrain_c")
WORDS = set("as async await break const continue crate dyn else enum extern false fn for if impl in let loop match mod move mut pub ref return self static struct super"
            " trait true type unsafe use where while Self".split())
NEW_FORM = ("from", "try_from", "fmt")
PRIMITIVE = set("u8 u16 u32 u64 u128 usize i8 i16 i32 i64 i128 isize f32 f64 bool char str".split())
FLAG = re.compile(r"^(is|has|some|any|accepted|known)$|^(is|has)_")
LENGTH = re.compile(r"^(len|count|next)$|_(len|count)$")


# ---- reading

def blanked(text, start, end):
    return text[:start] + re.sub(r"[^\n]", " ", text[start:end]) + text[end:]


def masked(text):
    """The text with comments blank and strings empty, each character at its place."""
    def mask(m):
        t = m.group(0)
        if t.startswith("//"):
            return " " * len(t)
        return re.sub(r"[^\n]", "_", t[:-1]).replace("_", '"', 1) + '"' if t[-1] == '"' else "'" * len(t)
    return re.sub(r"//[^\n]*|b?\"(?:\\.|[^\"\\])*\"|b?'(?:\\.[^']*|[^'\\\n])'", mask, text, flags=re.S)


def closing(text, at):
    """The place behind what opens at `at`."""
    pairs = {"{": "}", "(": ")", "[": "]"}
    opens, closes, depth = text[at], pairs[text[at]], 0
    for i in range(at, len(text)):
        depth += (text[i] == opens) - (text[i] == closes)
        if depth == 0:
            return i + 1
    return len(text)


def parts(text, by=","):
    """What stands between the commas that are in no bracket."""
    out, depth, last = [], 0, 0
    plain = re.sub(r" (<<|>>|<=?|>=?|=>|->) ", lambda m: " " * len(m.group(0)), text)
    for i, c in enumerate(plain):
        depth += (c in "([{<") - (c in ")]}>")
        if c == by and depth == 0:
            out.append(text[last:i].strip())
            last = i + 1
    return [p for p in out + [text[last:].strip()] if p]


class File:
    """A file of src: its crate, its text, and the code alone."""

    def __init__(self, top, path):
        self.path, self.crate = os.path.relpath(path, top), os.path.relpath(path, top).split(os.sep)[1]
        self.text = open(path, encoding="utf-8").read()
        self.code = masked(self.text)
        for m in re.finditer(r"\bghost\b[^;{]*(\{[^;]*\})?[^;]*;", self.code):
            self.code = blanked(self.code, m.start(), m.end())
        self.functions = list(self.read_functions())
        self.types = list(self.read_types())
        self.used = self.read_uses()

    def line(self, at):
        return self.text.count("\n", 0, at) + 1

    def read_functions(self):
        for m in re.finditer(r"\bfn (\w+)\s*(<[^(]*>)?\(", self.code):
            end = closing(self.code, m.end() - 1)
            params = []
            for p in parts(self.code[m.end():end - 1]):
                name, colon, kind = p.partition(":")
                params.append((re.sub(r"^(mut|&mut|&'\w+|&)\s*", "", name).strip(), " ".join(kind.split())))
            clauses, head = [], re.compile(r"\b(requires|ensures|decreases)\b(\s+\w+)?\s*\{|[{;\[]")
            found = head.search(self.code, end)
            while found.group(0) == "[":
                found = head.search(self.code, closing(self.code, found.start()))
            result = " ".join(self.code[end:found.start()].replace("->", "").split())
            while found.group(1):
                close = closing(self.code, found.end() - 1)
                clauses.append((found.group(1), (found.group(2) or "").strip(), found.start(), self.text[found.end():close - 1]))
                self.code = blanked(self.code, found.start(), close)
                found = head.search(self.code, close)
            if found.group(0) == "{":
                yield Function(self, m.group(1), m.start(), params, result, clauses, found.start(), closing(self.code, found.start()))

    def read_types(self):
        for m in re.finditer(r"\b(struct|enum) (\w+)[^;{(]*\{", self.code):
            end = closing(self.code, m.end() - 1)
            before = re.search(r"((?:#\[[^\]]*\]\s*)*)(?:pub(?:\(\w+\))? )?$", self.code[:m.start()]).group(1)
            derives = re.findall(r"\w+", " ".join(re.findall(r"derive\(([^)]*)\)", before)))
            yield Type(self, m.group(1), m.group(2), m.start(), derives, parts(self.code[m.end():end - 1]))

    def read_uses(self):
        """Names that `use` lines bring, each with its crate and its own name."""
        out = {}
        for m in re.finditer(r"\buse ([^;]*);", self.code):
            path = " ".join(m.group(1).split())
            root = path.split("::")[0]
            for name in re.findall(r"\w+ as \w+|\w+", path[len(root):]):
                own, _, here = name.partition(" as ")
                out[here or own] = (self.crate if root in ("crate", "self", "super") else root, own)
        return out


class Function:
    def __init__(self, file, name, at, params, result, clauses, start, end):
        self.file, self.name, self.at, self.params, self.result, self.clauses = file, name, at, params, result, clauses
        self.start, self.end = start, end

    @property
    def body(self):
        return self.file.code[self.start + 1:self.end - 1]

    @property
    def own_text(self):
        return self.file.text[self.start + 1:self.end - 1]

    def lines(self):
        return sum(1 for line in self.body.split("\n") if line.strip())


class Type:
    def __init__(self, file, kind, name, at, derives, members):
        self.file, self.kind, self.name, self.at, self.derives = file, kind, name, at, derives
        members = [re.sub(r"^(#\[[^\]]*\]\s*)*(pub(\(\w+\))?\s+)?", "", m) for m in members]
        if kind == "struct":
            self.fields = [(m.partition(":")[0].strip(), " ".join(m.partition(":")[2].split())) for m in members]
        else:
            self.fields = [(re.match(r"\w+", m).group(0), " ".join(m[len(re.match(r"\w+", m).group(0)):].split())) for m in members]

    def shape(self):
        """What an own enum stands for: Option, Result or neither."""
        if self.kind != "enum":
            return None
        if any(name == "Refused" and held for name, held in self.fields):
            return "Result"
        return "Option" if sorted(bool(held) for _, held in self.fields) == [False, True] else None


# ---- the points: each adds (point, file, place in it, kind, what) to `found`

def own_enums(files, add):
    declared = {(t.file.crate, t.name): t for f in files for t in f.types if t.kind == "enum"}
    own = {key for key, t in declared.items() if t.shape()}
    for key in own:
        t = declared[key]
        add("1a", t.file, t.at, t.shape(), t.name)
    for f in files:
        for m in re.finditer(r"\b((?:\w+::)*)(\w+)::([A-Z]\w*)\b", f.code):
            if re.search(r"\buse [^;]*$", f.code[:m.start()]) or m.group(2)[0].islower():
                continue
            path, name = m.group(1).split("::")[0], m.group(2)
            crate, name = (path if path not in ("crate", "self", "super") else f.crate, name) if path else f.used.get(name, (f.crate, name))
            key = (crate, name)
            if key not in declared:
                key = (f.used.get(crate, (crate, ""))[0], name)
            if key not in declared:
                key = next((k for k in sorted(declared) if k[1] == name), key)
            if key in own and m.group(3) in [v for v, _ in declared[key].fields]:
                add("1b", f, m.start(2), declared[key].shape(), f"{name}::{m.group(3)}")
    return own


def numbers(files, add):
    takes = collections.defaultdict(set)
    for f in files:
        for fn in f.functions:
            if f.crate in C_CRATES:
                continue
            for i, (name, kind) in enumerate(p for p in fn.params if p[0] != "self"):
                if name in ("number", "failure", "refusal") and kind == "u32" and "line" not in fn.name:
                    takes[fn.name].add(i)
                    add("1c", f, fn.at, "takes", f"{fn.name}({name})")
            if fn.result == "u32" and (re.search(r"(^|_)(refusal|number|failure)(_of)?$", fn.name) or re.search(r"Refused\((\w+)\) => \1\b", fn.body)):
                add("1c", f, fn.at, "answers", fn.name)
    for f in files:
        for t in f.types:
            flags = [n for n, k in t.fields if k == "bool" and FLAG.search(n)]
            if t.kind == "struct" and flags and len(t.fields) > 1:
                add("1c", f, t.at, "flag", f"{t.name}.{flags[0]}")
        for m in re.finditer(r"\b(\w+)\(", f.code):
            name = m.group(1)
            if re.search(r"\bfn $", f.code[:m.start()]) or (name != "Refused" and name not in takes):
                continue
            given = parts(f.code[m.end():closing(f.code, m.end() - 1) - 1])
            places = {0} if name == "Refused" else takes[name]
            if any(i < len(given) and re.fullmatch(r"\d+", given[i]) for i in places):
                add("1c", f, m.start(), "literal", f"{name}({', '.join(' '.join(g.split()) for g in given)})")


def shape_of(fn):
    """A function's text with types, constants, numbers and called functions taken for one, and locals numbered in order."""
    text = "(" + ", ".join(n if n == "self" else f"{n}: {k}" for n, k in fn.params) + ") -> " + fn.result + " {" + fn.body + "}"
    tokens = re.findall(r"\"_*\"|'+|[A-Za-z_]\w*|\d[\w.]*|::|\S", text)
    out, names = [], {}
    for i, t in enumerate(tokens):
        before, after = tokens[i - 1] if i else "", tokens[i + 1] if i + 1 < len(tokens) else ""
        if t == "::":
            continue
        if after == "::" and re.match(r"\w", t):
            continue
        if re.match(r"\d", t) or re.fullmatch(r"[A-Z][A-Z0-9_]+", t):
            out.append("N")
        elif t in PRIMITIVE or re.match(r"[A-Z]", t):
            out.append("T")
        elif t in WORDS or not re.match(r"[a-z_]", t):
            out.append(t)
        elif after == "(" or before == "::":
            out.append("f")
        elif before == "." or (after == ":" and tokens[i + 2:i + 3] != [":"] and t not in names and "{" in tokens[:i]):
            out.append(t)
        else:
            out.append(names.setdefault(t, f"v{len(names)}"))
    return " ".join(out)


def twins(files, own, add):
    groups = collections.defaultdict(list)
    for f in files:
        for fn in f.functions:
            if fn.lines() >= 4:
                groups["fn", shape_of(fn)].append((f, fn.at, fn.name))
        for t in f.types:
            if (f.crate, t.name) not in own:
                groups[t.kind, tuple(n for n, _ in t.fields)].append((f, t.at, t.name))
    number = 0
    for (kind, _), members in sorted(groups.items(), key=lambda g: (g[1][0][0].path, g[1][0][1])):
        if len(members) > 1:
            number += 1
            for f, at, name in members:
                add("2", f, at, kind, f"{name} (group {number} of {len(members)})")
    return number


def loops(files, add):
    for f in files:
        for m in re.finditer(r"('\w+:\s*)?\b(while|loop|for)\b([^{;]*)\{", f.code):
            if m.group(2) == "for":
                if " in " in m.group(3):
                    add("3for", f, m.start(2), "labels" if m.group(1) else "for", "for" + m.group(3).rstrip())
                continue
            body, test = f.code[m.end():closing(f.code, m.end() - 1)], m.group(3).strip()
            up, down = re.match(r"([a-z]\w*) <=? ", test) or re.search(r"if (\w+) == \w+ \{\s*(break|return)", body), re.match(r"0 < (\w+)$", test)
            n, i = (down.group(1) if down else ""), (up.group(1) if up else "")
            before = re.search(rf"let (\w+) = {n} - 1;", body) if n else None
            kind = "until"
            if m.group(1):
                kind = "labels"
            elif n and (re.search(rf"\b{n} -= 1;", body) or before and re.search(rf"\b{n} = {before.group(1)};", body)):
                kind = "down"
            elif i and set(re.findall(rf"\b{i} [+-]?= (\w+)", body)) == {"1"} and re.search(rf"\b{i} \+= 1;", body):
                kind = "up"
            add("3", f, m.start(2), kind, (m.group(2) + " " + test).strip())


def unrolled(files, add):
    for f in files:
        for fn in f.functions:
            last, n, at = "", 1, fn.start + 1
            for line in fn.body.split("\n") + [""]:
                alike = re.sub(r"\b\d+\b", "N", line.strip())
                if alike == last and "(" in alike and "N" in alike:
                    n += 1
                else:
                    if n >= 3:
                        add("3run", f, at - 1, "alike", f"{fn.name}: {n} of {last}")
                    last, n = alike, 1
                at += len(line) + 1


def derives(files, add):
    for f in files:
        for t in f.types:
            if "PartialEq" not in t.derives:
                add("4a", f, t.at, {"": "none", "Clone, Copy": "Clone, Copy"}.get(", ".join(t.derives), "other"), f"{t.name} ({', '.join(t.derives) or 'no derive'})")
            if [n for n, _ in t.fields] == ["Less", "Equal", "Greater"]:
                add("4b", f, t.at, "order", t.name)


def arms(body):
    """The values of the arms, if the body is one match, `let y = x.f;` before it left out: (what is matched, values)."""
    m = re.fullmatch(r"(?:\s*let \w+ = \w+(?:\.\w+)+;)*\s*match ([^{]*?) (\{.*\})\s*", body, re.S)
    if not m or closing(m.group(2), 0) != len(m.group(2)):
        return None
    values, inner, at = [], m.group(2)[1:-1], 0
    while True:
        arrow = inner.find("=>", at)
        if arrow < 0:
            return m.group(1), values
        start = arrow + 2 + len(inner[arrow + 2:]) - len(inner[arrow + 2:].lstrip())
        if inner[start] == "{":
            at = closing(inner, start)
            values.append(inner[start + 1:at - 1].strip())
        else:
            value = parts(inner[start:])[0]
            values.append(value)
            at = start + len(value)


def by_hand(files, add):
    for f in files:
        for fn in f.functions:
            if fn.name in NEW_FORM:
                continue
            body, match = fn.body, arms(fn.body)
            same = any(m.group(1) != m.group(4) for m in re.finditer(r"\b(\w+)(\.\w+|\[\w+\]) (==|!=|<=?|>=?) (\w+)\2(?!\w)", body))
            pairs = re.search(r"\ba(\w) (==|!=|<|>) b\1\b", body)
            if fn.result == "bool" and (same or pairs):
                add("4b", f, fn.at, "fields", fn.name)
            elif fn.result == "bool" and match and all(re.fullmatch(r"true|false|\w+ == \w+|([\w:]*::)?same_\w+\([\w, ]*\)", v) for v in match[1]):
                add("4b", f, fn.at, "kinds", fn.name)
            elif match and len(fn.params) == 1 and fn.params[0][0] != "self" and all(is_value(v) for v in match[1]) and "\"" not in body:
                add("4c", f, fn.at, "match", fn.name)
            elif is_copy(body):
                add("4c", f, fn.at, "fields", fn.name)
            elif is_setter(fn):
                add("4c", f, fn.at, "setter", fn.name)
            own = fn.own_text
            if re.search(r"[-+<] b'0'|b'0' [-+]|\b48 \+|\b57 <|\bdigit\w*\(.*% 10|(\w+) = \1 \* 10 \+|(\w+) = \2 / 10;", own):
                add("4d", f, fn.at, "digits", fn.name)
            elif re.search(r"\bput\((?:[^()]|\([^()]*\))*, (10|32|4[0-9])\)", body):
                add("4d", f, fn.at, "code", fn.name)
            elif match and match[1] and sum(v.count('"') >= 2 for v in match[1]) * 2 > len(match[1]):
                add("4d", f, fn.at, "names", fn.name)


def is_value(text):
    """A name, a number, a variant or a struct: no step but conversions."""
    return not re.search(r"\b(if|match|while|for|loop|let|return)\b|[-+*/%] |&|!", text) and all(
        re.search(r"(_of|_out|^of_\w+|^[A-Z]\w*)$", name) for name in re.findall(r"(\w+)\(", text))


def is_copy(body):
    """One struct, each field a field or a value, two or more of them fields of one name."""
    body = re.sub(r"^(\s*let \w+ = \w+(\.\w+)+;)+", "", body).strip()
    m = re.match(r"[A-Z]\w*\s*\{", body)
    if not m or closing(body, m.end() - 1) != len(body):
        return False
    values = [p.partition(":")[2].strip() for p in parts(body[m.end():-1])]
    read = collections.Counter(v.split(".")[0] for v in values if re.fullmatch(r"[a-z]\w*(\.\w+)+", v))
    return all(re.fullmatch(r"(\w+(\.\w+)*)?|\w*(_of|_out)\([\w.]+\)|-?\d[\d.]*", v) for v in values) and any(n >= 2 for n in read.values())


def is_setter(fn):
    m = re.match(r"\s*let mut (\w+) = (\w+);", fn.body)
    if not m or m.group(2) not in [n for n, _ in fn.params]:
        return False
    rest = [s.strip() for s in fn.body[m.end():].split(";")]
    return len(rest) > 1 and rest[-1] == m.group(1) and all(re.fullmatch(r"let (mut )?\w+ = [\w.:]+|\w+(\.\w+)+ = [\w.:]+", s) for s in rest[:-1])


def facts(files, add):
    """Facts of clauses, and runs of arguments."""
    by_fact, by_run = collections.defaultdict(list), collections.defaultdict(set)
    for f in files:
        for fn in f.functions:
            names = [n for n, _ in fn.params]
            for word, _, at, text in fn.clauses:
                for fact in conjuncts(text):
                    seen = {}
                    fact = re.sub(r"(?<![\w.'])[a-z_]\w*", lambda m: seen.setdefault(m.group(0), f"#{len(seen)}") if m.group(0) in names else m.group(0), fact)
                    if not re.match(r"(result|#0\.new) ≡ (?!\d+$)", fact) and (seen or "result" in fact):
                        by_fact[re.sub(r"(#\d+)\.(old|new|now)\b", r"\1", fact)].append((fn, at, word))
            run = [p for p in fn.params if p[0] != "self"]
            for i in range(len(run) - 2):
                by_run[tuple(run[i:i + 3])].add(fn)
    number = 0
    for fact, places in sorted(by_fact.items()):
        if len({id(fn) for fn, _, _ in places}) >= 3:
            number += 1
            for fn, at, word in places:
                add("5a", fn.file, at, word, f"{fn.name}: {fact}")
    runs = {run for run, fns in by_run.items() if len(fns) >= 3}
    for f in files:
        for fn in f.functions:
            run = [p for p in fn.params if p[0] != "self"]
            held = [i for i in range(len(run) - 2) if tuple(run[i:i + 3]) in runs]
            if held:
                together = sorted({j for i in held for j in range(i, i + 3)})
                add("5b", f, fn.at, "arguments", f"{fn.name}({', '.join(run[j][0] for j in together)})")
    return number, len(runs)


def conjuncts(text):
    """The facts of a clause: what stands between the × that are in no bracket, brackets around a whole fact left out."""
    text = " ".join(text.split())
    while text.startswith("(") and closing(text, 0) == len(text):
        text = text[1:-1].strip()
    found = parts(text, "×")
    return [text] if len(found) < 2 else [fact for part in found for fact in conjuncts(part)]


def buffers(files, add):
    for f in files:
        for t in f.types:
            if t.kind != "struct":
                continue
            arrays = [k.rpartition(";")[2].strip(" ]") for _, k in t.fields if re.match(r"\[.*;.*\]$", k)]
            lengths = [n for n, k in t.fields if LENGTH.search(n) and k not in ("bool",) and not k.startswith("[")]
            if arrays and lengths:
                add("6", f, t.at, "array and length", t.name)
            if len(arrays) > len(set(arrays)):
                add("6", f, t.at, "parallel arrays", t.name)
        for fn in f.functions:
            arrays = [k.rpartition(";")[2].strip(" ]") for _, k in fn.params if re.match(r"(&(mut )?)?\[.*;.*\]$", k)]
            slices = [n for n, k in fn.params if re.match(r"&(mut )?\[[^;]*\]$", k)]
            lengths = [n for n, k in fn.params if re.search(r"^(len|count)$|_(len|count)$", n)]
            if slices and lengths:
                add("6", f, fn.at, "slice and length", f"{fn.name}({slices[0]}, {lengths[0]})")
            if len(arrays) > len(set(arrays)):
                add("6", f, fn.at, "parallel arguments", fn.name)
            if fn.result == "usize" and ("at", "usize") in fn.params and any(k.startswith("&mut [") for _, k in fn.params):
                add("6", f, fn.at, "writes at", fn.name)
        for m in re.finditer(r"\bwhile (low|lo|left|first) < (high|hi|right|last)\b", f.code):
            add("6", f, m.start(), "search", m.group(0))


def switches(files, add):
    for f in files:
        for fn in f.functions:
            for m in re.finditer(r"\bmatch [^{;]*\{", fn.body if fn.name not in NEW_FORM else ""):
                inside = fn.body[m.end():closing(fn.body, m.end() - 1)]
                if re.match(r"\s*(-?\d\w*|[A-Z][A-Z0-9_]+)( \| -?\d\w*)* =>", inside):
                    add("7", f, fn.start + 1 + m.start(), "match", f"{fn.name}: {m.group(0)[:-1].strip()}")
            tests = collections.Counter(re.findall(r"\bif (\w+) == \d\d? \{\s*return\b", fn.body))
            for name, n in tests.items():
                if n >= 2:
                    add("7", f, fn.at, "tests", f"{fn.name}: {n} of {name}")
            for name, kind in fn.params + [("answer", fn.result)]:
                if re.search(r"\bfn\s*\(", kind):
                    add("7", f, fn.at, "fn pointer", f"{fn.name}({name}: {kind})")
        for m in re.finditer(r"\[\s*fn\s*\(", f.code):
            add("7", f, m.start(), "table", "table of functions")


def labels(files, add):
    for f in files:
        for fn in f.functions:
            for word, label, at, _ in fn.clauses:
                if re.fullmatch(r"fact_\d+|(\w+_)?value|\w+_\d+", label):
                    kind = "numbered" if label[-1].isdigit() else "value" if label == "value" else ".._value"
                    add("8labels", f, at, kind, f"{fn.name}: {word} {label}")


class Proof:
    def __init__(self, top, path):
        self.path, self.crate = os.path.relpath(path, top), os.path.relpath(path, top).split(os.sep)[1]
        self.text = open(path, encoding="utf-8").read()

    def line(self, at):
        return self.text.count("\n", 0, at) + 1


def proofs(top, add):
    for path in sorted(glob.glob(os.path.join(top, "crates/*/proofs/**/*.antt"), recursive=True)):
        p, base = Proof(top, path), os.path.basename(path)
        for m in re.finditer(r"^(?:open |pub )*use ", p.text, re.M):
            add("8use", p, m.start(), "use", p.text[m.start():p.text.find("\n", m.start())])
        if base in ("Answers.antt", "Invariants.antt"):
            add("8files", p, 0, base, "")
            for n in range(p.text.count("\n")):
                add("8lines", p, None, base, "")
            for m in re.finditer(r"^(?:\w+ )*pub (\S+) : goal\.\S+\s*$", p.text, re.M):
                add("8answers", p, m.start(), base, m.group(1))


# ---- printing

def table(columns, found):
    """The counts as a table of Markdown: a row for each crate that has any, and their sum."""
    count = collections.Counter((p.crate, point) for point, p, _, _, _ in found)
    crates = sorted({crate for crate, point in count if point in columns})
    print("| Crate | " + " | ".join(columns) + " |")
    print("| --- |" + " ---: |" * len(columns))
    for crate in crates:
        print(f"| {crate} | " + " | ".join(str(count[crate, c] or "") for c in columns) + " |")
    print("| all | " + " | ".join(str(sum(count[crate, c] for crate in crates)) for c in columns) + " |")
    print()


def main(arguments):
    rest = [a for a in arguments if a != "-l"]
    top = os.path.realpath(rest[0] if rest else os.path.join(os.path.dirname(os.path.realpath(__file__)), ".."))
    files = [File(top, path) for path in sorted(glob.glob(os.path.join(top, "crates/*/src/**/*.rt"), recursive=True))]
    found = []

    def add(point, file, at, kind, what):
        found.append((point, file, at, kind, what))
    own = own_enums(files, add)
    numbers(files, add)
    groups = twins(files, own, add)
    loops(files, add)
    unrolled(files, add)
    derives(files, add)
    by_hand(files, add)
    same, runs = facts(files, add)
    buffers(files, add)
    switches(files, add)
    labels(files, add)
    proofs(top, add)
    table(COLUMNS, found)
    table(PROOFS, found)
    for point in COLUMNS + PROOFS:
        kinds = collections.Counter(kind for p, _, _, kind, _ in found if p == point)
        print(f"{point:8} {sum(kinds.values()):6}  " + ", ".join(f"{kind} {n}" for kind, n in sorted(kinds.items())))
    print(f"groups of 2: {groups}; facts of 5a: {same}; runs of three of 5b: {runs}")
    if "-l" in arguments:
        print()
        for point, f, at, kind, what in sorted((x for x in found if x[2] is not None), key=lambda x: ((COLUMNS + PROOFS).index(x[0]), x[1].path, x[2])):
            print(f"{point} {f.path}:{f.line(at)} {kind}: {what}")


if __name__ == "__main__":
    main(sys.argv[1:])
