#!/usr/bin/env python3
"""Counts the places in crates/*/src that one of eight older forms may stand in: `tools/forms.py [COMMIT]`, or the working tree.

It reads text and judges nothing: a place that it names is one to look at. Tests are left out. docs/DESIGN-PASS.md has what was found."""
import re
import subprocess
import sys
from collections import defaultdict

COMMIT = sys.argv[1] if len(sys.argv) > 1 else None


def run(*words):
    return subprocess.run(words, capture_output=True, text=True, check=True).stdout


def files(pattern):
    listed = run("git", "ls-tree", "-r", "--name-only", COMMIT) if COMMIT else run("git", "ls-files", "-co", "--exclude-standard")
    for name in sorted(listed.splitlines()):
        if re.fullmatch(pattern, name):
            try:
                yield name, run("git", "show", f"{COMMIT}:{name}") if COMMIT else open(name, encoding="utf-8").read()
            except FileNotFoundError:
                pass


SOURCES = [(n, t) for n, t in files(r"crates/\w+/src/.*\.rt") if not n.endswith("tests.rt") and "_tests/" not in n]


def line_of(text, at):
    return text.count("\n", 0, at) + 1


def grep(pattern, flags=re.M):
    return [(n, line_of(t, m.start()), " ".join(m.group(0).split())[:90]) for n, t in SOURCES for m in re.finditer(pattern, t, flags)]


class Fn:
    def __init__(self, file, line, name, params, result, clauses, body):
        self.file, self.line, self.name, self.params = file, line, name, params
        self.result, self.clauses, self.body = result, clauses, body
        self.changes = False


def functions():
    """Every function with a body: its parameters, its clauses and its body as text."""
    for name, text in SOURCES:
        lines = text.split("\n")
        for i, line in enumerate(lines):
            m = re.match(r"( *)(?:#\[.*\] )?(?:pub(?:\(crate\))? )?(?:const )?(?:extern \"C\" )?fn (\w+)", line)
            if not m:
                continue
            indent, head, j = m.group(1), line, i
            while not re.search(r"[{;]\s*$", lines[j]) and j + 1 < len(lines) and not re.match(indent + r" {4}(requires|ensures)", lines[j + 1]) \
                    and lines[j + 1] != indent + "{":
                j += 1
                head += " " + lines[j].strip()
            clauses = []
            while j + 1 < len(lines) and re.match(indent + r" {4}(requires|ensures)", lines[j + 1]):
                j += 1
                clauses.append(lines[j].strip().rstrip(";"))
            if j + 1 < len(lines) and lines[j + 1] == indent + "{":
                j += 1
            if not lines[j].rstrip().endswith("{"):
                continue
            k = j + 1
            while k < len(lines) and lines[k] != indent + "}":
                k += 1
            inside = re.search(r"fn \w+(?:<[^(]*>)?\((.*)\)", head)
            params = dict(re.findall(r"(\w+): ((?:[^,<(\[]|<[^>]*>|\[[^\]]*\])+)", inside.group(1))) if inside else {}
            result = re.search(r"\) -> (.*?)(?: \{)?$", head)
            f = Fn(name, i + 1, m.group(2), params, result.group(1).strip() if result else "", clauses, "\n".join(lines[j + 1:k]))
            f.changes = "&mut " in head
            yield f


FUNCTIONS = list(functions())


def shape(body):
    """The body with its names, numbers and texts put away."""
    out = []
    for token in re.findall(r"[A-Za-z_]\w*|\d+|\"[^\"]*\"|'[^']*'|\S", re.sub(r"//.*", "", body)):
        if token in ("match", "if", "else", "let", "mut", "return", "for", "in", "while", "self", "Ok", "Err", "Some", "None", "ref"):
            out.append(token)
        elif re.match(r"[A-Za-z_]", token):
            out.append("n")
        elif token[0].isdigit() or token[0] in "\"'":
            out.append("0")
        else:
            out.append(token)
    return tuple(out)


def by_hand():
    """A `?` written out."""
    return grep(r"Err\((\w+)\) => Err\((?:\w+::\w+\()?\1\)?\)|None => None|Ok\((\w+)\) => (?:Ok|Some)\(\2\)"
                r"|let (?:Some|Ok)\([^=]*= [^;]*?else \{\s*return (?:None|Err\(|Command::Unknown|Ok\(Command)[^;]*;")


def own_shapes():
    """Variants that say that nothing is there, or that something is refused, in an enum that is no error; numbers and flags as answers."""
    found = grep(r"^    (?:Nothing|Unknown|Absent|Accepted \{.*|Refused \{.*|TooSmall)[,{ ].*$")
    for f in FUNCTIONS:
        if f.result in ("u8", "u32", "u64") and f.name not in ("limit", "made_limit", "free", "len", "low", "digit_of"):
            found.append((f.file, f.line, f"{f.name} -> {f.result}"))
        if f.result == "bool" and f.changes:
            found.append((f.file, f.line, f"{f.name} -> bool"))
        for p, t in f.params.items():
            if t.strip() == "bool":
                found.append((f.file, f.line, f"{f.name}({p}: bool)"))
    return found


# Names that many types have, or that say something else in each crate.
COMMON = ("load put drop_row limit free power new from try_from get read len number fmt next answer run of clear place fits find told make write perform"
          " is_lawful").split()


def twins():
    """Functions of one shape, and functions and constants of one name in several crates."""
    found, shapes, names = [], defaultdict(list), defaultdict(set)
    for f in FUNCTIONS:
        s = shape(f.body)
        if len(s) >= 12:
            shapes[s].append(f)
        if f.name not in COMMON and f.file.split("/")[1] not in ("rig", "service"):
            names[f.name].add((f.file, f.line))
    for group in shapes.values():
        if len(group) > 1:
            found.append((group[0].file, group[0].line, "one shape: " + ", ".join(f"{f.file.split('/')[1]}::{f.name}" for f in group)))
    for n, line, text in grep(r"^pub const (\w+)|^const (\w+)"):
        if text.split()[-1] != "USAGE":
            names[text.split()[-1]].add((n, line))
    for name, places in sorted(names.items()):
        if len({p.split("/")[1] for p, _ in places}) > 1:
            first = sorted(places)[0]
            found.append((first[0], first[1], "one name: " + name + " in " + ", ".join(sorted({p.split("/")[1] for p, _ in places}))))
    return found


def counted():
    """Loops over a count, and recursions that count down."""
    return grep(r"^ *while [^{]*\{|^ *for \w+ in [^{]*\.\.[^{]*\{|\.enumerate\(\)|\b(?:count|left|index|i|session) - 1\b")


def conversions():
    """Functions whose body is one match from names to numbers, texts or names, and comparisons and flags written out."""
    found = []
    for f in FUNCTIONS:
        body = " ".join(f.body.split())
        arm = r"[\w:]+(?:\(_\)| \{[^}]*\})?(?: \| [\w:]+)* => (?:Some\(|Ok\(|Err\()?(?:[\w:]+|\"[^\"]*\"|\d+)(?:\(\w+\))?\)?,? ?"
        if re.fullmatch(r"match [\w.*]+ \{ (?:" + arm + r"){2,}\}", body):
            found.append((f.file, f.line, f.name))
        elif re.fullmatch(r"if [\w.() <=>]+ \{ [\w]+ \} else \{ [\w]+ \}|\w+ == \w+", body):
            found.append((f.file, f.line, f.name))
    return found


def repeated():
    """Facts that stand in three clauses or more, parameters by their types; parameters that go together in four private signatures or more."""
    facts, pairs = defaultdict(list), defaultdict(list)
    for f in FUNCTIONS:
        for clause in f.clauses:
            text = re.sub(r"^(requires|ensures)\*? ?\w* ?", r"\1 ", clause)
            for p, t in f.params.items():
                text = re.sub(rf"\b{p}\b", "<" + t.strip() + ">", text)
            parts = re.search(r"\{ (.*) \}", text)
            for part in re.split(r" × ", parts.group(1)) if parts else []:
                facts[re.sub(r"[()]", "", part)].append(f)
        ps = sorted(f"{p}: {re.sub(chr(39) + r'[a-z]+ ', '', t.strip())}" for p, t in f.params.items() if p not in ("heap",))
        for i, a in enumerate(ps):
            for b in ps[i + 1:]:
                pairs[a, b].append(f)
    found = [(g[0].file, g[0].line, f"in {len(g)} contracts: {fact[:70]}") for fact, g in sorted(facts.items(), key=lambda x: -len(x[1]))
             if len(g) >= 3 and re.search(r"[<≤≡]", fact) and not fact.startswith("result ≡") and "result ≡" not in fact]
    found += [(g[0].file, g[0].line, f"in {len(g)} signatures: {a}, {b}") for (a, b), g in sorted(pairs.items(), key=lambda x: -len(x[1])) if len(g) >= 4]
    return found


def beside():
    """A length kept beside a buffer."""
    found = []
    for n, t in SOURCES:
        for m in re.finditer(r"struct (\w+)[^{;]*\{(.*?)^\}", t, re.S | re.M):
            fields = m.group(2)
            if re.search(r"\b(count|len|length|taken|first): (u8|usize|u32)", fields) and re.search(r": (Vec<|\[|&'a \[)", fields):
                found.append((n, line_of(t, m.start()), m.group(1)))
    return found


def switches():
    """Function pointers, traits of one method, and matches that forward one call to every variant."""
    found = grep(r": fn\(|\bdyn \w+")
    for n, t in SOURCES:
        for m in re.finditer(r"^pub trait (\w+)[^{]*\{(.*?)^\}", t, re.S | re.M):
            if len(re.findall(r"\bfn ", m.group(2))) == 1:
                found.append((n, line_of(t, m.start()), "trait " + m.group(1)))
    for f in FUNCTIONS:
        body = " ".join(f.body.split())
        arms = re.findall(r"\w+::\w+\((\w+)\) => \1\.(\w+)\(", body)
        if body.startswith("match") and len(arms) >= 2 and len({a[1] for a in arms}) == 1:
            found.append((f.file, f.line, f"{f.name} forwarded"))
    return found


def proofs():
    rows = []
    answers = list(files(r"crates/\w+/proofs/.*/Answers\.antt"))
    rows.append(("crates", 0, f"{len(answers)} files of answers, {sum(len(re.findall(r': goal[.]', t)) for _, t in answers)} answers, "
                 f"{sum(t.count(chr(10)) for _, t in answers)} lines"))
    lemmas = [(n, t) for n, t in files(r"crates/\w+/proofs/.*\.antt") if not re.search(r"(Answers|Invariants|Lib)\.antt$", n)]
    rows.append(("crates", 0, f"{len(lemmas)} files of lemmas, {sum(len(re.findall(r'(?m)^(?:pub |abbrev pub |unfoldable pub )', t)) for _, t in lemmas)} public names, "
                 f"{sum(t.count(chr(10)) for _, t in lemmas)} lines"))
    return rows


POINTS = [("1a. a `?` written out", by_hand), ("1b. own shapes, number codes, flags", own_shapes), ("2. twins", twins), ("3. counted by hand", counted),
          ("4. conversions by hand", conversions), ("5. repeated facts and parameters", repeated), ("6. a length beside a buffer", beside),
          ("7. switches", switches), ("8. proofs", proofs)]

for title, find in POINTS:
    places = find()
    print(f"## {title}: {len(places)}")
    for file, line, text in sorted(places, key=lambda p: (p[0], p[1])) if find not in (repeated, proofs) else places:
        print(f"{file}:{line}: {text}")
