#!/usr/bin/env python3
"""Lists the places of src/ that might be written plainer, by eight points. Run it at the repository's root.

  tools/places.py [COMMIT]     of a commit, or of the files as they stand
  tools/places.py -v [COMMIT]  with the places

What it finds are candidates; docs/DESIGN-PASS.md says which of them are places and what became of each.
"""
import collections
import re
import subprocess
import sys

args = [a for a in sys.argv[1:] if a != "-v"]
verbose = "-v" in sys.argv
commit = args[0] if args else None


def run(*words):
    return subprocess.run(words, capture_output=True, text=True, check=True).stdout


def paths(kind):
    names = run("git", "ls-tree", "-r", "--name-only", commit) if commit else run("git", "ls-files", "-co", "--exclude-standard")
    return [n for n in names.splitlines() if re.fullmatch(kind, n)]


def text(path):
    return run("git", "show", f"{commit}:{path}") if commit else open(path).read()


def bare(source):
    return re.sub(r"//[^\n]*", "", source)


def split(words):
    """Cuts at commas that stand in no bracket."""
    parts, depth, last = [], 0, 0
    for i, c in enumerate(words):
        depth += (c in "([{<") - (c in ")]}>")
        if c == "," and depth == 0:
            parts.append(words[last:i])
            last = i + 1
    return [p.strip() for p in [*parts, words[last:]] if p.strip()]


def closing(s, at, opens, closes):
    depth = 0
    for i in range(at, len(s)):
        depth += (s[i] == opens) - (s[i] == closes)
        if depth == 0:
            return i
    return len(s)


class Function:
    def __init__(self, path, s, found):
        self.path, self.name = path, found.group(1)
        start = s.index("(", found.end() - 1)
        end = closing(s, start, "(", ")")
        self.params = [re.sub(r"\s+", " ", p) for p in split(s[start + 1 : end])]
        self.clauses, at = [], end
        for clause in re.finditer(r"(requires|ensures)\*?( \w+)? \{", s[end:]):
            here = end + clause.start()
            if re.search(r"[;{}]", re.sub(r"(requires|ensures)", "", s[at + 1 : here])):
                break
            at = closing(s, end + clause.end() - 1, "{", "}")
            self.clauses.append((clause.group(1), s[end + clause.end() : at].strip()))
        body = s.find("{", at + 1)
        stop = s.find(";", at + 1)
        self.body = "" if body < 0 or 0 <= stop < body else s[body : closing(s, body, "{", "}") + 1]

    def shape(self):
        words = re.findall(r"[A-Za-z_]\w*|\d[\d_]*|\S", self.body)
        keep = {"match", "if", "else", "let", "for", "in", "while", "return", "mut", "self", "Ok", "Err", "Some", "None", "as"}
        return tuple(w if w in keep else "N" if w[0].isdigit() else "i" if re.match(r"[A-Za-z_]", w) else w for w in words)

    def __str__(self):
        return f"{self.path.replace('crates/', '').replace('/src', '')}: {self.name}"


sources = {p: text(p) for p in paths(r"crates/\w+/src/.*\.rt")}
functions, types = [], []
for path, source in sources.items():
    cut = source.find("#[cfg(test)]")
    s = bare(source if cut < 0 else source[:cut])
    for found in re.finditer(r"\bfn (\w+)[^;{]*?\(", s):
        functions.append(Function(path, s, found))
    for found in re.finditer(r"((?:#\[[^\n]*\]\s*)*)(?:pub(?:\(crate\))? )?(struct|enum) (\w+)[^;{(]*([{(;])", s):
        at = found.end() - 1
        body = "" if found.group(4) == ";" else s[at + 1 : closing(s, at, found.group(4), {"{": "}", "(": ")"}[found.group(4)])]
        fields = [re.sub(r"\s+", " ", f) for f in split(body) if not f.strip().startswith("ghost")]
        types.append((path, found.group(2), found.group(3), fields, found.group(1)))


def short(path):
    return path.replace("crates/", "").replace("/src", "")


points = collections.OrderedDict()
points["1a enums of two cases, one of them bare"] = [
    f"{short(p)}: {n}" for p, k, n, f, _ in types if k == "enum" and len(f) == 2 and sum(bool(re.search(r"[({]", x)) for x in f) < 2
]
points["1b a flag, or a number for a kind, in a struct or a case"] = [
    f"{short(p)}: {n}.{x}" for p, k, n, fs, _ in types for f in fs for x in re.findall(r"\w+: bool|(?:layer|number|kind|code|bands): u\d+", f)
]
points["1c numbers for kinds or refusals as answers"] = [f"{f}" for f in functions if f.name in ("number", "layer", "kind", "code")]
shapes = collections.defaultdict(list)
for f in functions:
    if len(f.shape()) >= 9:
        shapes[f.shape()].append(f)
points["2a functions of one shape"] = [" = ".join(str(f) for f in fs) for fs in shapes.values() if len(fs) > 1]
alike = collections.defaultdict(list)
for p, k, n, f, _ in types:
    if k == "struct" and f:
        alike[tuple(sorted(f))].append(f"{short(p)}: {n}")
    if k == "enum":
        cases = collections.Counter(re.sub(r"^\w+", "", x).strip() for x in f if re.search(r"[({]", x))
        for fields, count in cases.items():
            if count > 1:
                alike[(n, fields)] = [f"{short(p)}: {count} cases of {n} with {fields}"] * 2
points["2b types and cases with the same fields"] = [" = ".join(dict.fromkeys(v)) for v in alike.values() if len(v) > 1]
names = collections.defaultdict(list)
for f in functions:
    if f.body and not f.params[:1] == ["&self"] and not f.params[:1] == ["self"]:
        names[f.name].append(f)
points["2c free functions of one name"] = [
    " = ".join(str(f) for f in fs) for n, fs in names.items() if len(fs) > 1 and n not in ("fmt", "from", "main", "new", "try_from", "check")
]
points["3 loops that count an index, and while loops"] = [
    f"{short(p)}: {m.group(0).strip()}" for p, s in sources.items() for m in re.finditer(r"for \w+ in \(?[^\n{]*\.\.[^\n{]*\{|while [^\n]*\{", bare(s.split("#[cfg(test)]")[0]))
]
points["4a data types without a derived ==, Debug"] = [
    f"{short(p)}: {n}" for p, k, n, f, d in types if not re.search(r"PartialEq", d) and not any("&" in x for x in f) and "Drop" not in d
]
points["4b printing and conversion in functions of their own"] = [
    str(f) for f in functions if re.match(r"(print|write|put|show)_|dollars_of|from_|to_", f.name)
]
points["4c comparison of a case by match"] = [str(f) for f in functions if re.fullmatch(r"is_\w+", f.name) and re.search(r"match self", f.body)]
clauses = collections.defaultdict(list)
for f in functions:
    for kind, c in f.clauses:
        clauses[(kind, re.sub(r"\s+", " ", c))].append(f)
points["5a clauses that stand in three contracts or more"] = [
    f"{len(fs)} × {k} {{ {c[:100]} }}" for (k, c), fs in clauses.items() if len(fs) >= 3
]
pairs = collections.defaultdict(list)
for f in functions:
    for a, b in zip(f.params, f.params[1:]):
        if not re.match(r"&?('\w+ )?(mut )?self", a):
            pairs[(a, b)].append(f)
points["5b parameters side by side in three functions or more"] = [f"{len(fs)} × ({a}, {b})" for (a, b), fs in pairs.items() if len(fs) >= 3]
points["6a arrays and lent slices in structs"] = [
    f"{short(p)}: {n}.{x}" for p, k, n, f, _ in types for x in f if re.search(r"\[[^\]]+\]", x)
]
points["6b places or lengths handed beside a buffer"] = [
    str(f) for f in functions if any(re.search(r"&mut \[", p) for p in f.params) and any(re.match(r"(at|len|end|first|n): usize", p) for p in f.params)
]
points["7 function values, closures and dyn in signatures"] = [str(f) for f in functions if any(re.search(r"\bFn(Once|Mut)?\(|dyn |\bfn\(", p) for p in f.params)]
answers = {p: text(p) for p in paths(r"crates/\w+/proofs/.*\.antt")}
points["8 answers and invariants in proofs/"] = [p for p, s in answers.items() for _ in re.findall(r"^(?:abbrev )?pub [\w-]+ : goal\.", s, re.M)]
points["8 lemmas in proofs/"] = [p for p, s in answers.items() for _ in re.findall(r"^(?:abbrev |unfoldable )?(?:pub )?[\w-]+ : (?!goal\.)", s, re.M)]
points["8 lines of proofs/"] = [p for p, s in answers.items() for _ in s.splitlines()]
print(f"{len(functions)} functions, {len(types)} structs and enums, {sum(len(s.splitlines()) for s in sources.values())} lines of src/")
for point, places in points.items():
    print(f"{len(places):5}  {point}")
    if verbose and not point.startswith("8"):
        for place in places:
            print(f"         {place}")
