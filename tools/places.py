#!/usr/bin/env python3
"""Counts the places in src/ that a look for older forms finds, by crate, in the order of crates.txt. At the top of a checkout, of any commit:

    python3 tools/places.py LIST [counts]

LIST is one of those below, a point (`1` has the lists 1-..), or `all`. Each place is printed as crate/file:line; with `counts` only the numbers are. It goes by
the text of src/*.rt, without comments and strings, and judges nothing: that is for a reader. docs/DESIGN-PASS.md tells what became of each place.
"""
import collections
import os
import re
import sys

TABLES = ("files", "contents", "open_files", "processes", "policy", "rom")
KEYWORDS = set("as break const continue crate else enum extern false fn for if impl in let loop match mod mut pub ref return self struct true type use while".split())
INTEGERS = r"(?:u8|u16|u32|u64|usize)"
NONE_SAID = re.compile(r"//.*(where (?:there is |it has |it finds |it names )?none|where none|where (?:it|there) (?:is|are) (?:no|missing|empty|broken)\b|where there are not|where they do not|"
                       r"(?<!with )\b\d+ (?:where|for|else|past)|else 0\b|one past the last|the number past the last|is past the entries|for none|What is no |stands for no |0 past)")
NUMBERS = (r"\b((?:kind|refusal|reason|memory|table|part|call): &?(?:mut )?" + INTEGERS + r")\b|^pub const (FREE|PLAIN|DIRECTORY|LINK)\b")
FAILURES = {"Bad", "Broken", "OutOfRange", "Forbidden", "Stopped", "Refused", "None", "Err", "Unsound"}
# Terms of contracts that say what the lent tables are, as they stand in clauses.
TERMS = ("files_in files.now", "tree_in rom.now files.now contents.now", "tree files.now contents.now", "shown_of files.now contents.now", "tab FILE_WIDTH files.now",
         "tab OPEN_FILE_WIDTH open_files.now", "desc_of processes.now", "proc_of processes.now", "fixed policy.now rom.now",
         "store files.now contents.now open_files.now processes.now", "store files.new contents.new open_files.new processes.new", "F C : List", "E P : List", "«data».now",
         "call_of c path.now «data».now", "ofd_held (desc_of processes.now) p i", "dirent_at dir.now", "file_in t.now", "tree_of t.now")
# Sets of parameters that go together: their names, and from how many on a function counts.
SETS = {"words of a name": (("low", "high"), 2), "process and descriptor": (("p", "i"), 2), "block": (("n", "p", "d", "output", "at"), 4), "call by parts": (("process", "call", "descriptor", "fd", "number"), 3),
        "a call": (("c", "path", "data", "buffer"), 3), "open with its mode": (("m", "truncating"), 2), "links and parents": (("links", "parents"), 2)}


def without_texts(s):
    """Comments, strings and characters become spaces; lines stay."""
    return re.sub(r'//[^\n]*|b?"(?:\\.|[^"\\])*"|b?\'(?:\\x..|\\.|[^\'\\\n])\'', lambda m: ("" if m[0][0] == "/" else "0") + re.sub(r"[^\n]", " ", m[0][m[0][0] != "/":]), s, flags=re.S)


def closing(s, i):
    """The place behind the bracket that closes the one at i."""
    deep = 0
    for k in range(i, len(s)):
        deep += (s[k] in "([{") - (s[k] in ")]}")
        if deep == 0:
            return k + 1
    return len(s)


class Function:
    """A function: `parameters` [(name, type)], `result`, `clauses` and `body` as text, and where it stands."""

    def __init__(self, crate, file, text, code, m):
        self.crate, self.file, self.name, self.line = crate, file, m[1], code.count("\n", 0, m.start()) + 1
        i = code.find("(", m.end() - 1)
        end = closing(code, i)
        inner = code[i + 1:end - 1]
        self.parameters = [(n, " ".join(t.split())) for n, t in re.findall(r"(\w+)\s*:\s*((?:[^,<>\[\]()]|<[^>]*>|\[[^\]]*\]|\([^)]*\))+)", inner)]
        self.clauses, k, self.body = [], end, ""
        while k < len(code) and code[k] != ";":
            if code[k] == "{":
                after = closing(code, k)
                if re.search(r"\b(?:requires|ensures)\*?(?:\s+\w+)?\s*$", code[end:k]):
                    self.clauses.append(" ".join(text[k + 1:after - 1].split()))
                    k = after
                    continue
                self.body, self.body_line = code[k + 1:after - 1], code.count("\n", 0, k) + 1
                break
            k = closing(code, k) if code[k] == "[" else k + 1
        self.result = re.split(r"\b(?:requires|ensures)\b", code[end:k])[0].replace("->", "").strip()
        self.names = [n for n, _ in self.parameters]

    def place(self, offset=None):
        line = self.line if offset is None else self.body_line + self.body.count("\n", 0, offset)
        return f"{self.crate}/{self.file}:{line}"


def read():
    crates = [re.split(r"[ :]", l)[0] for l in open("crates.txt", encoding="utf-8") if l.strip() and not l.startswith("#")]
    files = []
    for crate in crates:
        top = os.path.join("crates", crate, "src")
        found = [os.path.join(d, f) for d, _, fs in os.walk(top) for f in fs if f.endswith(".rt")]
        for path in sorted(found):
            with open(path, encoding="utf-8") as f:
                text = f.read()
            files.append((crate, os.path.relpath(path, top), text, without_texts(text)))
    return crates, files


CRATES, FILES = read()
FUNCTIONS = [Function(c, f, t, s, m) for c, f, t, s in FILES for m in re.finditer(r"\bfn\s+(\w+)\s*(?:<[^(]*>)?\s*\(", s)]


def matches(pattern, comments=False):
    """Every line that the pattern finds something on."""
    for c, f, t, s in FILES:
        for n, line in enumerate((t if comments else s).split("\n"), 1):
            if m := re.search(pattern, line):
                yield f"{c}/{f}:{n}", " ".join(line.split())[:150] if comments else next((g for g in m.groups() if g), m[0])


def types(word):
    """Every struct or enum: its place, name, and the text between its braces or brackets."""
    for c, f, t, s in FILES:
        for m in re.finditer(rf"\b{word}\s+(\w+)(?:<[^{{(]*>)?\s*([{{(])", s):
            yield f"{c}/{f}:{s.count(chr(10), 0, m.start()) + 1}", m[1], s[m.end():closing(s, m.end() - 1) - 1]


def enums():
    """Enums with a case that has a value, of two cases in all or with a case that is named as a failure."""
    for place, name, body in types("enum"):
        cases = re.findall(r"(\w+)\s*(\([^)]*\)|\{[^}]*\})?\s*(?:,|$)", body.strip())
        full = [n for n, v in cases if v]
        if full and (len(cases) == 2 or any(n in FAILURES for n, _ in cases)):
            yield place, f"{name} {{ {', '.join(n + v for n, v in cases)} }}"


def flags():
    return ((place, f"{name}.{n}: bool") for place, name, body in types("struct") for n in re.findall(r"(\w+)\s*:\s*bool\b", body))


def outs():
    """A function whose result is a flag or a number, and which writes what it gives into a parameter."""
    for f in FUNCTIONS:
        if any(re.fullmatch(rf"&mut {INTEGERS}", t) for _, t in f.parameters) or (re.fullmatch(rf"bool|{INTEGERS}", f.result) and any(t.startswith("&mut [") for _, t in f.parameters)):
            yield f.place(), f"{f.name} -> {f.result}"


def alike(f):
    """A body with its identifiers, types and constants numbered in the order in which they come, and every number 0. Parameters and result belong to it."""
    seen, out = {}, []
    for w in re.findall(r"\w+|[^\w\s]", " ".join(t for _, t in f.parameters) + " -> " + f.result + " { " + f.body):
        out.append("0" if w[0].isdigit() else w if w in KEYWORDS or not w[0].isalpha() else "$" + str(seen.setdefault(w, len(seen))))
    return re.sub(r", (?=[)\]}])", "", " ".join(out))


def twins():
    """Functions of at least ten words whose bodies are the same but for names, types and constants; those that are a single call are left out."""
    groups = collections.defaultdict(list)
    for f in FUNCTIONS:
        if not re.fullmatch(r"\s*[\w:]+\([^{};]*\)\s*", f.body) and len(re.findall(r"\w+|[^\w\s]", f.body)) >= 10:
            groups[alike(f)].append(f)
    for number, fs in enumerate((g for g in groups.values() if len(g) > 1), 1):
        for f in fs:
            yield f.place(), f"group {number}: {f.name}"


def accessors():
    """Functions whose body is one read or write of one word of a record, by a width and a column; and those that pass such a one on behind a test."""
    for f in FUNCTIONS:
        body = " ".join(f.body.split())
        if re.search(r"\b\w*WIDTH \* \(", body) and ";" not in body:
            yield f.place(), f"{f.name}: a column by its width"
        elif (m := re.search(r"\btables::(files|processes|open_files)::\w+\(", body)) and body.count("(") <= 4 + 3 * body.count("is_slot"):
            yield f.place(), f"{f.name}: by {m[0][:-1]}"


def loops():
    for f in FUNCTIONS:
        for m in re.finditer(r"(?m)^\s*(?:while\b([^{]*)|loop\b)", f.body):
            yield f.place(m.end()), f"{f.name}: {'while' + ' ' + ' '.join(m[1].split()) if m[1] else 'loop'}"


def rebuilt():
    """A struct copied and one field set, or written out field by field from another of its kind, or its fields taken into locals one by one."""
    for f in FUNCTIONS:
        if re.search(r"let mut (\w+) = (?:\w+|\w+\(\w+, \w+\));\s*(?:\1\.\w+ = [^;]*;\s*)+\1\s*$", f.body.strip()):
            yield f.place(), f"{f.name}: copied, then set"
        for found, how in ((re.findall(r"\blet (?:mut )?(\w+) = \w+\.\1;", f.body), "taken out by hand"), (re.findall(r"\b(\w+): \w+\.\1,", f.body), "handed on")):
            if len(found) >= 3:
                yield f.place(), f"{f.name}: {len(found)} fields {how}"


def conversions():
    """A whole function that turns one value into another kind: a match onto numbers or from them, or one cast or one remainder."""
    for f in FUNCTIONS:
        body = " ".join(f.body.split())
        to, out = re.findall(r"[\w:]+ => \d+", body), re.findall(r"\d+ => [\w:]+", body)
        if len(f.parameters) <= 1 and (len(to) > 2 or len(out) > 2):
            yield f.place(), f"{f.name}: a match {'onto' if len(to) > 2 else 'from'} numbers"
        elif re.fullmatch(rf"\(?\w+(?:\.0)? (?:% \w+\) )?as {INTEGERS}", body):
            yield f.place(), f"{f.name}: one cast"
        elif re.search(rf"% 256\) as u8|\(\w+ % \w+\) as {INTEGERS}|return \w+ as {INTEGERS};|\bas u32 \* 256|256 \* \(", body):
            yield f.place(), f"{f.name}: bytes and numbers"


def comparisons():
    """A whole function that is one comparison; and a test of two tuple structs by their numbers."""
    for f in FUNCTIONS:
        body = " ".join(f.body.split())
        if f.result == "bool" and re.fullmatch(r"[^;{}=!<>]+ (?:==|!=|<=|<) [^;{}=!<>]+", body):
            yield f.place(), f"{f.name}: {body[:90]}"
        else:
            for m in re.finditer(r"\w+(?:\([^()]*\))?\.0 (?:==|!=) [\w:.]+", f.body):
                yield f.place(m.start()), f"{f.name}: {m[0]}"


def printing():
    """Functions that print or write text."""
    programs = ("console", "recorded", "day", "script_output")
    return ((f.place(), f.name) for f in FUNCTIONS if f.crate in programs and re.match(r"(?:print|write|say|end)_(?!bytes$)\w+", f.name))


def searches():
    """Functions that look for a word in a list of words, for a byte in a text, or for a name by its rank."""
    return ((f.place(), f.name) for f in FUNCTIONS if re.search(r"\b(?:index_of|find|dirent_ranked|rank_of)\(", f.body))


def together(least, by_mut):
    """Functions with so many of the lent tables as parameters, all to read, or one of them to write."""
    for f in FUNCTIONS:
        held = [t for n, t in f.parameters if n in TABLES]
        mutable = any(t.startswith("&") and "mut" in t for t in held)
        if len(held) >= least and mutable == by_mut:
            yield f.place(), f"{f.name}: {len(held)}"


def sets():
    for label, (names, least) in SETS.items():
        for f in FUNCTIONS:
            if len(set(names) & set(f.names)) >= least:
                yield f.place(), f"{label}: {f.name}"


def facts():
    """Terms that stand in the contracts of three or more functions."""
    for term in TERMS:
        found = [f for f in FUNCTIONS if any(term in c for c in f.clauses)]
        if len(found) >= 3:
            yield from ((f.place(), f"{term}: {f.name}") for f in found)


def lengths():
    """A field or a parameter that is the length of another, an array with a number beside it, and several arrays side by side."""
    for place, name, body in types("struct"):
        names = re.findall(r"(\w+)\s*:", body)
        yield from ((place, f"{name}.{n}") for n in names if n in ("sizes", "next", "written") or (re.search(r"_(?:size|length)$", n) and n.rsplit("_", 1)[0] in names))
    for f in FUNCTIONS:
        for m in re.finditer(r"let mut (\w+) = (\[[^\]]*; [^\]]*\]|io::large_buffer\(\))", f.body):
            yield f.place(m.start()), f"{f.name}: let mut {m[1]} = {m[2]}"
        if "out" in f.names and "at" in f.names:
            yield f.place(), f"{f.name}: writes from `at` on into a slice"


def switches():
    """A function that matches on a parameter of its own and calls another function in three arms or more; a parameter that is a flag."""
    for f in FUNCTIONS:
        for m in re.finditer(r"\bmatch (\w+) \{", f.body):
            arms = re.findall(r"=> \{?\s*[\w:]+\(", f.body[m.start():closing(f.body, m.end() - 1)])
            if m[1] in f.names and len(arms) >= 3:
                yield f.place(m.start()), f"{f.name}: match {m[1]}, {len(arms)} arms call"
        for n, t in f.parameters:
            if t == "bool":
                yield f.place(), f"{f.name}: flag {n}"


def proofs():
    """In proofs/: answers whose text stands three times or more in the repository, and laws that two files or more state word for word."""
    answers, laws = collections.defaultdict(list), collections.defaultdict(list)
    for crate in CRATES:
        for d, _, fs in os.walk(os.path.join("crates", crate, "proofs")):
            for path in sorted(os.path.join(d, f) for f in fs if f.endswith(".antt")):
                with open(path, encoding="utf-8") as f:
                    text = f.read()
                own = os.path.basename(path) in ("Answers.antt", "Invariants.antt")
                for m in re.finditer(r"(?m)^([\w'+-]+) [^\n:=]*= (.*(?:\n[ \t].*)*)" if own else r"(?m)^(?:abbrev |pub )*([\w'-]+) : (.*(?:\n[ \t].*)*)", text):
                    place = f"{path.removeprefix('crates/')}:{text.count(chr(10), 0, m.start()) + 1}", m[1]
                    said = " ".join(m[2].split())
                    if path.endswith("Answers.antt") if own else re.search("≡|→", said) and "Type" not in said and len(said) > 40:
                        (answers if own else laws)[said].append(place)
    for kind, by, least in (("answer", answers, 3), ("law", laws, 2)):
        for text, found in by.items():
            if len(found) >= least:
                yield from ((p, f"{kind} {n}: {text[:70]}") for p, n in found)


LISTS = {
    "1-enums": enums, "1-arms": lambda: matches(r"\b((?!Refusal|Reason)\w+::(?:" + "|".join(sorted(FAILURES)) + r")\b.*=>|Err\(.*=>)"), "1-flags": flags, "1-outs": outs,
    "1-sentinels": lambda: matches(r"\bconst (NO_\w+|MOST|\w+_AND_NONE)\b"), "1-said": lambda: matches(NONE_SAID, True), "1-numbers": lambda: matches(NUMBERS),
    "2-twins": twins, "2-accessors": accessors, "3-loops": loops,
    "4-rebuilt": rebuilt, "4-conversions": conversions, "4-comparisons": comparisons, "4-printing": printing,
    "5-tables-read": lambda: together(3, False), "5-tables-written": lambda: together(3, True), "5-sets": sets, "5-facts": facts,
    "6-lengths": lengths, "6-searches": searches, "7-switches": switches, "8-proofs": proofs,
}


def main(argv):
    if not argv or not (names := [n for n in LISTS if argv[0] == "all" or n == argv[0] or n.split("-")[0] == argv[0]]):
        print(__doc__ + "\nLists: " + " ".join(LISTS))
        return 2
    for name in names:
        found = list(LISTS[name]())
        by = collections.Counter(p.split("/")[0] for p, _ in found)
        print(f"{name}: {len(found)}" + "".join(f", {c} {by[c]}" for c in CRATES if by[c]))
        if "counts" not in argv[1:]:
            for place, what in found:
                print(f"  {place}  {what}")
    return 0


if __name__ == "__main__":
    sys.exit(main(sys.argv[1:]))
