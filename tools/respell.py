#!/usr/bin/env python3
"""Brings the repository's own names to today's spelling, and mends what port.py leaves in every crate alike.

    the toolchain's port.py                 # once, everything committed before and after (docs/PORT.md)
    tools/respell.py [--check]              # then this, from anywhere in the checkout

It is done: docs/PORT.md says what it gave, and where that page stands it writes nothing. What it does, in this order:
 1. src/: `#[derive(Drop)]`, which port.py writes on each struct and enum, becomes `#[derive(Clone, Copy)]` where all fields are plain;
    `#![tactic(auto)]` below the heading of lib.rt or main.rt; crates.txt loses libc, os and io (their lines are printed).
 2. Names that specs/ and proofs/ declare (definitions, lemmas, fields, constructors, local helpers) go to snake case: camelCase is split at
    its capitals, a dash becomes `_`, and stays only between two words that stand in the lemma's statement (`length-zeroed`) or behind a type
    (`IsPrefix-mem`). Types, modules and facts in CamelCase stay. Names of Rust, of std, of generated modules (Goals, Need-.., Lts) and strings
    are not touched. Where a lemma and a definition would meet (`same-reply` and `sameReply`), the lemma takes `_lem`.
 3. The same names where clauses, comments, must-fail edits below crates/, docs/*.md, README.md and tools/ have them: camelCase as whole words
    everywhere but in Rust's and antt's strings, names with a dash only in code and between backticks.
It prints each pair of names that fell together, each must-fail edit and each line of tools/wrong-definitions.txt whose text no longer stands, each
parameter that hides a definition, and how many names it turned.
--check writes nothing to the checkout. --map FILE also writes the table old, tab, new.
What it leaves: facts in lower case (none here), names that should say more, edits that it names, `Refused:` lines of edits (rt reads none).
"""
import collections
import glob
import os
import re
import subprocess
import sys

NAME = r'[^\s(){}.;,@"«»]+'
TOKEN = re.compile(r'(?P<str>"(?:[^"\\\n]|\\.)*")|(?P<com>(?<![^\s(){}.;,@"«»])--[^\n]*|\{-.*?-\})|(?P<word>' + NAME + ')', re.S)
RUST = re.compile(r'(?P<com>//[^\n]*)|(?P<str>b?"(?:\\.|[^"\\])*"|b?\'(?:\\[^\n]+?|[^\'\\])\')|(?P<word>' + NAME + ')', re.S)
DECL = re.compile(r"(?m)^[ \t]*(?:(?:pub|abbrev|unfoldable|opaque|private|mutual|where|let|in|\|)[ \t]+)*(%s)(?:[ \t]+\{[^{}\n]*\})*[ \t]*:(?= |$)" % NAME)
CONSTR = re.compile(r"(?m)^[ \t]+\|?[ \t]*(%s)[ \t]*:" % NAME)
USE = re.compile(r"\buse ([^\s;{]+)(?:\{([^}]*)\})?")
CAMEL = re.compile(r"^[a-z][^\s-]*[A-Z]")
STD = ("length take drop append map mem filter set get_or get get_at sum suc zero add mul min max reverse replicate concat flat_map fold foldl foldr paste "
       "nth any all zip range div mod pow sub lt le not and or eqb ltb leb cond if_then_else").split()


def read(p):
    with open(p, encoding="utf-8") as f:
        return f.read()


def snake(word):
    word = re.sub(r"(?<=[a-z0-9])[A-Z]", lambda m: "_" + m[0].lower(), word)
    word = re.sub(r"[A-Z]", lambda m: m[0].lower(), word)
    return re.sub(r"(?<=[a-z])_?Or([0-9])", r"_or_\1", re.sub(r"_or([0-9])", r"_or_\1", word))


class Respeller:
    def __init__(self, root):
        self.root = root
        self.antt = sorted(f for d in ("specs", "proofs") for f in glob.glob(f"{root}/crates/*/{d}/**/*.antt", recursive=True))
        self.rt = sorted(glob.glob(f"{root}/crates/*/src/**/*.rt", recursive=True))
        self.edits = sorted(glob.glob(f"{root}/crates/*/must-fail/**/*.edit", recursive=True))
        self.fields, self.tops, self.in_specs, self.theirs, self.seen = set(), set(), set(), set(), set()
        self.free, self.states = {}, collections.defaultdict(set)
        for f in self.antt:
            code = TOKEN.sub(lambda m: m[0] if m["word"] else " ", read(f))
            for path, items in USE.findall(code):
                if not path.startswith("Rattle.") or re.match(r"Rattle\.(std\w*|core|io)\b", path):
                    self.theirs.update(re.findall(NAME, items) or [path.split(".")[-1]])
            bare = re.sub(r"\buse [^\s;{]+", " ", code)
            # the words that stand behind no dot: those that could meet
            self.free[f] = set(re.findall(r"(?<![^\s(){},;@«»])" + NAME, bare))
            is_proof = self.is_proof(f)
            for m in re.finditer(r"(?ms)^(?:pub )?(?:abbrev )?(?:pub )?record (\S+).*?(?=^\S|\Z)", code):
                self.fields.update(re.findall(r"(?m)^[ \t]+(?:pub[ \t]+)?(%s)[ \t]*:" % NAME, m[0]))
            for m in DECL.finditer(code):
                word = m[1]
                # the statement: up to the next line that is not indented further
                indent = len(re.match(r"[ \t]*", code[code.rfind("\n", 0, m.start(1)) + 1 :])[0])
                body = re.match(r"[^\n]*(?:\n[ \t]{%d,}[^\n]*)*" % (indent + 1), code[m.end() :])[0]
                if re.match(r" *(tie|goal|Goals)\.", body) or word.startswith("+") or re.search(r"[-_]spec$", word) and is_proof:
                    continue
                self.tops.add(word)
                self.states[word].update(snake(w) for w in re.findall(NAME, body))
                if "/specs/" in f:
                    self.in_specs.add(word)
            # several constructors or fields of one type on a line
            for m in re.finditer(r"(?m)^[ \t]+(?:pub[ \t]+)?(%s(?:[ \t]+%s)+)[ \t]*:[ \t]" % (NAME, NAME), code):
                words = m[1].split()
                if all(re.fullmatch(r"[\w'′-]+", w) for w in words) and not {"let", "where", "abbrev", "pub", "in", "mod", "use"} & set(words):
                    self.tops.update(words)
                    if "/specs/" in f:
                        self.in_specs.update(words)
            if not is_proof:
                self.seen.update(re.findall(NAME, re.sub(r"(?<![^\s(){};,.@«»])[A-Z][^\s(){}.;,]*\.%s" % NAME, lambda m: m[0] if m[0].split(".")[0] not in self.theirs else " ", bare)))
            else:
                self.seen.update(w for w in re.findall(NAME, bare) if CAMEL.match(w))
        self.make_map()

    def is_proof(self, f):
        return os.path.basename(f) in ("Proof.antt", "Answers.antt", "Invariants.antt") and os.path.dirname(f) != f"{self.root}/crates/{self.crate(f)}/proofs"

    def crate(self, f):
        return os.path.relpath(f, self.root).split("/")[1]

    def respelled(self, word):
        if word[0].isupper():
            head, *rest = word.split("-")
            return "-".join([head] + [snake(it) for it in rest])
        parts = [snake(it) if CAMEL.match(it) else it for it in word.split("-")]
        if word in self.fields and word not in self.tops:
            return "_".join(parts)
        said = self.states.get(word, set())
        has = lambda it: it in said or it == "append" and "◌++◌" in said or it == "append" and "++" in said
        for i in range(1, len(parts)):
            left, right = "_".join(parts[:i]), "_".join(parts[i:])
            if has(left) and has(right):
                return left + "-" + right
        return "_".join(parts)

    def make_map(self):
        self.map, self.met = {}, []
        own = {w for w in self.seen | self.tops | self.fields if w not in self.theirs and len(w) > 2 and (CAMEL.match(w) or re.search(r"\w-\w", w))}
        own = {w for w in own if re.fullmatch(r"[\w'′-]+", w) and not w[0].isdigit()}
        # a name that Rattle makes in a lemma file (a goal, a place, a step) is no name of ours
        own = {w for w in own if not re.match(r"(Need|At|In|After|Then|Else|invariant|decreases|loop|returns|Lts)-", w) or w in self.tops}
        rows = {w: self.respelled(w) for w in own}
        rows = {w: n for w, n in rows.items() if n != w}
        every = set().union(*self.free.values())
        for w in sorted(rows, key=lambda w: (w not in self.in_specs, "-" in w, w)):
            n = rows[w]
            rivals = [o for o in self.map if self.map[o] == n] + [n] * (n in every and n not in self.map)
            if rivals and (w not in self.fields or w in self.tops):
                together = [f for f, c in self.free.items() if w in c and any(r in c for r in rivals)]
                if together or any(r in self.tops for r in rivals):
                    own_def = w in self.in_specs or CAMEL.match(w) and w in self.tops
                    if own_def and any(r in self.tops and r not in self.in_specs for r in rivals) and not any(r in self.in_specs or CAMEL.match(r) for r in rivals):
                        for r in rivals:
                            self.map[r] = n + "_lem"
                            self.met.append((r, [w], n + "_lem", len(together)))
                    elif w in self.in_specs:
                        self.met.append((w, rivals, n, len(together)))
                    else:
                        n += "_lem"
                        self.met.append((w, rivals, n, len(together)))
            self.map[w] = n
        self.camel = {w: n for w, n in self.map.items() if CAMEL.match(w) and "-" not in w}

    def word(self, text, at, word, proof=False):
        """The new spelling of a word of code that stands at a place of text."""
        new = self.map.get(word)
        dotted = text[at - 1 : at] == "." and text[at - 2 : at - 1] not in (".", " ", "")
        if dotted and "-" in word and word not in self.tops and word[0].isupper():
            # port.py writes some fields with a capital, as `.Values-same`
            low = word[0].lower() + word[1:]
            if low in self.fields:
                return self.map.get(low, low)
            if low.replace("-", "_") in self.fields:
                return low.replace("-", "_")
        if new is None:
            return word
        if dotted:
            head = re.search(r"(%s)(?:\.%s)*\.$" % (NAME, NAME), text[max(0, at - 120) : at])
            # Memᴰ.not-nil: a name in a module or a type of std; tie.Need-..
            if head and (head[1] in self.theirs and head[1][0].isupper() or head[1] in ("tie", "goal", "lts")):
                return word
            if new.endswith("_lem") and word not in self.fields and proof:
                return word
        if new.endswith("_lem") and word in self.fields:
            line = text[text.rfind("\n", 0, at) + 1 : at]
            behind = text[at + len(word) :]
            in_literal = re.match(r"\s*=\s", behind) and re.search(r"[{;]\s*$", text[:at])
            in_record = False
            if re.match(r"\s*:\s", behind) and re.fullmatch(r" +(pub )?", line):
                indent = len(line) - len(line.lstrip())
                above = [it for it in text[:at].split("\n")[:-1] if it.strip() and len(it) - len(it.lstrip()) < indent]
                in_record = bool(above) and bool(re.match(r"\s*(pub |abbrev )*record\b", above[-1]))
            if dotted or in_literal or in_record:
                return new[:-4]
        return new

    def prose(self, text):
        text = re.sub(r"`[^`\n]+`", lambda m: re.sub(r"[\w'′-]+", lambda w: self.map.get(w[0], w[0]), m[0]), text)
        return re.sub(r"(?<![\w`-])[a-z]+[0-9]*[A-Z]\w*(?![\w-])", lambda m: self.camel.get(m[0], m[0]), text)

    def of_antt(self, text, proof=False):
        def one(m):
            if m["str"]:
                return m[0]
            if m["com"]:
                return self.prose(m[0])
            return self.word(text, m.start(), m[0], proof)

        return TOKEN.sub(one, text)

    def of_rt(self, text):
        def one(m):
            if m["str"]:
                return m[0]
            if m["com"]:
                return self.prose(m[0])
            return self.map.get(m[0], m[0])

        return RUST.sub(one, text)

    def of_edit(self, text, bodies=None):
        """An edit's text in today's spelling. Where an `old:` stands nowhere, other words of the older Rattle are tried on it and its `new:`."""
        out, kind, how = [], "rt", None
        ways = [
            lambda t: t,
            lambda t: re.sub(r"(?:\((?=now \(\w+ \.\w+\)\)))?now \((\w+) \.(entry|exit)\)\)?", lambda m: m[1] + (".old" if m[2] == "entry" else ".new"), t),
            lambda t: re.sub(r"\(?now \((\w+) \.entry\)\)?", r"\1.now", t),
            lambda t: re.sub(r"[a-z]\w*[A-Z]\w*", lambda m: snake(m[0]), t),
        ]
        for line in text.split("\n"):
            if line.startswith("file: "):
                kind = line.rsplit(".", 1)[-1]
                body = (bodies or {}).get(line[6:], "")
            if line.startswith(("old: ", "new: ")):
                head, rest = line[:5], line[5:]
                # a projection is written tight today
                rest = re.sub(r"(?<=[\w)']) +\.(?=[a-z0-9])", ".", rest) if kind == "antt" or " ≡ " in rest else rest
                turned = self.of_rt(rest) if kind == "rt" else self.of_antt(rest)
                if head == "old: ":
                    how = next((w for w in ways if body.count(w(turned)) == 1), ways[0])
                out.append(head + (how or ways[0])(turned))
            elif line.startswith("file: "):
                out.append(line)
            else:
                out.append(self.prose(line))
        return "\n".join(out)


    def of_list(self, text):
        """Wrong definitions in a list: lines `file:`, `old:` and `new:` below a label, with \\n for the end of a line. Gives the text, and how many olds stand nowhere."""
        out, body, how, lost = [], "", None, []
        tight = lambda t: re.sub(r"(?<=[\w)']) +\.(?=[a-z0-9])", ".", t)
        bare = lambda t: re.sub(r"\((\w+(?:\.\w+)+)\)", r"\1", tight(t))
        words = lambda t: re.sub(r"(?<![\w.])[a-z]\w*[A-Z]\w*", lambda m: {"getD": "get_or"}.get(m[0], snake(m[0])), t)
        ways = [lambda t: t, tight, bare, words, lambda t: words(tight(t)), lambda t: words(bare(t))]
        for line in text.split("\n"):
            m = re.match(r"(\s+(?:file|old|new): )(.*)$", line)
            if not m:
                out.append(line)
                continue
            kind, rest = m[1].strip(), m[2]
            if kind == "file:":
                path = f"{self.root}/{rest}"
                body = self.of_antt(read(path)) if os.path.exists(path) else ""
                out.append(line)
                continue
            rest = self.of_antt(rest)
            if kind == "old:":
                how = next((w for w in ways if body.count(w(rest).replace("\\n", "\n")) == 1), None)
                if how is None:
                    lost.append(line.strip())
            out.append(m[1] + (how or ways[4])(rest))
        return "\n".join(out), lost


def plain_derives(text):
    """#[derive(Drop)] on a type whose fields are plain."""

    def one(m):
        body = m[2]
        held = re.search(r"\b(Vec|Box|String|Rc|Cell|RefCell|HashMap|BTreeMap|File|BufReader|BufWriter|dyn)\b|&\s*('\w+\s+)?mut\b", body)
        return m[0] if held else "#[derive(Clone, Copy)]\n" + m[1] + body

    return re.sub(r"#\[derive\(Drop\)\]\n((?:#\[[^\n]*\]\n)*)((?:pub(?:\(crate\))? )?(?:struct|enum) .*?(?:\n\}|;)\n)", one, text, flags=re.S)


def with_tactic(text):
    if re.search(r"#!\s*\[\s*tactic\b", text):
        return text
    head = re.match(r"(//[^\n]*\n)*", text).end()
    return text[:head] + ("\n" if head else "") + "#![tactic(auto)]\n\n" + text[head:].lstrip("\n")


def main(argv):
    check = "--check" in argv
    unknown = [it for i, it in enumerate(argv) if it not in ("--check", "--map") and argv[i - 1 : i] != ["--map"]]
    if unknown or argv[-1:] == ["--map"]:
        raise SystemExit("use: tools/respell.py [--check] [--map FILE]")
    root = subprocess.run(["git", "rev-parse", "--show-toplevel"], capture_output=True, text=True, check=True).stdout.strip()
    if not os.path.isdir(f"{root}/crates"):
        raise SystemExit("respell: run it in a checkout that has crates/")
    if os.path.exists(f"{root}/docs/PORT.md") and not check:
        raise SystemExit("respell: this checkout is respelled (docs/PORT.md)")
    changed = []

    def write(path, old, new):
        if old != new:
            changed.append(path)
            if not check:
                with open(path, "w", encoding="utf-8") as f:
                    f.write(new)

    table = f"{root}/crates.txt"
    lines = read(table).split("\n")
    out = []
    for line in lines:
        head, colon, deps = line.partition(":")
        left = [d for d in deps.split() if d not in ("libc", "os", "io")]
        if colon and not line.startswith("#") and left != deps.split():
            print(f"respell: crates.txt: {head.strip()} loses {' '.join(d for d in deps.split() if d not in left)}: its layer of files and input is std's now (std::io, std::fs, std::env)")
            line = (head + ": " + " ".join(left)).rstrip()
        out.append(line)
    write(table, "\n".join(lines), "\n".join(out))
    it = Respeller(root)
    for f in it.rt:
        old = read(f)
        new = it.of_rt(plain_derives(old))
        if os.path.basename(f) in ("lib.rt", "main.rt") and os.path.basename(os.path.dirname(f)) == "src":
            new = with_tactic(new)
        write(f, old, new)
    for f in it.antt:
        old = read(f)
        write(f, old, it.of_antt(old, os.path.basename(f) == "Proof.antt"))
    for f in it.edits:
        old = read(f)
        bodies = {}
        for name in re.findall(r"(?m)^file: (.*)$", old):
            path = f"{root}/crates/{it.crate(f)}/{name}"
            if os.path.exists(path):
                body = read(path)
                bodies[name] = it.of_rt(body) if name.endswith(".rt") else it.of_antt(body)
        write(f, old, it.of_edit(old, bodies))
    others = subprocess.run(["git", "ls-files", "README.md", "docs/*.md", "tools"], cwd=root, capture_output=True, text=True).stdout.split("\n")
    for f in filter(None, others):
        path = f"{root}/{f}"
        if os.path.basename(f) in ("respell.py", "convert_proofs.py") or not os.path.isfile(path):
            continue
        try:
            old = read(path)
        except UnicodeDecodeError:
            continue
        if os.path.basename(f) == "wrong-definitions.txt":
            new, lost = it.of_list(old)
            for line in lost:
                print(f"respell: {f}: stands nowhere: {line}")
        elif f.endswith(".md"):
            new = it.prose(old)
        else:
            new = re.sub(r"(?<![\w-])[a-z]+[0-9]*[A-Z]\w*(?![\w-])", lambda m: it.camel.get(m[0], m[0]), old)
        write(path, old, new)
    if "--map" in argv:
        with open(argv[argv.index("--map") + 1], "w", encoding="utf-8") as f:
            f.writelines(f"{w}\t{n}\n" for w, n in sorted(it.map.items()))
    for w, rivals, new, n in it.met:
        print(f"respell: {w} and {', '.join(rivals)} fall together{f' in {n} files' if n else ''}: {w} is now {new}")
    # parameters of contracts and words of clauses that a respelled definition would be hidden by
    news = set(it.map.values()) & {it.map.get(w, w) for w in it.in_specs}
    for f in it.rt:
        text = read(f)
        used = set(re.findall(NAME, " ".join(m for m in re.findall(r"ghost use [^;]*;", text))))
        for m in re.finditer(r"\bfn (\w+)[^{};]*?\(([^)]*)\)", text):
            for p in re.findall(r"(\w+)\s*:", m[2]):
                if p in used & news:
                    print(f"respell: {os.path.relpath(f, root)}: fn {m[1]}: the parameter {p} hides the definition {p} in its clauses")
    bad = 0
    for f in it.edits:
        body = None
        for line in read(f).split("\n"):
            if line.startswith("file: "):
                path = f"{root}/crates/{it.crate(f)}/{line[6:]}"
                body = read(path) if os.path.exists(path) else ""
            elif line.startswith("old: ") and (body or "").count(line[5:]) != 1:
                bad += 1
                print(f"respell: {os.path.relpath(f, root)}: stands {(body or '').count(line[5:])} times: {line}")
            elif line.startswith("new: ") and body is not None:
                pass
    print(f"respell: {len(it.map)} names to turn, {len(it.met)} pairs fell together, {len(changed)} files changed{' (--check: none written)' if check else ''}, {bad} lines of must-fail edits to bring over by hand")
    return 0


if __name__ == "__main__":
    raise SystemExit(main(sys.argv[1:]))
