#!/usr/bin/env python3
"""Brings the repository's own names of definitions and lemmas to today's spelling: snake case.

usage: python3 tools/respell.py        at the repository's top

An own name is one that a file below crates/*/specs or crates/*/proofs declares: at the top, in a `module _`, in a `where`, as a field
of a record or as a constructor; names that are bound by `(x : T)`, `let` or `as` go the same way. `charLen` becomes `char_len` and `lead-E0` becomes `lead_e0`. Names of types keep theirs, and so do the
names that a file takes from elsewhere (the kit, or what Rattle generates). What would fall together is in INSTEAD, by hand. A second run
changes nothing. It ends by saying where a new spelling already stood in a file that had the old one: `look:`.
"""

import collections
import glob
import os
import re
import sys

# the spelling of a name whose plain one is taken
INSTEAD = {
    # laws that had the dashed spelling of what they speak of
    "accepts-image": "accepts_image_iff",
    "at-end": "at_the_end",
    "by-tree": "told_by_tree",
    "by-verdict": "told_by_verdict",
    "chars-size": "chars_size_bound",
    "content-from": "content_from_is",
    "digest-bytes": "digest_all_bytes",
    "fault-number": "fault_number_is",
    "field-passes": "found_field_passes",
    "found-entries": "found_entries_are",
    "found-members": "found_members_are",
    "group-passes": "found_group_passes",
    "held-pairs": "held_pairs_are",
    "hex-digits": "all_hex_digits",
    "id-text": "id_text_is",
    "is-divided": "is_divided_append",
    "is-hex": "lower_is_hex",
    "is-other": "is_other_byte",
    "is-pair": "pair_unescaped",
    "is-short": "is_short_there",
    "items-from": "items_from_is",
    "layer-text": "layer_text_is",
    "layers-at": "layers_at_is",
    "member-passes": "found_member_passes",
    "names-alone": "names_alone_at",
    "no-section": "no_section_there",
    "not-utf8": "is_not_utf8",
    "number-passes": "number_passes_is",
    "numbers-from": "numbers_from_is",
    "open-kind": "open_kind_is",
    "read-list": "list_read_back",
    "read-object": "reads_object",
    "read-record": "record_read_back",
    "read-varint": "varint_read_back",
    "same-layer": "same_layer_equal",
    "short-value": "short_value_same",
    "unmarked-run": "unmarked_run_is",
    "well-formed": "is_well_formed",
    # the kinds of values, beside the tests for them
    "is-array": "is_an_array",
    "is-boolean": "is_a_boolean",
    "is-number": "is_a_number",
    "is-object": "is_an_object",
    "is-string": "is_a_string",
    "id-at": "id_at_is",
    "kind-at": "kind_at_is",
    "layers-clash": "layers_clash_is",
    "names-clash": "names_clash_is",
    "names-of": "names_of_is",
    "read-body": "body_read_back",
    # definitions whose plain spelling is a constructor's or a law's
    "imageId": "image_id_of",
    "isEqual": "says_equal",
    "objectOf": "aliased_object",
    "ownKeys": "own_key_count",
    "sameKey": "is_same_key",
    "tooLong": "is_too_long",
}

# a field that Rattle generates as well: after a dot it is Rattle's
GENERATED_FIELDS = {"well-formed"}

# keys of a manifest: in prose these words are the keys
KEYS = {"aconSpecVersion", "logFDs", "maxInstances", "noRestart", "rejectUnaccepted", "workingDir", "writableFS"}

# arguments of definitions, which no declaration names
ARGUMENTS = {"at-rules", "none-fits", "reportSize"}

# in a file that has a name still in its old spelling: a name of the file's own that makes room for the new one
ROOM = {
    "crates/test_lines/proofs/decimal/Proof.antt": ("isDigit", "is_digit", "digit_there"),
}

STOP = "\\s(){}.;,@\"«»\\[\\]|`"
TOKEN = re.compile(f"[^{STOP}]+")
CAMEL = re.compile(r"[a-z][A-Za-z0-9'′]*[A-Z]")
DECLARED = re.compile(f"\\s*(?:(?:pub|abbrev|unfoldable) )*([^{STOP}:=→]+(?: [^{STOP}:=→]+)*) :(?: |$)(.*)")
BOUND = re.compile(f"[({{]([^{STOP}:=→]+(?: [^{STOP}:=→]+)*) : |\\blet ([^{STOP}:=→]+) [:=] ")
HEADS = {"let", "module", "use", "record", "data", "unfolding", "where", "in", "elim", "pub"}
# what a function's proof is asked for, and the places in the function: the words are the kit's
GENERATED = re.compile(r"(tie|goal|[a-z-]+-lts)\.|(\{M : Type 1\} → )?statement\b|(\([^()]*\) → )*In-\S+ t [a-z-]+-lts\.")
USE = re.compile(r"^(?:pub )?(?:ghost )?use ([^{;\s]+?)(?:\.\{([^}]*)\}|(?: as (\S+?))?);?\s*$", re.M)


def snake(name):
    if name in INSTEAD:
        return INSTEAD[name]
    name = name.replace("′", "'")
    start = ""
    upper = re.match(r"[A-Z][A-Za-z0-9]*-", name)
    if upper:
        start, name = upper.group(), name[upper.end():]
    return start + re.sub(r"([a-z0-9])([A-Z])", r"\1_\2", name).replace("-", "_").lower()


def is_old(name):
    return bool(CAMEL.match(name) or "-" in name.strip("-") and re.match(r"[^\W\d]", name))


def spelled(names, name):
    """The new spelling outside the sources, where a name may have kept a spelling that the sources have left already."""
    if name in names.new:
        return names.new[name]
    if name not in KEYS and is_old(name) and snake(name) in names.now:
        return snake(name)
    return None


def read(path):
    with open(path, encoding="utf-8") as f:
        return f.read()


class Names:
    """What the files declare and what each takes from elsewhere."""

    def __init__(self):
        self.antt = sorted(glob.glob("crates/*/specs/**/*.antt", recursive=True) + glob.glob("crates/*/proofs/**/*.antt", recursive=True))
        self.modules = {self.module(p): p for p in self.antt if not p.endswith("/Proof.antt")}
        self.declared = {}
        self.fields = set()
        self.generated = {}
        for p in self.antt:
            self.declare(p)
        self.own = ARGUMENTS.union(*self.declared.values())
        self.new = {n: snake(n) for n in self.own if is_old(n) and snake(n) != n}
        self.now = self.own | set(self.new.values())

    def module(self, path):
        part = path[:-len(".antt")].split("/")
        return ".".join(["Rattle"] + part[1:])

    def declare(self, path):
        """The names a file declares, without those whose words are generated."""
        found, made, record = set(), set(), None
        for line in read(path).split("\n"):
            if not line.strip() or line.strip().startswith("--"):
                continue
            indent = len(line) - len(line.lstrip())
            if record is not None and indent <= record:
                record = None
            head = re.match(r"\s*(?:(?:pub|abbrev|unfoldable) )*(record|data) (\S+)", line)
            if head and " : Type" in line and "where" in line or head and head.group(1) == "record" and head.group(2)[0].isupper():
                record = indent if head.group(1) == "record" else None
                continue
            for m in BOUND.finditer(line):
                found.update((m.group(1) or m.group(2)).split())
            if line.startswith("use Rattle.") and "{" in line:
                found.update(re.findall(f" as ([^{STOP}]+)", line))
            m = DECLARED.match(line)
            if not m or m.group(1).split()[0] in HEADS:
                continue
            names = m.group(1).split()
            if path.endswith("/Proof.antt") and GENERATED.match(m.group(2)):
                made.update(names)
            else:
                found.update(names)
                if record is not None:
                    self.fields.update(names)
        self.declared[path] = found - made
        self.generated[path] = made

    def uses(self, text):
        """The names that a file takes from elsewhere, and what it calls modules elsewhere."""
        kept, away = set(), set()
        for m in USE.finditer(text):
            path, names, alias = m.groups()
            if not path.startswith(("Rattle.", "borrow.", "mathlib.", "native.", "Prim.", "lib.")) and "." not in path:
                continue
            ours = path in self.modules
            if not ours:
                away.add(alias or path.split(".")[-1])
                for n in (names or "").split(","):
                    if n.strip():
                        kept.add(n.split()[-1])
                        kept.add(n.split()[0])
            elif names is None and alias:
                self.ours.add(alias)
        return kept, away


def code_and_comments(text, mark):
    """The text in pieces: (is code, piece). Strings are pieces of neither kind: None."""
    at = 0
    for m in re.finditer(f'{mark}[^\n]*|"(?:[^"\\\\\n]|\\\\.)*"', text):
        if m.group().startswith(mark) and m.start() and not re.match(f"[{STOP}]", text[m.start() - 1]):
            continue
        yield True, text[at:m.start()]
        yield (False if m.group().startswith(mark) else None), m.group()
        at = m.end()
    yield True, text[at:]


def swap(names, kept, away, ours, piece, left=False):
    """The piece of code with the new names. A field goes by the fields' names; what is elsewhere stays."""
    out, at = [], 0
    for m in TOKEN.finditer(piece):
        t = m.group()
        new = spelled(names, t) if left else names.new.get(t)
        if new is None:
            continue
        field = m.start() and piece[m.start() - 1] == "."
        if field:
            base = re.search(f"([^{STOP}]*)\\.$", piece[:m.start()]).group(1)
            if base in away or t in GENERATED_FIELDS or not (t in names.fields or base in ours):
                continue
        elif t in kept or t in away:
            continue
        out.append(piece[at:m.start()] + new)
        at = m.end()
    return "".join(out) + piece[at:]


def prose(names, kept, text):
    """A comment or a document: any own name in backticks, and outside them a name in camel case."""
    out = []
    for n, part in enumerate(re.split(r"(```.*?```|`[^`\n]*`)", text, flags=re.S)):
        quoted = n % 2 == 1
        def one(m):
            t = m.group()
            new = spelled(names, t)
            if new is None or t in kept or t in KEYS or not (quoted or CAMEL.match(t)):
                return t
            a, b = part[m.start() - 1:m.start()], part[m.end():m.end() + 1]
            return t if a == "/" or b == "/" else new
        out.append(re.sub(r"[^\s(){}.;,@\"«»\[\]|`/:]+", one, part))
    return "".join(out)


def antt(names, text, kept, away, ours):
    out = []
    for kind, piece in code_and_comments(text, "--"):
        out.append(swap(names, kept, away, ours, piece) if kind else piece if kind is None else prose(names, kept, piece))
    return "".join(out)


def rust(names, text, kept, away, ours):
    """Rust source: the clauses and the ghost items, and the comments."""
    out, ghost = [], 0
    for kind, piece in code_and_comments(text, "//"):
        if kind is False:
            out.append(prose(names, kept, piece))
            continue
        if kind is None:
            out.append(piece)
            continue
        at = 0
        marks = re.compile(r"\b(?:requires|ensures|decreases|invariant)\*?(?: \w+)? \{|\bghost use\b|\bghost \w+: \{|#\[tactic")
        if ghost:
            end, ghost = span(piece, 0, ghost)
            out.append(swap(names, kept, away, ours, piece[:end]))
            at = end
        while True:
            m = marks.search(piece, at)
            if not m:
                break
            out.append(piece[at:m.start()])
            if m.group() == "ghost use":
                end = piece.index(";", m.end())
            elif m.group().startswith("#"):
                end = piece.index("]", m.end())
            else:
                end, ghost = span(piece, m.end(), 1)
            out.append(swap(names, kept, away, ours, piece[m.start():end]))
            at = end
        out.append(piece[at:])
    return "".join(out)


def span(text, at, depth):
    """Where so many open braces are closed; and how many are left where the text ends first."""
    for i in range(at, len(text)):
        depth += {"{": 1, "}": -1}.get(text[i], 0)
        if depth == 0:
            return i, 0
    return len(text), depth


def tokens(text, mark):
    """How often each name stands in the code, not counting fields and the parts of a path."""
    out = collections.Counter()
    for kind, piece in code_and_comments(text, mark):
        if kind:
            out.update(m.group() for m in TOKEN.finditer(piece) if not (m.start() and piece[m.start() - 1] == "."))
    return out


def main():
    names = Names()
    changed, look, used = {}, [], collections.Counter()
    context = {}
    for p in names.antt + sorted(glob.glob("crates/*/src/**/*.rt", recursive=True)):
        text = read(p)
        names.ours = set()
        kept, away = names.uses(text)
        kept = (kept | names.generated.get(p, set())) - names.declared.get(p, set())
        ours = names.ours
        context[p] = kept, away, ours
        is_antt = p.endswith(".antt")
        old_tokens = tokens(text, "--" if is_antt else "//")
        if p in ROOM and ROOM[p][0] in old_tokens:
            text = re.sub(rf"(?<![\w.'-]){ROOM[p][1]}(?![\w'-])", ROOM[p][2], text)
            old_tokens = tokens(text, "--")
        new = antt(names, text, kept, away, ours) if is_antt else rust(names, text, kept, away, ours)
        new_tokens = tokens(new, "--" if is_antt else "//")
        by = collections.defaultdict(list)
        for t in old_tokens:
            if t in names.new and new_tokens[t] < old_tokens[t]:
                by[names.new[t]].append(t)
                used[t] += 1
        for n, ts in sorted(by.items()):
            if len(ts) > 1 or n in old_tokens:
                # in Rust source a function may have the name of what it answers by
                if not is_antt and len(ts) == 1 and not re.search(rf"\b(let (mut )?)?{n}\s*:\s|\blet (mut )?{n}\b", text):
                    continue
                look.append(f"look: {p}: {' and '.join(sorted(ts))} would be {n}" + (" which stands there" if n in old_tokens else ""))
        if new != read(p):
            changed[p] = new
    everywhere = set().union(*(c[0] for c in context.values())) if context else set()
    for p in sorted(glob.glob("crates/*/must-fail/*.edit")):
        crate = "/".join(p.split("/")[:2])
        target, out = None, []
        for line in read(p).split("\n"):
            m = re.match(r"(file|old|new):(.*)", line)
            if m and m.group(1) == "file":
                target = crate + "/" + m.group(2).strip()
            elif m and target in context:
                kept, away, ours = context[target]
                mark = "--" if target.endswith(".antt") else "//"
                parts = code_and_comments(m.group(2), mark)
                line = m.group(1) + ":" + "".join(
                    q if k is None else swap(names, kept, away, ours, q, True) if k else prose(names, kept, q) for k, q in parts
                )
            elif line.startswith("#"):
                line = prose(names, set(), line)
            out.append(line)
        if "\n".join(out) != read(p):
            changed[p] = "\n".join(out)
    for p in sorted(glob.glob("docs/**/*.md", recursive=True)) + ["README.md", "CHANGES.md"]:
        new = prose(names, everywhere - names.own, read(p))
        if new != read(p):
            changed[p] = new
    for p in sorted(glob.glob("tests/**/*.py", recursive=True)):
        new = "\n".join(re.sub(r"#.*$", lambda m: prose(names, set(), m.group()), l) for l in read(p).split("\n"))
        if new != read(p):
            changed[p] = new
    if "--dry" not in sys.argv:
        for p, text in changed.items():
            with open(p, "w", encoding="utf-8") as f:
                f.write(text)
    print("\n".join(look))
    print(f"{len(used)} names in {len(changed)} files")
    return names, context, changed, used


if __name__ == "__main__":
    main()
