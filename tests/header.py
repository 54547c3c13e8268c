"""Tests of include/acon.h, which is what a host compiles: header.py ARCHIVE FOLDER; programs go to FOLDER.

Calls that must be refused, each for one warning and beside right ones; the lines on right and wrong and the examples, taken out of the header's comments; what
stands in the header as functions, NULL where a length is 0 and any alignment, on the archive (header.c); what the calls hand on (lent.c); and of the guarantees
what can be seen in the archive's symbols."""

import itertools
import os
import re
import shutil
import subprocess
import sys

HEADER = "include/acon.h"
STRICT = ["-Wall", "-Wextra", "-Werror", "-Iinclude"]
C = [["-std=" + standard, level] for standard in ("c99", "c11") for level in ("-O0", "-O2")]
CPP = [["-x", "c++", "-std=" + standard, "-O2"] for standard in ("c++11", "c++17")]

# The arguments of each call in order. A pointer is followed by its length; the last pointer is written.
CALLS = {
    "canonical": "text text_len out out_len",
    "load": "id id_len manifest manifest_len buffer buffer_len used",
    "judge": "store store_len used report report_len",
    "resolve": "store store_len used layers layers_len image out out_len",
}

# What the lines and the examples of the header speak of. Not static: a line need not use all of them.
AROUND = r"""
#include "acon.h"
#include <stdio.h>
#define DIGITS "11111111111111111111111111111111111111111111111111111111"
uint8_t text[] = "{\"b\": 1, \"a\": \"\\u0041\"}";
uint8_t id[] = "sha224/" DIGITS "/" DIGITS;
uint8_t manifest[] = "{\"aconSpecVersion\": [1, 0], \"layers\": [\"sha224/" DIGITS "\"]}";
uint8_t list[29] = {1, 17, 17, 17, 17, 17, 17, 17, 17, 17, 17, 17, 17, 17, 17, 17, 17, 17, 17, 17, 17, 17, 17, 17, 17, 17, 17, 17, 17};
uint8_t out[ACON_TEXT_MAX], store[4096], report[ACON_REPORT_MAX];
size_t text_len = sizeof text - 1, id_len = sizeof id - 1, manifest_len = sizeof manifest - 1, list_n = sizeof list, used;
uint64_t answer;
int admitted;
char said[ACON_SENTENCE_MAX];
"""
SAID = '{"a":"A","b":1}admitted\ndone: 29 bytes, layer 0\n'  # by the examples, one after the other


def fail(*parts):
    sys.exit("header: " + "\n".join(parts))


# ---- Compiling


def compiled(source, flags, compiler="gcc"):
    """The warnings by which a source is refused, and what was said; None if it is taken."""
    language = [] if "-x" in flags else ["-x", "c"]
    done = subprocess.run([compiler, *STRICT, *language, *flags, "-S", "-o", os.devnull, "-"], input=source.encode(), stderr=subprocess.PIPE)
    said = done.stderr.decode()
    if done.returncode == 0:
        return None
    return set(re.findall(r"\[-Werror,?=?(?:-W)?([\w-]+)=?\]", said)), said


def has(compiler, language):
    """Whether there is a compiler for a language."""
    done = shutil.which(compiler) and subprocess.run([compiler, "-x", language, "-fsyntax-only", os.devnull], stderr=subprocess.DEVNULL)
    return bool(done) and done.returncode == 0


def refused(source, warning, flags, compiler="gcc"):
    found = compiled(source, flags, compiler)
    if found is None:
        fail("%s %s takes what -W%s has to refuse:" % (compiler, " ".join(flags), warning), source)
    if found[0] != {warning}:
        fail("%s %s has to refuse by -W%s, and says:" % (compiler, " ".join(flags), warning), found[1], source)


def taken(source, flags, compiler="gcc"):
    found = compiled(source, flags, compiler)
    if found is not None:
        fail("%s %s refuses:" % (compiler, " ".join(flags)), found[1], source)


def vanish(macros, flags):
    """Those macros have to be nothing."""
    source = '#include "acon.h"\nBEGIN %s END\n' % macros
    said = subprocess.run(["gcc", "-Iinclude", "-E", *flags, "-"], input=source.encode(), stdout=subprocess.PIPE, check=True).stdout.decode()
    if not re.search(r"BEGIN\s+END", said):
        fail("gcc %s leaves something of %s" % (" ".join(flags), macros))


def run(source, name, folder, flags, compiler="gcc"):
    """Compiles and links a program, runs it, and gives what it says."""
    program = os.path.join(folder, name)
    for command in ([compiler, *STRICT, *flags, *source, "-o", program], [os.path.abspath(program)]):
        done = subprocess.run(command, stdout=subprocess.PIPE)
        if done.returncode != 0:
            fail("%s ends with %d" % (" ".join(command), done.returncode))
    return done.stdout.decode()


# ---- Calls, written by a table


def pointers(call):
    given = CALLS[call].split()
    return [name for name in given if name + "_len" in given]


def host(call, change=None, body="return %s;"):
    """A function with a call, in which some arguments are others. Its parameters are what the call then has."""
    given = CALLS[call].split()
    said = [(change or {}).get(name, name) for name in given]
    kinds = {name: "uint8_t *" if name == pointers(call)[-1] else "const uint8_t *" for name in pointers(call)}
    parameters = ", ".join(kinds.get(name, "size_t ") + name for name in given if name in said) or "void"
    made = body % ("acon_%s(%s)" % (call, ", ".join(said)))
    return "uint64_t host(%s);\nuint64_t host(%s)\n{\n    %s\n}\n" % (parameters, parameters, made)


def null(names, length):
    return {k: v for name in names for k, v in ((name, "NULL"), (name + "_len", length))}


def wrong_calls():
    """A warning and the function that has to be refused by it."""
    for call in CALLS:
        written = pointers(call)[-1]
        for read in pointers(call)[:-1]:
            yield "restrict", host(call, {read: written})
        for pointer in pointers(call):
            yield "nonnull", host(call, null([pointer], "1"))
        yield "unused-result", host(call, body="%s; return 0;")


def right_calls():
    """Each call as it is; with NULL and length 0, for each choice of pointers; through a pointer to it; two inputs that overlap; and a new buffer."""
    for call in CALLS:
        yield host(call)
        for count in range(1, len(pointers(call)) + 1):
            for names in itertools.combinations(pointers(call), count):
                yield host(call, null(names, "0"))
        yield "const void *host(void);\nconst void *host(void)\n{\n    return (const void *)(uintptr_t)&acon_%s;\n}\n" % call
    yield host("resolve", {"layers": "store"})
    yield host("load", {"buffer": "fresh", "buffer_len": "sizeof fresh"}, "uint8_t fresh[4096]; return %s;")


def numbered(functions):
    """One source of functions that are all called `host`."""
    return '#include "acon.h"\n' + "".join(re.sub(r"\bhost\b", "host_%d" % i, f) for i, f in enumerate(functions))


# ---- Lines of the header's comments


def header_lines():
    with open(HEADER, encoding="utf-8") as f:
        return f.read().splitlines()


def pairs(lines):
    """A wrong line, the right one below it, and the warning that the next one names, or None."""
    wrong = [i for i, line in enumerate(lines) if line.startswith(" *   wrong: ")]
    right = [i for i, line in enumerate(lines) if line.startswith(" *   right: ")]
    if not wrong or right != [i + 1 for i in wrong]:
        fail("the lines on right and wrong do not stand in pairs")
    for i in wrong:
        named = re.match(r" \* +-W([\w-]+)", lines[i + 2])
        yield lines[i].split(": ", 1)[1], lines[i + 1].split(": ", 1)[1], named and named.group(1)


def line_function(line, name="host"):
    return "int %s(void);\nint %s(void)\n{\n    %s\n    return 0;\n}\n" % (name, name, line)


def examples(lines):
    """The example of each call, in order: its lines, and the call that is declared below."""
    starts = [i for i, line in enumerate(lines) if line == " * Example:"]
    for i in starts:
        code = list(itertools.takewhile(lambda line: line.startswith(" *     "), lines[i + 1:]))
        end = i + 1 + len(code)
        declared = re.match(r"ACON_CALL acon_(\w+)\(", lines[end + 1])
        if len(code) != 3 or lines[end] != " */" or not declared:
            fail("the example in line %d has not three lines, or no call below it" % (i + 1))
        yield declared.group(1), [line[len(" *     "):] for line in code]


def example_program(found):
    """All examples one after the other."""
    functions = "".join("static void %s(void)\n{\n    %s\n}\n" % (call, "\n    ".join(code)) for call, code in found)
    return AROUND + functions + "int main(void)\n{\n%s    return 0;\n}\n" % "".join("    %s();\n" % call for call, _ in found)


# ---- The archive


def symbols(archive, *options):
    said = subprocess.run(["nm", *options, archive], stdout=subprocess.PIPE, check=True).stdout.decode()
    return [line.split() for line in said.splitlines() if line.strip() and not line.endswith(":")]


def guarantees(archive):
    """No globals, no heap, of libc memcpy and memset only: the archive asks for these two, gives the four calls, and has no variable."""
    needed = {words[-1] for words in symbols(archive, "--undefined-only")}
    if needed != {"memcpy", "memset"}:
        fail("the archive needs " + " ".join(sorted(needed)))
    given = {words[-1] for words in symbols(archive, "--extern-only", "--defined-only")}
    if given != {"acon_" + call for call in CALLS}:
        fail("the archive gives " + " ".join(sorted(given)))
    said = subprocess.run(["objdump", "-h", archive], stdout=subprocess.PIPE, check=True).stdout.decode()
    sections = re.findall(r"^ *\d+ (\S+) +([0-9a-f]{8}) .*\n +(.*)$", said, re.M)
    variables = [name for name, size, flags in sections if int(size, 16) and "ALLOC" in flags and "READONLY" not in flags]
    if variables or not sections:
        fail("the archive has variables: " + " ".join(variables))
    if "elf64-x86-64" not in said:
        fail("the archive is not x86-64 ELF")


def main():
    archive, folder = sys.argv[1:]
    os.makedirs(folder, exist_ok=True)
    lines = header_lines()
    found, sides = list(examples(lines)), list(pairs(lines))
    if [call for call, _ in found] != list(CALLS):
        fail("there is not one example for each call")
    cpp, clang = has("gcc", "c++"), has("clang", "c")

    # Alone; where names of symbols cannot be given; and as a compiler reads it that has nothing of gcc's.
    alone = '#include "acon.h"\n'
    compilers = [("gcc", flags) for flags in C + CPP * cpp] + [("clang", flags) for flags in C * clang]
    for compiler, flags in compilers:
        taken(alone, ["-pedantic", "-Wconversion", "-Wshadow", "-Wundef", *flags], compiler)
        taken(alone, ["-pedantic", "-U__ELF__", *flags], compiler)
    taken(alone, ["-pedantic", "-U__GNUC__", *C[0]])
    vanish('ACON_RESTRICT ACON_USE ACON_ACCESS(read_only, 1, 2) ACON_SYMBOL("x")', ["-x", "c", "-U__GNUC__"])
    if cpp:
        vanish("ACON_RESTRICT ACON_USE ACON_ACCESS(read_only, 1, 2)", CPP[0])

    faulty = [('#include "acon.h"\n' + function, warning) for warning, function in wrong_calls()]
    faulty += [(AROUND + line_function(wrong), warning) for wrong, _, warning in sides if warning]
    for flags in C:
        for source, warning in faulty:
            refused(source, warning, flags)
    for source, warning in faulty * clang:
        if warning == "unused-result":
            refused(source, warning, C[-1], "clang")

    # Right ones, and wrong ones that no compiler sees: these have to be taken, else the header says too little.
    right = list(right_calls())
    shown = [line for wrong, line, warning in sides for line in ([line] if warning else [line, wrong])]
    for compiler, flags in compilers:
        taken(numbered(right), flags, compiler)
        taken(AROUND + "".join(line_function(line, "line_%d" % i) for i, line in enumerate(shown)), flags, compiler)

    program = os.path.join(folder, "examples.c")
    with open(program, "w", encoding="utf-8") as f:
        f.write(example_program(found))
    checks = 0
    builds = [("gcc", flags, []) for flags in (C[0], C[-1])] + [("gcc", CPP[0], ["-x", "none"])] * cpp + [("clang", C[-1], [])] * clang
    for compiler, flags, after in builds:
        if run([program, *after, archive], "examples", folder, flags, compiler) != SAID:
            fail("the examples say something else")
        checks += int(run(["tests/header.c", *after, archive], "header", folder, flags, compiler))
        if not after:
            checks += int(run(["tests/lent.c"], "lent", folder, flags, compiler))
    guarantees(archive)

    languages = ["C99", "C11"] + ["C++"] * cpp + ["clang"] * clang
    skipped = [name for name, there in (("C++", cpp), ("clang", clang)) if not there]
    print("header: %d faulty calls refused for their warning, %d right ones taken, %d examples run, %d checks; %s%s" % (
        len(faulty), len(right) + len(sides), len(found), checks, ", ".join(languages),
        "; skipped, not there: " + ", ".join(skipped) if skipped else ""))


main()
