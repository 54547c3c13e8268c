"""Installs the library into temporary folders, and builds and runs a host out of what was installed and nothing else.

`make install` is run with PREFIX alone, and with DESTDIR and an archive that is older than the sources. It finds an `rt`
that writes down what it is asked and passes on `rt version` only: the installer may ask for the kit's identity and must
prove nothing. Where pkg-config is missing, acon.pc is read here. ACON_LIB names another archive than rt's, as in tests/run."""

import hashlib
import os
import re
import shutil
import subprocess
import sys
import tempfile

LIB = os.environ.get("ACON_LIB") or "target/staticlib/libacon.a"
PLACES = ["include/acon.h", "lib/libacon.a", "lib/pkgconfig/acon.pc", "share/doc/acon/PROVENANCE"]
FIELDS = ["version", "commit", "commit date", "tree changed", "source newer than archive", "kit", "target", "archive sha256"]

# All four calls: a form, a load of V under an ID, a judge that admits it, and its layers, of which it has none.
HOST = r"""
#include <acon.h>
#include <stdio.h>
#include <string.h>

static const uint8_t *bytes(const char *s) { return (const uint8_t *)s; }

int main(void)
{
    const char *text = "{\"b\":1, \"a\":\"\\u0041\"}", *v = "{\"aconSpecVersion\":[1,0]}";
    char id[7 + 56 + 1 + 56 + 1];
    uint8_t form[64], store[83], out[1];
    memset(id, 'a', sizeof id);
    memcpy(id, "sha224/", 7);
    id[7 + 56] = '/';
    uint64_t a = acon_canonical(bytes(text), strlen(text), form, sizeof form);
    printf("%s %d.%d.%d\n", ACON_VERSION, ACON_VERSION_MAJOR, ACON_VERSION_MINOR, ACON_VERSION_PATCH);
    printf("%u %.*s\n", acon_number(a), (int)acon_first(a), (const char *)form);
    a = acon_load(bytes(id), sizeof id - 1, bytes(v), strlen(v), store, sizeof store, 0);
    printf("%u %u\n", acon_number(a), (unsigned)acon_first(a));
    a = acon_judge(store, sizeof store, sizeof store, out, sizeof out);
    printf("%u %u\n", acon_number(a), (unsigned)acon_first(a));
    a = acon_resolve(store, sizeof store, sizeof store, out, 0, 0, form, sizeof form);
    printf("%u %u\n", acon_number(a), (unsigned)acon_first(a));
    return 0;
}
"""
PRINTED = '{0} {0}\n0 {{"a":"A","b":1}}\n0 83\n0 0\n0 0\n'


def fail(what):
    sys.exit("install: " + what)


def said(*words, **more):
    """What a command prints, or None where it fails or is missing."""
    try:
        return subprocess.run(words, stdout=subprocess.PIPE, stderr=subprocess.DEVNULL, text=True, check=True, **more).stdout.strip()
    except (OSError, subprocess.CalledProcessError):
        return None


def watched(folder):
    """A folder with the `rt` that only tells its version, and the file where it writes what it is asked."""
    asked = os.path.join(folder, "asked")
    with open(os.path.join(folder, "rt"), "w", encoding="utf-8") as f:
        f.write('#!/bin/sh\necho "$*" >>"%s"\n[ "$*" = version ] && exec "%s" version\nexit 1\n' % (asked, shutil.which("rt") or "false"))
    os.chmod(os.path.join(folder, "rt"), 0o755)
    return asked


def make(*words, **env):
    """`make install`, without what a make around this test hands down."""
    kept = {k: v for k, v in os.environ.items() if k not in ("MAKEFLAGS", "MFLAGS", "MAKELEVEL", "PREFIX", "DESTDIR")}
    return subprocess.run(["make", "install", *words], env={**kept, **env}, stdout=subprocess.PIPE, stderr=subprocess.STDOUT, text=True)


def installed(folder):
    return sorted(os.path.relpath(os.path.join(at, name), folder) for at, _, names in os.walk(folder) for name in names)


def read(path):
    with open(path, "rb") as f:
        return f.read()


def version():
    """The header's version. The host prints its three numbers beside it."""
    header = read("include/acon.h").decode()
    found = re.search(r'^#define ACON_VERSION +"(\d+\.\d+\.\d+)"', header, re.M)
    return found.group(1) if found else fail("include/acon.h has no version")


def check_files(top, lib):
    if installed(top) != PLACES:
        fail("%s has %s" % (top, installed(top)))
    for place, source in zip(PLACES, ("include/acon.h", lib)):
        if read(os.path.join(top, place)) != read(source):
            fail("%s is not %s" % (place, source))
    for place in PLACES:
        if os.stat(os.path.join(top, place)).st_mode & 0o777 != 0o644:
            fail("%s cannot be read by all, or can be written" % place)


def check_provenance(top, lib, kit, newer):
    lines = read(os.path.join(top, PLACES[3])).decode().splitlines()
    given = dict(line.split(": ", 1) for line in lines)
    if [line.split(": ")[0] for line in lines] != FIELDS:
        fail("PROVENANCE has the lines %s" % lines)
    here = said("git", "rev-parse", "--show-cdup") == ""  # else this folder is not the top of a repository
    commit = said("git", "rev-parse", "HEAD") if here else None
    changed = said("git", "status", "--porcelain") if commit else None
    want = {
        "version": version(),
        "commit": commit or "unknown",
        "commit date": said("git", "log", "-1", "--format=%cI") if commit else "unknown",
        "tree changed": "unknown" if changed is None else "yes" if changed else "no",
        "source newer than archive": newer or given["source newer than archive"],
        "kit": kit or "unknown",
        "target": "x86_64-unknown-linux-gnu",
        "archive sha256": hashlib.sha256(read(lib)).hexdigest(),
    }
    for field, value in want.items():
        if given[field] != value:
            fail("PROVENANCE: %s is %s, and not %s" % (field, given[field], value))
    # The archive is for that target: its first object is an ELF file of 64 bits for x86-64.
    data = read(os.path.join(top, PLACES[1]))
    at = data.find(b"\x7fELF")
    if at < 0 or data[at + 4] != 2 or data[at + 18:at + 20] != b"\x3e\x00":
        fail("the archive has no object for x86-64")


def flags(top, prefix, by_tool):
    """The compiler's words for the library below `top`, where it was installed for `prefix`."""
    if by_tool:
        env = {**os.environ, "PKG_CONFIG_LIBDIR": os.path.join(top, "lib/pkgconfig")}
        env.pop("PKG_CONFIG_PATH", None)
        if prefix != top:
            env["PKG_CONFIG_SYSROOT_DIR"] = top[:-len(prefix)]
        if said("pkg-config", "--modversion", "acon", env=env) != version():
            fail("pkg-config gives another version")
        return (said("pkg-config", "--cflags", "--libs", "acon", env=env) or fail("pkg-config does not find acon")).split()
    rows = [re.split(r"=|: ", line, maxsplit=1) for line in read(os.path.join(top, PLACES[2])).decode().splitlines() if line]
    values = dict(rows)
    for name in ("includedir", "libdir", "Cflags", "Libs"):
        values[name] = re.sub(r"\$\{(\w+)\}", lambda m: values[m.group(1)], values[name])
    if values["prefix"] != prefix or values["Version"] != version():
        fail("acon.pc has another prefix or version")
    return (values["Cflags"] + " " + values["Libs"]).replace(prefix, top).split()


def check_host(top, prefix, by_tool):
    """Built in a folder of its own, so that nothing of this one is found."""
    with tempfile.TemporaryDirectory() as work:
        with open(os.path.join(work, "host.c"), "w", encoding="ascii") as f:
            f.write(HOST)
        words = flags(top, prefix, by_tool)
        if not all(word.startswith(("-I" + top, "-L" + top, "-lacon")) for word in words):
            fail("acon.pc asks for %s" % words)
        gcc = ["gcc", "-std=c11", "-Wall", "-Wextra", "-Werror", "host.c", *words, "-o", "host"]
        subprocess.run(gcc, cwd=work, check=True)
        printed = said("./host", cwd=work)
        if printed != PRINTED.format(version()).strip():
            fail("the host printed %r" % printed)


def check_refusals(top, path):
    """Nothing is installed, and it is said why."""
    for words, env, why in ((["PREFIX=" + top], {"ACON_LIB": "target/no.a"}, "there is no target/no.a"),
                            (["PREFIX=relative"], {}, "no absolute path"),
                            (["PREFIX="], {}, "no absolute path"),
                            (["PREFIX=" + top + "/a b"], {}, "acon.pc cannot hold")):
        done = make(*words, PATH=path, **env)
        if done.returncode == 0 or why not in done.stdout or os.path.exists(top) or os.path.exists("relative"):
            fail("%s: %s" % (words, done.stdout))


def main():
    by_tool, kit = shutil.which("pkg-config") is not None, said("rt", "version")
    with tempfile.TemporaryDirectory() as temporary:
        top, old, tools, stage, prefix = (os.path.join(temporary, name) for name in ("usr", "old.a", "tools", "stage", "prefix"))
        os.mkdir(tools)
        asked, path = watched(tools), tools + os.pathsep + os.environ["PATH"]
        check_refusals(top, path)

        done = make("PREFIX=" + top, PATH=path)
        if done.returncode != 0:
            fail(done.stdout)
        check_files(top, LIB)
        check_provenance(top, LIB, kit, None)
        check_host(top, top, by_tool)

        # The prefix is there below DESTDIR only, and no file names DESTDIR.
        shutil.copyfile(LIB, old)
        os.utime(old, (0, 0))
        done = make("PREFIX=" + prefix, "DESTDIR=" + stage, ACON_LIB=old, PATH=path)
        if done.returncode != 0:
            fail(done.stdout)
        if len(installed(stage)) != len(PLACES) or os.path.exists(prefix):
            fail("with DESTDIR these were installed: %s" % installed(temporary))
        check_files(stage + prefix, old)
        check_provenance(stage + prefix, old, kit, "yes")
        for place in PLACES[2:]:
            if stage.encode() in read(stage + prefix + "/" + place):
                fail("%s names DESTDIR" % place)
        check_host(stage + prefix, prefix, by_tool)

        if set(read(asked).split(b"\n")) != {b"version", b""}:
            fail("rt was asked for more than its version: %r" % read(asked))
    print("install: %d files and no other, with DESTDIR too; a host was built from them alone, %s, and ran"
          % (len(PLACES), "by pkg-config" if by_tool else "by reading acon.pc here, since pkg-config is missing"))


main()
