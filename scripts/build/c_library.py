#!/usr/bin/env python3
# SPDX-License-Identifier: Apache-2.0
"""Builds the proved library for programs in C, crates/vhost_c/out/libvhost_c.a, where it is not there or a source is newer,
and beside it libvhost_c.verdict, the checker's verdict, and libvhost_c.s, the same code as assembly.
Status 0, or 3 with why not.

`c_library.py --current` builds nothing: status 0 where they are there and no source is newer, else 1.

`c_library.py --watched` builds it once more, as out/watched/libvhost_c.a: the same proved functions, compiled with a counter at each
branch, by which libFuzzer sees where an input went (`./vhost-fuzz`).

The libraries below it are taken as `rt ci` or `rt lib` left them in out/, and then only vhost_c is proved. Where one is
missing or older than its sources, each is built by `rt lib` first, lowest first. In that order `rt lib` has no need of its
quick pass over all sources at once, which reports errors in functions that this library does not reach.
"""
import os
import shutil
import subprocess
import sys
import tempfile
import time

from assembly import INLINED, LISTING, assembly, keeping, verdict_of
from crates import PARTS, TOP, crates_below, is_current, kit, rlib, words_over

NAME = "vhost_c"
CRATE = f"{TOP}/crates/{NAME}"
ARCHIVE = f"{CRATE}/out/lib{NAME}.a"
VERDICT = f"{CRATE}/out/lib{NAME}.verdict"
ASSEMBLY = f"{CRATE}/out/lib{NAME}.s"
WATCHED = f"{CRATE}/out/watched/lib{NAME}.a"
# It runs on every processor of the family.
CPU = "x86-64"


def stop(why):
    print(f"c_library: {why}", file=sys.stderr)
    sys.exit(3)


def run(folder, *words):
    """What a command wrote, and whether it succeeded."""
    ran = subprocess.run(words, cwd=folder, stdin=subprocess.DEVNULL, stdout=subprocess.PIPE, stderr=subprocess.STDOUT, text=True, errors="replace")
    return ran.stdout, ran.returncode == 0


def over_libraries(archive, toolchain):
    """Proves and builds it over the libraries that are there."""
    words = [*words_over(NAME, kit()), "--cpu", CPU, "--backend", "llvm", LISTING, "--toolchain", toolchain]
    words += ["--jobs", os.environ.get("RT_JOBS") or str(min(len(os.sched_getaffinity(0)), 4)), "-o", archive]
    # (with work that checks kept it takes a minute, and then the checker's line says so)
    words += ["--incremental", "out/incremental"] if os.path.isdir(f"{CRATE}/out/incremental") else []
    os.makedirs(os.path.dirname(archive), exist_ok=True)
    return run(CRATE, f"{kit()}/bin/rattle", "build", *words)


def libraries():
    """Builds each library below it. What was said of the last one, and whether all are there."""
    names = crates_below(NAME)[:-1]
    jobs = ["--jobs", os.environ["RT_JOBS"]] if os.environ.get("RT_JOBS") else []
    said = ""
    for count, name in enumerate(names, 1):
        print(f"c_library: {count} of {len(names)} libraries: {name} ..", end="", file=sys.stderr, flush=True)
        began = time.monotonic()
        said, is_built = run(f"{TOP}/crates/{name}", "rt", "lib", *jobs)
        print(f" {'proved' if is_built else 'failed'}, {time.monotonic() - began:.0f} seconds", file=sys.stderr)
        if not is_built:
            return said, False
    return said, True


def build():
    """Proves and builds the library, with those below it where they are not there."""
    is_there = all(is_current(it, rlib(it), PARTS) for it in crates_below(NAME)[:-1])
    said, is_built = ("", True) if is_there else libraries()
    # (`rt` refuses a crate's folder that has links)
    with tempfile.TemporaryDirectory() as room:
        if is_built:
            keeping(f"{kit()}/toolchain", f"{room}/toolchain", INLINED)
            said, is_built = over_libraries(ARCHIVE, f"{room}/toolchain")
        verdict = verdict_of(said)
        if not is_built or not verdict:
            print(said, end="", file=sys.stderr)
            stop("not proved, or not built")
        with open(ASSEMBLY, "w", encoding="utf-8") as it:
            it.write(assembly(f"{kit()}/toolchain", f"{room}/toolchain", INLINED))
    with open(VERDICT, "w", encoding="utf-8") as it:
        it.write(verdict)


def watch():
    """Builds it once more, with a counter at each branch."""
    with tempfile.TemporaryDirectory() as room:
        keeping(f"{kit()}/toolchain", f"{room}/toolchain", "-fsanitize-coverage=inline-8bit-counters,pc-table")
        said, is_built = over_libraries(WATCHED, f"{room}/toolchain")
    if not is_built:
        print(said, end="", file=sys.stderr)
        stop("not built with counters")


def main(words):
    if words not in ([], ["--current"], ["--watched"]):
        print("usage: c_library.py [--current | --watched]", file=sys.stderr)
        sys.exit(3)
    are_there = all(is_current(NAME, it, PARTS) for it in (ARCHIVE, VERDICT, ASSEMBLY))
    # (how it is compiled stands there)
    are_there = are_there and os.path.getmtime(f"{TOP}/scripts/build/assembly.py") <= os.path.getmtime(ASSEMBLY)
    if words == ["--current"]:
        sys.exit(0 if are_there else 1)
    if not shutil.which("rt"):
        stop("the command rt of the Rattle kit is not on PATH")
    began = time.time()
    made = []
    if not are_there:
        build()
        made += [ARCHIVE, VERDICT, ASSEMBLY]
    if words == ["--watched"] and not is_current(NAME, WATCHED, PARTS):
        watch()
        made.append(WATCHED)
    # (what is changed while it is built is newer)
    for it in made:
        os.utime(it, (began, began))


if __name__ == "__main__":
    main(sys.argv[1:])
