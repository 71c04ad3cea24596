#!/usr/bin/env python3
# SPDX-License-Identifier: Apache-2.0
"""The library for programs in C as a shared object, for the player of scripts: made where it is not there, or a source is newer.

  tests/shared_library.py   makes it, and prints where it is, and whether it is 'proved', 'generated' or 'unproved'

It is linked of the proved archive, where that is current; or assembled of generated/, where that was made of these sources, which needs no
kit. Else vhost_c is compiled without proof: `rt try` compiles programs alone, and of them only what runs, so a copy of vhost_c gets a `main`
that makes each call once; of what is compiled then, the calls are exported.

Status 0, or 3 where it could not be made.
"""
import functools
import glob
import os
import re
import shutil
import subprocess
import sys
import tempfile
import time

sys.path.insert(0, os.path.join(os.path.dirname(os.path.realpath(__file__)), "../scripts/build"))

import generate  # noqa: E402
from crates import TOP, crates_below, is_current  # noqa: E402

NAME = "vhost_c"
CRATE = f"{TOP}/crates/{NAME}"
ARCHIVE = f"{CRATE}/out/lib{NAME}.a"
GENERATED = "x86_64/covretin"

# A call of the library: its name and its parameters.
CALL = re.compile(r'#\[unsafe\(no_mangle\)\]\npub extern "C" fn (\w+)\(([^)]*)\)')

# How many calls one function makes.
AT_ONCE = 12


class Unmade(Exception):
    """Why the library could not be made."""


def run(*words, cwd=None):
    """Runs a command that has to succeed."""
    ran = subprocess.run(words, cwd=cwd, stdin=subprocess.DEVNULL, stdout=subprocess.PIPE, stderr=subprocess.STDOUT, check=False)
    if ran.returncode:
        raise Unmade(ran.stdout.decode(errors="replace"))
    return ran.stdout.decode(errors="replace")


def kit():
    """The folder of the Rattle kit."""
    return os.path.dirname(run("rt", "doc", cwd=TOP).strip())


def text_of(path):
    with open(path, encoding="utf-8") as file:
        return file.read()


def write(path, text):
    with open(path, "w", encoding="utf-8") as file:
        file.write(text)


def fields_of():
    """The fields of each record of the headers, and the crate that it is of."""
    found = {}
    for path in (path for name in crates_below(NAME) for path in glob.glob(f"{TOP}/crates/{name}/src/*records.rt")):
        for name, fields in re.findall(r"pub struct (\w+) \{\n(.*?)\n\}", text_of(path), re.S):
            found[name] = path.split("/")[-3], re.findall(r"(?m)^    pub (\w+): (\w+),", fields)
    return found


def value_of(kind, records):
    """A value of a type, in the source's language."""
    if kind in records:
        return f"{kind} {{ {', '.join(f'{name}: {value_of(it, records)}' for name, it in records[kind][1])} }}"
    if kind.endswith("Holder"):
        return f"{kind}::none()"
    return "false" if kind == "bool" else f"0{kind}"


def argument_of(kind, records):
    """An argument of a type: `alloc`, a value, or one that is lent, alone or as a slice."""
    if kind == "Global":
        return "alloc"
    lent, slice_, name = re.fullmatch(r"(&mut |&)?(\[)?(\w+)\]?", kind).groups()
    value = value_of(name, records)
    return f"{lent or ''}{f'[{value}]' if slice_ else value}"


def calls_in(source, records):
    """The calls of the library in the sources of a copy, each as a statement."""
    for path in sorted(glob.glob(f"{source}/*.rt")):
        module = os.path.basename(path)[:-3]
        for name, parameters in CALL.findall(text_of(path)):
            kinds = [it.split(": ", 1)[1] for it in map(str.strip, parameters.split(",")) if it]
            yield f"    let _ = {module}::{name}({', '.join(argument_of(it, records) for it in kinds)});\n"


def imports_in(source, records):
    """What these calls name."""
    lines = [f"use {crate}::{name};\n" for name, (crate, _) in records.items()]
    for path in glob.glob(f"{source}/*holder.rt"):
        lines += [f"use {os.path.basename(path)[:-3]}::{it};\n" for it in re.findall(r"pub struct (\w+)", text_of(path))]
    return "".join(sorted([*lines, "use std::alloc::Global;\n"]))


def make_program(room):
    """A copy of the crates whose vhost_c is a program that makes each call once."""
    names = crates_below(NAME)
    for name in names:
        shutil.copytree(f"{TOP}/crates/{name}", f"{room}/crates/{name}", ignore=shutil.ignore_patterns("out"))
    lines = [it for it in text_of(f"{TOP}/crates.txt").splitlines(True) if it.partition(":")[0].split(" ")[0] in names]
    write(f"{room}/crates.txt", "".join(lines).replace(f"{NAME} staticlib:", f"{NAME}:"))
    shutil.copy(f"{TOP}/HANDLES", room)
    source, records = f"{room}/crates/{NAME}/src", fields_of()
    for path in glob.glob(f"{source}/*holder.rt"):
        write(path, text_of(path).replace("    fn none() -> ", "    pub(crate) fn none() -> "))
    calls = list(calls_in(source, records))
    parts = ["".join(calls[at:at + AT_ONCE]) for at in range(0, len(calls), AT_ONCE)]
    begun = "".join(f"    call_{at}(alloc);\n" for at in range(len(parts)))
    made = "".join(f"\nfn call_{at}(alloc: Global) {{\n{part}}}\n" for at, part in enumerate(parts))
    head = text_of(f"{source}/lib.rt") + imports_in(source, records)
    write(f"{source}/main.rt", f"{head}\nfn main(rt: HostRuntime) {{\n    let alloc = rt.alloc();\n{begun}}}\n{made}")
    os.remove(f"{source}/lib.rt")
    return len(calls)


def caught(room, attempt):
    """What `rt try` compiled of the program, in LLVM's bitcode. It is linked to a name of its own, since `rt try` removes it."""
    kept = f"{room}/kept"
    os.mkdir(kept)
    while True:
        is_over = attempt.poll() is not None
        is_made = bool(glob.glob(f"{room}/made/*/*/program"))
        for path in glob.glob(f"{room}/made/*/*/module.bc"):
            try:
                os.link(path, f"{kept}/{os.path.basename(os.path.dirname(path))}")
            except OSError:
                pass
        if is_made or is_over:
            return max(glob.glob(f"{kept}/*"), key=os.path.getsize, default=None)
        time.sleep(0.02)


def compile_program(room):
    """Compiles the program without proof, as far as its bitcode."""
    os.mkdir(f"{room}/made")
    os.mkdir(f"{room}/cases")
    open(f"{room}/cases/0", "wb").close()
    words = ["rt", "try", "--steps", "1", "--seconds", "2", "--cases", f"{room}/cases"]
    how = {"cwd": f"{room}/crates/{NAME}", "env": {**os.environ, "TMPDIR": f"{room}/made"}, "stdin": subprocess.DEVNULL}
    with open(f"{room}/told", "w+b") as told, subprocess.Popen(words, stdout=told, stderr=told, **how) as attempt:
        found = caught(room, attempt)
        attempt.terminate()
    if not found:
        raise Unmade(text_of(f"{room}/told"))
    return found


def export(bitcode, room, folder, count):
    """The object of that bitcode, whose calls others may make."""
    run(f"{folder}/toolchain/bin/clang", "-O0", "-S", "-emit-llvm", "-x", "ir", bitcode, "-o", f"{room}/module.ll")
    text = text_of(f"{room}/module.ll")
    text, found = re.subn(rf'(?m)^define internal (.*?)@"{NAME}::\w+::(covretin_\w+)"', r"define \1@\2", text)
    text = re.sub(rf'@"{NAME}::\w+::(covretin_\w+)"', r"@\1", text).replace("define i32 @main()", "define internal i32 @main()")
    if found != count:
        raise Unmade(f"{found} of its {count} calls were compiled\n")
    write(f"{room}/exported.ll", text)
    run(f"{folder}/toolchain/bin/clang", "-O1", "-fPIC", "-c", "-x", "ir", f"{room}/exported.ll", "-o", f"{room}/library.o")
    return f"{room}/library.o"


def link(made, folder, *parts):
    """Links objects to a shared object. What it needs of the C library is in the process that loads it."""
    os.makedirs(os.path.dirname(made), exist_ok=True)
    run(f"{folder}/toolchain/bin/ld.lld", "-shared", "-o", f"{made}.new", *parts, f"{folder}/c/liblibc_c.a")
    os.replace(f"{made}.new", made)


def make_unproved(made):
    """Makes it without proof."""
    folder = kit()
    with tempfile.TemporaryDirectory(prefix="shared-library-") as room:
        # What changes from now on is newer.
        began = time.time()
        count = make_program(room)
        link(made, folder, export(compile_program(room), room, folder, count))
    os.utime(made, (began, began))


def assemble(made):
    """Makes it of generated/."""
    os.makedirs(os.path.dirname(made), exist_ok=True)
    run("cc", "-shared", "-fPIC", "-O2", "-o", f"{made}.new", f"{generate.place(GENERATED)}.s", f"{TOP}/c/covretin_memory.c")
    os.replace(f"{made}.new", made)


@functools.lru_cache(maxsize=None)
def is_generated():
    """Whether generated/ was made of the sources as they are."""
    return generate.is_current(GENERATED)


def place():
    """Where the library is, once it is made; whether it is; and of what it is."""
    made = lambda kind: f"{CRATE}/out/{kind}/libcovretin.so"
    is_newer = lambda path, source: os.path.exists(path) and os.path.getmtime(path) >= os.path.getmtime(source)
    if is_current(NAME, ARCHIVE, ["src", "specs", "proofs"]):
        return made("proved"), is_newer(made("proved"), ARCHIVE), "proved"
    if is_generated():
        return made("generated"), is_newer(made("generated"), f"{generate.place(GENERATED)}.s"), "generated"
    return made("unproved"), is_current(NAME, made("unproved"), ["src"]), "unproved"


def shared_library():
    """Where the library is; it is made where it has to be."""
    path, is_made, kind = place()
    if not is_made and kind == "proved":
        link(path, kit(), "--whole-archive", ARCHIVE, "--no-whole-archive")
    elif not is_made and kind == "generated":
        assemble(path)
    elif not is_made:
        make_unproved(path)
    return path


def main():
    try:
        print(shared_library(), place()[2])
    except Unmade as why:
        print(f"shared_library: the library could not be made\n{why}", end="", file=sys.stderr)
        return 3
    return 0


if __name__ == "__main__":
    sys.exit(main())
