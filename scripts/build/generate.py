#!/usr/bin/env python3
# SPDX-License-Identifier: Apache-2.0
"""Writes generated/: the proved library and programs as assembly, so that they are built without the kit.

  scripts/build/generate.py                 writes all of it: generated/MACHINE-linux/ of x86_64 and aarch64
  scripts/build/generate.py NAME..          writes these alone: x86_64/covretin, x86_64/covretin_queue, x86_64/vhost-run, x86_64/vhost-daemon,
                                      aarch64/covretin, aarch64/covretin_queue
  scripts/build/generate.py --compare       writes nothing, and compares what is there with what is proved now, whole (same_code.py)
  scripts/build/generate.py --check         whether each file of code is the one that its verdict has the sum of, and was made of the sources as they
                                      are: it names each that is not, takes a second, and needs no kit
  scripts/build/generate.py --sums          writes these sums anew for what is there, as after a merge of generated/; it needs no kit, and proves nothing
  scripts/build/generate.py --current NAME  status 0 where that one is whole and was made of the sources as they are, else 1; it needs no kit
  scripts/build/generate.py --program NAME  the same, and assembles the program on this machine, in out/ of its crate, and prints where it is

In a machine's folder NAME.s is the code; NAME.verdict has the functions in C that its proof assumes, the line in which the checker says
what is proved, and the sum of NAME.s; and NAME.sources the sum of the sources that it was made of, the kit that proved it, and below the sum
of each source, as sha256sum reads them. What is made depends on nothing else, and names no place.

The libraries below have to be there, as ./test proofs leaves them. For x86_64 the library is what scripts/build/c_library.py builds, which proves it
where a source is newer. Each of the others is a proof of its last crate: a minute or two of one processor, and some ten of the library for
aarch64.

Status 0; 1 where something differs or is not current; 2 after wrong arguments; 3 where something is missing, or was not proved.
"""
import hashlib
import os
import shutil
import subprocess
import sys
import tempfile
from concurrent.futures import ThreadPoolExecutor

sys.path.insert(0, os.path.join(os.path.dirname(os.path.realpath(__file__)), "../check_pages"))

import interfaces  # noqa: E402
from assembly import INLINED, LISTING, assembly, keeping, sum_line, verdict_of  # noqa: E402
from crates import PARTS, TOP, crates_below, dependencies, kit, lacking, root_of, words_over  # noqa: E402

# The crate of each, with the kind, target and processor of its code: it runs on every processor of the family.
X86_64 = ("x86_64-unknown-linux-gnu", "x86-64")
AARCH64 = ("aarch64-unknown-linux-gnu", "generic")
MADE = {
    "x86_64/covretin": ("vhost_c", X86_64),
    "x86_64/covretin_queue": ("vhost_c_queue_calls", X86_64),
    "x86_64/vhost-run": ("vhost_run", X86_64),
    "x86_64/vhost-daemon": ("vhost_daemon", X86_64),
    "aarch64/covretin": ("vhost_c", AARCH64),
    "aarch64/covretin_queue": ("vhost_c_queue_calls", AARCH64),
}

# What a program is linked with beside what each is, with the headers of that, and the linker's words: as the Makefile has them.
LINKED = {"x86_64/vhost-run": ("vhost_run_reasons.c", "line_reasons.c", "line_reasons.h", "covretin_features.h", "covretin_reasons.h")}
WRAPPED = {"x86_64/vhost-run": ("-Wl,--wrap=read", "-Wl,--wrap=write")}

LIBRARY = f"{TOP}/crates/vhost_c/out/libvhost_c"


def stop(why):
    print(f"generate: {why}", file=sys.stderr)
    sys.exit(3)


def place(name):
    """Where it lies, without the end of a file's name."""
    machine, _, file = name.partition("/")
    return f"{TOP}/generated/{machine}-linux/{file}"


def text_of(path):
    with open(path, encoding="utf-8") as it:
        return it.read()


def sources_of(crate):
    """The sum of each source that a crate is made of, and which libraries each crate uses."""
    for name in crates_below(crate):
        yield f"# {name}: {' '.join(dependencies()[name])}\n"
        for part in PARTS:
            for at, folders, files in os.walk(f"{TOP}/crates/{name}/{part}"):
                folders.sort()
                for file in sorted(files):
                    with open(f"{at}/{file}", "rb") as it:
                        inside = hashlib.sha256(it.read()).hexdigest()
                    yield f"{inside}  {os.path.relpath(f'{at}/{file}', TOP)}\n"


def sum_of(listing):
    return hashlib.sha256("".join(listing).encode()).hexdigest()


def is_whole(name):
    """Whether the code is the file that the verdict has the sum of. Where it is another, a line says so."""
    path = place(name)
    if not os.path.isfile(f"{path}.s") or not os.path.isfile(f"{path}.verdict"):
        return False
    if sum_line(f"{os.path.basename(path)}.s", text_of(f"{path}.s")) in text_of(f"{path}.verdict"):
        return True
    print(f"generate: generated/{os.path.relpath(path, f'{TOP}/generated')}.s is not the file that was proved", file=sys.stderr)
    return False


def other_source(name):
    """The first source that is not the one that it was made of; None where each is."""
    path = f"{place(name)}.sources"
    listing = list(sources_of(MADE[name][0]))
    said = text_of(path).splitlines(keepends=True) if os.path.isfile(path) else []
    if said and said[0].startswith(f"# {sum_of(listing)} "):
        return None
    differ = sorted({*listing} ^ {*said[1:]}, key=lambda it: it.split()[1])
    return differ[0].split()[1].rstrip(":") if differ and said[1:] else "a source"


def is_current(name):
    """Whether it is whole, and was made of the sources as they are."""
    return is_whole(name) and other_source(name) is None


def check(name):
    """The same, and a line says what is not so."""
    whole, other = is_whole(name), other_source(name)
    if other:
        print(f"generate: {name} was made of other sources: {other} is not the one that was proved", file=sys.stderr)
    return whole and not other


def program(name):
    """Where the program is, assembled on this machine. None where it was made of other sources, or cannot be assembled here."""
    if os.uname().machine != name.partition("/")[0] or not shutil.which("cc") or not is_current(name):
        return None
    crate = MADE[name][0]
    made = f"{TOP}/crates/{crate}/out/assembled/{crate}"
    sources = [f"{place(name)}.s", *(f"{TOP}/c/{it}" for it in ("covretin_program.c", "covretin_memory.c", *LINKED.get(name, ())))]
    words = ["cc", "-O2", "-pthread", f"-I{TOP}/include", *WRAPPED.get(name, ())]
    if not os.path.exists(made) or any(os.path.getmtime(it) > os.path.getmtime(made) for it in sources):
        os.makedirs(os.path.dirname(made), exist_ok=True)
        with tempfile.TemporaryDirectory(dir=os.path.dirname(made)) as room:
            compiled = [it for it in sources if not it.endswith(".h")]
            if subprocess.run([*words, "-o", f"{room}/program", *compiled], check=False).returncode:
                return None
            os.replace(f"{room}/program", made)
    return made


def words_of(crate, kit_folder, of, toolchain, made):
    """The checker's words that prove and build the crate."""
    target, cpu = of
    words = [*words_over(crate, kit_folder), "--target", target, "--cpu", cpu, "--backend", "llvm", LISTING]
    return [*words, "--toolchain", toolchain, "--jobs", os.environ.get("RT_JOBS") or str(min(len(os.sched_getaffinity(0)), 4)), "-o", made]


def need_libraries(crates):
    """Stops where a library below these crates is not there, or is older than its sources."""
    missing = lacking(crates)
    if missing:
        stop(f"run ./test proofs first: not built, or older than its sources: {' '.join(missing)}")


def prove(name, room):
    """Proves and builds one: the object or archive, the same as assembly, and the checker's verdict."""
    crate, of = MADE[name]
    need_libraries([crate])
    kit_folder, folder = kit(), f"{room}/toolchain"
    # (of a program the checker makes an object)
    is_program = root_of(crate) == "src/main.rt"
    made = f"{room}/made.{'o' if is_program else 'a'}"
    flags = "" if is_program else INLINED
    keeping(f"{kit_folder}/toolchain", folder, flags)
    words = [f"{kit_folder}/bin/rattle", "build", *words_of(crate, kit_folder, of, folder, made)]
    how = {"stdin": subprocess.DEVNULL, "stdout": subprocess.PIPE, "stderr": subprocess.STDOUT}
    ran = subprocess.run(words, cwd=f"{TOP}/crates/{crate}", text=True, errors="replace", check=False, **how)
    verdict = verdict_of(ran.stdout)
    if ran.returncode or not verdict:
        print(ran.stdout, end="", file=sys.stderr)
        stop(f"{name} was not proved, or not built")
    return made, assembly(f"{kit_folder}/toolchain", folder, flags), verdict


def proved(name, room):
    """The same, where the library of x86_64 is what programs in C are tested over."""
    if MADE[name] != ("vhost_c", X86_64):
        return prove(name, room)
    if subprocess.run([sys.executable, f"{TOP}/scripts/build/c_library.py"], check=False).returncode:
        stop("the library was not built")
    # (over what checks kept the checker's line says that this was trusted)
    if "incremental=trusted" in text_of(f"{LIBRARY}.verdict"):
        return prove(name, room)
    return f"{LIBRARY}.a", text_of(f"{LIBRARY}.s"), text_of(f"{LIBRARY}.verdict")


def write(name):
    with tempfile.TemporaryDirectory() as room:
        _, code, verdict = proved(name, room)
    os.makedirs(os.path.dirname(place(name)), exist_ok=True)
    identity = subprocess.run(["rt", "version"], check=True, stdout=subprocess.PIPE, text=True).stdout.strip()
    write_parts(name, code, verdict, identity)


def write_parts(name, code, verdict, identity):
    """Writes code, the verdict with the sum of it, and the sums of its sources."""
    listing = list(sources_of(MADE[name][0]))
    verdict += sum_line(f"{os.path.basename(place(name))}.s", code)
    for end, text in (("s", code), ("verdict", verdict), ("sources", f"# {sum_of(listing)} {identity}\n{''.join(listing)}")):
        with open(f"{place(name)}.{end}", "w", encoding="utf-8") as it:
            it.write(text)


def write_sums(name):
    """Writes the sums anew, of code that was made of the sources as they are; of other code that of the code alone, and False."""
    path = place(name)
    code, verdict, first = text_of(f"{path}.s"), text_of(f"{path}.verdict"), text_of(f"{path}.sources").partition("\n")[0]
    verdict = "".join(it for it in verdict.splitlines(keepends=True) if not it.endswith(f"  {os.path.basename(path)}.s\n"))
    if first.startswith(f"# {sum_of(sources_of(MADE[name][0]))} "):
        write_parts(name, code, verdict, first.split(" ", 2)[2])
        return True
    with open(f"{path}.verdict", "w", encoding="utf-8") as it:
        it.write(verdict + sum_line(f"{os.path.basename(path)}.s", code))
    print(f"generate: {name} was made of other sources, which have to be proved: scripts/build/generate.py {name}", file=sys.stderr)
    return False


def tools(name):
    """The tools that read code of its machine, as same_code.py takes them; None where they are not there."""
    if name.startswith("x86_64/"):
        return {}
    found = {"CC": "aarch64-linux-gnu-gcc", "OBJDUMP": "aarch64-linux-gnu-objdump", "AR": "ar"}
    return found if all(map(shutil.which, found.values())) else None


def is_same(made, code, with_tools):
    """Whether assembly is the code that the checker made, and what same_code.py printed of it."""
    words = [sys.executable, f"{TOP}/scripts/trust/same_code.py", made, code]
    ran = subprocess.run(words, env={**os.environ, **with_tools}, stdout=subprocess.PIPE, text=True, check=False)
    return ran.returncode == 0, ran.stdout


def compare(name):
    """Whether one is the code that is proved now, and one changed branch would be found. It says so in a line."""
    if not check(name):
        print(f"generated_{name}: FAILED: scripts/build/generate.py {name}")
        return False
    with_tools = tools(name)
    if with_tools is None:
        print(f"generated_{name}: left out: aarch64-linux-gnu-gcc is not on PATH")
        return True
    code, branches = f"{place(name)}.s", {"x86_64": ("\tjne\t", "\tje\t"), "aarch64": ("\tb.ne\t", "\tb.eq\t")}
    with tempfile.TemporaryDirectory() as room:
        made, _, verdict = proved(name, room)
        same, said = is_same(made, code, with_tools)
        with open(f"{room}/planted.s", "w", encoding="utf-8") as it:
            it.write(text_of(code).replace(*branches[name.partition("/")[0]], 1))
        planted, _ = is_same(made, f"{room}/planted.s", with_tools)
    said_of_it = text_of(f"{place(name)}.verdict")
    held = same and not planted and verdict + sum_line(f"{os.path.basename(place(name))}.s", text_of(code)) == said_of_it
    print(f"{said}generated_{name}: {'ok' if held else 'FAILED'}", flush=True)
    return held


def compare_all():
    """Compares all side by side, in a process each, which is less work than several for one: whether each is the code that is proved now."""
    # (c_library.py would build a library anew that others read)
    need_libraries([crate for crate, _ in MADE.values()])
    os.environ.setdefault("RT_JOBS", "1")
    with ThreadPoolExecutor(len(os.sched_getaffinity(0))) as pool:
        return list(pool.map(compare, sorted(MADE, key=lambda it: MADE[it][0] != "vhost_c")))


def main(words):
    if words[:1] == ["--current"] and len(words) == 2 and words[1] in MADE:
        return 0 if is_current(words[1]) else 1
    if words[:1] == ["--program"] and len(words) == 2 and words[1] in MADE:
        made = program(words[1])
        print(made or "", end="\n" if made else "")
        return 0 if made else 1
    if words in (["--check"], ["--sums"]):
        # (each, and not up to the first that is not)
        held = [(check if words == ["--check"] else write_sums)(it) for it in MADE]
        print(f"{held.count(True)} passed, {held.count(False)} failed")
        return 0 if all(held) else 1
    if words == ["--compare"]:
        held = compare_all()
        print(f"{held.count(True)} passed, {held.count(False)} failed")
        return 0 if all(held) else 1
    if any(it not in MADE for it in words):
        print(__doc__, end="", file=sys.stderr)
        return 2
    for it in words or MADE:
        write(it)
    # (what the headers say of the stack is of this code)
    interfaces.write_stack()
    return 0


if __name__ == "__main__":
    sys.exit(main(sys.argv[1:]))
