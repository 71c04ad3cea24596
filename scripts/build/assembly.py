# SPDX-License-Identifier: Apache-2.0
"""Proved code as assembly: a toolchain that keeps what the checker compiles, and that once more as text; and what the checker says of it, as it is kept
beside the code, with the sum of that code. c_library.py and generate.py use it."""
import hashlib
import os
import re
import shutil
import subprocess
import sys

# The word by which it names each function in C whose contract a proof rests on.
LISTING = "--list-axioms"

# What the libraries for C are compiled with beside the checker's words, so that a call of theirs is few functions from its export on: between
# functions values are copied from place to place. Both sessions' round trip of GET_FEATURES takes 4,012 instructions without this, and
# covretin has 185 KB of code; with it 2,799 and 614 KB. A threshold of 1,000: 3,414 and 237 KB; of 20,000: 2,601 and 840 KB, and no faster
# by the clock. A queue's chain of eight takes 2,525 instructions without this, and 1,862 with it.
INLINED = " ".join(
    f"-mllvm -{it}"
    for it in (
        "inline-threshold=5000",
        "dse-memoryssa-scanlimit=2000",
        "dse-memoryssa-walklimit=2000",
        "memssa-check-limit=2000",
        "memdep-block-scan-limit=1000",
    )
)

# What each function is compiled with beyond what the checker asks for: its frame is described at each instruction (.cfi), so that debuggers,
# profilers and exceptions find the way through it to whoever called; and a branch that is not direct lands where one may (endbr64, bti), with the
# return address signed where the processor can (paciasp). And the flags of the module that tell the linker so (.note.gnu.property).
PROTECTED = {
    "x86_64": ("uwtable", ("cf-protection-branch", "cf-protection-return")),
    "aarch64": (
        'uwtable "branch-target-enforcement" "sign-return-address"="non-leaf" "sign-return-address-key"="a_key"',
        ("branch-target-enforcement", "sign-return-address"),
    ),
}
DEFINED = re.compile(r"^define .*$", re.M)
# (behind names, which may have any character)
GROUP = re.compile(r" #(\d+)")
FLAGS = "!llvm.module.flags"


def protected(module, machine):
    """A module of LLVM, as text, with these attributes and flags."""
    attributes, flags = PROTECTED[machine]
    groups = [GROUP.search(re.sub(r'"[^"]*"', "", it)) for it in DEFINED.findall(module)]
    assert groups and all(groups), "a function has no attributes"
    for it in {group[1] for group in groups}:
        module, count = re.subn(rf"^(attributes #{it} = {{.*) }}$", lambda found: f"{found[1]} {attributes} }}", module, flags=re.M)
        assert count == 1, f"no attributes #{it}"
    # (8: the module that is linked with it has both, or neither)
    free = 1 + max(map(int, re.findall(r"^!(\d+) = ", module, re.M)), default=-1)
    lines = [f'!{free + at} = !{{i32 8, !"{flag}", i32 1}}' for at, flag in enumerate(flags)]
    named = ", ".join(f"!{free + at}" for at in range(len(flags)))
    module, count = re.subn(rf"^({FLAGS} = !{{.*)}}$", lambda found: f"{found[1]}, {named}}}", module, flags=re.M)
    return "\n".join([module, *([] if count else [f"{FLAGS} = !{{{named}}}"]), *lines, ""])


def compile_kept(theirs, folder, flags, words):
    """What stands for the compiler: keeps the words of a call and the files that they name, in a folder by its number, and compiles them, where
    that makes code with each function protected. It takes the compiler's place, and does not return."""
    compiler, kept = f"{theirs}/bin/clang", f"{folder}/kept/{len(os.listdir(f'{folder}/kept'))}"
    os.mkdir(kept)
    if "-c" in words:
        at = words.index("ir") + 1
        if words[at].endswith(".bc"):
            text = f"{words[at][:-3]}.ll"
            # (the order of uses, which passes follow, is kept)
            how = ["-S", "-emit-llvm", "-Xclang", "-disable-llvm-passes", "-Xclang", "-emit-llvm-uselists"]
            target = next(it for it in words if it.startswith("--target="))
            subprocess.run([compiler, target, *how, "-x", "ir", words[at], "-o", text], check=True)
            words[at] = text
        with open(words[at], encoding="utf-8") as it:
            module = protected(it.read(), next(machine for machine in PROTECTED if f"--target={machine}-" in " ".join(words)))
        with open(words[at], "w", encoding="utf-8") as it:
            it.write(module)
    with open(f"{kept}/words", "w", encoding="utf-8") as it:
        it.write("".join(f"{word}\n" for word in words))
    for it in filter(os.path.isfile, words):
        shutil.copy(it, kept)
    os.execv(compiler, [compiler, *flags.split(), *words])


# The checker calls it with no environment.
COMPILER = """#!{python}
import sys
sys.path.insert(0, {scripts!r})
from assembly import compile_kept
compile_kept({theirs!r}, {folder!r}, {flags!r}, sys.argv[1:])
"""


def keeping(theirs, folder, flags=""):
    """Makes a toolchain in a folder: links to theirs, and a compiler that keeps what it is given, and is given these flags more."""
    os.makedirs(f"{folder}/bin")
    os.makedirs(f"{folder}/kept")
    os.symlink(f"{theirs}/lib", f"{folder}/lib")
    for it in os.listdir(f"{theirs}/bin"):
        if it != "clang":
            os.symlink(f"{theirs}/bin/{it}", f"{folder}/bin/{it}")
    scripts = os.path.dirname(os.path.realpath(__file__))
    with open(f"{folder}/bin/clang", "w", encoding="utf-8") as it:
        it.write(COMPILER.format(python=sys.executable, scripts=scripts, theirs=theirs, folder=folder, flags=flags))
    os.chmod(f"{folder}/bin/clang", 0o755)


def assembly(theirs, folder, flags=""):
    """What the last call compiled, as assembly for any place in memory, with the flags that it had. For aarch64 there are two calls, and the
    second is of the module."""
    kept = f"{folder}/kept/{max(map(int, os.listdir(f'{folder}/kept')))}"
    with open(f"{kept}/words", encoding="utf-8") as it:
        words = it.read().split("\n")[:-1]
    words = [f"--sysroot={theirs}" if it.startswith("--sysroot=") else {"-c": "-S", "module.o": "module.s"}.get(it, it) for it in words]
    # (comments would double the size, and a table of addresses says nothing to a linker of another toolchain)
    subprocess.run([f"{theirs}/bin/clang", *flags.split(), *words, "-fPIC", "-fno-verbose-asm", "-fno-addrsig"], cwd=kept, check=True)
    with open(f"{kept}/module.s", encoding="utf-8") as it:
        return named(assembled_alone(it.read()))


# What .note.gnu.property says once more, in words that assemblers up to 2024 do not know.
ATTRIBUTES = re.compile(r"^\t\.aeabi_(?:subsection|attribute)\t.*\n", re.M)
# The note, up to the next section.
NOTE = re.compile(r"^\t\.section\t\.note\.gnu\.property,.*\n(?:.*\n)*?(?=\t\.text\n)", re.M)


def assembled_alone(text):
    """The same, where the note stands for this code alone: what takes it into a module of its own code sets the symbol, since the note would
    speak of that, too."""
    text, count = NOTE.subn(lambda it: f"\t.ifndef\tcovretin_in_a_module\n{it[0]}\t.endif\n", ATTRIBUTES.sub("", text))
    assert count == 1, "the assembly has no note"
    return text


# A function's name where its code begins, and the end of it, whose number its other labels have.
BEGINNING = re.compile(r'^("[^"]+"|[\w.$]+):')
END = re.compile(r"^\.Lfunc_end(\d+):")
# A label that is numbered by its function, any other, and a name that has one in it.
OF_FUNCTION = re.compile(r"\.L(BB|JTI|CPI|func_end|func_begin)(\d+)(?=\D|$)")
OTHER = re.compile(r"\.L(?=[A-Za-z])(?!covretin_)")


def functions(lines):
    """Which function each number stands for."""
    found, name = {}, None
    for line in lines:
        begins, ends = BEGINNING.match(line), END.match(line)
        if ends:
            found[ends[1]] = name
        elif begins and not line.startswith(".L"):
            name = begins[1]
    return found


def named(text):
    """The same, where local labels are named by their function in place of its number, so that a function more renames no other's; and
    begin with the library's name, so that nothing that is linked into one module with it has the same."""
    lines = text.split("\n")
    of = {number: hashlib.sha256(name.encode()).hexdigest()[:8] for number, name in functions(lines).items()}
    assert len(set(of.values())) == len(of), "two functions have one label"
    text = OF_FUNCTION.sub(lambda it: f".Lcovretin_{it[1]}_{of[it[2]]}", text)
    return OTHER.sub(".Lcovretin_", text)


def verdict_of(said):
    """The assumed functions, a line each, and then the line of the verdict; None where nothing was proved."""
    lines = re.findall(r"(?m)^logic=proved .*$", said)
    assumed = sorted(re.findall(r"(?m)^  (\S+) +reached$", said))
    return "".join(f"axiom {name}\n" for name in assumed) + f"{lines[-1]}\n" if lines else None


def sum_line(file, code):
    """The line that binds a verdict to the file of its code, as sha256sum reads it."""
    return f"{hashlib.sha256(code.encode()).hexdigest()}  {file}\n"
