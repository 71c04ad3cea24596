#!/usr/bin/env python3
# SPDX-License-Identifier: Apache-2.0
"""Whether scripts/trust/same_code.py finds what is changed in the proved library for queues: an object of generated/x86_64-linux/covretin_queue.s is
compared with the assembly as it is, which is the same, and with what each function below makes of it.

A line for each says whether the difference was found in the part that was changed. Status 0 where each was; else 1.
"""
import os
import re
import subprocess
import sys
import tempfile

TOP = os.path.dirname(os.path.dirname(os.path.realpath(__file__)))
CODE = f"{TOP}/generated/x86_64-linux/covretin_queue.s"


def replaced(old, new, text, most=1):
    """The text with the first of what fits replaced, or all, which has to be there."""
    found, count = re.subn(old, new, text, count=most, flags=re.M)
    assert count, f"no {old}"
    return found


def exports(text):
    return re.findall(r"^\t\.globl\t(\w+)$", text, re.M)


def swapped(text):
    """Two exports have each other's names."""
    other = dict(zip(exports(text)[:2], exports(text)[1::-1]))
    name = re.compile(rf"(?<![\w.])({'|'.join(other)})(?!\w)")
    lines = text.split("\n")
    return "\n".join(it if it.startswith("\t.section") else name.sub(lambda found: other[found[1]], it) for it in lines)


def entered_later(text):
    """An export begins behind its first four instructions."""
    return replaced(rf"^({exports(text)[0]}:\n)((?:(?:\t\.cfi_.*\n)*\t[a-z].*\n){{4}})", r"\2\1", text)


def ends_calling(text):
    """A call more is made as the program ends."""
    return f'{text}\n\t.section\t.fini_array,"aw"\n\t.quad\t{exports(text)[0]}\n'


def has_data(text):
    return f"{text}\n\t.data\nsecret:\t.quad 1\n"


def weak(text):
    """Another library's export of this name is taken."""
    return replaced(r"^\t\.globl\t", "\t.weak\t", text)


def hidden(text):
    return replaced(r"^\t\.globl\t(\w+)$", r"\t.globl\t\1\n\t.hidden\t\1", text)


def branches_else(text):
    return replaced(r"^\tjne\t", "\tje\t", text)


def calls_another(text):
    return replaced(r"rattle_alloc@PLT", "rattle_dealloc@PLT", text)


def unaligned(text):
    return replaced(r"(\.rodata\.cst16,.*\n\t\.p2align\t)4.*", r"\g<1>0", text, most=0)


def stack_is_code(text):
    return replaced(r'\.note\.GNU-stack,""|"\.note\.GNU-stack",""', '".note.GNU-stack","x"', text)


def described_otherwise(text):
    """A debugger looks for the caller eight bytes beside."""
    return replaced(r"^\t\.cfi_def_cfa_offset 16$", "\t.cfi_def_cfa_offset 24", text)


TAMPERS = {
    swapped: "(symbols)",
    entered_later: "(symbols)",
    ends_calling: ".fini_array",
    has_data: ".data",
    weak: "(symbols)",
    hidden: "(symbols)",
    branches_else: ".text",
    calls_another: ".text",
    unaligned: ".rodata.cst16",
    stack_is_code: ".note.GNU-stack",
    described_otherwise: ".text",
}


def main():
    with open(CODE, encoding="utf-8") as file:
        text = file.read()
    held = []
    with tempfile.TemporaryDirectory() as room:
        subprocess.run([*os.environ.get("CC", "cc").split(), "-c", CODE, "-o", f"{room}/made.o"], check=True)
        for tamper, part in [(str, None), *TAMPERS.items()]:
            # (there is no frame in code that was made without)
            if tamper is described_otherwise and ".cfi_startproc" not in text:
                continue
            with open(f"{room}/tampered.s", "w", encoding="utf-8") as file:
                file.write(tamper(text))
            words = [sys.executable, f"{TOP}/scripts/trust/same_code.py", f"{room}/made.o", f"{room}/tampered.s"]
            ran = subprocess.run(words, stdout=subprocess.PIPE, text=True, check=False)
            parts = [it.partition(": ")[0] for it in ran.stdout.splitlines()[:-1]]
            held.append(any(it.startswith(part) for it in parts) and ran.returncode == 1 if part else (parts, ran.returncode) == ([], 0))
            print(f"{'unchanged' if tamper is str else tamper.__name__}: {'ok' if held[-1] else 'FAILED: ' + ran.stdout}")
    print(f"{held.count(True)} passed, {held.count(False)} failed")
    return 0 if all(held) else 1


if __name__ == "__main__":
    sys.exit(main())
