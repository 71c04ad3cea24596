#!/usr/bin/env python3
# SPDX-License-Identifier: Apache-2.0
"""Runs a program that makes no system call but those of a list; any other ends it by SIGSYS.

    sandbox.py LIST PROGRAM [WORD..]    LIST as c/system_calls.txt: names, and behind # what they are for

The numbers are those of the headers that cc takes. What the program may do it may do as a filter of seccomp says, without privileges.
"""
import ctypes
import os
import re
import subprocess
import sys

LOAD, EQUALS, RETURN = 0x20, 0x15, 0x06  # BPF_LD | BPF_W | BPF_ABS; BPF_JMP | BPF_JEQ | BPF_K; BPF_RET | BPF_K
ALLOW, KILL = 0x7FFF0000, 0x80000000
NUMBER_AT, MACHINE_AT = 0, 4
MACHINES = {"x86_64": 0xC000003E, "aarch64": 0xC00000B7}
PR_SET_NO_NEW_PRIVS, PR_SET_SECCOMP, FILTER = 38, 22, 2


class Instruction(ctypes.Structure):
    _fields_ = [("code", ctypes.c_uint16), ("if_true", ctypes.c_uint8), ("if_false", ctypes.c_uint8), ("value", ctypes.c_uint32)]


class Program(ctypes.Structure):
    _fields_ = [("length", ctypes.c_uint16), ("instructions", ctypes.POINTER(Instruction))]


def numbers():
    """The number of each system call of this machine, by its name."""
    defined = subprocess.run(["cc", "-E", "-dM", "-include", "sys/syscall.h", "-x", "c", "/dev/null"], check=True, capture_output=True, text=True)
    return {name: int(number) for name, number in re.findall(r"#define __NR_(\w+) (\d+)", defined.stdout)}


def names(path):
    with open(path, encoding="ascii") as file:
        return [name for line in file for name in line.partition("#")[0].split()]


def confine(path):
    known = numbers()
    # (a machine has not all of them: those that it lacks are never called)
    allowed = [known[name] for name in names(path) if name in known]
    code = [(LOAD, 0, 0, MACHINE_AT), (EQUALS, 1, 0, MACHINES[os.uname().machine]), (RETURN, 0, 0, KILL), (LOAD, 0, 0, NUMBER_AT)]
    for number in allowed:
        code += [(EQUALS, 0, 1, number), (RETURN, 0, 0, ALLOW)]
    code.append((RETURN, 0, 0, KILL))
    instructions = (Instruction * len(code))(*(Instruction(*it) for it in code))
    system = ctypes.CDLL(None, use_errno=True)
    program = Program(len(code), instructions)
    if system.prctl(PR_SET_NO_NEW_PRIVS, 1, 0, 0, 0) or system.prctl(PR_SET_SECCOMP, FILTER, ctypes.byref(program), 0, 0):
        sys.exit(f"prctl: {os.strerror(ctypes.get_errno())}")


def main(words):
    if len(words) < 2:
        sys.exit(__doc__)
    sys.stdout.flush()
    confine(words[0])
    os.execv(words[1], words[1:])


main(sys.argv[1:])
