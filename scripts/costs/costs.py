#!/usr/bin/env python3
# SPDX-License-Identifier: Apache-2.0
"""What calls and figures cost, beside time.

  scripts/costs/costs.py figures PROGRAM             what one more of each figure's work costs
  scripts/costs/costs.py calls LIBRARY [--write]     the instructions of each call of each session, compared with c/tests/costs.tsv

PROGRAM is crates/vhost_c/out/bench, which ./bench compiles. Each figure's work is done so often and twice as often; the difference,
divided, is one's: system calls (by strace, those that a message makes: read, write, send and receive, and waiting), growths of memory,
bytes copied and set by the C library's functions (by c/bench/chains/count.c, loaded before the C library), instructions (by valgrind, of all
threads), and the smallest stack, in kilobytes, under which the work still ends.

LIBRARY is the proved library, an archive or an object. c/tests/costs.c makes each call over it, without a socket, and valgrind counts what is
done within the library: not the program's own, and not the C library's, which differ from machine to machine. --write writes what was
counted in the place of comparing it. A line tells each count that is more than 3 % off.

Status 0; 1 where a call's count is off; 2 after wrong arguments; 3 where a tool (cc, nm, strace, valgrind) or the program is not there, or a
run failed.
"""
import collections
import os
import re
import resource
import shutil
import struct
import subprocess
import sys
import tempfile

# A figure, and how often its work is done at first.
FIGURES = {
    "backend_get_features": 1000,
    "backend_set_vring_num": 1000,
    "backend_acknowledged": 1000,
    "backend_get_config_256": 1000,
    "frontend_get_features": 1000,
    "frontend_set_vring_num": 1000,
    "frontend_acknowledged": 1000,
    "frontend_get_config_256": 1000,
    "both_get_features": 1000,
    "both_get_config_256": 1000,
    "both_set_mem_table_8": 1000,
    "queue_chain_8": 1000,
    "queue_chain_8_apart": 1000,
    "service_queued": 1000,
    "service_trip": 200,
    "service_session": 200,
    "connection_session": 200,
    "threads_get_features": 200,
    "threads_acknowledged": 200,
    "threads_get_config_256": 200,
}
TOP = os.path.dirname(os.path.dirname(os.path.dirname(os.path.realpath(__file__))))
TABLE = f"{TOP}/c/tests/costs.tsv"
OFF = 0.03
CALLS = "read,readv,recvfrom,recvmsg,write,writev,sendto,sendmsg,poll,ppoll"


def failed(what, said):
    print(f"costs: {what}: {said[-300:]}", file=sys.stderr)
    sys.exit(3)


def run(words, **how):
    """What a command printed."""
    ran = subprocess.run(words, stdout=subprocess.PIPE, stderr=subprocess.PIPE, text=True, errors="replace", **how)
    if ran.returncode:
        failed(f"{' '.join(words[-3:])} ended with status {ran.returncode}", ran.stderr)
    return ran.stdout


def system_calls(program, room, figure, count):
    trace = f"{room}/trace"
    run(["strace", "-f", "-qq", "-e", f"trace={CALLS}", "-o", trace, program, "--one", figure, str(count)])
    with open(trace) as it:
        return sum(bool(re.search(r"^\d+\s+\w+\(", line)) for line in it)


def counts(program, library, room, figure, count):
    told = f"{room}/counts"
    run([program, "--one", figure, str(count)], env={**os.environ, "LD_PRELOAD": library, "COUNTS": told})
    with open(told, "rb") as it:
        return struct.unpack("=3Q", it.read())


def instructions(program, figure, count):
    words = ["valgrind", "--tool=callgrind", "--callgrind-out-file=/dev/null", program, "--one", figure, str(count)]
    ran = subprocess.run(words, stdout=subprocess.DEVNULL, stderr=subprocess.PIPE, text=True)
    found = re.search(r"Collected : (\d+)", ran.stderr)
    if ran.returncode or not found:
        failed(f"valgrind of {figure} ended with status {ran.returncode}", ran.stderr)
    return int(found[1])


def ends_within(program, figure, kilobytes):
    def limit():
        resource.setrlimit(resource.RLIMIT_STACK, (kilobytes * 1024, kilobytes * 1024))
        resource.setrlimit(resource.RLIMIT_CORE, (0, 0))

    ran = subprocess.run([program, "--one", figure, "2"], stdout=subprocess.DEVNULL, stderr=subprocess.DEVNULL, preexec_fn=limit)
    return ran.returncode == 0


def stack(program, figure):
    low, high = 8, 8192
    while high - low > 4:
        middle = (low + high) // 2
        low, high = (low, middle) if ends_within(program, figure, middle) else (middle, high)
    return high


def count_figures(program):
    with tempfile.TemporaryDirectory() as room:
        library = f"{room}/count.so"
        source = f"{TOP}/c/bench/chains/count.c"
        run(["cc", "-O1", "-fno-builtin", "-shared", "-fPIC", "-o", library, source, "-ldl"])
        print("figure calls growths copied set instructions stack")
        for figure, count in FIGURES.items():
            calls = (system_calls(program, room, figure, 2 * count) - system_calls(program, room, figure, count)) / count
            more, less = (counts(program, library, room, figure, it) for it in (2 * count, count))
            each = [(a - b) / count for a, b in zip(more, less)]
            work = (instructions(program, figure, 2 * count) - instructions(program, figure, count)) / count
            print(f"{figure} {calls:.2f} {each[0]:.2f} {each[1]:.0f} {each[2]:.0f} {work:.0f} {stack(program, figure)}", flush=True)



# -- Calls --


def own(profile, program, others):
    """The instructions of a profile's functions that are of the program's file, but for others."""
    total, of, function, is_call = 0, "", "", False
    for line in open(profile, encoding="utf-8"):
        if line.startswith("ob="):
            of = line[3:].strip()
        elif line.startswith("fn="):
            function = line[3:].strip()
        elif line.startswith("calls="):
            is_call = True
        elif line[:1].isdigit():
            if not is_call and of == program and function.partition("'")[0] not in others:
                total += int(line.split()[1])
            is_call = False
    return total


def counted(library):
    """How many instructions each call takes: by session and call, in the program's order."""
    with tempfile.TemporaryDirectory() as room:
        program, made = f"{room}/costs", f"{room}/costs.o"
        run(["cc", "-std=gnu11", "-O2", "-I", f"{TOP}/include", "-I", f"{TOP}/c", "-c", "-o", made, f"{TOP}/c/tests/costs.c"])
        run(["cc", "-O2", "-I", f"{TOP}/include", "-o", program, made, library, f"{TOP}/c/covretin_memory.c", "-pthread"])
        others = {line.split()[-1] for line in run(["nm", made]).splitlines() if re.search(r" [tT] \S+$", line)} | {"main"}
        flags = ["--collect-atstart=no", "--toggle-collect=counted", "--dump-after=counted", "--compress-strings=no", "--compress-pos=no"]
        parts = run(["valgrind", "--tool=callgrind", f"--callgrind-out-file={room}/part", *flags, program]).splitlines()
        counts = collections.Counter()
        for number, part in enumerate(parts, 1):
            counts[tuple(part.split("\t"))] += own(f"{room}/part.{number}", program, others)
        return counts


def count_calls(library, is_written):
    """Whether each call's count is the kept one, or was written."""
    counts = counted(library)
    if is_written:
        with open(TABLE, "w", encoding="utf-8") as table:
            table.writelines(f"{session}\t{call}\t{count}\n" for (session, call), count in counts.items())
        return True
    kept = {tuple(row[:2]): int(row[2]) for row in (line.split("\t") for line in open(TABLE, encoding="utf-8"))}
    bad = [f"{session} {call}: {counts.get((session, call))} instructions, and not {kept.get((session, call))}"
           for session, call in {**kept, **counts} if abs(counts[session, call] - kept.get((session, call), 0)) > OFF * kept.get((session, call), 0)]
    for line in bad:
        print(line, file=sys.stderr)
    return not bad


def main():
    words = sys.argv[1:]
    if words == ["--help"]:
        print(__doc__.strip())
    elif len(words) == 2 and words[0] == "figures":
        lacks("cc", "strace", "valgrind")
        count_figures(os.path.abspath(words[1]))
    elif len(words) in (2, 3) and words[0] == "calls" and words[2:] in ([], ["--write"]):
        lacks("cc", "nm", "valgrind")
        sys.exit(0 if count_calls(words[1], bool(words[2:])) else 1)
    else:
        print(__doc__.strip(), file=sys.stderr)
        sys.exit(2)


def lacks(*tools):
    for tool in tools:
        if not shutil.which(tool):
            failed(f"no {tool} on PATH", "")


if __name__ == "__main__":
    try:
        main()
    except FileNotFoundError as error:
        failed("a file is missing", str(error))
