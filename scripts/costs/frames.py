#!/usr/bin/env python3
# SPDX-License-Identifier: Apache-2.0
"""Measures network cards that send each frame back, beside each other and in turns: ./bench net calls it.

  scripts/costs/frames.py TURNS NAME=COMMAND..

Each COMMAND begins a card, with {socket} in it; the one of '-' is DPDK's own, the driver net_vhost of dpdk-testpmd. All are asked by one driver, DPDK's
virtio_user, which keeps 128 frames under way: of 64 bytes and of 1,500, over split rings and over packed ones. The card has one processor, its driver
another, and what starts them the rest. A line tells of each how many thousand frames a second come back, the middle of the turns; how many times
DPDK's that is; and the same of the frames in a second of the card's processor. The two last are middles of the turns' own ratios, since what else the machine
does disturbs both.

Status 0; 1 where a card sent nothing back; 2 after wrong arguments; 3 where there are fewer than three processors.
"""
import os
import re
import shlex
import statistics
import subprocess
import sys
import tempfile
import time

SIZES = 64, 1500
LAYOUTS = {"split": "", "packed": ",packed_vq=1"}
UNDER_WAY = 128
SECONDS = 1.0
OF_DPDK = ["--no-huge", "-m", "128", "--no-pci", "--no-telemetry", "--no-shconf"]
FORWARDS = ["--forward-mode=io", "--port-topology=loop", "--total-num-mbufs=4096", "--no-mlockall", "--no-flush-rx"]


def first():
    """Before others, where this process may ask for that."""
    words = ["chrt", "-f", "50"]
    return words if subprocess.run([*words, "true"], stderr=subprocess.DEVNULL, check=False).returncode == 0 else []


def card(command, socket, processors):
    """The words that begin a card: on the first processor alone."""
    if command != "-":
        return [*first(), "taskset", "-c", str(processors[0]), *shlex.split(command.replace("{socket}", socket))]
    lcores = f"0@{processors[2]},1@{processors[0]}"
    return [*first(), "dpdk-testpmd", *OF_DPDK, "--file-prefix=card", "--lcores", lcores, "--vdev", f"net_vhost0,iface={socket},queues=1",
            "--", *FORWARDS, "--auto-start"]


def driver(socket, processors, size, layout):
    lcores = f"0@{processors[2]},1@{processors[1]}"
    vdev = f"net_virtio_user0,path={socket},queues=1,queue_size=256{LAYOUTS[layout]}"
    return [*first(), "dpdk-testpmd", *OF_DPDK, "--single-file-segments", "--file-prefix=driver", "--lcores", lcores, "--vdev", vdev,
            "--", "-i", *FORWARDS, f"--txpkts={size}"]


def used(pid):
    """The seconds of a processor that a process has taken."""
    with open(f"/proc/{pid}/stat", encoding="utf-8") as file:
        fields = file.read().rsplit(") ", 1)[1].split()
    return (int(fields[11]) + int(fields[12])) / os.sysconf("SC_CLK_TCK")


def ask(process, line, wait=0.0):
    process.stdin.write(line + "\n")
    process.stdin.flush()
    time.sleep(wait)


def drive(process, pid):
    """How many frames came back in a second, and in a second of the card's processor."""
    ask(process, f"start tx_first {UNDER_WAY // 32}", 1)
    ask(process, "clear port stats all")
    began, before = time.monotonic(), used(pid)
    time.sleep(SECONDS)
    ask(process, "show port stats 0")
    took, ran = time.monotonic() - began, used(pid) - before
    time.sleep(0.3)
    said, _ = process.communicate("stop\nquit\n")
    came = re.search(r"RX-packets:\s*(\d+)", said)
    frames = int(came[1]) if came else 0
    return frames / took, frames / max(ran, 0.01)


def measure(command, size, layout):
    processors = sorted(os.sched_getaffinity(0))
    with tempfile.TemporaryDirectory() as room:
        socket = f"{room}/socket"
        quiet = {"stdin": subprocess.PIPE, "stdout": subprocess.DEVNULL, "stderr": subprocess.DEVNULL}
        with subprocess.Popen(card(command, socket, processors), **quiet) as it:
            while not os.path.exists(socket) and it.poll() is None:
                time.sleep(0.02)
            words = driver(socket, processors, size, layout)
            with subprocess.Popen(words, stdin=subprocess.PIPE, stdout=subprocess.PIPE, stderr=subprocess.STDOUT, text=True) as process:
                found = drive(process, it.pid)
            it.terminate()
    return found


def tell(name, turns, of_dpdk):
    ratios = [statistics.median(mine[at] / max(theirs[at], 1) for mine, theirs in zip(turns, of_dpdk)) for at in (0, 1)]
    print(f"{name} {statistics.median(it[0] for it in turns) / 1000:.0f} {ratios[0]:.2f} {ratios[1]:.2f}", flush=True)


def main(turns, *cards):
    commands = dict(it.split("=", 1) for it in cards)
    if len(os.sched_getaffinity(0)) < 3:
        print("frames: there are fewer than three processors", file=sys.stderr)
        return 3
    is_dead = False
    for size in SIZES:
        for layout in LAYOUTS:
            seen = {name: [] for name in commands}
            for _ in range(int(turns)):
                for name, command in commands.items():
                    seen[name].append(measure(command, size, layout))
            of_dpdk = next((seen[name] for name, command in commands.items() if command == "-"), None)
            for name, found in seen.items():
                tell(f"{size}_{layout}_{name}", found, of_dpdk or found)
                is_dead |= not all(it[0] for it in found)
    return int(is_dead)


if __name__ == "__main__":
    if len(sys.argv) < 3 or not sys.argv[1].isdigit():
        print(__doc__, file=sys.stderr)
        sys.exit(2)
    sys.exit(main(*sys.argv[1:]))
