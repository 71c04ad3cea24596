# SPDX-License-Identifier: Apache-2.0
"""QEMU's programs for images over the example disk: libblkio is the frontend, and drives a virtqueue.

    blkio.py TRY DISK    in an empty folder: DISK is the compiled c/blk.c

Prints what is done. Status 0 where all was as it has to be; 1 where something was not, which the last line says. What runs is ended
by then. What each program said, and the disk's lines, are kept in the folder.
"""
import os
import random
import sys

from emulator import Disk, check, play, run, tell, wait_until

BLOCK = 4096
BLOCKS = 4096
ROUNDS, UNDER_WAY = 16, 64


def in_image():
    with open("image", "rb") as it:
        return it.read()


def over(disk):
    return f"driver=virtio-blk-vhost-user,path={disk.path},cache.direct=on,discard=unmap"


def ends_silently(name, words):
    """A program that has nothing to say, neither of a request that failed nor of bytes that are others."""
    with open(f"{name}.log", "w+", encoding="utf-8") as log:
        process = run(words, log)
        wait_until(lambda: process.poll() is not None, f"{name} ends")
        log.seek(0)
        said = log.read().splitlines()
    check(process.returncode == 0 and not said, f"{name} ended well, and not with status {process.returncode}: {' '.join(said[:1])}")


# -- Requests --


def some_parts(count):
    """So many parts of the image that do not overlap, in any order: where each begins, and its size."""
    ends = sorted(random.sample(range(1, BLOCKS), 2 * count - 1))
    parts = [(begin * BLOCK, (end - begin) * BLOCK) for begin, end in zip([0, *ends], ends)][::2]
    random.shuffle(parts)
    return parts


def commands_of_round(image):
    """What qemu-io does in a round, and in the image as it has to be: it writes parts, many of them under way, and reads them; makes some
    of them zeros, in each of three ways, and reads these."""
    parts = some_parts(UNDER_WAY)
    given = [(*part, random.randrange(1, 256)) for part in parts]
    for at, size, pattern in given:
        image[at : at + size] = bytes([pattern]) * size
    writes, reads = ([f"aio_{kind} -q -P {pattern} {at} {size}" for at, size, pattern in given] for kind in ("write", "read"))
    cleared = parts[:3]
    for at, size in cleared:
        image[at : at + size] = bytes(size)
    clears = [f"{kind} {at} {size}" for kind, (at, size) in zip(("discard -q", "write -q -z", "write -q -z -u"), cleared)]
    zeros = [f"read -q -P 0 {at} {size}" for at, size in cleared]
    return [*writes, "aio_flush", "flush", *reads, "aio_flush", *clears, *zeros, "flush"]


# -- The tries --


def tried_sectors(program):
    """qemu-io writes parts with many requests under way, and reads them by their patterns; then qemu-img reads all."""
    with open("image", "wb") as it:
        it.write(random.randbytes(BLOCKS * BLOCK))
    image = bytearray(in_image())
    disk = Disk(program)
    wait_until(disk.is_asleep, "the disk waits")
    open_then = disk.descriptors()
    commands = [it for _ in range(ROUNDS) for it in commands_of_round(image)]
    ends_silently("qemu-io", ["qemu-io", "--image-opts", over(disk), *(word for it in commands for word in ("-c", it))])
    tell(f"{len(commands)} commands were done")
    check(in_image() == image, "the image has what was written")
    ends_silently("qemu-img", ["qemu-img", "convert", "--image-opts", "-O", "raw", over(disk), "copy"])
    with open("copy", "rb") as it:
        check(it.read() == image, "what is read is what the image has")
    wait_until(lambda: disk.descriptors() == open_then, "the disk has as many descriptors as at first")
    disk.end()


def main():
    tries = {name.removeprefix("tried_"): it for name, it in globals().items() if name.startswith("tried_")}
    if len(sys.argv) != 3 or sys.argv[1] not in tries:
        raise SystemExit(f"usage: blkio.py {'|'.join(tries)} DISK")
    try:
        play(tries[sys.argv[1]], sys.argv[2])
    finally:
        for it in ("image", "copy"):
            if os.path.exists(it):
                os.remove(it)


main()
