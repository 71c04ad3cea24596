# SPDX-License-Identifier: Apache-2.0
"""Machines without a guest over the example disk: QEMU is the frontend, and this program drives the virtqueues (driver.py).

    halted.py TRY DISK    in an empty folder: DISK is the compiled c/blk.c, or another program with its arguments; for state it is the
                          compiled state.c

Prints what is done. Status 0 where all was as it has to be; 1 where something was not, which the last line says; 4 where this QEMU
cannot do it. What runs is ended by then. The disks' lines are kept in the folder.
"""
import os
import random
import signal
import sys

from driver import PAGE, READS, SECTOR, WRITES, Halted, Ring, Slot
from emulator import RUNNING, Disk, check, connects_again, migrate, play, run, sent, tell, wait_for_end, wait_running, wait_until

MEGABYTE = 1 << 20
IMAGE_SIZE = 4 * MEGABYTE

# Where rings lie in the machine's memory, and where it is filled, so that there is something to migrate.
RINGS_AT = 1 * MEGABYTE
FILLED_AT, FILLED = 16 * MEGABYTE, 192 * MEGABYTE
MEMORY = "256M"


def make_image():
    with open("image", "wb") as it:
        it.write(random.randbytes(IMAGE_SIZE))


def in_image(sector, length):
    with open("image", "rb") as it:
        it.seek(sector * SECTOR)
        return it.read(length)


def machine_over(name, disk, *words, reconnect=0):
    words += ("-chardev", f"socket,id=disk,path={disk.path}{connects_again(reconnect)}")
    words += ("-device", "vhost-user-blk-pci,chardev=disk,num-queues=2,addr=5")
    return Halted(name, MEMORY, *words)


def begin(slot):
    """The two rings of the machine's disk, which begins."""
    slot.begin()
    rings = [Ring(slot, index, RINGS_AT + index * MEGABYTE) for index in range(2)]
    for ring in rings:
        ring.make()
    slot.drive()
    return rings


def use(ring, sector):
    """Writes new bytes, which are then in the image, and reads them."""
    data = random.randbytes(PAGE)
    ring.write(sector, data)
    check(in_image(sector, PAGE) == data, "what was written is in the image")
    check(ring.read(sector, PAGE) == data, "what was written is read")
    ring.check_idle()


def end(disks, *machines):
    for machine in machines:
        machine.quit()
    for disk in disks:
        disk.end()


# -- The tries --

CYCLES = 200
# What they may add to the disk's memory, in kilobytes, once a tenth of them is over.
GROWTH = 2048


def tried_cycles(program):
    """The machine is stopped, goes on and is reset, again and again: the disk holds no more than at first."""
    disk = Disk(program)
    machine = machine_over("machine", disk)
    slot = Slot(machine, 5)
    for cycle in range(CYCLES):
        rings = begin(slot)
        for ring in rings:
            use(ring, 8 * (cycle + CYCLES * ring.index))
        machine.ask("stop")
        machine.ask("cont")
        for ring in rings:
            use(ring, 8 * (cycle + CYCLES * ring.index))
        machine.reset()
        if cycle == CYCLES // 10:
            open_then, mapped_then, memory_then = disk.descriptors(), disk.mapped(), disk.memory()
        if cycle >= CYCLES // 10:
            check(disk.descriptors() == open_then, "the disk has as many descriptors as at first")
            check(disk.mapped() == mapped_then, "the disk has as much mapped as at first")
    grown = disk.memory() - memory_then
    tell(f"{CYCLES} cycles, {open_then} descriptors, {memory_then} kB of memory, {grown} more at the end")
    check(grown < GROWTH, "the disk's memory grows no more")
    end([disk], machine)


RESETS = 10


def post_writes(ring):
    """Writes new blocks, as many as the ring has room for. Each, by its sector."""
    wanted = {8 * (ring.index * Ring.REQUESTS + request): random.randbytes(PAGE) for request in range(Ring.REQUESTS)}
    for request, (sector, data) in enumerate(wanted.items()):
        ring.slot.put(ring.data(request), data)
        ring.post(request, WRITES, sector, PAGE)
    ring.kick()
    return wanted


def tried_reset(program):
    """The machine is reset amid writes of a disk whose file is written slowly: QEMU asks for the base of each ring, and is told it once what
    the disk has of that ring is written and given back."""
    disk = Disk(program)
    machine = machine_over("machine", disk)
    slot = Slot(machine, 5)
    amid = 0
    for _ in range(RESETS):
        rings = begin(slot)
        wanted = [post_writes(ring) for ring in rings]
        wait_until(disk.is_writing, "the disk writes")
        amid += any(ring.used() < Ring.REQUESTS for ring in rings)
        machine.reset()
        check(not disk.is_writing(), "the disk writes no more")
        for ring, blocks in zip(rings, wanted):
            given = sum(in_image(sector, PAGE) == data for sector, data in blocks.items())
            check(given == ring.used(), "what is in the image was given back")
    tell(f"{amid} of {RESETS} resets came amid writes")
    check(amid != 0, "a reset came amid writes")
    for ring in begin(slot):
        use(ring, 8 * ring.index)
    end([disk], machine)


def tried_killed(program):
    """The disk, whose file is written slowly, is killed amid writes, and started again: all that was posted is given back, once."""
    disk = Disk(program)
    machine = machine_over("machine", disk, reconnect=1)
    ring, _ = begin(Slot(machine, 5))
    for kill in range(10):
        wanted = [random.randbytes(PAGE) for _ in range(Ring.REQUESTS)]
        for request, data in enumerate(wanted):
            ring.slot.put(ring.data(request), data)
            ring.post(request, WRITES, 8 * (kill * Ring.REQUESTS + request), PAGE)
        ring.kick()
        disk.kill()
        disk.start()
        given = sorted(ring.take() for _ in wanted)
        check(given == list(range(Ring.REQUESTS)), "each request is given back once")
        for request, data in enumerate(wanted):
            check(in_image(8 * (kill * Ring.REQUESTS + request), PAGE) == data, "each write is in the image")
    ring.check_idle()
    use(ring, 0)
    end([disk], machine)
    with open("disk.log", encoding="utf-8") as it:
        again = it.read().count("are done again")
    tell(f"{again} disks did requests again")
    check(again == 10, "each was killed amid a request")


def two_machines(program):
    """A machine with something in its memory, over one disk, and one that it is to be migrated to, over another of the same image."""
    disks = [Disk(program, "source"), Disk(program, "target")]
    source = machine_over("source", disks[0])
    target = machine_over("target", disks[1], "-incoming", "defer")
    return disks, source, target


def moved(rings, machine):
    """The rings as they are in the machine that was migrated to."""
    slot = Slot(machine, 5)
    for ring in rings:
        ring.slot = slot
    return rings


def tried_precopy(program):
    """A machine is migrated, and the disk writes into pages that were sent before: they are sent again, since it logs them."""
    disks, source, target = two_machines(program)
    slot = Slot(source, 5)
    rings = begin(slot)
    for ring in rings:
        use(ring, 8 * ring.index)
    slot.do("memset", FILLED_AT, FILLED, 0x5A)
    target.ask("migrate-incoming", uri="unix:migration")
    # (memory is sent from its beginning on, where the rings are; so slowly that it is not over until that is wanted)
    source.ask("migrate-set-parameters", **{"max-bandwidth": 4 * MEGABYTE})
    is_over = migrate(source)
    wait_until(lambda: sent(source, "transferred") > 6 * MEGABYTE, "the rings were sent")
    source.ask("migrate-set-parameters", **{"max-bandwidth": 1 << 16})
    sectors = range(16, 16 + 8 * Ring.REQUESTS, 8)
    for ring in rings:
        for request, sector in enumerate(sectors):
            ring.post(request, READS, sector, PAGE)
        ring.kick()
        check(sorted(ring.take() for _ in sectors) == list(range(Ring.REQUESTS)), "each request is given back once")
    check(not is_over(), "the migration goes on meanwhile")
    source.ask("migrate-set-parameters", **{"max-bandwidth": 1 << 30})
    wait_until(is_over, "the migration is over")
    wait_running(target)
    for ring in moved(rings, target):
        ring.check_idle()
        for request, sector in enumerate(sectors):
            check(ring.slot.get(ring.data(request), PAGE) == in_image(sector, PAGE), "what was read is in the target's memory")
        use(ring, 8 * ring.index)
    end(disks, source, target)


def tried_postcopy(program):
    """The target runs before its memory came: the disk waits for each page that it writes to its file."""
    disks, source, target = two_machines(program)
    for machine in (source, target):
        machine.ask("migrate-set-capabilities", capabilities=[{"capability": "postcopy-ram", "state": True}])
    slot = Slot(source, 5)
    rings = begin(slot)
    for ring in rings:
        use(ring, 8 * ring.index)
    slot.do("memset", FILLED_AT, FILLED, 0x5A)
    # (memory comes from its beginning on, and behind what was waited for: so each page is waited for that lies before the last one)
    pages = [FILLED_AT + FILLED - 4 * MEGABYTE * (i + 1) for i in range(2 * Ring.REQUESTS)]
    wanted = [random.randbytes(PAGE) for _ in pages]
    for at, data in zip(pages, wanted):
        slot.put(at, data)
    target.ask("migrate-incoming", uri="unix:migration")
    source.ask("migrate-set-parameters", **{"max-bandwidth": 1 * MEGABYTE, "max-postcopy-bandwidth": 1 << 16})
    is_over = migrate(source)
    wait_until(lambda: sent(source, "transferred") > MEGABYTE, "the migration is under way")
    source.ask("migrate-start-postcopy")
    wait_running(target)
    for ring in moved(rings, target):
        for request in range(Ring.REQUESTS):
            number = ring.index * Ring.REQUESTS + request
            ring.post(request, WRITES, 8 * (2 + number), PAGE, pages[number])
        ring.kick()
        check(sorted(ring.take() for _ in range(Ring.REQUESTS)) == list(range(Ring.REQUESTS)), "each request is given back once")
    for number, data in enumerate(wanted):
        check(in_image(8 * (2 + number), PAGE) == data, "what was in the source's memory is in the image")
    check(not is_over(), "the migration goes on meanwhile")
    requests = sent(source, "postcopy-requests")
    tell(f"{requests} pages were waited for")
    check(requests >= len(pages), "each page was waited for")
    source.ask("migrate-set-parameters", **{"max-postcopy-bandwidth": 1 << 30})
    wait_until(is_over, "the migration is over")
    for ring in rings:
        use(ring, 8 * ring.index)
    end(disks, source, target)


# What QEMU asks a disk for without a guest, of any version.
ASKED = set(
    "GET_FEATURES SET_FEATURES SET_OWNER SET_LOG_BASE GET_PROTOCOL_FEATURES SET_PROTOCOL_FEATURES GET_QUEUE_NUM GET_CONFIG GET_INFLIGHT_FD"
    " SET_INFLIGHT_FD SET_VRING_NUM SET_VRING_ADDR SET_VRING_BASE GET_VRING_BASE SET_VRING_KICK SET_VRING_CALL SET_VRING_ENABLE".split())


def drive(machine):
    """What makes QEMU ask a disk for all that it does without a guest: two rings, a reset, and a migration. Nothing has to succeed."""
    begin(Slot(machine, 5))
    machine.reset()
    begin(Slot(machine, 5))
    machine.ask("migrate", uri="exec:cat >migrated")
    wait_until(lambda: machine.ask("query-migrate")["status"] in ("completed", "failed"), "the migration is over")


def ends_over(disk):
    """A machine over a disk that refuses something: its monitor answers to the end, and SIGTERM ends it; or QEMU gives up by itself, and
    says why. How it ended."""
    try:
        machine = machine_over("machine", disk)
        drive(machine)
        machine.ask("query-status")
        machine.process.terminate()
    except (SystemExit, OSError):
        wait_until(lambda: RUNNING[-1].poll() is not None, "QEMU answers, or ends")
    process = RUNNING[-1]
    wait_until(lambda: process.poll() is not None, "SIGTERM ends QEMU")
    check(process.returncode in (0, 1, -signal.SIGABRT), f"QEMU ended by itself, and not with status {process.returncode}")
    check(process.returncode == 0 or os.path.getsize("machine.log") != 0, "QEMU says why it gives up")
    return "goes on" if process.returncode == 0 else "gives up"


def calls_of(program, refused):
    """Which calls QEMU makes of a disk that refuses one, and whether it goes on."""
    began = os.path.getsize("disk.log") if os.path.exists("disk.log") else 0
    disk = Disk(program, COVRETIN_REFUSES=refused)
    wait_until(disk.is_asleep, "the disk waits")
    open_then = disk.descriptors()
    ended = ends_over(disk)
    wait_until(lambda: disk.descriptors() == open_then, "the disk has as many descriptors as at first")
    disk.end()
    with open("disk.log", encoding="utf-8") as it:
        it.seek(began)
        return {line.split()[1] for line in it if line.startswith("asked ")}, ended


def tried_refused(program):
    """Each call that QEMU makes of a disk is refused in turn: whoever waits is answered, or hung up on."""
    calls, ended = calls_of(program, "nothing")
    check(ended == "goes on" and ASKED <= calls, f"QEMU asks for all that is known, and not for {', '.join(sorted(calls))} alone")
    for call in sorted(calls):
        refused, ended = calls_of(program, call)
        check(call in refused, f"{call} was refused")
        tell(f"{call} is refused: QEMU {ended}")


def tried_state(program):
    """A device that has a state of its own is migrated with it."""
    wanted = random.randbytes(3 * MEGABYTE + 1)
    with open("source.state", "wb") as it:
        it.write(wanted)
    devices, machines = [], []
    for name, more in (("source", ()), ("target", ("-incoming", "defer"))):
        path = f"{name}-{os.getpid()}.socket"
        with open(f"{name}.calls", "wb") as log:
            devices.append(run([program, path, f"{name}.state"], log))
        wait_until(lambda at=path: os.path.exists(at), f"{name} listens", 10)
        words = ("-chardev", f"socket,id=fs,path={path}", "-device", "vhost-user-fs-pci,chardev=fs,tag=files,addr=5", *more)
        machines.append(Halted(name, MEMORY, *words))
    source, target = machines
    if source.version < (8, 2):
        tell("QEMU migrates a device with its state from 8.2 on")
        raise SystemExit(4)
    begin(Slot(source, 5))
    target.ask("migrate-incoming", uri="unix:migration")
    wait_until(migrate(source), "the migration is over")
    wait_running(target)
    with open("target.state", "rb") as it:
        check(it.read() == wanted, "the target's device has the state of the source's")
    end([], *machines)
    for device in devices:
        wait_for_end(device, "the device")


def main():
    tries = {name.removeprefix("tried_"): it for name, it in globals().items() if name.startswith("tried_")}
    if len(sys.argv) != 3 or sys.argv[1] not in tries:
        raise SystemExit(f"usage: halted.py {'|'.join(tries)} DISK")
    make_image()
    play(tries[sys.argv[1]], sys.argv[2])
    os.remove("image")


main()
