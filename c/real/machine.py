# SPDX-License-Identifier: Apache-2.0
"""Virtual machines over the example disk: QEMU is the frontend, and Linux drives the virtqueues.

    machine.py TRY DISK BOOT [ANY [FRAMES]]    in an empty folder: DISK is the compiled c/blk.c, BOOT the sector of boot.S, ANY the compiled
                                               any.c; for display DISK is the compiled picture.c, for entropy ANY the compiled c/rng.c; for
                                               frames ANY is the compiled c/net.c, and FRAMES the compiled frames.c; for ping and
                                               ping_migration ANY is the program covretin-net; for vsock ANY is the example vsock
                                               in Rust, and FRAMES the compiled echoes.c

Prints what is done. Status 0 where all was as it has to be; 1 where something was not, which the last line says. What runs is ended
by then. The machines' consoles and the disks' lines are kept in the folder.
"""
import glob
import hashlib
import os
import random
import re
import shutil
import struct
import subprocess
import sys

from bridge import Bridge, Pings
from driver import Slot
from emulator import DOES_LINES, Disk, Emulator, Passage, Shell, check, connects_again, migrate, play, run, sent, tell, wait_for_end, wait_running, wait_until

SECTOR = 512
KERNEL_AT = 2048  # sectors
SYSTEM_AT = 65536
SYSTEM_SIZE = 256 << 20
MODULES = ["virtio_ring", "virtio", "virtio_pci_legacy_dev", "virtio_pci_modern_dev", "virtio_pci", "virtio_blk"]
MODULES += ["crc16", "crc32c_generic", "mbcache", "jbd2", "ext4"]
# Of the devices that are no disk: loaded by the try that has them.
IDLE_MODULES = ["failover", "net_failover", "virtio_net", "fuse", "virtiofs"]
IDLE_MODULES += ["vsock", "vmw_vsock_virtio_transport_common", "vmw_vsock_virtio_transport"]
MORE_MODULES = ["virtio-rng", *IDLE_MODULES]

# -- The image --

INIT = """#!/bin/busybox sh
/bin/busybox --install -s /bin
export PATH=/bin
mount -t devtmpfs dev /dev
mount -t proc proc /proc
mount -t sysfs sys /sys
mount -t tmpfs tmp /tmp
for it in MODULES; do insmod /modules/$it.ko; done
"""


def make_first_system(to):
    """The first file system of the kernel: a shell that does the lines that its console is told."""
    release = os.path.basename(newest("/boot/vmlinuz-*")).removeprefix("vmlinuz-")
    for it in ("bin", "dev", "proc", "sys", "tmp", "mnt", "modules"):
        os.makedirs(f"first/{it}")
    shutil.copy("/usr/bin/busybox", "first/bin/busybox")
    for it in MODULES + MORE_MODULES:
        found = glob.glob(f"/lib/modules/{release}/kernel/**/{it}.ko", recursive=True)
        check(found, f"the kernel has a module {it}")
        shutil.copy(found[0], "first/modules/")
    with open("first/init", "w", encoding="ascii") as it:
        it.write(INIT.replace("MODULES", " ".join(MODULES)) + DOES_LINES)
    os.chmod("first/init", 0o755)
    with open(to, "wb") as it:
        names = subprocess.run(["find", "."], cwd="first", stdout=subprocess.PIPE, check=True).stdout
        subprocess.run(["cpio", "-o", "-H", "newc", "--quiet"], cwd="first", input=names, stdout=it, check=True)
    shutil.rmtree("first")


def newest(pattern):
    found = sorted(glob.glob(pattern))
    check(found, f"there is a {pattern}")
    return found[-1]


def make_image(boot):
    """A disk that Linux boots from: the boot sector, what it is told, the kernel and its first file system, and a partition."""
    make_first_system("first.cpio")
    with open(newest("/boot/vmlinuz-*"), "rb") as it:
        kernel = it.read()
    with open("first.cpio", "rb") as it:
        first = it.read()
    with open(boot, "rb") as it:
        sector = bytearray(it.read())
    setup = (kernel[0x1F1] or 4) + 1
    kernel_size, first_size = -(-len(kernel) // SECTOR), -(-len(first) // SECTOR)
    first_at = KERNEL_AT + kernel_size
    check(first_at + first_size <= SYSTEM_AT, "the kernel and its first file system lie before the partition")
    told = struct.pack("<6I", KERNEL_AT, setup, kernel_size - setup, first_at, first_size, len(first))
    sector[446:462] = struct.pack("<8BII", 0x80, 0xFE, 0xFF, 0xFF, 0x83, 0xFE, 0xFF, 0xFF, SYSTEM_AT, SYSTEM_SIZE // SECTOR)
    with open("image", "wb") as it:
        it.write(sector)
        it.write(told + b"console=ttyS0 quiet panic=-1 mitigations=off init_on_alloc=0 no_timer_check\0")
        it.seek(KERNEL_AT * SECTOR)
        it.write(kernel)
        it.seek(first_at * SECTOR)
        it.write(first)
        it.truncate(SYSTEM_AT * SECTOR + SYSTEM_SIZE)
    words = ["mke2fs", "-q", "-F", "-t", "ext2", "-b", "4096", "-E", f"offset={SYSTEM_AT * SECTOR}", "image", f"{SYSTEM_SIZE >> 10}k"]
    subprocess.run(words, check=True, stderr=subprocess.DEVNULL)


# -- The machine --


class Guest(Shell, Emulator):
    """QEMU with a console, on which Linux is told what to do."""

    def __init__(self, name, memory, *words):
        words += ("-no-reboot", "-serial", f"unix:{name}.console,server=on,wait=on")
        Emulator.__init__(self, name, "tcg", memory, *words)
        Shell.__init__(self, name, self.connect(f"{name}.console"))
        self.greet()

    def power_off(self):
        super().power_off()
        self.qmp.close()


class Machine(Guest):
    """One that boots from a disk."""

    def __init__(self, name, disk, *words, reconnect=0, memory="256M", rings="num-queues=2"):
        words += ("-chardev", f"socket,id=disk,path={disk.path}{connects_again(reconnect)}")
        words += ("-device", f"vhost-user-blk-pci,chardev=disk,{rings},bootindex=1")
        super().__init__(name, memory, *words)


def boot(name, disk, *words, **settings):
    machine = Machine(name, disk, *words, **settings)
    machine.hear(rb"the boot sector was read")
    machine.hear(rb"#ready\r?\n")
    return machine


# -- The tries --


def bytes_of(seed, size):
    return random.Random(seed).randbytes(size)


def disk_said():
    with open("disk.log", encoding="utf-8") as it:
        return it.read()


def boot_twice(disk, **settings):
    """Linux boots from the disk, mounts it, writes and powers off; what it wrote is in the file, and read by a second boot."""
    machine = boot("first", disk, **settings)
    check(machine.do("cat /sys/block/vda/size") == str(os.path.getsize("image") // SECTOR), "the disk has the image's size")
    check(machine.do("cat /sys/block/vda/serial") == "covretin", "the disk has its name")
    machine.do("mount -t ext4 /dev/vda1 /mnt && seq 100000 >/mnt/numbers && sync && umount /mnt && echo written")
    machine.power_off()
    with open("image", "rb") as it:
        it.seek(SYSTEM_AT * SECTOR)
        check("\n".join(map(str, range(1, 500))).encode() in it.read(), "what the guest wrote is in the image")
    machine = boot("second", disk, **settings)
    wanted = hashlib.sha256("".join(f"{i}\n" for i in range(1, 100001)).encode()).hexdigest()
    found = machine.do("mount -t ext4 /dev/vda1 /mnt && sha256sum /mnt/numbers && umount /mnt")
    check(found.split()[0] == wanted, "a second boot reads what the first wrote")
    machine.power_off()
    disk.end()


def tried_boot(program):
    boot_twice(Disk(program))


def tried_uncached(program):
    """The same from a disk without a cache that takes no queue of more than 64 descriptors, as QEMU has them. With larger ones no guest boots."""
    boot_twice(Disk(program), rings="num-queues=2,queue-size=64")
    check("refused" not in disk_said(), "nothing was refused")
    disk = Disk(program, "small")
    machine = Machine("large", disk)
    wait_until(lambda: "SET_VRING_NUM refused: queue 0 cannot have 128 descriptors: it takes 1 to 64" in disk_said(), "it says why not")
    machine.quit()
    disk.end()


def fill_system(size):
    """Writes bytes that only this program knows behind the kernel, where the guest reads them by itself."""
    data = bytes_of(size, size)
    with open("image", "r+b") as it:
        it.seek(SYSTEM_AT * SECTOR)
        it.write(data)
    return hashlib.sha256(data).hexdigest()


WRITER = (
    "(i=0; while [ ! -e /tmp/stop ]; do i=$((i + 1)); (echo block $i; seq $i $((i + 300))) | "
    "dd of=/dev/vda1 bs=4k count=1 seek=$((32768 + i)) iflag=fullblock conv=notrunc,sync oflag=direct 2>/dev/null || "
    "echo failed >/tmp/failed; echo $i >/tmp/count; done; echo ended >/tmp/ended) &"
)


def stop_writer(machine):
    """Ends the guest's writer. How many blocks it wrote."""
    machine.do("touch /tmp/stop; while [ ! -e /tmp/ended ]; do sleep 0.1; done; sync; [ ! -e /tmp/failed ]")
    return int(machine.do("cat /tmp/count"))


def check_blocks(count):
    """Each block that the guest's writer wrote is in the image."""
    with open("image", "rb") as it:
        for i in range(1, count + 1):
            it.seek(SYSTEM_AT * SECTOR + (32768 + i) * 4096)
            wanted = (f"block {i}\n" + "".join(f"{n}\n" for n in range(i, i + 301))).encode()[:4096].ljust(4096, b"\0")
            check(it.read(4096) == wanted, f"block {i} of {count} is in the image")
    tell(f"{count} blocks are in the image")


def written(machine):
    """How many blocks the guest's writer has written; it may be about to tell."""
    return int(machine.do("n=; while [ -z $n ]; do n=$(cat /tmp/count 2>/dev/null || echo 0); done; echo $n"))


def two_machines(program):
    """A machine that runs, over one disk, and one that it is to be migrated to, over another of the same image."""
    disks = [Disk(program, "source"), Disk(program, "target")]
    source = boot("source", disks[0])
    target = Machine("target", disks[1], "-incoming", "defer")
    return disks, source, target


def send_each_page(source, target):
    """Begins a migration that pauses the machine at its end, and sends each page. It waits then, with pages to send that were written meanwhile,
    however slow all is. By what it goes on, and what says whether it is over."""
    passage = Passage()
    source.ask("migrate-set-capabilities", capabilities=[{"capability": "pause-before-switchover", "state": True}])
    source.ask("migrate-set-parameters", **{"max-bandwidth": 1 << 30, "downtime-limit": 1})
    target.ask("migrate-incoming", uri="unix:arrival")
    is_over = migrate(source)
    for count in range(3):
        passage.wait_until(lambda: sent(source, "dirty-sync-count") > count, f"all pages were looked through {count + 1} times")
        source.do("yes | head -c 16777216 >/tmp/dirty")
    return passage, is_over


def send_the_rest(source, passage):
    """Sends all but what the machine is at last, for which it is paused. The migration has to be under way until then."""
    check(source.ask("query-migrate")["status"] == "active", "the migration goes on meanwhile")
    source.ask("migrate-set-parameters", **{"downtime-limit": 2000})
    passage.wait_until(lambda: source.ask("query-migrate")["status"] == "pre-switchover", "all was sent but what the machine is at last")


def go_over(source, target, passage, is_over):
    """Sends that, too: the other machine runs."""
    source.ask("migrate-continue", state="pre-switchover")
    passage.finish()
    wait_until(is_over, "the migration is over")
    wait_running(target)


def tried_migration(program):
    """A machine is migrated while it reads and writes: the pages that the disk writes meanwhile come along, since it logs them."""
    disks, source, target = two_machines(program)
    half = 16 << 20
    wanted = fill_system(2 * half)
    source.do(WRITER)
    source.do("exec 3</dev/vda1; head -c 16777216 /dev/vda1 >/dev/null")
    passage, is_over = send_each_page(source, target)
    source.do("head -c 33554432 /dev/vda1 >/dev/null")
    before = written(source)
    send_the_rest(source, passage)
    go_over(source, target, passage, is_over)
    # what was read before is in the target's memory, and not read again
    target.do("sectors() { awk '{ print $3 }' /sys/block/vda/vda1/stat; }; was=$(sectors)")
    found = target.do("head -c 33554432 /dev/vda1 | sha256sum; [ $(($(sectors) - was)) -lt 1024 ]")
    check(found.split()[0] == wanted, "what was read during the migration is what the disk has")
    count = stop_writer(target)
    tell(f"{before} blocks before the migration was over, {count} in all")
    check(count > before > 0, "the guest wrote before and after")
    target.power_off()
    source.quit()
    for disk in disks:
        disk.end()
    passage.close()
    check_blocks(count)


def tried_postcopy(program):
    """The same, but the target runs before its memory came: the disk waits for pages, too."""
    disks, source, target = two_machines(program)
    for machine in (source, target):
        machine.ask("migrate-set-capabilities", capabilities=[{"capability": "postcopy-ram", "state": True}])
    source.do(WRITER)
    source.do("head -c 67108864 /dev/urandom >/tmp/random; sha256sum /tmp/random >/tmp/sum")
    target.ask("migrate-incoming", uri="unix:migration")
    source.ask("migrate-set-parameters", **{"max-bandwidth": 4 << 20, "max-postcopy-bandwidth": 16 << 20})
    is_over = migrate(source)
    wait_until(lambda: sent(source, "transferred") > 1 << 20, "the migration is under way")
    before = written(source)
    source.ask("migrate-start-postcopy")
    wait_running(target)
    target.do("sha256sum -c /tmp/sum")
    wait_until(is_over, "the migration is over")
    ram = source.ask("query-migrate")["ram"]
    tell(f"{ram.get('postcopy-requests')} pages were waited for")
    check(ram.get("postcopy-requests", 0) > 0, "pages were waited for")
    count = stop_writer(target)
    check(count > before, "the guest wrote before and after")
    target.power_off()
    source.quit()
    for disk in disks:
        disk.end()
    check_blocks(count)


def kill_amid_writes(machine, disk, times, queue_size=128):
    """The disk is killed so often amid writes, and started again: nothing is lost, and the guest goes on. So often it did requests again."""
    # QEMU has an inflight region for rings of its queue-size, for which Linux has at most so many requests under way, and more for larger ones.
    is_noted = int(machine.do("cat /sys/block/vda/mq/0/nr_tags")) <= queue_size
    machine.do(WRITER)
    for _ in range(times):
        before = written(machine)
        wait_until(lambda: written(machine) > before + 3, "the guest writes")
        disk.kill()
        disk.start()
    before = written(machine)
    wait_until(lambda: written(machine) > before + 3, "the guest writes")
    count = stop_writer(machine)
    machine.power_off()
    disk.end()
    check_blocks(count)
    again = disk_said().count("are done again")
    tell(f"{again} disks did requests again that the inflight region had")
    check(again == (times if is_noted else 0), "each was killed amid a request")


def tried_killed(program):
    """The disk is killed amid writes."""
    disk = Disk(program)
    kill_amid_writes(boot("machine", disk, reconnect=1), disk, 8)


# Features of virtio, as the guest's driver has them: of buffers in tables, of notifications by an index, of packed rings.
OF_RINGS = {28: "indirect tables", 29: "event indices", 34: "packed rings"}


def tried_packed(program):
    """Linux's driver has eight packed rings, with indirect tables and event indices; and the disk is killed amid writes."""
    disk = Disk(program, rings=("8", "packed"))
    # (QEMU 10 has larger rings than its region, 128, is for; and where a packed one goes on, that alone says)
    machine = boot("machine", disk, "-smp", "8", reconnect=1, rings="num-queues=8,packed=on,queue-size=1024")
    features = machine.do("cat /sys/block/vda/device/features")
    for bit, name in OF_RINGS.items():
        check(features[bit] == "1", f"the driver accepted {name}")
    check(machine.do("ls /sys/block/vda/mq | wc -l") == "8", "the driver has eight queues")
    wanted = fill_system(32 << 20)
    found = machine.do("for it in 0 1 2 3 4 5 6 7; do taskset $(printf %x $((1 << it))) dd if=/dev/vda1 of=/tmp/part$it bs=1M skip=$((4 * it)) "
                       "count=4 iflag=direct 2>/dev/null & done; wait; cat /tmp/part? | sha256sum; rm /tmp/part?")
    check(found.split()[0] == wanted, "what is read by all of them is what the disk has")
    kill_amid_writes(machine, disk, 4, 1024)


def tried_memory(program):
    """Memory is plugged in, and used by the disk; and plugged out."""
    wanted = None
    disk = Disk(program)
    machine = boot("machine", disk, memory="160M,slots=4,maxmem=1G")
    wanted = fill_system(48 << 20)
    before = disk.mapped()
    machine.ask("object-add", **{"qom-type": "memory-backend-memfd", "id": "more", "size": 256 << 20, "share": True})
    machine.ask("device_add", driver="pc-dimm", id="dimm", memdev="more")
    wait_until(lambda: disk.mapped() > before, "the disk has the memory mapped")
    # (it comes as two blocks of 128 MiB)
    machine.do("while [ $(grep -l offline /sys/devices/system/memory/memory*/state | wc -l) -lt 2 ]; do sleep 0.1; done")
    machine.do("for it in /sys/devices/system/memory/memory*/state; do grep -q online $it || echo online_movable >$it; done")
    check(int(machine.do("awk '/MemTotal/ { print $2 }' /proc/meminfo")) > 300 << 10, "the guest has the memory")
    found = machine.do("head -c 50331648 /dev/vda1 | sha256sum")
    check(found.split()[0] == wanted, "what is read into it is what the disk has")
    machine.do("echo 3 >/proc/sys/vm/drop_caches")
    machine.ask("device_del", id="dimm")
    wait_until(lambda: disk.mapped() == before or machine.do("sleep 0.2") is None, "the disk has it mapped no more")
    check(machine.do("head -c 4194304 /dev/vda1 | wc -c") == "4194304", "the disk goes on")
    machine.power_off()
    disk.end()


# Devices of QEMU, by their names: how it has them, the driver in the guest, how many rings that sets up, and features that the device
# offers. The network card has no MSI-X: with it, and without KVM, QEMU 7.2 ends by a segmentation fault. No source of entropy is among
# them, whose ring has to be served: Linux has a thread that waits for bytes under a lock, which insmod takes, too. Where the thread is
# first, insmod never ends, whatever QEMU it is.
DEVICES = {
    "net": (["-netdev", "vhost-user,id=net,chardev=net", "-device", "virtio-net-pci,netdev=net,vectors=0"], "virtio_net", 2, 0x38008),
    "fs": (["-device", "vhost-user-fs-pci,chardev=fs,tag=files"], "virtiofs", 2, 0),
    "vsock": (["-device", "vhost-user-vsock-pci,chardev=vsock"], "vmw_vsock_virtio_transport", 2, 0),
}


def check_calls(name, rings):
    """What a device of QEMU asked: all was served, and each ring was begun and stopped."""
    with open(f"{name}.calls", encoding="utf-8") as it:
        lines = it.read().splitlines()
    check(lines[-1] == "ended: peer disconnected", f"{name} ended between two requests")
    check(not any(line.startswith("refused") for line in lines), f"each request of {name} was served")
    for call in (12, 11):  # SET_VRING_KICK, GET_VRING_BASE
        count = sum(line.startswith(f"call {call}:") for line in lines)
        check(count >= rings, f"{name} made call {call} for each of its rings")
    tell(f"{name}: {sum(line.startswith(('call', 'refused')) for line in lines)} requests")


def tried_devices(program):
    """QEMU's frontends of a network card, a file system and a socket device, each over a device that replies to all that it is asked:
    what they ask from the negotiation to the end is served."""
    disk = Disk(program)
    words, devices = [], {}
    for name, (device, _, rings, features) in DEVICES.items():
        path = f"{name}-{os.getpid()}.socket"
        with open(f"{name}.calls", "wb") as log:
            devices[name] = run([ANY, path, str(rings), f"{features:x}"], log)
        wait_until(lambda at=path: os.path.exists(at), f"{name} listens", 10)
        words += ["-chardev", f"socket,id={name},path={path}", *device]
    machine = boot("machine", disk, *words)
    machine.do(f"for it in {' '.join(IDLE_MODULES)}; do insmod /modules/$it.ko || exit 1; done")
    for name, (_, driver, _, _) in DEVICES.items():
        machine.do(f"ls /sys/bus/virtio/drivers/{driver} | grep -q virtio")
    machine.do("ip link set eth0 up")
    machine.power_off()
    disk.end()
    for name, (_, _, rings, _) in DEVICES.items():
        wait_for_end(devices[name], f"the device behind {name}")
        check_calls(name, rings)


def tried_entropy(program):
    """A source of entropy: the guest's own driver takes bytes from it, which are others each time."""
    disk = Disk(program)
    path = f"entropy-{os.getpid()}.socket"
    with open("entropy.said", "wb") as log:
        source = run([ANY, path], log)
    wait_until(lambda: os.path.exists(path), "the source listens", 10)
    machine = boot("machine", disk, "-chardev", f"socket,id=entropy,path={path}", "-device", "vhost-user-rng-pci,chardev=entropy")
    machine.do("insmod /modules/virtio-rng.ko")
    check(machine.do("cat /sys/class/misc/hw_random/rng_current") == "virtio_rng.0", "the guest's source is this one")
    machine.do("dd if=/dev/hwrng of=/tmp/bytes bs=512 count=128 iflag=fullblock 2>/dev/null")
    check(machine.do("wc -c </tmp/bytes") == "65536", "as many bytes come as are taken")
    pieces = machine.do("hexdump -v -e '64/1 \"%02x\" \"\\n\"' /tmp/bytes | sort -u | wc -l")
    check(pieces == "1024", "no 64 of them come twice")
    machine.do("rmmod virtio-rng && insmod /modules/virtio-rng.ko && head -c 64 /dev/hwrng | wc -c")
    machine.power_off()
    disk.end()
    source.terminate()
    wait_for_end(source, "the source")
    with open("entropy.said", encoding="utf-8") as it:
        check(it.read() == "a frontend went: peer disconnected\n", "the source served one frontend to its end")


def bring(machine, program):
    """A program of this machine comes to the guest by its disk, whose partition it does not use."""
    with open(program, "rb") as it, open("image", "r+b") as image:
        bytes_there = it.read()
        image.seek(SYSTEM_AT * SECTOR)
        image.write(bytes_there)
    machine.do(f"head -c {len(bytes_there)} /dev/vda1 >/tmp/program && chmod +x /tmp/program")


def tried_vsock(program):
    """A socket device in Rust: what a program of the guest sends to its host comes back, also once the guest has rebooted amid that."""
    disk = Disk(program)
    path = f"vsock-{os.getpid()}.socket"
    with open("vsock.said", "wb") as log:
        device = run([ANY, path], log)
    wait_until(lambda: os.path.exists(path), "the device listens", 10)
    machine = boot("machine", disk, "-chardev", f"socket,id=vsock,path={path}", *DEVICES["vsock"][0])
    machine.ask("set-action", reboot="reset")
    for is_last in (False, True):
        bring(machine, FRAMES)
        machine.do("for it in vsock vmw_vsock_virtio_transport_common vmw_vsock_virtio_transport; do insmod /modules/$it.ko || exit 1; done")
        check(machine.do("/tmp/program") == "800000 bytes came back", "the guest has back what it sent")
        if not is_last:
            machine.do("/tmp/program >/dev/null &")
            machine.begin("reboot -f")
            machine.hear(rb"the boot sector was read")
            machine.hear(rb"#ready\r?\n")
    machine.power_off()
    disk.end()
    device.terminate()
    wait_for_end(device, "the device")
    with open("vsock.said", encoding="utf-8") as it:
        check(set(it.read().splitlines()) == {"a frontend went: peer disconnected"}, "the device served one frontend to its end")


def tried_frames(program):
    """A network card that sends each frame back: what a program of the guest sends through Linux's driver comes to it again."""
    disk = Disk(program)
    path = f"net-{os.getpid()}.socket"
    with open("net.said", "wb") as log:
        card = run([ANY, path], log)
    wait_until(lambda: os.path.exists(path), "the card listens", 10)
    machine = boot("machine", disk, "-chardev", f"socket,id=net,path={path}", *DEVICES["net"][0])
    bring(machine, FRAMES)
    machine.do("for it in failover net_failover virtio_net; do insmod /modules/$it.ko || exit 1; done; ip link set eth0 up")
    check(machine.do("/tmp/program eth0") == "1024 frames came back", "the guest has back what it sent")
    machine.power_off()
    disk.end()
    end_cards([card])
    with open("net.said", encoding="utf-8") as it:
        found = re.fullmatch(r"a frontend went: peer disconnected; (\d+) frames were sent back, and (\d+) dropped\n", it.read())
    check(found and int(found[1]) >= 1024, "the card sent them back")
    tell(f"{found[1]} frames were sent back, {found[2]} dropped")


def begin_card(name, number, *words, pairs=1):
    """A card of so many pairs of queues, which the words join to others, and the words by which a machine has it: a processor for each pair."""
    path = f"{name}-card-{os.getpid()}.socket"
    with open(f"{name}.card", "wb") as log:
        card = run([ANY, f"--socket-path={path}", f"--queue-pairs={pairs}", *words], log)
    wait_until(lambda: os.path.exists(path), "the card listens", 10)
    kind, netdev, of_device, device = DEVICES["net"][0]
    has_pairs = "on" if pairs > 1 else "off"
    return card, ("-smp", str(pairs), "-chardev", f"socket,id=net,path={path}", kind, f"{netdev},queues={pairs}",
                  of_device, f"{device},mq={has_pairs},mac=52:54:00:00:00:0{number}")


def boot_at_card(name, disk, number, *words):
    machine = boot(name, disk, *words)
    machine.do("for it in failover net_failover virtio_net; do insmod /modules/$it.ko || exit 1; done")
    machine.do(f"ip link set eth0 up && ip addr add 10.0.0.{number}/24 dev eth0")
    return machine


def machine_with_card(program, name, far, number):
    """A machine, its disk, and its card, whose other end is the card of the machine that is named."""
    disk = Disk(program, name)
    card, words = begin_card(name, number, f"--local={name}.wire", f"--remote={far}.wire", pairs=2)
    return boot_at_card(name, disk, number, *words), disk, card


def end_cards(cards):
    for card in cards:
        card.terminate()
        wait_for_end(card, "the card")


def tried_ping(program):
    """Two machines over two cards, each the other end of the other, with two pairs of queues: each answers pings, also of frames that take many
    buffers, and a mebibyte goes over TCP."""
    there = [machine_with_card(program, *it) for it in (("one", "two", 1), ("two", "one", 2))]
    machines = [it[0] for it in there]
    for machine, number in zip(machines, (2, 1)):
        check(machine.do("ls -d /sys/class/net/eth0/queues/rx-*").count("rx-") == 2, "the driver uses both pairs")
        machine.do("ip link set eth0 mtu 9000")
        found = machine.do(f"for it in 56 1400 8000; do ping -c 5 -W 60 -s $it 10.0.0.{number}; done")
        check(found.count("5 packets received, 0% packet loss") == 3, "each ping is answered")
    sent = machines[1].do("head -c 1048576 /dev/urandom >/tmp/sent; httpd -h /tmp; sha256sum </tmp/sent")
    check(machines[0].do("wget -q -O - http://10.0.0.2/sent | sha256sum") == sent, "what was sent came")
    for machine, disk, card in there:
        machine.power_off()
        disk.end()
        end_cards([card])
    with open("one.card", encoding="utf-8") as it:
        tell(it.read().strip())


def machines_at_bridge(program):
    """A machine that runs, one that it is to be migrated to, and one that pings it, with their disks and their cards, whose taps a bridge joins."""
    try:
        bridge = Bridge()
    except OSError as why:
        tell(f"there may be no bridge here: {why}")
        raise SystemExit(4) from None
    names = {"source": 1, "target": 1, "pinger": 2}
    disks = {it: Disk(program, it) for it in names}
    cards = {it: begin_card(it, names[it], f"--tap={it}", f"--pcap={it}.pcap") for it in names}
    for it in names:
        bridge.join(it)
    source, pinger = (boot_at_card(it, disks[it], names[it], *cards[it][1]) for it in ("source", "pinger"))
    target = Machine("target", disks["target"], "-incoming", "defer", *cards["target"][1])
    return (source, target, pinger), disks.values(), [card for card, _ in cards.values()]


def pings():
    """What has passed at the card of the machine that pings."""
    return Pings("pinger.pcap", "10.0.0.2", "10.0.0.1", bytes.fromhex("525400000001"))


def wait_answered(count, when):
    """Waits until so many more pings are answered."""
    before = len(pings().answered)
    wait_until(lambda: len(pings().answered) >= before + count, f"pings are answered {when}")


def check_lost(heard):
    """Pings were lost in a row alone: after those that had an answer before the last part of the migration, and before the place of the machine
    was told."""
    found = pings()
    lost = found.lost()
    tell(f"{len(lost)} of {len(found.asked)} pings were lost: {lost}")
    check(found.told is not None, "the place of the machine was told")
    check(all(number > heard for number in lost), "none was lost before the last part of the migration")
    check(not set(lost) & set(found.asked[found.told :]), "none was lost after the place of the machine was told")
    between = [number for number in found.asked if lost and lost[0] <= number <= lost[-1]]
    check(lost == between, "those that were lost were sent in a row")


def tried_ping_migration(program):
    """A machine is migrated while another pings it, over a bridge: pings are lost only while it runs nowhere, for which it is paused; and its card
    tells the bridge where it went."""
    (source, target, pinger), disks, cards = machines_at_bridge(program)
    # (it would ask for the address anew, and send nothing while nobody answers)
    pinger.do("arp -s 10.0.0.1 52:54:00:00:00:01; ping 10.0.0.1 >/tmp/pings 2>&1 &")
    wait_answered(3, "before the migration")
    passage, is_over = send_each_page(source, target)
    wait_answered(3, "during the migration")
    heard = max(pings().answered)
    send_the_rest(source, passage)
    before = len(pings().asked)
    wait_until(lambda: len(pings().asked) >= before + 3, "pings go on")
    go_over(source, target, passage, is_over)
    wait_answered(5, "after the migration")
    check("5 packets received, 0% packet loss" in target.do("ping -c 5 -W 60 10.0.0.2"), "the machine's own are answered there")
    pinger.do("killall ping")
    check_lost(heard)
    for machine in (target, pinger):
        machine.power_off()
    source.quit()
    for disk in disks:
        disk.end()
    passage.close()
    end_cards(cards)


def tried_resized(program):
    """The disk's file grows while the machine runs: the guest is told, and reads what is in the new part."""
    disk = Disk(program)
    machine = boot("machine", disk)
    size = os.path.getsize("image")
    check(machine.do("cat /sys/block/vda/size") == str(size // SECTOR), "the disk has the image's size")
    data = bytes_of(7, 1 << 20)
    with open("image", "r+b") as it:
        it.seek(size)
        it.write(data)
    machine.do(f"while [ $(cat /sys/block/vda/size) != {size // SECTOR + 2048} ]; do sleep 0.1; done")
    found = machine.do(f"dd if=/dev/vda bs=1M skip={size >> 20} count=1 2>/dev/null | sha256sum")
    check(found.split()[0] == hashlib.sha256(data).hexdigest(), "what is read behind the end that was is what the disk has")
    machine.power_off()
    disk.end()


def put_fio():
    """Into the image's partition the program fio of the host, with its libraries."""
    os.makedirs("system/lib64")
    told = subprocess.run(["ldd", shutil.which("fio")], stdout=subprocess.PIPE, check=True, text=True).stdout
    for it in [shutil.which("fio"), *re.findall(r"/\S+", told)]:
        shutil.copy(it, "system/lib64/")
    words = ["mke2fs", "-q", "-F", "-t", "ext2", "-b", "4096", "-d", "system", "-E", f"offset={SYSTEM_AT * SECTOR}", "image", f"{SYSTEM_SIZE >> 10}k"]
    subprocess.run(words, check=True, stderr=subprocess.DEVNULL)
    shutil.rmtree("system")


# What fio does with a gibibyte behind the partition: it writes blocks at random, 32 of them under way, and reads each back by its checksum.
FIO = "--name=all --filename=/dev/vda --direct=1 --ioengine=libaio --iodepth=32 --rw=randwrite --bs=64k --verify=crc32c --verify_fatal=1"


def tried_fio(program):
    """fio in the guest writes a gibibyte, and finds what it wrote."""
    put_fio()
    end = os.path.getsize("image")
    os.truncate("image", end + (1 << 30))
    disk = Disk(program)
    machine = boot("machine", disk)
    machine.do("mount -t ext4 -o ro /dev/vda1 /mnt")
    fio = "/mnt/lib64/ld-linux-x86-64.so.2 --library-path /mnt/lib64 /mnt/lib64/fio"
    found = machine.do(f"{fio} {FIO} --offset={end} --size=1g --minimal")
    fields = found.splitlines()[-1].split(";")
    tell(f"{int(fields[5]) >> 10} MiB were read and {int(fields[46]) >> 10} MiB written, with {fields[4]} errors")
    check(fields[4] == "0" and fields[5] == fields[46] == str(1 << 20), "each byte was written, and read back as it was")
    machine.power_off()
    disk.end()


def picture():
    """What `picture.c` shows, as a file of the form PPM."""
    pixels = (bytes((4 * x, 5 * y, x ^ y)) for y in range(48) for x in range(64))
    return b"P%d\n64 48\n255\n" % 6 + b"".join(pixels)


def has_open(process, name):
    """Whether a process has a file without a name open that is called so."""
    found = (os.readlink(it) for it in glob.glob(f"/proc/{process.pid}/fd/*") if os.path.islink(it))
    return any(it.startswith(f"/memfd:{name}") for it in found)


def tried_display(program):
    """QEMU is the display of a graphics device: what that shows is on QEMU's screen, pixel for pixel. No guest is there."""
    if not os.access("/dev/kvm", os.R_OK | os.W_OK):
        tell("QEMU 7.2 has this device only with KVM, and /dev/kvm cannot be opened")
        raise SystemExit(4)
    path = f"picture-{os.getpid()}.socket"
    with open("picture.calls", "wb") as log:
        device = run([program, path], log)
    wait_until(lambda: os.path.exists(path), "the picture listens", 10)
    words = ["-chardev", f"socket,id=card,path={path}", "-S", "-qtest", "unix:machine.test,server=on,wait=off", "-qtest-log", "none"]
    words += ["-device", "vhost-user-gpu-pci,chardev=card,id=card,addr=5,max_outputs=2,xres=800,yres=600"]
    machine = Emulator("machine", "kvm", "64M", *words)
    machine.greet()
    card = Slot(machine, 5)
    card.begin()
    card.drive()
    machine.ask("cont")

    def is_shown():
        check(device.poll() is None, "the picture goes on")
        with open("picture.calls", encoding="utf-8") as it:
            return "shown\n" in it

    wait_until(is_shown, "the picture is shown", 60)
    machine.ask("screendump", filename="screen.ppm", device="card", head=0)
    with open("screen.ppm", "rb") as it:
        check(it.read() == picture(), "QEMU's screen has the picture")
    with open("picture.calls", encoding="utf-8") as it:
        check(it.read().count("display: screen of 800 by 600, enabled\n") == 2, "the display says what QEMU's command does")
    check(has_open(machine.process, "buffer"), "QEMU has the buffer")
    machine.quit()
    wait_for_end(device, "the picture")
    check_calls("picture", 0)


def main():
    global ANY, FRAMES
    tries = {name.removeprefix("tried_"): it for name, it in globals().items() if name.startswith("tried_")}
    if not 4 <= len(sys.argv) <= 6 or sys.argv[1] not in tries:
        raise SystemExit(f"usage: machine.py {'|'.join(tries)} DISK BOOT [ANY [FRAMES]]")
    ANY, FRAMES = (sys.argv[4:] + [None, None])[:2]
    try:
        if sys.argv[1] != "display":  # which needs no disk
            make_image(sys.argv[3])
        play(tries[sys.argv[1]], sys.argv[2])
    finally:
        for it in ("image", "first.cpio"):
            if os.path.exists(it):
                os.remove(it)


if __name__ == "__main__":
    main()
