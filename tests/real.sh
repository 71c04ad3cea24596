#!/bin/sh
# SPDX-License-Identifier: Apache-2.0
# Tries both sides for programs in C with peers that others wrote. './test real --help' says more.
top=$(cd "$(dirname "$0")/.." && pwd) || exit 3
program="test real"

usage() {
    cat <<END
usage: ./test real            tries the library for programs in C with peers that others wrote. The frontend: with QEMU's storage
                              daemon, its file system daemon, and DPDK's switch; sectors, files and frames go through
                              virtqueues. The backend: Linux, in a virtual machine of QEMU, boots from the example disk; QEMU
                              without a guest drives it, as do libblkio and User Mode Linux; and QEMU is the display of a graphics
                              device. The packages for Rust: virtiofsd over rust/vhost and rust/virtio-queue, whose
                              folder a guest mounts, and whose rings it breaks
       ./test real NAME..     the tries whose names begin so: machine, halted (without a guest), blkio (qemu-io over libblkio), uml (User Mode
                              Linux), libvirt, disk, files, switch, asked (covretin-ask and a disk of the storage daemon; the
                              example frontend and that), probed (what the example
                              disk replies to each request), shared (the folder; files plays it, too), or all of a name, as disk_killed
       ./test real checked    covretin-check over QEMU's daemons, DPDK's switch, QEMU as a frontend, and the programs covretin disk, rng and net: a
                              verdict that is not known (c/real/checked) fails, and so does a count on docs/CONFORMANCE.md that is another
       ./test real obstacles  what these backends cannot do: shown, and not counted
       ./test real --help     shows this
       ./test real --version  prints the version

Prints a line for each try, and last 'N passed, M failed'; docs/HOW-TESTED.md says what each shows, and why one is not counted. Takes some
14 minutes once the library for C is there, which ./test c builds as well; seven without those of machine. On a busy machine it takes
longer and fails no more: no limit is one of the clock. Where a try failed, it names the folder that has the peers' logs and the program's.

Needed: python3, cc, and the library as ./test c finds it; of Debian 12 the packages qemu-system-common, dpdk-dev and librte-net-vhost23, for machine
and halted qemu-system-x86, and for machine linux-image-amd64, busybox-static, cpio, e2fsprogs and fio, which this does not install. Another
QEMU, of 7.2 to 11, is tried where it is first on PATH. For files root with CAP_SYS_CHROOT, and for postcopy and probed CAP_SYS_PTRACE, since a
userfaultfd waits for the system's own page faults. No hugepages. KVM for machine_display alone, and for machine_ping_migration alone root with
CAP_SYS_ADMIN and CAP_NET_ADMIN, and a kernel that has taps and bridges: these two are not counted without.

For blkio qemu-utils and qemu-block-extra, which have libblkio from Debian 13 on; for uml user-mode-linux and busybox-static; for libvirt
libvirt-daemon-driver-qemu, for libvirt_disk libvirt-daemon-system, too, which makes the user libvirt-qemu, and what machine needs. Without a qemu-io that has libblkio, without linux.uml or virt-qemu-run, they are left out,
which a line says.

For halted_refused_rust and machine_vsock cargo, librust-bitflags-1-dev, librust-libc-dev, librust-log-dev, librust-uuid-dev and
librust-vm-memory-dev; and for shared cargo, libseccomp-dev and libcap-ng-dev, what machine needs, and a folder of crates. Without cargo, these
crates or that folder they are left out, which a line says. So are those of checked without cargo and these packages, and of a peer that is
missing, or of whose version no verdicts are known.
$(crates_help)

Status: 0 where all that count passed; 1 where a try failed; 2 after wrong arguments; 3 where something is missing, or could not be built.
END
}

. "$top/scripts/build/crates.sh"
. "$top/scripts/build/options.sh"
. "$top/scripts/build/library.sh"
. "$top/tests/waiting.sh"

machines='machine_boot machine_boot_byte_by_byte machine_migration machine_postcopy machine_killed machine_packed machine_memory machine_resized machine_fio'
machines="$machines machine_uncached machine_devices machine_display machine_entropy machine_frames machine_vsock machine_ping machine_ping_migration"
halted='halted_cycles halted_reset halted_killed halted_precopy halted_postcopy halted_state halted_refused halted_refused_rust halted_program'
tries='disk_sectors disk_regions disk_dirty_log disk_killed disk_turned files_read switch_frames switch_postcopy'
shared='shared_mounted shared_migrated shared_killed shared_broken_rings'
probed='probed'
asked='asked_lines asked_frontend'
blkio='blkio_sectors blkio_sectors_byte_by_byte'
uml='uml_boot uml_boot_byte_by_byte uml_console'
libvirt='libvirt_disk libvirt_descriptors'
checked='checked_blk checked_rng checked_net checked_storage checked_files checked_switch checked_frontend'
shown='obstacle_files_sends obstacle_switch_sends'
virtiofsd=/usr/lib/qemu/virtiofsd

# Whether a try is among those that were named.
is_named() {
    case $1: in "$2":* | "$2"_* | "${2%s}_"*) return 0 ;; esac
    case $2:$1 in files:shared_*) return 0 ;; esac
    return 1
}

every=
for try in $tries; do every="$every $try ${try}_byte_by_byte"; done
for try in $shared; do every="$every $try ${try}_by_the_crate"; done
every="$every $asked $probed $machines $halted $blkio $uml $libvirt $checked $shown"
chosen=
for name in "${@:-those that count}"; do
    found=
    for try in $every; do
        case $name:$try in *\ *:obstacle_*) continue ;; esac
        [ "$name" = 'those that count' ] || is_named "$try" "$name" || continue
        found=yes
        case " $chosen " in *" $try "*) ;; *) chosen="$chosen $try" ;; esac
    done
    [ -n "$found" ] || refuse
done

# Whether qemu-io has libblkio.
has_blkio() {
    command -v qemu-img >/dev/null && command -v qemu-io >/dev/null &&
        ! qemu-io --image-opts driver=virtio-blk-vhost-user,path=none,cache.direct=on -c quit 2>&1 | grep -q 'Unknown driver'
}

# Why what is known of a program of QEMU does not hold: it is missing, or none of these versions.
unknown() {
    program=$1
    shift
    command -v "$program" >/dev/null || { echo "$program is missing" && return; }
    version=$("$program" --version | sed -n '1s/.* version \([0-9]*\.[0-9]*\)\..*/\1/p')
    for known; do
        [ "$version" != "$known" ] || return 0
    done
    echo "its verdicts are known of these versions alone: $*"
}

# Why the checker cannot try a program, where it cannot.
unchecked() {
    if ! command -v cargo >/dev/null; then
        echo "cargo is missing"
    elif [ -n "$(missing_packages)" ]; then
        echo "these are missing:$(missing_packages)"
    else
        case $1 in
        checked_storage) unknown qemu-storage-daemon 7.2 ;;
        checked_files) unknown "$virtiofsd" 7.2 ;;
        checked_switch)
            command -v dpdk-testpmd >/dev/null && for module in /usr/lib/*/dpdk/pmds-23.0/librte_net_vhost.so; do [ -e "$module" ]; done ||
                echo "dpdk-testpmd 22.11 or its vhost device is missing"
            ;;
        checked_frontend) unknown qemu-system-x86_64 7.2 10.0 11.1 ;;
        *) "$top/scripts/build/generate.py" --current x86_64/covretin_queue || echo "generated/ has no queues that are made of these sources" ;;
        esac
    fi
}

# What the package for Rust needs and is not there.
lacks_cargo() {
    if ! command -v cargo >/dev/null; then
        echo "cargo is missing"
        return
    fi
    packages=$(missing_packages)
    [ -z "$packages" ] || echo "these are missing:$packages"
}

# Why a try in Rust cannot be built, or one over queues, where it cannot; or which peer is missing that not each Debian has.
lacking() {
    case $1 in
    checked_*)
        unchecked "$1"
        return
        ;;
    shared_* | *_rust) ;;
    *_display | *_state) return ;;
    machine_* | halted_* | blkio_* | uml_* | libvirt_* | probed)
        "$top/scripts/build/generate.py" --current x86_64/covretin_queue || { echo "generated/ has no queues that are made of these sources" && return; }
        case $1 in
        blkio_*) has_blkio || echo "qemu-io with libblkio is missing" ;;
        uml_*) command -v linux.uml >/dev/null || echo "linux.uml is missing" ;;
        libvirt_*) command -v virt-qemu-run >/dev/null || echo "virt-qemu-run is missing" ;;
        machine_vsock) lacks_cargo ;;
        esac
        return
        ;;
    *) return ;;
    esac
    if [ "${1#shared_}" = "$1" ] || ! command -v cargo >/dev/null; then
        lacks_cargo
    elif ! folder_of virtiofsd >/dev/null; then
        echo "COVRETIN_CRATES names no folder that has virtiofsd"
    fi
}

# What cannot be built is left out.
kept=
for try in $chosen; do
    why=$(lacking "$try")
    if [ -n "$why" ]; then
        echo "$try: not played, since $why"
    else
        kept="$kept $try"
    fi
done
chosen=$kept

# -- What is needed --

# Whether one of the tries that are played is of this kind.
plays() {
    case $chosen in *"$1"*) return 0 ;; esac
    return 1
}

packages=
# That a package is wanted, unless one of these files is there, or a program of this name on PATH.
want() {
    package=$1
    shift
    for file in "$@"; do
        case $file in
        */*) [ ! -e "$file" ] || return 0 ;;
        *) ! command -v "$file" >/dev/null || return 0 ;;
        esac
    done
    case " $packages " in *" $package "*) ;; *) packages="$packages $package" ;; esac
}

command -v cc >/dev/null || packages="$packages gcc"
command -v python3 >/dev/null || packages="$packages python3"
! plays machine && ! plays halted && ! plays shared && ! plays libvirt || want qemu-system-x86 qemu-system-x86_64
for kind in machine shared libvirt_disk; do
    ! plays "$kind" || want linux-image-amd64 /boot/vmlinuz-*
    ! plays "$kind" || want busybox-static /usr/bin/busybox /bin/busybox
    ! plays "$kind" || want cpio /usr/bin/cpio /bin/cpio
done
! plays uml || want busybox-static /usr/bin/busybox /bin/busybox
! plays shared || want libseccomp-dev /usr/include/seccomp.h
! plays shared || want libcap-ng-dev /usr/include/cap-ng.h
! plays machine && ! plays libvirt_disk || want e2fsprogs /usr/sbin/mke2fs /sbin/mke2fs
! plays machine_fio || want fio fio
! plays disk || want qemu-system-common qemu-storage-daemon
! plays asked || want qemu-system-common qemu-storage-daemon
! plays files || want qemu-system-common "$virtiofsd"
! plays switch || want dpdk-dev dpdk-testpmd
! plays switch || want librte-net-vhost23 /usr/lib/*/dpdk/pmds-*/librte_net_vhost.so*
if [ -n "$packages" ]; then
    tell "missing: apt-get install$packages"
    exit 3
fi

# Whether this process has a capability, by its number.
may() {
    [ $((0x$(sed -n 's/^CapEff:[[:space:]]*//p' /proc/self/status) >> $1 & 1)) = 1 ]
}

if { plays files || plays shared; } && ! { [ "$(id -u)" = 0 ] && may 18; }; then
    tell "files and shared need root with CAP_SYS_CHROOT: the daemon shuts itself into the folder"
    exit 3
fi
if { plays postcopy || plays probed; } && ! may 19 && [ "$(cat /proc/sys/vm/unprivileged_userfaultfd)" != 1 ]; then
    tell "postcopy and probed need CAP_SYS_PTRACE, or 1 in /proc/sys/vm/unprivileged_userfaultfd"
    exit 3
fi

# -- Processes --

room=$(mktemp -d) || exit 3
running=
failed=0
passed=0

# Waits until a process of this script has ended, until so many seconds were spent by all that run (scripts/patience.py). Then it is told to
# end, and killed where it does not. Its status.
finish() {
    if ! "$top/scripts/patience.py" "$2" "$1" $running >>limits.log; then
        kill "$1"
        "$top/scripts/patience.py" 10 "$1" >>limits.log || kill -9 "$1"
    fi
    wait "$1" 2>/dev/null
    status=$?
    kept=
    for process in $running; do [ "$process" = "$1" ] || kept="$kept $process"; done
    running=$kept
    return "$status"
}

# Ends what is still there, by its number, and removes all but the logs of what failed.
leave() {
    for process in $running; do
        ! is_running "$process" || kill -9 "$process"
        wait "$process" 2>/dev/null
    done
    [ "$failed" != 0 ] || rm -rf "$room"
}
trap leave EXIT
trap 'failed=0; exit 3' HUP INT TERM

# Whether a try takes the library: the checker has programs as make makes them.
takes_library() {
    for try in $chosen; do
        case $try in checked_*) ;; *) return 0 ;; esac
    done
    return 1
}
! takes_library || find_library || exit 3

# Nothing is ever said here: the input of a switch that ends where its input does.
mkfifo "$room/quiet" && exec 9<>"$room/quiet" || exit 3

# Starts a backend in the background, in the try's folder: its process is $backend.
serve() {
    echo "$*" >>backend.log
    RUNTIME_DIRECTORY=$PWD "$@" >>backend.log 2>&1 <&9 9<&- &
    backend=$!
    running="$running $backend"
}

# Starts the program of a try in the background.
ask() {
    kind=$1
    shift
    "$room/$kind$variant" "$@" >program.log 2>&1 9<&- &
    asking=$!
    running="$running $asking"
}

# Waits for the program, and ends the backend. The program's status.
end() {
    finish "$asking" 120
    ended=$?
    ! is_running "$backend" || kill "$backend"
    finish "$backend" 10
    return "$ended"
}

# -- The backends --

# A disk over the image, which has numbers; or a slow one, whose second write waits for minutes.
serve_disk() {
    node=${1:-raw}
    if [ "$node" = slow ]; then
        set -- --object throttle-group,id=group,x-bps-write=16 --blockdev driver=throttle,node-name=slow,throttle-group=group,file=raw
    else
        set --
    fi
    serve qemu-storage-daemon --blockdev driver=file,node-name=file,filename=image --blockdev driver=raw,node-name=raw,file=file "$@" \
        --export type=vhost-user-blk,id=disk,node-name="$node",addr.type=unix,addr.path=socket,writable=on,num-queues=2
}

# Starts the file system daemon. The socket is made here and not by the daemon, which would leave a file in /run then.
listening='import os, socket, sys
listener = socket.socket(socket.AF_UNIX)
listener.bind(sys.argv[1])
listener.listen(1)
os.set_inheritable(listener.fileno(), True)
os.execv(sys.argv[2], [*sys.argv[2:], "--fd=%d" % listener.fileno()])'

serve_files() {
    serve python3 -c "$listening" socket "$virtiofsd" -f -o source="$PWD/folder" -o cache=none -o sandbox=chroot
}

# It sends each frame back where it came from. All memory locked would leave no page to arrive; and a switch that is connected to
# before it forwards would discard the frames that it finds then.
serve_switch() {
    write_switch postcopy-support=1
    serve ./program socket
}

# The switch as a program, whose one word is the path of its socket; its device has these options.
write_switch() {
    processors=$(sed -n 's/^Cpus_allowed_list:[[:space:]]*//p' /proc/self/status)
    cat >program <<END
#!/bin/sh
exec dpdk-testpmd --no-huge -m 128 --no-pci --no-telemetry --no-shconf --lcores "(0,1)@($processors)" \\
    --vdev "net_vhost0,iface=\$1,queues=1,$1" -- \\
    --forward-mode=io --port-topology=loop --auto-start --total-num-mbufs=2048 --no-mlockall --no-flush-rx
END
    chmod +x program
}

# -- The tries --

asked_disk() {
    seq 700000 | head -c 4194304 >image
    serve_disk
    ask disk socket image "$backend" "$1"
    end
}

disk_sectors() { asked_disk work; }
disk_regions() { asked_disk regions; }
disk_dirty_log() { asked_disk log; }
disk_turned() { asked_disk turned; }

# The program of lines: each answer is that of c/real/asked.txt, and what is refused, or no call, is told.
asked_lines() {
    seq 700000 | head -c 4194304 >image
    serve_disk
    wait_for socket "$backend" >>backend.log
    { sed 's/|.*//' "$top/c/real/asked.txt"; echo nonsense; } | "$room/asked" --limit=1000 --fd 5=memory:0x100000 socket >came 2>program.log 9<&-
    ended=$?
    kill "$backend"
    finish "$backend" 10
    [ "$ended" = 1 ] && diff - program.log >wrong <<END || { cat wrong >>program.log; return 1; }
line 22: set_vring_num refused: there are 2 rings, from 0 on, and no ring 9
line 23: set_mtu refused: MTU was not accepted
line 26: bad call: word 1: no call has this name: nonsense
END
    sed -n 's/^[^#|]*|//p' "$top/c/real/asked.txt" >wanted
    cut -d ' ' -f 3- came >answers
    [ "$(wc -l <answers)" = "$(wc -l <wanted)" ] || return 1
    paste -d '|' wanted answers | while IFS='|' read -r pattern answer; do
        case $answer in $pattern) ;; *) echo "$answer, and not $pattern" >program.log; exit 1 ;; esac
    done
}

# The frontend that make installs as an example, until the daemon hangs up, since it has no place in its configuration to write to. (how far
# it is with the request as its ring stops is not said)
asked_frontend() {
    seq 700000 | head -c 4194304 >image
    serve_disk
    wait_for socket "$backend" >>backend.log
    "$room/frontend" socket fds >came 2>program.log 9<&-
    ended=$?
    kill "$backend"
    finish "$backend" 10
    [ "$ended:$(cat program.log)" = "2:get_config: peer disconnected" ] || return 1
    sed 's/^\(get_[a-z_]*features:\) .*/\1/; s/called: [01] used/called/; s/^get_vring_base: 0x4[de]$/get_vring_base/' came | diff "$top/c/real/asked_frontend.txt" - >program.log
}

# The program kills the first backend; the second one takes its place.
disk_killed() {
    seq 700000 | head -c 4194304 >image
    serve_disk slow
    ask disk socket image "$backend" killed
    "$top/scripts/patience.py" 120 "$backend" "$asking" >>limits.log
    { is_running "$asking" && ! is_running "$backend"; } || { end; return; }
    finish "$backend" 0
    serve_disk
    end
}

files_read() {
    mkdir folder
    seq 20000 >folder/numbers
    serve_files
    ask files socket folder/numbers
    end
}

switch_frames() {
    serve_switch
    ask switch socket "${1:-frames}"
    end
}

switch_postcopy() { switch_frames postcopy; }

# The example disk replies to each request what was recorded; and the table is of what was recorded of it and of the others.
probed() {
    seq 700000 | head -c 4194304 >image
    serve "$room/machine" socket image 2
    (cd "$top/c/real/probed" && python3 -B ../probe.py --table storage_daemon.txt virtiofsd.txt switch.txt disk.txt) >table 2>&1
    python3 -B "$top/c/real/probe.py" socket "$backend" >came 2>&1 9<&- &
    asking=$!
    running="$running $asking"
    finish "$asking" 120
    ended=$?
    kill "$backend"
    finish "$backend" 10 || ended=1
    { grep -v '^#' "$top/c/real/probed/disk.txt" | diff - came && diff "$top/c/real/probed/table.txt" table; } >program.log || ended=1
    return "$ended"
}

# Linux in a virtual machine, over the example disk, or the device that is named; and another beside it.
machine() {
    python3 -B "$top/c/real/machine.py" "$1" "$room/${2:-machine$variant}" "$room/boot" "$room/${3:-any}" "$room/${4:-frames}" >program.log 2>&1 9<&- &
    asking=$!
    running="$running $asking"
    finish "$asking" 2000
}

# The same without a guest, over the program that is named.
halted() {
    python3 -B "$top/c/real/halted.py" "$1" "$room/$2" >program.log 2>&1 9<&- &
    asking=$!
    running="$running $asking"
    finish "$asking" 600
}

# Another frontend over the example disk, or the device that is named, which the program of that name starts.
over_disk() {
    python3 -B "$top/c/real/$1.py" "$2" "$room/${3:-machine$variant}" >program.log 2>&1 9<&- &
    asking=$!
    running="$running $asking"
    finish "$asking" 600
}

# A folder that virtiofsd shares with a guest.
shared() {
    python3 -B "$top/c/real/shared_files.py" "$1" "$room/virtiofsd$variant" >program.log 2>&1 9<&- &
    asking=$!
    running="$running $asking"
    finish "$asking" 2000
}

machine_boot() { machine boot; }
machine_migration() { machine migration; }
machine_postcopy() { machine postcopy; }
machine_killed() { machine killed; }
machine_packed() { machine packed; }
machine_fio() { machine fio; }
machine_memory() { machine memory; }
machine_devices() { machine devices; }
machine_display() { machine display picture; }
machine_resized() { machine resized; }
machine_entropy() { machine entropy machine rng; }
machine_frames() { machine frames machine net; }
machine_vsock() { machine vsock machine vsock echoes; }
machine_uncached() { made_disk --cache=none --queue-size=64 && machine uncached program; }
machine_ping() { made covretin-net && machine ping machine made/covretin-net; }
machine_ping_migration() { made covretin-net && machine ping_migration machine made/covretin-net; }

halted_cycles() { halted cycles machine; }
halted_reset() { halted reset machine_slow; }
halted_killed() { halted killed machine_slow; }
halted_precopy() { halted precopy machine; }
halted_postcopy() { halted postcopy machine; }
halted_state() { halted state state; }
halted_refused() { halted refused machine_refuses; }
halted_refused_rust() { halted refused disk_in_rust; }

# A device that people run, as make makes it.
made() {
    make -s -C "$top" BUILD="$room/made" "$room/made/$1" >program.log 2>&1
}

# The disk among them, as a program that takes the words of the example disk.
made_disk() {
    made covretin-blk || return 1
    printf '#!/bin/sh\nexec "%s" %s --socket-path="$1" --blk-file="$2" --num-queues="${3:-1}"\n' "$room/made/covretin-blk" "$*" >"$room/program"
    chmod +x "$room/program"
}

halted_program() { made_disk && halted cycles program; }

blkio_sectors() { over_disk blkio sectors; }
uml_boot() { over_disk uml boot; }
uml_console() { made covretin-console && over_disk uml console made/covretin-console; }

# libvirt over what make installs.
over_libvirt() {
    make -s -C "$top" BUILD="$room/made" DESTDIR="$room/system" PREFIX=/usr install >program.log 2>&1 || return 1
    python3 -B "$top/c/real/libvirt.py" "$1" "$room/system" "$room/boot" >program.log 2>&1 9<&- &
    asking=$!
    running="$running $asking"
    finish "$asking" 2000
}

libvirt_disk() { over_libvirt disk; }
# (as nobody, who has to reach the try's folder)
libvirt_descriptors() { chmod a+x "$room" && over_libvirt descriptors; }

# The checker over a program: the file of what is known, the row of the page, and how the checker is called.
checked() {
    name=$1 title=$2
    shift 2
    python3 -B "$top/c/real/checked.py" "$room/covretin-check" "$top/c/real/checked/$name.txt" "$top/docs/CONFORMANCE.md" "$title" \
        "$@" >program.log 2>&1 9<&- &
    asking=$!
    running="$running $asking"
    finish "$asking" 2000
}

checked_blk() {
    made covretin-blk && truncate -s 64M image || return 1
    checked blk '`covretin disk`' --type=blk --image=image -- "$room/made/covretin-blk" --packed-queues --socket-path=%s --blk-file=image
}
checked_rng() { made covretin-rng && checked rng '`covretin disk`' --type=rng -- "$room/made/covretin-rng" --socket-path=%s; }
checked_net() {
    made covretin-net || return 1
    checked net '`covretin disk`' --type=net -- "$room/made/covretin-net" --socket-path=%s --local="$PWD/local" --remote="$PWD/remote"
}
checked_storage() {
    truncate -s 64M image
    checked storage_daemon qemu-storage-daemon --type=blk --image=image -- qemu-storage-daemon \
        --blockdev driver=file,node-name=file,filename=image --blockdev driver=raw,node-name=raw,file=file \
        --export type=vhost-user-blk,id=disk,node-name=raw,addr.type=unix,addr.path=%s,writable=on,num-queues=2
}
checked_files() {
    mkdir folder
    cat >program <<END
#!/bin/sh
[ "\$1" != --print-capabilities ] || exec "$virtiofsd" "\$1"
RUNTIME_DIRECTORY="$PWD" exec python3 -c '$listening' "\$1" "$virtiofsd" -f -o source="$PWD/folder" -o cache=none -o sandbox=chroot
END
    chmod +x program
    checked virtiofsd virtiofsd --type=fs -- ./program %s
}
checked_switch() {
    write_switch postcopy-support=1,iommu-support=1
    checked switch testpmd --type=net -- ./program %s
}
checked_frontend() { checked qemu QEMU --frontend -- qemu-system-x86_64; }

shared_mounted() { shared mounted; }
shared_migrated() { shared migrated; }
shared_killed() { shared killed; }
# Thirty rings that a guest breaks; over the crate it is only seen what they do.
shared_broken_rings() {
    [ -n "$variant" ] || set -- live
    python3 -B "$top/c/real/broken_rings.py" virtiofsd "$room/virtiofsd$variant" "$@" >program.log 2>&1 9<&- &
    asking=$!
    running="$running $asking"
    finish "$asking" 600
}

obstacle_files_sends() { files_read; }
obstacle_switch_sends() { switch_frames; }

# -- Programs --

# Builds virtiofsd of the folder of crates: over rust/vhost and rust/virtio-queue, or as it is there, over the crates themselves.
build_virtiofsd() {
    [ ! -e "$room/virtiofsd$1" ] || return 0
    case $1 in '') place=$top ;; *) place= ;; esac
    workspace_of virtiofsd "$room/over$1" "$place" && (cd "$room/over$1" && cargo build --quiet --bins --config profile.dev.debug=false) >"$room/built" 2>&1 &&
        cp "$room/over$1/target/debug/virtiofsd" "$room/virtiofsd$1" && rm -rf "$room/over$1" || { cat "$room/built" >&2; exit 3; }
}

# Builds the example disk in Rust, which refuses a call (c/real/refuses.c). It ends by a signal, which its status would say; and with the shell
# that it runs under, whatever ends that.
build_disk_in_rust() {
    [ ! -e "$room/disk_in_rust" ] || return 0
    mkdir "$room/refuses" && cat >"$room/refuses/Cargo.toml" <<END || exit 3
[package]
name = "refuses"
version = "0.0.0"
edition = "2021"
[[bin]]
name = "refuses"
path = "$top/rust/examples/disk.rs"
[dependencies]
covretin = { path = "$top/rust", default-features = false }
END
    [ "$archive" = "$room/proved.o" ] || set -- "PROVED=$archive"
    make -s -C "$top" BUILD="$room/build" "$@" && cc -c -I"$top/include" -o "$room/refuses.o" "$top/c/real/refuses.c" || exit 3
    (cd "$room/refuses" && COVRETIN_LIB_DIR="$room/build" cargo rustc --config "$top/rust/debian.toml" --offline --quiet --target-dir target \
        -- -C link-arg=-Wl,--wrap=covretin_backend_next -C link-arg="$room/refuses.o") || exit 3
    cat >"$room/disk_in_rust" <<END
#!/bin/sh
setpriv --pdeathsig KILL "$room/refuses/target/debug/refuses" "\$@" &
trap 'kill \$!; wait \$!; exit \$((\$? != 143))' TERM
wait
END
    chmod +x "$room/disk_in_rust"
}

# Builds the example in Rust of a socket device.
build_vsock() {
    [ ! -e "$room/vsock" ] || return 0
    [ "$archive" = "$room/proved.o" ] || set -- "PROVED=$archive"
    make -s -C "$top" BUILD="$room/build" "$@" || exit 3
    (cd "$top/rust" && COVRETIN_LIB_DIR="$room/build" cargo build --config debian.toml --offline --quiet --example vsock --target-dir "$room/rust") &&
        cp "$room/rust/debug/examples/vsock" "$room" && rm -rf "$room/rust" || exit 3
}

# Builds the checker of backends and frontends.
build_checker() {
    [ ! -e "$room/covretin-check" ] || return 0
    (cd "$top/rust/check" && cargo build --config ../debian.toml --offline --quiet --target-dir "$room/checker") &&
        cp "$room/checker/debug/covretin-check" "$room" && rm -rf "$room/checker" || exit 3
}

# Compiles the program of a try, and what else that needs.
prepare() {
    if [ "$1" = checked ]; then
        build_checker
        return
    fi
    if [ "$1" = shared ]; then
        build_virtiofsd "$2"
        return
    fi
    if [ "$2" = _rust ]; then
        build_disk_in_rust
        return
    fi
    if [ "$1" = libvirt ]; then
        make_boot
        return
    fi
    if [ "$1" = machine ]; then
        make_boot
        compile any ""
        compile picture ""
        ! plays machine_entropy || compile rng ""
        ! plays machine_frames || { compile net "" && compile_for_guest frames; }
        ! plays machine_vsock || { build_vsock && compile_for_guest echoes; }
    fi
    case $1 in
    halted)
        compile machine "$2"
        compile state ""
        ;;
    blkio | uml | probed) compile machine "$2" ;;
    asked)
        compile asked ""
        compile frontend ""
        ;;
    *) compile "$1" "$2" ;;
    esac
}

# Compiles a program, with the sanitizers: as it is, or a byte at a time: `_receives` one byte, `_bytes` sends and receives one; or
# `_slow`, with a file that is written slowly; or `_refuses`, which refuses a call.
compile() {
    kind=$1
    variant=$2
    [ ! -e "$room/$kind$variant" ] || return 0
    case $kind in
    any | state) set -- "real/$kind.c" real/idle.c covretin_backend_socket.c covretin_serving.c ;;
    picture) set -- real/picture.c real/idle.c covretin_backend_socket.c covretin_display_socket.c covretin_serving.c ;;
    machine | rng | net)
        find_queues || exit 3
        set -- "$kind.c"
        [ "$kind" != machine ] || set -- blk.c $(echo '#include <liburing.h>' | cc -E - >/dev/null 2>&1 && echo -luring)
        set -- "$@" covretin_device.c covretin_device_calls.c covretin_device_channel.c covretin_device_inflight.c covretin_log.c covretin_device_memory.c covretin_device_rings.c
        set -- "$@" "$queues" covretin_backend_socket.c covretin_channel_socket.c covretin_serving.c
        ;;
    asked) set -- ask.c ask_calls.c line_reasons.c ;;
    frontend) set -- frontend.c covretin_socket.c ;;
    switch) set -- real/switch.c real/arrival.c real/vmm.c real/virtqueue.c covretin_socket.c ;;
    *) set -- "real/$kind.c" real/vmm.c real/virtqueue.c covretin_socket.c ;;
    esac
    case $variant in _receives | _bytes) set -- "$@" real/one_byte_receives.c -Wl,--wrap=recvmsg ;; esac
    case $variant in _bytes) set -- "$@" real/one_byte_sends.c -Wl,--wrap=sendmsg ;; esac
    case $variant in _slow) set -- "$@" -DBLK_THREADS real/slow_writes.c -Wl,--wrap=pwritev ;; esac
    case $variant in _refuses) set -- "$@" real/refuses.c -Wl,--wrap=covretin_backend_next ;; esac
    (cd "$top/c" && cc -std=gnu11 -g -O1 -Wall -Wextra -pedantic -Werror -fsanitize=address,undefined -fno-sanitize-recover=all \
        -I"$top/include" -pthread -o "$room/$kind$variant" "$@" covretin_transport.c covretin_text.c \
        $proved) || exit 3
}

# What a guest runs, which has no libraries.
compile_for_guest() {
    [ -e "$room/$1" ] || cc -std=gnu11 -O1 -Wall -Wextra -pedantic -Werror -static -o "$room/$1" "$top/c/real/$1.c" || exit 3
}

# The boot sector of the machines' disk.
make_boot() {
    [ ! -e "$room/boot" ] || return 0
    as --32 -o "$room/boot.o" "$top/c/real/boot.S" || exit 3
    ld -m elf_i386 -Ttext 0x7c00 -e start --oformat binary -o "$room/boot" "$room/boot.o" || exit 3
}

# Plays a try in a folder of its own, which goes where it passed, and says how it ended.
play() {
    try=$1
    mkdir "$room/$try" && cd "$room/$try" || exit 3
    name=${try%_byte_by_byte}
    "${name%_by_the_crate}"
    ended=$?
    case $try:$ended in
    obstacle_*:0) echo "$try: no obstacle any more" ;;
    obstacle_* | *:4) echo "$try: not counted: $(tail -n 1 program.log)" ;;
    *:0)
        echo "$try: ok"
        passed=$((passed + 1))
        ;;
    *)
        tail -n 1 program.log
        for log in *.log; do
            [ "$log" = program.log ] || sed "s/^/$log: /" "$log" | tail -n 3
        done
        echo "$try: FAILED"
        failed=$((failed + 1))
        return
        ;;
    esac
    cd / && rm -rf "${room:?}/$try"
}

for try in $chosen; do
    kind=${try#obstacle_}
    kind=${kind%%_*}
    variant=
    case $try in
    machine_killed | machine_packed | halted_killed | halted_reset) variant=_slow ;;
    halted_refused) variant=_refuses ;;
    *_rust) variant=_rust ;;
    shared_*_by_the_crate) variant=_by_the_crate ;;
    machine_*_byte_by_byte | disk_*_byte_by_byte | blkio_*_byte_by_byte | uml_*_byte_by_byte | obstacle_*) variant=_bytes ;;
    *_byte_by_byte) variant=_receives ;;
    esac
    prepare "$kind" "$variant"
    play "$try"
done
if [ "$failed" != 0 ]; then
    rm -f "$room/virtiofsd"* "$room/machine"* "$room/rng" "$room/net" "$room/frames" "$room/any" "$room/picture" "$room/state" "$room/disk"* "$room/files"* "$room/asked" "$room/frontend" "$room/switch"* "$room/boot"* "$room/quiet" "$room/covretin-check" 2>/dev/null
    rm -rf "$room/refuses" "$room/build" "$room/made" "$room/system"
    echo "logs: $room"
fi
echo "$passed passed, $failed failed"
[ "$failed" = 0 ]
