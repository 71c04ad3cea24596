#!/bin/sh
# SPDX-License-Identifier: Apache-2.0
# aarch64.sh CHECKOUT FOLDER: compiles the tests in C for aarch64, and runs them by qemu-aarch64, an emulator of user programs. What it
# cannot do is below, test by test. A line for each program, and last 'N passed, M failed'. Status 0 where no other test failed, else 1;
# 3 where something could not be built. Debian: gcc-aarch64-linux-gnu libc6-dev-arm64-cross qemu-user. There are no sanitizers.
top=$(cd "$1" && pwd) && mkdir -p "$2" && to=$(cd "$2" && pwd) || exit 3
cc=${CC-aarch64-linux-gnu-gcc}
make -s -C "$top" CC="$cc" AR=aarch64-linux-gnu-ar BUILD="$to/build" || exit 3

# What the emulator cannot do, test by test. Its recvmsg does not say that the system dropped descriptors (MSG_CTRUNC). It knows no
# SO_PEEK_OFF, so that what lies unread is not looked at, and a close waits. And where a child that it forks stands still, as by Debian's
# 7.2 on newer kernels, no test that waits for a child or a thread can end.
cannot='lost_descriptors'
export COVRETIN_LEFT_OUT='anything'
printf '#include <unistd.h>\nint main(void) { if (fork() == 0) { usleep(1000); _exit(0); } usleep(3000000); return 0; }\n' >"$to/fork.c"
"$cc" -o "$to/fork" "$to/fork.c" || exit 3
qemu-aarch64 -L /usr/aarch64-linux-gnu "$to/fork" &
probe=$!
sleep 2
stands=$(ps -o pid=,state= --ppid "$probe" | awk '$2 != "Z" { print $1 }')
if [ -n "$stands" ]; then
    COVRETIN_LEFT_OUT='anything limits_time_of_a_trickle goes_on_after_signals waits_without_a_limit connects_again slow_display'
fi
kill -9 $stands "$probe" 2>/dev/null
wait "$probe" 2>/dev/null

compile() {
    name=$1
    shift
    sources=
    for glue in socket backend_socket channel_socket display_socket serving transport text memory; do
        sources="$sources $top/c/covretin_$glue.c"
    done
    "$cc" -std=gnu11 -g -O1 -I"$top/include" -I"$top/c" -pthread -o "$to/$name" "$@" $sources "$to/build/proved.o" || exit 3
}

wrap='-Wl,--wrap=sendmsg,--wrap=recvmsg,--wrap=poll,--wrap=malloc,--wrap=calloc,--wrap=realloc'
cd "$top/c/tests" || exit 3
compile session session.c alone.c testing.c
compile replies replies.c alone.c testing.c
compile connection connection.c testing.c peer.c
compile hostile hostile.c testing.c peer.c
compile calls calls.c testing.c peer.c \
    -Wl,--wrap=sendmsg,--wrap=recvmsg,--wrap=poll,--wrap=connect,--wrap=covretin_answer_fd,--wrap=covretin_receive
compile memory memory.c testing.c peer.c -Wl,--wrap=malloc,--wrap=calloc,--wrap=realloc
compile service service.c by_hand.c testing.c peer.c
compile answers answers.c by_hand.c testing.c peer.c
compile both both.c testing.c peer.c
compile hostile_frontend hostile_frontend.c by_hand.c testing.c peer.c
compile serving_calls serving_calls.c by_hand.c testing.c peer.c "$wrap" -Wl,--wrap=accept4,--wrap=covretin_backend_receive
compile channel channel.c testing.c peer.c
compile channel_session channel_session.c testing.c
compile display display.c screen.c testing.c peer.c
compile display_session display_session.c screen.c testing.c
compile display_calls display_calls.c screen.c testing.c peer.c "$wrap"
# (the emulator has no io_submit, which devices over queues signal by)
compile queue queue.c testing.c "$to/build/proved_queue.o"

passed=0
failed=0
for program in session replies connection hostile calls memory service answers both hostile_frontend serving_calls channel channel_session \
    display display_session display_calls queue; do
    rm -rf "$to/$program.room" && mkdir "$to/$program.room" || exit 3
    (cd "$to/$program.room" && exec qemu-aarch64 -L /usr/aarch64-linux-gnu "$to/$program") >"$to/$program.said" 2>&1 &
    ran=$!
    "$top/scripts/patience.py" 600 "$ran" || kill -9 "$ran"
    wait "$ran"
    ended=$?
    good=$(grep -c ': ok$' "$to/$program.said")
    bad=$(grep ': FAILED$' "$to/$program.said" | grep -c -v -E "($cannot): FAILED\$")
    # (a program that was stopped has told no end)
    case $ended in 0 | 1) ;; *) bad=$((bad + 1)) ;; esac
    [ "$bad" = 0 ] || cat "$to/$program.said"
    echo "$program: $good passed, $bad failed, status $ended"
    passed=$((passed + good))
    failed=$((failed + bad))
done
echo "$passed passed, $failed failed"
[ "$failed" = 0 ] && [ "$passed" != 0 ]
