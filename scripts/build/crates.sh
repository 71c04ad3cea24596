# SPDX-License-Identifier: Apache-2.0
# The crates that the package for Rust takes of Debian; and programs of a folder of crates, COVRETIN_CRATES, built over rust/vhost and
# rust/virtio-queue in the place of the crates: they are not changed. Whoever reads this has set `top` and `room`, a folder of his own.

# What gives such a folder, for a help.
crates_help() {
    cat <<END
COVRETIN_CRATES: a folder of crates with virtiofsd, vhost-user-backend and all that they depend on, in which cargo looks in the place of a
registry. Of Debian 14, or sid, these packages have them in usr/share/cargo/registry: librust-virtiofsd-dev, librust-tempfile-dev and
librust-nix-dev, with what they depend on; unpacked by 'dpkg-deb -x' they need not be installed. virtiofsd also takes libcap-ng-dev and
libseccomp-dev, of any Debian.
END
}

# The crates that the package takes of Debian, each with the part of its version that has to be this one, that are not there: by Debian's names
# of their packages. (of bitflags Debian 13 has another version by the name without a number)
missing_packages() {
    for crate in bitflags-1 libc-0 log-0 uuid-1 vm-memory-0; do
        set -- "/usr/share/cargo/registry/$crate".*
        [ -d "$1" ] || printf ' librust-%s-dev' "${crate%-0}"
    done
}

# The folder of a crate, by its name.
folder_of() {
    for found in "${COVRETIN_CRATES-}/$1"-[0-9]*; do
        [ ! -f "$found/Cargo.toml" ] || { echo "$found"; return; }
    done
    return 1
}

# Which folder of this repository is the crate vhost of the version that a crate asks for.
vhost_for() {
    asked=$(sed -n '/^\[dependencies\.vhost\]/,/^\[[^d]/s/^version = "\([^"]*\)".*/\1/p' "$1/Cargo.toml" | head -n 1)
    case $asked in
    0.18*) echo rust/vhost ;;
    0.17*) echo rust/vhost/compat-0_17 ;;
    *) echo "$1 asks for vhost $asked, which is neither 0.17 nor 0.18" >&2 && return 1 ;;
    esac
}

# Makes a workspace of one of the crates in a folder; where a checkout is named, with its packages in the place of vhost and, where the folder has
# 0.18 of that, of virtio-queue.
workspace_of() {
    crate=$(folder_of "$1") && patch=$(vhost_for "$crate") || return 1
    mkdir -p "$2/.cargo" && cp -r "$crate" "$2/$1" && rm -f "$2/$1/.cargo-checksum.json" || return 1
    printf '[workspace]\nmembers = ["%s"]\nresolver = "2"\n' "$1" >"$2/Cargo.toml"
    [ -z "${3-}" ] || printf '[patch.crates-io]\nvhost = { path = "%s/%s" }\n' "$3" "$patch" >>"$2/Cargo.toml"
    case ${3:+$(folder_of virtio-queue)} in
    */virtio-queue-0.18.*) printf 'virtio-queue = { path = "%s/rust/virtio-queue" }\n' "$3" >>"$2/Cargo.toml" ;;
    esac
    cat >"$2/.cargo/config.toml" <<END
[source.crates-io]
replace-with = "here"
[source.here]
directory = "$(cd "$COVRETIN_CRATES" && pwd)"
[net]
offline = true
END
}

# Whether the crate vhost is there, with what it depends on: in `sources`, and which features rust/fuzz has over it.
find_the_crate() {
    sources=${COVRETIN_VHOST:-$(folder_of vhost)}
    features=
    [ -f "$sources/Cargo.toml" ] && folder_of vmm-sys-util >"$room/said" || return 1
    ! grep -q '^version = "0.17' "$sources/Cargo.toml" || features=older
}

# Cargo, over the folder of crates, with these sources of the crate.
run_beside() {
    command=$1
    shift
    cargo "$command" --config "source.crates-io.replace-with='here'" --config "source.here.directory='$(cd "$COVRETIN_CRATES" && pwd)'" \
        --config "patch.crates-io.vhost.path='$(cd "$sources" && pwd)'" --offline --quiet --features "$features" "$@"
}
