# For hosts/check and hosts/cost: how x86-64 programs are compiled and run here. Sets CC, emulator (empty on x86-64) and out.
# On x86-64 that is the machine's own compiler; elsewhere a cross compiler and qemu's user emulator.

die() {
    echo "hosts: $*" >&2
    exit 2
}

have() {
    command -v "$1" >/dev/null 2>&1
}

library=target/staticlib/libhost.a
out=target/hosts/bin
if [ "$(uname -m)" = x86_64 ]; then
    CC=${CC:-gcc}
    emulator=
    have "$CC" || die "missing: $CC (Debian: apt-get install gcc)"
else
    CC=${CC:-x86_64-linux-gnu-gcc}
    emulator=qemu-x86_64
    have "$CC" || die "missing: $CC (Debian: apt-get install gcc-x86-64-linux-gnu)"
    have "$emulator" || die "missing: $emulator (Debian: apt-get install qemu-user)"
fi
mkdir -p "$out"
# where the system has no C library for x86-64, the emulator takes the cross compiler's
if [ -n "$emulator" ] && [ ! -e /lib64/ld-linux-x86-64.so.2 ]; then
    libc=$(readlink -f "$($CC -print-file-name=libc.so.6)")
    emulator="$emulator -L $(dirname "$(dirname "$libc")")"
fi

compile() { # compile NAME FILES..: a program in C, with no warning
    program=$out/$1
    shift
    $CC -std=c99 -O2 -Wall -Wextra -Wpedantic -Werror -Ihosts/c "$@" -o "$program" || die "hosts/c does not compile"
}
