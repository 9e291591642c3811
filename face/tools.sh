# What the tests of the face share, read by `. face/tools.sh` in the project's root: the archive, which must be there
# and not older than the code; the tools that make a program for x86-64, and Debian's emulator that runs it elsewhere; a
# room for temporary files. `who` is the name before their messages. Where the C compiler is missing, apt-get is asked
# to install it.
archive=crates/brassgroat/out/libbrassgroat.a
room=$(mktemp -d)
trap 'rm -rf "$room"' EXIT

fail() { # REASON
    echo "$who: $1" >&2
    exit 1
}

[ -f "$archive" ] || fail "no $archive: run 'rt lib' in crates/brassgroat first"
[ -z "$(find crates -name out -prune -o -name '*.rt' -newer "$archive" -print)" ] ||
    fail "$archive is older than the code: run 'rt lib' in crates/brassgroat first"

if [ "$(uname -m)" = x86_64 ]; then
    tools='' static='' emulator='' package=gcc
else
    tools=x86_64-linux-gnu- static=-static package=gcc-x86-64-linux-gnu
    emulator=qemu-x86_64
    command -v "$emulator" >/dev/null || fail "no $emulator, which Debian's qemu-user has: install it"
fi

command -v ${tools}gcc >/dev/null || apt-get install -y -q $package >"$room/apt" 2>&1 || {
    cat "$room/apt" >&2
    fail "no ${tools}gcc, which Debian's $package has: install it"
}

# A C program for x86-64 by the strictest flags that its callers may use.
compile_c() { # PROGRAM WORDS..
    program=$1
    shift
    ${tools}gcc -std=c11 -Wall -Wextra -pedantic -Werror -ffp-contract=off $static -o "$program" "$@"
}
