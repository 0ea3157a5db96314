# Sourced by the scripts: the compiled panel is for x86-64, as the kit is, so that another machine needs a cross compiler and an emulator.

say() { printf '%s\n' "$*"; }

# install PACKAGE..: Debian packages that the commands need, where they are not there yet
install() {
    local sudo=''
    [ "$(id -u)" -eq 0 ] || sudo='sudo -n'
    say "installing: $*"
    { $sudo apt-get install -y --no-install-recommends "$@" || { $sudo apt-get update && $sudo apt-get install -y --no-install-recommends "$@"; }; } >target/install.log 2>&1 || {
        tail -n 5 target/install.log >&2
        say "cannot install: $*" >&2
        return 1
    }
}

# kit_builds CRATE COMMAND: `rt run` or `rt lib` in the crate's folder, which proves it and all below it, as far as that is not done yet, and
# leaves what it builds in out/ there. A program is run on nothing; only where it fails something is said.
kit_builds() {
    (cd "crates/$1" && rt "$2") </dev/null >"target/$1.log" 2>&1 || {
        tail -n 20 "target/$1.log" >&2
        return 1
    }
}

mkdir -p target
machine=$(uname -m)
kit=$(dirname "$(rt doc)")

# cc: a C compiler for x86-64; emulate: the words before a program for x86-64
if [ "$machine" = x86_64 ]; then
    cc=${CC:-cc}
    emulate=()
    command -v "$cc" >/dev/null || install gcc libc6-dev
else
    cc=x86_64-linux-gnu-gcc
    emulate=(qemu-x86_64)
    command -v "$cc" >/dev/null || install gcc-x86-64-linux-gnu libc6-dev-amd64-cross
    command -v qemu-x86_64 >/dev/null || install qemu-user
fi

# start: the words before a program that rt linked
start=()
[ "$machine" = x86_64 ] || start=("${emulate[@]}" "$kit/toolchain/lib/ld-linux-x86-64.so.2" --library-path "$kit/toolchain/lib")
