# Sourced after scripts/kit.sh: the compiled panel, and packages of Debian's for x86-64 where this machine is of another kind.

# archive: the static library; proved and built where it is missing or older than the code or its proofs. WARPSORREL names another one to use instead.
archive=${WARPSORREL:-crates/warpsorrel/out/libwarpsorrel.a}
newer() { find crates.txt crates -path 'crates/*/out' -prune -o \( -name '*.rt' -o -name '*.antt' -o -name crates.txt \) -newer "$archive" -print -quit; }
if [ -z "${WARPSORREL:-}" ] && { [ ! -e "$archive" ] || [ -n "$(newer)" ]; }; then
    kit_builds warpsorrel lib || exit 1
fi

# unpack ROOT PACKAGE:ARCHITECTURE..: the packages' files, under ROOT. Nothing is installed; the machine's package lists stay as they are.
unpack() {
    local root=$1 work=$PWD/target/debian package
    shift
    mkdir -p "$root" "$work/state/lists/partial" "$work/cache/archives/partial" "$work/packages"
    local options=(-q -o APT::Architectures::=amd64 -o "APT::Architectures::=$(dpkg --print-architecture)" -o "Dir::State=$work/state"
        -o Dir::State::status=/dev/null -o "Dir::Cache=$work/cache" -o APT::Sandbox::User=root -o Acquire::Retries=3)
    rm -f "$work"/packages/*.deb
    {
        { [ -e "$work/listed" ] || { apt-get "${options[@]}" update && touch "$work/listed"; }; } &&
            (cd "$work/packages" && apt-get "${options[@]}" download "$@")
    } >"$work/log" 2>&1 || {
        tail -n 5 "$work/log" >&2
        say "cannot download: $*" >&2
        return 1
    }
    for package in "$work"/packages/*.deb; do
        dpkg-deb -x "$package" "$root" || return 1
        rm "$package"
    done
}
