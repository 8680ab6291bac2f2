# shellcheck shell=sh disable=SC2034,SC2086  # what is set here is read by those who source this file; words are to be split
# How x86-64 programs are made and run on this machine, for bench/ and peer/. Sets
#   cc           a C compiler for x86-64
#   run          what stands in front of a program: nothing, or an emulator and its words
#   rust_target  words for rustc and cargo: none, or the target
#   rust_flags   words for rustc alone: none, or where Rust's library for x86-64 is
# `missing NAME..` prints the commands that are not there. Nothing is installed here.
# On Arm it wants what bindings/README.md says. (A library for the machine itself is made by tools/archive --target.)
missing() {
    for command in "$@"; do command -v "$command" >/dev/null || printf '%s\n' "$command"; done
}
cc=gcc
run=
rust_target=
rust_flags=
case $(uname -m) in
x86_64) ;;
aarch64)
    cc=x86_64-linux-gnu-gcc
    run="qemu-x86_64 -L /usr/x86_64-linux-gnu" # Debian's: the kit's own dies on Rust programs, and has no plugins
    rust_target="--target x86_64-unknown-linux-gnu"
    rust_flags="-C linker=$cc${XURBALENZ_X86_SYSROOT:+ --sysroot $XURBALENZ_X86_SYSROOT}"
    ;;
*) missing() { echo "a machine that runs x86-64 programs ($(uname -m) is not known to)"; } ;;
esac
# Rust's library for x86-64, where rustc is there to be asked
missing_std() {
    [ -n "$(missing rustc)" ] || [ -d "$(rustc $rust_flags $rust_target --print target-libdir)" ] || echo "Rust's x86_64-unknown-linux-gnu"
}
