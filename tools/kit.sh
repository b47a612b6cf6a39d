# shellcheck shell=sh disable=SC2034
# kit.sh: what the scripts beside it know of the machine and of the Rattle kit. They read it: . tools/kit.sh
#
# Sets: machine (x86_64 or aarch64: any other stops here). find_kit sets: kit, the kit's folder, found from where `rt`
# stands; rattle, the prover; toolchain, the folder of its compiler. The kit is for x86-64 alone.

# The kit that tools/library was tried with, as `rt version` names it. Another may call its compiler with other words or
# lower functions otherwise: try tools/library with it, then change this line.
kit_tried='rattle-kit-13f logic dac8208d650f15bf'

stop() {
    printf '%s: %s\n' "$(basename "$0")" "$*" >&2
    exit 2
}

machine=$(uname -m)
case $machine in
x86_64 | aarch64) ;;
*) stop "this machine is $machine: the library is for x86_64 and aarch64 Linux" ;;
esac

find_kit() {
    rt=$(command -v rt) || stop 'there is no rt here: the Rattle kit brings it'
    [ "$machine" = x86_64 ] || stop "this machine is $machine, and the kit proves and builds on x86-64 alone (for both processors: make boards there)"
    kit=${RATTLE_HOME:-$(dirname "$(dirname "$(readlink -f "$rt")")")}
    [ -x "$kit/bin/rattle" ] || kit=$(dirname "$(rt doc)")
    rattle=$kit/bin/rattle
    toolchain=$kit/toolchain
    if [ ! -x "$rattle" ] || [ ! -x "$toolchain/bin/clang" ]; then
        stop "the kit at $kit has no prover and compiler where this script looks for them"
    fi
}
