# What the scripts of this folder share that measure whole runs: the program, a folder of their own, and images with
# their manifests. They say where they are in `here`. MONDRIX names another program than the one that
# `./mondrix run examples/first/first.toml 10`, or `rt ci`, leaves; PROGRAMS some of the programs, in place of all;
# TABLES another kind of tables than packed ones; SOURCES another folder than out/real for the sources of real programs
# (examples/real/fetch gets them).
# shellcheck shell=bash disable=SC2034,SC2154
unset CDPATH CFLAGS OPTIMIZE COMPILER MALLOC BUILD CROSS V KIT MAKEFLAGS
export LC_ALL=C
[ -z "${MONDRIX-}" ] || MONDRIX=$(realpath "$MONDRIX") || exit 1
top=$(cd "$here/../.." && pwd -P) || exit 1
program=${MONDRIX:-$top/crates/mondrix/out/mondrix}
sources=$(realpath -m "${SOURCES:-$top/out/real}") || exit 1
if [ ! -x "$program" ]; then
    echo "no $program: './mondrix run examples/first/first.toml 10' builds it" >&2
    exit 1
fi
work=$(mktemp -d) || exit 1
trap 'rm -rf "$work"' EXIT
cd "$work" || exit 1

small='hash sort matrix crc'
large='zlib lua sqlite mbedtls'

# Writes program.elf and program.toml, for a program of this folder or a real one. Ends with 3, and says so, where a
# tool or the sources aren't there. What real programs are compiled to stays in out/run.
image() { # NAME ROUNDS
    local built=$top/out/run
    case " $large " in
    *" $1 "*)
        HOST=no "$top/examples/real/build" "$1" "$built" "$2" "$sources" >said 2>&1 || {
            local status=$?
            tail -n 20 said
            return $status
        }
        cp "$built/$1.elf" program.elf &&
            sed '/^tables = /d; s/^image = .*/image = "program.elf"/' "$built/$1.toml" >image.toml
        ;;
    *)
        "$here/build" "$1" "$2" program.elf || {
            local status=$?
            [ $status != 3 ] || echo "bench/run: skipped: $1, since there is no compiler for RISC-V"
            return $status
        }
        cp "$here/program.toml" image.toml
        ;;
    esac || return 1
    sed "s/^ram_kib/tables = \"${TABLES:-packed}\"\n&/" image.toml >program.toml
}
