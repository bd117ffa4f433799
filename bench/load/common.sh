# What the scripts of this folder share: the program, a folder of their own, machines, and pieces of guests. They say
# where they are in `here`. MONDRIX names another program. KIB is the size of RAM.
# shellcheck shell=sh disable=SC2034,SC2154
export LC_ALL=C
[ -z "${MONDRIX-}" ] || MONDRIX=$(realpath "$MONDRIX") || exit 1
program=${MONDRIX:-$(cd "$here/../.." && pwd -P)/crates/mondrix/out/mondrix}
if [ ! -x "$program" ]; then
    echo "no $program: './mondrix run examples/first/first.toml 10' builds it" >&2
    exit 1
fi
kib=${KIB:-65536}
bytes=$((kib * 1024))
heap=$((0x80002000))
end=$((0x80000000 + bytes))
work=$(mktemp -d) || exit 1
trap 'rm -rf "$work"' EXIT
trap 'exit 1' INT TERM HUP
cd "$work" && cc -O2 -o clock "$here/clock.c" || exit 1

# A machine with the greatest limits. Module 1 has an image, and its heap area is RAM from 0x80002000 on. Each other
# module is one word, a loop, between 0x80000800 and 0x80001000. The harts begin in the modules of these numbers.
machine() { # FILE IMAGE KIND MODULES QUANTUM HARTS..
    machine_file=$1
    {
        printf '%s\n' 'version = 2' "ram_kib = $kib" "tables = \"$3\"" 'upper = 4096' 'leaf = 262144' \
            'spill = 1048576' 'lookaside = 64' "quantum = $5" '[[module]]' 'name = "m1"' "image = \"$2\"" \
            "heap = $heap" "heap_words = $(((end - heap) / 4))"
        number=2
        while [ "$number" -le "$4" ]; do
            printf '%s\n' '[[module]]' "name = \"m$number\"" "at = $((0x80000800 + 16 * number))" 'perm = "rx"' \
                'words = [0x6f]'
            number=$((number + 1))
        done
        shift 5
        for number; do printf '%s\n' '[[hart]]' "module = \"m$number\""; done
    } >"$machine_file"
}

# The image of module 1. Its code comes from stdin and may call
#   mark   a write of the 4096 bytes at `text`, which stand at 0x80001000
#   fill   grants of s4 (a permission) on s5 bytes at s0 and then at each s2 bytes up to s1, to domain s3
# Both change a0 to a3, a7 and ra, and fill s0. The module leaves at the end.
guest() { # NAME
    {
        printf '.text 0x80000000\nstart:\n'
        cat
        cat <<'CODE'
    addi a0, zero, 0
    addi a7, zero, 1
    ecall                   # exit
mark:
    la a0, text
    lui a1, 1
    addi a7, zero, 2
    ecall                   # write
    jalr zero, 0(ra)
fill:
    addi a0, s0, 0
    addi a1, s5, 0
    addi a2, s3, 0
    addi a3, s4, 0
    addi a7, zero, 3
    ecall                   # grant
    add s0, s0, s2
    bltu s0, s1, fill
    jalr zero, 0(ra)
.data 0x80001000
text:
.at 0x80002000
CODE
    } >"$1.s"
    "$program" asm "$1.s" >"$1.elf" || exit 1
}

# A call of `fill`. The domain is a number, or that of a loop of `each`.
filled() { # FROM TO STEP BYTES DOMAIN PERMISSION
    printf '    li s%d, %d\n' 0 "$1" 1 "$2" 2 "$3" 5 "$4" 4 "$6"
    [ "$5" = each ] && echo '    addi s3, s9, 0' || echo "    addi s3, zero, $5"
    echo '    jal ra, fill'
}

# What comes from stdin, for each domain from the first to the last.
each() { # FIRST LAST
    printf '    addi s9, zero, %d\neach:\n' "$1"
    cat
    printf '    addi s9, s9, 1\n    addi s10, zero, %d\n    bne s9, s10, each\n' "$(($2 + 1))"
}

# Turns at quantum 1 without end, and nothing of what is said is kept.
turns=9999999999

# The least of the numbers of a column.
least() { # COLUMN
    sort -k "$1,$1g" | awk -v column="$1" 'NR == 1 { print $column }'
}
