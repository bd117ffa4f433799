# What `measure` and `check` of this folder share: programs, their manifests, their traces through the model, and the
# comparison of what the model counted with what the program counts.
unset CDPATH CFLAGS OPTIMIZE COMPILER MALLOC BUILD CROSS V KIT MAKEFLAGS
export LC_ALL=C
set -o pipefail
papers=$(cd "$(dirname "${BASH_SOURCE[0]}")" && pwd -P) || exit 1
top=$(cd "$papers/../.." && pwd -P) || exit 1
[ -z "${MONDRIX-}" ] || MONDRIX=$(realpath "$MONDRIX") || exit 1
mondrix=${MONDRIX:-$top/crates/mondrix/out/mondrix}
steps=4000000000
own_programs="tree hash list sort matrix crc packets"
sources=${SOURCES:-$top/out/real}
kinds="segments multilevel packed"
buffers="8 32 64"

# Says which of the tools, or of those that are named, isn't there.
tools_there() { # TOOLS..
    local tool
    for tool in make gcc riscv64-unknown-elf-gcc riscv64-unknown-elf-objdump "$@"; do
        command -v $tool >/dev/null || { echo "bench/papers: skipped, since there is no $tool" && return 1; }
    done
    echo '#include <stdio.h>' | riscv64-unknown-elf-gcc --specs=picolibc.specs -march=rv32im -mabi=ilp32 -E - \
        >/dev/null 2>&1 || { echo "bench/papers: skipped, since there is no picolibc" && return 1; }
}

program_there() {
    if [ ! -x "$mondrix" ]; then
        echo "no $mondrix: './mondrix run examples/first/first.toml 10' builds it" >&2
        return 1
    fi
    [ "$(cd "$papers" && "$mondrix" trace none 1 --effects 2>&1)" = "no file none" ] ||
        { echo "bench/papers: $mondrix has no trace --effects" >&2 && return 1; }
}

# The programs that others wrote, as Debian's source packages have them: those whose sources are unpacked.
source_of() { # PACKAGE
    local folder
    for folder in "$sources/$1"-[0-9]*/; do [ ! -d "$folder" ] || (cd "$folder" && pwd -P); done | tail -n 1
}
others=
zlib=$(source_of zlib) lua=$(source_of lua5.4)
[ -z "$zlib" ] || others="$others zlib"
[ -z "$lua" ] || others="$others lua"
say_absent() {
    [ -n "$zlib" ] || echo "bench/papers: skipped: zlib, since there is no source of zlib in $sources"
    [ -n "$lua" ] || echo "bench/papers: skipped: lua, since there is no source of lua5.4 in $sources"
}

# The images, those of these goals or all, in a folder, and the model.
built() { # FOLDER SCALE GOALS..
    local at=$1 scale=$2
    shift 2
    mkdir -p "$at" && cp "$papers"/programs/* "$at" &&
        make -s -C "$at" KIT="$top/kit" CFLAGS="-DSCALE=$scale" ZLIB="$zlib" LUA="$lua" "$@" >"$at/said" 2>&1 ||
        { cat "$at/said" && return 1; }
    gcc -O2 -o "$at/model" "$papers"/model/*.c
}

# A manifest of a program of this folder. STORE is the grain and the place of the area: word or coarse, aligned or
# beside. The larger limits are for whoever grants word by word.
manifest() { # PROGRAM STORE QUANTUM HARTS KIND BUFFER
    local area=0x80400000 hart module=work
    case $2 in *.beside) area=0x80200000 ;; esac
    [ "$1" != packets ] || module=net
    printf '%s\n' 'version = 2' 'ram_kib = 8192' "quantum = $3" "tables = \"$5\"" "lookaside = $6" 'leaf = 16384' \
        'spill = 65536'
    if [ $module = net ]; then
        cat <<END_OF_PACKETS
[[module]]
name = "net"
image = "net.$2.elf"
heap = $area
heap_words = 131072
stack = 0x800f0000
stack_words = 512
[[module]]
name = "proto"
image = "proto.elf"
stack = 0x800f4000
stack_words = 512
gates = [{ entry = "receive", from = ["net"] }]
returns = ["mondrix_return"]
[[module]]
name = "app"
image = "app.elf"
stack = 0x800f8000
stack_words = 512
gates = [{ entry = "deliver", from = ["proto"] }]
returns = ["mondrix_return"]
END_OF_PACKETS
    else
        cat <<END_OF_WORK
[[module]]
name = "store"
image = "store.$2.elf"
heap = $area
heap_words = 131072
stack = 0x800f0000
stack_words = 512
gates = [{ entry = "take", from = ["work"] }, { entry = "give", from = ["work"] }]
returns = ["mondrix_return"]
[[module]]
name = "work"
image = "$1.elf"
stack = 0x800f4000
stack_words = 4096
END_OF_WORK
    fi
    for ((hart = 0; hart < $4; hart++)); do printf '%s\n' '[[hart]]' "module = \"$module\""; done
}

# The model's counts of a run of so many turns, and the run's console, in FOLDER. MAKER prints the manifest for the kind
# and the buffer that come as its last words; its images are in the folder BUILT.
counted() { # BUILT FOLDER STEPS KIND MAKER..
    local at=$1 folder=$2 turns=$3 kind=$4
    shift 4
    mkdir -p "$folder" && "$@" "$kind" 32 >"$at/counted.toml" || return 1
    (
        cd "$at" && rm -f memory.bin && "$mondrix" run counted.toml 0 --save >/dev/null 2>report </dev/null ||
            { head -n 1 report && exit 1; }
        "$mondrix" trace counted.toml "$turns" --effects 2>&1 >"$folder/console" </dev/null |
            ./model memory.bin "$folder"
    )
}

# The lines of maps, tables and counts that the program reports and those that the model has: says where they differ
# first, and by which count.
compared() { # NAME MODEL REPORT
    grep -E '^(map|tables|shown|counts) ' "$3" | awk -v name="$1" -v model="$2" '
        function differ(what) { print "bench/papers: " name ": " what; failed = 1; exit }
        {
            if ((getline line < model) <= 0) differ("the program has " $0 ", the model no more lines")
            if (line == $0) next
            count = split(line, other)
            key = $1 != other[1] ? "" : $1 == "counts" ? " of hart " $2 : $1 == "tables" ? "" : " of domain " $2
            for (i = 1; i <= NF || i <= count; i++)
                if ($i != other[i]) differ($1 key ": the program has " $i ", the model " other[i])
        }
        END {
            if (!failed && (getline line < model) > 0) differ("the model has " line ", the program no more lines")
            if (!failed && NR == 0) differ("the program reports no counts")
            exit failed
        }'
}

# These kinds of tables, and each size of a buffer that the program has, beside the model's counts.
all_compared() { # NAME BUILT FOLDER STEPS KINDS MAKER..
    local name=$1 at=$2 folder=$3 turns=$4 kind kinds=$5 buffer
    shift 5
    for kind in $kinds; do
        for buffer in $buffers; do
            "$@" "$kind" "$buffer" >"$at/compared.toml" &&
                (cd "$at" && "$mondrix" run compared.toml "$turns" --tables --counts >console 2>report </dev/null) ||
                return 1
            compared "$name, $kind, $buffer" "$folder/$kind.$buffer" "$at/report" &&
                cmp "$folder/console" "$at/console" || return 1
        done
    done
}

# A program of this folder, which ends when all of its harts left with 0.
same() { # BUILT FOLDER PROGRAM STORE QUANTUM HARTS
    local at=$1 folder=$2
    shift 2
    counted "$at" "$folder" $steps packed manifest "$@" &&
        all_compared "$1, $2, quantum $3, harts: $4" "$at" "$folder" $steps "$kinds" manifest "$@" || return 1
    [ "$(grep -c '^exit .* code=0$' "$at/report")" = "$4" ] || { head -n 3 "$at/report" && return 1; }
}
