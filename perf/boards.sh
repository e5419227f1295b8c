# shellcheck shell=bash disable=SC2154
# The archive of each board, linked with plain.c, the comparison and the driver, and run: read by perf/run.
# All C is compiled by the kit's compiler with the flags of bin/archive, so that the mix is the same on every board; a
# board's own tools (Debian's packages) link and run it. What the comparison prints must be the same text everywhere.

lib=$root/bin/lib
# shellcheck source=bin/lib/annotate.sh
. "$lib/annotate.sh"

boards=$work/boards
trace=() # words for the emulator, where instructions are counted

# A command and the package that has it.
tool() { # COMMAND PACKAGE
    command -v "$1" >/dev/null || missing="$missing $2"
}

# A file and the package that has it.
part() { # FILE PACKAGE
    [ -e "$1" ] || missing="$missing $2"
}

natively() { [ "$(uname -m)" = "${1%-linux}" ]; } # TARGET

# What a target needs to be linked and run.
tools_of() { # TARGET
    missing=
    case $1 in
    x86_64-linux) ;;
    aarch64-linux)
        tool aarch64-linux-gnu-gcc gcc-aarch64-linux-gnu
        natively "$1" || tool qemu-aarch64 qemu-user
        natively "$1" || part /usr/aarch64-linux-gnu/lib/libc.a libc6-dev-arm64-cross
        ;;
    riscv64-linux)
        tool riscv64-linux-gnu-gcc gcc-riscv64-linux-gnu
        natively "$1" || tool qemu-riscv64 qemu-user
        natively "$1" || part /usr/riscv64-linux-gnu/lib/libc.a libc6-dev-riscv64-cross
        ;;
    cortex-*)
        tool arm-none-eabi-gcc gcc-arm-none-eabi
        tool qemu-system-arm qemu-system-arm
        part /usr/lib/picolibc/arm-none-eabi picolibc-arm-none-eabi
        ;;
    riscv32imac)
        tool riscv64-unknown-elf-gcc gcc-riscv64-unknown-elf
        tool qemu-system-riscv32 qemu-system-misc
        part /usr/lib/picolibc/riscv64-unknown-elf picolibc-riscv64-unknown-elf
        ;;
    wasm32) tool node nodejs ;;
    *) die "no such target: $1" ;;
    esac
}

flags_of() { "$root/bin/archive" --list | sed -n "s/^$1  *//p"; } # TARGET

board_cc() { # TARGET SOURCE OBJECT [FLAGS...]
    local target=$1 source=$2 object=$3
    shift 3
    case $target in cortex-*) set -- -fshort-enums "$@" ;; esac # as picolibc is compiled
    # shellcheck disable=SC2046
    "$tools/bin/clang" $(flags_of "$target") -ffunction-sections -fdata-sections -std=gnu11 -Wall -Wextra -Wno-gnu-case-range \
        -nostdinc -isystem "$here/headers" -I "$here" -I "$boards/$target" "$@" -c "$source" -o "$object"
}

# Where code and data lie on the boards that qemu has. None has a Cortex-M0+ and room for the comparison: it runs on an M4,
# which has all of its instructions.
places() { # TARGET
    case $1 in
    cortex-m0plus | cortex-m3 | cortex-m4* | cortex-m7*) echo 0x0 0x400000 0x20000000 0x400000 ;;
    cortex-m33*) echo 0x10000000 0x400000 0x38000000 0x200000 ;;
    riscv32imac) echo 0x80000000 0x400000 0x80400000 0x400000 ;;
    esac
}

picolibc() { # TARGET COMPILER PROGRAM FILE...
    local target=$1 compiler=$2 program=$3 flash flash_size ram ram_size
    shift 3
    read -r flash flash_size ram ram_size <<<"$(places "$target")"
    # shellcheck disable=SC2086
    $compiler -specs=picolibc.specs --crt0=semihost --oslib=semihost "$@" -Wl,--gc-sections \
        -Wl,--defsym=__flash="$flash" -Wl,--defsym=__flash_size="$flash_size" \
        -Wl,-Map="$program.map" -Wl,--defsym=__ram="$ram" -Wl,--defsym=__ram_size="$ram_size" -Wl,--defsym=__stack_size=0x10000 -o "$program"
}

board_link() { # TARGET PROGRAM FILE...
    link_board "$@" 2>"$boards/$1/link.log" || { cat "$boards/$1/link.log"; return 1; }
}

link_board() { # TARGET PROGRAM FILE...
    local target=$1
    shift
    case $target in
    x86_64-linux) link "$@" ;;
    aarch64-linux | riscv64-linux) "${target%-linux}-linux-gnu-gcc" -static -Wl,--gc-sections -Wl,-Map="$1.map" -o "$@" ;;
    cortex-*) picolibc "$target" "arm-none-eabi-gcc $(flags_of "$target" | grep -o -- '-m\(cpu\|fpu\|float-abi\)=[^ ]*' | paste -s -d ' ') -mthumb" "$@" ;;
    riscv32imac) picolibc "$target" "riscv64-unknown-elf-gcc -march=rv32imac -mabi=ilp32" "$@" ;;
    wasm32)
        (exec -a wasm-ld "$tools/bin/clang" --no-entry --gc-sections -z stack-size=65536 --export-if-defined=__main_argc_argv \
            --export-if-defined=__main_void -o "$@" "$boards/$target/wasm.o")
        ;;
    esac
}

# Semihosting hands a program its words and takes its output and its status.
semihosting() { # EMULATOR MACHINE PROGRAM WORDS...
    local emulator=$1 machine=$2 program=$3 config=enable=on,target=native,chardev=out word
    shift 3
    for word in "$@"; do config=$config,arg=$word; done
    # shellcheck disable=SC2086
    $emulator "${trace[@]}" -M "$machine" -display none -monitor none -serial none -chardev stdio,id=out -semihosting-config "$config" \
        -kernel "$program" </dev/null
}

# Code bytes of an object or an archive with nothing left out.
code_bytes() { # TARGET FILE
    local prefix
    case $1 in
    aarch64-linux | riscv64-linux) prefix=${1%-linux}-linux-gnu- ;;
    cortex-*) prefix=arm-none-eabi- ;;
    riscv32imac) prefix=riscv64-unknown-elf- ;;
    x86_64-linux) prefix= ;;
    *) return ;;
    esac
    if command -v "${prefix}size" >/dev/null; then "${prefix}size" -A "$2" | awk '/^\.text/ { n += $2 } END { print n }'; fi
}

# Of the archive's, what a linked program keeps: from the linker's map.
kept_bytes() { # TARGET PROGRAM
    local bytes sum=0
    [ -f "$boards/$1/$2.map" ] || return 0
    while read -r bytes; do sum=$((sum + bytes)); done < <(awk '$1 ~ /^\.[a-zA-Z]/ { code = $1 ~ /^\.text/ }
        /libcekarum\.a\((kernel|words)\.o\)$/ && code && $(NF - 2) !~ /^0x0*$/ { print $(NF - 1) }' "$boards/$1/$2.map")
    echo "$sum"
}

# The deepest stack of any case of count.c.
deepest() { # TARGET
    local at=$boards/$1 name most=0 bytes
    case $1 in cortex-*) ;; *) return 0 ;; esac
    board_cc "$1" "$here/count.c" "$at/count.o" -DPROVED
    board_link "$1" "$at/count" "$at/count.o" "$at/plain.o" "$at/libcekarum.a"
    for name in $(board_run "$1" "$at/count" | cut -f1); do
        bytes=$(board_run "$1" "$at/count" "$name" stack)
        [ "$bytes" -le "$most" ] || most=$bytes
    done
    echo "$most"
}

# All instructions of one run on the emulator, counted as perf/README.md says of the kit's.
board_instructions() { # TARGET PROGRAM CASE TIMES
    local pipe=$boards/trace
    # shellcheck disable=SC2054
    local trace=(-singlestep -d exec,nochain -D "$pipe")
    rm -f "$pipe"
    mkfifo "$pipe"
    board_run "$@" >/dev/null &
    grep -c '^Trace' "$pipe"
    wait $! || die "$* ended with status $?"
}

board_per_call() { # TARGET PROGRAM CASE
    local few many
    few=$(board_instructions "$@" 10)
    many=$(board_instructions "$@" 30)
    echo $(((many - few + 10) / 20))
}

# Instructions per call under qemu, plain.c beside the archive that run_boards has left. Both sides copy by the archive's own
# functions where it has them: plain.c's calls get their names too, and the archive hands it that object alone.
board_count() { # TARGET [CASE...]
    local target=${1:?TARGET} at=$boards/$1 names name plain proved
    shift
    case $target in x86_64-linux | wasm32) die "$target is not counted here (perf/run count)" ;; esac
    [ -f "$at/libcekarum.a" ] || die "no $at/libcekarum.a (perf/run boards)"
    word_names "$target" | sed 's/\(.*\) \(.*\)/__asm__("\1 = \2");/' >"$at/words.h"
    board_cc "$target" "$here/plain.c" "$at/plain_words.o" -include "$at/words.h"
    board_cc "$target" "$here/count.c" "$at/count_plain.o" -include "$at/words.h"
    board_cc "$target" "$here/count.c" "$at/count_words.o" -include "$at/words.h" -DPROVED
    board_link "$target" "$at/count_plain" "$at/count_plain.o" "$at/plain_words.o" "$at/libcekarum.a"
    board_link "$target" "$at/count" "$at/count_words.o" "$at/plain_words.o" "$at/libcekarum.a"
    if [ -s "$at/words.h" ]; then echo "both sides copy and fill by bin/lib/words.c"; fi
    names=("$@")
    [ $# -gt 0 ] || mapfile -t names < <(board_run "$target" "$at/count" | cut -f1)
    for name in "${names[@]}"; do
        plain=$(board_per_call "$target" "$at/count_plain" "$name")
        proved=$(board_per_call "$target" "$at/count" "$name")
        printf '%-12s %8d %8d %6s\n' "$name" "$plain" "$proved" "$(awk "BEGIN { printf \"%.2f\", $proved / $plain }")"
    done
}

# What a target's archive takes, where that can be measured.
sizes() { # TARGET
    local code plain base kept stack
    code=$(code_bytes "$1" "$boards/$1/libcekarum.a") plain=$(code_bytes "$1" "$boards/$1/plain.o")
    base=$(kept_bytes "$1" base) kept=$(kept_bytes "$1" driver) stack=$(deepest "$1")
    echo "$1: code ${code:-unknown}, of document 01's calls ${base:-unknown}, in the driver ${kept:-unknown}, plain.c ${plain:-unknown};" \
        "deepest stack ${stack:-not measured}"
}

board_run() { # TARGET PROGRAM WORDS...
    local target=$1
    shift
    case $target in
    x86_64-linux) go "$@" ;;
    aarch64-linux | riscv64-linux)
        if natively "$target" && [ ${#trace[@]} -eq 0 ]; then "$@"; else "qemu-${target%-linux}" "${trace[@]}" "$@"; fi
        ;;
    cortex-m3) semihosting qemu-system-arm mps2-an385 "$@" ;;
    cortex-m0plus | cortex-m4*) semihosting qemu-system-arm mps2-an386 "$@" ;;
    cortex-m7*) semihosting qemu-system-arm mps2-an500 "$@" ;;
    cortex-m33*) semihosting qemu-system-arm mps2-an505 "$@" ;;
    riscv32imac) semihosting "qemu-system-riscv32 -bios none" virt "$@" ;;
    wasm32) node "$here/wasm.mjs" "$@" ;;
    esac
}

board_build() { # TARGET
    local at=$boards/$1 part
    for part in plain kernel_plain kernel_proved mix compare; do board_cc "$1" "$here/$part.c" "$at/$part.o" || return 1; done
    board_cc "$1" "$root/examples/driver.c" "$at/driver.o" || return 1
    board_cc "$1" "$here/base.c" "$at/base.o" || return 1
    [ "$1" != wasm32 ] || board_cc "$1" "$here/wasm.c" "$at/wasm.o" -fno-builtin || return 1
    board_link "$1" "$at/driver" "$at/driver.o" "$at/libcekarum.a" || return 1
    board_link "$1" "$at/base" "$at/base.o" "$at/libcekarum.a" || return 1
    board_link "$1" "$at/compare" "$at/compare.o" "$at/mix.o" "$at/kernel_plain.o" "$at/plain.o" "$at/kernel_proved.o" "$at/libcekarum.a"
}

# A program over a header of another interface, 0, does not link with the archive, and the linker names the interface.
other_interface() { # TARGET
    local at=$boards/$1
    sed 's/cekarum_interface_[0-9]*_/cekarum_interface_0_/g' "$at/cekarum.h" >"$at/other.h"
    board_cc "$1" "$here/base.c" "$at/other.o" -include "$at/other.h" || return 1
    if (link_board "$1" "$at/other" "$at/other.o" "$at/libcekarum.a") >"$at/link.log" 2>&1; then
        echo "$1: a header of another interface links"
        return 1
    fi
    grep -q cekarum_interface_0_start "$at/link.log" || { cat "$at/link.log"; return 1; }
}

# The bare board of examples/, built as docs/BOARDS.md says and run for its first seconds. It never ends by itself.
board_example() {
    local at=$boards/cortex-m4
    arm-none-eabi-gcc -mcpu=cortex-m4 -mthumb -Os -Wall -Wextra -specs=picolibc.specs -nostartfiles -T "$root/examples/board_m4.ld" -I "$at" \
        "$root/examples/board_m4.c" "$at/libcekarum.a" -Wl,--gc-sections -o "$at/board" 2>"$at/link.log" || { cat "$at/link.log"; return 1; }
    timeout 15 qemu-system-arm -M mps2-an386 -display none -monitor none -serial stdio -kernel "$at/board" </dev/null >"$at/board.out" 2>/dev/null || true
    cmp "$root/examples/board_m4.txt" "$at/board.out" && echo "cortex-m4: examples/board_m4.c prints what it should"
}

# Builds and runs one target; what differs from the first target's text is a failure.
board() { # TARGET CALLS
    local at=$boards/$1 first=$boards/x86_64-linux status=0
    board_build "$1" || return 1
    other_interface "$1" || return 1
    board_run "$1" "$at/driver" >"$at/driver.out" || status=$?
    board_run "$1" "$at/compare" "$2" 1 >"$at/compare.out" || status=$?
    echo "$1: $(tail -n 1 "$at/compare.out")"
    [ "$status" -eq 0 ] || { echo "$1: ended with status $status"; return 1; }
    sizes "$1"
    [ "$1" != cortex-m4 ] || board_example || return 1
    ! natively "$1" || board_run "$1" "$at/compare" $((10 * $2)) 2 | sed -n "s/^.* compared, .*/$1, natively: &/p" || return 1
    cmp "$first/driver.out" "$at/driver.out" && cmp "$first/compare.out" "$at/compare.out"
}

run_boards() { # [N] [TARGET...]
    local calls=${1:-100000} target skipped="" failed="" ran=0
    [ $# -eq 0 ] || shift
    # shellcheck disable=SC2086
    "$root/bin/archive" ${UNPROVED:+--unproved} all "$boards"
    # the first target's text is what the others are held to
    for target in $(echo x86_64-linux "${@:-$("$root/bin/archive" --list | cut -d' ' -f1)}" | tr ' ' '\n' | awk '!seen[$0]++'); do
        tools_of "$target"
        if [ -n "$missing" ]; then
            echo "$target: SKIPPED; packages that are missing:$missing"
            skipped="$skipped $target"
        elif board "$target" "$calls"; then
            ran=$((ran + 1))
        else
            failed="$failed $target"
        fi
    done
    echo "boards: $ran ran and printed the same; skipped:${skipped:- none}; failed:${failed:- none}${UNPROVED:+; NOTHING IS PROVED of these archives}"
    [ -z "$failed" ]
}
