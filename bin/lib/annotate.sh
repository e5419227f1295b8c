# shellcheck shell=bash disable=SC2154
# What bin/archive says of a module beyond what the toolchain's lowering says: docs/ASSUMPTIONS.md has each rule with its reason.

# The module with its alignments and with what does not overlap; ends where its shape is not known.
annotate() { # MODULE RESULT
    local why
    why=$(awk -f "$lib/annotate.awk" "$1" 2>&1 >"$2") || fail "the module is not of a known shape: ${why:-nothing was said}"
}

# The calls of a C library that a small board's archive makes to words.c: the name that the compiler gives the call, and its own.
word_names() { # TARGET
    local width
    case $1 in
    cortex-*)
        for width in '' 4 8; do
            printf '__aeabi_memcpy%s cekarum_words_copy\n__aeabi_memset%s cekarum_words_fill\n__aeabi_memclr%s cekarum_words_clear\n' "$width" "$width" "$width"
        done
        ;;
    riscv32*) printf 'memcpy cekarum_words_copy\nmemset cekarum_words_set\n' ;;
    esac
}

# A module for a target, with those calls under their own names.
named_module() { # MODULE TARGET RESULT
    { cat "$1" && word_names "$2" | sed 's/\(.*\) \(.*\)/module asm "\1 = \2"/'; } >"$3"
}

# The object of words.c, where the target has calls to it: its name in `copying`, an empty one elsewhere. It is made by way of a
# module without flags: an object made from C says how wide an enum is, which a linker compares with the driver's.
words_object() { # TARGET FLAGS FOLDER
    copying=
    [ -n "$(word_names "$1")" ] || return 0
    copying=$3/words.o
    # shellcheck disable=SC2086
    "$tools/bin/clang" $2 -ffreestanding -fno-builtin -fno-unroll-loops -fno-strict-aliasing -Wall -Wextra -nostdinc -S -emit-llvm \
        "$lib/words.c" -o "$3/words_of_c.ll" &&
        sed '/^!llvm\.module\.flags/d' "$3/words_of_c.ll" >"$3/words.ll" &&
        "$tools/bin/clang" $2 -ffunction-sections -fno-unroll-loops -c -x ir "$3/words.ll" -o "$copying"
}
