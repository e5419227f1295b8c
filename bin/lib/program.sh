# shellcheck shell=bash disable=SC2154
# Proves, builds and runs a program of crates/, and makes the status that programs do not have: bin/bench, bin/console,
# bin/rescue and bin/try. What a program prints is passed on to the byte.
. "$(dirname -- "${BASH_SOURCE[0]}")/common.sh"
. "$lib/build.sh"
export LC_ALL=C # awk and tee go by bytes, and their messages are known

# ---- the input
# Opens the input as descriptor 3. `copy` is then a file that has it too, for one who asks where it is bad: the file itself, or
# what came through a pipe, kept as it passes. A terminal is not kept.
open_input() { # NAME
    copy=''
    if [ "$1" != - ]; then
        exec 3<"$1"
        if [ -f "$1" ]; then copy=$1; else keep_copy; fi
    else
        exec 3<&0
        [ -t 3 ] || keep_copy
    fi
}

# The copy is written before the program is handed a piece, so that it has all that the program has read.
keep_copy() {
    copy=$room/input
    mkfifo "$room/feed"
    tee "$room/feed" <&3 >"$copy" 2>/dev/null &
    exec 3<"$room/feed"
}

# ---- the run
# Starts the program; its answers go to the standard output, and are looked at on the way by the awk program LOOK, whose last
# line, in `seen`, says what it found. `sink` and `ending` are the statuses of the passing on and of the program.
run_program() { # PROGRAM LOOK
    local pid looker
    exec 7>&1
    mkfifo "$room/answers"
    { set +e; tee /dev/fd/6 <"$room/answers" >&7 2>"$room/fault"; echo $? >"$room/sink"; } 6>&1 | awk "$2" >"$room/seen" &
    looker=$!
    "${loader[@]}" "$1" <&3 >"$room/answers" 2>"$room/said" 3>&- 7>&- &
    pid=$!
    ending=0
    wait "$pid" 2>/dev/null || ending=$?
    wait "$looker" || true
    sink=$(cat "$room/sink") seen=$(cat "$room/seen")
    sed '/^Error: /d' "$room/said" >&2
}

# Ends where the answers were not passed on or the program broke down. One who closes the pipe has what he wants. A program whose
# reading or writing fails ends with status 1 and says so in a line 'Error: ..', which is told here alone.
judge_run() {
    local why stream
    why=$(sed -n 's/.*: //p' "$room/fault")
    if [ "$sink" -eq 141 ] || [ "$why" = 'Broken pipe' ]; then exit 141; fi
    [ "$sink" -eq 0 ] || fail "cannot write to the standard output: ${why:-tee ended with status $sink}"
    stream=$(sed -n 's/^Error: //p' "$room/said" | tail -n 1)
    [ -z "$stream" ] || fail "the program cannot read its input or write its answers: $stream; nothing behind its last answer was done"
    [ "$ending" -eq 0 ] || fail "the program broke down with status $ending; nothing behind its last answer was done"
}

title() { if [ "$1" = - ]; then echo "the standard input"; else echo "$1"; fi; } # NAME

# Runs a program over a file with the judge of its answers: `look_NAME` has the awk program, `judge_NAME` ends with 1 where the
# work was not done.
run() { # PROGRAM NAME INPUT
    local look=look_$2 judge=judge_$2 nothing='END { }'
    new_temporary_room
    open_input "$3"
    run_program "$1" "${!look:-$nothing}"
    judge_run
    if [ "$(type -t "$judge")" = function ]; then "$judge" "$3"; fi
}

# The whole of a tool over one program.
program_main() { # NAME WORDS...
    local name=$1 input program
    shift
    options --unproved "$@"
    at_most 1
    input=${words[0]:--}
    streams "$input"
    find_kit
    loader_of_kit
    if asked --unproved; then unproved_main "$name" "$input"; return; fi
    proved "$name"
    run "$program" "$name" "$input"
}

# The same for the sources as they stand.
unproved_main() { # NAME INPUT
    local program
    say "NOT PROVED: the sources as they stand are compiled and run, and no proof is looked at"
    unproved "$1"
    trap 'cleanup; say "NOT PROVED: what was printed rests on no proof"' EXIT
    run "$program" "$1" "$2"
}

# ---- bench
# Numbers stand alone on a line, rows of a plan have spaces: so many records were run, and the next was bad.
# shellcheck disable=SC2034
look_bench='/^bad record$/ { bad = 1; next } !/ / { n++ } END { print n + 0, bad + 0 }'

judge_bench() { # INPUT
    local records bad place='' why=''
    read -r records bad <<<"$seen"
    [ "$bad" -ne 0 ] || return 0
    [ ! -r "$copy" ] || read -r place why <<<"$(od -An -v -tu1 <"$copy" | awk -v before="$records" -f "$lib/bad_record.awk")"
    fail "$(title "$1"): record $((records + 1)) is bad${place:+, at byte $place}: ${why:-no record stands there}"
}

# ---- console
# shellcheck disable=SC2034
look_console='{ n++ } /^bad line$/ { if (!bad++) first = n } END { print n + 0, bad + 0, first + 0 }'

judge_console() { # INPUT
    local answers bad first place=''
    read -r answers bad first <<<"$seen"
    [ "$bad" -ne 0 ] || return 0
    [ ! -r "$copy" ] || place=$(awk -v wanted="$first" -f "$lib/bad_line.awk" <"$copy")
    fail "$(title "$1"): $bad of $answers lines are bad${place:+; the first is $place} (docs/CONSOLE.md has the lines)"
}

# ---- rescue
judge_rescue() { # INPUT
    local number
    number=$(sed -n 's/^refused //p' "$room/said")
    case $number in
    '') ;;
    1) fail "$(title "$1") is refused: it has more than 16,384 bytes; cut it (split -b 16384) and rescue each piece, which loses the record that a cut parts" ;;
    *) fail "$(title "$1") is refused with $number" ;;
    esac
}
