# shellcheck shell=bash
# What the tools of bin/ share: where they stand, the version, options, messages, the toolchain. Each of them names itself
# (tool), has its page of help (page) and reads this file.
#   status 0  the work was done
#   status 1  the input is bad, the output cannot be written, or something is not proved
#   status 2  nothing was begun: a bad word, a file that cannot be read, a tool that is missing, a folder that cannot be written
set -euo pipefail
shopt -s inherit_errexit

lib=$(cd "$(dirname -- "${BASH_SOURCE[0]}")" && pwd -P)
top=$(dirname "$(dirname "$lib")")

say() { printf '%s: %s\n' "$tool" "$*" >&2; }
fail() { say "$*"; exit 1; }
die() { say "$*"; exit 2; }

# ---- the version
# The commit of this checkout; none where the sources stand in no repository of their own, or git cannot be asked.
commit() {
    [ -e "$top/.git" ] && command -v git >/dev/null && git -C "$top" rev-parse --short=12 HEAD 2>/dev/null
}

version() {
    local of
    of=$(commit) || of='no git'
    echo "cekarum $(cat "$top/VERSION") ($of)"
}

# ---- options
# Leaves the words that are no options in `words`, and in `chosen` those options that the tool takes besides the common ones. A
# word with a dash that is no option may be the name of a file.
options() { # OPTIONS-OF-THE-TOOL WORDS...
    local own=" $1 "
    shift
    words=() chosen=' '
    while [ $# -gt 0 ]; do
        case $1 in
        -h | --help) page; exit ;;
        --version) version; exit ;;
        --) shift; words+=("$@"); return ;;
        -) words+=(-) ;;
        -*)
            if [[ $own == *" $1 "* ]]; then chosen+="$1 "
            elif [ -e "$1" ]; then words+=("./$1")
            else die "no such option: $1 (bin/$tool --help lists them)"; fi
            ;;
        *) words+=("$1") ;;
        esac
        shift
    done
}

asked() { [[ $chosen == *" $1 "* ]]; } # OPTION

at_most() { # COUNT
    [ ${#words[@]} -le "$1" ] || die "a word too many: ${words[$1]} (bin/$tool --help)"
}

# ---- files
# Ends where a name is no file that can be read.
readable() { # NAME
    [ -e "$1" ] || die "$1: there is no such file"
    [ ! -d "$1" ] || die "$1 is a folder: name a file in it"
    [ -r "$1" ] || die "$1 cannot be read: look at its permissions (ls -l)"
}

# Ends where the standard streams are of no use.
streams() { # INPUT
    (exec 5>&1) 2>/dev/null || die "the standard output is closed"
    [ "$1" = - ] || { readable "$1"; return 0; }
    (exec 5<&0) 2>/dev/null || die "the standard input is closed: name a file"
    [ ! -d /dev/fd/0 ] || die "the standard input is a folder: name a file in it"
}

# Makes a folder that can be written, or says that it cannot.
folder() { # DIR WHAT-TO-DO
    local why
    why=$(mkdir -p -- "$1" 2>&1) && [ -w "$1" ] && return
    die "cannot write in $1${why:+ (${why##*: })}: $2"
}

# The same below the checkout.
own_folder() { folder "$1" "make it writable, or copy the sources to a folder of your own"; } # DIR

# ---- the toolchain
need() { # COMMAND WHAT-TO-DO
    command -v "$1" >/dev/null || die "$1 is missing: $2"
}

# The toolchain is the folder that `rt` stands in: kit. Its compiler, linker and C library are in tools.
find_kit() {
    local named
    need rt "put the Rattle toolchain's command on the PATH"
    kit=$(dirname "$(dirname "$(readlink -f "$(command -v rt)")")")
    tools=$kit/toolchain
    [ -x "$tools/bin/clang" ] || die "the toolchain at $kit has no compiler"
    named=$(sed -n 's/^Checked with `\([^`]*\)`.*/\1/p' "$top/CONTRIBUTING.md")
    [ "$named" = "$(cat "$kit/KIT-ID")" ] ||
        say "warning: the toolchain is '$(cat "$kit/KIT-ID")', and this project is checked with '$named' (CONTRIBUTING.md)"
}

# The crates that a crate rests on and the crate itself, what rests on nothing first: a line each, NAME:USED,USED.
crates_of() { # NAME
    awk -v name="$1" '
        function visit(n,    words, k, count, most) {
            if (n in level) return
            count = split(rests[n], words, " ")
            most = 0
            for (k = 1; k <= count; k++) if (words[k] in rests) {
                visit(words[k])
                if (level[words[k]] + 1 > most) most = level[words[k]] + 1
            }
            level[n] = most
            gsub(/^[ \t]+|[ \t]+$/, "", rests[n])
            gsub(/[ \t]+/, ",", rests[n])
            print most, n ":" rests[n]
        }
        { sub(/#.*/, ""); if ((i = index($0, ":"))) { split(substr($0, 1, i - 1), words, " "); rests[words[1]] = substr($0, i + 1) } }
        END { if (name in rests) visit(name) }' "$top/crates.txt" | sort -s -n -k1,1 | cut -d" " -f2
}

names_of() { crates_of "$1" | cut -d: -f1; } # NAME

# ---- work that takes a while
# What is stopped and removed when the tool ends, however it ends. Long work runs in a process group of its own and is waited
# for, so that a signal ends it at once and leaves nothing behind.
rooms=()

# Ends a job of this shell: its whole group where it has one, asked first, and made to where that does not help within two seconds.
end_job() { # PID
    local tries=40
    kill -TERM -- "-$1" || { kill -TERM "$1" || true; return 0; }
    while [ "$tries" -gt 0 ] && kill -0 -- "-$1"; do
        sleep 0.05
        tries=$((tries - 1))
    done
    kill -KILL -- "-$1" || true
}

# Only jobs that still run are ended: the number of one that is gone may be another's by now.
cleanup() {
    local one
    trap - EXIT
    trap '' HUP INT TERM
    for one in $(jobs -rp); do end_job "$one"; done 2>/dev/null
    for one in "${rooms[@]}"; do rm -rf "$one"; done
}
trap cleanup EXIT
trap 'exit 129' HUP
trap 'exit 130' INT
trap 'exit 143' TERM

# A folder for the work of this run alone, in `room`.
new_room() { # BELOW
    room=$(mktemp -d "$1/cekarum.XXXXXX" 2>&1) || die "cannot make a folder in $1: ${room##*: }"
    rooms+=("$room")
}

new_temporary_room() {
    room=$(mktemp -d "${TMPDIR:-/tmp}/cekarum.XXXXXX" 2>&1) || die "cannot make a temporary folder: ${room##*: }; set TMPDIR to a folder that can be written"
    rooms+=("$room")
}

# Starts a command in a group of its own, whose number is then `group`.
begin() { # COMMAND...
    set -m
    "$@" </dev/null &
    group=$!
    set +m
}

# Runs a command in a group of its own and gives its status; a signal ends the waiting at once.
await() { # COMMAND...
    begin "$@"
    wait "$group"
}

logged() { # LOG COMMAND...
    local log=$1
    shift
    "$@" >"$log" 2>&1
}
