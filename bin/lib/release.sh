# shellcheck shell=bash disable=SC2154
# What bin/release puts into a release, and how it is packed.

# ---- what must hold first
# A release with its proof is that of a commit.
committed() {
    [ -e "$top/.git" ] || return 0
    need git "apt-get install git"
    [ -z "$(git -C "$top" status --porcelain)" ] || die "there are changes that are not committed: a release with its proof is that of a commit"
}

# The bindings say the version too.
versions() {
    local is file found
    is=$(cat "$top/VERSION")
    [[ $is =~ ^[0-9]+\.[0-9]+\.[0-9]+$ ]] || fail "VERSION is '$is', and not three numbers"
    for file in bindings/rust/Cargo.toml bindings/python/cekarum.py; do
        found=$(sed -n 's/^\(version\|VERSION\) = "\(.*\)"$/\2/p' "$top/$file")
        [ "$found" = "$is" ] || fail "VERSION is $is, and $file says '$found'"
    done
}

# The time that all files bear, so that one commit gives one tarball: seconds since 1970.
epoch() {
    if [ -n "${SOURCE_DATE_EPOCH:-}" ]; then
        echo "$SOURCE_DATE_EPOCH"
    elif commit >/dev/null; then
        git -C "$top" log -1 --format=%ct
    else
        stat -c %Y "$top/VERSION"
    fi
}

# ---- PROOF.txt
# A gate's log as lines of NAME FUNCTIONS AXIOMS SUM, for each crate that it proved from nothing; of one that it kept from an
# earlier run it has no figures.
proved_crates() { # LOG
    awk '
        /^logic=proved / {
            functions = axioms = 0
            sum = ""
            for (i = 1; i <= NF; i++) {
                if ($i ~ /^functions=/) functions = substr($i, 11)
                if ($i ~ /^axioms=/) axioms = substr($i, 8)
                if ($i ~ /^sum=/) sum = substr($i, 5)
            }
        }
        /^rt: [a-z0-9_]+ proved$/ && sum != "" && !($2 in seen) {
            seen[$2] = 1
            print $2, functions, axioms, sum
            sum = ""
        }' "$1"
}

axiom_names() { # LOG
    sed -n 's/^axioms [a-z]*: \(.*\) ([0-9]* of .*/\1/p' "$1" | tr ',' '\n' | sed 's/^ *//' | LC_ALL=C sort -u | paste -s -d , | sed 's/,/, /g'
}

# Ends where a log is not that of a whole gate over these crates and this toolchain.
whole_gate() { # LOG CRATES
    local last logic missing with
    last=$(tail -n 1 "$1")
    [[ $last =~ ^[0-9]+\ passed,\ 0\ failed$ ]] || fail "$1 does not end with '.. passed, 0 failed', but with '${last:0:80}': it is no whole gate's"
    missing=$(comm -23 <(all_crates) <(cut -d' ' -f1 "$2" | LC_ALL=C sort) | paste -s -d ' ')
    [ -z "$missing" ] || fail "$1 does not say that these are proved from nothing: $missing (rt ci --anew proves them all in one run)"
    logic=$(sed 's/.* //' "$kit/KIT-ID")
    [ "$(cut -d' ' -f4 "$2" | sort -u)" = "$logic" ] || fail "$1 is of another logic than $logic, the toolchain's"
    with=$(awk '$3 > 0 { print $1 }' "$2" | grep -xF "$(names_of capi_c)" | paste -s -d ' ') || true
    [ -z "$with" ] || fail "$1 has axioms of crates that are linked into the archives: $with"
}

all_crates() { sed -n 's/^\([a-z0-9_]*\)[^:#]*:.*/\1/p' "$top/crates.txt" | LC_ALL=C sort; }

proof() {
    local of
    of=$(commit) || of='no git'
    if ! asked --unproved; then
        proved_crates "$log" | LC_ALL=C sort >"$room/crates"
        whole_gate "$log" "$room/crates"
    fi
    printf 'Cekarum %s (%s), %s\n\n' "$(cat "$top/VERSION")" "$of" "$(sed 's/ logic / with logic /' "$kit/KIT-ID")"
    if asked --unproved; then
        printf 'NOT PROVED\nThe archives are the sources as they stand, compiled with no proof looked at. They are for trying alone.\n'
    else
        figures
    fi
}

figures() {
    local axioms
    axioms=$(axiom_names "$log")
    printf 'PROVED, from nothing, every function of every crate below, by the gate (.ci/run).\n\n'
    awk -v gate="$(tail -n 1 "$log")" -v axioms="$axioms" -v logic="$(sed 's/.* //' "$kit/KIT-ID")" '
        { functions += $2; if ($3 > 0) { with = with (with == "" ? "" : ", ") $1 } }
        END {
            printf "crates     %d\nfunctions  %d\nlogic      %s, the same sum at every crate\n", NR, functions, logic
            printf "axioms     %s\n", with == "" ? "none" : axioms ", of " with
            printf "gate       %s\n", gate
        }' "$room/crates"
    printf '\nAn axiom is a contract of the C library that is assumed. Crates marked * are linked into the archives.\n'
    printf 'docs/ASSUMPTIONS.md says what a proof covers, and what it does not.\n\n'
    awk -v linked="$(names_of capi_c)" '
        BEGIN { split(linked, names, "\n"); for (i in names) into[names[i]] = 1; printf "  %-24s %9s %7s\n", "crate", "functions", "axioms" }
        { printf "%s %-24s %9d %7d\n", $1 in into ? "*" : " ", $1, $2, $3 }' "$room/crates"
}

# ---- the files
# Every target's, each of which says itself whether it is proved.
archives() {
    local unproved=() other
    ! asked --unproved || unproved=(--unproved)
    await "$top/bin/archive" "${unproved[@]}" all "$room/archives" >"$room/said" || fail "the archives are not made"
    sed "s|^$room/archives/||" "$room/said"
    other=$(grep -v ', proved$\| needs: ' "$room/said" || true)
    asked --unproved || [ -z "$other" ] || fail "an archive is not proved: ${other%%$'\n'*}"
}

fill() {
    stage=$room/$name
    archives
    mkdir -p "$stage"/{include,docs,examples,bindings,vectors,lib/cmake/cekarum}
    libraries
    cp "$top/VERSION" "$stage/"
    cp "$room/proof" "$stage/PROOF.txt"
    cp -R "$top/release/zephyr" "$stage/zephyr"
    pages
    cp "$top"/examples/{driver.c,meter.c,board_m4.c,board_m4.ld,board_m4.txt,CMakeLists.txt,Makefile} "$stage/examples/"
    bindings
    cp "$top/crates/console/stdin" "$stage/vectors/console.lines"
    cp "$top/crates/console/stdout" "$stage/vectors/console.answers"
    materials >"$room/materials"
    cp "$room/materials" "$stage/cekarum.spdx.json"
    (cd "$stage" && listed | xargs -0 sha256sum) >"$room/sums"
    cp "$room/sums" "$stage/SHA256SUMS"
}

# Every file of the release, by name.
listed() { find . -type f -print0 | LC_ALL=C sort -z; }

filled_in() { # FILE [TARGET]
    sed -e "s/@VERSION@/$(cat "$top/VERSION")/" -e "s/@TARGET@/${2:-}/" "$1"
}

# Headers of all targets are one; a target's archive, its shared library and its page for pkg-config stand in a folder of its name.
libraries() {
    local from target
    for from in "$room/archives"/*/; do
        target=$(basename "$from")
        mkdir -p "$stage/lib/$target/pkgconfig"
        cp "$from"/libcekarum.* "$stage/lib/$target/"
        filled_in "$top/release/cekarum.pc.in" "$target" >"$stage/lib/$target/pkgconfig/cekarum.pc"
    done
    cp "$top/include/cekarum.h" "$stage/include/"
    cp "$top/release/cmake/cekarumConfig.cmake" "$stage/lib/cmake/cekarum/"
    filled_in "$top/release/cmake/cekarumConfigVersion.cmake.in" >"$stage/lib/cmake/cekarum/cekarumConfigVersion.cmake"
}

pages() {
    cp "$top"/docs/*.md "$stage/docs/"
    mv "$stage/docs/RELEASE.md" "$stage/README.md"
    [ ! -f "$top/CHANGELOG.md" ] || cp "$top/CHANGELOG.md" "$stage/"
}

# What git would take: nothing that was built there.
bindings() {
    (cd "$top/bindings" && find . \( -name target -o -name __pycache__ -o -name Cargo.lock \) -prune -o -type f -print0 | tar -c --null -T -) |
        tar -x -C "$stage/bindings"
}

# ---- the bill of materials, SPDX 2.3
# The sums of the files as the standard wants them; the file itself and SHA256SUMS are not among them.
materials() {
    local code
    (cd "$stage" && listed | xargs -0 sha1sum) >"$room/sha1"
    (cd "$stage" && listed | xargs -0 sha256sum) >"$room/sha256"
    code=$(cut -d' ' -f1 "$room/sha1" | LC_ALL=C sort | tr -d '\n' | sha1sum | cut -d' ' -f1)
    awk -v version="$(cat "$top/VERSION")" -v created="$(date -u -d "@$(epoch)" +%Y-%m-%dT%H:%M:%SZ)" -v code="$code" \
        -v kit="$(cat "$kit/KIT-ID")" -v id="$(sha256sum <"$room/sha256" | sed 's/^\(.\{8\}\)\(.\{4\}\)\(.\{4\}\)\(.\{4\}\)\(.\{12\}\).*/\1-\2-\3-\4-\5/')" \
        -f "$lib/spdx.awk" "$room/sha1" "$room/sha256"
}

# ---- the tarball
pack() {
    local file=$name.tar.gz new why
    new=$place/.$file.$$
    why=$({ tar -c -C "$room" --sort=name --format=ustar --owner=0 --group=0 --numeric-owner --mode=u=rwX,go=rX --mtime="@$(epoch)" "$name" |
        gzip -n -9 >"$new" && mv "$new" "$place/$file"; } 2>&1) || { rm -f "$new"; fail "cannot write $place/$file: ${why##*: }"; }
    echo "$place/$file: $(sha256sum <"$place/$file" | cut -d' ' -f1)"
}
