# Says in a lowered module what its types say, and refuses a module of a shape that it does not know. docs/ASSUMPTIONS.md has each
# rule with its reason.
#   a copy of n bytes at the front of a local of n bytes     both ends are aligned as that local
#   a parameter that is the front of such an end             is aligned so
#   a local of 16 bytes and more                             is laid on 8 bytes
#   what an export is lent                                   does not overlap (noalias)
# A line that has a pointer in it is of one of the forms below, or the module is refused.

function refuse(why) { refuse_at(NR, why) }
function refuse_at(number, why) {
    printf "line %d of the module: %s\n", number, why >"/dev/stderr"
    refused = 1
    exit 1
}
function least(a, at) { while (at % a) a /= 2; return a } # the alignment of what lies at a place in something aligned on a
function root(p) { # the pointer that p counts from; sets place
    place = 0
    while (p in base) { place += offset[p]; p = base[p] }
    return p
}
function certain(p,    r) { r = root(p); return r in aligned ? least(aligned[r], place) : 0 } # 0: unknown
function whole(p, n,    r) { r = root(p); return r in aligned && !place && size[r] == n ? aligned[r] : 0 }

function width(t,    i, n, most, each) { # in bytes; of several numbers the widest's; 0: of another form
    if (t ~ /^(i8|i16|i32|i64|ptr|float|double)$/) return t == "ptr" || t == "double" ? 8 : t == "float" ? 4 : substr(t, 2) / 8
    if (t !~ /^\{ [^{}]+ \}$/) return 0
    n = split(substr(t, 3, length(t) - 4), each, /, /)
    for (i = 1; i <= n; i++) {
        if (!width(each[i])) return 0
        if (width(each[i]) > most) most = width(each[i])
    }
    return most
}

# The ends of a copy: of two locals the types agree, and no end lies where its type cannot.
function copy(to, from, n,    a, b, t) {
    a = whole(to, n); b = whole(from, n)
    if (a && b && a != b) refuse("a copy between locals of one size and of two alignments")
    t = a > b ? a : b
    return "  call void @llvm.memmove.p0.p0.i64(" end_of(to, t) ", " end_of(from, t) ", i64 " n ", i1 false)"
}
function end_of(p, t,    c, r) {
    c = certain(p)
    if (c && c < t) refuse("a copy of a type that is aligned on " t " where only " c " is certain")
    r = root(p)
    if (!place && r in parameter && t > needs[name, parameter[r]]) needs[name, parameter[r]] = t
    if (c > t) t = c
    return t > 1 ? "ptr align " t " " p : "ptr " p
}

# A line up to the parameters of the function in it, whose name stands in quotes where it has brackets of its own.
function up_to_parameters(l) {
    if (l ~ /@"/) match(l, /^[^@]*@"[^"]*"\(/); else match(l, /^[^(]*\(/)
    return substr(l, 1, RLENGTH)
}
# The parameters of a function, or what a call hands over: `ptr noundef %a0`, `i64 3`, as words in part.
function parts(l) {
    l = substr(l, length(up_to_parameters(l)) + 1); sub(/\)[^)]*$/, "", l)
    return l == "" ? 0 : split(l, part, /, /)
}
function function_name(l) { l = up_to_parameters(l); sub(/^[^@]*@"?/, "", l); sub(/"?\($/, "", l); return l }

# A value of two is written by places of eight bytes and read whole: where pointers have 32 bits, one behind another value is read
# from elsewhere, and the archive answers wrongly. So an optional reference is in no archive: an index behind a test does the same.
/\{ [^{},]+, ptr \}/ { refuse("an optional reference: " $0) }
/^define / {
    if ($0 !~ / #[01] \{$/ || $0 ~ /align|noalias/) refuse("a function of another form: " $0)
    name = function_name($0)
    split("", aligned); split("", size); split("", base); split("", offset); split("", parameter)
    count = parts($0)
    for (i = 1; i <= count; i++) {
        if (part[i] !~ /^(ptr|i[0-9]+|float|double) (noundef )?(zeroext |signext )?%a[0-9]+$/) refuse("a parameter of another form: " part[i])
        if (part[i] ~ /^ptr /) { p = part[i]; sub(/^.* /, "", p); parameter[p] = i }
    }
    inside = 1
    is_export = $0 !~ /^define internal /
    line[NR] = $0
    next
}
/^}$/ { inside = 0 }
# a small function of the library is always put in line: that says who is inlined, and nothing of a pointer
/^attributes #[01] = / && !/^attributes #[01] = \{ (alwaysinline )?nounwind / { refuse("attributes of another form: " $0) }
!inside { line[NR] = $0; next }
/ = alloca / {
    if (!/^  %r[0-9]+ = alloca (\[[0-9]+ x i8\]|i8|i16|i32|i64|ptr|float|double), align (1|2|4|8|16)$/) refuse("a local of another form: " $0)
    aligned[$1] = $NF + 0
    if ($4 ~ /^\[/) {
        size[$1] = substr($4, 2) + 0
        if (size[$1] >= 16 && $NF < 8) sub(/align [0-9]+$/, "align 8")
    }
    line[NR] = $0
    next
}
/ = getelementptr / {
    if (!/^  %r[0-9]+ = getelementptr (inbounds )?(nuw )?i8, ptr %[ar][0-9]+, i64 (%[ar])?[0-9]+$/) refuse("a place of another form: " $0)
    if ($NF !~ /%/) { p = $(NF - 2); sub(/,$/, "", p); base[$1] = p; offset[$1] = $NF + 0 }
    line[NR] = $0
    next
}
/ = load |^  store / { # each number lies where its width wants it, and two that are read at once where the wider one does
    a = $0; sub(/^.*, align /, "", a); sub(/,.*$/, "", a)
    t = $0
    if (sub(/^  store /, "", t)) sub(/ [^ ]+, ptr .*$/, "", t)
    else { sub(/^.* = load /, "", t); sub(/, ptr .*$/, "", t) }
    if (/^  store i(16|32|64) [^ ]+, ptr %[ar][0-9]+, align 1$/) line[NR] = $0 # the tag of an enum, over all bytes before its first field
    else if (a + 0 == width(t) || is_export && /^  %r[0-9]+ = load (ptr|i64), ptr %r[0-9]+, align 1$/) line[NR] = $0
    else refuse("a number that is not aligned as its width: " $0)
    next
}
/@llvm\.mem/ {
    if (/^  call void @llvm\.memset\.p0\.i64\(ptr %[ar][0-9]+, i8 [^ ]+, i64 [0-9]+, i1 false\)$/) { line[NR] = $0; next }
    if (!/^  call void @llvm\.memmove\.p0\.p0\.i64\(ptr %[ar][0-9]+, ptr %[ar][0-9]+, i64 [0-9]+, i1 false\)$/) refuse("a copy of another form: " $0)
    parts($0)
    copies++
    line[NR] = copy(substr(part[1], 5), substr(part[2], 5), substr(part[3], 5) + 0)
    next
}
/call .*@/ { # what is handed over is looked at when the needs of all functions are known
    callee = function_name($0)
    count = parts($0)
    for (i = 1; i <= count; i++) if (part[i] ~ /^ptr /) {
        if (part[i] !~ /^ptr (noundef )?%[ar][0-9]+$/) refuse("something of another form is handed over: " part[i])
        p = part[i]; sub(/^.* /, "", p)
        if ((c = certain(p))) { calls++; handed[calls] = callee SUBSEP i; known[calls] = c; where[calls] = NR }
    }
    line[NR] = $0
    next
}
is_export && /^  %r[0-9]+ = icmp eq ptr %a[0-9]+, null$/ { line[NR] = $0; next } # of a slice, which an export puts together
/(^|[^a-z])ptr([^a-z]|$)/ { refuse("a pointer in a line of another form: " $0) }
{ line[NR] = $0 }

END {
    if (refused) exit 1
    if (!copies) refuse("there is no copy up to here")
    for (i = 1; i <= calls; i++) if (known[i] < needs[handed[i]]) refuse_at(where[i], "a parameter is handed less than its alignment")
    for (i = 1; i <= NR; i++) {
        l = line[i]
        if (l ~ /^define /) {
            name = function_name(l)
            count = parts(l)
            front = up_to_parameters(l)
            lent = l ~ /^define internal / ? "ptr " : "ptr noalias "
            for (k = 1; k <= count; k++) {
                sub(/^ptr /, lent (needs[name, k] > 1 ? "align " needs[name, k] " " : ""), part[k])
                front = front (k > 1 ? ", " : "") part[k]
            }
            match(l, / #[01] \{$/)
            l = front ")" substr(l, RSTART)
        }
        print l
    }
}
