# A main that calls each function that C calls, so that a program of these sources has them all: what it hands over is made up, and
# it never runs. Each file is a module of its own, named by its place below src/.
FNR == 1 {
    path = FILENAME
    sub(/^.*\/src\//, "", path); sub(/\.rt$/, "", path); sub(/(^|\/)(main|mod)$/, "", path)
    gsub(/\//, "::", path)
    if (path != "") path = path "::"
}
/^pub extern "C" fn / { name = $0; sub(/^pub extern "C" fn /, "", name); head = name; sub(/\(.*$/, "", name); inside = 1 }
inside && head == "" { head = $0 }
inside {
    while (head != "") {
        c = substr(head, 1, 1)
        head = substr(head, 2)
        if (c ~ /[([]/ && depth++ == 0) { count = some = 0; continue }
        if (c ~ /[])]/ && --depth == 0) { calls = calls line_of(name, count + some); inside = 0; head = ""; break }
        if (c == "," && depth == 1) { count += some; some = 0 }
        else if (depth && c !~ /[ \t]/) some = 1
    }
}
function line_of(name, count,    i, l) {
    for (i = 0; i < count; i++) l = l (i ? ", " : "") "any()"
    return "    let _ = " path name "(" l ");\n"
}
END {
    if (calls == "") exit 1
    printf "\nfn any<T>() -> T {\n    loop {}\n}\n\nfn main() {\n%s}\n", calls
}
