# The line of a console's input that has the answer number `wanted`: empty lines have none. Prints its number, and its words as
# far as they can be shown.
length($0) > 0 && ++answers == wanted {
    line = $0
    note = ""
    if (length(line) > 16384) note = ", which is longer than 16,384 characters"
    else if (line ~ /\r$/) note = ", whose line end is CR LF: sed 's/\\r$//' removes it"
    gsub(/[^ -~]/, "?", line)
    if (length(line) > 60) line = substr(line, 1, 60) ".."
    print "line " NR ", '" line "'" note
    exit
}
