# Where the record behind so many good ones (`before`) begins, and what is wrong with it. Reads the bytes of a bench script as
# decimal numbers; prints the offset and a few words.
BEGIN {
    HEAD = 10
    KINDS = 10
    FRAME = 5
    SHORTEST = 4
    LONGEST = 2052
    body[1] = 1 # a join's rank
    body[7] = 2 # an override's reason and direction
    rest = records = place = at = 0
}

# The bytes of the bad record, as far as they are looked at, and how many there are.
function met(byte) {
    if (rest < HEAD) head[rest] = byte
    if (rest < HEAD && byte != 9 && byte != 10 && byte != 13 && (byte < 32 || byte > 126)) binary = 1
    rest++
}

# A byte of the good records: their lengths alone count.
function pass(byte) {
    at++
    place++
    if (place == HEAD - 1) bytes = byte * 256
    if (place == HEAD) bytes += byte
    if (place >= HEAD && place == HEAD + bytes) {
        records++
        place = 0
    }
}

function fits(kind, bytes) {
    if (kind == FRAME) return bytes >= SHORTEST && bytes <= LONGEST
    return bytes == body[kind] + 0
}

function why(    kind, bytes) {
    kind = head[2]
    bytes = head[8] * 256 + head[9]
    if (rest > 0 && head[0] != 77 || rest > 1 && head[1] != 72) {
        if (!binary) return "this looks like text: bin/script FILE | bin/bench runs it"
        return "it does not begin with the mark 4D 48; bin/rescue keeps the sound records"
    }
    if (rest > 2 && (kind < 1 || kind > KINDS)) return "there is no kind " kind "; bin/rescue keeps the sound records"
    if (rest < HEAD) return "the file is cut: " rest " of its " HEAD " bytes before the body are there; bin/rescue keeps the sound records"
    if (!fits(kind, bytes)) return "kind " kind " has no body of " bytes " bytes; bin/rescue keeps the sound records"
    if (rest < HEAD + bytes) return "the file is cut: " rest - HEAD " of the body's " bytes " bytes are there; bin/rescue keeps the sound records"
    return "no record stands there"
}

{
    for (i = 1; i <= NF; i++) if (records < before) pass($i); else met($i)
    if (rest > 65535 + HEAD) exit
}

END { print at, why() }
