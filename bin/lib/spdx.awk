# A bill of materials, SPDX 2.3 as JSON: from the lines of sha1sum, then those of sha256sum, over the same files.
# version, created, code (the package's verification code), kit and id come from outside. No licence is known: NOASSERTION.
function text(s) {
    gsub(/\\/, "\\\\", s)
    gsub(/"/, "\\\"", s)
    return "\"" s "\""
}

function library(id, name, version, note) {
    printf "    {\"SPDXID\": %s, \"name\": %s, \"versionInfo\": %s, \"downloadLocation\": \"NOASSERTION\",\n", text(id), text(name), text(version)
    printf "     \"filesAnalyzed\": false, \"licenseConcluded\": \"NOASSERTION\", \"licenseDeclared\": \"NOASSERTION\",\n"
    printf "     \"copyrightText\": \"NOASSERTION\", \"comment\": %s}", text(note)
}

function relation(from, kind, to) {
    printf "%s    {\"spdxElementId\": %s, \"relationshipType\": %s, \"relatedSpdxElement\": %s}", relations++ ? ",\n" : "", text(from), text(kind), text(to)
}

{
    name = $0
    sub(/^[0-9a-f]+ [ *]/, "", name)
}

FNR == NR {
    sha1[name] = $1
    next
}

{
    names[++count] = name
    sha256[name] = $1
}

END {
    printf "{\n  \"spdxVersion\": \"SPDX-2.3\",\n  \"dataLicense\": \"CC0-1.0\",\n  \"SPDXID\": \"SPDXRef-DOCUMENT\",\n"
    printf "  \"name\": %s,\n", text("cekarum-" version)
    printf "  \"documentNamespace\": %s,\n", text("https://spdx.org/spdxdocs/cekarum-" version "-" id)
    printf "  \"creationInfo\": {\"created\": %s, \"creators\": [%s]},\n", text(created), text("Tool: cekarum-release-" version)
    printf "  \"packages\": [\n"
    printf "    {\"SPDXID\": \"SPDXRef-Cekarum\", \"name\": \"cekarum\", \"versionInfo\": %s, \"downloadLocation\": \"NOASSERTION\",\n", text(version)
    printf "     \"filesAnalyzed\": true, \"packageVerificationCode\": {\"packageVerificationCodeValue\": %s,\n", text(code)
    printf "     \"packageVerificationCodeExcludedFiles\": [\"./cekarum.spdx.json\", \"./SHA256SUMS\"]},\n"
    printf "     \"licenseConcluded\": \"NOASSERTION\", \"licenseDeclared\": \"NOASSERTION\", \"licenseInfoFromFiles\": [\"NOASSERTION\"],\n"
    printf "     \"copyrightText\": \"NOASSERTION\", \"primaryPackagePurpose\": \"LIBRARY\"},\n"
    library("SPDXRef-Std", "std", kit, "The toolchain's standard library: those of its functions that the kernel calls are in the archives.")
    printf ",\n"
    library("SPDXRef-Toolchain", "rattle-kit", kit, "The prover, and the compiler that made the archives.")
    printf "\n  ],\n  \"files\": [\n"
    for (i = 1; i <= count; i++) {
        printf "    {\"SPDXID\": \"SPDXRef-File-%d\", \"fileName\": %s,\n", i, text(names[i])
        printf "     \"checksums\": [{\"algorithm\": \"SHA1\", \"checksumValue\": %s},\n", text(sha1[names[i]])
        printf "                   {\"algorithm\": \"SHA256\", \"checksumValue\": %s}],\n", text(sha256[names[i]])
        printf "     \"licenseConcluded\": \"NOASSERTION\", \"licenseInfoInFiles\": [\"NOASSERTION\"], \"copyrightText\": \"NOASSERTION\"}%s\n", i < count ? "," : ""
    }
    printf "  ],\n  \"relationships\": [\n"
    relation("SPDXRef-DOCUMENT", "DESCRIBES", "SPDXRef-Cekarum")
    relation("SPDXRef-Cekarum", "STATIC_LINK", "SPDXRef-Std")
    relation("SPDXRef-Toolchain", "BUILD_TOOL_OF", "SPDXRef-Cekarum")
    for (i = 1; i <= count; i++) relation("SPDXRef-Cekarum", "CONTAINS", "SPDXRef-File-" i)
    printf "\n  ]\n}\n"
}
