#!/bin/sh
# Says which names of a `use` line stand nowhere else in their file, and fails where there is one: `FILE:LINE: NAME`.
# Without arguments it looks at every .rt and .antt file of the crates, and not at what rt makes of them. It reads text, not meaning: an unused name that is also that of
# something else in the file is not seen.
cd "$(dirname "$0")/.." || exit 1
[ $# -gt 0 ] || set -- $(find crates -name out -prune -o \( -name '*.rt' -o -name '*.antt' \) -print | sort)
awk '
# The names that an import brings, each with the line that it stands on.
function imported(list, line,    parts, n, i, name) {
    n = split(list, parts, /, */)
    for (i = 1; i <= n; i++) {
        name = parts[i]
        gsub(/^[ \t]+|[ \t]+$/, "", name)
        if (name == "") continue
        sub(/^.* as /, "", name)
        gsub(/«|»/, "", name)
        names[++count] = name
        where[count] = line
    }
}

# What is looked for: of an operator its first word, of anything else its name.
function word(name,    parts, n, i) {
    if (name !~ /◌/) return name
    n = split(name, parts, "◌")
    for (i = 1; i <= n; i++) if (parts[i] != "") return parts[i]
    return name
}

# The words of a line without its imports and comments.
function seen(text,    parts, n, i, token) {
    gsub(/«|»/, "", text)
    gsub(/[(){},;]/, " ", text)
    n = split(text, parts, /[ \t]+/)
    for (i = 1; i <= n; i++) {
        token = parts[i]
        if (token ~ /^\./) continue
        sub(/\..*$/, "", token)
        found[token] = 1
    }
    if (rattle) {
        gsub(/\.[A-Za-z_]+/, " ", text)
        n = split(text, parts, /[^A-Za-z0-9_]+/)
        for (i = 1; i <= n; i++) found[parts[i]] = 1
    }
}

function finish(    i) {
    for (i = 1; i <= count; i++) if (!(word(names[i]) in found)) {
        print file ":" where[i] ": " names[i]
        status = 1
    }
    count = 0
    split("", found)
}

FNR == 1 { finish(); within = ""; file = FILENAME; rattle = file ~ /\.rt(\.txt)?$/ }
within != "" { within = within " " $0; if ($0 !~ /\}/) next }
within != "" || /^[ \t]*(ghost )?(pub )?use / {
    if (within != "") { line = within; within = "" }
    else { line = $0; first = FNR; if (line ~ /\{/ && line !~ /\}/) { within = line; next } }
    sub(/;[ \t]*$/, "", line)
    if (line ~ /\{/) { sub(/^[^{]*\{/, "", line); sub(/\}.*$/, "", line); imported(line, first) }
    else if (line ~ / as /) imported(line, first)
    else if (rattle) { sub(/^.*::/, "", line); imported(line, first) }
    next
}
{ text = $0; if (rattle) sub(/\/\/.*$/, "", text); else sub(/(^|[ \t])--.*$/, "", text); seen(text) }
END { finish(); exit status }
' "$@"
