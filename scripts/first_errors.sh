#!/bin/sh
# Looks at what `rt ci` says of every must-fail edit, in build/rt-ci.log: a line with the prover's first error. An edit has to be refused on a fact that no longer holds.
# One that is refused for its shape (a goal or a field that is gone, a goal of another name than the unedited code has, a proof term at another place, a line that does not
# stand by itself), or by a limit, shows nothing, and fails here with its line; so does one that has no line, or more than one. The lines are cut at 160 characters, so that
# the expected type is mostly not in sight: `make edits` looks at all that the prover says. Arguments, if there are any, are logs with such lines to look at instead.
cd "$(dirname "$0")/.." || exit 1

# Each line of an edit that shows nothing, with the reason, and then how many edits there were and how many of them show nothing. The edits that are wanted stand in
# a file, one CRATE/EDIT.edit a line; without one, those of the logs.
look() {
    awk -v wanted="$1" -v goals="$3" '
        # Whether the unedited crate has the goal that a note names, or one that begins so where the note is cut off.
        function known(crate, note,    goal, it) {
            if (!match(note, /\(`[^`]*/)) return 0
            goal = crate " " substr(note, RSTART + 2, RLENGTH - 2)
            if (substr(note, RSTART + RLENGTH, 1) == "`") {
                sub(/-clause-.*$/, "", goal)
                return goal in has
            }
            for (it in has) if (index(it, goal) == 1) return 1
            return 0
        }
        function why(crate, said,    text) {
            if (!sub(/^refused, as it must be/, "", said)) return "not refused by the prover"
            if (said ~ /^ \(only because /) return "what a proof file names is gone"
            if (said ~ /^ \(only by a limit /) return "no verdict"
            if (!sub(/^: /, "", said)) return "no error"
            if (said ~ /^note: src\/[^ ]*: it is not proved that /) return known(crate, said) ? "" : "a goal that the unedited code has not"
            if (said !~ /^(\.\/)?proofs\/[^ ]*: error: /) return "the edited line does not stand by itself"
            text = said
            if (text ~ /has no field|is not in scope|has no `|was not admitted/) return "what a proof file names is gone"
            if (text ~ /`(omega|search|grind|cc)`: |`simp L t`|on the face `/) return ""
            if (text !~ /the two (types|values)|expected type `/) return "of no kind that shows a fact"
            if (text ~ /(expected type|types are|one has) `\(*([^ `]*\.)?([Ll]ts|[Gg]oals?)\.(Start|Need-|After-|At-|In-|Then|Else|Joined|Left-)/) return "a proof term at another place"
            if (text ~ /expected type `([^ `]*\.)?(ℕ|Bool|Bytes|List)[ `]/) return "a term of another type"
            return ""
        }
        BEGIN {
            while (wanted != "" && (getline edit < wanted) > 0) { edits[edit] = 1; lines[edit] = 0 }
            while ((getline goal < goals) > 0) has[goal] = 1
        }
        /^rt: must-fail [^ ]*: / {
            edit = $3
            sub(/:$/, "", edit)
            if (!(edit in edits) && wanted != "") next
            edits[edit] = 1
            lines[edit]++
            said = $0
            sub(/^rt: must-fail [^ ]*: /, "", said)
            crate = edit
            sub(/\/.*$/, "", crate)
            reason[edit] = why(crate, said)
            text[edit] = substr(said, 1, 240)
        }
        END {
            for (edit in edits) {
                all++
                if (lines[edit] != 1) reason[edit] = lines[edit] + 0 " lines in the log"
                if (reason[edit] != "") { print edit ": shows nothing: " reason[edit] ": " text[edit]; nothing++ }
            }
            print "first errors of " all + 0 " must-fail edits, " nothing + 0 " of which show nothing"
            exit !(all > 0 && nothing + 0 == 0)
        }' $2
}

if [ $# -eq 0 ]; then
    [ -f build/rt-ci.log ] || { echo "build/rt-ci.log is not there: make test leaves it"; exit 1; }
    for edit in crates/*/must-fail/*.edit; do
        crate=${edit#crates/}
        echo "${crate%%/*}/$(basename "$edit")"
    done >build/edits
    # The goals of each crate of which a note speaks, as the check names them.
    for crate in $(sed -n 's/^rt: must-fail \([^/]*\)\/[^ ]*: refused, as it must be: note: .*/\1/p' build/rt-ci.log | sort -u); do
        (cd "crates/$crate" && rt check --generated "../../build/names/$crate" --old-names) >"build/names-$crate.log" 2>&1
        grep -o '"[^"]*"' "build/names/$crate/names.json" | tr -d '"' | sort -u | sed "s/^/$crate /"
    done >build/goals
    look build/edits build/rt-ci.log build/goals
else
    look "" "$*" tests/first_errors/goals
fi
