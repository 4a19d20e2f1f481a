#!/bin/sh
# Builds the proved code as static libraries and the C for comparison with gcc -O3, measures, and writes the figures of
# docs/BENCHMARKS.md, between its two marks, and docs/benchmarks.svg. Nothing in docs changes unless every step is done.
set -e
cd "$(dirname "$0")/.."
mkdir -p build
load=$(cut -d' ' -f1 /proc/loadavg)
page=docs/BENCHMARKS.md
from='<!-- figures of make bench -->'
to='<!-- end of the figures -->'
marks=$(grep -Fxn -e "$from" -e "$to" $page | cut -d: -f2)
[ "$marks" = "$(printf '%s\n%s' "$from" "$to")" ] || { echo "$page wants its two marks, once each"; exit 1; }

sh scripts/build.sh permutation_bench icepole_bench
sh scripts/lib.sh
c="gcc -std=c11 -Wall -Wextra -Werror -O3"
$c -c bench/permutation.c -o build/permutation.o
$c -DPREFIX=plain -c bench/icepole.c -o build/icepole_plain.o
$c -DPREFIX=shaped -DSHAPED -c bench/icepole.c -o build/icepole_shaped.o
main="gcc -std=c11 -D_POSIX_C_SOURCE=200809L -Wall -Wextra -Werror -O2"
lib=build/lib
permutation=crates/permutation_bench/out/libpermutation_bench.a
icepole=crates/icepole_bench/out/libicepole_bench.a
$main bench/p6.c build/permutation.o $permutation -o build/p6
$main bench/sealing.c build/icepole_plain.o build/icepole_shaped.o $lib/libicepole_c.a $icepole -o build/sealing
$main bench/in_place.c $lib/libicepole_c.a -o build/in_place
$main bench/strips.c $lib/libicepole_c.a -o build/strips
$main bench/round_log.c $lib/libcore_c.a $permutation -o build/round_log_bench
$main bench/rounds_back.c $lib/libcore_c.a -o build/rounds_back_bench
$main bench/burst.c $lib/libburst_c.a $lib/libicepole_c.a -o build/burst

# What callgrind counts: instructions, the same in every run.
count() {
    valgrind --tool=callgrind --callgrind-out-file=/dev/null "$@" 2>&1 | awk '/Collected/ {print $4}'
}
# Of one P6: the difference of 1,001 and of 1, by the thousand.
p6() {
    echo $((($(count build/p6 "$1" 1001) - $(count build/p6 "$1" 1)) / 1000))
}
# Of a 128-byte block, by a program and its call: the difference of 32 KiB and 16 KiB, by 128, less what the program does without the call.
block() {
    more=$(($(count "$1" "$2" 32768) - $(count "$1" none 32768)))
    less=$(($(count "$1" "$2" 16384) - $(count "$1" none 16384)))
    echo $(((more - less) / 128))
}
# Of the log of a P12, all right.
round_log() {
    echo $((($(count build/round_log_bench 1001) - $(count build/round_log_bench 1)) / 1000))
}
# Of twelve rounds, back or forward.
twelve() {
    echo $((($(count build/rounds_back_bench "$1" 1001) - $(count build/rounds_back_bench "$1" 1)) / 1000))
}
# A row of the page: name, proved, what it is held against, the most that was wanted.
instructions() {
    awk -v name="$1" -v proved="$2" -v against="$3" -v most="$4" 'BEGIN {
        bold = proved > most ? "**" : ""
        printf "| instructions %s | %s%d%s | %d | %.3f | at most %d instructions |\n", name, bold, proved, bold, against, proved / against, most
    }'
}
counted() {
    command -v valgrind >/dev/null || { echo "| instructions | valgrind is not installed | | | |"; return; }
    instructions "of one P6" "$(p6 proved)" "$(p6 plain)" 1820
    instructions "of a 128-byte block sealed" "$(block build/sealing seal)" "$(block build/sealing plain_seal)" 1850
    instructions "of a 128-byte block opened" "$(block build/sealing open)" "$(block build/sealing plain_open)" 3850
}
counted_in_place() {
    command -v valgrind >/dev/null || return 0
    printf '\n| | in place | into another buffer | in place / into another | wanted |\n|---|---|---|---|---|\n'
    instructions "of a 128-byte block opened" "$(block build/in_place in_place)" "$(block build/in_place open)" 3850
}
counted_log() {
    ! command -v valgrind >/dev/null || instructions "of a log of 13 states" "$(round_log)" "$((2 * $(p6 proved)))" 4100
}
counted_rounds() {
    ! command -v valgrind >/dev/null || instructions "of twelve rounds" "$(twelve back)" "$(twelve forward)" 6200
}
machine() {
    echo "Written by \`make bench\` on $(date -u +%Y-%m-%d)."
    echo
    echo "| Machine | |"
    echo "|---|---|"
    echo "| processor | $(awk -F': *' '/^model name/ {print $2; exit}' /proc/cpuinfo), $(getconf _NPROCESSORS_ONLN) cores, $(uname -m) |"
    echo "| of its instructions, for ciphers | $(awk '/^flags/ {for (i = 1; i <= NF; i++) if ($i ~ /^(aes|pclmulqdq|vaes|vpclmulqdq|avx2|avx512f)$/) printf "%s ", $i; exit}' /proc/cpuinfo)|"
    echo "| kernel | $(uname -sr) |"
    echo "| load when the run began, in processes | $load |"
    echo "| compiler | $(gcc --version | head -n 1) |"
    echo "| OpenSSL | $(openssl version 2>/dev/null || echo "not installed") |"
}

build/p6 >build/p6.md
build/sealing >build/sealing.md
build/in_place >build/in_place.md
build/strips >build/strips.md
build/round_log_bench >build/round_log.md
build/rounds_back_bench >build/rounds_back.md
build/burst largest >build/largest.md
build/burst growth >build/growth.md
awk -f bench/plot.awk build/growth.md >build/benchmarks.svg
sh bench/openssl.sh >build/openssl.md
counted >build/counted.md
counted_in_place >build/counted_in_place.md
counted_log >build/counted_log.md
counted_rounds >build/counted_rounds.md
{
    machine
    printf '\n### Against C\n\n| | proved | plain C | proved / plain C | wanted |\n|---|---|---|---|---|\n'
    cat build/p6.md build/counted.md
    echo
    cat build/sealing.md
    printf '\n### Against OpenSSL\n\n'
    cat build/openssl.md
    printf '\n### Opening in place\n\n'
    cat build/in_place.md build/counted_in_place.md
    printf '\n### Strips\n\n'
    cat build/strips.md
    printf '\n### Round logs\n\n| | judged | twelve rounds of the proved permutation (two P6) | judged / rounds | wanted |\n|---|---|---|---|---|\n'
    cat build/round_log.md build/counted_log.md
    printf '\n### Rounds back\n\n| | back | forward | back / forward | wanted |\n|---|---|---|---|---|\n'
    cat build/rounds_back.md build/counted_rounds.md
    printf '\n### The largest file\n\n'
    cat build/largest.md
    printf '\n### How cost grows\n\n![Two plots: time a byte by size of picture, and time of a burst by number of pictures](benchmarks.svg)\n\n'
    cat build/growth.md
} >build/figures.md
awk -v from="$from" -v to="$to" '
    $0 == to {inside = 0}
    !inside {print}
    $0 == from {inside = 1; print ""; while ((getline line < "build/figures.md") > 0) print line; print ""}
' $page >build/page.md
cp build/page.md $page
cp build/benchmarks.svg docs/benchmarks.svg
cat build/figures.md
