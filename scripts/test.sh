#!/bin/sh
# Runs every test and ends with the line 'N passed, M failed'; exit status 0 only when nothing failed.
cd "$(dirname "$0")/.." || exit 1
passed=0
failed=0

# A step that is not a counting runner: one test, passed or failed.
step() {
    title=$1
    shift
    if "$@"; then
        passed=$((passed + 1))
    else
        echo "FAILED: $title"
        failed=$((failed + 1))
    fi
}

# Every folder under crates/ is listed in crates.txt.
crates_listed() {
    status=0
    for dir in crates/*/; do
        name=$(basename "$dir")
        grep -Eq "^$name( staticlib)?:" crates.txt || { echo "crates/$name is not listed in crates.txt"; status=1; }
    done
    return $status
}

# The last line 'N passed, M failed' of rt ci. A run without one, or whose exit status and line disagree, is a failure.
prove() {
    rt ci >build/rt-ci.log 2>&1
    status=$?
    grep -E '^rt: |NOT PROVED|error' build/rt-ci.log | cut -c1-200
    line=$(tail -n 1 build/rt-ci.log)
    n=$(echo "$line" | sed -n 's/^\([0-9][0-9]*\) passed, \([0-9][0-9]*\) failed$/\1/p')
    m=$(echo "$line" | sed -n 's/^\([0-9][0-9]*\) passed, \([0-9][0-9]*\) failed$/\2/p')
    passed=$((passed + ${n:-0}))
    failed=$((failed + ${m:-0}))
    if [ -z "$n" ] || { [ "$status" -ne 0 ] && [ "$m" -eq 0 ]; } || { [ "$status" -eq 0 ] && [ "$m" -ne 0 ]; } || [ "$((n + m))" -eq 0 ]; then
        echo "FAILED: rt ci (exit status $status): $line"
        failed=$((failed + 1))
    fi
}

# The line 'rt: ok' of rt ci, which passes edits that cannot be tried: it counts none of them as bad, and as many refused as there are.
none_bad() {
    ok=$(grep '^rt: ok' build/rt-ci.log) || { echo "rt ci has no line 'rt: ok'"; return 1; }
    edits=$(ls crates/*/must-fail/*.edit | wc -l)
    refused=$(echo "$ok" | sed -n 's/.*must-fail edits: \([0-9][0-9]*\) refused.*/\1/p')
    ! echo "$ok" | grep -Eq ', [0-9]+ bad' || { echo "$ok" | cut -c1-200; return 1; }
    [ "${refused:-0}" -eq "$edits" ] || { echo "$edits must-fail edits, of which ${refused:-0} are refused"; return 1; }
}

# The look at the first error of every must-fail edit, by short logs of both kinds.
first_errors_tried() {
    sh scripts/first_errors.sh tests/first_errors/fact/*.log || return 1
    for log in tests/first_errors/nothing/*.log; do
        ! sh scripts/first_errors.sh "$log" >/dev/null || { echo "$log passes"; return 1; }
    done
}

# The look for unused imports, by short files of both kinds.
unused_imports_tried() {
    sh scripts/unused_imports.sh tests/unused_imports/used.* || return 1
    for file in tests/unused_imports/unused_*; do
        ! sh scripts/unused_imports.sh "$file" >/dev/null || { echo "$file passes"; return 1; }
    done
}

# The sums over cargo's lines 'test result: ok. N passed; M failed; ..', of the workspace in a folder.
rust_tests() {
    log=build/cargo-$(basename "$1").log
    (cd "$1" && cargo test --offline --no-fail-fast) >"$log" 2>&1
    status=$?
    grep -E '^test |^test result|panicked|error' "$log" | grep -v ' \.\.\. ok$' | cut -c1-200
    n=$(sed -n 's/^test result: [A-Za-z]*\. \([0-9]*\) passed; \([0-9]*\) failed;.*/\1/p' "$log" | awk '{s += $1} END {print s + 0}')
    m=$(sed -n 's/^test result: [A-Za-z]*\. \([0-9]*\) passed; \([0-9]*\) failed;.*/\2/p' "$log" | awk '{s += $1} END {print s + 0}')
    passed=$((passed + n))
    failed=$((failed + m))
    if { [ "$status" -ne 0 ] && [ "$m" -eq 0 ]; } || [ "$n" -eq 0 ]; then
        echo "FAILED: cargo test in $1 (exit status $status)"
        tail -n 20 "$log"
        failed=$((failed + 1))
    fi
}

# Runs a program and says its last line, or all lines where it fails. They stay in build/run.log.
run() {
    "$@" >build/run.log 2>&1 || { cat build/run.log; return 1; }
    tail -n 1 build/run.log
}

c="gcc -std=c11 -Wall -Wextra -Werror -pedantic -g"

library_paths() {
    printf 'build/lib/%s ' "$@"
}

# A C program, its libraries in one word and its arguments: compiled with the headers as a firmware author would, and run under valgrind. The tests' programs have
# buffers of the exact size on the heap, so that valgrind sees the library read or write beside them.
c_program() {
    name=$(basename "$1" .c)
    $c -Iinclude "$1" $(library_paths $2) -o "build/$name" || return 1
    shift 2
    run "build/$name" "$@" || return 1
    if command -v valgrind >/dev/null; then
        run valgrind -q --error-exitcode=1 --leak-check=full "build/$name" "$@"
    else
        echo "valgrind is not here: $name ran without it"
    fi
}

# The same with gcc's sanitizers, for what the C program itself does. The library is not instrumented: its accesses are valgrind's.
c_sanitized() {
    name=$(basename "$1" .c)-sanitized
    sanitizers="-fsanitize=address,undefined -fno-sanitize-recover=all"
    echo 'int main(void) { return 0; }' >build/empty.c
    if ! { gcc $sanitizers build/empty.c -o build/empty && build/empty; } >/dev/null 2>&1; then
        echo "gcc has no sanitizers here: $name did not run"
        return 0
    fi
    $c $sanitizers -Iinclude "$1" $(library_paths $2) -o "build/$name" || return 1
    shift 2
    run "build/$name" "$@"
}

# The example says what examples/firmware.out has.
example() {
    c_program examples/firmware.c libburst_c.a build/card.burst && diff examples/firmware.out build/run.log
}

# The playback unit shows the pictures of the example's file, and refuses what was damaged on its way.
playback() {
    c_program examples/playback.c "libburst_c.a libicepole_c.a" build/card.burst && diff examples/playback.out build/run.log
}

# A card that is full after some thousand bytes: no file is left, and one that was there stays.
full_card() {
    rm -rf build/card && mkdir build/card && echo before >build/card/old || return 1
    for file in old new; do
        (trap '' XFSZ && ulimit -f 8 && build/firmware "build/card/$file") >build/run.log && return 1
        grep -q '^the card does not take the file$' build/run.log || return 1
    done
    [ "$(ls build/card)" = old ] && [ "$(cat build/card/old)" = before ]
}

# The folder of make lib, moved: a program and its library compile there, through pkg-config where it is installed.
moved_folder() {
    rm -rf build/moved && cp -r build/lib build/moved || return 1
    if command -v pkg-config >/dev/null; then
        echo "build/lib: through pkg-config"
        flags=$(PKG_CONFIG_PATH=build/moved pkg-config --cflags --libs "$2") || return 1
    else
        echo "build/lib: with -I and the .a file, pkg-config is not here"
        flags="-Ibuild/moved build/moved/lib$2_c.a"
    fi
    $c "$1" $flags -o build/moved/program || return 1
    shift 2
    run build/moved/program "$@"
}

# What a program does TIMES more often for the number MORE than for LESS: its instructions, by callgrind, are at most MOST. Then come MORE, LESS, the words of
# callgrind, if any, and the program. What calls the functions of a block decides what the compiler makes of them.
counted() {
    if ! command -v valgrind >/dev/null; then
        echo "valgrind is not here: no instructions were counted"
        return 0
    fi
    times=$1 what=$2 most=$3 more=$4 less=$5
    shift 5
    for n in "$more" "$less"; do
        valgrind --tool=callgrind --callgrind-out-file=/dev/null "$@" "$n" 2>&1 | awk '/Collected/ {print $4}'
    done | awk -v times="$times" -v what="$what" -v most="$most" '{n[NR] = $1} END {
        count = (n[1] - n[2]) / times
        printf "%.0f instructions of %s\n", count, what
        exit !(NR == 2 && count > 0 && count <= most)
    }'
}

# Of a 128-byte block in a call.
block() {
    gcc -std=c11 -Wall -Wextra -Werror -O2 bench/block.c build/lib/libicepole_c.a -o build/block && build/block 32768 || return 1
    counted 128 "a block in $1" "$2" 32768 16384 --toggle-collect="$1" build/block
}

# Of a P6, as make bench counts it.
p6() {
    sh scripts/build.sh permutation_bench || return 1
    gcc -std=c11 -D_POSIX_C_SOURCE=200809L -Wall -Wextra -Werror -O2 bench/p6.c bench/permutation.c crates/permutation_bench/out/libpermutation_bench.a -o build/p6 || return 1
    counted 1000 "a P6" 1820 1001 1 build/p6 proved
}

# Of the log of a P12, with the library that the step of a P6 has built.
round_log_counted() {
    libraries="build/lib/libcore_c.a crates/permutation_bench/out/libpermutation_bench.a"
    gcc -std=c11 -D_POSIX_C_SOURCE=200809L -Wall -Wextra -Werror -O2 bench/round_log.c $libraries -o build/round_log_bench || return 1
    counted 1000 "the log of a P12" 4100 1001 1 build/round_log_bench
}

# Of twelve rounds in a call, back or forward.
rounds_counted() {
    flags="-std=c11 -D_POSIX_C_SOURCE=200809L -Wall -Wextra -Werror -O2"
    gcc $flags bench/rounds_back.c build/lib/libcore_c.a -o build/rounds_back_bench || return 1
    counted 1000 "twelve rounds back" 6200 1001 1 build/rounds_back_bench back && counted 1000 "twelve rounds forward" 3900 1001 1 build/rounds_back_bench forward
}

# Of a call that sizes up 60 shots of the longest length: a few for each shot, whatever the lengths.
size_up_counted() {
    gcc -std=c11 -Wall -Wextra -Werror -O2 -Iinclude bench/size_up.c build/lib/libburst_c.a -o build/size_up && build/size_up 1 || return 1
    counted 1000 "sizing up 60 shots" 1500 1001 1 build/size_up
}

# No division in compiled code, neither as an instruction nor as a call of one: its time may depend on what is divided, and the source takes bytes of secrets
# by division (docs/PROOFS.md, "What is trusted").
no_division() {
    if ! command -v objdump >/dev/null; then
        echo "objdump is not here: no look for division"
        return 0
    fi
    for file in "$@"; do
        objdump -dr "$file" >build/objdump.log && grep -qw ret build/objdump.log || { echo "$file has no code to look through"; return 1; }
        ! grep -E 'div|__u?mod' build/objdump.log || { echo "$file divides"; return 1; }
    done
}

# The same, but that one function may divide: the first word is its name, and it is given no secret. Only lines of code are looked at, so that no name counts.
no_division_but() {
    if ! command -v objdump >/dev/null; then
        echo "objdump is not here: no look for division"
        return 0
    fi
    may=$1
    shift
    for file in "$@"; do
        objdump -dr "$file" >build/objdump.log && grep -qw ret build/objdump.log || { echo "$file has no code to look through"; return 1; }
        ! awk -v may="<$may>:" '/^[0-9a-f]+ <.*>:$/ {inside = $2 == may} !inside && /^[ \t]*[0-9a-f]+:.*(div|__u?mod)/' build/objdump.log | grep . || { echo "$file divides"; return 1; }
    done
}

# What the libraries want of the C library: memcpy and memset, and so no memory from the heap.
wanted_names() {
    if ! command -v nm >/dev/null; then
        echo "nm is not here: no look at what the libraries want"
        return 0
    fi
    for file in "$@"; do
        nm "$file" >build/nm.log && grep -q ' [Tt] ' build/nm.log || { echo "$file has no code to look through"; return 1; }
        ! awk 'NF == 2 && $2 != "memcpy" && $2 != "memset"' build/nm.log | grep . || { echo "$file wants more"; return 1; }
    done
}

# The same look at a C function that takes memory, by a name that must be there or may be.
heap_seen() {
    command -v nm >/dev/null || { wanted_names; return; }
    for kind in '' '__attribute__((weak))'; do
        echo "extern $kind void *malloc(unsigned long); void *f(void) { return malloc(3); }" | gcc -O2 -x c -c - -o build/heap.o || return 1
        wanted_names build/heap.o | grep -q 'wants more$' || { echo "a call of malloc passes"; return 1; }
    done
}

# The bytes of stack that a call takes, whatever the length of its message: at most so many.
stack() {
    gcc -std=c11 -D_POSIX_C_SOURCE=200809L -Wall -Wextra -Werror -O2 -Wl,-z,now -Iinclude bench/stack.c build/lib/libicepole_c.a -o build/stack || return 1
    build/stack "$1"
}

# The same look at two short C functions that divide.
division_seen() {
    command -v objdump >/dev/null || { no_division; return; }
    for type in 'unsigned long' 'unsigned __int128'; do
        echo "$type f($type x, $type y) { return x % y + 1; }" | gcc -O2 -x c -c - -o build/division.o || return 1
        no_division build/division.o | grep -q 'divides$' || { echo "a division of $type passes"; return 1; }
    done
}

# Both looks at two short C functions that divide, in a file whose name has no `div`; the one that lets a function divide where the other one may, or a third one
# that is not there.
other_division_seen() {
    command -v objdump >/dev/null || { no_division_but none; return; }
    for type in 'unsigned long' 'unsigned __int128'; do
        printf "$type %s($type x, $type y) { return x %% y + %s; }\n" f 1 g 2 | gcc -O2 -x c -c - -o build/quotient.o || return 1
        no_division build/quotient.o | grep -q 'divides$' || { echo "a division of $type passes"; return 1; }
        for may in f g h; do
            no_division_but "$may" build/quotient.o | grep -q 'divides$' || { echo "a division of $type passes"; return 1; }
        done
    done
}

# That the one function may.
division_allowed() {
    command -v objdump >/dev/null || { no_division_but none; return; }
    echo 'unsigned long f(unsigned long x, unsigned long y) { return x % y + 1; }' | gcc -O2 -x c -c - -o build/quotient.o && no_division_but f build/quotient.o
}

# Random cases with a new seed each time.
soak() {
    make -s -o lib soak COUNT=100000 >build/soak.log 2>&1 || { cat build/soak.log; return 1; }
    head -n 1 build/soak.log
    tail -n 1 build/soak.log | grep '^100000 cases, 0 differ$'
}

# What make tables prints is what the Rust reference wrote.
tables() {
    make -s tables >build/tables.out && diff crates/print_constants/stdout build/tables.out
}

# The program of make round_log, on the stored log and on one cut short.
round_log() {
    log=crates/check_round_log/stdin
    make -s round_log && build/round_log <"$log" | diff crates/check_round_log/stdout - || return 1
    [ "$(dd if="$log" bs=2079 count=1 2>/dev/null | build/round_log)" = "refused 19" ]
}

# The example of a chosen state: the start from which twelve rounds reach zeros is the stored one, and what is no state, or too many rounds, is refused.
chosen_state() {
    $c -Iinclude examples/chosen_state.c build/lib/libcore_c.a -o build/chosen_state || return 1
    yes 0000000000000000 | head -n 20 >build/wanted.hex
    build/chosen_state 12 <build/wanted.hex | diff examples/chosen_state.out - || return 1
    build/chosen_state 0 <build/wanted.hex | diff build/wanted.hex - || return 1
    ! build/chosen_state 13 <build/wanted.hex 2>/dev/null && ! build/chosen_state 12 </dev/null 2>/dev/null
}

# The demonstration, with the libraries that make lib has built.
demo() {
    make -s -o lib demo >build/demo.log 2>&1 || { tail -n 30 build/demo.log; return 1; }
    tail -n 1 build/demo.log
}

lib() {
    make -s lib >build/lib.log 2>&1 || { cat build/lib.log; return 1; }
}

mkdir -p build
step "every crate is listed" crates_listed
step "every import is used" sh scripts/unused_imports.sh
step "and one that is not is seen" unused_imports_tried
prove
step "no must-fail edit is bad" none_bad
step "must-fail edits are refused on a fact" sh scripts/first_errors.sh
step "and those that are not are seen" first_errors_tried
step "make lib" lib
step "the programs that the Rust tests run" sh scripts/build.sh lister check_round_log
step "the C program of sealing" c_program tests/c_calls/c/roundtrip.c libicepole_c.a
step "the C program of opening in place" c_program tests/c_calls/c/open_in_place.c libicepole_c.a
step "the C program of bursts" c_program tests/burst_calls/c/record_and_read.c libburst_c.a
step "the C program of cards" c_program tests/burst_calls/c/fill_cards.c libcard_c.a
step "the C program of round logs" c_program tests/core_calls/c/check_logs.c libcore_c.a
step "the C program of rounds" c_program tests/core_calls/c/drive_rounds.c libcore_c.a
step "the example" example
step "the example on a full card" full_card
step "the example of a playback unit" playback
step "the example of a chosen state" chosen_state
step "the C program of sealing, sanitized" c_sanitized tests/c_calls/c/roundtrip.c libicepole_c.a
step "the C program of opening in place, sanitized" c_sanitized tests/c_calls/c/open_in_place.c libicepole_c.a
step "the C program of bursts, sanitized" c_sanitized tests/burst_calls/c/record_and_read.c libburst_c.a
step "the C program of cards, sanitized" c_sanitized tests/burst_calls/c/fill_cards.c libcard_c.a
step "the C program of round logs, sanitized" c_sanitized tests/core_calls/c/check_logs.c libcore_c.a
step "the C program of rounds, sanitized" c_sanitized tests/core_calls/c/drive_rounds.c libcore_c.a
step "the example, sanitized" c_sanitized examples/firmware.c libburst_c.a build/card.burst
step "the example of a playback unit, sanitized" c_sanitized examples/playback.c "libburst_c.a libicepole_c.a" build/card.burst
step "icepole from build/lib" moved_folder tests/c_calls/c/roundtrip.c icepole
step "burst from build/lib" moved_folder examples/firmware.c burst build/card.burst
step "card from build/lib" moved_folder tests/burst_calls/c/fill_cards.c card
step "core from build/lib" moved_folder tests/core_calls/c/check_logs.c core
step "instructions of a sealed block" block icepole128_seal 1850
step "instructions of an opened block" block icepole128_open 3850
step "instructions of a block opened in place" block icepole128_open_in_place 3850
step "instructions of a P6" p6
step "instructions of a round log" round_log_counted
step "instructions of rounds back and forward" rounds_counted
step "instructions of sizing up" size_up_counted
step "no division in the libraries" no_division build/lib/libicepole_c.a build/lib/libburst_c.a build/lib/libcore_c.a
step "and one that is there is seen" division_seen
step "in the library of cards none but of the card line" no_division_but burst_card_line build/lib/libcard_c.a
step "and one of another function is seen, by its code alone" other_division_seen
step "and one that may be there passes" division_allowed
step "memcpy and memset of the C library alone" wanted_names build/lib/libicepole_c.a build/lib/libburst_c.a build/lib/libcore_c.a
step "and of the library of cards" wanted_names build/lib/libcard_c.a
step "and what is more is seen" heap_seen
step "stack of opening in place" stack 2048
rust_tests tests
rust_tests tools/burst
step "make tables" tables
step "make round_log" round_log
step "make demo" demo
step "soak" soak
echo "$passed passed, $failed failed" | tee build/result
[ "$failed" -eq 0 ]
