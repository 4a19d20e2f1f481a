#!/bin/sh
# Builds the tool `burst` and shows what it does, on pictures made on the spot. Every command is shown before it runs. The exit status
# is 0 only if everything went as expected, the refusals of a changed file among it. Wants `make lib` before it.
cd "$(dirname "$0")/.." || exit 1
root=$PWD
folder=$(mktemp -d) || exit 1
trap 'rm -rf "$folder"' EXIT
trap 'exit 1' INT TERM

fail() {
    echo "demo: FAILED: $1"
    exit 1
}

# Shows a command as one types it: words with a space stand in quotes.
show() {
    line=
    for word in "$@"; do
        case $word in
            *' '*) line="$line '$word'" ;;
            *) line="$line $word" ;;
        esac
    done
    printf '\n$%s\n' "$line"
}

# Shows a command, runs it, and wants it to end with the given exit status.
ends_with() {
    wanted=$1
    shift
    show "$@"
    "$@" 2>&1
    status=$?
    [ "$status" -eq "$wanted" ] || fail "exit status $status, not $wanted"
    [ "$status" -eq 0 ] || echo "(exit status $status)"
}

run() {
    ends_with 0 "$@"
}

# Shows a line with a pipe or a redirection, and runs it.
run_line() {
    printf '\n$ %s\n' "$1"
    eval "$1" || fail "$1"
}

# A picture of 8 by 8 points in the text form of PPM, in a colour that gets brighter to the right.
picture() {
    awk -v red="$1" -v green="$2" -v blue="$3" 'BEGIN {
        print "P3\n8 8\n255"
        for (y = 0; y < 8; y++)
            for (x = 0; x < 8; x++)
                print red * (x + 1), green * (x + 1), blue * (x + 1)
    }'
}

# The byte of a file at an offset, and 1 more: three octal digits, for printf.
next_byte() {
    old=$(od -An -tu1 -j "$2" -N 1 "$1" | tr -d ' ')
    printf '%03o' $(((old + 1) % 256))
}

run_line '(cd tools/burst && cargo build --release --offline --quiet)'
PATH=$root/tools/burst/target/release:$PATH
cd "$folder" || exit 1

echo
echo "A key of 16 bytes, which nobody else can read, and three small pictures, in a temporary folder."
run_line '(umask 077; head -c 16 /dev/urandom >survey.key)'
picture 30 15 0 >fox.ppm
picture 10 10 12 >badger.ppm
picture 0 25 5 >marten.ppm
run ls

echo
echo "Before the trigger: what a burst of four shots will take, the second of them dropped. Lengths are enough; nothing is sealed."
run_line 'burst size $(wc -c <fox.ppm) - $(wc -c <badger.ppm) $(wc -c <marten.ppm) >planned && cat planned'

echo
echo "For the carton: how many full bursts of ten pictures a card of 32 GB holds, and the bytes left."
run burst card --bytes 32GB --shots 10 --picture 250000

echo
echo "Four shots of one trigger, the second of them dropped, are sealed into one file. It has as many bytes as was said."
run burst record --key survey.key --number 7 --camera 12 --site-mark 'north ridge' --out 7.burst \
    --keep '06:12:00' fox.ppm --drop --keep '06:12:04' badger.ppm --keep '06:12:06' marten.ppm
run_line 'grep -x "bytes $(wc -c <7.burst)" planned'

echo
echo "Anyone can list the file and see its layout. Pictures, stamps and site mark stay sealed."
run burst list 7.burst
run burst explain 7.burst

echo
echo "With the key, every tag is tested, and the pictures come back."
run burst check --key survey.key 7.burst
run burst fetch --key survey.key --all pictures 7.burst
run cmp fox.ppm pictures/shot-001
run cmp badger.ppm pictures/shot-003
run cmp marten.ppm pictures/shot-004
[ ! -e pictures/shot-002 ] || fail "the dropped shot has a picture"

echo
echo "One picture alone: place 1 is the second picture that was kept, shot 3."
run burst fetch --key survey.key --place 1 --out badger-again.ppm 7.burst
run cmp badger.ppm badger-again.ppm
run_line 'burst fetch --key survey.key --place 1 --out - 7.burst | cmp badger.ppm -'

echo
echo "Another camera of the survey has the same key and its own camera number. It takes the same shots, as its burst 7: the first record"
echo "is sealed to other bytes. Camera number 0 is refused with 15."
run burst record --key survey.key --number 7 --camera 13 --site-mark 'north ridge' --out other.burst \
    --keep '06:12:00' fox.ppm --drop --keep '06:12:04' badger.ppm --keep '06:12:06' marten.ppm
run burst check --key survey.key other.burst
run_line 'for burst in 7 other; do tail -c +41 $burst.burst | head -c 611 >$burst.record; done'
ends_with 1 cmp 7.record other.record
ends_with 15 burst record --key survey.key --number 8 --camera 0 --site-mark 'north ridge' --out 8.burst --drop

echo
echo "Somebody changes one byte of the first picture's record. The file is refused with 7, and no picture is written."
run cp 7.burst changed.burst
byte=$(next_byte changed.burst 100)
run_line "printf '\\$byte' | dd of=changed.burst bs=1 seek=100 conv=notrunc 2>/dev/null"
ends_with 1 cmp 7.burst changed.burst
ends_with 7 burst check --key survey.key changed.burst
ends_with 7 burst fetch --key survey.key --all from-changed changed.burst
[ ! -e from-changed ] || fail "the refused fetch wrote"

echo
echo "A copy that was cut is refused with 12."
run_line 'head -c 500 7.burst >cut.burst'
ends_with 12 burst check --key survey.key cut.burst

echo
echo "demo: everything went as expected: pictures came back byte by byte, and the changed and the cut file were refused"
