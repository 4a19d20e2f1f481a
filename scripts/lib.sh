#!/bin/sh
# Proves and builds the static libraries, and gathers in build/lib what C programs need: the libraries, their headers and a pkg-config file for each.
# The pkg-config files name the folder that they stand in, so the folder works from wherever it is moved.
set -e
cd "$(dirname "$0")/.."
folder=build/lib

# A library, its header and its pkg-config file: NAME, and what it is.
gather() {
    cp "crates/$1_lib/out/lib$1_lib.a" "$folder/lib$1_c.a"
    cp "include/$1.h" $folder
    cat >"$folder/$1.pc" <<END
Name: $1
Description: $2
Version: 0.1.0
Cflags: -I\${pcfiledir}
Libs: -L\${pcfiledir} -l$1_c
END
}

mkdir -p build
for name in icepole burst card core; do
    echo "proving and building lib${name}_c.a (some minutes the first time)"
    sh scripts/build.sh "${name}_lib"
done
rm -rf $folder
mkdir -p $folder
gather icepole "ICEPOLE-128, 128a and 256a: authenticated encryption of whole messages and of strips"
gather burst "Burst files of trail cameras: sizing up, recording, checking, reading back and listing"
gather card "How many full bursts of a trail camera a card holds, and the bytes left"
gather core "For testing a hardware core of ICEPOLE: the log of its rounds judged, and the start of a chosen state"
