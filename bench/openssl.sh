#!/bin/sh
# Prints the table of the page that sets the proved calls against `openssl speed`, turn about. Wants build/sealing.
set -e
turns="1 2 3"
if ! command -v openssl >/dev/null; then
    echo "openssl is not installed on this machine, so this run has no figures against it."
    exit 0
fi

# Bytes a second of processor time, with a new nonce, associated data and a tag for each message (-aead).
speed() {
    openssl speed -aead -mr -seconds 1 "$@" 2>/dev/null | awk -F: '/^\+F:/ {print $4}'
}

# Lines of turn, bytes, call, whose, and bytes a second.
ours() {
    build/sealing rate "$2" >build/rate.txt
    while read -r call rate; do
        echo "$1 $2 $call ours $rate"
    done <build/rate.txt
}
theirs() {
    for cipher in aes-128-gcm chacha20-poly1305; do
        echo "$1 $2 seal $cipher$3 $(speed -evp $cipher -bytes "$2")"
        echo "$1 $2 open $cipher$3 $(speed -evp $cipher -bytes "$2" -decrypt)"
    done
}
# OpenSSL does not use the instructions that it is told the processor lacks.
masked() (
    export OPENSSL_ia32cap=0:0 OPENSSL_armcap=0
    theirs "$1" "$2" -masked
)

for turn in $turns; do
    for bytes in 64 1024 16384 1048576; do
        ours "$turn" $bytes
        theirs "$turn" $bytes ""
        case $bytes in 64 | 16384) masked "$turn" $bytes ;; esac
    done
done >build/openssl.txt
awk -f bench/openssl.awk build/openssl.txt
