# Prints the table of ratios from the lines of bench/openssl.sh: turn, bytes, call, whose, bytes a second. Each is the median of the turns.
NF != 5 {
    print "no figure in the line: " $0 > "/dev/stderr"
    failed = 1
    exit
}

{
    rate[$1, $2, $3, $4] = $5
    turns = $1
}

# Our time by OpenSSL's. OpenSSL has no call that verifies and writes nothing: verifying stands against its opening.
function ratio(turn, bytes, call, cipher) {
    return rate[turn, bytes, call == "verify" ? "open" : call, cipher] / rate[turn, bytes, call, "ours"]
}

function median_ratio(bytes, call, cipher,    i, j, v, t) {
    for (i = 1; i <= turns; i++) {
        v[i] = ratio(i, bytes, call, cipher)
        for (j = i; j > 1 && v[j] < v[j - 1]; j--) {
            t = v[j]
            v[j] = v[j - 1]
            v[j - 1] = t
        }
    }
    if (v[turns] / v[1] > apart)
        apart = v[turns] / v[1]
    return v[int((turns + 1) / 2)]
}

function cell(bytes, call, cipher,    m) {
    if (!((1, bytes, "seal", cipher) in rate))
        return " |"
    m = median_ratio(bytes, call, cipher)
    cells[cipher ~ /masked/]++
    slower[cipher ~ /masked/] += m > 1
    if (m > worst[cipher]) {
        worst[cipher] = m
        where[cipher] = call " of " bytes " bytes"
    }
    return sprintf(" %.2f |", m)
}

function row(call, cipher, words,    i, out) {
    out = "| " call " / " words " |"
    for (i = 1; i <= 4; i++)
        out = out cell(sizes[i], call, cipher)
    print out
}

function rows(cipher, words) {
    row("seal", cipher, words)
    row("open", cipher, words)
    row("verify", cipher, "opening of " words)
}

function lost(cipher, words) { return sprintf("%.1f times the time of %s (%s)", worst[cipher], words, where[cipher]) }

END {
    if (failed)
        exit 1
    split("64 1024 16384 1048576", sizes)
    print "| our time / OpenSSL's, by bytes of message | 64 | 1 KiB | 16 KiB | 1 MiB |\n|---|---|---|---|---|"
    rows("aes-128-gcm", "AES-128-GCM")
    rows("chacha20-poly1305", "ChaCha20-Poly1305")
    rows("aes-128-gcm-masked", "AES-128-GCM, masked")
    rows("chacha20-poly1305-masked", "ChaCha20-Poly1305, masked")
    printf "\nAbove 1 ours is slower: in %d of the %d cells that are not masked, and in %d of %d masked. ", slower[0], cells[0], slower[1], cells[1]
    printf "The most that we lose is %s and %s.\n", lost("aes-128-gcm", "AES-128-GCM"), lost("chacha20-poly1305", "ChaCha20-Poly1305")
    printf "Each cell is the median of %d turns; within a cell the turns differ by a factor of at most %.2f.\n", turns, apart
}
