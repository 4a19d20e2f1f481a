# Draws the two tables of `build/burst growth`, as the page shows them, side by side as an SVG. Both scales of a panel are logarithmic.
# A curve is named after its column. Light paper; dark where the reader's system asks for it.
BEGIN {
    FS = " *[|] *"
    wide = 800; high = 330; left = 58; top = 62; plot_wide = 320; plot_high = 210; step = 402
    title[1] = "Time a byte / a byte of sealing 1 MiB"
    title[2] = "Time / sealing one picture (64 KiB)"
    under[1] = "bytes of the one picture"
    under[2] = "pictures in the burst"
}

/^[|] [a-z]/ {
    panel++
    curves[panel] = NF - 3
    for (k = 1; k <= NF - 3; k++)
        name[panel, k] = $(k + 2)
}

/^[|] [0-9]/ {
    i = ++points[panel]
    at[panel, i] = $2
    for (k = 1; k <= curves[panel]; k++)
        figure[panel, i, k] = $(k + 2)
}

# The exponent of the first power of ten from v up.
function decade(v,    e) {
    e = int(log(v) / log(10))
    while (exp(e * log(10)) < v * 0.999999)
        e++
    return e
}

# From half of the power of ten that is not above twice the least figure, to the first power of ten above the largest.
function scale(p,    i, k, v) {
    least = most = figure[p, 1, 1]
    for (i = 1; i <= points[p]; i++)
        for (k = 1; k <= curves[p]; k++) {
            v = figure[p, i, k]
            least = v < least ? v : least
            most = v > most ? v : most
        }
    first_decade = decade(2 * least + 0.000001) - 1
    last_decade = decade(most)
    low = first_decade * log(10) - log(2)
    span = last_decade * log(10) - low
}

function px(p, x) { return sprintf("%.1f", origin + plot_wide * log(x / at[p, 1]) / log(at[p, points[p]] / at[p, 1])) }
function py(v) { return sprintf("%.1f", top + plot_high - plot_high * (log(v) - low) / span) }

function bytes_or_count(x) { return x >= 1048576 ? x / 1048576 " MiB" : x >= 1024 ? x / 1024 " KiB" : x }

function label(x, y, anchor, words) { printf "<text x=\"%s\" y=\"%s\" text-anchor=\"%s\">%s</text>\n", x, y, anchor, words }

function line(x1, y1, x2, y2, class) { printf "<path class=\"%s\" d=\"M%s %sL%s %s\"/>\n", class, x1, y1, x2, y2 }

function axes(p,    e, i, y, x, bottom) {
    bottom = top + plot_high
    for (e = first_decade; e <= last_decade; e++) {
        y = py(exp(e * log(10)))
        line(origin, y, origin + plot_wide, y, "grid")
        label(origin - 6, y + 4, "end", e < 0 ? sprintf("%.*f", -e, exp(e * log(10))) : sprintf("1%s", substr("000000", 1, e)))
    }
    for (i = 1; i <= points[p]; i += points[p] > 8 ? 2 : 1) {
        x = px(p, at[p, i])
        line(x, bottom, x, bottom + 5, "axis")
        label(x, bottom + 19, "middle", bytes_or_count(at[p, i]))
    }
    line(origin, bottom, origin + plot_wide, bottom, "axis")
    line(origin, top, origin, bottom, "axis")
    label(origin + plot_wide / 2, bottom + 40, "middle", under[p])
    printf "<text class=\"title\" x=\"%s\" y=\"22\">%s</text>\n", origin - 40, title[p]
}

# A round, a square or a three-cornered mark.
function mark(k, x, y) {
    if (k == 1)
        return sprintf("<circle cx=\"%s\" cy=\"%s\" r=\"3.5\"/>", x, y)
    if (k == 2)
        return sprintf("<path d=\"M%.1f %.1fh6v6h-6z\"/>", x - 3, y - 3)
    return sprintf("<path d=\"M%s %.1fl4 7h-8z\"/>", x, y - 4)
}

function curve(p, k,    i, d, marks, x, y) {
    for (i = 1; i <= points[p]; i++) {
        x = px(p, at[p, i])
        y = py(figure[p, i, k])
        d = d (i == 1 ? "M" : "L") x " " y
        marks = marks mark(k, x, y)
    }
    x = origin - 34 + (k - 1) * 112
    printf "<g class=\"c%d\"><path class=\"curve\" d=\"%s\"/>%s%s</g>\n", k, d, marks, mark(k, x, 42)
    label(x + 9, 46, "start", name[p, k])
}

END {
    if (panel != 2) {
        print "plot.awk: two tables are wanted" > "/dev/stderr"
        exit 1
    }
    printf "<svg xmlns=\"http://www.w3.org/2000/svg\" viewBox=\"0 0 %d %d\" width=\"%d\" height=\"%d\" role=\"img\">\n", wide, high, wide, high
    print "<title>How cost grows with the size of a picture and with the number of pictures</title>"
    print "<style>"
    print ".paper{fill:#fff}text{font:13px sans-serif;fill:#24292f}.title{font-weight:bold}"
    print ".grid{stroke:#d8dee4}.axis{stroke:#57606a}.curve{fill:none;stroke-width:2}"
    print ".c1{stroke:#0072b2;fill:#0072b2}.c2{stroke:#d55e00;fill:#d55e00}.c3{stroke:#008060;fill:#008060}"
    print "@media(prefers-color-scheme:dark){.paper{fill:#0d1117}text{fill:#e6edf3}.grid{stroke:#30363d}.axis{stroke:#8d96a0}"
    print ".c1{stroke:#58b0e8;fill:#58b0e8}.c2{stroke:#f0883e;fill:#f0883e}.c3{stroke:#3fb68b;fill:#3fb68b}}"
    print "</style>"
    printf "<rect class=\"paper\" width=\"%d\" height=\"%d\"/>\n", wide, high
    for (p = 1; p <= 2; p++) {
        origin = left + (p - 1) * step
        scale(p)
        axes(p)
        for (k = 1; k <= curves[p]; k++)
            curve(p, k)
    }
    print "</svg>"
}
