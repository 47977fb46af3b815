# Writes folder/1.routes, 2.routes ..: so many random tables, the same ones in every run. The first line of each, a comment, has options
# and addresses for `yard lookup` and `yard sheet`. Most fit the tablet's room; some have a level count or a hop that is refused.

# A number from 0 to end - 1.
function below(end) {
    seed = (seed * 16807) % 2147483647
    return int(seed / 2147483647 * end)
}

function dotted(address) {
    return int(address / 16777216) "." int(address / 65536) % 256 "." int(address / 256) % 256 "." address % 256
}

# The first bits of an address.
function cut(address, bits,    unit) {
    unit = 2 ^ (32 - bits)
    return int(address / unit) * unit
}

# An address near one that was seen, or any. (Calls of below stand in lines of their own: the order within an expression is awk's.)
function near(count,    start, high) {
    high = below(65536)
    if (count == 0 || below(6) == 0) return high * 65536 + below(65536)
    start = cut(value[below(count)], 8 + 8 * below(4))
    high = 2 ^ (8 * below(4))
    return (start + below(high)) % 4294967296
}

# A link, a discard, or in a faulty table now and then one that is refused.
function hop(links, is_faulty) {
    if (is_faulty && below(3) == 0) return below(2) * (links + 1)
    return below(8) ? 1 + below(links) : "discard"
}

function levels(kind) {
    if (below(50) == 0) return below(2) * 33
    return kind == "fst" ? 4 + below(29) : 3 + below(30)
}

function one_table(file,    kind, links, is_faulty, is_short, routes, i, bits, start, prefix, blank, words, text, seen, count) {
    kind = below(2) ? "fst" : "vst"
    links = below(4) ? 20 : 65534
    links = 1 + below(links)
    is_faulty = below(12) == 0
    # Few routes of any length, or up to as many as a sheet has room for, which are short.
    is_short = below(6) == 0
    routes = is_short ? 40 + below(25) : below(13)
    words = "--kind " kind " --levels " levels(kind) " --links " links
    count = 0
    while (count < routes) {
        bits = below(33)
        if (is_short) bits = 3 + bits % 5
        else if (below(3)) bits -= bits % 8
        start = near(is_short ? 0 : count)
        start = cut(start, bits)
        prefix = dotted(start) "/" bits
        if (prefix in seen) continue
        seen[prefix] = 1
        value[count++] = start
        blank = below(2) ? " " : "\t"
        text = text prefix blank hop(links, is_faulty) "\n"
    }
    for (i = 1 + below(6); i > 0; i--) words = words " " dotted(near(count))
    printf "# %s\n%s", words, text >file
    close(file)
}

BEGIN {
    seed = 20261117
    for (table = 1; table <= tables; table++) one_table(folder "/" table ".routes")
}
