# Prints the lines expected of from_header for a record, without its corners: the settings from its bytes, the others from the output of the second
# model (samples/*.txt).
#
#     od -An -v -tu1 -w1 FILE.shot | awk -f from_header.awk - FILE.txt
#
# Floats, which are bit patterns there, are printed as C prints them.

function hex(digits,   x, k) {
    for (k = 1; k <= length(digits); k++) x = 16 * x + index("0123456789ABCDEF", substr(digits, k, 1)) - 1
    return x
}

function float(x,   sign) {
    sign = x < 2147483648 ? 1 : -1
    x %= 2147483648
    return x == 0 ? "0" : sprintf("%.9g", sign * (8388608 + x % 8388608) * 2 ^ (int(x / 8388608) - 150))   # 0 or normal
}

function has(k) { return int(byte[0] / 2 ^ k) % 2 }

# The float at offset `at` if bit k of the map byte is set, else the default.
function setting(k, at, digits) {
    return float(has(k) ? byte[at] + 256 * (byte[at + 1] + 256 * (byte[at + 2] + 256 * byte[at + 3])) : hex(digits))
}

function settings(   px, table) {
    px = 1 + 4 * has(0) + 4 * has(1)
    table = px + 4 * has(2)
    return "minimum margin " setting(0, 1, "3D4CCCCD") ", border threshold " setting(1, 1 + 4 * has(0), "3F000000") \
        ", px_per_square " setting(2, px, "42700000") ", least weight " setting(5, table + 4 * 511 * has(3), "0")
}

function placement() { return sprintf("turn %d tx %d ty %d evidence %s contributing cells %s", $2, $3, $4, $5 == "none" ? $5 : float(hex($5)), $6) }

NR == FNR { byte[NR - 1] = $1; next }
FNR == 1 { print settings() }
/^refused 16/ { print "match refused 16 margin " float(hex($3)); next }
/^refused/ { print "match refused " $2 }
/^best/ { print placement() }
/^next absent/ { print; next }
/^next/ { print "next " placement() }
/^margin/ { print "margin " float(hex($2)) }
/^placements/ { print; placed = 1 }
/^marker/ { markers[++n] = "marker cell " $2 " id " $3 " differing " $7 }

END {
    if (placed) print "markers " n + 0
    for (k = 1; k <= n; k++) print markers[k]
}
