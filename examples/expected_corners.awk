# Prints the lines expected of `minimal` for a placed shot record, by an independent rule: from the board and its cells, as the functions that
# read the record return them, and from the line `best` that the second model prints (samples/*.txt).
#
#     from_header --fields FILE | awk -v turn=TURN -v tx=TX -v ty=TY -f expected_corners.awk | sort -k2n
#
# A cell's centre is the centre of its square; its corners are offsets from it, rotated by the turn. Coordinates are in half cells.

function turn_x(x, y) { return turn == 0 ? x : turn == 1 ? y : turn == 2 ? -x : -y }
function turn_y(x, y) { return turn == 0 ? y : turn == 1 ? -x : turn == 2 ? -y : x }

function corners_of(u, v,   right, down, i, j, id) {
    for (right = -1; right <= 1; right += 2)
        for (down = -1; down <= 1; down += 2) {
            i = (2 * (turn_x(u, v) + tx) + 1 + turn_x(right, down)) / 2
            j = (2 * (turn_y(u, v) + ty) + 1 + turn_y(right, down)) / 2
            id = (j - 1) * (cols - 1) + i - 1
            if (1 <= i && i < cols && 1 <= j && j < rows && !(id in seen)) {
                seen[id] = 1
                printf "corner %d grid point %d %d target %g %g\n", id, u + (right + 1) / 2, v + (down + 1) / 2, i * size, j * size
            }
        }
}

$1 == "board" && NF == 4 && NR == 1 { rows = $2; cols = $3; size = $4; next }
$1 == "cell" && NF == 3 && rows { corners_of($2, $3); next }
{ print "this is neither a board nor a cell: " $0 }
