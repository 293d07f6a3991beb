# Prints the labels of some ranges as ESOP-PLA, as a map of tapes would begin: each range is cut into blocks, a product a block, and no two blocks overlap.
# `awk -v inputs=32 -v ranges=100 -v seed=1 -f scripts/ranges.awk`; the ranges' ends are drawn, by a generator with which every awk prints the same list.
function below(limit) {
    state = (state * 16807) % 2147483647
    return state / 2147483647 * limit
}

# The block of labels from `from` on that have the same bits from bit `low` on.
function block(from, low, k, text) {
    for (k = 0; k < inputs; k++) text = text (k < low ? "-" : int(from / 2 ^ k) % 2)
    print text " 1"
}

BEGIN {
    state = 1 + seed
    ends = 2 * ranges
    for (i = 0; i < ends; i++) {
        end = int(below(2 ^ inputs))
        for (place = i; place > 0 && point[place - 1] > end; place--) point[place] = point[place - 1]
        point[place] = end
    }
    print ".i " inputs
    print ".o 1"
    print ".type esop"
    for (i = 0; i < ends; i += 2)
        for (from = point[i]; from < point[i + 1]; from += 2 ^ low) {
            for (low = 0; low < inputs && from % 2 ^ (low + 1) == 0 && from + 2 ^ (low + 1) <= point[i + 1]; low++) continue
            block(from, low)
        }
    print ".e"
}
