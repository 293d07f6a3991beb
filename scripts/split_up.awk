# Prints a long list that a short one was made into, as ESOP-PLA: draws products and then splits products that it draws, at variables that it draws.
# `awk -v inputs=32 -v drawn=300 -v products=4096 -v least=4 -v most=12 -f scripts/split_up.awk`; the drawn products have `least` to `most` literals.
# The generator is a linear congruential one, so that every awk prints the same list.
function below(limit) {
    state = (state * 16807) % 2147483647
    return state % limit
}

# A code other than `code`: the lower of the two if `higher` is 0.
function other(code, higher) {
    if (code == "0") return higher ? "-" : "1"
    if (code == "1") return higher ? "-" : "0"
    return higher ? "1" : "0"
}

function with(product, variable, code) {
    return substr(product, 1, variable) code substr(product, variable + 2)
}

BEGIN {
    state = 1 + seed
    for (i = 0; i < drawn; i++) {
        product = ""
        for (k = 0; k < inputs; k++) product = product "-"
        for (literals = least + below(most - least + 1); literals > 0; literals--) product = with(product, below(inputs), below(2))
        list[i] = product
    }
    for (count = drawn; count < products; count++) {
        place = below(count)
        variable = below(inputs)
        code = substr(list[place], variable + 1, 1)
        list[count] = with(list[place], variable, other(code, 1))
        list[place] = with(list[place], variable, other(code, 0))
    }
    print ".i " inputs
    print ".o 1"
    print ".type esop"
    for (i = 0; i < count; i++) print list[i] " 1"
    print ".e"
}
