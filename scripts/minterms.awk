# Prints a function as a PLA of minterms: `awk -v name=9sym -f scripts/minterms.awk`. Label bit k is input k, and bit k of a number output k.
#   onesN    the number of ones of N inputs
#   9sym     whether 3 to 6 of 9 inputs are 1
#   2or3of6  whether 2 or 3 of 6 inputs are 1
#   plus4    the sum of two numbers of 4 bits
#   times4   the product of two numbers of 4 bits
# With `bitK` behind its name, bit K of it alone.
function ones(label, count) {
    for (count = 0; label > 0; label = int(label / 2)) count += label % 2
    return count
}

function bits(number, count, k, text) {
    for (k = 0; k < count; k++) text = text (int(number / 2 ^ k) % 2)
    return text
}

function value(label) {
    if (name == "9sym") return ones(label) >= 3 && ones(label) <= 6
    if (name == "2or3of6") return ones(label) == 2 || ones(label) == 3
    if (name ~ /^plus4/) return label % 16 + int(label / 16)
    if (name ~ /^times4/) return (label % 16) * int(label / 16)
    return ones(label)
}

BEGIN {
    inputs = 8
    outputs = name ~ /^times4/ ? 8 : name ~ /^plus4/ ? 5 : name ~ /^ones/ ? 4 : 1
    if (match(name, /^ones[0-9]+/)) inputs = substr(name, 5, RLENGTH - 4) + 0
    if (name == "9sym") inputs = 9
    if (name == "2or3of6") inputs = 6
    if (match(name, /bit[0-9]+$/)) {
        lowest = substr(name, RSTART + 3) + 0
        outputs = 1
    }
    print ".i " inputs
    print ".o " outputs
    for (label = 0; label < 2 ^ inputs; label++) {
        text = bits(int(value(label) / 2 ^ lowest), outputs)
        if (text ~ /1/) print bits(label, inputs), text
    }
    print ".e"
}
