# Whether a list as ESOP-PLA has, at every label, the outputs that a PLA of minterms has: `awk -f scripts/same.awk minterms.pla list.pla`, exit status 1 if not.
/^[01-]+ [01]+$/ {
    if (NR == FNR) minterms[$1] = $2
    else {
        products[++count] = $1
        carried[count] = $2
    }
    inputs = length($1)
    outputs = length($2)
}

function truth(product, label, k, literal) {
    for (k = 1; k <= inputs; k++) {
        literal = substr(product, k, 1)
        if (literal != "-" && literal != substr(label, k, 1)) return 0
    }
    return 1
}

# The outputs of the list at a label, each the parity of its products that are true there.
function value(label, place, k, odd, text) {
    for (place = 1; place <= count; place++)
        if (truth(products[place], label))
            for (k = 1; k <= outputs; k++) odd[k] += substr(carried[place], k, 1)
    for (k = 1; k <= outputs; k++) text = text (odd[k] % 2)
    return text
}

END {
    for (k = 1; k <= outputs; k++) none = none "0"
    for (number = 0; number < 2 ^ inputs; number++) {
        label = ""
        for (k = 0; k < inputs; k++) label = label (int(number / 2 ^ k) % 2)
        if (value(label) != (label in minterms ? minterms[label] : none)) {
            print "another value at " label
            exit 1
        }
    }
}
