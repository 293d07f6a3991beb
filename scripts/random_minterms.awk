# A function as minterms, in PLA: 3 to 8 inputs, 1 to 3 outputs, drawn from a seed. At least one minterm of each output is there.
BEGIN {
    srand(seed)
    n = 3 + int(rand() * 6)
    m = 1 + int(rand() * 3)
    size = 1
    for (k = 0; k < n; k++) size *= 2
    share = 0.1 + rand() * 0.6
    print ".i " n
    print ".o " m
    for (a = 0; a < size; a++) {
        cube = ""
        rest = a
        for (k = 0; k < n; k++) { cube = cube rest % 2; rest = int(rest / 2) }
        outputs = ""
        some = 0
        for (j = 0; j < m; j++) {
            bit = rand() < share || a == j
            some += bit
            outputs = outputs (bit ? 1 : 0)
        }
        if (some > 0) print cube " " outputs
    }
    print ".e"
}
