# An ESOP-PLA as a network: a node for each product, and a chain of sums modulo 2 for each output.
/^#/ || /^$/ { next }
$1 == ".i" { n = $2; next }
$1 == ".o" { m = $2; next }
/^\./ { next }
{ count++; cube[count] = $1; outs[count] = $2 }
END {
    print ".model esop"
    printf ".inputs"; for (k = 0; k < n; k++) printf " x%d", k; print ""
    printf ".outputs"; for (j = 0; j < m; j++) printf " z%d", j; print ""
    for (i = 1; i <= count; i++) {
        printf ".names"; for (k = 0; k < n; k++) printf " x%d", k; printf " p%d\n", i
        print cube[i] " 1"
    }
    for (j = 0; j < m; j++) {
        last = "s" j "_0"; print ".names " last
        for (i = 1; i <= count; i++) if (substr(outs[i], j + 1, 1) == "1") {
            sum = "s" j "_" i
            print ".names " last " p" i " " sum; print "10 1"; print "01 1"
            last = sum
        }
        print ".names " last " z" j; print "1 1"
    }
    print ".end"
}
