# Prints statements: the node T/w and n `ins` of a number below it, a commit after the first half and at the end. The
# labels rise, fall, or stand shuffled (order=rising, falling, shuffled); runs after lcg.awk.
BEGIN {
  for (i = 0; i < n; i++) number[i] = (order == "falling" ? n - 1 - i : i)
  if (order == "shuffled") {
    for (i = n - 1; i > 0; i--) {
      j = drawn() % (i + 1)
      kept = number[i]
      number[i] = number[j]
      number[j] = kept
    }
  }
  print "ins {w : {}} into T;"
  for (i = 0; i < n; i++) {
    printf "ins {k%07d : %d} into T/w;\n", number[i], number[i]
    if (i == int(n / 2) - 1 || i == n - 1) print "commit;"
  }
}
