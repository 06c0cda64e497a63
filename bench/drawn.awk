# Prints n drawn operations on nodes below T, a line each, with a commit after every tenth; runs after lcg.awk.
#   ins L       an empty node is added under the label L, which is new
#   copy L M    the node L is copied onto another node M
#   del L       the node L is dropped
# With old=N a first commit adds the node `old` with N empty nodes below it (`tree old N`); no draw touches these.
# With ask=1 the places of the last tree follow, T first: `place P`.
BEGIN {
  if (old > 0) {
    print "tree old " old
    print "commit"
  }
  while (done < n) {
    r = drawn()
    rest = int(r / 4)
    if (r % 4 == 0 || count < 4) {
      live[count++] = "n" ++last
      print "ins n" last
    } else if (r % 4 == 1) {
      continue
    } else if (r % 4 == 2) {
      from = rest % count
      into = (from + 1 + int(rest / count) % (count - 1)) % count
      print "copy " live[from] " " live[into]
    } else {
      gone = rest % count
      print "del " live[gone]
      live[gone] = live[--count]
    }
    if (++done % 10 == 0) print "commit"
  }
  if (ask) {
    print "place T"
    if (old > 0) print "place T/old"
    for (i = 1; i <= old; i++) print "place T/old/" i
    for (i = 0; i < count; i++) print "place T/" live[i]
  }
}
