# Prints the statements of 10,000 commits: 5,000 insert a record of ten fields each, and 5,000 make a place, copy one of these records
# onto it, and delete a field of the copied one: 105,001 places. Then comes `mod T`, if ask is 1. Or it prints the replies in a store
# of the kind.
BEGIN {
  single = kind == "n" || kind == "h"
  for (i = 1; i <= 5000; i++) {
    if (replies) print "committed " i
    else print "ins {r" i " : {a : " i ", b : 2, c : 3, d : 4, e : 5, f : 6, g : 7, h : 8, i : 9, j : 10}} into T; commit;"
    found = found " " i
  }
  tid = 5000
  for (i = 1; i <= 5000; i++) {
    if (!replies) print "ins {s" i " : {}} into T; copy T/r" i " into T/s" i "; del e from T/r" i "; commit;"
    else if (single) print "committed " tid + 1 ".." tid + 3
    else print "committed " tid + 1
    # the place that was made is replaced, so that its insertion has no part in what is there
    if (single) found = found " " tid + 2 " " tid + 3
    else found = found " " tid + 1
    tid += single ? 3 : 1
  }
  if (ask) print (replies ? "mod T:" found : "mod T;")
}
