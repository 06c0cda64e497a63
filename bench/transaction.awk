# Prints the statements of one transaction of 65,535 operations and its commit.
#   shape=copies    first a place `a` with nine leaves and a place `b` are made; then `a` is copied onto `b`, over and over
#   shape=changes   on the tree of `json.awk` with shape=records: a member of an object is dropped, another is added, and
#                   the object, ten nodes, is copied onto one far behind it
BEGIN {
  if (shape == "copies") {
    printf "ins {a : {"
    for (i = 1; i <= 9; i++) printf "%sl%d : %d", (i == 1 ? "" : ", "), i, i
    print "}} into T; ins {b : {}} into T; commit;"
    for (i = 1; i <= 65535; i++) print "copy T/a into T/b;"
  } else {
    for (i = 1; i <= 21845; i++) {
      place = sprintf("T/k%07d", i)
      print "del unit from " place ";"
      print "ins {added : " i "} into " place ";"
      printf "copy %s into T/k%07d;\n", place, i + 50000
    }
  }
  print "commit;"
}
