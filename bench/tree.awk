# Prints statements: an `ins` of the node T/a, of T/b with b=1, and of `parts` nodes below T/a, each with empty nodes
# below it so that it brings `size` nodes; one commit. With copies=N then N copies of T/a onto T/b, and a commit. With
# show=1, and no copies, then `show T`. With replies=1 it prints the replies that cpdb has to give instead.
function print_part(i,   j) {
  printf "n%07d : {", i * size
  for (j = 1; j < size; j++) printf "%sn%07d : {}", (j == 1 ? "" : ", "), i * size + j
  printf "}"
}

function print_replies(   held, i) {
  held = 1 + b + parts
  print "committed 1.." held
  if (copies == 1) print "committed " held + 1
  if (copies > 1) print "committed " held + 1 ".." held + copies
  if (!show) return
  printf "show T: {a : {"
  for (i = 0; i < parts; i++) {
    if (i > 0) printf ", "
    print_part(i)
  }
  print (b ? "}, b : {}}" : "}}")
}

function print_statements(   i) {
  print "ins {a : {}} into T;"
  if (b) print "ins {b : {}} into T;"
  for (i = 0; i < parts; i++) {
    printf "ins {"
    print_part(i)
    print "} into T/a;"
  }
  print "commit;"
  for (i = 0; i < copies; i++) print "copy T/a into T/b;"
  if (copies) print "commit;"
  if (show) print "show T;"
}

BEGIN {
  if (replies) print_replies()
  else print_statements()
}
