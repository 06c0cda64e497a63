# Prints the statements of 10,000 commits below a place of five labels, and 50,000 questions to places of ten, of the word `ask`
# (`src` without it, `from` or `stats`); or the replies in a store of the kind.
BEGIN {
  if (!ask) ask = "src"
  if (!replies) print "ins {a : {b : {c : {d : {e : {f : {g : {h : {i : {0 : 0, 1 : 1, 2 : 2, 3 : 3, 4 : 4}}}}}}}}}} into T; commit;"
  else print "committed 1"
  for (i = 1; i <= 10000; i++) print (replies ? "committed " i + 1 : "ins {k" i " : " i "} into T/a/b/c/d/e; commit;")
  records = kind == "n" || kind == "t" ? 10014 : 10001
  stats = "stats: kind " kind ", tid 10001, transactions 10001, records " records ", nodes 10015, sources 0"
  for (i = 0; i < 50000; i++) {
    if (ask == "stats") print (replies ? stats : "stats;")
    else {
      place = ask " T/a/b/c/d/e/f/g/h/i/" i % 5
      print place (replies ? (ask == "from" ? ": new at 1" : ": 1") : ";")
    }
  }
}
