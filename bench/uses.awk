# A store of copies, for `uses`: a start tree with 10,000 empty nodes below T/r, 1,000 below T/c, and T/hot, a node with nine
# leaves; a source S with such a node g, and idle, which nobody takes. Each commit is a copy of ten places: the first 1,000
# of them of T/hot onto the nodes below T/c, the others of S/g onto those below T/r in turn. So the kind n has ten records of
# each commit. what is what is printed: `start`, `source`, `script`, the statements; `stats`, `hot` and `group`, the answers of
# `stats` and of `uses` of T/hot and S/g; `asked`, a trace of each place of T, and `traces`, the answers.

# text that begins with a brace or a comma: the label, and what stands there
function member(first, label, content) {
  return (first ? "{" : ",") "\"" label "\":" content
}

function leaves(    i, text) {
  for (i = 1; i <= 9; i++) text = text member(i == 1, "l" i, i)
  return text "}"
}

function nodes(letter, count,    i) {
  for (i = 0; i < count; i++) printf "%s", member(i == 0, letter i, "{}")
  printf "}"
}

# the numbers below count in the order of their labels: 0, 1, 10, 100, .., 2, ..
function in_order(count,    first) {
  size = 0
  order[size++] = 0
  for (first = 1; first <= 9 && first < count; first++) below(first, count)
}

function below(number, count,    digit) {
  order[size++] = number
  for (digit = 0; digit <= 9 && number * 10 + digit < count; digit++) below(number * 10 + digit, count)
}

function users(place, letter, name, count, last,    i) {
  in_order(count)
  printf "uses %s:", place
  for (i = 0; i < count; i++) printf " T/%s/%s%d", letter, name, order[i]
  print last
}

# asks for a place, or tells its trace, where it is of the last version
function told(place, past) {
  if (what == "asked") print "trace " place ";"
  else print "trace " place ": " place "@" past
}

# the places of one copy: target, its step, and what it was copied of
function told_copy(target, step, source,    i) {
  told(target, step ".." commits " < " origin(source, step, ""))
  for (i = 1; i <= 9; i++) told(target "/l" i, step ".." commits " < " origin(source, step, "/l" i))
}

function origin(source, step, label) {
  return source == "T/hot" ? source label "@0.." (step - 1) " < start" : source label
}

# the last step that copied S/g onto the node with this number
function last_step(number,    turns) {
  turns = int((commits - 1000 - 1 - number) / 10000)
  return 1001 + number + turns * 10000
}

function traces(    i, here) {
  here = "0.." commits " < start"
  told("T", here)
  told("T/c", here)
  for (i = 0; i < 1000; i++) told_copy("T/c/c" i, i + 1, "T/hot")
  told("T/hot", here)
  for (i = 1; i <= 9; i++) told("T/hot/l" i, here)
  told("T/r", here)
  for (i = 0; i < 10000; i++) told_copy("T/r/r" i, last_step(i), "S/g")
}

BEGIN {
  if (what == "start") {
    printf "{\"c\":"
    nodes("c", 1000)
    printf ",\"hot\":%s,\"r\":", leaves()
    nodes("r", 10000)
    print "}"
  } else if (what == "source") print "{\"g\":" leaves() ",\"idle\":1}"
  else if (what == "script") {
    print "load S json \"file\";"
    for (i = 0; i < 1000; i++) print "copy T/hot into T/c/c" i "; commit;"
    for (i = 1000; i < commits; i++) print "copy S/g into T/r/r" (i - 1000) % 10000 "; commit;"
  } else if (what == "stats") print "stats: kind n, tid " commits ", transactions " commits ", records " commits * 10 ", nodes 110013, sources 1"
  else if (what == "hot") users("T/hot", "c", "c", 1000, " T/hot")
  else if (what == "group") users("S/g", "r", "r", 10000, "")
  else {
    print what == "asked" ? "src T;" : "src T: none"
    traces()
  }
}
