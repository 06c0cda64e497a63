# Generates n operations, with a commit after every tenth and the last, from the seed of lcg.awk, after which it runs. The nodes `e0`,
# `e1` and so on below T are made, dropped, and replaced by one of ten nodes of the source G or by one of themselves, a fourth of the
# draws each; with fewer than four nodes one is made. It prints what `want` names, the last three as a store of the kind has to give it:
#   script     the statements, the load of G from the file `file` first
#   source     the JSON file of G, 31 nodes
#   question   `src` of the oldest node of the last tree
#   replies    the replies to the script
#   answer     the reply to the question
#   summary    the two lines of `gen`
# Each node carries where it stood as its step began: at a node's number, in G, or nowhere, `new`. Its leaves are as it is.
BEGIN {
  if (want == "source") {
    print_source()
    exit
  }
  whole = kind == "t" || kind == "ht"
  full = kind == "n" || kind == "t"
  if (want == "script") print "load G json \"file\";"
  if (want == "replies") print "loaded G 31"
  for (done = 1; done <= n; done++) {
    draw()
    if (!whole) settle()
    if (done % 10 == 0 || done == n) commit()
  }
  if (want == "question") print "src T/e" live[0] ";"
  if (want == "answer") print "src T/e" live[0] ": " (born[live[0]] ? born[live[0]] : "none")
  if (want == "summary") print_summary()
}

function print_source(   i) {
  for (i = 0; i < 10; i++) printf "%s\"g%d\":{\"a\":%d,\"b\":%d}", (i == 0 ? "{" : ","), i, i, i * i
  print "}"
}

# The next operation, which is printed in the script.
function draw(   r, at, m, q) {
  r = drawn()
  if (count < 4 || r % 4 == 0) {
    m = last++
    live[count++] = m
    become(m, "new", 0)
    say("ins {e" m " : {}} into T")
  } else if (r % 4 == 1) {
    m = live[int(r / 64) % count]
    become(m, "G", 1)
    say("copy G/g" int(r / 4) % 10 " into T/e" m)
  } else if (r % 4 == 2) {
    q = live[int(r / 4) % count]
    m = live[int(r / 65536) % count]
    say("copy T/e" q " into T/e" m)
    become(m, (q in stood ? stood[q] : q), has_leaves(q))
  } else {
    at = int(r / 4) % count
    m = live[at]
    for (count--; at < count; at++) live[at] = live[at + 1]
    become(m, "gone", 0)
    say("del e" m " from T")
  }
}

function say(statement) {
  if (want == "script") print statement ";"
}

# The node m has the data that stood there, with two leaves or none.
function become(m, there, leaves) {
  stood[m] = there
  now_has[m] = leaves
}

function has_leaves(m) {
  return m in stood ? now_has[m] : has[m]
}

# A step ends. What is the same has no record, and what was made and dropped in the step has none either.
function settle(   m, q) {
  tid++
  for (m in stood) {
    q = stood[m]
    if (q == m || (q == "gone" && !(m in has))) continue
    records += full ? 1 + 2 * (q == "gone" ? has[m] : now_has[m]) : 1
    if (q == "new") next_born[m] = tid
    else if (q != "G" && q != "gone") next_born[m] = born[q]
    next_copies[m] = (q == "new" ? 0 : q == "G" ? 1 : copies[q] + 1)
  }
  for (m in stood) {
    if (stood[m] == "gone") delete has[m]
    else has[m] = now_has[m]
    if (m in next_copies) {
      born[m] = next_born[m]
      copies[m] = next_copies[m]
    }
  }
  delete stood
  delete next_born
  delete next_copies
}

function commit() {
  if (whole) settle()
  if (want == "script") print "commit;"
  if (want == "replies") print "committed " (tid == low + 1 ? tid : low + 1 ".." tid)
  low = tid
  transactions++
}

function print_summary(   i, m, places, made, copied) {
  places = 1
  for (i = 0; i < count; i++) {
    m = live[i]
    places += 1 + 2 * has[m]
    made += born[m] != ""
    copied += copies[m] * (1 + 2 * has[m])
  }
  print "stats: kind " kind ", tid " tid ", transactions " transactions ", records " records ", nodes " places ", sources 1"
  print "gen: places " places ", born " made + 0 ", copies " copied + 0
}
