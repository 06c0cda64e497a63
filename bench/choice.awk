# Draws 14,000 operations in commits of five, from the seed of lcg.awk, after which it runs. They change a tree of 30,000 places: the root,
# 99 groups, and 7,475 records of three fields each. The source S has as many. The pattern is one of these:
#   insertions    a number is added at a new label to a group or a record
#   deletions     a record or a field is dropped
#   copies        a record of S, four places, is copied onto one of T
#   half          one of the first and the third, a half each
#   thirds        one of all three, a third each
#   rounds        a record is copied, three numbers are added to the new one, and its three fields are dropped; then the next one
# With want=tree or want=source it prints the JSON file of T's start or of S. Else it writes into the current folder what a store of the
# kind has to answer: the files `script` and `script.replies`, and for `stats`, and for `src`, `hist` and `mod` of `questions` places
# that the last tree has, the same two. Each place of T carries the steps of its past. Nothing is copied within T, so that in a step a
# place is the same, new, or from a place of S.
BEGIN {
  groups = 99
  all_records = 7475
  operations = 14000
  if (want == "tree" || want == "source") {
    print_tree(want == "tree" ? 0 : 500000)
    exit
  }
  whole = kind == "t" || kind == "ht"
  full = kind == "n" || kind == "t"
  make_tree()
  for (done = 1; done <= operations; done++) {
    operate()
    if (!whole) settle()
    if (done % 5 == 0) commit()
  }
  print "stats;" >"stats"
  print "stats: kind " kind ", tid " tid ", transactions " operations / 5 ", records " records + 0 ", nodes " live + groups + 1 ", sources 1" >"stats.replies"
  ask("src")
  ask("hist")
  ask("mod")
}

# ---- the tree

function group_of(i) { return "g" i % groups }

function print_tree(base,   g, i, comma) {
  for (g = 0; g < groups; g++) {
    printf "%s\"g%d\":{", (g == 0 ? "{" : ",\n"), g
    comma = ""
    for (i = g; i < all_records; i += groups) {
      printf "%s\"r%d\":{\"name\":\"n%d\",\"chrom\":%d,\"low\":%d}", comma, i, base + i, i % 23, base + 2 * i
      comma = ","
    }
    printf "}"
  }
  print "}"
}

# The places below the groups stand in alive[0] to alive[live - 1], the number of each in at[]; those of one node are the labels
# between the spaces of kids[]. A record's own number is that in its label.
function make_tree(   i, record) {
  live = 0
  for (i = 0; i < groups; i++) kids["g" i] = " "
  for (i = 0; i < all_records; i++) {
    record = group_of(i) "/r" i
    add(record, " ")
    add_fields(record)
  }
}

function add_fields(record) {
  add(record "/name", "")
  add(record "/chrom", "")
  add(record "/low", "")
}

function above(place) {
  sub(/\/[^\/]*$/, "", place)
  return place
}

function last(place) {
  sub(/.*\//, "", place)
  return place
}

# Adds a place: a node without children, " ", or a leaf, "".
function add(place, below) {
  at[place] = live
  alive[live++] = place
  kids[place] = below
  kids[above(place)] = kids[above(place)] last(place) " "
}

# Removes one place below which there is nothing.
function remove(place,   end) {
  end = alive[--live]
  alive[at[place]] = end
  at[end] = at[place]
  delete at[place]
  delete kids[place]
  sub(" " last(place) " ", " ", kids[above(place)])
}

# ---- the draws

function drawn_group() { return "g" drawn() % groups }

# A record that is there.
function drawn_record(   place) {
  do place = alive[drawn() % live]
  while (kids[place] == "")
  return place
}

# A group, or a record that is there, each with the same chance.
function drawn_node(   i) {
  i = drawn() % (groups + all_records)
  return i < groups ? "g" i : drawn_record()
}

function operate(   way) {
  if (pattern == "insertions") way = "ins"
  if (pattern == "deletions") way = "del"
  if (pattern == "copies") way = "copy"
  if (pattern == "half") way = drawn() % 2 ? "copy" : "ins"
  if (pattern == "thirds") {
    way = drawn() % 3
    way = way == 0 ? "ins" : way == 1 ? "del" : "copy"
  }
  if (pattern == "rounds") {
    way = (done - 1) % 7
    if (way == 0) copy(worked = drawn_record())
    else if (way < 4) insert(worked)
    else drop(worked "/" (way == 4 ? "name" : way == 5 ? "chrom" : "low"))
    return
  }
  if (way == "ins") insert(drawn_node())
  if (way == "del") drop(alive[drawn() % live])
  if (way == "copy") copy(drawn_record())
}

# ---- the operations

function say(statement) { print statement ";" >"script" }

# As the step begins to touch a place: whether it is there.
function touch(place) {
  if (!(place in was)) was[place] = place in at
}

function insert(node,   place) {
  place = node "/a" done
  say("ins {a" done " : " done "} into T/" node)
  touch(place)
  add(place, "")
  comes[place] = "new"
}

function take_away(place,   labels, count, i) {
  count = split(kids[place], labels, " ")
  for (i = 1; i <= count; i++) take_away(place "/" labels[i])
  touch(place)
  delete comes[place]
  remove(place)
}

function drop(place) {
  say("del " last(place) " from T/" above(place))
  take_away(place)
}

function copy(record,   i, origin) {
  i = drawn() % all_records
  origin = "S/" group_of(i) "/r" i
  say("copy " origin " into T/" record)
  take_away(record)
  touch(record)
  add(record, " ")
  comes[record] = origin
  add_fields(record)
  came("name", record, origin)
  came("chrom", record, origin)
  came("low", record, origin)
}

function came(label, record, origin) {
  touch(record "/" label)
  comes[record "/" label] = origin "/" label
}

# ---- the steps

# A step ends: its records are counted, and the pasts of what it has touched are written down.
function settle(   place) {
  tid++
  for (place in was) {
    if (place in at) place_came(place)
    else if (was[place]) place_went(place)
  }
  for (place in was) if (!(place in at)) forget(place)
  delete was
  delete comes
  delete lost
}

function place_came(place,   up) {
  up = above(place)
  if (full || !(up in comes) || !is_implied(comes[place], comes[up], last(place))) records++
  if (comes[place] == "new") {
    born[place] = tid
    copied[place] = ""
  } else {
    delete born[place]
    copied[place] = " " tid
  }
  past[place] = " " tid
}

function is_implied(own, of_above, label) {
  return own == "new" ? of_above == "new" : own == of_above "/" label
}

# What is gone has a record where what is left nearest above it is the same: each place of it, or the topmost alone.
function place_went(place,   up) {
  up = above(place)
  while (up in was && !(up in at)) up = above(up)
  if (up in comes) return
  if (full || up == above(place)) records++
  if (up == above(place) && !(up in lost)) {
    lost[up]
    past[up] = past[up] " " tid
  }
}

function forget(place) {
  delete born[place]
  delete copied[place]
  delete past[place]
}

function commit() {
  if (whole) settle()
  say("commit")
  print "committed " (tid == low + 1 ? tid : low + 1 ".." tid) >"script.replies"
  low = tid
}

# ---- the questions

function ask(word,   i, place) {
  for (i = 0; i < questions; i++) {
    place = word == "mod" ? drawn_record() : alive[drawn() % live]
    print word " T/" place ";" >word
    print word " T/" place ": " answer(word, place) >(word ".replies")
  }
}

function answer(word, place) {
  if (word == "src") return place in born ? born[place] : "none"
  if (word == "hist") return copied[place] ? substr(copied[place], 2) : "none"
  return in_order(past_below(place))
}

function past_below(place,   labels, count, i, found) {
  count = split(kids[place], labels, " ")
  found = past[place]
  for (i = 1; i <= count; i++) found = found past[place "/" labels[i]]
  return found
}

# The numbers of a text, rising, each once, or `none`.
function in_order(text,   numbers, count, i, j, kept, line) {
  count = split(text, numbers, " ")
  for (i = 2; i <= count; i++) {
    kept = numbers[i] + 0
    for (j = i - 1; j > 0 && numbers[j] + 0 > kept; j--) numbers[j + 1] = numbers[j]
    numbers[j + 1] = kept
  }
  for (i = 1; i <= count; i++) if (i == 1 || numbers[i] != numbers[i - 1]) line = line " " numbers[i]
  return line == "" ? "none" : substr(line, 2)
}
