# A store with many versions, for `archive` and `at`: below T a thousand nodes, and in them leaves with numbers up to 100, at most
# ten in each. Each commit is ten drawn operations: most insert a leaf or drop one, some copy a leaf over another, some a node with
# its leaves over another. The first one inserts T/mark, which stays. It writes files: `start.json`; `statements`;
# `replies`; `log-n` and `log-t`, the log with MOMENT for each moment, where each operation is a step and where each commit is one;
# `archive-n` and `archive-t`, the answers of `archive`, by the contents that each place has after one step and after the next;
# `early` and `late`, the tree at T/g0 after a commit near the start and after one near the end; and `counts`, of commits, the
# first and the last of these two, paths, ranges by operations, ranges by commits, and the bytes of all operations in the store.

function leaf(group, number) {
  return "T/g" group "/l" number
}

# bytes of a path with a label of a group, and with one of its leaves
function group_bytes(group) {
  return 1 + length("g" group) + 1
}

# the place gets this content, "" for none
function change(group, number, content,    place) {
  place = group SUBSEP number
  if (!(place in was)) was[place] = held[place]
  if (content != "" && content != held[place]) begun++
  if (content != "" && !(place in ever)) {
    ever[place] = 1
    paths++
  }
  held[place] = content
}

function state_of(group,    i, text) {
  for (i = 0; i < 10; i++)
    if (held[group, i] != "") text = text (text == "" ? "" : ", ") "l" i " : " held[group, i]
  return "show T/g" group ": {" text "}"
}

function toggle(group, number,    content) {
  if (held[group, number] == "") {
    content = 1 + drawn() % 100
    print "ins {l" number " : " content "} into T/g" group ";" >"statements"
    bytes += 1 + group_bytes(group) + 3 + 9
    change(group, number, content)
  } else {
    print "del l" number " from T/g" group ";" >"statements"
    bytes += 1 + group_bytes(group) + 3
    change(group, number, "")
  }
}

function copy_leaf(group, number, other, second) {
  print "copy " leaf(group, number) " into " leaf(other, second) ";" >"statements"
  bytes += 1 + 2 + group_bytes(group) + 3 + group_bytes(other) + 3
  change(other, second, held[group, number])
}

function copy_group(group, other,    i) {
  print "copy T/g" group " into T/g" other ";" >"statements"
  bytes += 1 + 2 + group_bytes(group) + group_bytes(other)
  for (i = 0; i < 10; i++) change(other, i, held[group, i])
}

function operate(    r, group, number, other, second) {
  r = drawn() % 10
  group = drawn() % 1000
  other = drawn() % 1000
  number = drawn() % 10
  second = drawn() % 10
  if (r == 0 && group != other) copy_group(group, other)
  else if (r < 3 && held[group, number] != "" && held[other, second] != "") copy_leaf(group, number, other, second)
  else toggle(group, number)
}

function settle(    place) {
  for (place in was) if (held[place] != "" && held[place] != was[place]) settled++
  split("", was)
}

BEGIN {
  paths = 1001
  early = 1 + int(commits / 1000)
  late = commits - int(commits / 1000)
  printf "{" >"start.json"
  for (i = 0; i < 1000; i++) printf "%s\"g%d\":{}", (i == 0 ? "" : ","), i >"start.json"
  print "}" >"start.json"
  for (c = 1; c <= commits; c++) {
    for (o = 1; o <= 10; o++) {
      if (c == 1 && o == 1) {
        print "ins {mark : 1} into T;" >"statements"
        bytes += 1 + 1 + 5 + 9
        paths++
        begun++
        settled++
      } else operate()
    }
    print "commit;" >"statements"
    settle()
    print "commit " 10 * c - 9 ".." 10 * c " by \"\" at MOMENT, operations 10" >"log-n"
    print "commit " c " by \"\" at MOMENT, operations 10" >"log-t"
    if (c == early) print state_of(0) >"early"
    if (c == late) print state_of(0) >"late"
  }
  print "log: " commits >"log-n"
  print "log: " commits >"log-t"
  begun += 1001
  settled += 1001
  print "archive: versions " 10 * commits + 1 ", ranges " begun >"archive-n"
  print "archive: versions " commits + 1 ", ranges " settled >"archive-t"
  print commits, early, late, paths, begun, settled, bytes >"counts"
}
