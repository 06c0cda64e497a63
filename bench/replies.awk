# Turns the lines of drawn.awk into the replies that cpdb has to give: each node carries the Tid of its insertion along. In
# the kinds t and ht a commit takes one Tid, else each operation does.
BEGIN { whole = kind == "t" || kind == "ht" }
function next_tid() {
  return whole ? low + 1 : ++tid
}
$1 == "tree" {
  born["T/" $2] = next_tid()
  for (i = 1; i <= $3; i++) born["T/" $2 "/" i] = born["T/" $2]
}
$1 == "ins" { born["T/" $2] = next_tid() }
$1 == "copy" { born["T/" $3] = born["T/" $2]; next_tid() }
$1 == "del" { delete born["T/" $2]; next_tid() }
$1 == "commit" {
  if (whole) tid = low + 1
  print "committed " (tid == low + 1 ? tid : low + 1 ".." tid)
  low = tid
}
$1 == "place" { print "src " $2 ": " ($2 in born ? born[$2] : "none") }
