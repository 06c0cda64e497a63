# Counts the records that the lines of drawn.awk leave in a kind. In the kinds t and ht each node carries where it stood when
# its transaction began, `new` where it didn't.
BEGIN { whole = kind == "t" || kind == "ht" }
$1 == "ins" { stood[$2] = "new" }
$1 == "copy" { stood[$3] = stood[$2] }
$1 == "del" { delete stood[$2] }
$1 == "ins" || $1 == "copy" || $1 == "del" { count += !whole }
$1 == "commit" && whole {
  for (node in stood) {
    count += stood[node] != node
    stood[node] = node
  }
  for (node in before) if (!(node in stood)) count++
  delete before
  for (node in stood) before[node]
}
END { print "records: " count }
