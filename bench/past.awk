# Prints for each place that drawn.awk asks for, but T, its label, and the commits through which its data has come: the one that inserted
# it, and those that copied it. Each node carries them along; a commit counts by what it changes at last.
$1 == "ins" { stood[$2] = "new" }
$1 == "copy" { stood[$3] = $2 in stood ? stood[$2] : $2 }
$1 == "del" { stood[$2] = "gone" }
$1 == "commit" {
  number++
  for (node in stood) if (stood[node] != "new" && stood[node] != "gone") kept[node] = past[stood[node]]
  for (node in stood) {
    if (stood[node] == "gone") delete past[node]
    else if (stood[node] == "new") past[node] = number
    else if (stood[node] != node) past[node] = kept[node] " " number
  }
  delete stood
  delete kept
}
$1 == "place" && $2 != "T" { print substr($2, 3), past[substr($2, 3)] }
