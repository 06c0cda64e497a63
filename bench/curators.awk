# Prints insertions of curators into the first nodes of a tree of `json.awk`: `each` of each of `count` curators, in one transaction,
# which he then gives up. With shape=turns an insertion of each comes in turn, so that all transactions are open at once; with
# shape=one all transactions are one curator's, one after another; with shape=none too, and nobody is named. With replies=1 it
# prints the replies.
function tell(curator, statement) {
  if (shape == "none") print statement ";"
  else print "@c" (shape == "one" ? 0 : curator) " " statement ";"
}

function insert(curator, number) {
  tell(curator, sprintf("ins {r%d : %d} into T/k%07d", number, number, curator))
}

function turns(    i, curator) {
  for (i = 1; i <= each; i++) for (curator = 0; curator < count; curator++) insert(curator, i)
  for (curator = 0; curator < count; curator++) tell(curator, "abort")
}

function one_after_another(    i, curator) {
  for (curator = 0; curator < count; curator++) {
    for (i = 1; i <= each; i++) insert(curator, i)
    tell(curator, "abort")
  }
}

function reply(    curator) {
  for (curator = 0; curator < count; curator++) print (shape == "none" ? "" : "@c" (shape == "one" ? 0 : curator) " ") "aborted " each
}

BEGIN {
  if (replies) reply()
  else if (shape == "turns") turns()
  else one_after_another()
}
