# text_of(LABEL) is the text that a drawn node holds where -v texts=N is more than 0: with 1 a text of its own, else one of N texts, which
# its number picks. All are long enough for git to follow them.
function text_of(label) {
  return (texts == 1 ? "the node " label " has this text, and no other node was made with it" : "this is text " substr(label, 2) % texts " of " texts ", which many of the nodes were made with")
}
