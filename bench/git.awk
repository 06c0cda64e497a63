# Turns the lines of drawn.awk into what git takes, after texts.awk: each node is a file, which holds its text.
#   want=stream   a stream for `git fast-import`, of one commit for each of theirs, whose message is its number
#   want=calls    a script for the shell of the first `calls` commits: the files are written, copied and removed, and then comes
#                 a call of `git add` and one of `git commit`
$1 == "ins" || $1 == "copy" || $1 == "del" {
  if (want == "stream" && !open) print "commit refs/heads/main\ncommitter Bench <bench> " 1795910400 + number " +0000\ndata <<END\n" number + 1 "\nEND"
  open = 1
}
want == "stream" {
  if ($1 == "ins") print "M 100644 inline " $2 "\ndata <<END\n" text_of($2) "\nEND"
  if ($1 == "copy") print "C " $2 " " $3
  if ($1 == "del") print "D " $2
}
want == "calls" {
  if ($1 == "ins") print "echo '" text_of($2) "' >" $2
  if ($1 == "copy") print "cp " $2 " " $3
  if ($1 == "del") print "rm " $2
  if ($1 == "commit") print "git add -A && git commit -q --allow-empty -m " number + 1 " || exit"
}
$1 == "commit" {
  open = 0
  if (++number == calls) exit
}
