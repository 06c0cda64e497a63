# Turns the lines of drawn.awk into statements of cpdb, after texts.awk.
$1 == "tree" {
  printf "ins {%s : {", $2
  for (i = 1; i <= $3; i++) printf "%s%d : {}", (i == 1 ? "" : ", "), i
  print "}} into T;"
}
$1 == "ins" { print "ins {" $2 " : " (texts ? "\"" text_of($2) "\"" : "{}") "} into T;" }
$1 == "copy" { print "copy T/" $2 " into T/" $3 ";" }
$1 == "del" { print "del " $2 " from T;" }
$1 == "commit" { print "commit;" }
$1 == "place" { print "src " $2 ";" }
