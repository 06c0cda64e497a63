# Turns the lines of drawn.awk into a script for the shell of SQLite, after texts.awk: the same tree, and its provenance, kept by hand.
# A node's path is its place with `/` at its end, so that a subtree is one range of paths, from P/ up to P0. Each
# operation takes the next Tid and writes a row for each place that it changes: I (inserted), D (dropped), or C with the
# place that was copied. No drawn copy has one of its places inside the other, so that a copy needs no table in between.
# At the end, where places are asked for, one query follows the copies of every place of the tree back to an insertion.
BEGIN {
  print ".bail on"
  print "CREATE TABLE node (path TEXT PRIMARY KEY, value) WITHOUT ROWID;"
  print "CREATE TABLE prov (tid INTEGER, op TEXT, loc TEXT, src TEXT, PRIMARY KEY (loc, tid)) WITHOUT ROWID;"
  print "INSERT INTO node VALUES ('T/', NULL);"
}

function subtree(l) { return "path >= 'T/" l "/' AND path < 'T/" l "0'" }

$1 != "commit" && $1 != "place" {
  if (!open) print "BEGIN;"
  open = 1
  tid++
}
$1 == "tree" {
  printf "INSERT INTO node VALUES ('T/%s/', NULL)", $2
  for (i = 1; i <= $3; i++) printf ", ('T/%s/%d/', NULL)", $2, i
  print ";"
  print "INSERT INTO prov SELECT " tid ", 'I', path, NULL FROM node WHERE " subtree($2) ";"
}
$1 == "ins" {
  print "INSERT INTO node VALUES ('T/" $2 "/', " (texts ? "'" text_of($2) "'" : "NULL") ");"
  print "INSERT INTO prov VALUES (" tid ", 'I', 'T/" $2 "/', NULL);"
}
$1 == "copy" {
  at = "'T/" $3 "' || substr(path, " length($2) + 3 ")"
  print "DELETE FROM node WHERE " subtree($3) ";"
  print "INSERT INTO node SELECT " at ", value FROM node WHERE " subtree($2) ";"
  print "INSERT INTO prov SELECT " tid ", 'C', " at ", path FROM node WHERE " subtree($2) ";"
}
$1 == "del" {
  print "INSERT INTO prov SELECT " tid ", 'D', path, NULL FROM node WHERE " subtree($2) ";"
  print "DELETE FROM node WHERE " subtree($2) ";"
}
$1 == "commit" {
  print "COMMIT;"
  open = 0
}
$1 == "place" { asked = 1 }

END {
  if (!asked) exit
  print "WITH RECURSIVE back(path, op, tid, src) AS ("
  print "  SELECT path, op, tid, src FROM node"
  print "    LEFT JOIN prov ON loc = path AND tid = (SELECT max(tid) FROM prov WHERE loc = path)"
  print "  UNION ALL"
  print "  SELECT back.path, p.op, p.tid, p.src FROM back"
  print "    LEFT JOIN prov p ON p.loc = back.src"
  print "      AND p.tid = (SELECT max(tid) FROM prov WHERE loc = back.src AND tid < back.tid)"
  print "    WHERE back.op = 'C'"
  print ")"
  print "SELECT 'src ' || rtrim(path, '/') || ': ' || CASE op WHEN 'I' THEN tid ELSE 'none' END FROM back"
  print "  WHERE op IS NOT 'C' ORDER BY 1;"
}
