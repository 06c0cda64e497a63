# Prints a CSV file: with shape=rows n rows of nine fields, the first under the header `key`; with shape=columns a header
# and one row of n columns; with shape=single n rows of one field.
BEGIN {
  if (shape == "rows") {
    print "key,name,chrom,low,high,strand,kind,unit,note"
    for (i = 0; i < n; i++) {
      printf "k%07d,n%d,%d,%d,%d,-1,gene,bp,\"short, and quoted\"\n", i, i, i % 23, i, i + 500
    }
  }
  if (shape == "columns") {
    for (i = 0; i < n; i++) printf "%sc%07d", (i == 0 ? "" : ","), i
    print ""
    for (i = 0; i < n; i++) printf "%s%d", (i == 0 ? "" : ","), i
    print ""
  }
  if (shape == "single") {
    print "a"
    for (i = 0; i < n; i++) print i
  }
}
