# Prints a JSON file: with shape=records an object of n objects with nine short members each, and nine texts; with
# shape=object one object of n numbers, with shape=array one array of n numbers; with shape=single an object of n objects
# with one number each.
BEGIN {
  printf (shape == "array" ? "[" : "{")
  for (i = 0; i < n; i++) {
    if (i > 0) print ","
    if (shape == "array") printf "%d", i
    else printf "\"k%07d\":", i
    if (shape == "object") printf "%d", i
    if (shape == "single") printf "{\"a\":%d}", i
    if (shape == "records") {
      printf "{\"name\":\"n%d\",\"chrom\":%d,\"low\":%d,\"high\":%d,\"strand\":-1,", i, i % 23, i, i + 500
      printf "\"known\":true,\"note\":null,\"kind\":\"gene\",\"unit\":\"bp\"}"
    }
  }
  if (shape == "records") {
    for (i = 1; i <= 9; i++) printf ",\n\"text%d\":\"one of nine texts\"", i
  }
  print (shape == "array" ? "]" : "}")
}
