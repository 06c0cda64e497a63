# Draws a table of a Markdown document as a picture, in SVG: for each row its text, and bars for what it says in some columns. It is given
#   heading   the heading under which the table stands
#   columns   the heads of the columns to draw, with a | between them; a head may be left off after its first words
#   names     what these are called in the picture, with a | between them
#   note      a line below the title
#   scale     `row` where each row has bars of its own scale; `n` where the kind n counts as 1, since the others are ratios to it
# Rows that say the same but for their kind share their text, and get a bar for each kind. A bar is as long as the first number of its
# cell, whatever the unit is.
BEGIN {
  split(columns, head, "|")
  shown = split(names, name, "|")
  colors = split("#2f6fb3 #d9822b #3f9b6c #8a63b8", color, " ")
  text_width = 380
  bar_width = 330
  FS = "|"
}

/^## / { is_in = $0 == "## " heading }
is_in && /^\|/ && !width { read_heads(); next }
is_in && /^\|---/ { next }
is_in && /^\|/ { read_row() }
END { draw() }

function trimmed(text) {
  gsub(/^ +| +$|`/, "", text)
  return text
}

function read_heads(   i, j) {
  width = NF
  for (i = 2; i < NF; i++) {
    if (trimmed($i) == "Kind") kind_at = i
    for (j = 1; j <= shown; j++) if (index(trimmed($i), head[j]) == 1 && !(j in at)) at[j] = i
  }
}

# The first number of a cell, or -1.
function number_of(cell) {
  if (!match(cell, /[0-9][0-9,.]*/)) return -1
  cell = substr(cell, RSTART, RLENGTH)
  gsub(/,/, "", cell)
  return cell + 0
}

# The first number of a cell as it stands there, with its unit.
function label_of(cell) {
  return match(cell, /[0-9][0-9,.]*( (s|MB|µs))?/) ? substr(cell, RSTART, RLENGTH) : ""
}

# Bars stand in the order in which they come; first_of[] is where those of a text begin.
function read_row(   text, j, kind) {
  text = trimmed($2)
  kind = kind_at ? trimmed($kind_at) : ""
  if (!texts || text != line[texts] || (kind && kind in kinds_of_last)) {
    line[++texts] = text
    first_of[texts] = bars + 1
    split("", kinds_of_last)
  }
  kinds_of_last[kind]
  for (j = 1; j <= shown; j++) {
    if (!(j in at) || number_of($at[j]) < 0) continue
    value[++bars] = scale == "n" && kind == "n" ? 1 : number_of($at[j])
    says[bars] = (kind && shown == 1 ? kind "  " : "") label_of($at[j])
    hue[bars] = shown == 1 ? (kind ? kind_number(kind) : 1) : j
    if (value[bars] > most) most = value[bars]
  }
  last_of[texts] = bars
}

function kind_number(kind) {
  return kind == "n" ? 1 : kind == "t" ? 2 : kind == "h" ? 3 : 4
}

function escaped(text) {
  gsub(/&/, "\\&amp;", text)
  gsub(/</, "\\&lt;", text)
  gsub(/>/, "\\&gt;", text)
  return text
}

# Breaks a text into lines[] of at most 62 letters, and gives how many.
function broken(text,   words, n, i, count, now) {
  n = split(text, words, " ")
  count = 0
  now = ""
  for (i = 1; i <= n; i++) {
    if (now != "" && length(now) + length(words[i]) >= 62) {
      lines[++count] = now
      now = words[i]
    } else now = now (now == "" ? "" : " ") words[i]
  }
  lines[++count] = now
  return count
}

function draw_text(x, y, size, text, style) {
  printf "<text x=\"%d\" y=\"%d\" font-size=\"%d\"%s>%s</text>\n", x, y, size, style, escaped(text)
}

# The number whose bar has the whole width in row i.
function greatest(i,   j, found) {
  if (scale != "row") return most
  for (j = first_of[i]; j <= last_of[i]; j++) if (value[j] > found) found = value[j]
  return found
}

function draw_row(i,   count, j, tall, length_of_bar) {
  count = broken(line[i])
  for (j = 1; j <= count; j++) draw_text(10, y + 11 + 14 * (j - 1), 12, lines[j], "")
  tall = 14 * count
  for (j = first_of[i]; j <= last_of[i]; j++) {
    length_of_bar = greatest(i) > 0 ? value[j] / greatest(i) * bar_width : 0
    if (length_of_bar < 1) length_of_bar = 1
    printf "<rect x=\"%d\" y=\"%d\" width=\"%.1f\" height=\"11\" fill=\"%s\"/>\n", text_width, y + 1 + 14 * (j - first_of[i]), length_of_bar, color[hue[j]]
    draw_text(text_width + length_of_bar + 5, y + 11 + 14 * (j - first_of[i]), 11, says[j], "")
  }
  if (14 * (last_of[i] - first_of[i] + 1) > tall) tall = 14 * (last_of[i] - first_of[i] + 1)
  y += tall + 8
}

function height_of(i,   count) {
  count = broken(line[i])
  if (last_of[i] - first_of[i] + 1 > count) count = last_of[i] - first_of[i] + 1
  return 14 * count + 8
}

function draw_names(   j, x) {
  x = text_width
  for (j = 1; j <= shown; j++) {
    printf "<rect x=\"%d\" y=\"%d\" width=\"11\" height=\"11\" fill=\"%s\"/>\n", x, y + 1, color[j]
    draw_text(x + 16, y + 11, 12, name[j], "")
    x += 26 + 7 * length(name[j])
  }
  y += 22
}

function draw(   i, tall) {
  if (!texts) {
    print "bench/pictures: there is no table under the heading " heading >"/dev/stderr"
    exit 1
  }
  tall = 52 + (shown > 1 ? 22 : 0) + 4
  for (i = 1; i <= texts; i++) tall += height_of(i)
  printf "<svg xmlns=\"http://www.w3.org/2000/svg\" viewBox=\"0 0 800 %d\" width=\"800\" height=\"%d\" role=\"img\" font-family=\"sans-serif\" fill=\"#222\">\n", tall, tall
  print "<title>" escaped(heading ": " note) "</title>"
  printf "<rect width=\"800\" height=\"%d\" fill=\"#fff\"/>\n", tall
  draw_text(10, 22, 16, heading, " font-weight=\"bold\"")
  draw_text(10, 40, 12, note, "")
  y = 52
  if (shown > 1) draw_names()
  for (i = 1; i <= texts; i++) draw_row(i)
  print "</svg>"
}
