# What --help says of one command (`-v command=NAME`): the ways to call it with what they do, and what is said behind all ways.
# All of it, where no way is that command's.

function end_group() {
  if (is_asked) asked = asked group
  group = ""
  is_asked = is_told = 0
}

# whether a line shows a way to call the program
function is_way() {
  return /^usage: / || /^       [^ ]/
}

# whether a way is told in its own line: where the other ways are told in lines below them
function is_told_here() {
  return substr($0, column - 1, 2) ~ /^ [a-z]/
}

{ line[NR] = $0 }
!column && /^            / { match($0, /[^ ]/); column = RSTART }
END {
  for (row = 1; row <= NR && line[row] != ""; row++) {
    $0 = line[row]
    if (is_way()) {
      if (is_told) end_group()
      count = split($1 == "usage:" ? $3 : $2, names, "|")
      for (i = 1; i <= count; i++) if (names[i] == command) is_asked = 1
      if (is_told_here()) is_told = 1
    } else is_told = 1
    group = group $0 "\n"
  }
  end_group()
  if (asked == "") row = 1
  else printf "usage: %s", substr(asked, 8)
  for (; row <= NR; row++) print line[row]
}
