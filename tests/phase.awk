# Turns the vectors into cases of the program `phase`, four lines each: name, argument, block as octal escapes, what is printed. In phase.txt a case is four
# lines and a blank one: name, block in hex, the output before a tie was no letter, the output; what is refused is refused with --all-het and --margins too. In
# solve.txt a case is a line: what is lent, both numbers, what the rooms hold afterwards: table, answer block, margins. 10, 11 and 13 are of rooms that the
# program does not lend.
function value(hex,   i, x) {
  x = 0
  for (i = 1; i <= length(hex); i++) x = x * 16 + index("0123456789abcdef", substr(hex, i, 1)) - 1
  return x
}
# a number of so many bytes from one on
function number(hex, at, count) { return sprintf("%d", value(substr(hex, 2 * at + 1, 2 * count))) }
function octal(hex,   i, bytes) {
  bytes = ""
  for (i = 1; i < length(hex); i += 2) bytes = bytes sprintf("\\%03o", value(substr(hex, i, 2)))
  return bytes
}
# sides or letters, so many from a byte on
function marks(hex, at, count,   i, text) {
  text = ""
  for (i = at; i < at + count; i++) text = text substr("01-", number(hex, i, 1) + 1, 1)
  return text
}
# what is printed of an answer block
function lines(hex,   n, m, sides) {
  n = number(hex, 13, 2)
  m = number(hex, 15, 2)
  sides = n > 0 ? marks(hex, 17, n) : "none"
  return "cost " number(hex, 5, 4) " | flips " number(hex, 9, 4) " | sides " sides " | hap1 " marks(hex, 17 + n, m) " | hap2 " marks(hex, 17 + n + m, m)
}
# the margins of both haplotypes, from a list of 2m numbers and more
function margins(list, m,   each, i, text) {
  split(list, each, ",")
  text = " | margin1"
  for (i = 1; i <= 2 * m; i++) text = text (i == m + 1 ? " | margin2" : "") " " each[i]
  return text
}
function put(name, argument, hex, printed) { print name "\n" argument "\n" octal(hex) "\n" printed }
/^#/ { next }
/^mode=/ {
  split($0, half, " -> ")
  split(half[1], given, /[ =]/)
  split(half[2], got, /[ =]/)
  if (got[1] == 10 || got[1] == 11 || got[1] == 13) next
  name = "line " FNR " of solve.txt"
  block = given[4] == "." ? "" : given[4]
  printed = got[1] == 0 ? lines(got[6]) : "refused " got[1] " at " got[2]
  put(name, given[2] == "het" ? "--all-het" : "", block, printed)
  if (given[2] == "general") put(name, "--margins", block, printed (got[1] == 0 ? margins(got[8], number(got[6], 15, 2)) : ""))
  next
}
!begun && /^$/ { begun = 1; next }
begun {
  line[++k] = $0
  if (k == 4) put(line[1], "", line[2], line[4])
  if (k == 4 && line[4] ~ /^refused/) put(line[1], "--all-het", line[2], line[4])
  if (k == 4 && line[4] ~ /^refused/) put(line[1], "--margins", line[2], line[4])
  k %= 5
}
