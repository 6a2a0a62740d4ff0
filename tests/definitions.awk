# Turns the vectors into equations of antt. In phase.txt a case is four lines and a blank one: name, block in hex, the output before a tie was no letter, the
# output. In solve.txt a case is a line: what is lent, both numbers, what the rooms hold afterwards. Those of the general mode are calls with margins: that a
# call without them is the same but for 13 is a theorem. In convert.txt a case is a line too, with one room.
function value(s,   i, x) {
  x = 0
  for (i = 1; i <= length(s); i++) x = x * 16 + index("0123456789abcdef", tolower(substr(s, i, 1))) - 1
  return x
}
function bytes(hex,   i, l) {
  l = ""
  for (i = 1; i < length(hex); i += 2) l = l value(substr(hex, i, 2)) " ∷ "
  return "(" l "[])"
}
function letters(s,   i, l) {
  l = ""
  if (s == "none") return "[]"
  for (i = 1; i <= length(s); i++) l = l (substr(s, i, 1) == "-" ? 2 : substr(s, i, 1)) " ∷ "
  return "(" l "[])"
}
function numbers(s) {
  if (s == ".") return "[]"
  gsub(",", " ∷ ", s)
  return "(" s " ∷ [])"
}
# one call that phases as an equation, with its run of margins where it has one
function phased(called, given, got, margins,   lent, held) {
  lent = sprintf("%s (replicate %s 2779096485) (replicate %s 165)", bytes(given[4] == "." ? "" : given[4]), given[6], given[8])
  held = sprintf("work = %s; out = %s", numbers(got[4]), bytes(got[6] == "." ? "" : got[6]))
  if (margins) {
    lent = sprintf("%s (replicate %s 2779096485)", lent, given[10])
    held = sprintf("%s; margins = %s", held, numbers(got[8]))
  }
  printf "\nvector_%d : %s %s\n", ++made, called, lent
  printf "    ≡ record { number = %s; second = %s; %s }\n", got[1], got[2], held
  printf "unfolding opened\nvector_%d = refl\n", made
}
# whether all divisions of so many reads can be gone through
function few(n, m) { return 2 ^ n * (n + 1) * m <= 3000 }
BEGIN {
  print "use Rattle.std.specs.Prelude.{◌≡◌, refl, [], ◌∷◌, replicate}"
  print "use Rattle.meaning.specs.Block.{latest, matrix_of}"
  print "use Rattle.meaning.specs.Charge.{charge, least_cost}"
  print "use Rattle.meaning.specs.Letters.{general, heterozygous}"
  print "use Rattle.meaning.specs.Answer.{answer, answer_bytes}"
  print "use Rattle.meaning.specs.Refusals.{passed, refusal}"
  print "use Rattle.meaning.specs.Call.{call_with}"
  print "use Rattle.meaning.specs.Margins.{margin_call}"
  print "use Rattle.meaning.specs.Convert.{converting}"
  print "use Rattle.meaning.specs.Opened.{opened}"
}
/^#/ { next }
/^mode=/ {
  split($0, half, " -> ")
  split(half[1], given, /[ =]/)
  split(half[2], got, /[ =]/)
  block = given[4]
  if (length(block) > 1200 || (got[1] == 0 && !few(value(substr(block, 15, 4)), value(substr(block, 11, 4))))) next
  if (given[2] == "het") phased("call_with heterozygous latest", given, got, 0)
  else phased("margin_call", given, got, 1)
  next
}
/^block=/ {
  split($0, half, " -> ")
  split(half[1], given, /[ =]/)
  split(half[2], got, /[ =]/)
  printf "\nvector_%d : converting %s (replicate %s 165)\n", ++made, bytes(given[2] == "." ? "" : given[2]), given[4]
  printf "    ≡ record { number = %s; second = %s; out = %s }\n", got[1], got[2], bytes(got[4] == "." ? "" : got[4])
  printf "unfolding opened\nvector_%d = refl\n", made
  next
}
!begun && /^$/ { begun = 1; next }
begun {
  line[++k] = $0
  k %= 5
  if (k != 4) next
  block = line[2]
  m = value(substr(block, 11, 4)); n = value(substr(block, 15, 4))
  split(line[4], word, /[ |]+/)
  at = bytes(block)
  if (word[1] == "refused") {
    if (length(block) > 1200) next
    printf "\nvector_%d : refusal latest %s 16384 70000 ≡ record { number = %s; second = %s }\n", ++made, at, word[2], word[4]
    printf "unfolding opened\nvector_%d = refl\n", made
  } else {
    if (!few(n, m)) next
    printf "\nvector_%d : (refusal latest %s 16384 70000 ≡ passed) × (least_cost charge (matrix_of %s) ≡ %s) × ", ++made, at, at, word[2]
    printf "(answer general (matrix_of %s) ≡ answer_bytes %s %s %s %s %s)\n", at, word[2], word[4], letters(word[6]), letters(word[8]), letters(word[10])
    printf "unfolding opened\nvector_%d = (refl, refl, refl)\n", made
  }
}
