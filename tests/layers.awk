# A block of version 2 as octal escapes: 1,024 reads of five, four or nine entries in five layers over 1,024 columns. Three layers have letter 0, two
# letter 1; every weight is 65,535.
function byte(x) { return sprintf("\\%03o", x) }
function word(x) { return byte(int(x / 256)) byte(x % 256) }
function read(first, cells, letter,   bytes, i) {
  bytes = word(2 + 3 * cells) word(first)
  for (i = 0; i < cells; i++) bytes = bytes byte(letter) byte(255) byte(255)
  return bytes
}
function layer(reads, letter,   bytes, i) {
  bytes = ""
  for (i = 0; i < reads - 1; i++) bytes = bytes read(5 * i, 5, letter)
  return bytes read(5 * i, 1024 - 5 * i, letter)
}
BEGIN {
  reads = layer(205, 0) layer(205, 0) layer(205, 0) layer(205, 1) layer(204, 1)
  length_field = 4 + length(reads) / 4
  printf "%s", byte(2) word(int(length_field / 65536)) word(length_field % 65536) word(1024) word(1024) reads
}
