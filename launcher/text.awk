# Texts of UTF-8 as bytes, in a C locale: the escapes of JSON, and how characters are shown.

BEGIN {
  for (code = 1; code < 256; code++) number_of[sprintf("%c", code)] = code
  named["b"] = "\b"; named["f"] = "\f"; named["n"] = "\n"; named["r"] = "\r"; named["t"] = "\t"
}

# Whether the bytes are UTF-8: nothing above ASCII is left when its characters are taken away.
function is_utf8(text) {
  if (text !~ /[\200-\377]/) return 1
  gsub(/[\302-\337][\200-\277]|\340[\240-\277][\200-\277]|[\341-\354\356\357][\200-\277][\200-\277]|\355[\200-\237][\200-\277]|\360[\220-\277][\200-\277][\200-\277]|[\361-\363][\200-\277][\200-\277][\200-\277]|\364[\200-\217][\200-\277][\200-\277]/, "", text)
  return text !~ /[\200-\377]/
}

# The inside of a string of JSON that has this text. Where awks differ on backslashes in what is put
# in, a letter that follows makes them agree.
function quoted(text,  code) {
  gsub(/\\/, "\\u005c", text)
  gsub(/"/, "\\u0022", text)
  if (text ~ /[\001-\037]/)
    for (code = 1; code < 32; code++) gsub(sprintf("%c", code), sprintf("\\u%04x", code), text)
  return text
}

function hex_value(digits,  at, value) {
  for (at = 1; at <= length(digits); at++)
    value = value * 16 + index("0123456789abcdef", tolower(substr(digits, at, 1))) - 1
  return value
}

# The bytes of a code point from 1 on.
function encoded(code) {
  if (code < 128) return sprintf("%c", code)
  if (code < 2048) return sprintf("%c%c", 192 + int(code / 64), 128 + code % 64)
  if (code < 65536) return sprintf("%c%c%c", 224 + int(code / 4096), 128 + int(code / 64) % 64, 128 + code % 64)
  return sprintf("%c%c%c%c", 240 + int(code / 262144), 128 + int(code / 4096) % 64, 128 + int(code / 64) % 64, 128 + code % 64)
}

# Prints the text that the inside of a string of JSON stands for, piece by piece: to join the pieces
# of a long string takes time with their square.
function print_unescaped(text,  parts, count, at, mark, code, low) {
  if (!index(text, "\\")) {
    printf "%s", text
    return
  }
  count = split(text, parts, /\\/)
  printf "%s", parts[1]
  for (at = 2; at <= count; at++) {
    if (parts[at] == "") {
      printf "\\%s", parts[++at]
      continue
    }
    mark = substr(parts[at], 1, 1)
    if (mark != "u") {
      printf "%s%s", mark in named ? named[mark] : mark, substr(parts[at], 2)
      continue
    }
    code = hex_value(substr(parts[at], 2, 4))
    if (code >= 55296 && code < 56320 && length(parts[at]) == 5 && substr(parts[at + 1], 1, 1) == "u") {
      low = hex_value(substr(parts[at + 1], 2, 4))
      if (low >= 56320 && low < 57344) {
        code = 65536 + (code - 55296) * 1024 + low - 56320
        at++
      }
    }
    if (code >= 55296 && code < 57344) code = 65533
    if (code) printf "%s%s", encoded(code), substr(parts[at], 6)
    else printf "%c%s", 0, substr(parts[at], 6)
  }
}

# Takes the character at the byte $at: its code point is `code` then, or -1 where the bytes there are
# no character, and its length `size`.
function take(text, at,  lead, byte, want) {
  lead = number_of[substr(text, at, 1)] + 0
  size = 1
  code = lead
  if (lead < 128) return
  want = lead < 194 ? 0 : lead < 224 ? 1 : lead < 240 ? 2 : lead < 245 ? 3 : 0
  code = want == 1 ? lead - 192 : want == 2 ? lead - 224 : lead - 240
  for (; size <= want; size++) {
    byte = number_of[substr(text, at + size, 1)] + 0
    if (byte < 128 || byte > 191) break
    code = code * 64 + byte - 128
  }
  if (!want || size <= want || !is_utf8(substr(text, at, size))) {
    code = -1
    size = 1
  }
}

# Whether a terminal must not get this character: a control, one that turns the direction of text, or
# what is no character.
function is_hidden(code) {
  return code < 32 || code >= 127 && code < 160 || code >= 8206 && code <= 8207 || code >= 8232 && code <= 8238 \
    || code >= 8294 && code <= 8297
}

# The first characters of a text, `most` at most. What a terminal must not get is shown by its bytes.
function shown(text, most,  at, count, made, inside) {
  for (at = 1; at <= length(text) && count < most; at += size) {
    take(text, at)
    if (code == 9) made = made "\\t"
    else if (!is_hidden(code)) made = made substr(text, at, size)
    else
      for (inside = 0; inside < size; inside++)
        made = made sprintf("\\x%02x", number_of[substr(text, at + inside, 1)])
    count++
  }
  return made
}
