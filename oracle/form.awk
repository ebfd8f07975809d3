# Checks the form of recorded answers and what they meet; prints the number of cases.
# Each case: `I size bytes`, a listing as the driver prints it, a line with a dot.

function fail(what) {
  print "oracle: line " NR ": " what
  failed = 1
  exit 1
}

function number(word) {
  return word ~ /^[0-9]+$/
}

function hex(word) {
  return word == "-" || (word ~ /^[0-9a-f]+$/ && length(word) % 2 == 0)
}

function input() {
  if (NF != 3 || $1 != "I" || !number($2) || !hex($3)) fail("no input")
  inside = 1
  ended = 0
}

function values() {
  return $4 == 8 || $4 == 9 ? 1 : 0
}

function token() {
  if (!number($2) || !number($3) || !number($4) || $4 < 1 || $4 > 81) fail("no token")
  if (NF != 5 + values() || !hex($5)) fail("no text")
  kind[$4]++
}

function error() {
  if (NF != 5 || !number($2) || !number($3) || !number($4) || $5 < 1 || $5 > 12) fail("no error")
  errors[$5]++
}

function final() {
  if ($1 == "L" ? NF != 2 || !number($2) : NF != 1) fail("no end")
  ends[$1]++
  ended = 1
}

/^#/ { next }
!inside { input(); next }
$0 == "." { if (!ended) fail("a listing without an end"); inside = 0; cases++; next }
ended { fail("something after the end") }
number($1) { token(); next }
$1 == "E" { error(); next }
$1 == "L" || $1 == "P" || $1 == "U" { final(); next }
{ fail("no line of a listing") }

END {
  if (failed) exit 1
  if (inside) fail("a case without its dot")
  for (k = 1; k <= 81; k++) if (!kind[k]) fail("no token of kind " k)
  for (k = 1; k <= 12; k++) if (!errors[k]) fail("no error " k)
  if (!ends["L"] || !ends["P"] || !ends["U"]) fail("no listing, no panic or no text that is not UTF-8")
  if (cases < 2000) fail("only " cases " cases")
  print cases
}
