# Adds notes to a file of the reference, all on the lines that are there, so that line numbers stay:
#   crate::hit(FILE * 10000 + LINE)   before each statement of a function: how often the line ran
#   crate::note(..)                   where Infeasible is returned: the counts that the Rust's own variables hold there
#   crate::note_kept(r), note_out(r, rewritten)   where a row is kept for validation or put out: its number
#   crate::number(PLACE, x)           x, counted where it is not a number: 1 a row's budget, 2 a row's sides and shift after a fold
# and 02's W1: plus zero is added to what a bound is rounded to, which makes plus zero of minus zero and leaves every other float.
# The patterns are pieces of src/presolve/mod.rs, work.rs and src/solver/tolerances.rs of microlp 0.7.0, changed only by notes.
# It rests on the text being laid out by rustfmt: an opening bracket that stays open ends its line, and a statement
# begins a line. Kinds on the stack: "b" a block of statements, "o" anything else.
function kind(text) {
  if (text ~ /fn / || text ~ /-> [^=]*\{$/ || text ~ /=> \{$/) return "b"
  if (text ~ /(^| )(struct|enum|impl|match|mod|use|trait) /) return "o"
  if (text ~ /^ *\{$/ || text ~ /(^| )(if|else|for|while|loop) / || text ~ /(^| )else \{$/ || text ~ /\| \{$/) return "b"
  return "o"
}
BEGIN { depth = 0; before = ";" }
{
  line = $0
  bare = line
  gsub(/"([^"\\]|\\.)*"/, "\"\"", bare)
  sub(/\/\/.*$/, "", bare)
  sub(/ +$/, "", bare)
  trimmed = bare
  sub(/^ +/, "", trimmed)
  if (trimmed == "" || trimmed ~ /^#/) { print line; next }
  starts = depth > 0 && stack[depth] == "b" && before ~ /[;{}]$/ && trimmed !~ /^([})\].?=<>]|else|\+|\|\||&&|[-*\/|] )/
  # counts and row numbers
  gsub(/return Err\(Error::Infeasible\)/, "{ " note_for(line) " & }", line)
  if (file == 1) {
    sub(/validation_rows\.push\(constraints\[row\.orig as usize\]\.clone\(\)\);/, "{ crate::note_kept(row.orig as usize); & }", line)
    sub(/[^_]out\.push\(constraints\[row\.orig as usize\]\.clone\(\)\);/, " { crate::note_out(row.orig as usize, false); & }", line)
    if (trimmed == "out.push((") sub(/out\.push\(\(/, "crate::note_out(row.orig as usize, true); &", line)
  }
  if (file <= 2) gsub(/\.(floor|ceil)\(\)/, "& + 0.0", line)
  if (file == 4) sub(/row_tolerance\(tol, magnitude\) - slack_margin\(tol, magnitude, terms\)/, "crate::number(1, &)", line)
  if (file == 2) sub(/row\.shift \+= shift;/, "& crate::number(2, [row.lo, row.hi, row.shift].into_iter().find(|x| x.is_nan()).unwrap_or(0.0));", line)
  if (starts) {
    match(line, /^ */)
    line = substr(line, 1, RLENGTH) "crate::hit(" (file * 10000 + NR) "); " substr(line, RLENGTH + 1)
  }
  print line
  # brackets left open or closed by the line
  for (i = 1; i <= length(bare); i++) {
    c = substr(bare, i, 1)
    if (c == "(" || c == "[") { depth++; stack[depth] = "o" }
    else if (c == "{") { depth++; stack[depth] = (substr(bare, i + 1) ~ /[^ ]/) ? "o" : kind(bare) }
    else if (c == ")" || c == "]" || c == "}") depth--
  }
  before = bare
}
function note_for(line) {
  if (file == 2) return "crate::note(self.stats);"
  if (line ~ /Some\(false\)/) return "crate::hit(" (file * 10000 + NR) "); crate::note(PresolveStats { rows_dropped: dropped_on_input, ..PresolveStats::default() });"
  return "crate::note(PresolveStats::default());"
}
