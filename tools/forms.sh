#!/usr/bin/env bash
# How many places in crates/*/src have each of the forms that docs/DESIGN-PASS.md counts.
#   tools/forms.sh          of the files as they stand
#   tools/forms.sh COMMIT   of a commit
#   tools/forms.sh -l ..    each place with its line
set -eu
cd "$(dirname "$0")/.."
list=
if [ "${1-}" = -l ]; then
  list=1
  shift
fi
at=${1-}

places() {
  git grep -nE "$1" $at -- 'crates/*/src/*.rt' || true
}

form() {
  printf '%5d  %s\n' "$(places "$2" | wc -l)" "$1"
  if [ -n "$list" ]; then
    places "$2" | sed 's/^/         /'
  fi
}

echo '1  own Option and Result'
form 'a variant of an enum for nothing, for a failure or for no failure' '^    (Bad|Other|End|Done|Failed),'
form 'answers with an outcome beside the values' 'outcome: (Outcome|Result<\(\), Refusal>),'
form 'a flag, or a number that is 0 for none, beside a value' '^    (pub )?(hit|found|refused): bool,|^    (pub )?refusal: u64,|^    (pub )?last: isize,'
form 'numbers for kinds' 'wires::(RAND|PUB|XOR|AND|NOT)\b|^pub const (RAND|PUB|XOR|AND|NOT): u8|code: u8'
echo '2  twins'
form 'functions that differ in a count, a size or a constant' '^(pub )?fn (with_(one|two|three)|of_(one|two|three)|(one|two|three)_digits?|put_line[123]|is_(rand|pub)|(rands|pubs)_of|(lower|higher)|(share|rand|one)_bit|bit_if|(share|rand)_cones|own_rands|(needed|padded)_not|not_(run|written)|put_(number|printed)|one_if)\('
echo '3  loops that count by hand'
form 'while and loop' '^ *(while|loop)\b'
echo '4  equality, conversion and printing by hand'
form 'equality' '^(pub )?fn (is_same|same_[a-z]+|holds)\('
form 'conversion' '^(pub )?fn (wide|low_byte|one_if|value_byte|code|kind_of|turned|without|words?|outcome_number)\('
form 'a match over all six kinds' 'Kind::Share =>'
form 'sums and differences by a function' 'std::num::wrapping_'
echo '5  parameters that travel together'
form 'at, buf' 'at: usize, buf: &mut \[u8\]'
form 'probe, leaf' 'probe: \[bool; 128\], leaf: \[bool; 128\]|^    probe: \[bool; 128\],'
form 'shares, rands, own' '^ *(shares|rands): &\[u64; 128\],'
echo '6  a buffer with a length beside it'
form 'n, ws' '\bn: usize, (ws|vs): \[Wire; 128\]|^    ws: \[Wire; 128\],|m: usize, ws: \[Wire; 128\]'
form 'places, len' 'places: \[u8; 4\], len: usize'
form 'src, len' 'src: &\[u8\], (from: usize, to|len): usize'
echo '7  a switch on which step to run'
form 'a match on a part or a judgement' '^ *match (which|p|part) \{'
echo '   temporaries that the older language needed'
form 'let next, then the assignment' '^ *let next = '
echo '8  proofs'
proofs() {
  git grep -E "$1" $at -- 'crates/*/proofs/*.antt' || true
}
printf '%5d  %s\n' "$(proofs '^pub [^ ]+ : goal\.' | wc -l)" 'answers to goals'
printf '%5d  %s\n' "$(proofs '^abbrev pub decreases-' | wc -l)" 'measures'
printf '%5d  %s\n' "$(proofs '^use (mathlib|Prim|borrow|lib|native)\.' | wc -l)" "imports by the library's inner paths"
