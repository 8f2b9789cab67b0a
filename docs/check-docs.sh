#!/usr/bin/env bash
# Compares what README.md, docs/ and examples/ show with what is there:
# - a fenced block under `<!-- file: PATH -->` with that file, whole;
# - a fenced block under `<!-- output: COMMAND -->` with what the command prints; it must end with status 0, or with N
#   under `<!-- output N: COMMAND -->`. In the block a line `...` stands for any lines, and what follows a word and two
#   spaces is a note;
# - a fenced block under `<!-- session -->`: a line `$ COMMAND`, and below it what that command prints, in the same way;
#   each must end with status 0, or with N under `<!-- session N -->`;
# - the commands of a fenced block in which a line begins with `./mm_tool ` are run, and each must end with status 0, or
#   with N under `<!-- status N -->`;
# - the commands of a fenced block under `<!-- unproved -->` are run in the same way where the toolchain is installed;
# - each command of README.md that names a file of the repository names one that can be run; and one line of README.md
#   has the whole name of the kit that `mm_tool --version` prints;
# - each file that a link or a path of any document names is there, and so is each heading that a document, a source or
#   a script cites: docs/links;
# - each name in code style in a crate's README stands in the sources of that crate, or of another that it names; the
#   list of crates of docs/ARCHITECTURE.md has those of crates.txt; and each promise of docs/PROMISES.md names something
#   of its crates;
# - each must-fail edit is named in docs/PROMISES.md in a sentence that begins with 'Refused:', each edit named there is
#   there, each promise names one, and there are at most as many as the gate has time for; docs/TRUST.md tells how many
#   there are, and how many lines: docs/sizes;
# - THIRD-PARTY-NOTICES.txt has the notices of the kit's crates, where the kit is installed: dist/notices;
# - each must-fail edit changes a function that the program or the library for C runs: docs/reached; each edit of
#   both tiers can be applied: bench/wrong-bodies --applied;
# - each name in code style in docs/ARCHITECTURE.md, docs/READING.md and docs/PROMISES.md stands in some source;
# - each definition that a clause of a public function or docs/PROMISES.md names has words: docs/definitions;
# - each function of a picture of docs/ARCHITECTURE.md stands in the file that stands beside it;
# - each refusal of mm_base's table has one row in the tables of refusals of docs/FORMATS.md, with its number, its name
#   and the words of mm_told, and what `check` finds has a row with its words; docs/refusals.txt names a test for each,
#   and that test and its crate are there.
# The commands of one document are run one after another in one new folder, in which the top of the repository is seen,
# but not its folder out. The program must be built from the sources that are there: `./mm_tool --help` builds it.
# Prints one line where all is well.
set -u
top=$(cd "$(dirname "${BASH_SOURCE[0]}")/.." && pwd)
work=$(mktemp -d)
trap 'rm -rf "$work"' EXIT
blocks=0 failures=0 unbuilt=0

fail() {
  printf 'docs: %s\n' "$*"
  failures=$((failures + 1))
}

# The lines of $work/wanted without notes, in `wanted`. A line that begins with spaces is indented, and no note.
read_wanted() {
  mapfile -t wanted < <(sed -E 's/([^ ])  .*$/\1/' "$work/wanted")
}

# Whether the lines of $work/printed are those of $work/wanted.
is_printed() {
  local got at=0 skips=0 line wanted
  read_wanted
  mapfile -t got <"$work/printed"
  for line in "${wanted[@]}"; do
    if [ "$line" = ... ]; then
      skips=1
      continue
    fi
    while [ "$skips" = 1 ] && [ "$at" -lt "${#got[@]}" ] && [ "${got[$at]}" != "$line" ]; do
      at=$((at + 1))
    done
    [ "$at" -lt "${#got[@]}" ] && [ "${got[$at]}" = "$line" ] || return 1
    at=$((at + 1)) skips=0
  done
  [ "$skips" = 1 ] || [ "$at" = "${#got[@]}" ]
}

# Runs a command in the document's folder; what it prints goes to $work/printed.
run() {
  (cd "$room" && bash -c "$1") >"$work/printed" 2>"$work/errors" </dev/null
}

check_file() {
  blocks=$((blocks + 1))
  if ! diff -u "$top/$1" "$work/block" >"$work/differs" 2>&1; then
    fail "$place: the block is not $1"
    cat "$work/differs"
  fi
}

# Takes a command and the status with which it must end; what it must print stands in $work/wanted.
check_printed() {
  local command=$1 wants=$2 status
  run "$command"
  status=$?
  if [ "$status" != "$wants" ]; then
    fail "$place: status $status and not $wants of: $command"
    head -n 5 "$work/printed" "$work/errors"
  elif ! is_printed; then
    fail "$place: another output of: $command"
    read_wanted
    diff <(printf '%s\n' "${wanted[@]}") "$work/printed" | head -n 20
  fi
}

# Takes a marker `output: COMMAND` or `output N: COMMAND`.
check_output() {
  local wants=${1%%:*}
  wants=${wants#output} wants=${wants# }
  blocks=$((blocks + 1))
  cp "$work/block" "$work/wanted"
  check_printed "${1#*: }" "${wants:-0}"
}

# Takes a marker `session` or `session N`.
check_session() {
  local wants=${1#session} line command=""
  wants=${wants# } wants=${wants:-0}
  blocks=$((blocks + 1))
  while IFS= read -r line; do
    if [ "${line#\$ }" = "$line" ]; then
      printf '%s\n' "$line" >>"$work/wanted"
    else
      if [ -n "$command" ]; then check_printed "$command" "$wants"; fi
      command=${line#\$ }
      : >"$work/wanted"
    fi
  done <"$work/block"
  check_printed "$command" "$wants"
}

# Takes the status with which each command of the block must end.
check_commands() {
  local command status
  blocks=$((blocks + 1))
  while IFS= read -r command; do
    run "$command"
    status=$?
    if [ "$status" != "$1" ]; then
      fail "$place: status $status and not $1 of: $command"
      head -n 5 "$work/printed" "$work/errors"
    fi
  done <"$work/block"
}

# What the toolchain runs without a proof takes a minute or two, and needs no built program.
check_unproved() {
  if command -v rt >/dev/null; then
    check_commands 0
  else
    echo "docs: $place is passed over: the command rt is not installed"
  fi
}

when_built() {
  if [ "$is_ready" = 1 ]; then "$@"; else unbuilt=$((unbuilt + 1)); fi
}

# One fenced block, in $work/block, with the marker above it.
check_block() {
  case $marker in
    file:*) check_file "${marker#file: }" ;;
    output*) when_built check_output "$marker" ;;
    session*) when_built check_session "$marker" ;;
    status*) when_built check_commands "${marker#status }" ;;
    unproved) check_unproved ;;
    *) if grep -q '^\./mm_tool ' "$work/block"; then when_built check_commands 0; fi ;;
  esac
  marker=""
}

check_blocks() {
  local line fenced=0 number=0 marker=""
  local marked='^<!-- ((file|output|output [0-9]+): .*|(status|session) [0-9]+|session|unproved) -->$'
  while IFS= read -r line || [ -n "$line" ]; do
    number=$((number + 1))
    case $fenced$line in
      '0```'*) fenced=1 place="$document line $number" && : >"$work/block" ;;
      '1```') fenced=0 && check_block ;;
      1*) printf '%s\n' "$line" >>"$work/block" ;;
      *)
        if [[ $line =~ $marked ]]; then
          marker=${BASH_REMATCH[1]}
        elif [ -n "$line" ]; then
          marker=""
        fi
        ;;
    esac
  done <"$top/$document"
}

# The links, paths and headings that documents, sources and scripts name.
check_links() {
  local line
  "$top/docs/links" >"$work/broken" 2>&1 && return
  while IFS= read -r line; do fail "$line"; done <"$work/broken"
}

# The commands of README.md that are files of the repository.
check_readme_commands() {
  local command
  while IFS= read -r command; do
    [ -x "$top/$command" ] && [ -f "$top/$command" ] || fail "README.md: $command cannot be run"
  done < <(grep -oE '(^|`)(\./mm_tool|\.ci/run|(dist|docs|bench|bindings)/[a-z_/-]+)( |`|$)' "$top/README.md" |
    grep -oE '[a-z./_-]*[a-z]' | sort -u)
}

# The kit of README.md is the one that the program tells, which the script mm_tool looks for.
check_kit() {
  local kit
  kit=$(sed -nE 's/.*\\n(rattle-kit-[^\\"]*).*/\1/p' "$top/crates/mm_command_line/src/version.rt")
  [ -n "$kit" ] || fail 'crates/mm_command_line/src/version.rt names no kit'
  grep -qF -- "\`$kit\`" "$top/README.md" || fail "README.md: no line has the kit of version.rt whole: $kit"
}

# The names in code style of standard input: of two letters or more, without path and parentheses.
names() {
  grep -oE '`([A-Za-z_0-9]+::)*[A-Za-z_][A-Za-z_0-9]+(\(\))?`' | tr -d '`()' | sed 's/.*:://' | sort -u
}

# The folders of the crates that standard input names in code style.
crates_named() {
  names | while IFS= read -r name; do
    if [ -d "$top/crates/$name" ]; then printf '%s\n' "$top/crates/$name"; fi
  done
}

# Whether a name is that of a crate, or stands in the sources of one of these folders.
stands_in() {
  local name=$1
  shift
  [ -d "$top/crates/$name" ] || grep -rqw --include='*.rt' --include='*.antt' --exclude-dir=out -- "$name" "$@"
}

# The names of a crate's README.
check_crate_names() {
  local crate=$1 name folders
  mapfile -t folders < <(crates_named <"$top/crates/$crate/README.md")
  while IFS= read -r name; do
    stands_in "$name" "$top/crates/$crate" "${folders[@]}" ||
      fail "crates/$crate/README.md: $name stands in no source of the crates that it names"
  done < <(names <"$top/crates/$crate/README.md")
}

# The names of the pages that lead through the sources.
check_page_names() {
  local page name
  {
    ls "$top/crates"
    find "$top"/crates/*/must-fail "$top"/crates/*/wrong-bodies -name '*.edit' -exec basename -s .edit {} +
    grep -rhowE --include='*.rt' --include='*.antt' --exclude-dir=out '[A-Za-z_][A-Za-z_0-9]+' "$top/crates"
  } | sort -u >"$work/known"
  for page in ARCHITECTURE READING PROMISES; do
    while IFS= read -r name; do
      fail "docs/$page.md: $name stands in no source"
    done < <(names <"$top/docs/$page.md" | comm -23 - "$work/known")
  done
}

# The list of crates of docs/ARCHITECTURE.md: a row for each crate that stands above the line `# Tools` of crates.txt,
# in that order, and no other.
check_crate_rows() {
  sed '/^# Tools/q' "$top/crates.txt" | grep -oE '^[a-z_0-9]+' >"$work/crates"
  grep -E '^- \[`[a-z_0-9]+`\]\(\.\./crates/' "$top/docs/ARCHITECTURE.md" | cut -d '`' -f 2 >"$work/rows"
  diff "$work/crates" "$work/rows" || fail "docs/ARCHITECTURE.md: the list of crates has other rows than crates.txt"
}

# Each promise of docs/PROMISES.md whose heading names a crate.
check_promises() {
  local heading name folders found
  while IFS= read -r heading; do
    mapfile -t folders < <(crates_named <<<"$heading")
    found=0
    while IFS= read -r name; do
      if [ ! -d "$top/crates/$name" ] && stands_in "$name" "${folders[@]}"; then found=1; fi
    done < <(awk -v heading="$heading" '/^## /{inside = ($0 == heading); next} inside' "$top/docs/PROMISES.md" | names)
    [ "$found" = 1 ] || fail "docs/PROMISES.md: '${heading#\#\# }' names nothing of its crates"
  done < <(grep -E '^## .*`mm_' "$top/docs/PROMISES.md")
}

# The headings of docs/PROMISES.md that name a crate or a promise, and the edits named below each in sentences that
# begin with 'Refused:', separated by tabs.
refused_in_promises() {
  awk -v RS= '
    /^## / { heading = $0; next }
    { while (match($0, /Refused:[^.]*\./)) {
        told = substr($0, RSTART, RLENGTH)
        $0 = substr($0, RSTART + RLENGTH)
        while (match(told, /`[^`]*`/)) {
          print heading "\t" substr(told, RSTART + 1, RLENGTH - 2)
          told = substr(told, RSTART + RLENGTH)
        }
      } }' "$top/docs/PROMISES.md"
}

# The edits that docs/PROMISES.md names, as CRATE/NAME. One with no crate before its name is of a crate of the heading.
edits_in_promises() {
  local heading edit folder
  while IFS=$'\t' read -r heading edit; do
    if [ "${edit%/*}" != "$edit" ]; then
      printf '%s\n' "$edit"
      continue
    fi
    while IFS= read -r folder; do
      if [ -f "$folder/must-fail/$edit.edit" ]; then printf '%s/%s\n' "$(basename "$folder")" "$edit"; fi
    done < <(crates_named <<<"$heading") | grep . || printf '%s\n' "$edit"
  done <"$work/refused"
}

# Each promise of docs/PROMISES.md, and the edits of the gate.
check_edits() {
  local most=70 edits heading edit
  refused_in_promises >"$work/refused"
  edits_in_promises | sort -u >"$work/named"
  (cd "$top/crates" && find . -path '*/must-fail/*.edit') | sed 's|^\./||; s|/must-fail/|/|; s|\.edit$||' |
    sort >"$work/edits"
  while IFS= read -r edit; do
    fail "docs/PROMISES.md: no promise names the edit $edit after 'Refused:';" \
      'if none is to name it, it belongs into wrong-bodies'
  done < <(comm -13 "$work/named" "$work/edits")
  while IFS= read -r edit; do
    fail "docs/PROMISES.md: there is no must-fail edit $edit"
  done < <(comm -23 "$work/named" "$work/edits")
  while IFS= read -r heading; do
    cut -f 1 "$work/refused" | grep -qxF -- "$heading" ||
      fail "docs/PROMISES.md: '${heading#\#\# }' names no wrong body after 'Refused:'"
  done < <(grep -E '^## (.*`mm_|The .* promise)' "$top/docs/PROMISES.md")
  edits=$(wc -l <"$work/edits")
  [ "$edits" -le "$most" ] || fail "$edits must-fail edits, and the gate has time for $most: move some to wrong-bodies"
}

# Each edit of both tiers can be applied.
check_applied() {
  local line
  "$top/bench/wrong-bodies" --applied >"$work/unapplied" 2>&1 && return
  while IFS= read -r line; do fail "$line"; done <"$work/unapplied"
}

# What each must-fail edit changes is run by the program or by the library for C.
check_reached() {
  local line
  "$top/docs/reached" >"$work/unreached" 2>&1 && return
  while IFS= read -r line; do fail "$line"; done <"$work/unreached"
}

# docs/TRUST.md tells how large the repository is, and THIRD-PARTY-NOTICES.txt what it is made of.
check_told() {
  local line
  line=$("$top/docs/sizes" --check 2>&1) || fail "$line"
  if command -v rt >/dev/null; then
    line=$("$top/dist/notices" --check 2>&1) || fail "$line"
  else
    echo 'docs: the notices of the kit are passed over: the command rt is not installed'
  fi
}

# The words of the contracts have their meanings.
check_definitions() {
  "$top/docs/definitions" >/dev/null 2>"$work/errors" || fail "$(tail -n 1 "$work/errors")"
}

# The pictures of docs/ARCHITECTURE.md: a function, and beside it its file below crates/.
check_pictures() {
  local name file
  while read -r name file; do
    grep -qE "fn ${name##*::}[<(]" "$top/crates/$file" ||
      fail "docs/ARCHITECTURE.md: crates/$file has no function ${name##*::}"
  done < <(sed -nE 's|^ *([A-Za-z_:]+) +(mm_[a-z0-9_]+/src/[a-z_]+\.rt) .*|\1 \2|p' "$top/docs/ARCHITECTURE.md")
  while IFS= read -r file; do
    [ -f "$top/crates/$file" ] || fail "docs/ARCHITECTURE.md: there is no crates/$file"
  done < <(grep -oE 'mm_[a-z0-9_]+/(src|specs)/[A-Za-z_]+\.(rt|antt)' "$top/docs/ARCHITECTURE.md" | sort -u)
}

# The table of mm_base: number, name and case of each refusal.
refusals() {
  sed -nE 's/^ *Refusal::([A-Za-z0-9]+) => \(([0-9]+), "([A-Za-z0-9]+)"\),$/\2 \3 \1/p' \
    "$top/crates/mm_base/src/refusal.rt"
}

# The table of mm_told: the case, what was expected and what to do, separated by tabs.
words() {
  tr '\n' ' ' <"$top/crates/mm_told/src/table.rt" | sed -E 's/ \\ +/ /g' |
    grep -oE '[A-Za-z0-9]+: "[^"]*", +"[^"]*";' | sed -E 's/^(.*): "(.*)", +"(.*)";$/\1\t\2\t\3/'
}

# The words of mm_told for each verdict but the least: the verdict, what was expected and what to do, separated by tabs.
findings() {
  awk '
    match($0, /Verdict::[A-Za-z]+/) { verdict = substr($0, RSTART + 9, RLENGTH - 9) }
    match($0, /expected: ".*"/) { expected = substr($0, RSTART + 11, RLENGTH - 12) }
    match($0, /advice: ".*"/) { printf "%s\t%s\t%s\n", verdict, expected, substr($0, RSTART + 9, RLENGTH - 10) }
  ' "$top/crates/mm_told/src/findings.rt"
}

# The words that the table of mm_told has for a refusal, as a row has them.
words_of() {
  awk -F '\t' -v name="$1" '$1 == name { print $2 " | " $3 }' "$work/words"
}

# The tables of refusals in docs/FORMATS.md: one row for each refusal, with its number, its name and its words.
check_refusals() {
  local number name case row
  words >"$work/words"
  awk '/^## /{inside = /^## Refusals/} inside && /^`[0-9]/' "$top/docs/FORMATS.md" >"$work/rows"
  [ "$(wc -l <"$work/rows")" = "$(refusals | wc -l)" ] || fail "docs/FORMATS.md: not one row for each refusal"
  while read -r number name case; do
    row=$(grep -E "^\`$number ${name}[ \`]" "$work/rows")
    [ "${row#*\` }" = "| $(words_of "$case")" ] ||
      fail "docs/FORMATS.md: the row of $number $name has other words than mm_told"
  done < <(refusals)
}

# The table of what `check` finds in docs/FORMATS.md: a row with the words of each finding.
check_findings() {
  local verdict expected advice
  findings >"$work/findings"
  [ "$(wc -l <"$work/findings")" = 7 ] ||
    fail "crates/mm_told/src/findings.rt: not one row of words for each verdict but the least"
  while IFS=$'\t' read -r verdict expected advice; do
    grep -qF -- "| $expected | $advice" "$top/docs/FORMATS.md" ||
      fail "docs/FORMATS.md: no row has the words of mm_told for $verdict"
  done <"$work/findings"
}

# The tests that docs/refusals.txt names, as lines of crate, test and number.
refusal_tests() {
  awk '/^[a-z]/ { for (i = 3; i <= NF; i++) print $1, $2, $i }' "$top/docs/refusals.txt"
}

# At least one test for each refusal, in a crate whose sources name the refusal, or of the Python package.
check_refusal_tests() {
  local crate name number case file
  refusal_tests >"$work/met"
  while read -r number case _; do
    grep -q " $number\$" "$work/met" || fail "docs/refusals.txt: no test is named that meets $number $case"
  done < <(refusals)
  while read -r crate name number; do
    case=$(refusals | sed -nE "s/^$number ([A-Za-z0-9]+) .*/\1/p")
    [ -n "$case" ] || fail "docs/refusals.txt: $name of $crate is to meet $number, which is no refusal"
    if [ "$crate" = python ]; then
      file=$(grep -lE "^ *def $name\(" "$top"/bindings/python/tests/*.py)
    else
      file=$(grep -rlE --include='*.rt' --exclude-dir=out "^ *fn $name\(" "$top/crates/$crate/src" | head -n 1)
    fi
    if [ -z "$file" ]; then
      fail "docs/refusals.txt: $crate has no test $name, in which $number $case is met"
    elif ! grep -rqswE -- "$case|$number" "$file" "${file%.rt}" "${file%/*}.rt"; then
      fail "docs/refusals.txt: the module of the test $name of $crate has neither $number nor $case"
    fi
  done <"$work/met"
}

if "$top/mm_tool" --is-built; then is_ready=1; else is_ready=0; fi
for readme in "$top"/crates/*/README.md; do
  check_crate_names "$(basename "$(dirname "$readme")")"
done
check_crate_rows
check_page_names
check_promises
check_edits
check_applied
check_reached
check_told
check_definitions
check_pictures
check_refusals
check_findings
check_refusal_tests
check_links
check_readme_commands
check_kit
while IFS= read -r document; do
  case $document in
    README.md | docs/* | examples/*)
      room=$work/$(printf '%s' "$document" | tr / _)
      mkdir "$room"
      ln -s "$top"/* "$room/"
      rm -f "$room/out"
      check_blocks
      ;;
  esac
done < <(cd "$top" && find . -name out -prune -o -name .git -prune -o -name '*.md' -print | sed 's|^\./||' | sort)
if [ "$unbuilt" != 0 ]; then
  fail "the program is not built from these sources, so $unbuilt blocks were not compared: ./mm_tool --help builds it"
fi
if [ "$failures" != 0 ]; then
  echo "docs: $failures failures, $blocks blocks compared"
  exit 1
fi
echo "docs: $blocks blocks compared"
