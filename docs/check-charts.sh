#!/usr/bin/env bash
# Draws the charts of examples/ anew and looks at them as a reader's tools do:
# - `mm_tool chart` prints each chart.svg byte for byte, where a setup stands beside it (`bindings/test` makes that of mars_week anew);
# - xmllint finds it well-formed;
# - a headless Chromium draws it 1,200 pixels wide in the proportions of its view box, and none of its words stands outside.
# The last two are passed over with a line where the tool is not installed, and no browser is looked for with --no-browser. The
# program must be built from the sources that are there: `./mm_tool --help` builds it. With the name of a folder, a picture
# (PNG) of each chart as Chromium draws it is left there. Ends with status 1 where something differs.
set -u
top=$(cd "$(dirname "${BASH_SOURCE[0]}")/.." && pwd)
built=$top/crates/mm_tool/out/mm_tool
pictures=${1:-} browse=1
if [ "$pictures" = --no-browser ]; then pictures='' browse=0; fi
work=$(mktemp -d)
trap 'rm -rf "$work"' EXIT
failures=0

fail() {
  printf 'charts: %s\n' "$*"
  failures=$((failures + 1))
}

# The browser's name, or nothing.
browser() {
  local name
  for name in chromium chromium-browser google-chrome; do
    if command -v "$name"; then return; fi
  done
}

# Compares a chart with what the program prints.
check_text() {
  if ! "$built" chart "$1/setup.toml" "$1/forecast.csv" "$1/plan.txt" >"$work/chart.svg"; then
    fail "$1: no chart is printed"
  elif ! cmp "$work/chart.svg" "$1/chart.svg"; then
    fail "$1: chart.svg is not what the program prints"
  fi
}

# The page that a browser is asked to draw: the chart as it stands in a README, and once more as part of the page, so that
# each of its words can be measured.
write_page() {
  cat <<PAGE
<!DOCTYPE html><meta charset='utf-8'><body style='margin:0'><img src='file://$1/chart.svg' width='1200'>
<div style='width:1200px'>
PAGE
  cat "$1/chart.svg"
  cat <<'PAGE'
</div>
<script>
onload = () => {
  const image = document.images[0], chart = document.querySelector('svg'), box = chart.viewBox.baseVal;
  const outside = [...chart.querySelectorAll('text')].filter(words => {
    const at = words.getBBox();
    return at.x < 0 || at.y < 0 || at.x + at.width > box.width || at.y + at.height > box.height;
  });
  const size = image.naturalWidth > 0 ? image.width + ' by ' + image.height : 'nothing';
  const wanted = '1200 by ' + Math.round(1200 * box.height / box.width);
  document.body.textContent = `drawn ${size}, wanted ${wanted}, ${outside.length} words outside`;
};
</script>
PAGE
}

# Has the browser draw a chart, and compares the size.
check_drawn() {
  local said
  write_page "$1" >"$work/page.html"
  said=$("$chromium" --headless --no-sandbox --disable-gpu --virtual-time-budget=5000 --dump-dom "file://$work/page.html" \
    2>"$work/errors" | sed -n 's/.*\(drawn .* outside\).*/\1/p')
  if [[ ! $said =~ ^drawn\ (.*),\ wanted\ (.*),\ 0\ words\ outside$ ]] || [ "${BASH_REMATCH[1]}" != "${BASH_REMATCH[2]}" ]; then
    fail "$1: Chromium says: ${said:-nothing}"
  else
    echo "charts: ${1#"$top"/}: ${said%%,*}"
  fi
}

# Leaves a picture of a chart in the folder that was named.
leave_picture() {
  local height
  height=$(sed -n "1s/.*viewBox='0 0 \([0-9]*\) \([0-9]*\)'.*/\1 \2/p" "$1/chart.svg" | awk '{ print int(1200 * $2 / $1 + 0.5) }')
  mkdir -p "$pictures"
  "$chromium" --headless --no-sandbox --disable-gpu --hide-scrollbars --window-size="1200,$height" \
    --screenshot="$pictures/$(basename "$1").png" "file://$1/chart.svg" >"$work/errors" 2>&1 || fail "$1: no picture"
}

if ! "$top/mm_tool" --is-built; then
  echo "charts: the program is not built from these sources: ./mm_tool --help builds it"
  exit 1
fi
chromium=''
[ "$browse" = 0 ] || chromium=$(browser)
command -v xmllint >"$work/xmllint" || echo "charts: xmllint is not installed, so that no chart was parsed"
[ "$browse" = 0 ] || [ -n "$chromium" ] || echo "charts: Chromium is not installed, so that no chart was drawn"
count=0
for chart in "$top"/examples/*/chart.svg; do
  folder=$(dirname "$chart")
  count=$((count + 1))
  if [ -f "$folder/setup.toml" ]; then check_text "$folder"; fi
  if [ -s "$work/xmllint" ]; then xmllint --noout --nonet "$chart" || fail "$folder: not well-formed"; fi
  if [ -n "$chromium" ]; then check_drawn "$folder"; fi
  if [ -n "$chromium" ] && [ -n "$pictures" ]; then leave_picture "$folder"; fi
done
if [ "$failures" != 0 ]; then
  echo "charts: $failures failures, $count charts compared"
  exit 1
fi
echo "charts: $count charts compared"
