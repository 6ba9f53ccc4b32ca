#!/bin/sh
# Looks at scripts and pages by tools that a machine may lack, each of which is named where it is not there: mypy, pyflakes, shellcheck,
# man. A line for each; the last line is 'N passed, M failed'.
set -u
cd "$(dirname "$0")/.." || exit 1
passed=0
failed=0
said=$(mktemp) || exit 1
trap 'rm -f "$said"' EXIT

# look NAME COMMAND..: the command says nothing but that all is well. `need` is the tool that it needs.
look() {
	name=$1
	shift
	if ! command -v "$need" >/dev/null; then
		echo "not looked at, since there is no $need: $name"
	elif "$@" >"$said" 2>&1 && ! grep -v '^Success: ' "$said" >/dev/null; then
		echo "ok: $name"
		passed=$((passed + 1))
	else
		cat "$said"
		echo "FAILED: $name"
		failed=$((failed + 1))
	fi
}

page() {
	man --warnings -l "$1" >/dev/null
}

need=mypy
look 'types of python' mypy --strict --cache-dir /dev/null python/bsonfind python/backend.py
look 'types of tools' mypy --strict --cache-dir /dev/null tools/*.py
need=pyflakes3
command -v "$need" >/dev/null || need=pyflakes
look 'names of python' "$need" python
look 'names of tools, tests, bench, examples' "$need" tools tests bench examples
need=shellcheck
# shellcheck disable=SC2046 # no script has a space in its name; bsonkit is one of Python after its first lines
look 'scripts' shellcheck $(grep -rlE --exclude=bsonkit '^#!/bin/(sh|bash)' .ci packaging tests tools) completions/*.bash
look 'scripts of examples' shellcheck -s bash examples/*.sh
need='man'
for manual in man/*.1; do
	look "$manual" page "$manual"
done

echo "$passed passed, $failed failed"
[ "$failed" -eq 0 ]
