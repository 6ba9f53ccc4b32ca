#!/bin/sh
# Runs the gate, then the tests of the programs that the gate proved and built, those of the package of Python, the rows, the rows of
# the calls that grow, the looks at the examples, pages, imports and clauses and two rounds of the edits, and prints the sum of all as its
# last line. The status is 0 where nothing failed.
set -u
cd "$(dirname "$0")/.." || exit 1
# The programs that the gate builds are tested, and no others.
unset BSONFIND BSONWIDE
log=$(mktemp) || exit 1
times=$(mktemp) || exit 1
trap 'rm -f "$log" "$times"' EXIT
passed=0
failed=0

# Adds the counts of the last line of the log. Without such a line a run did not come to its end, and is one failure.
add() {
	counts=$(tail -n 1 "$log" | sed -n 's/^\([0-9][0-9]*\) passed, \([0-9][0-9]*\) failed$/\1 \2/p')
	counts=${counts:-0 1}
	passed=$((passed + ${counts% *}))
	failed=$((failed + ${counts#* }))
}

# What an earlier run left is not tested in place of what the gate builds.
rm -f crates/bsonfind/out/bsonfind crates/bsonwide/out/bsonwide crates/*growth_tests/out/*growth_tests_tests
tools/meter.py --table "$times" rt ci | tee "$log"
add

# The gate leaves the programs and the tests of the calls that grow, proved and built, so nothing is proved again.
if cp crates/bsonfind/out/bsonfind bsonfind && cp crates/bsonwide/out/bsonwide bsonwide; then
	for script in program/program.sh program/pages.py program/talk.py package/package.py package/wheels.py docs/usage.py docs/guide.py; do
		"tests/$script" | tee "$log"
		add
	done
	for program in bsonfind bsonwide; do
		for script in faults/growths.py faults/devices.py; do
			"tests/$script" "$program" | tee "$log"
			add
		done
	done
	# As LLVM builds it, and as Rattle's own compiler does.
	tests/rows/rows.py --program crates/bsonfind/out/bsonfind --program crates/bsonfind/out/bsonfind.by-rattle | tee "$log"
	add
	tests/wide/wide.py bsonwide 1000 | tee "$log"
	add
	tests/wide/questions.py bsonfind 25 | tee "$log"
	add
	tests/wide/finds.py bsonwide 40 | tee "$log"
	add
	tests/wide/serves.py bsonwide 60 | tee "$log"
	add
	tests/wide/others.py --count 10000 | tee "$log"
	add
	tests/wide/forms.py bsonwide | tee "$log"
	add
else
	echo 'the gate did not build both programs: their tests were not run'
	failed=$((failed + 1))
fi
for crate in bd_growth_tests bd_wide_growth_tests; do
	tests=crates/$crate/out/${crate}_tests
	if [ -x "$tests" ]; then
		tests/faults/growing_calls.py "$tests" | tee "$log"
		add
	else
		echo "the gate left no tests of crates/$crate: tests/faults/growing_calls.py was not run over them"
		failed=$((failed + 1))
	fi
done
for script in docs/examples.py docs/reference.py docs/imports.py docs/clauses.py docs/words.py docs/layout.py; do
	"tests/$script" | tee "$log"
	add
done

# Each commit tries two others, so that all have their turn. They are over what the gate proved, so not where that failed.
if [ "$failed" -eq 0 ]; then
	commits=$(git rev-list --count HEAD 2>/dev/null || echo 0)
	for round in $((2 * commits)) $((2 * commits + 1)); do
		tests/edits.sh --round "$round" | tee "$log"
		add
	done
fi

# The processor time of the gate, by crate.
cat "$times"
echo "$passed passed, $failed failed"
[ "$failed" -eq 0 ]
