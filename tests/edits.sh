#!/bin/sh
# Tries the edits of crates/CRATE/must-fail and of tests/edits/CRATE.edits in batches: the proofs must refuse each.
# tests/edits/edits.py says how, and what the words are.
exec python3 "$(dirname "$0")/edits/edits.py" "$@"
