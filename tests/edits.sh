#!/bin/sh
# Each wrong program of the must-fail edits is refused at the places that its edit names: tests/edits.py says how that
# is found. With names of crates or edits, as sheet_rows or sheet_rows/one_fault_each, those alone.
set -eu
cd "$(dirname "$0")/.."
python3 -B tests/edits.py "$@"
