#!/bin/sh
# Has 100,000 faults strike the images of the examples and one that is mostly a table, and prints the longest way to the loop head and the longest round over their bounds. Exits as
# bench/faults.py does: with 1 where a source differs, or where it takes longer than a minute.
. "$(dirname "$0")/common.sh"
python3 "$top/bench/faults.py" "$program" "$@"
