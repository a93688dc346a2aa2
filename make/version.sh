#!/bin/sh
# Writes the version's number, which stands in the program alone.
cd "$(dirname "$0")/.." && sed -n 's/^pub const VERSION_LINE: &str = "ninecheck \([0-9.]*\)\\n";$/\1/p' crates/words9/src/task.rt
