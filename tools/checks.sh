# What every check has: it counts what it asks, names what failed, and its last line is `NAME: N passed, M failed`. To be sourced.
passed=0 failed=0

ask() { # WHAT STATUS: the status of what was asked
  if [ "$2" -eq 0 ]; then passed=$((passed + 1)); else failed=$((failed + 1)); echo "failed: $1"; fi
}
add() { # PASSED FAILED: those of a program that counts itself
  passed=$((passed + ${1:-0})) failed=$((failed + ${2:-0}))
}
sums_in() { # FILE: PASSED FAILED of its last line `N passed, M failed`; one that has none has failed
  sed -nE 's/^([0-9]+) passed, ([0-9]+) failed$/\1 \2/p' "$1" 2>/dev/null | tail -n 1 | grep . || echo "0 1"
}
sum() { # NAME
  echo "$1: $passed passed, $failed failed"
  [ "$failed" -eq 0 ]
}
