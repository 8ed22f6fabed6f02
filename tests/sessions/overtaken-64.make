#!/usr/bin/env bash
# 64 live operations, 62 of them overtaken by one finish: their entries are free at once. Then 17 before 10.
set -eu
say() { printf '%s\n' "$@"; }

say '(site 2)' '(add 1 (set 0 10 1))'
# the youngest id is the lowest
for last in {615..554}; do
    say "(add 18446744073709551$last (inc 0 2 0))"
done
say '(add 2 (not 1 0 0))' '(add 3 (not 1 0 0))'
say '(finish 1)'
say '(add 3 (not 1 0 0))' '(add 18446744073709551615 (inc 0 11 0))' '(withdraw 18446744073709551554)'
say '(finish 2)' '(finish 3)'

# history 1 at the highest version, and 64 live: 1, 2, 3, 4, one in progress and these 59
say '(add 4 (set 1 18446744073709551615 5))' '(finish 4)'
for id in {101..159}; do
    say "(add $id (not 0 11 0))"
done
say '(add 200 (inc 0 12 0))' '(add 200 (unk 1 0 0)(inc 0 12 0))' '(add 200 (unk 1 0 0)(inc 0 10 0))' '(add 101 (unk 1 0 0)(inc 0 12 0))'
say '(withdraw 101)' '(add 200 (unk 1 0 0)(inc 0 12 0))' '(add 200 (inc 0 12 0))'
