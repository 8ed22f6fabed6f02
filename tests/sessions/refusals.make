#!/usr/bin/env bash
# Every refusal number of 01, each at least twice and in different ways, in one session.
set -eu
cd "$(dirname "${BASH_SOURCE[0]}")"
say() { printf '%s\n' "$@"; }

# 14: before site
say '(show 0)' '(end)' '(redo (did 5 (inc 0 1 1 0)))'
# 2: histories not 1 to 16
say '(site 0)' '(site 17)'

# A site of 8 histories. 43 bytes of its log are left; histories 4 to 7 are untouched.
fill=$(awk -v stops=65493 -f ../fill.awk)
done=$(grep -c '^(finish' <<< "$fill")
say "$fill"

# 1: unreadable
say '(add 5 (inc 4 1)' '(finish 05)' '' '(add 5 )' '(open 4)'
# 2: updates not 1 to 4
say '(add 5)' '(add 5 (not 3 0 0)(not 4 0 0)(not 5 0 0)(not 6 0 0)(not 7 0 0))'
# 3: no such history
say '(show 9)' '(add 5 (inc 4 1 0)(not 8 0 0))'
# 4: a history twice
say '(add 5 (inc 4 1 0)(not 4 0 0))' '(add 5 (set 7 1 0)(inc 5 1 0)(unk 7 0 0))'
# 5: operand out of range; unk with version not 0
say '(add 5 (inc 4 1 2048))' '(add 5 (inc 4 1 18446744073709551615))' '(add 5 (not 4 0 1))' '(add 5 (inc 4 1 0)(unk 5 0 2048))' '(add 5 (inc 4 1 0)(unk 5 1 0))'
# 6: nothing orders it
say '(add 5 (unk 4 0 0))' '(add 5 (not 4 0 0)(unk 5 0 0))'
# 7: in progress (5), future (6)
say '(add 5 (inc 4 1 0))' '(add 6 (inc 4 2 0))'
say '(add 5 (inc 4 1 0))' '(add 6 (inc 5 1 0))'
# 8: id is live and done; a strong ordered U at C, and below it
say '(finish 5)'
say '(add 5 (inc 5 1 0))' '(add 7 (inc 4 1 0))' '(add 7 (set 4 0 0))' '(add 7 (not 5 0 0)(set 3 1 0))'
# 9: a not with U < C
say '(add 7 (not 4 0 0))' '(add 7 (inc 5 1 0)(not 4 0 0))'
# 11: finish of an id unknown, and done; withdraw of one in progress, and done
say '(finish 9)' '(finish 5)' '(withdraw 6)' '(withdraw 5)'
# 12: 21 bytes are left, the line has 22
say '(finish 6)' '(finish 6)'
# 13: above done; above persistent; above the log
say "(persistent $((done + 2)))" "(stable $((done + 1)))" '(cut 65516)' '(cut 65537)'
# 14: site twice; redo and end while not restoring
say '(site 8)' '(site 0)' '(redo (did 6 (inc 4 2 2 0)))' '(end)'
# 10: 5 and 6 are live, and these 62
for id in {101..162}; do
    say "(add $id (not 7 0 0))"
done
say '(add 200 (not 7 0 0))' '(add 200 (inc 6 1 0))'
# 15: first line not whole
say '(cut 3)' '(cut 0)' '(cut 8)'

# The same while restoring, without the line of 5.
say '(cut 65514)'
# 14: add, finish, withdraw
say '(add 5 (inc 4 1 0))' '(finish 6)' '(withdraw 101)'
# 1 to 5 of a did line
say '(redo (did 5 (unk 4 1 1 0)))' '(redo (did 5 (inc 4 1 1)))' '(redo did 5 (inc 4 1 1 0))'
say '(redo (did 5))' '(redo (did 5 (not 3 0 1 0)(not 4 0 1 0)(not 5 0 1 0)(not 6 0 1 0)(not 7 0 1 0)))'
say '(redo (did 5 (inc 8 1 1 0)))' '(show 8)'
say '(redo (did 5 (inc 4 1 1 0)(inc 4 2 2 0)))'
say '(redo (did 5 (inc 4 1 1 2048)))' '(redo (did 5 (not 4 0 1 1)))' '(redo (did 5 (inc 4 1 1 4294967296)))'
# 7: a waiting redo
say '(redo (did 6 (inc 4 2 2 0)))' '(redo (did 6 (inc 4 2 2 0)))' '(redo (did 6 (inc 5 1 1 0)))'
# 8: a place not above the history's
say '(redo (did 5 (inc 4 1 0 0)))' '(redo (did 5 (set 3 18446744073709551615 1 0)(inc 4 1 1 0)))'
# 12: 43 bytes are left, the waiting line has 22 and this one too
say '(redo (did 7 (inc 5 1 1 0)))'
# 13; 14: a stable call above the mark; 13, 15
say "(persistent $((done + 1)))" "(stable $((done + 1)))" '(cut 65494)' '(cut 1)'
# 8: id is live and done
say '(cut 65493)' '(redo (did 5 (inc 4 1 1 0)))' '(redo (did 5 (inc 4 1 1 0)))' '(redo (did 5 (inc 5 1 1 0)))' '(end)'
# 14: end twice
say '(end)' '(show 4)'
# 1: unended rest
printf '(show 4)'
