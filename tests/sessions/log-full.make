#!/usr/bin/env bash
# Fills the log of 65,536 bytes to its last byte, meets 12, and goes on; then redo, whose waiting lines hold room in the log too.
set -eu
cd "$(dirname "${BASH_SOURCE[0]}")"
fill=$(awk -v stops='64000 65461' -f ../fill.awk)
done=$(grep -c '^(finish' <<< "$fill")
cat <<END
$fill
(add 7001 (inc 4 1 1))
(add 7002 (inc 4 2 2))
(add 7003 (inc 4 3 3))
(add 7004 (inc 5 1 4))
(finish 7001)
(finish 7002)
(finish 7003)
(finish 7004)
(finish 7004)
(finish 7005)
(withdraw 7004)
(add 7004 (inc 5 1 4))
(add 7005 (not 4 3 0))
(finish 7005)
(show 4)
(show 5)
(persistent $((done + 3)))
(stable $((done + 3)))
(stable $((done + 4)))
(stable $done)
(cut 65537)
(cut 65536)
(redo (did 8 (inc 5 1 1 0)))
(cut 65535)
(redo (did 123456 (inc 5 1 1 0)))
(redo (did 8 (inc 5 2 2 0)))
(redo (did 7003 (inc 4 3 3 3)))
(redo (did 8 (inc 5 2 2 0)))
(end)
(add 9 (inc 4 3 9))
(finish 9)
(add 10 (inc 4 4 9))
(finish 10)
(cut 65461)
(redo (did 7003 (inc 4 3 3 3)))
(redo (did 7002 (inc 4 2 2 2)))
(redo (did 77001 (inc 4 1 1 1)))
(redo (did 7001 (inc 4 1 1 1)))
(show 4)
(redo (did 7004 (inc 5 1 1 4)))
(end)
(cut 65536)
(cut 64000)
END
# 64 waiting lines of 24 bytes fill the last 1,536 bytes: one more line is refused 12 before the last of them, 10 after it.
for id in {801..863}; do
    echo "(redo (did $id (inc 7 2 2 0)))"
done
cat <<END
(redo (did 7001 (inc 4 1 1 1)))
(redo (did 864 (inc 7 2 2 0)))
(redo (did 7001 (inc 4 1 1 1)))
(redo (did 864 (inc 7 2 2 0)))
(end)
(show 7)
END
