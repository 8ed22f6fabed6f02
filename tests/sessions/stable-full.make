#!/usr/bin/env bash
# 02 (g): "if that does not fit, 12 comes before 13", and 14 before both. A stable line with three digits has 13 bytes. The log is filled
# up to 35 bytes; a did line of 22 bytes leaves the 13, one of 23 bytes one too few.
set -eu
cd "$(dirname "${BASH_SOURCE[0]}")"
fill=$(awk -v stops=65501 -f ../fill.awk)
n=$(($(grep -c '^(finish' <<< "$fill") + 1))
cat <<END
$fill
(add 7 (inc 4 1 0))
(finish 7)
(persistent $n)
(stable $((n + 1)))
(stable $n)
(stable $n)
(stable $((n + 1)))
(stable $((n - 1)))
(cut 65536)
(show 4)
(cut 65535)
(show 4)
(stable $((n + 1)))
(stable $n)
(stable $((n - 1)))
(end)
(stable $((n + 1)))
(cut 65501)
(redo (did 77 (inc 4 1 1 0)))
(stable $n)
(end)
(persistent $n)
(stable $((n + 1)))
(stable $n)
(stable $((n - 1)))
(cut 65525)
END
