#!/usr/bin/env bash
# 02 (g): a log of 64 lines is kept by a cut, and all of them are live again. "01's 65th add needs the covering report too"; then 65 lines
# are kept, of which 64 are live, and without the stable line 64.
set -eu
echo '(site 1)'
for id in {1..64}; do
    echo "(add $id (inc 0 $id 0))"
    echo "(finish $id)"
done
cat <<END
(cut 1582)
(redo (did 65 (inc 0 65 65 0)))
(end)
(add 70 (inc 0 65 0))
(stable 1)
(add 70 (inc 0 65 0))
(persistent 63)
(add 70 (inc 0 65 0))
(persistent 64)
(add 70 (inc 0 65 0))
(add 71 (inc 0 66 0))
(finish 70)
(cut 1618)
(redo (did 66 (inc 0 66 66 0)))
(redo (did 1 (inc 0 66 66 0)))
(redo (did 70 (inc 0 66 66 0)))
(cut 1617)
(redo (did 1 (inc 0 65 65 0)))
(redo (did 2 (inc 0 66 66 0)))
(redo (did 66 (inc 0 66 66 0)))
(cut 1592)
(show 0)
(redo (did 1 (inc 0 65 65 0)))
(redo (did 66 (inc 0 65 65 0)))
END
