#!/usr/bin/env bash
# 64 operations are live: the 65th add is refused 10, and accepted after one stable and the report that covers it. 7, 8 and 9 come
# before 10.
set -eu
echo '(site 2)'
for id in {1..64}; do
    echo "(add $id (inc 0 $id 0))"
done
cat <<END
(add 65 (inc 0 65 0))
(add 64 (inc 0 65 0))
(add 65 (inc 0 0 0))
(finish 1)
(add 65 (inc 0 65 0))
(add 1 (inc 0 65 0))
(add 65 (not 0 0 0))
(persistent 1)
(add 65 (inc 0 65 0))
(stable 1)
(add 65 (inc 0 65 0))
(persistent 1)
(add 65 (inc 0 65 0))
(add 66 (inc 0 66 0))
(withdraw 66)
(withdraw 65)
(add 66 (not 1 0 0))
(add 67 (not 1 0 0))
(finish 66)
(add 67 (not 1 0 0))
(persistent 2)
(add 67 (not 1 0 0))
(stable 2)
(add 1 (not 1 0 0))
(persistent 2)
(add 1 (not 1 0 0))
END
