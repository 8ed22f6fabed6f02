#!/usr/bin/env bash
# 64 waiting lines, then 64 lines that have run: the 65th redo is refused 10, and no stable call helps while restoring. After the end
# one stable and the report that covers it free an entry, also after a cut that keeps the stable line.
set -eu
echo '(site 2)'
echo '(cut 9)'
for id in {65..2}; do
    echo "(redo (did $id (inc 0 $id $id 0)))"
done
cat <<END
(redo (did 1 (inc 0 1 1 0)))
(redo (did 64 (inc 0 64 64 0)))
(show 0)
(end)
(add 1 (inc 0 1 0))
(cut 9)
END
for id in {64..1}; do
    echo "(redo (did $id (inc 0 $id $id 0)))"
done
cat <<END
(redo (did 65 (inc 0 65 65 0)))
(redo (did 64 (inc 0 64 64 0)))
(persistent 64)
(redo (did 65 (inc 0 65 65 0)))
(stable 1)
(redo (did 65 (inc 0 65 65 0)))
(redo (did 1 (inc 0 66 66 0)))
(show 0)
(end)
(add 65 (inc 0 65 0))
(stable 1)
(add 65 (inc 0 65 0))
(persistent 64)
(add 65 (inc 0 65 0))
(cut 1593)
(redo (did 1 (inc 0 65 65 0)))
(redo (did 66 (inc 0 66 66 0)))
(cut 1592)
(redo (did 1 (inc 0 65 65 0)))
(redo (did 65 (inc 0 65 65 0)))
END
