#!/usr/bin/env bash
# Bytes that no line has, numbers at their limits, lines at theirs, empty lines.
set -eu
say() { printf '%b\n' "$@"; }

# `(add ID (not 0 0 0)...)`: a readable line of so many bytes, with far more updates than four.
long() {
    local updates
    updates=$(printf '(not 0 0 0)%.0s' $(seq $((($1 - 11) / 11))))
    local digits=$(($1 - 7 - ${#updates}))
    printf '(add %s %s)\n' "$(printf '1%.0s' $(seq "$digits"))" "$updates"
}

# all refused 1: spaces, line ends, tabs, capitals, brackets
say '' ' ' '(site 2)\r' '\r' '\t(site 2)' '(site\t2)' ' (site 2)' '(site 2) ' '( site 2)' '(site  2)' '(site 2 )' '(Site 2)' '(SITE 2)'
say '(site 2))' '((site 2)' '(site 2' 'site 2' '()' '(' ')' '(site)' '(site )' '[site 2]' '(site 2)(show 0)' '(site 2);' '# site'
# all refused 1: numbers
say '(site 02)' '(site 00)' '(site -2)' '(site +2)' '(site 2.0)' '(site 0x2)' '(site two)' '(site 2a)' '(site 1,0)'
# all refused 1: bytes 0 and 255, and others that are no letter or digit
say '\0000' '\0000(site 2)' '(site 2)\0000' '(site\00002)' '(si\0000te 2)'
say '\0377' '(site \0377)' '(site 2)\0377' '(site \0302\0262)' '\0033(site 2)' '(site 2\0177'
# 2 for the greatest number, 1 for those above
say '(site 18446744073709551615)' '(site 18446744073709551616)' '(site 18446744073709551625)'
say '(site 99999999999999999999)' '(site 100000000000000000000)' '(site 36893488147419103234)'
# 0 and the greatest number, each where it may stand
say '(site 2)' '(add 18446744073709551615 (set 0 18446744073709551615 4294967295))' '(finish 18446744073709551615)'
say '(add 18446744073709551616 (inc 1 1 0))' '(add 7 (inc 18446744073709551615 1 0))' '(add 7 (inc 18446744073709551616 1 0))'
say '(add 7 (inc 1 1 18446744073709551615))' '(add 7 (inc 1 1 18446744073709551616))' '(add 00 (inc 1 1 0))' '(add 0 (inc 1 01 0))'
say '(add 0 (inc 1 1 0))' '(finish 0)' '(finish 18446744073709551616)' '(show 18446744073709551615)' '(show 18446744073709551616)'
say '(cut 18446744073709551615)' '(persistent 18446744073709551615)' '(stable 18446744073709551615)' '(stable 18446744073709551616)'
# lines of 1,023 and 1,024 bytes are read, and refused 2; longer ones are refused 1, and the session goes on
for bytes in 1023 1024 1025 1026 2048 5000 65536 70000; do
    long "$bytes"
done
say '(show 0)'
# the same lengths, no form at all
for bytes in 1023 1024 1025 5000; do
    printf '%*s\n' "$bytes" ''
    head -c "$bytes" /dev/zero | tr '\0' '\377'
    say ''
done
# a form with a tail: 1,025 bytes of which the first 8 would be a line
printf '(show 1)%1017s\n' ''
# empty lines, then a line, then a rest without its end
say '' '' '(show 1)' ''
printf '(show 1)\0'
