#!/bin/sh
# A deck that makes 200 arrays of 50 to 249 words, and then stores into each of them in turn, a hundred times.
# `sh bench/arrays.sh`
[ $# = 0 ] || { echo "usage: sh bench/arrays.sh" >&2; exit 2; }
cat <<'H'
?STACK 1024
?JOB ARRAYS
?LIMIT 20000000
?ASM
SEGMENT MAIN 2
H
i=0
while [ $i -lt 200 ]; do
  echo MKST; echo NAMC 0,8; echo LT8 $((50 + i)); echo ENTR
  i=$((i + 1))
done
echo 'LT8 100         ; 2,202 counts down'
first=1
i=0
while [ $i -lt 200 ]; do
  if [ $first = 1 ]; then echo "L: LT8 7"; first=0; else echo 'LT8 7'; fi
  echo "NAMC 2,$((2 + i))"; echo LT8 40; echo INDX; echo STOD
  i=$((i + 1))
done
cat <<'T'
ONE
SUBT
DUPL
ZERO
NEQL
BRTR L
MKST
NAMC 0,9
NAMC 2,2
LT8 40
NXLV
ENTR
EXIT
?END
T
