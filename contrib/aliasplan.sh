#!/bin/sh
# What `install` puts into bin/ as aliasplan: it runs the program beside it, in lib/aliasplan/.
#
# The C library is told to ask for large pages and to keep one heap for all threads (glibc.malloc.hugetlb and glibc.malloc.arena_max in the GNU C
# Library's manual, "Memory Allocation Tunables"), for which the program has no call of its own: a plan of a million recipients takes up to a quarter less
# time, and up to a seventh less memory. What GLIBC_TUNABLES says already stands, so GLIBC_TUNABLES= turns it off.
here=$0
if [ -h "$here" ]; then here=$(readlink -f "$here"); fi
case $here in
  */*) ;;
  *) here=./$here ;;
esac
GLIBC_TUNABLES=${GLIBC_TUNABLES-glibc.malloc.hugetlb=1:glibc.malloc.arena_max=1}
export GLIBC_TUNABLES
exec "${here%/*}/../lib/aliasplan/aliasplan" "$@"
