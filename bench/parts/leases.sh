#!/usr/bin/env bash
# The time of a lease by the clock, with that of its release where it is released: the mean of 10,000, at the first of a million
# leases and behind the last. Beside it the mean time of 12,800 bare picks of the same tree among the same taken leaves, 200
# before each of 64 leases more (whose leaf is the one picked): where the pick looks them up in a table of leases, as a lease
# does, and where they are marked. The tree grew by 500 searches from the first position of a game. With one lease alive at a
# time, released before the next, so that no leaf is taken; with 64, each released when 63 more were given; and with 64 where all
# are abandoned and run out. Then the last once more where 4,096 roots stand, and 65,536, of which only the last is unsettled.
set -euo pipefail
program=$(bench/program core_trial)
"$program" time
