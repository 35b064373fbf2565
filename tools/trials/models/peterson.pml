/* Peterson's lock of two harts that count, as race 5 of guest/races: each load and each store of a shared word is a step of its own.
   -DBUG has its two stores in the wrong order. */
#ifndef ROUNDS
#define ROUNDS 30
#endif

byte want[2], turn, count, ended;

active [2] proctype hart()
{
    byte round, seen;
    do
    :: round == ROUNDS -> break
    :: else ->
#ifdef BUG
        turn = 1 - _pid;
        want[_pid] = 1;
#else
        want[_pid] = 1;
        turn = 1 - _pid;
#endif
        do
        :: seen = want[1 - _pid];
            if
            :: seen == 0 -> break
            :: else -> seen = turn
            fi;
            if
            :: seen != 1 - _pid -> break
            :: else
            fi
        od;
        seen = count;
        count = seen + 1;
        want[_pid] = 0;
        round++
    od;
    ended++;
    if
    :: ended == 2 -> assert(count == 2 * ROUNDS)
    :: else
    fi
}
