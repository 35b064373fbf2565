/* Lamport's bakery of HARTS harts that each count once, as guest/bakery.c under guest/lock.h: each load and each store of a shared word is
   a step of its own. -DBUG leaves the drawing of tickets unseen. */
#ifndef HARTS
#define HARTS 3
#endif
#ifdef BUG
#define DRAWS 0
#else
#define DRAWS 1
#endif

byte draws[HARTS], ticket[HARTS], count, ended;

active [HARTS] proctype hart()
{
    byte other, most, seen;
    draws[_pid] = DRAWS;
    do
    :: other == HARTS -> break
    :: else ->
        seen = ticket[other];
        most = (seen > most -> seen : most);
        other++
    od;
    ticket[_pid] = most + 1;
    draws[_pid] = 0;
    other = 0;
    do
    :: other == HARTS -> break
    :: else ->
        do
        :: seen = draws[other];
            if
            :: seen == 0 -> break
            :: else
            fi
        od;
        do
        :: seen = ticket[other];
            if
            :: seen != 0 && (seen < ticket[_pid] || (seen == ticket[_pid] && other < _pid))
            :: else -> break
            fi
        od;
        other++
    od;
    seen = count;
    count = seen + 1;
    ticket[_pid] = 0;
    ended++;
    if
    :: ended == HARTS -> assert(count == HARTS)
    :: else
    fi
}
