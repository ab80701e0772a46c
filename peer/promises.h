/*
 * What the library for C promises and a plain receiver in C doesn't. A file is compiled with those that PROMISES names: none,
 * if nobody says otherwise. What each costs is printed by `bench/run from_c`.
 */
#ifndef PROMISES_H
#define PROMISES_H

#define COUNTS_STOP 1 /* each count stops at its greatest number, in place of beginning at 0 again */
#define HEALTH 2      /* of a link: the latest frame on each network, and datagrams given up; of a port: messages delivered */
#define REPLIES 4     /* a call through a handle, of which each state is answered, with the link and the place in the reply */
#define ONE_ORDER 8   /* what is put is seen in one order by all threads */
#define FILL 16       /* the greatest number that waited in a queue */
#define ALL_PROMISES (COUNTS_STOP | HEALTH | REPLIES | ONE_ORDER | FILL)

#ifndef PROMISES
#define PROMISES 0
#endif

#endif
