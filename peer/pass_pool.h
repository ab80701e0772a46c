/*
 * The memory that a receiver has for one pass, the library and the peer's alike: one piece, which each opening has from its
 * beginning on. Nothing of it is given back.
 */
#ifndef PASS_POOL_H
#define PASS_POOL_H
#include "base.h"

/* Begins anew. Each page is written to before, if the pool is to be touched; else the system brings one in when it is first
   used, which may be in the midst of a frame. The arena of base.h is in the pool from here on. */
void begin_pool(bool touched);

#endif
