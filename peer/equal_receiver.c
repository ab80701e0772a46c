/*
 * The receiver with the library's promises: receiver.c, compiled with those that EQUAL names, else with all.
 */
#include "promises.h"
#undef PROMISES
#ifndef EQUAL
#define EQUAL ALL_PROMISES
#endif
#define PROMISES EQUAL
#define receive receive_equally
#include "receiver.c"

enum { DONE, NOT_OPEN, OUT_OF_RANGE = 5, NOT_MADE = 14 };

unsigned receive_by_handle(const Handle *handle, unsigned net, u64 time, const u8 *frame, size_t len, Reply *reply)
{
    Slot *slot = handle->slot;
    if (!(PROMISES & REPLIES)) {
        reply->kind = receive_one(slot->receiver, net, time, frame, (u32)len).kind;
        return DONE;
    }
    if (UNLIKELY(slot->mark != SLOT_MARK))
        return NOT_MADE;
    if (UNLIKELY(!slot->receiver))
        return NOT_OPEN;
    if (UNLIKELY(net > 1))
        return OUT_OF_RANGE;
    u32 octets = len > 1514 ? 1515 : (u32)len;
    Verdict verdict = receive_one(slot->receiver, net, time, frame, octets);
    *reply = (Reply){.kind = verdict.kind, .cause = verdict.cause};
    if (LIKELY(verdict.kind != FILTERED)) {
        const Link *link = &slot->receiver->links[verdict.link];
        *reply = (Reply){verdict.kind, verdict.cause, verdict.link, link->vl, verdict.port, link->taken - 1, verdict.number};
    }
    return DONE;
}
