/* What tests of the store have that use records, with two openings. */
#ifndef WANZOCHE_TEST_RECORDS_H
#define WANZOCHE_TEST_RECORDS_H

#include "store.h"

static wanzoche_store *mine, *other;
static const wanzoche_store_options STRICT = {.no_sync = true, .is_strict = true};

static inline wanzoche_answer begun(wanzoche_store *s, uint32_t operation, uint32_t waits, wanzoche_store_record *r) {
    return wanzoche_store_begin(s, operation, 0, r->caller, waits, r, LONGEST);
}

static inline bool is_over(wanzoche_store *s, wanzoche_store_record *r) {
    return wanzoche_store_end(s, r, LONGEST).code == WANZOCHE_FINISHED && !r->is_live && !r->is_waiting;
}

static inline void open_two(const wanzoche_store_options *options) {
    begin_anew();
    mine = opened(options);
    other = opened(options);
}

static inline void close_two(void) {
    CHECK(strstr(report(mine), "live") == NULL && strstr(report(mine), "waiting") == NULL);
    CHECK(wanzoche_store_audit(mine, LONGEST).code == WANZOCHE_SOUND);
    CHECK(is_closed(other) && is_closed(mine));
}

#endif
