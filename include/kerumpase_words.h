/*
 * Kerumpase: the words of the rules for each refusal, as docs/REFUSALS.md has them.
 */
#ifndef KERUMPASE_WORDS_H
#define KERUMPASE_WORDS_H

#include "kerumpase.h"

/* What refusal `number` is given for, or "unknown refusal". The text is never NULL. */
static inline const char *kerumpase_refusal_text(uint32_t number)
{
    switch (number) {
    case KERUMPASE_ACCEPTED: return "accepted";
    case KERUMPASE_ROOM_TOO_SHORT: return "a lent room too short; all rooms untouched";
    case KERUMPASE_BUNDLE_MALFORMED: return "bundle malformed";
    case KERUMPASE_VERSION_TOO_LARGE: return "version in a name too large";
    case KERUMPASE_NO_VERSION_ZERO: return "no version file 0";
    case KERUMPASE_NOT_KEPT: return "version not kept: no start reaches it";
    case KERUMPASE_MALFORMED: return "a line or file read is malformed";
    case KERUMPASE_TOO_MANY_LIVE: return "more than 1,024 live after a line";
    case KERUMPASE_READER_TOO_HIGH: return "minReaderVersion above 3";
    case KERUMPASE_UNKNOWN_FEATURE: return "unknown reader feature";
    case KERUMPASE_QUERY_MALFORMED: return "query malformed";
    case KERUMPASE_NO_SUCH_COLUMN: return "condition on no partition column";
    case KERUMPASE_NOT_WRITABLE: return "not writable (cleaner)";
    case KERUMPASE_CHECKPOINT_DISAGREES: return "checkpoint disagrees (cleaner)";
    case KERUMPASE_STATE_MALFORMED: return "state manifest malformed";
    case KERUMPASE_TOO_MANY_MANIFESTS: return "over 256 manifests";
    case KERUMPASE_LIST_REFUSED: return "list empty, or a value that no add or remove may have";
    case KERUMPASE_OUTPUT_TOO_SHORT: return "output room too short";
    case KERUMPASE_VALUE_OUT_OF_RANGE: return "file value out of range";
    case KERUMPASE_CONTAINER_MALFORMED: return "container or value malformed, or another codec";
    case KERUMPASE_OTHER_SCHEMA: return "another schema";
    case KERUMPASE_FOREIGN_KEYS: return "foreign partition keys";
    default: return "unknown refusal";
    }
}

#endif
