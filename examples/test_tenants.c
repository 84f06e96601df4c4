/* A tenant's tag: calls of tenants whose tag begins with "test-" are ignored, and the others are judged
   by their status. */
#include "outcome.h"

uint64_t classify(const struct outcome *outcome) {
    const uint8_t test[5] = {'t', 'e', 's', 't', '-'};
    if (tag_starts(test, sizeof test))
        return VERDICT_IGNORED;
    return outcome->kind != KIND_RESPONSE || outcome->status >= 500 ? VERDICT_FAILURE : VERDICT_SUCCESS;
}
