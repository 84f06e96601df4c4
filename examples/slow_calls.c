/* Slow calls: one that reads, by GET or HEAD, is a failure where it took more than 500 milliseconds, and
   another one where it took more than 2,000. So is an outcome that is no response. */
#include "outcome.h"

uint64_t classify(const struct outcome *outcome) {
    if (outcome->kind != KIND_RESPONSE)
        return VERDICT_FAILURE;
    const int reads = outcome->method == METHOD_GET || outcome->method == METHOD_HEAD;
    return outcome->duration_ms > (reads ? 500 : 2000) ? VERDICT_FAILURE : VERDICT_SUCCESS;
}
