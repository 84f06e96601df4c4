/* Server errors and timeouts: a response with a status from 500 on is a failure, and so is a call that
   ran into a timeout or was refused or reset. An error on the caller's own side is ignored. */
#include "outcome.h"

uint64_t classify(const struct outcome *outcome) {
    switch (outcome->kind) {
    case KIND_RESPONSE:
        return outcome->status >= 500 ? VERDICT_FAILURE : VERDICT_SUCCESS;
    case KIND_ERROR:
        return VERDICT_IGNORED;
    default:
        return VERDICT_FAILURE;
    }
}
