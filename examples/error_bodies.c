/* A look at the body's front: a response whose body begins with {"error" is a failure, whatever its
   status; so is one with a status from 500 on, and an outcome that is no response. */
#include "outcome.h"

uint64_t classify(const struct outcome *outcome) {
    const uint8_t error[8] = {'{', '"', 'e', 'r', 'r', 'o', 'r', '"'};
    if (outcome->kind != KIND_RESPONSE || outcome->status >= 500)
        return VERDICT_FAILURE;
    for (int i = 0; i < 8; i++) {
        if (outcome->body_front.bytes[i] != error[i])
            return VERDICT_SUCCESS;
    }
    return VERDICT_FAILURE;
}
