/* An error code behind the first 64 bytes of the body: for layout 2. Calls of JSON-RPC are answered with
   status 200, and an error stands in the body alone: here behind the version and an id of 36 characters.
   It is a failure, but for the codes -32600 to -32602, which blame the caller and are ignored. A status from
   500 on is a failure too, and an outcome that is no response. */
#define OUTCOME_LAYOUT 2
#include "outcome.h"

/* {"jsonrpc": "2.0", "id": "123e4567-e89b-12d3-a456-426614174000", "error": {"code": -32603 */
enum {
    ERROR = 64, /* where the blank before "error" stands */
    CODE = 80,  /* where the quote behind code stands */
    DIGIT = 88, /* where the code's last digit stands */
};

uint64_t classify(const struct outcome *outcome) {
    const uint8_t error[8] = {' ', '"', 'e', 'r', 'r', 'o', 'r', '"'};
    const uint8_t code[8] = {'"', ':', ' ', '-', '3', '2', '6', '0'};
    if (outcome->kind != KIND_RESPONSE || outcome->status >= 500)
        return VERDICT_FAILURE;
    for (int i = 0; i < 8; i++) {
        if (outcome->body_front.bytes[ERROR + i] != error[i])
            return VERDICT_SUCCESS;
    }
    for (int i = 0; i < 8; i++) {
        if (outcome->body_front.bytes[CODE + i] != code[i])
            return VERDICT_FAILURE;
    }
    uint8_t digit = outcome->body_front.bytes[DIGIT] - '0';
    return digit <= 2 ? VERDICT_IGNORED : VERDICT_FAILURE;
}
