/* An error budget: fact 0 is how many errors the application has seen today, and fact 1 how many it puts
   up with. A bad outcome within the budget is ignored; from there on it is a failure. */
#include "outcome.h"

uint64_t classify(const struct outcome *outcome) {
    if (outcome->kind == KIND_RESPONSE && outcome->status < 500)
        return VERDICT_SUCCESS;
    return fact(0) < fact(1) ? VERDICT_IGNORED : VERDICT_FAILURE;
}
