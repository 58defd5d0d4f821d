/* A bay of three rows is solved, and the certificate is checked; then a damaged one is refused. */
#include <stdio.h>
#include <stdlib.h>
#include <string.h>

#include "crp.h"

/* Each row from the ground up: 1 5 4 | 6 | 3 2. */
static const uint8_t heights[] = {3, 3, 3};
static const uint8_t counts[] = {3, 1, 2};
static const uint8_t ranks[] = {1, 5, 4, 6, 3, 2};

static uint32_t solve(uint8_t *certificate, size_t room, uint8_t plan[672], struct crp_answered *answered) {
    const struct crp_search search = {.budget = 1000000};
    return crp_solve(heights, sizeof heights, counts, sizeof counts, ranks, sizeof ranks, 6, (const uint8_t *)"A", 1, 1, &search,
                     plan, 672, certificate, room, answered);
}

int main(void) {
    if (crp_version() != CRP_VERSION) {
        return 1;
    }
    uint8_t plan[672] = {0};
    uint8_t none[1] = {0};
    struct crp_answered answered = {0};
    if (solve(none, 0, plan, &answered) != CRP_DONE || answered.known.kind != CRP_OPTIMAL) {
        return 2;
    }
    printf("no plan has fewer than %u relocations, and one has as many: rows", (unsigned)answered.known.lower);
    for (size_t i = 0; i < answered.plan_size; i++) {
        printf(" %u", (unsigned)plan[i]);
    }
    printf("\n");

    size_t size = answered.certificate_size;
    uint8_t *certificate = calloc(size, 1);
    if (certificate == NULL || solve(certificate, size, plan, &answered) != CRP_DONE || answered.certificate_size != size) {
        return 3;
    }
    struct crp_checked checked = {0};
    if (crp_check(certificate, size, &checked) != CRP_DONE || checked.known.kind != CRP_OPTIMAL) {
        return 4;
    }
    printf("its certificate of %zu bytes shows the same: %u\n", size, (unsigned)checked.known.lower);

    certificate[size - 1] = ' ';
    if (crp_check(certificate, size, &checked) != CRP_REFUSED) {
        return 5;
    }
    printf("with another last byte it is refused: fault %u at %llu\n", (unsigned)checked.fault.number,
           (unsigned long long)checked.fault.place);
    free(certificate);
    return 0;
}
