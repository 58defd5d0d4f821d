/* crp: bays of a container yard, solved with the fewest relocations, and certificates of that, checked.
 *
 * Each call is a function of Rattle with a contract, and is proved to meet it (crates/crp_c); no proof sees the caller. So a caller
 * sees to this, which no call can check:
 *
 * - A pointer is not null, also where its length is 0. It points to as many bytes as the length beside it says, or to one struct of the
 *   type that is named; all of them are memory of the caller that may be read and, where the pointer is not const, written. Memory that is
 *   written has been given some value before (as by calloc, or = {0}).
 * - What a pointer without const points to does not overlap with what any other argument points to, and nobody else reads or writes it
 *   during the call. What a pointer with const points to, nobody writes during the call.
 * - A length is below 2 to the power of 63.
 * - The thread has stack for the call. How much that is, nothing proves; 256 kilobytes were enough wherever it was tried.
 * - No call comes from a signal handler, or in the forked child of a process with threads.
 * - malloc, realloc and free are those of one allocator.
 *
 * Everything else is checked, and refused by a number.
 *
 * No call starts a thread, takes a lock, waits for anybody, reads or writes a file, or keeps anything: so all calls may run side by side,
 * in as many threads as the caller has, as long as what they write does not overlap. Where there are many bays, a thread for each takes
 * bay after bay. A call that has begun runs to its end: choose the budget by the time that there is (some millions of positions a
 * second). */
#ifndef CRP_H
#define CRP_H

#include <stddef.h>
#include <stdint.h>

#ifdef __cplusplus
extern "C" {
#endif

/* The version of this header: a million for each major number, a thousand for each minor one, and the patch. */
#define CRP_VERSION 1000

/* The version of the library. Where it is not CRP_VERSION, call nothing else. */
uint32_t crp_version(void);

/* What a call returns. */
#define CRP_DONE 0    /* it is done */
#define CRP_MEMORY 1  /* no memory is left */
#define CRP_REFUSED 2 /* the certificate is refused */
#define CRP_RANKS 3   /* there are fewer ranks than the counts say, or more */
#define CRP_BAY 4     /* the block is not 1 to 17 characters from 0x21 to 0x7E, or the bay not 1 to 9999 */
#define CRP_FLAGS 5   /* a flag that there is not */
#define CRP_P1 11     /* no rows, more than 12, or not as many heights as counts */
#define CRP_P2 12     /* a height that is not 1 to 8 */
#define CRP_P3 13     /* more containers in a row than its height */
#define CRP_P4 14     /* the ranks are not those from 1 to the number of containers, each once */
#define CRP_P5 15     /* more containers are to leave than there are */
#define CRP_S2 22     /* a budget above 1099511627776 */
#define CRP_S7 27     /* a beam above 10000 */
#define CRP_S9 29     /* thinned branches above 1000000 */

/* What is known of a bay. */
#define CRP_NOTHING 0
#define CRP_OPTIMAL 1 /* a plan has `upper` relocations, and no plan has fewer (`lower` is the same) */
#define CRP_NO_PLAN 2 /* there is no plan */
#define CRP_BOUNDS 3  /* no plan has fewer than `lower` relocations; a plan has `upper`, if that is not CRP_NONE */
#define CRP_FIRST 4   /* as CRP_OPTIMAL, and of all plans with as many relocations its destination rows come first */

#define CRP_NONE 0xFFFFFFFFu

struct crp_known {
    uint32_t kind;
    uint32_t lower;
    uint32_t upper;
};

/* Why a certificate is refused: 1 to 11 for C1 to C11, with the line; 101 to 108 for K1 to K8, with the step of the plan (K2), the symbol
 * of its part (K3, K4, K8), or 0. docs/FORMATS.md says what they mean. The number 0 stands for none. */
struct crp_fault {
    uint32_t number;
    uint64_t place;
};

struct crp_checked {
    struct crp_known known; /* what the certificate shows, if it is accepted */
    struct crp_fault fault; /* why it is refused, if it is */
};

/* Checks the bytes of one certificate, from its first line to the LF of its last one. CRP_DONE where it is accepted, CRP_REFUSED with the
 * first fault where it is not, and CRP_MEMORY. What is known is so of the bay that the certificate states, whoever made it. */
uint32_t crp_check(const uint8_t *certificate, size_t size, struct crp_checked *checked);

/* The flags of a search, to be added. */
#define CRP_FIRST_BEST 1 /* look for the first of all best plans */
#define CRP_DEEPEN 2     /* many searches, whose limit rises from the lower bound */
#define CRP_CHAINS 4     /* look for reasons by chains of containers that block one after the other */

struct crp_search {
    uint64_t budget; /* the most positions that are expanded */
    uint32_t beam;   /* 0, or how many positions of a level a beam keeps that looks for the plan to begin with */
    uint32_t thin;   /* 0, or the most thinned branches of a try to close a position */
    uint32_t flags;
};

struct crp_answered {
    struct crp_known known;
    uint32_t cause;          /* of CRP_BOUNDS: 1 that the budget was spent, 2 that memory ran out; else 0 */
    uint64_t expanded;       /* how many positions were expanded for the fewest relocations */
    size_t plan_size;        /* how many rows the plan has; 0 where there is none (known.upper is CRP_NONE) */
    size_t certificate_size; /* how many bytes the certificate has */
};

/* Solves one bay, in the thread of the caller.
 *
 * heights: how many containers may stand in each row. counts: how many stand in each row. ranks: row by row, from the ground up, the rank
 * of each container; rank 1 leaves first. ordered: ranks 1 to ordered leave. block and bay: the name that the certificate gives the bay.
 *
 * CRP_DONE where it is answered. The plan is the rows, counted from 1, that its relocations go to, in order: each time the container that
 * leaves next is not on top of its stack, the one on top goes to the next of these rows. The certificate is text, which crp_check accepts.
 * Each is written to the front of its buffer where it fits; where it does not, nothing is written to that buffer, and its size in
 * `answered` says what is wanted. The same call with more room gives the same answer again, at the price of the same search; 672 bytes
 * hold any plan. Where another number is returned, nothing is written at all. */
uint32_t crp_solve(const uint8_t *heights, size_t rows, const uint8_t *counts, size_t counts_size, const uint8_t *ranks,
                   size_t ranks_size, uint8_t ordered, const uint8_t *block, size_t block_size, uint16_t bay,
                   const struct crp_search *search, uint8_t *plan, size_t plan_room, uint8_t *certificate, size_t certificate_room,
                   struct crp_answered *answered);

#ifdef __cplusplus
}
#endif

#endif
