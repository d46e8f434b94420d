/* Calls that disagree, one way for each value of WRONG, to see the agent say so. From 21 on it is a stop, at a
 * reserve, of A's record, which has 40 bytes. From 41 on it is a split, at a reserve, of a plan of 13 bytes that has
 * both moves in one step and names no sources, at cost 5; it becomes one of 15 bytes at cost 8. With 40 nothing is
 * wrong. */
#include <string.h>

#include <kobdrieft.h>

#define REFUSAL(number, step) ((uint64_t)2 << 62 | (number) << 16 | (step))

#if WRONG == 1 /* another cost */
#define BUILT ((uint64_t)16)
#define CHECKED ((uint64_t)17)
#elif WRONG == 2 /* a plan that is refused */
#define BUILT ((uint64_t)16)
#define CHECKED ((uint64_t)2 << 62 | 17 << 16 | 1)
#elif WRONG == 3 /* blocked, yet accepted */
#define BUILT ((uint64_t)1 << 62)
#define CHECKED ((uint64_t)0)
#elif WRONG == 4 /* blocked, refused by another number */
#define BUILT ((uint64_t)1 << 62)
#define CHECKED ((uint64_t)2 << 62 | 18 << 16 | 1)
#elif WRONG == 5 /* refusals that differ */
#define BUILT ((uint64_t)2 << 62 | 6 << 16)
#define CHECKED ((uint64_t)2 << 62 | 7 << 16)
#elif WRONG == 6 /* both say that the buffer is short */
#define BUILT ((uint64_t)2 << 62 | 10 << 16)
#define CHECKED BUILT
#elif WRONG == 7 /* no outcome that there is */
#define BUILT ((uint64_t)3 << 62)
#define CHECKED BUILT
#elif WRONG == 12 /* a reserve that only the planner refuses */
#define BUILT ((uint64_t)2 << 62 | 23 << 16)
#define CHECKED ((uint64_t)2 << 62 | 19 << 16)
#elif WRONG == 13 /* blocked, refused for a VM that waits */
#define BUILT ((uint64_t)1 << 62)
#define CHECKED ((uint64_t)2 << 62 | 33 << 16 | 1)
#elif WRONG == 14 /* both refuse a step, which is for the checker alone */
#define BUILT ((uint64_t)2 << 62 | 33 << 16 | 1)
#define CHECKED BUILT
#elif WRONG == 10 /* no record at all, of a plan of no steps */
#define BUILT ((uint64_t)0)
#define CHECKED BUILT
#elif WRONG == 21 /* a record that the planner refuses */
#define BUILT ((uint64_t)2 << 62 | 6 << 16)
#define STOPPED ((uint64_t)40)
#elif WRONG == 22 /* one that it refuses at this reserve */
#define BUILT (reserve == 0 ? (uint64_t)16 : (uint64_t)2 << 62 | 8 << 16)
#define STOPPED ((uint64_t)40)
#elif WRONG == 23 /* a shorter record */
#define STOPPED ((uint64_t)39)
#elif WRONG == 24 /* one longer than the buffer */
#define STOPPED ((uint64_t)1 << 40 | 40)
#elif WRONG == 25 /* none at all */
#define STOPPED ((uint64_t)0)
#elif WRONG == 26 /* steps */
#define STOPPED ((uint64_t)1 << 53 | 40)
#elif WRONG == 27 /* blocked */
#define STOPPED ((uint64_t)1 << 62 | 40)
#elif WRONG == 28 /* no outcome that there is */
#define STOPPED ((uint64_t)3 << 62 | 40)
#elif WRONG == 29 /* a plan that the checker refuses at this reserve */
#define CHECKED (reserve == 0 ? (uint64_t)16 : (uint64_t)2 << 62 | 17 << 16 | 1)
#define STOPPED ((uint64_t)40)
#elif WRONG == 30 /* a plan that only the stop refuses */
#define STOPPED ((uint64_t)2 << 62 | 17 << 16 | 1)
#elif WRONG == 31 /* refused in different steps */
#define CHECKED ((uint64_t)2 << 62 | 17 << 16 | 1)
#define STOPPED ((uint64_t)2 << 62 | 17 << 16 | 2)
#elif WRONG == 32 /* a step looked at, though the checker refuses the plan */
#define CHECKED ((uint64_t)2 << 62 | 19 << 16)
#define STOPPED ((uint64_t)2 << 62 | 20 << 16)
#elif WRONG == 33 /* so the marks */
#define CHECKED ((uint64_t)2 << 62 | 19 << 16)
#define STOPPED ((uint64_t)2 << 62 | 21 << 16)
#elif WRONG == 34 /* a buffer that is long enough */
#define STOPPED ((uint64_t)2 << 62 | 22 << 16)
#elif WRONG == 35 /* and so says the checker */
#define CHECKED ((uint64_t)2 << 62 | 22 << 16)
#define STOPPED CHECKED
#elif WRONG == 36 /* both speak of the planner's buffer */
#define CHECKED ((uint64_t)2 << 62 | 10 << 16)
#define STOPPED CHECKED
#elif WRONG == 41 /* another cost */
#define SPLIT ((uint64_t)2 << 44 | 9)
#elif WRONG == 42 /* a lower one than that of the plan */
#define CHECKED (plan_len == 13 ? 9 : 8)
#elif WRONG == 43 /* a divided plan that is refused */
#define CHECKED (plan_len == 13 ? 5 : REFUSAL(17, 2))
#elif WRONG == 44 /* one that is refused at this reserve */
#define CHECKED (plan_len == 13 ? 5 : reserve == 0 ? 8 : REFUSAL(17, 2))
#elif WRONG == 45 /* another number of steps */
#define SPLIT ((uint64_t)3 << 44 | 8)
#elif WRONG == 46 /* the steps where a built plan has them */
#define SPLIT ((uint64_t)2 << 53 | 8)
#elif WRONG == 47 /* blocked */
#define SPLIT ((uint64_t)1 << 62 | (uint64_t)2 << 44 | 8)
#elif WRONG == 48 /* no outcome that there is */
#define SPLIT ((uint64_t)3 << 62 | (uint64_t)2 << 44 | 8)
#elif WRONG == 49 /* a plan that the checker refuses at this reserve */
#define CHECKED (plan_len != 13 ? 8 : reserve == 0 ? 5 : REFUSAL(17, 1))
#elif WRONG == 50 /* a plan that only the split refuses */
#define SPLIT REFUSAL(17, 1)
#elif WRONG == 51 /* refused in different steps */
#define CHECKED REFUSAL(17, 1)
#define SPLIT REFUSAL(17, 2)
#elif WRONG == 52 /* too many moves, and they are two */
#define SPLIT REFUSAL(14, 0)
#elif WRONG == 53 /* too many moves, though the checker refuses the plan */
#define CHECKED REFUSAL(19, 0)
#define SPLIT REFUSAL(14, 0)
#elif WRONG == 54 /* a buffer that is long enough */
#define SPLIT REFUSAL(10, 0)
#elif WRONG == 55 /* and so says the checker */
#define CHECKED REFUSAL(10, 0)
#define SPLIT CHECKED
#elif WRONG == 56 /* both speak of a stop's step */
#define CHECKED REFUSAL(20, 0)
#define SPLIT CHECKED
#elif WRONG == 57 /* of its marks */
#define CHECKED REFUSAL(21, 0)
#define SPLIT CHECKED
#elif WRONG == 58 /* of its buffer */
#define CHECKED REFUSAL(22, 0)
#define SPLIT CHECKED
#elif WRONG == 59 /* no record at all */
#define SINGLES ""
#elif WRONG == 60 /* one longer than the buffer */
#define SINGLES "\1\0\0\x0a\x08\0\2\0\1\0\1\0\1\1\0"
#elif WRONG == 61 /* a damaged one */
#define SINGLES "\1\0\0\0\x0f\0\3\0\1\0\1\0\1\1\0"
#elif WRONG == 62 /* both moves in one step still */
#define CHECKED 8
#define SINGLES "\1\0\0\0\x0d\0\1\0\2\0\1\1\0"
#elif WRONG == 63 /* another order */
#define SINGLES "\1\0\0\0\x0f\0\2\0\1\1\0\0\1\0\1"
#elif WRONG == 64 /* another destination */
#define SINGLES "\1\0\0\0\x0f\0\2\0\1\0\2\0\1\1\0"
#elif WRONG == 65 /* a move left out */
#define SINGLES "\1\0\0\0\x0b\0\1\0\1\0\1"
#elif WRONG == 66 /* one more */
#define SINGLES "\1\0\0\0\x13\0\3\0\1\0\1\0\1\1\0\0\1\0\2"
#elif WRONG == 67 /* another version */
#define SINGLES "\2\0\0\0\x11\0\2\0\1\0\0\1\0\1\1\1\0"
#endif

/* 8: a record longer than the buffer; 9: a damaged one; 11: one that names no sources */
#ifndef BUILT
#define BUILT ((uint64_t)16)
#endif
#if !defined CHECKED && WRONG >= 40
#define CHECKED (plan_len == 13 ? 5 : 8)
#elif !defined CHECKED
#define CHECKED ((uint64_t)16)
#endif
#ifndef STOPPED
#define STOPPED ((uint64_t)0)
#endif
#ifndef SPLIT
#define SPLIT ((uint64_t)2 << 44 | 8)
#endif
#ifndef SINGLES
#define SINGLES "\1\0\0\0\x0f\0\2\0\1\0\1\0\1\1\0"
#endif

uint64_t kobdrieft_build(uint64_t reserve, const uint8_t *cluster, size_t cluster_len, uint8_t *out,
                         size_t out_len)
{
    (void)reserve, (void)cluster, (void)cluster_len, (void)out_len;
    for (int i = 0; i < 7; i++)
        out[i] = 0;
    out[0] = WRONG == 11 ? 1 : 2;
    out[3] = WRONG == 8 ? 9 : 0;
    out[4] = WRONG == 10 ? 0 : 7;
    out[6] = WRONG == 9 ? 1 : 0;
    return BUILT;
}

uint64_t kobdrieft_check(uint64_t reserve, const uint8_t *cluster, size_t cluster_len, const uint8_t *plan,
                         size_t plan_len)
{
    (void)reserve, (void)cluster, (void)cluster_len, (void)plan, (void)plan_len;
    return CHECKED;
}

uint64_t kobdrieft_stop(uint64_t reserve, const uint8_t *cluster, size_t cluster_len, const uint8_t *plan,
                        size_t plan_len, uint64_t step, const uint8_t *marks, size_t marks_len, uint8_t *out,
                        size_t out_len)
{
    (void)reserve, (void)cluster, (void)cluster_len, (void)plan, (void)plan_len, (void)step;
    (void)marks, (void)marks_len, (void)out, (void)out_len;
    return STOPPED;
}

uint64_t kobdrieft_split(uint64_t reserve, const uint8_t *cluster, size_t cluster_len, const uint8_t *plan,
                         size_t plan_len, uint8_t *out, size_t out_len)
{
    (void)reserve, (void)cluster, (void)cluster_len, (void)plan, (void)plan_len, (void)out_len;
    memcpy(out, SINGLES, sizeof SINGLES - 1);
    return SPLIT;
}
