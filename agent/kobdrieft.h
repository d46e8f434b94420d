/* Kobdrieft: plans VM migrations in a small cluster, checks such plans, says where a stopped one leaves it, and
 * divides them into single moves.
 *
 * Four calls, all in libkobdrieft.a: `kobdrieft_build` makes a plan, `kobdrieft_check` gives the verdict on one,
 * `kobdrieft_stop` writes the cluster record anew when one was stopped in the middle, and `kobdrieft_split` divides
 * the steps of one into single moves. Each takes any reserve and any bytes whatever, and returns one number; the
 * functions below take it apart, and read the plan.
 *
 * Reserve. The percent that is kept free on each node, 0 to KOB_MAX_RESERVE; every other number of 64 bits is
 * refused with 23, whatever else is wrong. A node's usable memory and usable CPU are each its capacity *
 * (100 - reserve) / 100, rounded down; whatever is tested against a node's memory or CPU is tested against
 * these. A node that starts with more may be left, but takes nobody, or only VMs of CPU 0 if it is just its
 * CPU that is passed. Check a plan at the reserve that it was built at; a plan that is accepted at one reserve
 * is accepted at the same cost at every smaller one.
 *
 * Waiting. A `before` constraint (kind 5, in cluster records of either version) names a first VM and a second. A
 * step with a move of the second, a launch, a shutdown or a move aside too, must start with the first on its
 * target and must not move the first; else it is refused with 33. No target is refused for it. If VMs out of
 * place wait for one another, `kobdrieft_build` is blocked.
 *
 * Stopping. A plan may be stopped at any moment of any step. Begin no more moves, and wait until none is under
 * way: each ends, or is called back, its VM staying where it was. Then mark each move of that step, in the
 * plan's order: KOB_MARK_ENDED if it ended, so that its VM is on its destination; KOB_MARK_STAYED if it had not
 * begun or was called back, so that its VM is where it was when the step started. `kobdrieft_stop` writes the
 * cluster record with the current nodes that this leaves, its target and all else as they were; then build again
 * from that record. At the same reserve it has none of the faults 23 and 1 to 9, so it is planned for, or
 * blocked. A node that was within its usable memory before the plan is within it there, and so for CPU; spread
 * mates that were apart are apart.
 *
 * Splitting. All moves of a step may run side by side. Where links are thin, `kobdrieft_split` writes an accepted
 * plan anew with one move to a step, step after step and by VM number within each, so that one move runs at a
 * time. At the same reserve `kobdrieft_check` accepts what is written, at the cost told, which is never lower than
 * the plan's own. A program may also divide by itself: an accepted plan is accepted, at no lower cost, when the
 * moves of its steps are divided among several steps in a row, however divided and in any order of these, as long
 * as each has at least one move and its VMs rise, and no more than KOB_MAX_STEPS steps result. A divided plan is a
 * plan like any other: where it is the one under way, it is the one to lend to `kobdrieft_stop`.
 *
 * Pointers. The caller guarantees that each pointer is not NULL and readable for its length, `out` also
 * writable; that `out` overlaps nothing of `cluster`, `plan` and `marks`; and that nobody else writes to what is
 * lent, or reads `out`, during the call. All but `out` is only read, and may overlap. A length of 0 needs a
 * pointer too: use kob_check, kob_build, kob_stop and kob_split, which take any pointer then, NULL included.
 *
 * Threads. There is no state: any number of threads may call at once, each with an `out` of its own.
 *
 * Stack. Measured on full clusters, x86-64: `kobdrieft_check` takes 30,951 bytes (512 steps), `kobdrieft_stop`
 * 32,167 (stopped in step 1, and in step 512), `kobdrieft_split` 31,047 (512 moves, and 1,024, which it refuses),
 * `kobdrieft_build` 106,679 (1 step, and 500 steps): it does not grow with the steps. Give a thread
 * KOB_CHECK_STACK, KOB_STOP_STACK, KOB_SPLIT_STACK or KOB_BUILD_STACK, and what it needs itself; the tests hold
 * these limits.
 *
 * No call allocates, does I/O, or calls anything but memcpy, memmove, memset and memcmp.
 */
#ifndef KOBDRIEFT_H
#define KOBDRIEFT_H

#include <stddef.h>
#include <stdint.h>

/* Grows whenever this interface changes, or what its calls answer. */
#define KOBDRIEFT_VERSION 9

/* The four names as they are in the archive. They carry the version, so a program compiled with the header of
 * another version does not link. */
#define kobdrieft_check kobdrieft_check_v9
#define kobdrieft_build kobdrieft_build_v9
#define kobdrieft_stop kobdrieft_stop_v9
#define kobdrieft_split kobdrieft_split_v9

#ifdef __cplusplus
extern "C" {
#endif

/* The verdict on a plan record of version 1 or 2 for a cluster record of version 1 or 2. A plan of 0 bytes is
 * one of no steps, as a header with 0 steps is: do not lend a plan whose file could not be read. Of a VM whose CPU
 * is 0 only the memory is tested when it begins: it may enter a node that is over its usable CPU. */
uint64_t kobdrieft_check(uint64_t reserve, const uint8_t *cluster, size_t cluster_len, const uint8_t *plan,
                         size_t plan_len);

/* Plans for a cluster record. Of a plan and of blocked, the steps made stand as a plan record at the front
 * of `out`, of version 2, and the bytes behind it are as they were; a refusal changes no byte. */
uint64_t kobdrieft_build(uint64_t reserve, const uint8_t *cluster, size_t cluster_len, uint8_t *out,
                         size_t out_len);

/* Writes the cluster record as a plan leaves it that was stopped in a step, counted from 1. `marks` has one byte
 * for each move of that step, KOB_MARK_STAYED or KOB_MARK_ENDED. What `kobdrieft_check` refuses is refused alike,
 * before step, marks and `out` are looked at. Else the cluster record stands at the front of `out`, where each
 * VM's current node is the one that it was on when the step started or, if the step moves it and the move is
 * marked as ended, the destination. Every other byte of the record is as it was, and so are the bytes behind it;
 * a refusal changes no byte. */
uint64_t kobdrieft_stop(uint64_t reserve, const uint8_t *cluster, size_t cluster_len, const uint8_t *plan,
                        size_t plan_len, uint64_t step, const uint8_t *marks, size_t marks_len, uint8_t *out,
                        size_t out_len);

/* Writes an accepted plan with every step divided into single moves. What `kobdrieft_check` refuses is refused
 * alike, before `out` is looked at; then it is 10 if `out` has under KOB_SPLIT_BUFFER bytes, whatever the plan needs,
 * then 14 if the plan has more than KOB_MAX_STEPS moves, since each becomes a step. Else the divided plan stands as a
 * plan record at the front of `out`, of the version of the plan lent, and the bytes behind it are as they were; a
 * plan of 0 bytes becomes a header of version 2 with 0 steps. The moves are those of the plan in its order, sources
 * included. A refusal changes no byte. */
uint64_t kobdrieft_split(uint64_t reserve, const uint8_t *cluster, size_t cluster_len, const uint8_t *plan,
                         size_t plan_len, uint8_t *out, size_t out_len);

#ifdef __cplusplus
}
#endif

/* ---- limits */

#define KOB_MAX_RESERVE 90           /* percent */
#define KOB_MAX_NODES 64
#define KOB_MAX_VMS 256
#define KOB_MAX_CONSTRAINTS 128
#define KOB_MAX_STEPS 512
#define KOB_MAX_STEP_MOVES 256       /* in one step */
#define KOB_MAX_MOVES 1024           /* in all steps of a plan together */
#define KOB_MAX_CLUSTER_BYTES 65535
#define KOB_MAX_PLAN_BYTES 4103      /* in version 2; 3,079 in version 1 */
#define KOB_BUILD_BUFFER 2562        /* `kobdrieft_build` refuses a shorter `out` */
#define KOB_BUILD_VERSION 2          /* of the plan record that `kobdrieft_build` writes */
#define KOB_SPLIT_BUFFER 2567        /* `kobdrieft_split` refuses a shorter `out` */

#define KOB_CHECK_STACK (40 * 1024)  /* `kobdrieft_check` takes less than this */
#define KOB_BUILD_STACK (128 * 1024) /* `kobdrieft_build` takes less than this */
#define KOB_STOP_STACK (40 * 1024)   /* `kobdrieft_stop` takes less than this */
#define KOB_SPLIT_STACK (40 * 1024)  /* `kobdrieft_split` takes less than this */

/* ---- places */

/* The place of a VM that is on no node: in a cluster record of version 2 where it is or where it is wanted,
 * in a plan of either version the destination of a shutdown, and where sources are named that of a launch. No
 * node has this number. */
#define KOB_NOWHERE 255

/* ---- marks */

/* What became of a move of the step that a plan was stopped in. One that still runs has no mark: let it end, or
 * call it back. */
#define KOB_MARK_STAYED 0 /* not begun, or called back: the VM is on its source */
#define KOB_MARK_ENDED 1  /* the VM is on its destination */

/* ---- what a result says */

typedef enum {
    KOB_ACCEPTED = 0, /* kobdrieft_check: the plan is good */
    KOB_PLAN = 0,     /* kobdrieft_build: the plan brings every VM to its target */
    KOB_STOPPED = 0,  /* kobdrieft_stop: the cluster record is written */
    KOB_DIVIDED = 0,  /* kobdrieft_split: the divided plan is written */
    KOB_BLOCKED = 1,  /* kobdrieft_build: the steps made are sound, but the planner found no next one */
    KOB_REFUSED = 2   /* all four: see the number */
} kob_outcome;

static inline kob_outcome kob_outcome_of(uint64_t result)
{
    return (kob_outcome)(result >> 62);
}

/* A refusal's number, 1 to 23, 27 or 33; 0 if the result is no refusal. */
static inline unsigned kob_refusal_number(uint64_t result)
{
    return kob_outcome_of(result) == KOB_REFUSED ? (unsigned)(result >> 16 & 0xff) : 0;
}

/* The step at fault, from 1, of the numbers 15 to 18, 27 and 33; 0 of all others. */
static inline unsigned kob_refusal_step(uint64_t result)
{
    return kob_outcome_of(result) == KOB_REFUSED ? (unsigned)(result & 0xffff) : 0;
}

/* The steps that were built; 0 if refused. Of `kobdrieft_build` only. */
static inline unsigned kob_steps(uint64_t result)
{
    return kob_outcome_of(result) == KOB_REFUSED ? 0 : (unsigned)(result >> 53 & 0x1ff);
}

/* The moves in these steps; 0 if refused. Of `kobdrieft_build` only. */
static inline unsigned kob_moves(uint64_t result)
{
    return kob_outcome_of(result) == KOB_REFUSED ? 0 : (unsigned)(result >> 44 & 0x1ff);
}

/* The steps of a divided plan, which are the moves of the plan lent, up to KOB_MAX_STEPS; 0 if refused. Of
 * `kobdrieft_split` only: it has them in other bits than kob_steps reads. */
static inline unsigned kob_split_steps(uint64_t result)
{
    return kob_outcome_of(result) == KOB_REFUSED ? 0 : (unsigned)(result >> 44 & 0x3ff);
}

/* The cost of the plan checked, of the steps made, or of the divided plan; 0 if refused. */
static inline uint64_t kob_cost(uint64_t result)
{
    return kob_outcome_of(result) == KOB_REFUSED ? 0 : result & (((uint64_t)1 << 44) - 1);
}

/* The length of the cluster record that a stop wrote, that of the one lent; 0 if refused. Of `kobdrieft_stop`
 * only. */
static inline size_t kob_length(uint64_t result)
{
    return kob_outcome_of(result) == KOB_REFUSED ? 0 : (size_t)(result & (((uint64_t)1 << 44) - 1));
}

/* ---- the refusals, in checking order */

typedef enum {
    KOB_FAULT_RESERVE = 23, /* those from here to 9: all calls */
    KOB_FAULT_CLUSTER_SHORT = 1,
    KOB_FAULT_CLUSTER_VERSION = 2,
    KOB_FAULT_CLUSTER_LENGTH = 3,
    KOB_FAULT_CLUSTER_COUNTS = 4,
    KOB_FAULT_CLUSTER_FILL = 5,
    KOB_FAULT_VM_ROW = 6,
    KOB_FAULT_CONSTRAINT = 7,
    KOB_FAULT_TARGET_OVERFULL = 8,
    KOB_FAULT_TARGET_BROKEN = 9,
    KOB_FAULT_BUFFER_SHORT = 10, /* kobdrieft_build, and kobdrieft_split behind 19; those below: all but build */
    KOB_FAULT_PLAN_SHORT = 11,
    KOB_FAULT_PLAN_VERSION = 12,
    KOB_FAULT_PLAN_LENGTH = 13,
    KOB_FAULT_PLAN_SHAPE = 14, /* kobdrieft_split also behind 10: more than 512 steps would result */
    KOB_FAULT_MISNAMED = 15,
    KOB_FAULT_ELSEWHERE = 27, /* of a plan of version 2 only; tested between 15 and 16 */
    KOB_FAULT_FORBIDDEN = 16,
    KOB_FAULT_MISFIT = 17,
    KOB_FAULT_MATE = 18,
    KOB_FAULT_BEFORE = 33, /* of a cluster with a `before` constraint only; tested between 18 and 19 */
    KOB_FAULT_OFF_TARGET = 19,
    KOB_FAULT_NO_STEP = 20, /* or another number of marks; those from here on: kobdrieft_stop only */
    KOB_FAULT_MARK = 21,
    KOB_FAULT_STOP_BUFFER = 22 /* `out` is shorter than the cluster record */
} kob_fault;

/* What a refusal's number means, as docs/REFUSALS.md has it, in one line; never NULL. */
static inline const char *kob_fault_text(unsigned number)
{
    switch (number) {
    case 0: return "Not refused.";
#include "kobdrieft_texts.h"
    default: return "Unknown number.";
    }
}

/* ---- calls for which a length of 0 is fine with any pointer */

static inline const uint8_t *kob_lent(const uint8_t *bytes, size_t len)
{
    static const uint8_t none = 0;
    return len == 0 ? &none : bytes;
}

static inline uint8_t *kob_lent_out(uint8_t *bytes, size_t len)
{
    static uint8_t none; /* never written */
    return len == 0 ? &none : bytes;
}

/* `kobdrieft_check`, but with a length of 0 its pointer is not looked at and may be NULL. */
static inline uint64_t kob_check(uint64_t reserve, const uint8_t *cluster, size_t cluster_len,
                                 const uint8_t *plan, size_t plan_len)
{
    return kobdrieft_check(reserve, kob_lent(cluster, cluster_len), cluster_len, kob_lent(plan, plan_len),
                           plan_len);
}

/* `kobdrieft_build`, but with a length of 0 its pointer is not looked at and may be NULL. */
static inline uint64_t kob_build(uint64_t reserve, const uint8_t *cluster, size_t cluster_len, uint8_t *out,
                                 size_t out_len)
{
    return kobdrieft_build(reserve, kob_lent(cluster, cluster_len), cluster_len, kob_lent_out(out, out_len),
                           out_len);
}

/* `kobdrieft_stop`, but with a length of 0 its pointer is not looked at and may be NULL. */
static inline uint64_t kob_stop(uint64_t reserve, const uint8_t *cluster, size_t cluster_len,
                                const uint8_t *plan, size_t plan_len, uint64_t step, const uint8_t *marks,
                                size_t marks_len, uint8_t *out, size_t out_len)
{
    return kobdrieft_stop(reserve, kob_lent(cluster, cluster_len), cluster_len, kob_lent(plan, plan_len),
                          plan_len, step, kob_lent(marks, marks_len), marks_len, kob_lent_out(out, out_len),
                          out_len);
}

/* `kobdrieft_split`, but with a length of 0 its pointer is not looked at and may be NULL. */
static inline uint64_t kob_split(uint64_t reserve, const uint8_t *cluster, size_t cluster_len,
                                 const uint8_t *plan, size_t plan_len, uint8_t *out, size_t out_len)
{
    return kobdrieft_split(reserve, kob_lent(cluster, cluster_len), cluster_len, kob_lent(plan, plan_len),
                           plan_len, kob_lent_out(out, out_len), out_len);
}

/* ---- numbers in records */

/* The number in so many bytes, at most 4, big-endian. */
static inline uint32_t kob_number(const uint8_t *bytes, unsigned count)
{
    uint32_t number = 0;
    for (unsigned i = 0; i < count; i++)
        number = number << 8 | bytes[i];
    return number;
}

/* The whole length that a plan record's header states; 5 bytes must be readable. After `kobdrieft_build` made
 * a plan or was blocked, or `kobdrieft_split` divided one, it is the length of the record in `out`. Do not ask it of
 * what a refusal left: of zeros it gives 0, and 0 bytes are a plan of no steps. */
static inline size_t kob_plan_length(const uint8_t *record)
{
    return kob_number(record + 1, 4);
}

/* The node that a VM is on at the start, or KOB_NOWHERE, from a cluster record with none of the faults 1 to 7,
 * such as a stop writes. Returns 0, and sets nothing, if the record has no such VM. Of other bytes it may give
 * any number or none, but it never reads outside them. */
static inline int kob_vm_current(const uint8_t *cluster, size_t cluster_len, unsigned vm, unsigned *node)
{
    const size_t header = 11, node_row = 5, vm_row = 7, current = 5;
    if (cluster_len < header || cluster[0] < 1 || cluster[0] > 2 || vm >= kob_number(cluster + 7, 2))
        return 0;
    size_t place = header + node_row * kob_number(cluster + 5, 2) + vm_row * vm + current;
    if (place >= cluster_len)
        return 0;
    *node = cluster[place];
    return 1;
}

/* ---- reading a plan record
 *
 *     kob_reader reader;
 *     unsigned moves, vm, source, destination;
 *     if (!kob_read_start(&reader, bytes, len))
 *         ... the record is damaged
 *     while (kob_read_step(&reader, &moves))
 *         while (kob_read_move_from(&reader, &vm, &source, &destination))
 *             ... the next move of this step
 *
 * Any bytes may be read, and any pointer with a length of 0. No byte outside them is looked at, none is
 * written, and of a damaged record no step is given. The bytes must stay where and as they are until reading
 * has ended; a copy of a reader reads on by itself.
 *
 * Whole or damaged is a matter of shape alone, the faults 11 to 14. 0 bytes are a whole record, of no steps.
 * What a whole record's moves mean for a cluster, and whether their VMs and nodes are there, is what kob_check
 * says. */

/* Where reading is. For the functions below only. */
typedef struct {
    const uint8_t *bytes;
    size_t len;
    size_t at;           /* the next byte */
    unsigned steps;      /* still to come */
    unsigned moves;      /* of this step still to come */
    unsigned moves_left; /* that the steps to come may have together */
    unsigned move_bytes; /* that a move takes */
    int whole;
} kob_reader;

/* The bytes that a move takes in a record of this version; 0 if there is no such version. */
static inline unsigned kob_move_bytes(unsigned version)
{
    return version == 1 ? 2 : version == 2 ? 3 : 0;
}

/* Ends the reading between two steps: no step is left. */
static inline int kob_read_damaged(kob_reader *reader)
{
    reader->whole = 0;
    reader->steps = 0;
    return 0;
}

/* Reads the header, if there are bytes, and says whether it is good. */
static inline int kob_read_header(kob_reader *reader)
{
    const size_t header = 7;
    if (reader->len == 0)
        return 1;
    if (reader->len < header || kob_plan_length(reader->bytes) != reader->len)
        return kob_read_damaged(reader);
    reader->move_bytes = kob_move_bytes(reader->bytes[0]);
    reader->steps = kob_number(reader->bytes + 5, 2);
    reader->at = header;
    if (reader->move_bytes == 0 || reader->steps > KOB_MAX_STEPS)
        return kob_read_damaged(reader);
    return 1;
}

/* Goes to the next step, past any moves of this one that were not read, and gives the count of its moves, 1
 * to 256. Returns 0 if there is no next step. */
static inline int kob_read_step(kob_reader *reader, unsigned *moves)
{
    reader->at += (size_t)reader->moves * reader->move_bytes;
    reader->moves = 0;
    if (reader->steps == 0)
        return reader->at == reader->len ? 0 : kob_read_damaged(reader);
    if (reader->len - reader->at < 2)
        return kob_read_damaged(reader);
    unsigned count = kob_number(reader->bytes + reader->at, 2);
    reader->at += 2;
    if (count < 1 || count > KOB_MAX_STEP_MOVES || count > reader->moves_left
        || count > (reader->len - reader->at) / reader->move_bytes)
        return kob_read_damaged(reader);
    reader->steps--;
    reader->moves = count;
    reader->moves_left -= count;
    *moves = count;
    return 1;
}

/* The source of a move that names none. It is no byte, so neither a node nor KOB_NOWHERE. */
#define KOB_NO_SOURCE 256

/* Gives the next move of this step: a VM, the place that the move names as its source, and the place it goes
 * to. In version 1 the source is KOB_NO_SOURCE. Returns 0 if the step has no more. In a plan that kob_check
 * accepts a place is a node or KOB_NOWHERE, and the VM is at that source when the step starts; if it is not,
 * kob_check refuses with 27. */
static inline int kob_read_move_from(kob_reader *reader, unsigned *vm, unsigned *source,
                                     unsigned *destination)
{
    if (reader->moves == 0)
        return 0;
    *vm = reader->bytes[reader->at];
    *source = reader->move_bytes == 3 ? reader->bytes[reader->at + 1] : KOB_NO_SOURCE;
    reader->at += reader->move_bytes;
    *destination = reader->bytes[reader->at - 1];
    reader->moves--;
    return 1;
}

/* The same without the source. */
static inline int kob_read_move(kob_reader *reader, unsigned *vm, unsigned *destination)
{
    unsigned source;
    return kob_read_move_from(reader, vm, &source, destination);
}

/* Whether the record is whole; once kob_read_step gave 0 this tells its end from damage. */
static inline int kob_read_whole(const kob_reader *reader)
{
    return reader->whole;
}

/* Starts reading, before the first step. Goes over all steps once, and returns 1 if the record is whole; if
 * not, 0, and no step is given. */
static inline int kob_read_start(kob_reader *reader, const uint8_t *bytes, size_t len)
{
    const kob_reader start = {bytes, len, 0, 0, 0, KOB_MAX_MOVES, 0, 1};
    unsigned moves;
    *reader = start;
    if (!kob_read_header(reader))
        return 0;
    kob_reader ahead = *reader;
    while (kob_read_step(&ahead, &moves))
        continue;
    return kob_read_whole(&ahead) ? 1 : kob_read_damaged(reader);
}

#endif
