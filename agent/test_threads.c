/* Stack use, by painted stacks, and calls from many threads at once. */
#define _DEFAULT_SOURCE
#include <pthread.h>
#include <stdio.h>
#include <stdlib.h>
#include <string.h>
#include <sys/mman.h>

#include "test.h"

#define PAINT 0xa5
#define PAINTED (1024 * 1024)
#define THREADS 8
#define ROUNDS 20

static struct record room, plan, long_room, waiting_room;
static uint64_t long_result;

/* ---- stack */

/* A call on a thread of its own, and where its stack begins. */
struct call {
    uint64_t (*run)(void);
    uint64_t result;
    const volatile char *top;
};

static uint64_t check_full(void)
{
    return kob_check(0, room.bytes, room.len, plan.bytes, plan.len);
}

static uint64_t build_full(void)
{
    static uint8_t out[KOB_BUILD_BUFFER];
    return kob_build(0, room.bytes, room.len, out, sizeof out);
}

static uint64_t build_long(void)
{
    static uint8_t out[KOB_BUILD_BUFFER];
    return kob_build(0, long_room.bytes, long_room.len, out, sizeof out);
}

/* The same with VMs that wait, and the check of what was built. */
static uint8_t waiting_plan[KOB_BUILD_BUFFER];

static uint64_t build_waiting(void)
{
    return kob_build(0, waiting_room.bytes, waiting_room.len, waiting_plan, sizeof waiting_plan);
}

static uint64_t check_waiting(void)
{
    return kob_check(0, waiting_room.bytes, waiting_room.len, waiting_plan, kob_plan_length(waiting_plan));
}

/* Stops of the full plan, in its first step and in its last, and of what was built for VMs that wait. */
static uint8_t stop_out[KOB_MAX_CLUSTER_BYTES];

static uint64_t stop_first(void)
{
    static const uint8_t marks[255]; /* all stayed */
    return kob_stop(0, room.bytes, room.len, plan.bytes, plan.len, 1, marks, sizeof marks, stop_out, sizeof stop_out);
}

static const uint8_t ended[] = {KOB_MARK_ENDED};

static uint64_t stop_last(void)
{
    return kob_stop(0, room.bytes, room.len, plan.bytes, plan.len, KOB_MAX_STEPS, ended, 1, stop_out, sizeof stop_out);
}

static uint64_t stop_waiting(void)
{
    return kob_stop(0, waiting_room.bytes, waiting_room.len, waiting_plan, kob_plan_length(waiting_plan), CHAIN_STEPS,
                    ended, 1, stop_out, sizeof stop_out);
}

/* Splits of a plan of 512 moves, of the full plan, which has too many, and of what was built for VMs that wait. */
static struct record two_rounds;

static uint64_t split_plan(const struct record *cluster, const uint8_t *bytes, size_t len)
{
    static uint8_t out[KOB_SPLIT_BUFFER];
    return kob_split(0, cluster->bytes, cluster->len, bytes, len, out, sizeof out);
}

static uint64_t split_rounds(void)
{
    return split_plan(&room, two_rounds.bytes, two_rounds.len);
}

static uint64_t split_full(void)
{
    return split_plan(&room, plan.bytes, plan.len);
}

static uint64_t split_waiting(void)
{
    return split_plan(&waiting_room, waiting_plan, kob_plan_length(waiting_plan));
}

static void *begin(void *argument)
{
    struct call *call = argument;
    volatile char here = 0;
    call->top = &here;
    call->result = call->run();
    return NULL;
}

static void on_stack(struct call *call, void *stack)
{
    pthread_attr_t attributes;
    pthread_t thread;
    int bad = pthread_attr_init(&attributes) || pthread_attr_setstack(&attributes, stack, PAINTED)
              || pthread_create(&thread, &attributes, begin, call) || pthread_join(thread, NULL);
    if (bad) {
        fprintf(stderr, "cannot run a thread on a stack of its own\n");
        exit(1);
    }
    pthread_attr_destroy(&attributes);
}

/* The bytes from a call's caller down to the deepest one that it changed. */
static size_t stack_use(struct call *call)
{
    unsigned char *stack = mmap(NULL, PAINTED, PROT_READ | PROT_WRITE, MAP_PRIVATE | MAP_ANONYMOUS, -1, 0);
    if (stack == MAP_FAILED) {
        perror("mmap");
        exit(1);
    }
    memset(stack, PAINT, PAINTED);
    on_stack(call, stack);
    unsigned char *deepest = stack;
    while (*deepest == PAINT)
        deepest++;
    size_t used = (size_t)((const volatile unsigned char *)call->top - deepest);
    munmap(stack, PAINTED);
    return used;
}

static void test_stack(void)
{
    struct call checked = {check_full, 0, NULL};
    struct call built = {build_full, 0, NULL};
    struct call built_long = {build_long, 0, NULL};
    size_t check_use = stack_use(&checked);
    size_t build_use = stack_use(&built);
    size_t long_use = stack_use(&built_long);
    expect(checked.result == FULL_PLAN_COST, "the full plan is accepted");
    expect(kob_outcome_of(built.result) == KOB_PLAN, "the full room is planned");
    expect(kob_steps(built.result) == 1, "the full room's steps");
    expect(built_long.result == long_result, "the chains are planned");
    expect(check_use < KOB_CHECK_STACK, "check keeps to its stack");
    expect(build_use < KOB_BUILD_STACK, "build keeps to its stack on the full room");
    expect(long_use < KOB_BUILD_STACK, "build keeps to its stack on the chains");
    expect(long_use < build_use + CHAIN_STEPS, "and takes none for a step");
    printf("stack used: check %zu bytes (512 steps), build %zu (1 step), build %zu (%d steps)\n", check_use,
           build_use, long_use, CHAIN_STEPS);
    group("stack");
}

static void test_stack_waiting(void)
{
    struct call built = {build_waiting, 0, NULL};
    struct call checked = {check_waiting, 0, NULL};
    expect(stack_use(&built) < KOB_BUILD_STACK, "build keeps to its stack with VMs that wait");
    expect(stack_use(&checked) < KOB_CHECK_STACK, "check keeps to its stack with VMs that wait");
    expect(built.result == long_result && checked.result == kob_cost(long_result), "the waiting chains are planned");
    group("stack, VMs that wait");
}

static void test_stack_stopped(void)
{
    struct call first = {stop_first, 0, NULL};
    struct call last = {stop_last, 0, NULL};
    struct call waiting = {stop_waiting, 0, NULL};
    size_t first_use = stack_use(&first), last_use = stack_use(&last), waiting_use = stack_use(&waiting);
    expect(first.result == room.len && last.result == room.len, "the full plan is stopped");
    expect(waiting.result == waiting_room.len, "the waiting chains are stopped");
    expect(first_use < KOB_STOP_STACK, "stop keeps to its stack in the first step");
    expect(last_use < KOB_STOP_STACK, "stop keeps to its stack in the last step");
    expect(waiting_use < KOB_STOP_STACK, "stop keeps to its stack with VMs that wait");
    printf("stack used: stop %zu bytes (step 1), stop %zu (step %d)\n", first_use, last_use, KOB_MAX_STEPS);
    group("stack, stopped");
}

/* 512 moves of memory 1, one after the other, cost 1 + 2 + ... + 512. */
#define SINGLE_COST 131328

static void test_stack_split(void)
{
    struct call whole = {split_rounds, 0, NULL};
    struct call full = {split_full, 0, NULL};
    struct call waiting = {split_waiting, 0, NULL};
    size_t use = stack_use(&whole), full_use = stack_use(&full), waiting_use = stack_use(&waiting);
    expect(whole.result == divided(KOB_MAX_STEPS, SINGLE_COST), "512 moves are divided");
    expect(full.result == refused(14, 0), "1,024 are not");
    expect(waiting.result == divided(CHAIN_STEPS, kob_cost(long_result)), "the waiting chains are divided");
    expect(use < KOB_SPLIT_STACK, "split keeps to its stack");
    expect(full_use < KOB_SPLIT_STACK, "split keeps to its stack on the full plan");
    expect(waiting_use < KOB_SPLIT_STACK, "split keeps to its stack with VMs that wait");
    printf("stack used: split %zu bytes (%d moves), split %zu (1024 moves, refused)\n", use, KOB_MAX_STEPS, full_use);
    group("stack, divided");
}

/* ---- threads */

struct worker {
    pthread_t thread;
    uint64_t reserve;
    uint8_t out[KOB_SPLIT_BUFFER];
    uint8_t left[KOB_MAX_CLUSTER_BYTES];
    int right;
};

/* A at a reserve: its plan up to 25, then 8, above 90 it is 23. */
static int a_right(uint64_t reserve, uint8_t *out)
{
    uint64_t built = kob_build(reserve, cluster_a, sizeof cluster_a, out, KOB_BUILD_BUFFER);
    uint64_t verdict = kob_check(reserve, cluster_a, sizeof cluster_a, plan_a, sizeof plan_a);
    if (reserve > 25)
        return built == refused(reserve > KOB_MAX_RESERVE ? 23 : 8, 0) && verdict == built;
    return built == made(KOB_PLAN, 3, 3, 16) && memcmp(out, plan_a, sizeof plan_a) == 0 && verdict == 16;
}

/* A stopped in its last step, at a reserve. */
static int a_stopped_right(uint64_t reserve, uint8_t *left)
{
    left[31] = FILL; /* VM 0's node */
    uint64_t result = kob_stop(reserve, cluster_a, sizeof cluster_a, plan_a, sizeof plan_a, 3, ended, 1, left,
                               KOB_MAX_CLUSTER_BYTES);
    if (reserve > 25)
        return result == refused(reserve > KOB_MAX_RESERVE ? 23 : 8, 0) && left[31] == FILL;
    return result == sizeof cluster_a && left[31] == 1 && left[38] == 0;
}

/* The full plan stopped in a step that moves VM 0 alone, between the nodes 0 and 1. */
static int full_stopped_right(uint32_t step, uint8_t *left)
{
    uint64_t result = kob_stop(0, room.bytes, room.len, plan.bytes, plan.len, step, ended, 1, left,
                               KOB_MAX_CLUSTER_BYTES);
    unsigned node = KOB_NOWHERE;
    return result == room.len && kob_vm_current(left, room.len, 0, &node) && node == (step % 2 == 0 ? 1 : 0);
}

/* A's plan divided, at a reserve; it has single moves and stays. */
static int a_divided_right(uint64_t reserve, uint8_t *out)
{
    out[0] = FILL;
    uint64_t result = kob_split(reserve, cluster_a, sizeof cluster_a, plan_a, sizeof plan_a, out, KOB_SPLIT_BUFFER);
    if (reserve > 25)
        return result == refused(reserve > KOB_MAX_RESERVE ? 23 : 8, 0) && out[0] == FILL;
    return result == divided(3, 16) && memcmp(out, plan_a, sizeof plan_a) == 0;
}

/* 512 moves divided, and what is written checked. */
static int full_divided_right(uint8_t *out)
{
    uint64_t result = kob_split(0, room.bytes, room.len, two_rounds.bytes, two_rounds.len, out, KOB_SPLIT_BUFFER);
    return result == divided(KOB_MAX_STEPS, SINGLE_COST)
           && kob_check(0, room.bytes, room.len, out, kob_plan_length(out)) == SINGLE_COST;
}

/* One round: plan, check, stop and divide A, the chains and the full room. All threads read the same clusters. */
static int round_right(uint64_t reserve, uint8_t *out, uint8_t *left)
{
    int right = a_right(reserve, out) && a_stopped_right(reserve, left) && a_divided_right(reserve, out);
    right = right && full_stopped_right(KOB_MAX_STEPS - (uint32_t)(reserve % 7), left) && full_divided_right(out);
    right = right && kob_build(0, long_room.bytes, long_room.len, out, KOB_BUILD_BUFFER) == long_result;
    uint64_t verdict = kob_check(0, long_room.bytes, long_room.len, out, kob_plan_length(out));
    return right && verdict == kob_cost(long_result) && check_full() == FULL_PLAN_COST;
}

static void *work(void *argument)
{
    struct worker *worker = argument;
    worker->right = 1;
    for (int i = 0; i < ROUNDS; i++)
        worker->right = round_right(worker->reserve, worker->out, worker->left) && worker->right;
    return NULL;
}

static void test_threads(void)
{
    static struct worker workers[THREADS];
    for (int i = 0; i < THREADS; i++) {
        workers[i].reserve = (uint64_t)i * 13; /* 0 to 91 */
        if (pthread_create(&workers[i].thread, NULL, work, &workers[i]) != 0) {
            fprintf(stderr, "cannot start a thread\n");
            exit(1);
        }
    }
    for (int i = 0; i < THREADS; i++) {
        pthread_join(workers[i].thread, NULL);
        expect(workers[i].right, "a thread among others gets the same results");
    }
    group("threads");
}

int main(void)
{
    full_room(&room);
    full_plan(&plan, 2);
    rounds(&two_rounds, 2, KOB_MAX_STEPS);
    chains(&long_room);
    waiting_chains(&waiting_room);
    long_result = build_long();
    expect(kob_outcome_of(long_result) == KOB_PLAN, "the chains are planned");
    expect(kob_steps(long_result) == CHAIN_STEPS, "the chains' steps");
    test_stack();
    test_stack_waiting();
    test_stack_stopped();
    test_stack_split();
    test_threads();
    return status();
}
