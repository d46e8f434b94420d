/* Tests of the reserve. */
#include <string.h>

#include "test.h"

/* ---- 23 */

/* Whether all calls give these records 23, at every reserve that is too high. */
static int all_23(const struct record *cluster, const struct record *plan, size_t out_len)
{
    int good = 1;
    for (size_t i = 0; i < RESERVES; i++) {
        if (reserves[i] <= KOB_MAX_RESERVE)
            continue;
        struct answers got = ask(reserves[i], cluster, plan, out_len);
        good = good && got.verdict == refused(23, 0) && got.built == refused(23, 0) && got.right;
    }
    return good;
}

/* Whether these numbers, 0 for none, are what check and build give at reserve 0, and 23 what all give at every
 * reserve that is too high. */
static int then_23(const struct record *cluster, const struct record *plan, size_t out_len, unsigned checked,
                   unsigned built)
{
    struct answers got = ask(0, cluster, plan, out_len);
    return kob_refusal_number(got.verdict) == checked && kob_refusal_number(got.built) == built && got.right
           && all_23(cluster, plan, out_len);
}

/* 23 comes before every other number; 1 to 7 do not depend on the reserve. */
static void test_23_first(void)
{
    static struct record cluster, plan;
    put_plan_fault(&cluster, &plan, 0);
    expect(then_23(&cluster, &plan, KOB_BUILD_BUFFER, 0, 0), "23, where nothing else is wrong");
    expect(then_23(&cluster, &plan, KOB_BUILD_BUFFER - 1, 0, 10), "23 before 10");
    for (unsigned number = 1; number <= KOB_FAULT_TARGET_BROKEN; number++) {
        int same = 1;
        put_cluster_fault(&cluster, number);
        expect(then_23(&cluster, &plan, KOB_BUILD_BUFFER, number, number), "23 before 1 to 9");
        for (uint64_t reserve = 0; reserve <= KOB_MAX_RESERVE; reserve++) {
            struct answers got = ask(reserve, &cluster, &plan, KOB_BUILD_BUFFER);
            same = same && got.verdict == refused(number, 0) && got.built == got.verdict && got.right;
        }
        expect(same == (number != KOB_FAULT_TARGET_BROKEN), "1 to 8 at every reserve, 9 not: it comes to be 8");
    }
    for (unsigned number = KOB_FAULT_PLAN_SHORT; number <= KOB_FAULT_OFF_TARGET; number++) {
        put_plan_fault(&cluster, &plan, number);
        expect(then_23(&cluster, &plan, KOB_BUILD_BUFFER, number, 0), "23 before 11 to 19");
    }
    put_plan_fault(&cluster, &plan, KOB_FAULT_ELSEWHERE);
    expect(then_23(&cluster, &plan, KOB_BUILD_BUFFER, KOB_FAULT_ELSEWHERE, 0), "23 before 27");
    put_plan_fault(&cluster, &plan, KOB_FAULT_BEFORE);
    expect(then_23(&cluster, &plan, KOB_BUILD_BUFFER, KOB_FAULT_BEFORE, 0), "23 before 33");
}

static void test_23_empty(void)
{
    uint8_t *astray = (uint8_t *)(uintptr_t)1;
    for (size_t i = 0; i < RESERVES; i++) {
        uint64_t wanted = reserves[i] > KOB_MAX_RESERVE ? refused(23, 0) : refused(1, 0);
        expect(kob_check(reserves[i], NULL, 0, NULL, 0) == wanted, "check, both NULL, at a reserve");
        expect(kob_check(reserves[i], astray, 0, astray, 0) == wanted, "check, both astray, at a reserve");
        expect(kob_build(reserves[i], NULL, 0, NULL, 0) == wanted, "build, both NULL, at a reserve");
        expect(kob_build(reserves[i], astray, 0, astray, 0) == wanted, "build, both astray, at a reserve");
    }
}

/* ---- what is usable */

/* The verdict on the move of a VM to a node, its target, from one that has just what the VM needs. */
static uint64_t verdict_on_move(uint64_t reserve, uint32_t memory, uint32_t cpu, uint32_t vm_memory, uint32_t vm_cpu)
{
    static const uint8_t move[] = {2, 0, 0, 0, 12, 0, 1, 0, 1, 0, 0, 1};
    static struct record cluster;
    put_cluster(&cluster, 2, 1, 0);
    put_node(&cluster, vm_memory, vm_cpu);
    put_node(&cluster, memory, cpu);
    put_vm(&cluster, vm_memory, vm_cpu, 0, 1);
    finish(&cluster);
    return kob_check(reserve, cluster.bytes, cluster.len, move, sizeof move);
}

/* Whether just the memory and the CPU that the formula gives can be used. */
static int usable(uint64_t reserve, uint32_t memory, uint32_t cpu)
{
    uint32_t most = (uint32_t)(memory * (100 - reserve) / 100);
    uint32_t most_cpu = (uint32_t)(cpu * (100 - reserve) / 100);
    uint32_t some = most == 0 ? 1 : most; /* no VM has memory 0 */
    return verdict_on_move(reserve, memory, cpu, some, most_cpu) == (most == 0 ? refused(8, 0) : most)
           && verdict_on_move(reserve, memory, cpu, most + 1, most_cpu) == refused(8, 0)
           && verdict_on_move(reserve, memory, cpu, some, most_cpu + 1) == refused(8, 0);
}

static void test_usable(void)
{
    static const uint32_t sizes[] = {1, 2, 4, 9, 10, 11, 50, 99, 100, 101, 199, 65535};
    expect(verdict_on_move(0, 4, 101, 4, 101) == 4, "4 and 101 at 0: all of it");
    expect(verdict_on_move(10, 4, 101, 3, 90) == 3, "4 and 101 at 10: 3 and 90");
    expect(verdict_on_move(10, 4, 101, 4, 90) == refused(8, 0), "4 and 101 at 10: not 4");
    expect(verdict_on_move(10, 4, 101, 3, 91) == refused(8, 0), "4 and 101 at 10: not 91");
    expect(verdict_on_move(25, 4, 101, 3, 75) == 3, "4 and 101 at 25: 3 and 75");
    expect(verdict_on_move(26, 4, 101, 3, 74) == refused(8, 0), "4 and 101 at 26: not 3");
    expect(verdict_on_move(1, 2, 1, 1, 0) == 1, "2 and 1 at 1: 1 and 0");
    expect(verdict_on_move(1, 2, 1, 1, 1) == refused(8, 0), "2 and 1 at 1: not CPU 1");
    expect(verdict_on_move(1, 1, 100, 1, 0) == refused(8, 0), "memory 1 at 1: none");
    expect(verdict_on_move(90, 16777215, 65535, 1677721, 6553) == 1677721, "the largest node at 90");
    expect(verdict_on_move(90, 16777215, 65535, 1677722, 6553) == refused(8, 0), "and no more memory");
    expect(verdict_on_move(90, 16777215, 65535, 1677721, 6554) == refused(8, 0), "and no more CPU");
    for (uint64_t reserve = 1; reserve <= KOB_MAX_RESERVE; reserve++) {
        int good = usable(reserve, 16777215, 65535);
        for (size_t i = 0; i < sizeof sizes / sizeof sizes[0]; i++)
            good = usable(reserve, sizes[i], sizes[sizeof sizes / sizeof sizes[0] - 1 - i]) && good;
        expect(good, "what is usable, at every reserve");
    }
}

/* What kob_build gives for A with this memory on each node; `three` is set to whether A's plan is written. */
static uint64_t build_a(uint64_t reserve, uint8_t memory, int *three)
{
    uint8_t cluster[sizeof cluster_a], out[KOB_BUILD_BUFFER];
    memset(out, FILL, sizeof out);
    memcpy(cluster, cluster_a, sizeof cluster);
    cluster[13] = cluster[18] = cluster[23] = memory;
    uint64_t result = kob_build(reserve, cluster, sizeof cluster, out, sizeof out);
    *three = memcmp(out, plan_a, sizeof plan_a) == 0;
    return result;
}

/* The verdict on a plan for it. */
static uint64_t check_a(uint64_t reserve, uint8_t memory, const uint8_t *plan, size_t len)
{
    uint8_t cluster[sizeof cluster_a];
    memcpy(cluster, cluster_a, sizeof cluster);
    cluster[13] = cluster[18] = cluster[23] = memory;
    return kob_check(reserve, cluster, sizeof cluster, plan, len);
}

/* Of 4 it is 3 up to 25, of 5 it is 4 up to 20 and 3 up to 40; VM 0 needs 3, both together need 5. */
static void test_every_reserve(void)
{
    static const uint8_t both[] = {1, 0, 0, 0, 13, 0, 1, 0, 2, 0, 1, 1, 0};
    const uint64_t three_steps = made(KOB_PLAN, 3, 3, 16);
    for (uint64_t reserve = 0; reserve <= KOB_MAX_RESERVE; reserve++) {
        int three;
        uint64_t wanted = reserve <= 25 ? three_steps : refused(8, 0);
        expect(build_a(reserve, 4, &three) == wanted && three == (reserve <= 25), "build of A at every reserve");
        wanted = reserve <= 25 ? 16 : refused(8, 0);
        expect(check_a(reserve, 4, plan_a, sizeof plan_a) == wanted, "check of A at every reserve");
        wanted = reserve == 0 ? made(KOB_PLAN, 1, 2, 5) : reserve <= 40 ? three_steps : refused(8, 0);
        expect(build_a(reserve, 5, &three) == wanted && three == (wanted == three_steps), "build with memory 5");
        wanted = reserve <= 40 ? 16 : refused(8, 0);
        expect(check_a(reserve, 5, plan_a, sizeof plan_a) == wanted, "check with memory 5");
        wanted = reserve == 0 ? 5 : reserve <= 40 ? refused(17, 1) : refused(8, 0);
        expect(check_a(reserve, 5, both, sizeof both) == wanted, "17 by the reserve alone");
    }
}

/* A's plan where node 2, on which VM 0 steps aside, has this memory and CPU. */
static uint64_t verdict_aside(uint64_t reserve, uint8_t memory, uint8_t cpu)
{
    uint8_t cluster[sizeof cluster_a];
    memcpy(cluster, cluster_a, sizeof cluster);
    cluster[23] = memory;
    cluster[25] = cpu;
    return kob_check(reserve, cluster, sizeof cluster, plan_a, sizeof plan_a);
}

/* What is built where it has this memory. */
static uint64_t built_aside(uint64_t reserve, uint8_t memory)
{
    uint8_t cluster[sizeof cluster_a], out[KOB_BUILD_BUFFER];
    memcpy(cluster, cluster_a, sizeof cluster);
    cluster[23] = memory;
    return kob_build(reserve, cluster, sizeof cluster, out, sizeof out);
}

/* If only 2 are usable, VM 1 is the one to step aside; if 1, none can. */
static void test_aside(void)
{
    expect(verdict_aside(0, 3, 50) == 16, "aside at 0");
    expect(verdict_aside(1, 3, 51) == refused(17, 1), "memory 3 at 1 is 2");
    expect(verdict_aside(1, 4, 50) == refused(17, 1), "CPU 50 at 1 is 49");
    expect(verdict_aside(1, 4, 51) == 16, "memory 4 and CPU 51 at 1 are 3 and 50");
    expect(verdict_aside(20, 4, 62) == refused(17, 1), "CPU 62 at 20 is 49");
    expect(verdict_aside(20, 4, 63) == 16, "CPU 63 at 20 is 50");
    expect(built_aside(0, 3) == made(KOB_PLAN, 3, 3, 16), "memory 3 at 0: planned so");
    expect(built_aside(1, 3) == made(KOB_PLAN, 3, 3, 14), "memory 3 at 1: the other VM");
    expect(built_aside(0, 2) == made(KOB_PLAN, 3, 3, 14), "memory 2 at 0: the other VM");
    expect(built_aside(1, 2) == made(KOB_BLOCKED, 0, 0, 0), "memory 2 at 1: blocked");
}

/* ---- nodes that start over what is usable */

/* VM 0 leaves node 0 for node 1, VM 1 comes from node 2. Node 0 has memory 10 and CPU 100. */
static void exchange(struct record *cluster, uint32_t memory, uint32_t cpu, uint32_t coming_cpu)
{
    put_cluster(cluster, 3, 2, 0);
    put_node(cluster, 10, 100);
    put_node(cluster, 20, 200);
    put_node(cluster, 10, 100);
    put_vm(cluster, memory, cpu, 0, 1);
    put_vm(cluster, 1, coming_cpu, 2, 0);
    finish(cluster);
}

static const uint8_t at_once[] = {2, 0, 0, 0, 15, 0, 1, 0, 2, 0, 0, 1, 1, 2, 0};
static const uint8_t in_turn[] = {2, 0, 0, 0, 17, 0, 2, 0, 1, 0, 0, 1, 0, 1, 1, 2, 0};

/* Whether at a reserve the plan of one step is built, and accepted at this cost. */
static int goes_at_once(uint64_t reserve, const struct record *cluster, uint64_t cost)
{
    uint8_t out[KOB_BUILD_BUFFER];
    return kob_build(reserve, cluster->bytes, cluster->len, out, sizeof out) == made(KOB_PLAN, 1, 2, cost)
           && memcmp(out, at_once, sizeof at_once) == 0
           && kob_check(reserve, cluster->bytes, cluster->len, at_once, sizeof at_once) == cost;
}

/* The same of the plan of two steps; the one of one step is refused. */
static int goes_in_turn(uint64_t reserve, const struct record *cluster, uint64_t cost)
{
    uint8_t out[KOB_BUILD_BUFFER];
    return kob_build(reserve, cluster->bytes, cluster->len, out, sizeof out) == made(KOB_PLAN, 2, 2, cost)
           && memcmp(out, in_turn, sizeof in_turn) == 0
           && kob_check(reserve, cluster->bytes, cluster->len, in_turn, sizeof in_turn) == cost
           && kob_check(reserve, cluster->bytes, cluster->len, at_once, sizeof at_once) == refused(17, 1);
}

static void test_over_usable(void)
{
    static struct record cluster;
    exchange(&cluster, 9, 50, 10);
    expect(goes_at_once(0, &cluster, 10), "memory 9 of 10, and 1 more");
    expect(goes_in_turn(10, &cluster, 19), "memory 9 of 9: full");
    expect(goes_in_turn(20, &cluster, 19), "memory 9 of 8: left, and nobody comes before");
    exchange(&cluster, 9, 50, 0);
    expect(goes_in_turn(20, &cluster, 19), "memory 9 of 8: nor does an idle VM");
    exchange(&cluster, 5, 95, 1);
    expect(goes_at_once(0, &cluster, 6), "CPU 95 of 100, and 1 more");
    expect(goes_in_turn(5, &cluster, 11), "CPU 95 of 95: full");
    expect(goes_in_turn(10, &cluster, 11), "CPU 95 of 90: left, and no active VM comes before");
    exchange(&cluster, 5, 95, 0);
    expect(goes_at_once(10, &cluster, 6), "CPU 95 of 90: an idle VM comes");
    exchange(&cluster, 10, 100, 0);
    expect(goes_in_turn(0, &cluster, 21), "memory 10 of 10: full");
    expect(goes_in_turn(50, &cluster, 21), "memory 10 of 5: left");
}

/* A launch behind a shutdown: at 50 VM 0 takes 3 where 2 are usable, and may leave; at 51 VM 1, which needs 2,
 * cannot come. */
static void test_turnover_kept(void)
{
    uint8_t cluster[sizeof cluster_a];
    turnover(cluster);
    for (uint64_t reserve = 0; reserve <= KOB_MAX_RESERVE; reserve++) {
        uint64_t verdict = kob_check(reserve, cluster, sizeof cluster, turnover_plan, sizeof turnover_plan);
        uint8_t out[KOB_BUILD_BUFFER];
        uint64_t built = kob_build(reserve, cluster, sizeof cluster, out, sizeof out);
        expect(verdict == (reserve <= 50 ? 2 : refused(8, 0)), "a shutdown and a launch at every reserve");
        expect(reserve > 50 ? built == verdict
                            : kob_outcome_of(built) == KOB_PLAN && kob_cost(built) == 2
                                  && kob_plan_length(out) == sizeof turnover_plan
                                  && memcmp(out, turnover_plan, sizeof turnover_plan) == 0,
               "and so built");
    }
}

/* ---- smaller reserves */

/* A room of 2 to 5 nodes and 1 to 6 VMs. */
static void put_room(struct record *cluster)
{
    uint32_t nodes = 2 + draw() % 4, vms = 1 + draw() % 6;
    put_cluster(cluster, nodes, vms, 0);
    for (uint32_t i = 0; i < nodes; i++)
        put_node(cluster, 5 + draw() % 20, 50 + draw() % 200);
    for (uint32_t i = 0; i < vms; i++)
        put_vm(cluster, 1 + draw() % 6, draw() % 50, draw() % nodes, draw() % nodes);
    finish(cluster);
}

/* Whether a plan is accepted at this cost at a reserve and at every smaller one. */
static int accepted_below(uint64_t reserve, const struct record *cluster, const uint8_t *plan, uint64_t cost)
{
    int good = 1;
    for (uint64_t r = 0; r <= reserve; r++)
        good = good && kob_check(r, cluster->bytes, cluster->len, plan, kob_plan_length(plan)) == cost;
    return good;
}

static void test_smaller(void)
{
    static struct record room, plan;
    uint8_t out[KOB_BUILD_BUFFER];
    int good = 1, plans = 0, other = 0;
    exchange(&room, 9, 50, 10);
    expect(accepted_below(20, &room, in_turn, 19), "accepted at 20, and at every smaller one");
    for (int i = 0; i < 3000; i++) {
        uint64_t reserve = draw() % (KOB_MAX_RESERVE + 1);
        put_room(&room);
        uint64_t result = kob_build(reserve, room.bytes, room.len, out, sizeof out);
        if (kob_outcome_of(result) != KOB_PLAN)
            continue;
        good = accepted_below(reserve, &room, out, kob_cost(result)) && good;
        plans++;
        other += kob_build(0, room.bytes, room.len, out, sizeof out) != result;
    }
    expect(good, "what is built at a reserve is accepted at every smaller one");
    expect(plans > 300 && other > 30, "plans for 3,000 rooms, and some that are other ones at 0");
    full_room(&room);
    full_plan(&plan, 2);
    expect(accepted_below(KOB_MAX_RESERVE, &room, plan.bytes, FULL_PLAN_COST), "the full plan at every reserve");
}

int main(void)
{
    expect(KOB_MAX_RESERVE == 90, "the largest reserve");
    test_23_first();
    test_23_empty();
    group("23");
    test_usable();
    test_every_reserve();
    test_aside();
    group("usable");
    test_over_usable();
    test_turnover_kept();
    group("over what is usable");
    test_smaller();
    group("smaller reserves");
    return status();
}
