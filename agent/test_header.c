/* Tests of kobdrieft.h but its reader, and of the library as C sees it. */
#include <stdlib.h>
#include <string.h>

#include "test.h"

/* ---- unpackers and texts */

static void test_unpackers(void)
{
    uint64_t most = ((uint64_t)1 << 44) - 1;
    uint64_t plan = made(0, 511, 511, most);
    uint64_t blocked = made(1, 1, 2, 3);
    uint64_t refusal = refused(17, 512);
    expect(kob_outcome_of(plan) == KOB_PLAN && kob_outcome_of(plan) == KOB_ACCEPTED, "outcome of a plan");
    expect(kob_steps(plan) == 511 && kob_moves(plan) == 511 && kob_cost(plan) == most, "numbers of a plan");
    expect(kob_refusal_number(plan) == 0 && kob_refusal_step(plan) == 0, "a plan has no refusal");
    expect(kob_outcome_of(blocked) == KOB_BLOCKED, "outcome of blocked");
    expect(kob_steps(blocked) == 1, "steps of blocked");
    expect(kob_moves(blocked) == 2, "moves of blocked");
    expect(kob_cost(blocked) == 3, "cost of blocked");
    expect(kob_refusal_number(blocked) == 0 && kob_refusal_step(blocked) == 0, "blocked has no refusal");
    expect(kob_outcome_of(refusal) == KOB_REFUSED, "outcome of a refusal");
    expect(kob_refusal_number(refusal) == KOB_FAULT_MISFIT, "number of a refusal");
    expect(kob_refusal_step(refusal) == 512, "step of a refusal");
    expect(kob_refusal_number(refused(33, 7)) == KOB_FAULT_BEFORE, "number of 33");
    expect(kob_refusal_step(refused(33, 7)) == 7, "step of 33");
    expect(kob_refusal_number(refused(22, 0)) == KOB_FAULT_STOP_BUFFER, "number of 22");
    expect(kob_refusal_step(refused(22, 0)) == 0, "step of 22");
    expect(kob_steps(refusal) == 0 && kob_moves(refusal) == 0, "a refusal has no steps");
    expect(kob_cost(refusal) == 0, "a refusal has no cost");
    expect(kob_outcome_of(0) == KOB_PLAN && kob_cost(0) == 0 && kob_steps(0) == 0, "the empty plan");
    expect(kob_cost(16) == 16 && kob_steps(16) == 0 && kob_moves(16) == 0, "an accepted plan");
    expect(kob_outcome_of(40) == KOB_STOPPED && kob_length(40) == 40, "a stop");
    expect(kob_length(most) == most && kob_length(plan) == most, "the longest record there could be");
    expect(kob_length(0) == 0 && kob_length(65535) == KOB_MAX_CLUSTER_BYTES, "the longest that there is");
    expect(kob_length(refusal) == 0 && kob_length(refused(22, 0)) == 0, "a refusal has no length");
    expect(kob_steps(40) == 0 && kob_moves(40) == 0 && kob_refusal_number(40) == 0, "a stop has no steps");
    expect(KOB_MARK_STAYED == 0 && KOB_MARK_ENDED == 1, "the marks");
    expect(kob_outcome_of(divided(512, most)) == KOB_DIVIDED, "outcome of a divided plan");
    expect(kob_split_steps(divided(512, most)) == KOB_MAX_STEPS && kob_cost(divided(512, most)) == most, "512 steps");
    expect(kob_split_steps(divided(511, 1)) == 511 && kob_cost(divided(511, 1)) == 1, "511 steps");
    expect(kob_split_steps(divided(3, 16)) == 3 && kob_cost(divided(3, 16)) == 16, "3 steps");
    expect(kob_split_steps(0) == 0 && kob_split_steps(most) == 0, "no steps");
    expect(kob_split_steps(~(uint64_t)0 >> 2) == 1023, "ten bits of steps");
    expect(kob_refusal_number(divided(512, most)) == 0 && kob_refusal_step(divided(512, most)) == 0,
           "a divided plan has no refusal");
    expect(kob_split_steps(refusal) == 0 && kob_split_steps(refused(255, 65535)) == 0, "a refusal has none to divide");
    expect(KOB_SPLIT_BUFFER == 2567 && KOB_BUILD_BUFFER == 2562, "the least buffers for a plan");
    expect(KOB_FAULT_NO_STEP == 20 && KOB_FAULT_MARK == 21 && KOB_FAULT_STOP_BUFFER == 22, "20 to 22");
    expect(kob_plan_length(plan_a) == 22, "length in a header");
    expect(kob_plan_length((const uint8_t *)"\1\1\2\3\4") == 0x01020304, "length in big-endian");
    group("unpackers");
}

/* A line: some characters, none of them a line end. */
static int is_line(const char *text)
{
    return strlen(text) > 8 && strchr(text, '\n') == NULL;
}

static void test_texts(void)
{
    for (unsigned number = 0; number <= KOB_FAULT_BEFORE; number++) {
        const char *text = kob_fault_text(number);
        int differs = 1;
        for (unsigned other = 0; other < number; other++)
            differs = differs && strcmp(text, kob_fault_text(other)) != 0;
        if (number <= KOB_FAULT_RESERVE || number == KOB_FAULT_ELSEWHERE || number == KOB_FAULT_BEFORE)
            expect(is_line(text) && differs, "a text for each number");
        else
            expect(strcmp(text, "Unknown number.") == 0, "no text for another number between 23 and 33");
    }
    expect(strstr(kob_fault_text(KOB_FAULT_CLUSTER_SHORT), "11 bytes") != NULL, "text 1");
    expect(strstr(kob_fault_text(KOB_FAULT_BUFFER_SHORT), "2,562") != NULL, "text 10, to build");
    expect(strstr(kob_fault_text(KOB_FAULT_BUFFER_SHORT), "2,567") != NULL, "text 10, to split");
    expect(strstr(kob_fault_text(KOB_FAULT_PLAN_SHAPE), "512 steps") != NULL, "text 14");
    expect(strstr(kob_fault_text(KOB_FAULT_PLAN_SHAPE), "divided") != NULL
               || strstr(kob_fault_text(KOB_FAULT_PLAN_SHAPE), "split") != NULL, "text 14, to split");
    expect(strstr(kob_fault_text(KOB_FAULT_OFF_TARGET), "target") != NULL, "text 19");
    expect(strstr(kob_fault_text(KOB_FAULT_NO_STEP), "step") != NULL, "text 20");
    expect(strstr(kob_fault_text(KOB_FAULT_MARK), "mark") != NULL, "text 21");
    expect(strstr(kob_fault_text(KOB_FAULT_STOP_BUFFER), "buffer") != NULL, "text 22");
    expect(strstr(kob_fault_text(KOB_FAULT_RESERVE), "reserve") != NULL, "text 23");
    expect(strstr(kob_fault_text(KOB_FAULT_ELSEWHERE), "source") != NULL, "text 27");
    expect(strstr(kob_fault_text(KOB_FAULT_BEFORE), "waits") != NULL, "text 33");
    expect(strcmp(kob_fault_text(256), "Unknown number.") == 0, "text of 256");
    expect(strcmp(kob_fault_text(~0u), "Unknown number.") == 0, "text of the largest number");
    expect(KOBDRIEFT_VERSION == 9, "the interface's version");
    group("texts");
}

/* ---- lengths of 0 */

static void test_empty(void)
{
    uint8_t out[KOB_BUILD_BUFFER];
    uint8_t *astray = (uint8_t *)(uintptr_t)1;
    memset(out, FILL, sizeof out);
    expect(kob_check(0, NULL, 0, NULL, 0) == refused(1, 0), "check, both NULL");
    expect(kob_check(0, NULL, 0, plan_a, sizeof plan_a) == refused(1, 0), "check, cluster NULL");
    expect(kob_check(0, cluster_a, sizeof cluster_a, NULL, 0) == refused(19, 0), "check, plan NULL");
    expect(kob_check(0, cluster_a, sizeof cluster_a, astray, 0) == refused(19, 0), "check, plan astray");
    expect(kob_build(0, NULL, 0, NULL, 0) == refused(1, 0), "build, both NULL");
    expect(kob_build(0, NULL, 0, out, sizeof out) == refused(1, 0), "build, cluster NULL");
    expect(kob_build(0, cluster_a, sizeof cluster_a, NULL, 0) == refused(10, 0), "build, buffer NULL");
    expect(kob_build(0, cluster_a, sizeof cluster_a, astray, 0) == refused(10, 0), "build, buffer astray");
    expect(all_are(out, sizeof out, FILL), "refusals write nothing");
    group("length 0");
}

/* ---- a plan of 0 bytes: one of no steps, on every cluster */

static const uint8_t no_steps[] = {1, 0, 0, 0, 7, 0, 0};
static const uint8_t no_steps_2[] = {2, 0, 0, 0, 7, 0, 0};

/* Whether 0 bytes get the verdict of a header with 0 steps, of either version. `number` is set to its
 * refusal's number, or 0. */
static int as_header(const uint8_t *cluster, size_t len, unsigned *number)
{
    uint64_t verdict = kob_check(0, cluster, len, NULL, 0);
    *number = kob_refusal_number(verdict);
    return verdict == kob_check(0, cluster, len, no_steps, sizeof no_steps)
           && verdict == kob_check(0, cluster, len, no_steps_2, sizeof no_steps_2);
}

/* A with one byte of each value, whole and cut behind that byte; `hit` counts the numbers. */
static int changed_as_header(unsigned hit[256])
{
    int same = 1;
    unsigned number;
    for (size_t i = 0; i < sizeof cluster_a; i++) {
        uint8_t cluster[sizeof cluster_a];
        memcpy(cluster, cluster_a, sizeof cluster);
        for (unsigned value = 0; value < 256; value++) {
            cluster[i] = (uint8_t)value;
            same = as_header(cluster, sizeof cluster, &number) && same;
            hit[number]++;
            same = as_header(cluster, i + 1, &number) && same;
            hit[number]++;
        }
    }
    return same;
}

static void test_no_plan(void)
{
    uint8_t home[sizeof cluster_a];
    unsigned number, hit[256] = {0};
    memcpy(home, cluster_a, sizeof home);
    home[32] = 0; /* VM 0's target */
    home[39] = 1; /* VM 1's */
    expect(kob_check(0, home, sizeof home, NULL, 0) == 0, "at home: accepted at cost 0");
    expect(as_header(home, sizeof home, &number), "at home: as a header");
    for (size_t len = 1; len < sizeof no_steps; len++) {
        expect(kob_check(0, home, sizeof home, no_steps, len) == refused(11, 0), "at home: 1 to 6 bytes");
        expect(kob_check(0, home, sizeof home, no_steps_2, len) == refused(11, 0), "at home: version 2");
    }
    expect(changed_as_header(hit), "A, a byte changed: as a header");
    expect(hit[1] && hit[2] && hit[3] && hit[4] && hit[5] && hit[6], "damaged clusters among them");
    expect(hit[8] && hit[19], "a target refused, and VMs off their target");
    expect(hit[11] + hit[12] + hit[13] + hit[14] == 0, "none is refused for its plan's shape");
    group("a plan of 0 bytes");
}

/* ---- cluster A, in allocations of exactly the stated sizes */

static void test_build_a(void)
{
    uint8_t *cluster = copied(cluster_a, sizeof cluster_a);
    uint8_t *out = filled(KOB_BUILD_BUFFER);
    uint64_t result = kob_build(0, cluster, sizeof cluster_a, out, KOB_BUILD_BUFFER);
    expect(result == made(KOB_PLAN, 3, 3, 16), "A: a plan of 3 steps, 3 moves, cost 16");
    expect(out[0] == KOB_BUILD_VERSION, "A: the version of the record");
    expect(memcmp(out, plan_a, sizeof plan_a) == 0, "A: the record of 22 bytes");
    expect(all_are(out + 22, KOB_BUILD_BUFFER - 22, FILL), "A: the bytes behind it stay");
    expect(memcmp(cluster, cluster_a, sizeof cluster_a) == 0, "A: the cluster stays");
    expect(kob_check(0, cluster, sizeof cluster_a, out, kob_plan_length(out)) == 16, "A: accepted at 16");
    expect(kob_check(0, cluster, sizeof cluster_a, out, KOB_BUILD_BUFFER) == refused(13, 0), "A: whole buffer");
    free(cluster);
    free(out);
}

static void test_short_buffer(void)
{
    uint8_t *out = filled(KOB_BUILD_BUFFER - 1);
    uint64_t result = kob_build(0, cluster_a, sizeof cluster_a, out, KOB_BUILD_BUFFER - 1);
    expect(result == refused(KOB_FAULT_BUFFER_SHORT, 0), "A: 2,561 bytes give 10");
    expect(all_are(out, KOB_BUILD_BUFFER - 1, FILL), "A: 2,561 bytes stay");
    free(out);
}

/* The verdict on a plan for A, both in allocations of just their size. */
static uint64_t verdict_on_a(const uint8_t *bytes, size_t len)
{
    uint8_t *cluster = copied(cluster_a, sizeof cluster_a);
    uint8_t *plan = copied(bytes, len);
    uint64_t verdict = kob_check(0, cluster, sizeof cluster_a, plan, len);
    free(cluster);
    free(plan);
    return verdict;
}

static void test_verdicts(void)
{
    static const uint8_t both[] = {1, 0, 0, 0, 13, 0, 1, 0, 2, 0, 1, 1, 0};
    static const uint8_t stays[] = {1, 0, 0, 0, 11, 0, 1, 0, 1, 0, 0};
    static const uint8_t version[] = {3, 0, 0, 0, 7, 0, 0};
    static const uint8_t counts[] = {1, 0, 0, 0, 7, 0, 1};
    expect(verdict_on_a(plan_a, sizeof plan_a) == 16, "A: its plan");
    expect(verdict_on_a(plain_a, sizeof plain_a) == 16, "A: its plan in version 1");
    expect(verdict_on_a(no_steps, sizeof no_steps) == refused(19, 0), "A: no steps");
    expect(verdict_on_a(no_steps_2, sizeof no_steps_2) == refused(19, 0), "A: no steps, version 2");
    expect(verdict_on_a(both, sizeof both) == refused(17, 1), "A: both moves in one step");
    expect(verdict_on_a(stays, sizeof stays) == refused(15, 1), "A: VM 0 to node 0");
    expect(verdict_on_a(no_steps, 6) == refused(11, 0), "A: a plan of 6 bytes");
    expect(verdict_on_a(version, sizeof version) == refused(12, 0), "A: plan version 3");
    expect(verdict_on_a(plan_a, 21) == refused(13, 0), "A: a plan cut short");
    expect(verdict_on_a(plain_a, 18) == refused(13, 0), "A: a plan of version 1 cut short");
    expect(verdict_on_a(counts, sizeof counts) == refused(14, 0), "A: a step that is not there");
}

/* A's plan with other bytes for the source and the destination of a move: bytes 10, 15 and 20 are sources. */
static uint64_t verdict_with(size_t byte, uint8_t source, uint8_t destination)
{
    uint8_t plan[sizeof plan_a];
    memcpy(plan, plan_a, sizeof plan);
    plan[byte] = source;
    plan[byte + 1] = destination;
    return verdict_on_a(plan, sizeof plan);
}

static void test_sources(void)
{
    expect(verdict_with(10, 1, 2) == refused(27, 1), "A: step 1 from another node");
    expect(verdict_with(15, 0, 0) == refused(27, 2), "A: step 2 from its destination, not its place");
    expect(verdict_with(20, 0, 1) == refused(27, 3), "A: step 3 from where the VM was at the start");
    expect(verdict_with(20, 1, 2) == refused(15, 3), "A: to where the VM is: 15 before 27");
    expect(verdict_with(20, 3, 1) == refused(27, 3), "A: from a node that is not there");
    expect(verdict_with(20, 255, 1) == refused(27, 3), "A: from node 255");
}

static void test_blocked(void)
{
    uint8_t *cluster = copied(cluster_a, sizeof cluster_a);
    uint8_t *out = filled(KOB_BUILD_BUFFER);
    cluster[23] = 1; /* node 2's memory */
    uint64_t result = kob_build(0, cluster, sizeof cluster_a, out, KOB_BUILD_BUFFER);
    expect(result == made(KOB_BLOCKED, 0, 0, 0), "blocked");
    expect(memcmp(out, no_steps_2, 7) == 0, "blocked: a record of no steps");
    expect(all_are(out + 7, KOB_BUILD_BUFFER - 7, FILL), "blocked: the bytes behind it stay");
    expect(kob_check(0, cluster, sizeof cluster_a, out, 7) == refused(19, 0), "blocked: refused 19, step 0");
    free(cluster);
    free(out);
}

static void test_cluster_a(void)
{
    test_build_a();
    test_short_buffer();
    test_verdicts();
    test_sources();
    test_blocked();
    group("cluster A");
}

/* ---- VMs that are launched and shut down */

/* The launch waits a step for the memory that the shutdown leaves: cost 0 + (2 + 0). */
static void test_turnover_built(void)
{
    uint8_t cluster[sizeof cluster_a];
    uint8_t *out = filled(KOB_BUILD_BUFFER);
    unsigned node;
    turnover(cluster);
    expect(kob_build(0, cluster, sizeof cluster, out, KOB_BUILD_BUFFER) == made(KOB_PLAN, 2, 2, 2),
           "two steps, cost 2");
    expect(memcmp(out, turnover_plan, sizeof turnover_plan) == 0, "a shutdown, then a launch");
    expect(all_are(out + 17, KOB_BUILD_BUFFER - 17, FILL), "the bytes behind the record stay");
    expect(kob_check(0, cluster, sizeof cluster, out, kob_plan_length(out)) == 2, "accepted at cost 2");
    expect(kob_vm_current(cluster, sizeof cluster, 1, &node) && node == KOB_NOWHERE, "VM 1 is on no node");
    cluster[0] = 1;
    memset(out, FILL, KOB_BUILD_BUFFER);
    expect(kob_build(0, cluster, sizeof cluster, out, KOB_BUILD_BUFFER) == refused(6, 0), "255 in version 1 is 6");
    expect(all_are(out, KOB_BUILD_BUFFER, FILL), "a refusal writes nothing");
    free(out);
}

/* The verdict on a plan for that cluster. */
static uint64_t verdict_on_turnover(const uint8_t *plan, size_t len)
{
    uint8_t cluster[sizeof cluster_a];
    turnover(cluster);
    return kob_check(0, cluster, sizeof cluster, plan, len);
}

static void test_turnover_checked(void)
{
    static const uint8_t plain[15] = {1, 0, 0, 0, 15, 0, 2, 0, 1, 0, 255, 0, 1, 1, 0};
    static const uint8_t both[13] = {1, 0, 0, 0, 13, 0, 1, 0, 2, 0, 255, 1, 0};
    static const uint8_t kill[11] = {1, 0, 0, 0, 11, 0, 1, 0, 1, 0, 255};
    static const uint8_t down[11] = {1, 0, 0, 0, 11, 0, 1, 0, 1, 1, 255};
    uint8_t source[sizeof turnover_plan];
    expect(verdict_on_turnover(plain, sizeof plain) == 2, "the same plan in version 1");
    expect(verdict_on_turnover(both, sizeof both) == refused(17, 1), "a shutdown pays for no launch of its step");
    expect(verdict_on_turnover(down, sizeof down) == refused(15, 1), "what is wanted on a node is not shut down");
    expect(verdict_on_turnover(kill, sizeof kill) == refused(19, 0), "the launch left out");
    expect(kob_check(0, cluster_a, sizeof cluster_a, kill, sizeof kill) == refused(15, 1), "no shutdown in version 1");
    memcpy(source, turnover_plan, sizeof source);
    source[15] = 0; /* the launch's source */
    expect(verdict_on_turnover(source, sizeof source) == refused(27, 2), "a launch comes from no node");
    source[15] = 254;
    expect(verdict_on_turnover(source, sizeof source) == refused(27, 2), "nor from node 254");
}

/* Every byte value as either node byte of VM 0, in either version: beside nodes 0 to 2 only 255, in version 2. */
static void test_places(void)
{
    uint8_t cluster[sizeof cluster_a];
    for (unsigned version = 1; version <= 2; version++)
        for (size_t byte = 31; byte <= 32; byte++) {
            int good = 1;
            memcpy(cluster, cluster_a, sizeof cluster);
            cluster[0] = (uint8_t)version;
            for (unsigned place = 0; place < 256; place++) {
                cluster[byte] = (uint8_t)place;
                uint64_t verdict = kob_check(0, cluster, sizeof cluster, NULL, 0);
                int known = place < 3 || (place == KOB_NOWHERE && version == 2);
                good = good && (known ? kob_refusal_number(verdict) != 6 : verdict == refused(6, 0));
            }
            expect(good, "the places of a VM row");
        }
    int good = 1;
    memcpy(cluster, cluster_a, sizeof cluster);
    for (unsigned version = 0; version < 256; version++) {
        cluster[0] = (uint8_t)version;
        uint64_t wanted = version == 1 || version == 2 ? refused(19, 0) : refused(2, 0);
        good = good && kob_check(0, cluster, sizeof cluster, NULL, 0) == wanted;
    }
    expect(good, "the versions of a cluster record");
}

static void test_turnover(void)
{
    test_turnover_built();
    test_turnover_checked();
    test_places();
    group("launches and shutdowns");
}

/* ---- idle VMs */

/* A with memory 5 on each node, CPU 40 on node 1, where VM 1 takes 50, and this CPU for VM 0, which is to go there. */
static void busy(uint8_t cluster[sizeof cluster_a], uint8_t cpu)
{
    memcpy(cluster, cluster_a, sizeof cluster_a);
    cluster[13] = cluster[18] = cluster[23] = 5;
    cluster[20] = 40;
    cluster[30] = cpu;
}

/* The verdict on a plan for it that moves both VMs in one step. */
static uint64_t verdict_on_busy(const uint8_t cluster[sizeof cluster_a])
{
    static const uint8_t both[] = {1, 0, 0, 0, 13, 0, 1, 0, 2, 0, 1, 1, 0};
    return kob_check(0, cluster, sizeof cluster_a, both, sizeof both);
}

static void test_idle(void)
{
    uint8_t cluster[sizeof cluster_a];
    uint8_t *out = filled(KOB_BUILD_BUFFER);
    busy(cluster, 0);
    expect(verdict_on_busy(cluster) == 5, "an idle VM enters a node over its CPU");
    expect(kob_build(0, cluster, sizeof cluster, out, KOB_BUILD_BUFFER) == made(KOB_PLAN, 1, 2, 5), "planned so");
    cluster[18] = 4;
    expect(verdict_on_busy(cluster) == refused(17, 1), "but no node over its memory");
    busy(cluster, 1);
    expect(verdict_on_busy(cluster) == refused(17, 1), "a VM of CPU 1 does not enter");
    expect(kob_build(0, cluster, sizeof cluster, out, KOB_BUILD_BUFFER) == made(KOB_PLAN, 2, 2, 7), "it waits a step");
    busy(cluster, 0);
    cluster[39] = 1; /* VM 1's target */
    expect(verdict_on_busy(cluster) == refused(8, 0), "a target over its CPU");
    expect(kob_build(0, cluster, sizeof cluster, out, KOB_BUILD_BUFFER) == refused(8, 0), "is not planned for");
    free(out);
    group("idle VMs");
}

/* ---- records that lie against inaccessible pages */

static struct fenced cluster_fence, plan_fence;

/* Whether `kobdrieft_check` gives the same against the pages, each record at either side, as in plain
 * memory. */
static int check_stays(uint64_t reserve, const uint8_t *cluster, size_t cluster_len, const uint8_t *plan,
                       size_t plan_len)
{
    uint64_t plain = kob_check(reserve, cluster, cluster_len, plan, plan_len);
    int same = 1;
    for (int sides = 0; sides < 4; sides++) {
        const uint8_t *c = lend(&cluster_fence, sides & 1 ? BACK : FRONT, cluster, cluster_len);
        const uint8_t *p = lend(&plan_fence, sides & 2 ? BACK : FRONT, plan, plan_len);
        same = same && kobdrieft_check(reserve, c, cluster_len, p, plan_len) == plain;
    }
    return same;
}

/* The same of `kobdrieft_build` into so many bytes; these, and those around them, are looked at too. */
static int build_stays(uint64_t reserve, const uint8_t *cluster, size_t cluster_len, size_t out_len)
{
    uint8_t *plain = filled(out_len + 1);
    uint64_t result = kob_build(reserve, cluster, cluster_len, plain, out_len);
    int same = plain[out_len] == FILL;
    for (int sides = 0; sides < 4; sides++) {
        const uint8_t *c = lend(&cluster_fence, sides & 1 ? BACK : FRONT, cluster, cluster_len);
        uint8_t *out = at(&plan_fence, sides & 2 ? BACK : FRONT, out_len);
        memset(plan_fence.front, FILL, plan_fence.size);
        same = same && kobdrieft_build(reserve, c, cluster_len, out, out_len) == result;
        same = same && memcmp(out, plain, out_len) == 0;
        size_t before = (size_t)(out - plan_fence.front);
        same = same && all_are(plan_fence.front, before, FILL);
        same = same && all_are(out + out_len, plan_fence.size - before - out_len, FILL);
    }
    free(plain);
    return same;
}

/* A and its plan, cut at every length. */
static void test_cut(void)
{
    for (size_t len = 0; len <= sizeof cluster_a; len++) {
        expect(check_stays(0, cluster_a, len, plan_a, sizeof plan_a), "check of A, cut");
        expect(build_stays(0, cluster_a, len, KOB_BUILD_BUFFER), "build of A, cut");
    }
    for (size_t len = 0; len <= sizeof plan_a; len++)
        expect(check_stays(0, cluster_a, sizeof cluster_a, plan_a, len), "check of A's plan, cut");
    for (size_t len = 0; len <= sizeof plain_a; len++)
        expect(check_stays(0, cluster_a, sizeof cluster_a, plain_a, len), "check of A's plan in version 1, cut");
    for (size_t len = 0; len <= KOB_BUILD_BUFFER + 1; len += len < KOB_BUILD_BUFFER - 11 ? 17 : 1)
        expect(build_stays(0, cluster_a, sizeof cluster_a, len), "build of A into a buffer of any length");
    uint8_t cluster[sizeof cluster_a];
    turnover(cluster);
    for (size_t len = 0; len <= sizeof cluster; len++) {
        expect(check_stays(0, cluster, len, turnover_plan, sizeof turnover_plan), "check in version 2, cut");
        expect(build_stays(0, cluster, len, KOB_BUILD_BUFFER), "build in version 2, cut");
    }
    for (size_t len = 0; len <= sizeof turnover_plan; len++)
        expect(check_stays(0, cluster, sizeof cluster, turnover_plan, len), "check of its plan, cut");
}

/* A where VM 1 waits for VM 0, cut at every length, and with each byte of the constraint changed to each value. */
static void test_before(void)
{
    static struct record cluster;
    int good = 1;
    set(&cluster, cluster_a, sizeof cluster_a);
    put_before(&cluster, 0, 1);
    for (size_t len = sizeof cluster_a; len <= cluster.len; len++) {
        expect(check_stays(0, cluster.bytes, len, plan_a, sizeof plan_a), "check with a VM that waits, cut");
        expect(build_stays(0, cluster.bytes, len, KOB_BUILD_BUFFER), "build with a VM that waits, cut");
    }
    for (size_t i = sizeof cluster_a; i < cluster.len; i++) {
        const uint8_t byte = cluster.bytes[i];
        for (unsigned value = 0; value < 256; value++) {
            cluster.bytes[i] = (uint8_t)value;
            good = check_stays(0, cluster.bytes, cluster.len, plan_a, sizeof plan_a) && good;
            good = build_stays(0, cluster.bytes, cluster.len, KOB_BUILD_BUFFER) && good;
        }
        cluster.bytes[i] = byte;
    }
    expect(good, "check and build with a byte of that constraint changed");
}

/* The same at reserves, too high ones among them. */
static void test_cut_kept(void)
{
    for (size_t i = 0; i < RESERVES; i++) {
        int good = 1;
        for (size_t len = 0; len <= sizeof cluster_a; len++) {
            good = check_stays(reserves[i], cluster_a, len, plan_a, sizeof plan_a) && good;
            good = build_stays(reserves[i], cluster_a, len, KOB_BUILD_BUFFER) && good;
        }
        for (size_t len = 0; len <= sizeof plan_a; len++)
            good = check_stays(reserves[i], cluster_a, sizeof cluster_a, plan_a, len) && good;
        for (size_t len = 0; len <= KOB_BUILD_BUFFER; len += 183)
            good = build_stays(reserves[i], cluster_a, sizeof cluster_a, len) && good;
        expect(good, "A at a reserve, cut");
    }
}

/* The largest records there are. */
static void test_large(void)
{
    static struct record room, plan, plain, long_room, over;
    full_room(&room);
    full_plan(&plan, 2);
    full_plan(&plain, 1);
    chains(&long_room);
    expect(room.len == 52043, "the full room's length");
    expect(plan.len == KOB_MAX_PLAN_BYTES && plain.len == 3079, "the full plans' lengths");
    expect(kob_check(0, room.bytes, room.len, plan.bytes, plan.len) == FULL_PLAN_COST, "the full plan's cost");
    expect(kob_check(0, room.bytes, room.len, plain.bytes, plain.len) == FULL_PLAN_COST, "in version 1");
    expect(check_stays(0, room.bytes, room.len, plan.bytes, plan.len), "check of the full plan");
    expect(check_stays(0, room.bytes, room.len, plain.bytes, plain.len), "check of the full plan in version 1");
    expect(build_stays(0, room.bytes, room.len, KOB_BUILD_BUFFER), "build of the full room");
    expect(build_stays(0, long_room.bytes, long_room.len, KOB_BUILD_BUFFER), "build of the chains");
    for (size_t len = 1; len < room.len; len += 1009)
        expect(build_stays(0, room.bytes, len, KOB_BUILD_BUFFER), "build of the full room, cut");
    memcpy(over.bytes, "\1\0\1\0\0", 5);
    expect(kob_check(0, over.bytes, 65536, plan.bytes, plan.len) == refused(3, 0), "65,536 bytes give 3");
    expect(build_stays(0, over.bytes, 65536, KOB_BUILD_BUFFER), "build of 65,536 bytes");
}

/* A and its plan with bytes changed, the stated lengths among them, at reserves of 0 to 100. */
static void test_damaged(void)
{
    int check_good = 1, build_good = 1;
    for (int i = 0; i < 5000; i++) {
        uint8_t cluster[sizeof cluster_a], plan[sizeof plan_a];
        const uint64_t reserve = (uint64_t)i % 101;
        memcpy(cluster, cluster_a, sizeof cluster);
        memcpy(plan, plan_a, sizeof plan);
        damage(plan, sizeof plan);
        check_good = check_good && check_stays(reserve, cluster_a, sizeof cluster, plan, sizeof plan);
        if (i % 2 == 1)
            turnover(cluster);
        damage(cluster, sizeof cluster);
        check_good = check_good && check_stays(reserve, cluster, sizeof cluster, plan_a, sizeof plan);
        build_good = build_good && build_stays(reserve, cluster, sizeof cluster, KOB_BUILD_BUFFER);
    }
    expect(check_good, "check of 10,000 damaged records");
    expect(build_good, "build of 5,000 damaged records");
}

/* The same with the full room: constraints, lists and rows with bytes changed. */
static void test_damaged_room(void)
{
    static struct record room, plan, bad;
    int good = 1;
    full_room(&room);
    for (uint32_t i = 0; i < 300; i++) {
        full_plan(&plan, 1 + i % 2);
        memcpy(bad.bytes, room.bytes, room.len);
        damage(bad.bytes + 5, room.len - 5);
        good = good && build_stays(i % 101, bad.bytes, room.len, KOB_BUILD_BUFFER);
        memcpy(bad.bytes, plan.bytes, plan.len);
        damage(bad.bytes + 5, plan.len - 5);
        good = good && check_stays(i % 101, room.bytes, room.len, bad.bytes, plan.len);
    }
    expect(good, "300 damaged full rooms and plans");
}

static void test_pages(void)
{
    cluster_fence = fence(KOB_MAX_CLUSTER_BYTES + 1);
    plan_fence = fence(KOB_MAX_PLAN_BYTES);
    test_cut();
    test_before();
    test_cut_kept();
    test_large();
    test_damaged();
    test_damaged_room();
    group("against pages");
}

int main(void)
{
    test_unpackers();
    test_texts();
    test_empty();
    test_no_plan();
    test_cluster_a();
    test_turnover();
    test_idle();
    test_pages();
    return status();
}
