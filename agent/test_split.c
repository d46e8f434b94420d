/* Tests of plans whose steps are divided: into single moves by the library, with 10 and 14, and however by hand. */
#include <stdlib.h>
#include <string.h>

#include "test.h"

/* ---- what is expected, by the documents */

/* The plan with one move to a step. */
static void divide(struct record *single, const struct record *plan)
{
    kob_reader reader;
    unsigned moves, vm, source, destination;
    uint32_t steps = 0;
    put_plan(single, plan->len == 0 ? 2 : plan->bytes[0], 0);
    kob_read_start(&reader, plan->bytes, plan->len);
    while (kob_read_step(&reader, &moves))
        for (; kob_read_move_from(&reader, &vm, &source, &destination); steps++) {
            put(single, 2, 1);
            put_move(single, vm, source, destination);
        }
    single->bytes[5] = (uint8_t)(steps >> 8);
    single->bytes[6] = (uint8_t)steps;
    finish(single);
}

static unsigned steps_of(const struct record *plan)
{
    return plan->len == 0 ? 0 : kob_number(plan->bytes + 5, 2);
}

/* What a plan costs. A move: its memory, of a shutdown 0, and what the steps before it cost. A step: its largest
 * memory. */
static uint64_t cost_of(const struct record *cluster, const struct record *plan)
{
    kob_reader reader;
    unsigned moves, vm, destination;
    uint64_t cost = 0, before = 0;
    kob_read_start(&reader, plan->bytes, plan->len);
    while (kob_read_step(&reader, &moves)) {
        uint64_t largest = 0;
        while (kob_read_move(&reader, &vm, &destination)) {
            uint64_t memory = kob_number(cluster->bytes + current_at(cluster, vm) - 5, 3);
            if (destination == KOB_NOWHERE)
                memory = 0;
            cost += memory + before;
            if (memory > largest)
                largest = memory;
        }
        before += largest;
    }
    return cost;
}

/* ---- a split */

/* What a split gives, and the record that it writes; of a refusal that has no bytes. `kept` is whether all that is
 * lent to be read stays as it was, and of the buffer all that is not that record. */
struct splitting {
    uint64_t result;
    struct record single;
    int kept;
};

/* Splits; all is lent in allocations of just its size. */
static const struct splitting *split(uint64_t reserve, const struct record *cluster, const struct record *plan,
                                     size_t out_len)
{
    static struct splitting got;
    uint8_t *c = copied(cluster->bytes, cluster->len);
    uint8_t *p = copied(plan->bytes, plan->len);
    uint8_t *out = filled(out_len);
    got.result = kobdrieft_split(reserve, c, cluster->len, p, plan->len, out, out_len);
    size_t len = kob_outcome_of(got.result) == KOB_REFUSED || out_len < 7 ? 0 : kob_plan_length(out);
    got.kept = memcmp(c, cluster->bytes, cluster->len) == 0 && memcmp(p, plan->bytes, plan->len) == 0
               && len <= out_len && all_are(out + len, out_len - len, FILL);
    set(&got.single, out, got.kept && len < sizeof got.single.bytes ? len : 0);
    free(c);
    free(p);
    free(out);
    return &got;
}

static uint64_t verdict_on(uint64_t reserve, const struct record *cluster, const struct record *plan)
{
    return kob_check(reserve, cluster->bytes, cluster->len, plan->bytes, plan->len);
}

/* Whether a split has just this result, and changes nothing that it must not. */
static int ends(uint64_t reserve, const struct record *cluster, const struct record *plan, size_t out_len,
                uint64_t wanted)
{
    const struct splitting *got = split(reserve, cluster, plan, out_len);
    return got->result == wanted && got->kept;
}

/* Whether a split writes just this record, and answers its steps and its cost. */
static int writes_in(uint64_t reserve, const struct record *cluster, const struct record *plan, size_t out_len,
                     const struct record *wanted)
{
    const struct splitting *got = split(reserve, cluster, plan, out_len);
    return got->result == divided(steps_of(wanted), cost_of(cluster, wanted)) && got->kept
           && same(&got->single, wanted);
}

/* The same into buffers of the least length and of longer ones. The checker accepts plan and record, the record at a
 * cost that is no lower; and a split of the record writes it again. */
static int writes(uint64_t reserve, const struct record *cluster, const struct record *plan,
                  const struct record *wanted)
{
    static const size_t more[] = {0, 1, 100, 2000};
    uint64_t cost = cost_of(cluster, plan), single_cost = cost_of(cluster, wanted);
    int good = verdict_on(reserve, cluster, plan) == cost && verdict_on(reserve, cluster, wanted) == single_cost
               && cost <= single_cost;
    for (size_t i = 0; i < sizeof more / sizeof more[0]; i++)
        good = good && writes_in(reserve, cluster, plan, KOB_SPLIT_BUFFER + more[i], wanted);
    return good && writes_in(reserve, cluster, wanted, KOB_SPLIT_BUFFER, wanted);
}

/* Whether a plan is divided as it must be. */
static int divides(uint64_t reserve, const struct record *cluster, const struct record *plan)
{
    static struct record wanted;
    divide(&wanted, plan);
    return writes(reserve, cluster, plan, &wanted);
}

/* Whether steps are divided into these, which cost so much; the plan is asked in both versions, a room of version 1 as
 * one of version 2 too. */
static int into_at(uint64_t reserve, const struct record *cluster, const char *steps, const char *singles,
                   uint64_t cost)
{
    static struct record room, plan, wanted;
    int good = 1;
    for (unsigned way = 0; put_versions(&room, &plan, cluster, steps, way); way++) {
        put_text_plan(&wanted, plan.bytes[0], singles);
        good = good && cost_of(&room, &wanted) == cost && writes(reserve, &room, &plan, &wanted);
    }
    return good;
}

static int into(const struct record *cluster, const char *steps, const char *singles, uint64_t cost)
{
    return into_at(0, cluster, steps, singles, cost);
}

/* ---- what is written */

/* A's plan has single moves, and stays. */
static void test_a(void)
{
    uint8_t out[KOB_SPLIT_BUFFER + 3];
    memset(out, FILL, sizeof out);
    uint64_t result = kob_split(0, cluster_a, sizeof cluster_a, plan_a, sizeof plan_a, out, sizeof out);
    expect(result == divided(3, 16) && kob_outcome_of(result) == KOB_DIVIDED, "A: 3 steps, cost 16");
    expect(kob_split_steps(result) == 3 && kob_cost(result) == 16, "A: its steps and its cost");
    expect(kob_plan_length(out) == 22 && memcmp(out, plan_a, sizeof plan_a) == 0, "A: its plan as it is");
    expect(all_are(out + 22, sizeof out - 22, FILL), "A: the bytes behind it stay");
    memset(out, FILL, sizeof out);
    result = kob_split(0, cluster_a, sizeof cluster_a, plain_a, sizeof plain_a, out, sizeof out);
    expect(result == divided(3, 16), "A: its plan in version 1");
    expect(kob_plan_length(out) == 19 && memcmp(out, plain_a, sizeof plain_a) == 0, "A: its version stays");
    expect(all_are(out + 19, sizeof out - 19, FILL), "A: the bytes behind that stay");
    expect(into(a_with(4), STEPS_A, STEPS_A, 16), "A: in rooms of both versions");
    group("A, divided");
}

/* Both VMs move at once: cost 5; then one after the other: 3 + (2 + 3). */
static void test_five(void)
{
    static const uint8_t both[] = {2, 0, 0, 0, 15, 0, 1, 0, 2, 0, 0, 1, 1, 1, 0};
    static const uint8_t singles[] = {2, 0, 0, 0, 17, 0, 2, 0, 1, 0, 0, 1, 0, 1, 1, 1, 0};
    static const uint8_t plain[] = {1, 0, 0, 0, 13, 0, 1, 0, 2, 0, 1, 1, 0};
    static const uint8_t plain_singles[] = {1, 0, 0, 0, 15, 0, 2, 0, 1, 0, 1, 0, 1, 1, 0};
    const struct record *five = a_with(5);
    uint8_t out[KOB_SPLIT_BUFFER];
    memset(out, FILL, sizeof out);
    expect(kob_check(0, five->bytes, five->len, both, sizeof both) == 5, "both at once: 5");
    uint64_t result = kob_split(0, five->bytes, five->len, both, sizeof both, out, sizeof out);
    expect(result == divided(2, 8) && kob_split_steps(result) == 2 && kob_cost(result) == 8, "2 steps, cost 8");
    expect(memcmp(out, singles, sizeof singles) == 0, "sources are kept");
    expect(all_are(out + sizeof singles, sizeof out - sizeof singles, FILL), "the bytes behind stay");
    memset(out, FILL, sizeof out);
    expect(kob_split(0, five->bytes, five->len, plain, sizeof plain, out, sizeof out) == result, "in version 1");
    expect(memcmp(out, plain_singles, sizeof plain_singles) == 0, "no sources there");
    expect(all_are(out + sizeof plain_singles, sizeof out - sizeof plain_singles, FILL), "and the bytes behind stay");
    expect(into(five, "001+110", "001 110", 8), "in rooms of both versions");
    group("five, divided");
}

/* Several steps, of which each is divided in its place. */
static void test_steps(void)
{
    static struct record cluster, plan;
    cluster = *room_of("01 12 20");
    expect(into(&cluster, "001+112+220", "001 112 220", 14), "three at once");
    expect(into(&cluster, "001+112 220", "001 112 220", 14), "two and one");
    expect(into(&cluster, "001 112+220", "001 112 220", 14), "one and two");
    expect(into(&cluster, "001 112 220", "001 112 220", 14), "one each");
    expect(into(&cluster, "112 001+220", "112 001 220", 13), "steps keep their order, whatever their VMs");
    expect(into(&cluster, "220 001+112", "220 001 112", 11), "by VM number within a step only");
    expect(into(&cluster, "002 020 001+112 220", "002 020 001 112 220", 41), "to and fro first");
    expect(into(&cluster, "002+110 020+101 001+112+220", "002 110 020 101 001 112 220", 70), "three steps divided");
    expect(into(room_of("01 02"), "001+102", "001 102", 8), "two from one node");
    expect(into(room_of("01"), "001", "001", 3), "one move");
    put_text_plan(&plan, 2, "112+001+220");
    expect(ends(0, &cluster, &plan, KOB_SPLIT_BUFFER, refused(15, 1)), "VMs that do not rise are not put in order");
    group("several steps");
}

static void test_down(void)
{
    expect(into(room_of("-1"), "0-1", "0-1", 3), "a launch");
    expect(into(room_of("0-"), "00-", "00-", 0), "a shutdown");
    expect(into(room_of("-1 0-"), "0-1+10-", "0-1 10-", 6), "a shutdown pays for the launch before it");
    expect(into(room_of("0- -1"), "00-+1-1", "00- 1-1", 2), "behind a shutdown nothing is dearer");
    expect(into(room_of("0- 1- 2-"), "00-+11-+22-", "00- 11- 22-", 0), "three shutdowns");
    expect(into(room_of("-0 -0 -1"), "0-0+1-0+2-1", "0-0 1-0 2-1", 14), "three launches");
    expect(into(room_of("0- 12 -0"), "00-+112+2-0", "00- 112 2-0", 5), "one of each");
    expect(into(room_of("--"), "0-0 00-", "0-0 00-", 6), "up and down again");
    expect(into(room_of("-- 01"), "0-0 00-+101", "0-0 00- 101", 11), "and another with it");
    group("launches and shutdowns");
}

/* Constraints of all kinds; a VM that waits may still do so where the steps are divided. */
static void test_constraints(void)
{
    static struct record cluster, plan;
    put_all_kinds(&cluster);
    expect(into(&cluster, "112+220 001", "112 220 001", 11), "all kinds");
    cluster = *room_of("01 02 20");
    put_before(&cluster, 2, 0);
    put_before(&cluster, 2, 1);
    expect(into(&cluster, "220 001+102", "220 001 102", 11), "two wait for a third");
    put_text_plan(&plan, 2, "001+102 220");
    expect(ends(0, &cluster, &plan, KOB_SPLIT_BUFFER, refused(33, 1)), "which is not home yet");
    cluster = *room_of("01 02");
    put_before(&cluster, 0, 1);
    expect(into(&cluster, "001 102", "001 102", 8), "one waits for the other");
    put_text_plan(&plan, 2, "001+102");
    expect(ends(0, &cluster, &plan, KOB_SPLIT_BUFFER, refused(33, 1)), "both at once are refused, not divided");
    put_text_plan(&plan, 2, "001+110");
    expect(ends(0, a_with(4), &plan, KOB_SPLIT_BUFFER, refused(17, 1)), "so are two that do not fit");
    group("constraints");
}

/* A plan of no steps becomes a header of its own version, a file of 0 bytes one of version 2. */
static void test_no_steps(void)
{
    static const uint8_t headers[2][7] = {{1, 0, 0, 0, 7, 0, 0}, {2, 0, 0, 0, 7, 0, 0}};
    static const char *const rooms[] = {"00 11", "", "-- 22", "--"};
    static struct record cluster, plan, wanted;
    for (size_t i = 0; i < sizeof rooms / sizeof rooms[0]; i++) {
        put_text_room(&cluster, rooms[i]);
        for (size_t version = 1; version <= 2; version++) {
            set(&plan, headers[version - 1], 7);
            expect(writes(0, &cluster, &plan, &plan), "a header");
            expect(ends(0, &cluster, &plan, KOB_SPLIT_BUFFER, 0), "no steps, cost 0");
        }
        plan.len = 0;
        set(&wanted, headers[1], 7);
        expect(writes(0, &cluster, &plan, &wanted), "0 bytes");
        expect(ends(0, &cluster, &plan, KOB_SPLIT_BUFFER, 0), "0 bytes: no steps, cost 0");
    }
    for (size_t version = 1; version <= 2; version++) {
        set(&plan, headers[version - 1], 7);
        expect(ends(0, a_with(4), &plan, KOB_SPLIT_BUFFER, refused(19, 0)), "no steps for A: 19");
    }
    plan.len = 0;
    expect(ends(0, a_with(4), &plan, KOB_SPLIT_BUFFER, refused(19, 0)), "0 bytes for A: 19");
    group("no steps");
}

/* ---- 10 */

/* Whether a buffer of less than 2,567 bytes is refused, and no other, whatever the plan needs. */
static int needs_2567(const struct record *cluster, const struct record *plan)
{
    static const size_t lens[] = {
        0, 1, 6, 7, 19, 22, 255, 256, 2050, 2051, 2055, 2561, 2562, 2565, 2566,
        2567, 2568, 2600, 4103, 65535, 65536, 65536 + 2566, 131072 + 100
    };
    static struct record wanted;
    int good = 1;
    divide(&wanted, plan);
    for (size_t i = 0; i < sizeof lens / sizeof lens[0]; i++)
        good = good && (lens[i] < 2567 ? ends(0, cluster, plan, lens[i], refused(10, 0))
                                       : writes_in(0, cluster, plan, lens[i], &wanted));
    return good;
}

static void test_buffers(void)
{
    static struct record plan;
    int good = 1;
    expect(KOB_SPLIT_BUFFER == 2567 && KOB_SPLIT_BUFFER == 7 + 5 * KOB_MAX_STEPS, "a header and 512 single moves");
    set(&plan, plan_a, sizeof plan_a);
    for (size_t len = 0; len <= 2570; len++)
        good = good && ends(0, a_with(4), &plan, len, len < 2567 ? refused(10, 0) : divided(3, 16));
    expect(good, "a buffer of every length up to 2,570");
    expect(needs_2567(a_with(4), &plan), "A's plan");
    set(&plan, plain_a, sizeof plain_a);
    expect(needs_2567(a_with(4), &plan), "A's plan in version 1, which never needs so many");
    put_text_plan(&plan, 2, "001+110");
    expect(needs_2567(a_with(5), &plan), "both at once");
    put_text_plan(&plan, 1, "");
    expect(needs_2567(room_of("00 11"), &plan), "no steps in version 1");
    put_text_plan(&plan, 2, "");
    expect(needs_2567(room_of("00 11"), &plan), "no steps in version 2");
    plan.len = 0;
    expect(needs_2567(room_of("00 11"), &plan), "0 bytes");
    expect(needs_2567(room_of(""), &plan), "0 bytes, no VMs");
    group("10");
}

/* ---- 14 */

/* Whether a plan with more than 512 moves is refused: with 14 if the buffer is long enough, else with 10. */
static int too_many(const struct record *cluster, const struct record *plan)
{
    static const size_t shorts[] = {0, 7, 2051, 2562, 2566}, longs[] = {2567, 2568, 4103, 5127, 65536};
    int good = kob_outcome_of(verdict_on(0, cluster, plan)) == KOB_ACCEPTED;
    for (size_t i = 0; i < 5; i++)
        good = good && ends(0, cluster, plan, shorts[i], refused(10, 0))
               && ends(0, cluster, plan, longs[i], refused(14, 0));
    return good;
}

/* Plans of a few steps for the full room. */
static void test_rounds(void)
{
    static const uint32_t good[] = {256, 257, 300, 510, 511, 512};
    static const uint32_t bad[] = {513, 514, 600, 767, 768, 769, 1022, 1023, 1024};
    static struct record room, plan;
    full_room(&room);
    for (uint32_t version = 1; version <= 2; version++) {
        for (size_t i = 0; i < sizeof good / sizeof good[0]; i++) {
            rounds(&plan, version, good[i]);
            expect(divides(0, &room, &plan), "at most 512 moves");
            expect(ends(0, &room, &plan, 2566, refused(10, 0)), "10, a byte short");
        }
        for (size_t i = 0; i < sizeof bad / sizeof bad[0]; i++) {
            rounds(&plan, version, bad[i]);
            expect(too_many(&room, &plan), "more than 512 moves");
        }
        full_plan(&plan, version);
        expect(too_many(&room, &plan), "512 steps, 1,024 moves");
    }
}

/* 512 moves of memory 1 cost 1 + 2 + ... + 512. */
static void test_512(void)
{
    static struct record room, plan;
    full_room(&room);
    for (uint32_t version = 1; version <= 2; version++) {
        rounds(&plan, version, 512);
        const struct splitting *got = split(0, &room, &plan, KOB_SPLIT_BUFFER);
        expect(got->result == divided(512, 131328), "512 moves: the answer");
        expect(kob_outcome_of(got->result) == KOB_DIVIDED && kob_split_steps(got->result) == KOB_MAX_STEPS
                   && kob_cost(got->result) == 131328, "512 steps are told");
        expect(got->single.len == (version == 1 ? 2055 : KOB_SPLIT_BUFFER), "they fill the buffer in version 2");
        expect(steps_of(&got->single) == 512, "and stand in the header");
        expect(verdict_on(0, &room, &plan) == 768, "in two steps they cost 256 + 512");
    }
}

/* A plan for a room "01 12 20" of so many steps, 2 to 512: VM 0 goes to and fro, the last step moves all three. */
static void to_and_fro(struct record *plan, uint32_t version, uint32_t steps)
{
    uint32_t at = 0;
    put_plan(plan, version, steps);
    for (uint32_t i = 1; i < steps; i++) {
        put(plan, 2, 1);
        put_move(plan, 0, at, 2 - at);
        at = 2 - at;
    }
    put(plan, 2, 3);
    put_move(plan, 0, at, 1);
    put_move(plan, 1, 1, 2);
    put_move(plan, 2, 2, 0);
    finish(plan);
}

static void test_many_steps(void)
{
    static struct record cluster, plan, single;
    cluster = *room_of("01 12 20");
    for (uint32_t version = 1; version <= 2; version++) {
        for (uint32_t steps = 505; steps <= 510; steps++) {
            to_and_fro(&plan, version, steps);
            expect(divides(0, &cluster, &plan), "512 steps result, or fewer");
        }
        divide(&single, &plan);
        expect(steps_of(&single) == 512 && divides(0, &cluster, &single), "512 steps of one move stay");
        to_and_fro(&plan, version, 511);
        expect(too_many(&cluster, &plan), "513 would result of 511");
        to_and_fro(&plan, version, 512);
        expect(too_many(&cluster, &plan), "514 would result of 512");
        to_and_fro(&plan, version, 513);
        expect(ends(0, &cluster, &plan, 0, refused(14, 0)) && ends(0, &cluster, &plan, 9999, refused(14, 0)),
               "513 steps are the checker's 14, before 10");
    }
}

/* ---- order of the numbers */

/* Whether a split is refused as the check is, whatever the buffer. */
static int alike(uint64_t reserve, const struct record *cluster, const struct record *plan, unsigned number)
{
    static const size_t lens[] = {0, 1, 2562, 2566, 2567, 5000};
    uint64_t verdict = verdict_on(reserve, cluster, plan);
    int good = kob_refusal_number(verdict) == number;
    for (size_t i = 0; i < sizeof lens / sizeof lens[0]; i++)
        good = good && ends(reserve, cluster, plan, lens[i], verdict);
    return good;
}

/* A fault in any step is the checker's, with its step, also of a plan with too many moves. */
static void test_fault_behind(void)
{
    static struct record room, plan;
    put_text_plan(&plan, 2, "002 110 020");
    expect(alike(0, a_with(4), &plan, 17) && verdict_on(0, a_with(4), &plan) == refused(17, 3), "17 in step 3");
    put_text_plan(&plan, 2, "002 110");
    expect(alike(0, a_with(4), &plan, 19), "19");
    full_room(&room);
    rounds(&plan, 2, 1024);
    plan.bytes[plan.len - 1] = 64; /* the last destination: no node */
    expect(alike(0, &room, &plan, 15) && verdict_on(0, &room, &plan) == refused(15, 4), "15 in step 4 before 14");
    rounds(&plan, 2, 1024);
    plan.bytes[plan.len - 2] ^= 1; /* the last source */
    expect(alike(0, &room, &plan, 27) && verdict_on(0, &room, &plan) == refused(27, 4), "27 in step 4 before 14");
    rounds(&plan, 2, 1024);
    plan.bytes[plan.len - 1] = 7;
    expect(alike(0, &room, &plan, 19), "19 before 14");
    rounds(&plan, 2, 1024);
    expect(alike(91, &room, &plan, 23), "23 before 14");
    plan.bytes[5] = 1;
    expect(alike(0, &room, &plan, 14), "a step that is not there: the checker's 14 before 10");
    rounds(&plan, 2, 513);
    plan.bytes[plan.len - 1] = 64;
    expect(alike(0, &room, &plan, 15) && verdict_on(0, &room, &plan) == refused(15, 3), "of 513 moves, too");
}

/* ---- lengths of 0 */

static void test_empty(void)
{
    static const uint8_t header[] = {2, 0, 0, 0, 7, 0, 0};
    const struct record *home = room_of("00");
    uint8_t out[KOB_SPLIT_BUFFER], *astray = (uint8_t *)(uintptr_t)1;
    memset(out, FILL, sizeof out);
    expect(kob_split(0, NULL, 0, NULL, 0, NULL, 0) == refused(1, 0), "all NULL");
    expect(kob_split(0, astray, 0, astray, 0, astray, 0) == refused(1, 0), "all astray");
    expect(kob_split(91, NULL, 0, NULL, 0, NULL, 0) == refused(23, 0), "all NULL, at 91");
    expect(kob_split(0, NULL, 0, plan_a, 22, out, sizeof out) == refused(1, 0), "cluster NULL");
    expect(kob_split(0, cluster_a, 40, NULL, 0, out, sizeof out) == refused(19, 0), "plan NULL");
    expect(kob_split(0, cluster_a, 40, astray, 0, out, sizeof out) == refused(19, 0), "plan astray");
    expect(kob_split(0, cluster_a, 40, plan_a, 22, NULL, 0) == refused(10, 0), "buffer NULL");
    expect(kob_split(0, cluster_a, 40, plan_a, 22, astray, 0) == refused(10, 0), "buffer astray");
    expect(kob_split(0, home->bytes, home->len, NULL, 0, NULL, 0) == refused(10, 0), "plan and buffer NULL, at home");
    expect(all_are(out, sizeof out, FILL), "refusals write nothing");
    expect(kob_split(0, home->bytes, home->len, NULL, 0, out, sizeof out) == 0, "plan NULL, at home");
    expect(memcmp(out, header, 7) == 0 && all_are(out + 7, sizeof out - 7, FILL), "a header of version 2");
    out[0] = FILL;
    expect(kob_split(0, home->bytes, home->len, astray, 0, out, sizeof out) == 0 && out[0] == 2, "astray, at home");
    expect(kob_split(0, cluster_a, 40, cluster_a, 40, out, sizeof out) == kob_check(0, cluster_a, 40, cluster_a, 40),
           "a plan that is the cluster record");
    group("length 0");
}

/* ---- reserves */

static void test_kept(void)
{
    static struct record plan;
    set(&plan, plan_a, sizeof plan_a);
    for (uint64_t reserve = 0; reserve <= KOB_MAX_RESERVE + 1; reserve++) {
        if (reserve > 25)
            expect(alike(reserve, a_with(4), &plan, reserve > KOB_MAX_RESERVE ? 23 : 8), "A above reserve 25");
        else
            expect(into_at(reserve, a_with(4), STEPS_A, STEPS_A, 16), "A up to reserve 25");
    }
    put_text_plan(&plan, 2, "001+110");
    expect(ends(1, a_with(5), &plan, KOB_SPLIT_BUFFER, refused(17, 1)), "17 by the reserve alone");
    expect(into_at(50, room_of("01 02"), "001+102", "001 102", 8), "reserve 50");
    expect(into_at(70, room_of("01 02"), "001+102", "001 102", 8), "reserve 70");
    expect(into_at(70, room_of("01 02 -0"), "001+102 2-0", "001 102 2-0", 14), "reserve 70, and a launch");
    group("reserves");
}

/* Node 0 starts over what is usable at 20: two leave it at once, or one after the other; then another comes. */
static void test_over(void)
{
    static struct record cluster, plan;
    put_cluster(&cluster, 3, 3, 0);
    put_node(&cluster, 10, 100);
    put_node(&cluster, 20, 200);
    put_node(&cluster, 20, 200);
    put_vm(&cluster, 5, 50, 0, 1);
    put_vm(&cluster, 4, 50, 0, 2);
    put_vm(&cluster, 8, 10, 2, 0);
    finish(&cluster);
    expect(into_at(20, &cluster, "001+102 220", "001 102 220", 31), "over, and left by two");
    put_text_plan(&plan, 2, "001 102+220");
    expect(ends(20, &cluster, &plan, KOB_SPLIT_BUFFER, refused(17, 2)), "what is refused at once is not divided");
    expect(into_at(20, &cluster, "001 102 220", "001 102 220", 31), "though its single moves are accepted");
    cluster.bytes[37] = cluster.bytes[44] = 0; /* the CPUs of VMs 1 and 2 */
    cluster.bytes[15] = 40;                    /* node 0's, which VM 0 passes */
    cluster.bytes[13] = 30;                    /* and its memory */
    expect(into_at(20, &cluster, "001+102+220", "001 102 220", 31), "over its CPU, and a VM of CPU 0 comes");
    group("over what is usable");
}

/* ---- divided however */

/* A plan with the moves of each step in several steps: those of piece 0, then those of piece 1, and so on; a piece of
 * none is left out. `piece` has the piece of each move. */
static void break_up(struct record *broken, const struct record *plan, const uint8_t *piece, unsigned pieces)
{
    kob_reader reader, again;
    unsigned moves, vm, source, destination;
    uint32_t steps = 0;
    put_plan(broken, plan->bytes[0], 0);
    kob_read_start(&reader, plan->bytes, plan->len);
    for (; kob_read_step(&reader, &moves); piece += moves)
        for (unsigned p = 0; p < pieces; p++) {
            size_t count_at = broken->len;
            uint32_t count = 0;
            put(broken, 2, 0);
            again = reader;
            for (unsigned m = 0; kob_read_move_from(&again, &vm, &source, &destination); m++)
                if (piece[m] == p) {
                    put_move(broken, vm, source, destination);
                    count++;
                }
            if (count == 0) {
                broken->len = count_at;
                continue;
            }
            broken->bytes[count_at] = (uint8_t)(count >> 8);
            broken->bytes[count_at + 1] = (uint8_t)count;
            steps++;
        }
    broken->bytes[5] = (uint8_t)(steps >> 8);
    broken->bytes[6] = (uint8_t)steps;
    finish(broken);
}

/* Whether a broken plan is accepted, at no lower cost than the plan, and divided as it must be. */
static int holds(uint64_t reserve, const struct record *cluster, const struct record *plan,
                 const struct record *broken)
{
    uint64_t cost = cost_of(cluster, broken);
    return verdict_on(reserve, cluster, broken) == cost && cost >= cost_of(cluster, plan)
           && divides(reserve, cluster, broken);
}

/* Every way to divide the moves of steps, at most 3 in all, among three steps, in either version. */
static int every_way(const struct record *cluster, const char *steps)
{
    static struct record plan, broken;
    int good = 1;
    for (uint32_t version = 1; version <= 2; version++) {
        put_text_plan(&plan, version, steps);
        for (unsigned way = 0; way < 27; way++) {
            const uint8_t piece[] = {(uint8_t)(way % 3), (uint8_t)(way / 3 % 3), (uint8_t)(way / 9)};
            break_up(&broken, &plan, piece, 3);
            good = good && holds(0, cluster, &plan, &broken);
        }
    }
    return good;
}

static void test_every_way(void)
{
    static const uint8_t spread[] = {0, 6, 3, 0, 3, 0, 1, 2};
    static const uint8_t turned[] = {0, 2, 1}; /* the last first */
    static struct record cluster, plan, broken, wanted;
    cluster = *room_of("01 12 20");
    put_text_plan(&plan, 2, "001+112+220");
    break_up(&broken, &plan, turned, 3);
    put_text_plan(&wanted, 2, "001 220 112");
    expect(same(&broken, &wanted), "pieces in any order");
    expect(every_way(&cluster, "001+112+220"), "three at once");
    expect(every_way(&cluster, "001+112 220"), "two and one");
    expect(every_way(room_of("01 02 00"), "001+102"), "two from one node");
    expect(every_way(room_of("-0 -1 -1"), "0-0+1-1+2-1"), "three launches");
    expect(every_way(room_of("0- 1- 2-"), "00-+11-+22-"), "three shutdowns");
    expect(every_way(room_of("0- -1 12"), "00-+1-1+212"), "one of each");
    cluster = *room_of("00 12 20");
    put_before(&cluster, 0, 1);
    put_before(&cluster, 0, 2);
    expect(every_way(&cluster, "112+220"), "two that waited for one at home");
    put_cluster(&cluster, 6, 3, 0);
    for (uint32_t i = 0; i < 6; i++)
        put_node(&cluster, 3, 30);
    for (uint32_t i = 0; i < 3; i++)
        put_vm(&cluster, 3 - i, 10 * i, i, i + 3);
    finish(&cluster);
    constrain(&cluster, spread, sizeof spread);
    expect(every_way(&cluster, "003+114+225"), "mates, each to a node of its own");
    group("every way");
}

/* ---- many rooms */

/* Draws a step for a room whose targets are where the plan leaves the VMs. Gives plan and room with that step; 0 if it
 * has no move. */
static int draw_step(struct record *cluster, struct record *plan)
{
    uint32_t nodes = kob_number(cluster->bytes + 5, 2), vms = kob_number(cluster->bytes + 7, 2);
    size_t count_at = plan->len;
    put(plan, 2, 0);
    for (uint32_t vm = 0; vm < vms; vm++) {
        uint8_t *target = cluster->bytes + current_at(cluster, vm) + 1;
        uint32_t destination = draw_place(nodes);
        if (draw() % 2 == 0 || destination == *target)
            continue;
        put_move(plan, vm, *target, destination);
        *target = (uint8_t)destination;
        plan->bytes[count_at + 1]++;
    }
    plan->bytes[6]++;
    finish(plan);
    return plan->len > count_at + 2;
}

/* Draws an accepted plan, of some steps that need not be planned so, and the room for it. */
static void draw_plan(uint64_t reserve, struct record *cluster, struct record *plan)
{
    static struct record room, longer;
    draw_room(cluster);
    if (draw() % 3 == 0) {
        const uint8_t ban[] = {0, 6, 1, 0, 1, 1, 1, (uint8_t)(draw() % 2)};
        constrain(cluster, ban, sizeof ban);
    }
    for (uint32_t vm = 0; vm < kob_number(cluster->bytes + 7, 2); vm++)
        cluster->bytes[current_at(cluster, vm) + 1] = cluster->bytes[current_at(cluster, vm)];
    put_text_plan(plan, 2, "");
    for (int tries = 0; tries < 20; tries++) {
        set(&room, cluster->bytes, cluster->len);
        set(&longer, plan->bytes, plan->len);
        if (draw_step(&room, &longer) && kob_outcome_of(verdict_on(reserve, &room, &longer)) == KOB_ACCEPTED) {
            set(cluster, room.bytes, room.len);
            set(plan, longer.bytes, longer.len);
        }
    }
}

struct seen {
    int plans, parallel, dearer, broken, stops;
};

static unsigned moves_of(const struct record *plan)
{
    static struct record single;
    divide(&single, plan);
    return steps_of(&single);
}

/* Breaks a plan up in drawn ways. */
static int broken_well(uint64_t reserve, const struct record *cluster, const struct record *plan, struct seen *seen)
{
    static struct record broken;
    uint8_t piece[KOB_MAX_MOVES];
    unsigned moves = moves_of(plan);
    int good = 1;
    for (unsigned pieces = 2; pieces <= 6; pieces++) {
        for (unsigned i = 0; i < moves; i++)
            piece[i] = (uint8_t)(draw() % pieces);
        break_up(&broken, plan, piece, pieces);
        good = good && moves_of(&broken) == moves && holds(reserve, cluster, plan, &broken);
        seen->broken += steps_of(&broken) > steps_of(plan);
        seen->dearer += cost_of(cluster, &broken) > cost_of(cluster, plan);
    }
    return good;
}

/* Whether two stops leave the same record. */
static int leave_alike(uint64_t reserve, const struct record *cluster, const struct record *plan, uint64_t step,
                       const uint8_t *marks, unsigned moves, const struct record *single, uint64_t single_step)
{
    static const uint8_t ended[] = {KOB_MARK_ENDED};
    static struct record one, other;
    uint64_t stopped = kob_stop(reserve, cluster->bytes, cluster->len, plan->bytes, plan->len, step, marks, moves,
                                one.bytes, sizeof one.bytes);
    uint64_t single_stopped = kob_stop(reserve, cluster->bytes, cluster->len, single->bytes, single->len, single_step,
                                       ended, 1, other.bytes, sizeof other.bytes);
    return stopped == cluster->len && single_stopped == stopped && memcmp(one.bytes, other.bytes, cluster->len) == 0;
}

/* Whether the divided plan, stopped behind each of its moves, leaves what the plan leaves when the moves of the same
 * step up to that one have ended. */
static int stopped_alike(uint64_t reserve, const struct record *cluster, const struct record *plan, struct seen *seen)
{
    static struct record single;
    kob_reader reader;
    unsigned moves;
    uint64_t single_step = 0;
    int good = 1;
    divide(&single, plan);
    kob_read_start(&reader, plan->bytes, plan->len);
    for (uint64_t step = 1; kob_read_step(&reader, &moves); step++) {
        uint8_t marks[KOB_MAX_STEP_MOVES] = {0};
        for (unsigned m = 0; m < moves; m++) {
            marks[m] = KOB_MARK_ENDED;
            good = good && leave_alike(reserve, cluster, plan, step, marks, moves, &single, ++single_step);
            seen->stops++;
        }
    }
    return good;
}

/* Whether a plan is right in all of this, in either version. */
static int right(uint64_t reserve, const struct record *cluster, const struct record *plan, struct seen *seen)
{
    static struct record plain;
    plain_version(&plain, plan);
    seen->plans++;
    seen->parallel += moves_of(plan) > steps_of(plan);
    return divides(reserve, cluster, plan) && divides(reserve, cluster, &plain)
           && broken_well(reserve, cluster, plan, seen) && broken_well(reserve, cluster, &plain, seen)
           && stopped_alike(reserve, cluster, plan, seen) && stopped_alike(reserve, cluster, &plain, seen);
}

/* What is planned for drawn rooms. */
static void test_planned(void)
{
    static struct record room, plan;
    struct seen seen = {0, 0, 0, 0, 0};
    int good = 1;
    for (int i = 0; i < 2000; i++) {
        uint64_t reserve = draw() % 41;
        draw_room(&room);
        uint64_t built = kob_build(reserve, room.bytes, room.len, plan.bytes, KOB_BUILD_BUFFER);
        if (kob_outcome_of(built) != KOB_PLAN)
            continue;
        plan.len = kob_plan_length(plan.bytes);
        good = right(reserve, &room, &plan, &seen) && good;
        const struct splitting *got = split(reserve, &room, &plan, KOB_SPLIT_BUFFER);
        good = good && kob_split_steps(got->result) == kob_moves(built) && kob_cost(got->result) >= kob_cost(built);
    }
    expect(good, "what is planned, divided and broken up");
    expect(seen.plans > 500 && seen.parallel > 300, "many plans, with several moves in a step");
    expect(seen.broken > 2000 && seen.dearer > 2000 && seen.stops > 2000, "broken up, dearer, and stopped");
}

/* Whether a node has more than is usable at the start: with every VM wanted where it is, it is 8. */
static int starts_over(uint64_t reserve, const struct record *cluster)
{
    static struct record room;
    set(&room, cluster->bytes, cluster->len);
    for (uint32_t vm = 0; vm < kob_number(room.bytes + 7, 2); vm++)
        room.bytes[current_at(&room, vm) + 1] = room.bytes[current_at(&room, vm)];
    return kob_check(reserve, room.bytes, room.len, NULL, 0) == refused(8, 0);
}

/* Other plans, of drawn steps. */
static void test_drawn(void)
{
    static struct record room, plan;
    struct seen seen = {0, 0, 0, 0, 0};
    int good = 1, over = 0;
    for (int i = 0; i < 2000; i++) {
        uint64_t reserve = draw() % 41;
        draw_plan(reserve, &room, &plan);
        if (steps_of(&plan) == 0)
            continue;
        good = right(reserve, &room, &plan, &seen) && good;
        over += starts_over(reserve, &room);
    }
    expect(good, "drawn plans, divided and broken up");
    expect(seen.plans > 1000 && seen.parallel > 700, "many plans, with several moves in a step");
    expect(seen.broken > 5000 && seen.dearer > 5000 && seen.stops > 10000, "broken up, dearer, and stopped");
    expect(over > 300, "rooms among them with a node over what is usable at the start");
}

/* ---- the largest records */

static void test_full(void)
{
    static const uint32_t moves[] = {256, 400, 512};
    static struct record room, plan, broken;
    uint8_t piece[KOB_MAX_MOVES];
    int good = 1;
    full_room(&room);
    for (uint32_t version = 1; version <= 2; version++)
        for (size_t i = 0; i < 3; i++)
            for (unsigned pieces = 1; pieces <= 256; pieces *= 4) {
                rounds(&plan, version, moves[i]);
                for (uint32_t m = 0; m < moves[i]; m++)
                    piece[m] = (uint8_t)(draw() % pieces);
                break_up(&broken, &plan, piece, pieces);
                good = good && steps_of(&broken) <= KOB_MAX_STEPS && holds(0, &room, &plan, &broken);
            }
    expect(good, "rounds in the full room, broken up");
    rounds(&plan, 2, 512);
    expect(divides(KOB_MAX_RESERVE, &room, &plan), "at reserve 90");
}

/* 512 moves of the largest VM: 2^24 - 1 times 1 + 2 + ... + 512. */
static void test_dear(void)
{
    static struct record cluster, plan;
    const uint32_t most = 16777215;
    put_cluster(&cluster, 64, 256, 0);
    for (int i = 0; i < 64; i++)
        put_node(&cluster, most, 65535);
    put_vm(&cluster, most, 65535, 0, 1);
    for (int i = 1; i < 256; i++)
        put_vm(&cluster, 1, 0, 63, 63);
    finish(&cluster);
    put_plan(&plan, 2, 512);
    for (uint32_t i = 0; i < 512; i++) {
        put(&plan, 2, 1);
        put_move(&plan, 0, i % 2 == 0 ? 0 : 2, i == 511 ? 1 : i % 2 == 0 ? 2 : 0);
    }
    finish(&plan);
    expect(divides(0, &cluster, &plan), "the dearest VM to and fro");
    expect(ends(0, &cluster, &plan, KOB_SPLIT_BUFFER, divided(512, (uint64_t)131328 * most)), "a cost above 2^41");
}

/* What is planned for the chains: 500 steps of one move, also with VMs that wait. */
static void test_chains(void)
{
    static struct record room, plan;
    for (int waiting = 0; waiting <= 1; waiting++) {
        if (waiting)
            waiting_chains(&room);
        else
            chains(&room);
        uint64_t built = kob_build(0, room.bytes, room.len, plan.bytes, KOB_BUILD_BUFFER);
        plan.len = kob_plan_length(plan.bytes);
        expect(writes(0, &room, &plan, &plan), "the chains are divided as they are");
        expect(ends(0, &room, &plan, KOB_SPLIT_BUFFER, divided(CHAIN_STEPS, kob_cost(built))), "500 steps");
    }
}

/* ---- against inaccessible pages */

static struct fenced cluster_fence, plan_fence, out_fence;

/* Whether a split gives and writes the same against the pages, everything at either side, as in plain memory, and
 * leaves the bytes around the buffer. */
static int stays(uint64_t reserve, const struct record *cluster, const struct record *plan, size_t out_len)
{
    uint8_t *plain = filled(out_len + 1);
    uint64_t result = kob_split(reserve, cluster->bytes, cluster->len, plan->bytes, plan->len, plain, out_len);
    int good = plain[out_len] == FILL;
    for (int sides = 0; sides < 8; sides++) {
        const uint8_t *c = lend(&cluster_fence, sides & 1 ? BACK : FRONT, cluster->bytes, cluster->len);
        const uint8_t *p = lend(&plan_fence, sides & 2 ? BACK : FRONT, plan->bytes, plan->len);
        uint8_t *out = at(&out_fence, sides & 4 ? BACK : FRONT, out_len);
        memset(out_fence.front, FILL, out_fence.size);
        good = good && kobdrieft_split(reserve, c, cluster->len, p, plan->len, out, out_len) == result;
        good = good && alone(&out_fence, out, plain, out_len);
    }
    free(plain);
    return good;
}

/* A with memory 5, plans for it, and the buffer, each cut at every length. */
static void test_cut(void)
{
    static struct record cluster, plan;
    for (uint32_t version = 1; version <= 2; version++) {
        int good = 1;
        put_text_plan(&plan, version, "001+110");
        cluster = *a_with(5);
        for (cluster.len = 0; cluster.len <= sizeof cluster_a; cluster.len++)
            good = stays(0, &cluster, &plan, KOB_SPLIT_BUFFER) && good;
        expect(good, "a cluster, cut");
        cluster = *a_with(5);
        const size_t whole = plan.len;
        for (plan.len = 0; plan.len <= whole; plan.len++)
            good = stays(0, &cluster, &plan, KOB_SPLIT_BUFFER) && good;
        expect(good, "its plan, cut");
        put_text_plan(&plan, version, STEPS_A);
        const size_t long_whole = plan.len;
        for (plan.len = 0; plan.len <= long_whole; plan.len++)
            good = stays(0, &cluster, &plan, KOB_SPLIT_BUFFER) && good;
        expect(good, "a plan of three steps, cut");
        for (size_t len = 0; len <= KOB_SPLIT_BUFFER + 2; len += len < KOB_SPLIT_BUFFER - 11 ? 17 : 1)
            good = stays(0, &cluster, &plan, len) && good;
        expect(good, "a buffer of any length");
    }
    cluster = *room_of("00 11");
    plan.len = 0;
    expect(stays(0, &cluster, &plan, KOB_SPLIT_BUFFER), "at home, 0 bytes for a plan");
    expect(stays(0, &cluster, &plan, 0), "at home, 0 bytes for a plan and a buffer");
}

/* Everything with bytes changed, the stated lengths among them, at reserves of 0 to 100. */
static void test_damaged(void)
{
    static struct record cluster, plan;
    int good = 1, alike = 1, done = 0;
    for (int i = 0; i < 3000; i++) {
        uint64_t reserve = i % 3 == 0 ? (uint64_t)i % 101 : 0;
        size_t out_len = KOB_SPLIT_BUFFER - (size_t)(draw() % 16 == 0);
        cluster = *a_with(i % 2 == 0 ? 5 : 9);
        put_text_plan(&plan, 1 + (uint32_t)i % 2, draw() % 2 == 0 ? "001+110" : STEPS_A);
        damage_one(&cluster, &plan, i % 4 / 2 == 0);
        good = stays(reserve, &cluster, &plan, out_len) && good;
        uint64_t verdict = verdict_on(reserve, &cluster, &plan);
        if (kob_outcome_of(verdict) == KOB_REFUSED)
            alike = alike && ends(reserve, &cluster, &plan, out_len, verdict);
        else if (out_len < KOB_SPLIT_BUFFER)
            alike = alike && ends(reserve, &cluster, &plan, out_len, refused(10, 0));
        else
            alike = alike && divides(reserve, &cluster, &plan) && ++done > 0;
    }
    expect(good, "3,000 splits, records damaged");
    expect(alike && done > 500, "refused as the check is");
}

/* The same with the full room's plans. */
static void test_damaged_plans(void)
{
    static struct record room, plan;
    int good = 1;
    full_room(&room);
    for (uint32_t i = 0; i < 100; i++) {
        rounds(&plan, 1 + i % 2, 500 + draw() % 30);
        damage(plan.bytes + 5, plan.len - 5);
        good = stays(0, &room, &plan, KOB_SPLIT_BUFFER - (size_t)(i % 8 == 0)) && good;
    }
    expect(good, "100 damaged plans of about 512 moves");
}

static void test_large(void)
{
    static struct record room, plan;
    full_room(&room);
    for (uint32_t version = 1; version <= 2; version++) {
        rounds(&plan, version, 512);
        expect(stays(0, &room, &plan, KOB_SPLIT_BUFFER), "512 moves");
        expect(stays(0, &room, &plan, KOB_SPLIT_BUFFER - 1), "512 moves, a byte short");
        expect(stays(0, &room, &plan, KOB_SPLIT_BUFFER + 1), "512 moves, a byte more");
        rounds(&plan, version, 513);
        expect(stays(0, &room, &plan, KOB_SPLIT_BUFFER), "513 moves");
        full_plan(&plan, version);
        expect(stays(0, &room, &plan, KOB_SPLIT_BUFFER), "1,024 moves");
        expect(stays(0, &room, &plan, 0), "1,024 moves, no buffer");
    }
}

int main(void)
{
    test_a();
    test_five();
    test_steps();
    test_down();
    test_constraints();
    test_no_steps();
    test_buffers();
    test_rounds();
    test_512();
    test_many_steps();
    group("14");
    expect_checked_first(alike, "10");
    test_fault_behind();
    group("order of the numbers");
    test_empty();
    test_kept();
    test_over();
    test_every_way();
    test_planned();
    test_drawn();
    group("many rooms");
    test_full();
    test_dear();
    test_chains();
    group("the largest records");
    cluster_fence = fence(KOB_MAX_CLUSTER_BYTES + 1);
    plan_fence = fence(KOB_MAX_PLAN_BYTES);
    out_fence = fence(KOB_SPLIT_BUFFER + 2);
    test_cut();
    test_damaged();
    test_damaged_plans();
    test_large();
    group("against pages");
    return status();
}
