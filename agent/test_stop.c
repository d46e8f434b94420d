/* Tests of a plan that is stopped in the middle: the record that is left, and 20 to 22. */
#include <stdlib.h>
#include <string.h>

#include "test.h"

/* ---- a stop */

/* What a stop gives, and the record that it writes; of a refusal that has no bytes. `kept` is whether all that is
 * lent to be read stays as it was, and of the buffer all that is not that record. */
struct stopped {
    uint64_t result;
    struct record left;
    int kept;
};

struct marks {
    uint8_t bytes[KOB_MAX_STEP_MOVES + 1];
    size_t len;
};

/* Stops; all is lent in allocations of just its size. */
static const struct stopped *stop(uint64_t reserve, const struct record *cluster, const struct record *plan,
                                  uint64_t step, const struct marks *marks, size_t out_len)
{
    static struct stopped stopped;
    uint8_t *c = copied(cluster->bytes, cluster->len);
    uint8_t *p = copied(plan->bytes, plan->len);
    uint8_t *m = copied(marks->bytes, marks->len);
    uint8_t *out = filled(out_len);
    stopped.result = kobdrieft_stop(reserve, c, cluster->len, p, plan->len, step, m, marks->len, out, out_len);
    size_t len = kob_length(stopped.result);
    stopped.kept = memcmp(c, cluster->bytes, cluster->len) == 0 && memcmp(p, plan->bytes, plan->len) == 0
                   && memcmp(m, marks->bytes, marks->len) == 0 && len <= out_len
                   && all_are(out + len, out_len - len, FILL);
    set(&stopped.left, out, stopped.kept && len < sizeof stopped.left.bytes ? len : 0);
    free(c);
    free(p);
    free(m);
    free(out);
    return &stopped;
}

/* Marks from digits. */
static const struct marks *marked(const char *digits)
{
    static struct marks marks;
    for (marks.len = 0; digits[marks.len] != '\0'; marks.len++)
        marks.bytes[marks.len] = (uint8_t)(digits[marks.len] - '0');
    return &marks;
}

/* Whether the planner takes a record, and the checker what it plans. */
static int plans_again(uint64_t reserve, const struct record *cluster)
{
    uint8_t out[KOB_BUILD_BUFFER];
    uint64_t built = kob_build(reserve, cluster->bytes, cluster->len, out, sizeof out);
    if (kob_outcome_of(built) == KOB_REFUSED)
        return 0;
    uint64_t verdict = kob_check(reserve, cluster->bytes, cluster->len, out, kob_plan_length(out));
    return verdict == (kob_outcome_of(built) == KOB_PLAN ? kob_cost(built) : refused(19, 0));
}

/* Whether a stop writes just this record, into a buffer of just its length and into longer ones, and it is planned for
 * again. */
static int writes(uint64_t reserve, const struct record *cluster, const struct record *plan, uint64_t step,
                  const struct marks *marks, const struct record *wanted)
{
    static const size_t more[] = {0, 1, 100};
    int good = plans_again(reserve, wanted);
    for (size_t i = 0; i < sizeof more / sizeof more[0]; i++) {
        const struct stopped *got = stop(reserve, cluster, plan, step, marks, cluster->len + more[i]);
        good = good && got->result == cluster->len && got->kept && same(&got->left, wanted);
    }
    return good;
}

/* Whether a stop of these steps leaves the VMs on these places, a character for each, and all else as it is; the plan
 * is asked in both versions, a room of version 1 as one of version 2 too. */
static int leaves_at(uint64_t reserve, const struct record *cluster, const char *steps, uint64_t step,
                     const char *digits, const char *places)
{
    static struct record room, plan, wanted;
    int good = 1;
    for (unsigned way = 0; put_versions(&room, &plan, cluster, steps, way); way++) {
        set(&wanted, room.bytes, room.len);
        for (uint32_t vm = 0; places[vm] != '\0'; vm++)
            wanted.bytes[current_at(&room, vm)] = (uint8_t)place(places[vm]);
        good = good && writes(reserve, &room, &plan, step, marked(digits), &wanted);
    }
    return good;
}

static int leaves(const struct record *cluster, const char *steps, uint64_t step, const char *digits,
                  const char *places)
{
    return leaves_at(0, cluster, steps, step, digits, places);
}

/* Whether a stop has just this result, and changes nothing that it must not. */
static int ends(uint64_t reserve, const struct record *cluster, const struct record *plan, uint64_t step,
                const struct marks *marks, size_t out_len, uint64_t wanted)
{
    const struct stopped *got = stop(reserve, cluster, plan, step, marks, out_len);
    return got->result == wanted && got->kept;
}

/* Whether a stop of these steps is refused so in either version of the plan, into buffers of several lengths. */
static int gives(const struct record *cluster, const char *steps, uint64_t step, const char *digits, unsigned number)
{
    static struct record plan;
    const size_t lens[] = {0, 1, cluster->len - 1, cluster->len, cluster->len + 100};
    int good = 1;
    for (uint32_t version = 1; version <= 2; version++) {
        put_text_plan(&plan, version, steps);
        for (size_t i = 0; i < sizeof lens / sizeof lens[0]; i++)
            good = good && ends(0, cluster, &plan, step, marked(digits), lens[i], refused(number, 0));
    }
    return good;
}

/* ---- what is left */

static void test_a(void)
{
    static const uint8_t bytes[] = {
        1, 0, 0, 0, 40, 0, 3, 0, 2, 0, 0, 0, 0, 4, 0, 100, 0, 0, 4, 0, 100, 0, 0, 4, 0, 100,
        0, 0, 3, 0, 50, 2, 1, /* VM 0 is on node 2 now */
        0, 0, 2, 0, 50, 1, 0
    };
    uint8_t out[sizeof bytes + 3];
    memset(out, FILL, sizeof out);
    uint64_t result = kob_stop(0, cluster_a, sizeof cluster_a, plan_a, sizeof plan_a, 1, (const uint8_t *)"\1", 1, out,
                               sizeof out);
    expect(result == 40 && kob_outcome_of(result) == KOB_STOPPED && kob_length(result) == 40, "A: 40 bytes");
    expect(memcmp(out, bytes, sizeof bytes) == 0, "A: its record, VM 0 aside");
    expect(all_are(out + sizeof bytes, 3, FILL), "A: the bytes behind it stay");
    expect(leaves(a_with(4), STEPS_A, 1, "0", "01"), "step 1, not begun or called back");
    expect(leaves(a_with(4), STEPS_A, 1, "1", "21"), "step 1, ended");
    expect(leaves(a_with(4), STEPS_A, 2, "0", "21"), "step 2, stayed");
    expect(leaves(a_with(4), STEPS_A, 2, "1", "20"), "step 2, ended");
    expect(leaves(a_with(4), STEPS_A, 3, "0", "20"), "step 3, stayed");
    expect(leaves(a_with(4), STEPS_A, 3, "1", "10"), "step 3, ended: all is home");
    group("A, stopped");
}

/* Both move at once: one is called back and one ends, or neither, or both. */
static void test_five(void)
{
    static struct record again;
    uint8_t out[KOB_BUILD_BUFFER];
    expect(leaves(a_with(5), "001+110", 1, "00", "01"), "both called back");
    expect(leaves(a_with(5), "001+110", 1, "10", "11"), "VM 0 ended, VM 1 called back");
    expect(leaves(a_with(5), "001+110", 1, "01", "00"), "VM 0 called back, VM 1 ended");
    expect(leaves(a_with(5), "001+110", 1, "11", "10"), "both ended");
    set(&again, a_with(5)->bytes, sizeof cluster_a);
    again.bytes[31] = 1; /* VM 0 is home */
    uint64_t built = kob_build(0, again.bytes, again.len, out, sizeof out);
    expect(built == made(KOB_PLAN, 1, 1, 2), "then one move is left");
    again.bytes[38] = 0; /* and VM 1 */
    expect(kob_build(0, again.bytes, again.len, out, sizeof out) == made(KOB_PLAN, 0, 0, 0), "then none is");
    group("five, stopped");
}

/* ---- launches and shutdowns */

static void test_down(void)
{
    expect(leaves(room_of("-1"), "0-1", 1, "0", "-"), "a launch, called back");
    expect(leaves(room_of("-1"), "0-1", 1, "1", "1"), "a launch, ended");
    expect(leaves(room_of("0-"), "00-", 1, "0", "0"), "a shutdown, not begun");
    expect(leaves(room_of("0-"), "00-", 1, "1", "-"), "a shutdown, ended");
    expect(leaves(room_of("-1 0-"), "0-1+10-", 1, "01", "--"), "the shutdown alone ended");
    expect(leaves(room_of("-1 0-"), "0-1+10-", 1, "10", "10"), "the launch alone ended");
    expect(leaves(room_of("-1 0-"), "0-1+10-", 1, "11", "1-"), "both ended");
    expect(leaves(room_of("-1"), "0-0 001", 1, "1", "0"), "launched elsewhere");
    expect(leaves(room_of("-1"), "0-0 001", 2, "0", "0"), "and called back on its way from there");
    expect(leaves(room_of("--"), "0-0 00-", 1, "1", "0"), "launched, though it is to stay down");
    expect(leaves(room_of("--"), "0-0 00-", 2, "0", "0"), "and not yet down again");
    expect(leaves(room_of("--"), "0-0 00-", 2, "1", "-"), "and down again");
    expect(leaves(room_of("0- 12"), "00- 112", 2, "0", "-1"), "a shutdown in a step before");
    expect(leaves(room_of("-2 --"), "0-2", 1, "0", "--"), "a VM that stays down");
    group("launches and shutdowns");
}

/* ---- the steps before */

static void test_later_steps(void)
{
    static struct record cluster;
    cluster = *room_of("01 12 20");
    expect(leaves(&cluster, "001+112+220", 1, "101", "110"), "three at once, the middle one stays");
    expect(leaves(&cluster, "001+112+220", 1, "010", "022"), "three at once, just the middle one");
    expect(leaves(&cluster, "001 112 220", 1, "0", "012"), "later steps are not looked at");
    expect(leaves(&cluster, "001 112 220", 2, "0", "112"), "the step before counts whole");
    expect(leaves(&cluster, "001 112 220", 3, "0", "122"), "all steps before count");
    expect(leaves(&cluster, "001+112 220", 2, "0", "122"), "all moves of the step before");
    expect(leaves(&cluster, "002 020 001+112 220", 2, "0", "212"), "aside, and not back");
    expect(leaves(&cluster, "002 020 001+112 220", 2, "1", "012"), "aside and back");
    expect(leaves(&cluster, "002 020 001+112 220", 3, "01", "022"), "then others");
    expect(leaves(&cluster, "220 001 112", 2, "1", "110"), "a VM that moved in a step before, and one that moves");
    expect(leaves(&cluster, "001 010 001 112 220", 4, "0", "112"), "to and fro");
    group("later steps");
}

/* Constraints of all kinds, whose bytes stay; those that wait are planned for again. */
static void test_constraints(void)
{
    static struct record cluster;
    uint8_t out[KOB_BUILD_BUFFER];
    put_all_kinds(&cluster);
    expect(leaves(&cluster, "112+220 001", 1, "00", "012"), "all kinds, none ended");
    expect(leaves(&cluster, "112+220 001", 1, "01", "010"), "all kinds, one ended");
    expect(leaves(&cluster, "112+220 001", 2, "1", "120"), "all kinds, all ended");
    expect(gives(&cluster, "112+220 001", 2, "", 20), "no mark: 20");
    set(&cluster, room_of("01 02")->bytes, room_of("01 02")->len);
    put_before(&cluster, 0, 1);
    expect(leaves(&cluster, "001 102", 1, "0", "00"), "the first is called back");
    uint64_t built = kob_build(0, cluster.bytes, cluster.len, out, sizeof out);
    expect(built == made(KOB_PLAN, 2, 2, 8), "and the second waits on");
    expect(leaves(&cluster, "001 102", 2, "0", "10"), "the second is called back");
    group("constraints");
}

/* ---- 20 */

/* Numbers that are no step of a plan of three; with bits cut off some would be. */
static void test_steps(void)
{
    static const uint64_t steps[] = {
        0, 4, 5, 7, 255, 256, 257, 258, 259, 511, 512, 513, 65535, 65536, 65537, 65538, 65539,
        ((uint64_t)1 << 24) + 1, (uint64_t)1 << 31, ((uint64_t)1 << 31) + 1, ((uint64_t)1 << 32) - 1,
        (uint64_t)1 << 32, ((uint64_t)1 << 32) + 1, ((uint64_t)1 << 32) + 2, ((uint64_t)1 << 32) + 3,
        ((uint64_t)1 << 48) + 1, (uint64_t)1 << 63, ((uint64_t)1 << 63) + 1, UINT64_MAX - 1, UINT64_MAX
    };
    for (size_t i = 0; i < sizeof steps / sizeof steps[0]; i++) {
        expect(gives(a_with(4), STEPS_A, steps[i], "1", 20), "a step that is not there");
        expect(gives(a_with(4), STEPS_A, steps[i], "0", 20), "the same, stayed");
        expect(gives(a_with(4), STEPS_A, steps[i], "", 20), "the same, no marks");
    }
    expect(gives(a_with(5), "001+110", 2, "11", 20), "step 2 of 1");
    group("20, steps");
}

static void test_counts(void)
{
    static struct record plan;
    struct marks many = {{0}, 0};
    int good = 1;
    expect(gives(a_with(4), STEPS_A, 1, "", 20), "no mark for one move");
    expect(gives(a_with(4), STEPS_A, 1, "00", 20), "two for one");
    expect(gives(a_with(4), STEPS_A, 3, "", 20), "no mark for the last step");
    expect(gives(a_with(4), STEPS_A, 3, "111", 20), "a mark for every step");
    expect(gives(a_with(5), "001+110", 1, "", 20), "none for two");
    expect(gives(a_with(5), "001+110", 1, "1", 20), "one for two");
    expect(gives(a_with(5), "001+110", 1, "111", 20), "three for two");
    expect(gives(room_of("01 12 20"), "001+112 220", 1, "1", 20), "as many as the next step has");
    expect(gives(room_of("01 12 20"), "001+112 220", 2, "11", 20), "as many as the step before has");
    set(&plan, plan_a, sizeof plan_a);
    for (many.len = 0; many.len < sizeof many.bytes; many.len++)
        good = good && (many.len == 1 || ends(0, a_with(4), &plan, 1, &many, 40, refused(20, 0)));
    expect(good, "0 to 256 marks for one");
    group("20, counts");
}

/* So many marks for A's step 1 that with bits cut off they would be one. */
static void test_many_marks(void)
{
    static const size_t lens[] = {257, 65537, 65536, 131073};
    uint8_t *marks = filled(131073);
    for (size_t i = 0; i < sizeof lens / sizeof lens[0]; i++) {
        uint8_t out[40];
        memset(out, FILL, sizeof out);
        uint64_t result = kob_stop(0, cluster_a, sizeof cluster_a, plan_a, sizeof plan_a, 1, marks, lens[i], out, 40);
        expect(result == refused(20, 0) && all_are(out, sizeof out, FILL), "far too many marks");
    }
    free(marks);
    group("20, many marks");
}

/* No step is in a plan of none, a file of 0 bytes among them. */
static void test_no_steps(void)
{
    static const uint64_t steps[] = {0, 1, 2, 65536, UINT64_MAX};
    static struct record home, plan;
    for (size_t i = 0; i < sizeof steps / sizeof steps[0]; i++) {
        set(&home, room_of("00 11")->bytes, room_of("00 11")->len);
        expect(gives(&home, "", steps[i], "", 20), "no steps, no marks");
        expect(gives(&home, "", steps[i], "0", 20), "no steps, a mark");
        expect(gives(&home, "", steps[i], "2", 20), "no steps, a mark of 2");
        plan.len = 0;
        expect(ends(0, &home, &plan, steps[i], marked(""), home.len, refused(20, 0)), "0 bytes, no marks");
        expect(ends(0, &home, &plan, steps[i], marked("0"), home.len, refused(20, 0)), "0 bytes, a mark");
        expect(ends(0, &home, &plan, steps[i], marked(""), 0, refused(20, 0)), "0 bytes, no buffer");
        expect(ends(0, a_with(4), &plan, steps[i], marked("0"), 40, refused(19, 0)), "0 bytes for A: 19");
        set(&home, room_of("")->bytes, room_of("")->len);
        expect(gives(&home, "", steps[i], "", 20), "no VMs, no steps");
    }
    group("20, no steps");
}

/* ---- 21 */

/* Every value at every place of two marks, beside each good one. */
static void test_marks(void)
{
    static struct record plan;
    struct marks marks = {{0}, 2};
    int good = 1;
    put_text_plan(&plan, 2, "001+110");
    for (unsigned value = 0; value < 256; value++)
        for (unsigned where = 0; where < 4; where++) {
            marks.bytes[where & 1] = (uint8_t)value;
            marks.bytes[1 - (where & 1)] = where < 2 ? KOB_MARK_STAYED : KOB_MARK_ENDED;
            uint64_t wanted = value > KOB_MARK_ENDED ? refused(21, 0) : 40;
            good = good && ends(0, a_with(5), &plan, 1, &marks, 40, wanted);
            good = good && ends(0, a_with(5), &plan, 1, &marks, 140, wanted);
            good = good && ends(0, a_with(5), &plan, 1, &marks, 39, value > 1 ? wanted : refused(22, 0));
        }
    expect(good, "every value of each of two marks");
    expect(gives(a_with(4), STEPS_A, 1, "2", 21), "a mark of 2");
    expect(gives(a_with(4), STEPS_A, 3, "9", 21), "a mark of 9");
    expect(gives(a_with(5), "001+110", 1, "12", 21), "1 and 2");
    expect(gives(a_with(5), "001+110", 1, "22", 21), "two of 2");
    group("21");
}

/* ---- 22 */

static void test_buffers(void)
{
    static struct record plan, longer;
    set(&plan, plan_a, sizeof plan_a);
    for (size_t len = 0; len <= 42; len++)
        expect(ends(0, a_with(4), &plan, 1, marked("1"), len, len < 40 ? refused(22, 0) : 40),
               "a buffer of every length up to 42");
    set(&longer, cluster_a, sizeof cluster_a);
    put_before(&longer, 0, 1);
    put_text_plan(&plan, 2, "002 110 021");
    expect(ends(0, &longer, &plan, 1, marked("1"), 44, refused(33, 2)), "33 before 22");
    set(&longer, a_with(5)->bytes, sizeof cluster_a);
    put_before(&longer, 0, 1);
    put_text_plan(&plan, 2, "001 110");
    expect(ends(0, &longer, &plan, 1, marked("1"), 40, refused(22, 0)), "a record of 45 bytes, 40");
    expect(ends(0, &longer, &plan, 1, marked("1"), 44, refused(22, 0)), "a record of 45 bytes, 44");
    expect(ends(0, &longer, &plan, 1, marked("1"), 45, 45), "a record of 45 bytes, 45");
    expect(ends(0, &longer, &plan, 1, marked("1"), 65536 + 44, 45), "a record of 45 bytes, far more");
    group("22");
}

/* ---- order of the numbers */

/* Whether a stop is refused as the check is, whatever else is wrong. */
static int alike(uint64_t reserve, const struct record *cluster, const struct record *plan, unsigned number)
{
    static const uint64_t steps[] = {0, 1, 2, 4, UINT64_MAX};
    static const char *const digits[] = {"", "1", "2", "01", "12"};
    static const size_t lens[] = {0, 39, 40, 100};
    uint64_t verdict = kob_check(reserve, cluster->bytes, cluster->len, plan->bytes, plan->len);
    int good = kob_refusal_number(verdict) == number;
    for (size_t s = 0; s < 5; s++)
        for (size_t d = 0; d < 5; d++)
            for (size_t l = 0; l < 4; l++)
                good = good && ends(reserve, cluster, plan, steps[s], marked(digits[d]), lens[l], verdict);
    return good;
}

/* A fault behind the step that the plan was stopped in counts too, with its own step. */
static void test_fault_behind(void)
{
    static struct record plan;
    int good = 1;
    put_text_plan(&plan, 2, "002 110 020");
    for (uint64_t step = 0; step <= 4; step++)
        good = good && ends(0, a_with(4), &plan, step, marked("1"), 40, refused(17, 3));
    expect(good, "17 in step 3, stopped in each step");
    put_text_plan(&plan, 2, "002 110");
    for (uint64_t step = 0; step <= 4; step++)
        good = good && ends(0, a_with(4), &plan, step, marked("1"), 40, refused(19, 0));
    expect(good, "19, stopped in each step");
}

/* 20 before 21 before 22; `gives` asks with short buffers too. */
static void test_own_order(void)
{
    static struct record plan;
    expect(gives(a_with(4), STEPS_A, 0, "2", 20), "no such step, and a mark of 2");
    expect(gives(a_with(4), STEPS_A, 4, "2", 20), "past the end, and a mark of 2");
    expect(gives(a_with(4), STEPS_A, 1, "22", 20), "too many marks, of 2");
    expect(gives(a_with(5), "001+110", 1, "2", 20), "too few marks, of 2");
    expect(gives(a_with(5), "001+110", 1, "02", 21), "a mark of 2, and short buffers");
    put_text_plan(&plan, 2, "001+110");
    expect(ends(0, a_with(5), &plan, 1, marked("01"), 39, refused(22, 0)), "22 alone");
}

/* ---- lengths of 0 */

static void test_empty(void)
{
    static const uint8_t ended[] = {KOB_MARK_ENDED};
    const struct record *home = room_of("00");
    uint8_t out[40], *astray = (uint8_t *)(uintptr_t)1;
    memset(out, FILL, sizeof out);
    expect(kob_stop(0, NULL, 0, NULL, 0, 1, NULL, 0, NULL, 0) == refused(1, 0), "all NULL");
    expect(kob_stop(0, astray, 0, astray, 0, 1, astray, 0, astray, 0) == refused(1, 0), "all astray");
    expect(kob_stop(91, NULL, 0, NULL, 0, 1, NULL, 0, NULL, 0) == refused(23, 0), "all NULL, at 91");
    expect(kob_stop(0, cluster_a, 40, NULL, 0, 1, ended, 1, out, 40) == refused(19, 0), "plan NULL");
    expect(kob_stop(0, home->bytes, home->len, NULL, 0, 1, ended, 1, out, 40) == refused(20, 0), "plan NULL, at home");
    expect(kob_stop(0, home->bytes, home->len, astray, 0, 1, astray, 0, out, 40) == refused(20, 0), "and astray");
    expect(kob_stop(0, cluster_a, 40, plan_a, 22, 1, NULL, 0, out, 40) == refused(20, 0), "marks NULL");
    expect(kob_stop(0, cluster_a, 40, plan_a, 22, 1, astray, 0, out, 40) == refused(20, 0), "marks astray");
    expect(kob_stop(0, cluster_a, 40, plan_a, 22, 1, ended, 1, NULL, 0) == refused(22, 0), "buffer NULL");
    expect(kob_stop(0, cluster_a, 40, plan_a, 22, 1, ended, 1, astray, 0) == refused(22, 0), "buffer astray");
    expect(all_are(out, sizeof out, FILL), "refusals write nothing");
    expect(kob_stop(0, cluster_a, 40, plan_a, 22, 1, cluster_a, 1, out, 40) == 40 && out[31] == 2,
           "marks that are part of the cluster record, whose first byte is 1");
    group("length 0");
}

/* ---- reserves */

/* A at every reserve; where it is left is planned for at the same one. */
static void test_kept(void)
{
    static struct record plan;
    set(&plan, plan_a, sizeof plan_a);
    for (uint64_t reserve = 0; reserve <= KOB_MAX_RESERVE + 1; reserve++) {
        if (reserve > 25)
            expect(ends(reserve, a_with(4), &plan, 1, marked("1"), 40,
                           refused(reserve > KOB_MAX_RESERVE ? 23 : 8, 0)), "A above reserve 25");
        else
            expect(leaves_at(reserve, a_with(4), STEPS_A, 1, "1", "21")
                       && leaves_at(reserve, a_with(4), STEPS_A, 2, "0", "21")
                       && leaves_at(reserve, a_with(4), STEPS_A, 3, "1", "10"), "A up to reserve 25");
    }
    put_text_plan(&plan, 2, "001+110");
    expect(leaves_at(0, a_with(5), "001+110", 1, "10", "11"), "both at once at reserve 0");
    expect(ends(1, a_with(5), &plan, 1, marked("10"), 40, refused(17, 1)), "17 by the reserve alone");
    expect(leaves_at(50, room_of("01 02"), "001+102", 1, "01", "02"), "reserve 50");
    expect(leaves_at(70, room_of("01 02"), "001+102", 1, "10", "10"), "reserve 70");
    group("reserves");
}

/* Node 0 starts over what is usable at 20: it is left, and where VM 0 is called back it is as it was. */
static void test_over(void)
{
    static struct record cluster;
    put_cluster(&cluster, 3, 2, 0);
    put_node(&cluster, 10, 100);
    put_node(&cluster, 20, 200);
    put_node(&cluster, 10, 100);
    put_vm(&cluster, 9, 50, 0, 1);
    put_vm(&cluster, 1, 10, 2, 0);
    finish(&cluster);
    expect(leaves_at(20, &cluster, "001 120", 1, "0", "02"), "over, and called back");
    expect(leaves_at(20, &cluster, "001 120", 1, "1", "12"), "over, and left");
    expect(leaves_at(20, &cluster, "001 120", 2, "0", "12"), "then the next, called back");
    expect(leaves_at(20, &cluster, "001 120", 2, "1", "10"), "then the next, ended");
    cluster.bytes[30] = 60; /* VM 0's CPU */
    expect(leaves_at(20, &cluster, "001 120", 1, "0", "02"), "over its memory, with more CPU");
    group("over what is usable");
}

/* ---- many rooms */

/* What a stop leaves, by going through the plan. */
static void go_through(struct record *left, const struct record *cluster, const struct record *plan, uint64_t step,
                       const struct marks *marks)
{
    kob_reader reader;
    unsigned moves, vm, destination;
    set(left, cluster->bytes, cluster->len);
    kob_read_start(&reader, plan->bytes, plan->len);
    for (uint64_t i = 1; i <= step && kob_read_step(&reader, &moves); i++)
        for (size_t m = 0; kob_read_move(&reader, &vm, &destination); m++)
            if (i < step || marks->bytes[m] == KOB_MARK_ENDED)
                left->bytes[current_at(cluster, vm)] = (uint8_t)destination;
}

/* What a node has to bear. */
static void load(const struct record *cluster, uint32_t node, uint32_t *memory, uint32_t *cpu)
{
    *memory = *cpu = 0;
    for (uint32_t vm = 0; vm < kob_number(cluster->bytes + 7, 2); vm++) {
        const uint8_t *row = cluster->bytes + current_at(cluster, vm) - 5;
        if (row[5] == node) {
            *memory += kob_number(row, 3);
            *cpu += kob_number(row + 3, 2);
        }
    }
}

/* Whether each node that was within its usable memory is within it, and so for CPU; `over` counts the others. */
static int within(uint64_t reserve, const struct record *before, const struct record *after, int *over)
{
    int good = 1;
    for (uint32_t node = 0; node < kob_number(before->bytes + 5, 2); node++) {
        const uint8_t *row = before->bytes + 11 + 5 * node;
        uint64_t memory = kob_number(row, 3) * (100 - reserve) / 100;
        uint64_t cpu = kob_number(row + 3, 2) * (100 - reserve) / 100;
        uint32_t had, had_cpu, has, has_cpu;
        load(before, node, &had, &had_cpu);
        load(after, node, &has, &has_cpu);
        good = good && (had > memory || has <= memory) && (had_cpu > cpu || has_cpu <= cpu);
        *over += had > memory || had_cpu > cpu;
    }
    return good;
}

/* Whether VMs 0 and 1 are on one node. */
static int together(const struct record *cluster)
{
    uint8_t node = cluster->bytes[current_at(cluster, 0)];
    return node == cluster->bytes[current_at(cluster, 1)] && node != KOB_NOWHERE;
}

struct seen {
    int rooms, stops, over;
};

/* Whether a stop is right in either version of the plan, and what it leaves: nodes within what is usable, and mates
 * apart. */
static int right(uint64_t reserve, const struct record *cluster, const struct record *plan, uint64_t step,
                 const struct marks *marks, struct seen *seen)
{
    static struct record wanted, plain;
    go_through(&wanted, cluster, plan, step, marks);
    plain_version(&plain, plan);
    seen->stops++;
    return writes(reserve, cluster, plan, step, marks, &wanted)
           && writes(reserve, cluster, &plain, step, marks, &wanted) && within(reserve, cluster, &wanted, &seen->over)
           && (together(cluster) || !together(&wanted));
}

/* Every stop of a plan: each step with each way to mark its moves. */
static int every_stop(uint64_t reserve, const struct record *cluster, const struct record *plan, struct seen *seen)
{
    kob_reader reader;
    unsigned moves;
    int good = 1;
    kob_read_start(&reader, plan->bytes, plan->len);
    for (uint64_t step = 1; kob_read_step(&reader, &moves); step++)
        for (unsigned bits = 0; bits < 1u << moves; bits++) {
            struct marks marks = {{0}, moves};
            for (unsigned i = 0; i < moves; i++)
                marks.bytes[i] = (uint8_t)(bits >> i & 1);
            good = right(reserve, cluster, plan, step, &marks, seen) && good;
        }
    return good;
}

/* Every stop of what is planned for drawn rooms. */
static void test_rooms(void)
{
    static struct record room, plan;
    struct seen seen = {0, 0, 0};
    int good = 1;
    for (int i = 0; i < 1500; i++) {
        uint64_t reserve = draw() % 41;
        draw_room(&room);
        uint64_t built = kob_build(reserve, room.bytes, room.len, plan.bytes, KOB_BUILD_BUFFER);
        if (kob_outcome_of(built) != KOB_PLAN || kob_steps(built) == 0)
            continue;
        plan.len = kob_plan_length(plan.bytes);
        good = every_stop(reserve, &room, &plan, &seen) && good;
        seen.rooms++;
    }
    expect(good, "every stop of a plan leaves what it must");
    expect(seen.rooms > 150 && seen.stops > 1000, "many rooms and stops");
    expect(seen.over > 100, "nodes among them that were over what is usable");
}

/* A drawn step of a plan, and drawn marks for it. */
static uint64_t draw_stop(const struct record *plan, struct marks *marks)
{
    kob_reader reader;
    unsigned moves = 0;
    uint64_t step = 1 + draw() % kob_number(plan->bytes + 5, 2);
    kob_read_start(&reader, plan->bytes, plan->len);
    for (uint64_t i = 0; i < step; i++)
        kob_read_step(&reader, &moves);
    marks->len = moves;
    for (unsigned i = 0; i < moves; i++)
        marks->bytes[i] = (uint8_t)(draw() % 2);
    return step;
}

/* Stopped, planned for and stopped again, until a room is home or blocked. */
static void test_again(void)
{
    static struct record room, plan;
    struct marks marks;
    int good = 1, again = 0, home = 0;
    for (int i = 0; i < 1500; i++) {
        uint64_t reserve = draw() % 41;
        draw_room(&room);
        for (int stops = 0; stops < 20; stops++) {
            uint64_t built = kob_build(reserve, room.bytes, room.len, plan.bytes, KOB_BUILD_BUFFER);
            good = good && (stops == 0 || kob_outcome_of(built) != KOB_REFUSED);
            if (kob_outcome_of(built) != KOB_PLAN || kob_steps(built) == 0) {
                home += stops > 0 && built == 0;
                break;
            }
            plan.len = kob_plan_length(plan.bytes);
            uint64_t step = draw_stop(&plan, &marks);
            const struct stopped *got = stop(reserve, &room, &plan, step, &marks, room.len);
            good = good && got->result == room.len && got->kept;
            set(&room, got->left.bytes, got->left.len);
            again += stops > 0;
        }
    }
    expect(good, "what a stop leaves is planned for, and stopped again");
    expect(again > 150 && home > 150, "again and again, until all are home");
}

/* ---- the largest records */

/* All of one step's marks, every one a value. */
static const struct marks *all_marked(size_t len, uint8_t value)
{
    static struct marks marks;
    marks.len = len;
    memset(marks.bytes, value, sizeof marks.bytes);
    return &marks;
}

/* Stops in the full plan, of 512 steps: 255 moves in the first, 2 in the next 258, then 1. */
static void test_full(void)
{
    static const uint64_t steps[] = {1, 2, 3, 128, 255, 256, 257, 258, 259, 260, 261, 300, 511, 512};
    static struct record room, plan, wanted;
    full_room(&room);
    for (uint32_t version = 1; version <= 2; version++) {
        int good = 1;
        full_plan(&plan, version);
        for (size_t i = 0; i < sizeof steps / sizeof steps[0]; i++)
            for (uint8_t value = 0; value <= 1; value++) {
                const struct marks *marks = all_marked(steps[i] == 1 ? 255 : steps[i] <= 259 ? 2 : 1, value);
                go_through(&wanted, &room, &plan, steps[i], marks);
                good = good && writes(0, &room, &plan, steps[i], marks, &wanted);
            }
        expect(good, "stops in the full plan");
        expect(ends(0, &room, &plan, 513, all_marked(1, 1), room.len, refused(20, 0)), "step 513");
        expect(ends(0, &room, &plan, 1, all_marked(254, 1), room.len, refused(20, 0)), "254 marks for 255");
        expect(ends(0, &room, &plan, 1, all_marked(256, 1), room.len, refused(20, 0)), "256 marks for 255");
        expect(ends(0, &room, &plan, 512, all_marked(1, 1), room.len - 1, refused(22, 0)), "a byte short");
        expect(ends(0, &room, &plan, 512, all_marked(1, 1), 65535, room.len), "a longer buffer");
        expect(ends(KOB_MAX_RESERVE, &room, &plan, 512, all_marked(1, 1), room.len, room.len), "at reserve 90");
    }
}

/* One step that moves all 256 VMs, each in turn marked unlike the others, or wrongly. */
static void test_full_step(void)
{
    static struct record room, plan, wanted;
    int good = 1;
    full_room(&room);
    put_plan(&plan, 2, 1);
    put(&plan, 2, KOB_MAX_STEP_MOVES);
    for (uint32_t i = 0; i < KOB_MAX_VMS; i++)
        put_move(&plan, i, i % 64, (i + 1) % 64);
    finish(&plan);
    for (unsigned i = 0; i < KOB_MAX_STEP_MOVES; i += 5) {
        struct marks marks = *all_marked(KOB_MAX_STEP_MOVES, (uint8_t)(i & 1));
        marks.bytes[i] ^= 1;
        go_through(&wanted, &room, &plan, 1, &marks);
        good = good && writes(0, &room, &plan, 1, &marks, &wanted);
        marks.bytes[i] = 2;
        good = good && ends(0, &room, &plan, 1, &marks, room.len, refused(21, 0));
    }
    expect(good, "256 moves in a step, one marked unlike the others");
    expect(ends(0, &room, &plan, 1, all_marked(255, 0), room.len, refused(20, 0)), "255 marks for 256");
    expect(ends(0, &room, &plan, 1, all_marked(257, 0), room.len, refused(20, 0)), "257 marks for 256");
    expect(ends(0, &room, &plan, 1, all_marked(0, 0), room.len, refused(20, 0)), "no marks for 256");
}

/* ---- against inaccessible pages */

static struct fenced cluster_fence, plan_fence, marks_fence, out_fence;

/* Whether a stop gives and writes the same against the pages, everything at either side, as in plain memory, and
 * leaves the bytes around the buffer. */
static int stays(uint64_t reserve, const struct record *cluster, const struct record *plan, uint64_t step,
                 const struct marks *marks, size_t out_len)
{
    uint8_t *plain = filled(out_len + 1);
    uint64_t result = kob_stop(reserve, cluster->bytes, cluster->len, plan->bytes, plan->len, step, marks->bytes,
                               marks->len, plain, out_len);
    int good = plain[out_len] == FILL;
    for (int sides = 0; sides < 16; sides++) {
        const uint8_t *c = lend(&cluster_fence, sides & 1 ? BACK : FRONT, cluster->bytes, cluster->len);
        const uint8_t *p = lend(&plan_fence, sides & 2 ? BACK : FRONT, plan->bytes, plan->len);
        const uint8_t *m = lend(&marks_fence, sides & 4 ? BACK : FRONT, marks->bytes, marks->len);
        uint8_t *out = at(&out_fence, sides & 8 ? BACK : FRONT, out_len);
        memset(out_fence.front, FILL, out_fence.size);
        good = good
               && kobdrieft_stop(reserve, c, cluster->len, p, plan->len, step, m, marks->len, out, out_len) == result;
        good = good && alone(&out_fence, out, plain, out_len);
    }
    free(plain);
    return good;
}

/* A, its plan, the marks and the buffer, each cut at every length. */
static void test_cut(void)
{
    static struct record cluster, plan;
    for (uint32_t version = 1; version <= 2; version++) {
        int good = 1;
        put_text_plan(&plan, version, STEPS_A);
        set(&cluster, cluster_a, sizeof cluster_a);
        for (cluster.len = 0; cluster.len <= sizeof cluster_a; cluster.len++)
            good = stays(0, &cluster, &plan, 3, marked("1"), sizeof cluster_a) && good;
        expect(good, "A, cut");
        set(&cluster, cluster_a, sizeof cluster_a);
        const size_t whole = plan.len;
        for (plan.len = 0; plan.len <= whole; plan.len++)
            good = stays(0, &cluster, &plan, 3, marked("1"), sizeof cluster_a) && good;
        expect(good, "its plan, cut");
        plan.len = whole;
        for (size_t len = 0; len <= sizeof cluster_a + 2; len++)
            for (uint64_t step = 0; step <= 4; step++)
                good = stays(0, &cluster, &plan, step, marked("1"), len) && good;
        expect(good, "a buffer of every length, in every step");
        set(&cluster, a_with(5)->bytes, sizeof cluster_a);
        put_text_plan(&plan, version, "001+110");
        for (size_t len = 0; len <= 5; len++)
            good = stays(0, &cluster, &plan, 1, all_marked(len, 1), sizeof cluster_a) && good;
        expect(good, "any number of marks");
    }
    set(&cluster, room_of("00 11")->bytes, room_of("00 11")->len);
    plan.len = 0;
    expect(stays(0, &cluster, &plan, 1, marked(""), cluster.len), "at home, 0 bytes for a plan, no marks");
    expect(stays(0, &cluster, &plan, 1, marked("1"), 0), "at home, 0 bytes for a plan and a buffer");
}

/* Everything with bytes changed, the stated lengths among them, at reserves of 0 to 100. */
static void test_damaged(void)
{
    static struct record cluster, plan;
    int good = 1, alike = 1, done = 0;
    for (int i = 0; i < 3000; i++) {
        uint64_t reserve = i % 3 == 0 ? (uint64_t)i % 101 : 0, step = draw() % 5;
        struct marks marks = {{(uint8_t)(draw() % 8 / 3), (uint8_t)(draw() % 2), 0}, draw() % 4 == 0 ? draw() % 3 : 1};
        uint8_t bytes[sizeof cluster_a];
        turnover(bytes);
        set(&cluster, i % 2 == 0 ? cluster_a : bytes, sizeof cluster_a);
        if (i % 2 == 0)
            set(&plan, plan_a, sizeof plan_a);
        else
            set(&plan, turnover_plan, sizeof turnover_plan);
        damage_one(&cluster, &plan, i % 4 / 2 == 0);
        good = stays(reserve, &cluster, &plan, step, &marks, sizeof cluster_a - (size_t)(draw() % 16 == 0)) && good;
        uint64_t verdict = kob_check(reserve, cluster.bytes, cluster.len, plan.bytes, plan.len);
        uint64_t result = stop(reserve, &cluster, &plan, step, &marks, sizeof cluster_a)->result;
        if (kob_outcome_of(verdict) == KOB_REFUSED)
            alike = alike && result == verdict;
        else
            alike = alike && (result == cluster.len || result == refused(20, 0) || result == refused(21, 0));
        done += result == cluster.len;
    }
    expect(good, "3,000 stops, records damaged");
    expect(alike && done > 200, "refused as the check is");
}

static void test_large(void)
{
    static struct record room, plan;
    full_room(&room);
    full_plan(&plan, 2);
    expect(stays(0, &room, &plan, 1, all_marked(255, 1), room.len), "the full plan, step 1");
    expect(stays(0, &room, &plan, 512, all_marked(1, 1), room.len), "the full plan, step 512");
    expect(stays(0, &room, &plan, 512, all_marked(1, 1), room.len - 1), "the full plan, a byte short");
    expect(stays(0, &room, &plan, 1, all_marked(255, 2), room.len), "the full plan, marks of 2");
    expect(stays(0, &room, &plan, 513, all_marked(1, 1), room.len), "the full plan, step 513");
}

int main(void)
{
    test_a();
    test_five();
    test_down();
    test_later_steps();
    test_constraints();
    test_steps();
    test_counts();
    test_many_marks();
    test_no_steps();
    test_marks();
    test_buffers();
    expect_checked_first(alike, "20 to 22");
    test_fault_behind();
    test_own_order();
    group("order of the numbers");
    test_empty();
    test_kept();
    test_over();
    test_rooms();
    test_again();
    group("many rooms");
    test_full();
    test_full_step();
    group("the largest records");
    cluster_fence = fence(KOB_MAX_CLUSTER_BYTES + 1);
    plan_fence = fence(KOB_MAX_PLAN_BYTES);
    marks_fence = fence(KOB_MAX_STEP_MOVES + 1);
    out_fence = fence(KOB_MAX_CLUSTER_BYTES + 1);
    test_cut();
    test_damaged();
    test_large();
    group("against pages");
    return status();
}
