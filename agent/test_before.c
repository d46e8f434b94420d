/* Tests of VMs that wait for others: constraints of kind 5, and 33. */
#include <string.h>

#include "test.h"

/* ---- rooms */

/* A room in which VM 1 waits for VM 0. */
static const struct record *waiting(const char *vms)
{
    static struct record cluster;
    put_text_room(&cluster, vms);
    put_before(&cluster, 0, 1);
    return &cluster;
}

/* The same with these pairs, first and second in two characters, and a space before the next pair. */
static const struct record *waiting_by(const char *pairs, const char *vms)
{
    static struct record cluster;
    put_text_room(&cluster, vms);
    for (size_t i = 0; i < strlen(pairs); i += 3)
        put_before(&cluster, (uint8_t)place(pairs[i]), (uint8_t)place(pairs[i + 1]));
    return &cluster;
}

/* ---- what is checked and built */

/* Whether a plan of this version gets this verdict, and what is lent stays. A room of version 1 is asked as one
 * of version 2 too. */
static int gives_in(uint32_t version, uint64_t reserve, const struct record *cluster, const char *steps,
                    uint64_t verdict)
{
    static struct record room, plan;
    int good = 1;
    set(&room, cluster->bytes, cluster->len);
    put_text_plan(&plan, version, steps);
    for (; room.bytes[0] <= 2; room.bytes[0]++) {
        struct answers got = ask(reserve, &room, &plan, KOB_BUILD_BUFFER);
        good = good && got.verdict == verdict && got.right;
    }
    return good;
}

/* Whether a plan gets this verdict in either version. */
static int gives(const struct record *cluster, const char *steps, uint64_t verdict)
{
    return gives_in(1, 0, cluster, steps, verdict) && gives_in(2, 0, cluster, steps, verdict);
}

/* Whether this answer, with just these steps, is built at a reserve; the checker accepts a plan at the same cost
 * and refuses the steps of blocked with 19. */
static int builds_at(uint64_t reserve, const struct record *cluster, uint64_t answer, const char *steps)
{
    static struct record room, plan;
    uint64_t verdict = kob_outcome_of(answer) == KOB_PLAN ? kob_cost(answer) : refused(19, 0);
    uint8_t out[KOB_BUILD_BUFFER];
    int good = 1;
    set(&room, cluster->bytes, cluster->len);
    put_text_plan(&plan, KOB_BUILD_VERSION, steps);
    for (; room.bytes[0] <= 2; room.bytes[0]++) {
        memset(out, FILL, sizeof out);
        good = good && kob_build(reserve, room.bytes, room.len, out, sizeof out) == answer
               && memcmp(out, plan.bytes, plan.len) == 0
               && all_are(out + plan.len, sizeof out - plan.len, FILL)
               && kob_check(reserve, room.bytes, room.len, out, kob_plan_length(out)) == verdict;
    }
    return good;
}

static int builds(const struct record *cluster, uint64_t answer, const char *steps)
{
    return builds_at(0, cluster, answer, steps);
}

/* ---- steps that wait, and that do not */

static void test_second_waits(void)
{
    static struct record free_room;
    put_text_room(&free_room, "01 02");
    expect(gives(&free_room, "001+102", 5), "nobody waits: both in one step");
    expect(gives(waiting("01 02"), "001 102", 8), "the first, then the second");
    expect(gives(waiting("01 02"), "001+102", refused(33, 1)), "both in one step");
    expect(gives(waiting("01 02"), "102 001", refused(33, 1)), "the second, then the first");
    expect(gives(waiting_by("10", "01 02"), "102 001", 7), "VM 0 waits for VM 1");
    expect(gives(waiting_by("10", "01 02"), "001 102", refused(33, 1)), "VM 0 does not wait for VM 1");
    expect(gives(waiting_by("10", "01 02"), "001+102", refused(33, 1)), "VM 0 in one step with VM 1");
    expect(gives(waiting("01 22"), "001", 3), "a second that is not moved");
    expect(gives(waiting("01 22"), "120 001 102", refused(33, 1)), "a second that leaves its target");
    expect(gives(waiting("01 02 20"), "001+220 102", 9), "a VM that waits for nobody");
    expect(gives(waiting("11 22"), "", 0), "nobody moves");
    group("the second waits");
}

/* Step aside, be launched, be shut down: the second waits for each. */
static void test_every_move(void)
{
    expect(gives(waiting("01 02"), "101 001 112", refused(33, 1)), "the second steps aside");
    expect(gives(waiting("01 02"), "001+101 112", refused(33, 1)), "aside in one step with the first");
    expect(gives(waiting("01 02"), "001 101 112", 15), "aside behind the first");
    expect(gives(waiting("01 -2"), "1-2 001", refused(33, 1)), "the second is launched");
    expect(gives(waiting("01 -2"), "1-0 001 102", refused(33, 1)), "launched on another node");
    expect(gives(waiting("01 -2"), "001+1-2", refused(33, 1)), "launched in one step with the first");
    expect(gives(waiting("01 -2"), "001 1-2", 8), "launched behind the first");
    expect(gives(waiting("01 0-"), "10- 001", refused(33, 1)), "the second is shut down");
    expect(gives(waiting("01 0-"), "001+10-", refused(33, 1)), "shut down in one step with the first");
    expect(gives(waiting("01 0-"), "001 10-", 6), "shut down behind the first");
    expect(gives(waiting("01 --"), "1-0 10- 001", refused(33, 1)), "launched, though it is to stay down");
    expect(gives(waiting("01 --"), "001", 3), "a second that stays down");
    group("every move of the second");
}

/* What counts is the first's target, and where the first is when the step starts. */
static void test_first_home(void)
{
    expect(gives(waiting("11 02"), "102", 2), "the first is on its target from the start");
    expect(gives(waiting("11 02"), "010+102 001", refused(33, 1)), "and leaves it in that step");
    expect(gives(waiting("11 02"), "010 102 001", refused(33, 2)), "and left it a step before");
    expect(gives(waiting("11 02"), "010 001+102", refused(33, 2)), "and comes back in that step");
    expect(gives(waiting("11 02"), "010 001 102", 17), "and came back a step before");
    expect(gives(waiting("11 02"), "102 010 001", 15), "and leaves it a step later");
    expect(gives(waiting("01 02"), "002 102 021", refused(33, 2)), "the first is aside");
    expect(gives(waiting("01 02"), "002 021+102", refused(33, 2)), "the first comes from aside");
    expect(gives(waiting("01 02"), "002 021 102", 17), "the first came from aside");
    expect(gives(waiting("-1 02"), "102 0-1", refused(33, 1)), "the first is down and wanted on a node");
    expect(gives(waiting("-1 02"), "0-1+102", refused(33, 1)), "the first is being launched");
    expect(gives(waiting("-1 02"), "0-1 102", 8), "the first was launched");
    expect(gives(waiting("0- 02"), "102 00-", refused(33, 1)), "the first is to be shut down");
    expect(gives(waiting("0- 02"), "00-+102", refused(33, 1)), "the first is being shut down");
    expect(gives(waiting("0- 02"), "00- 102", 2), "the first was shut down");
    expect(gives(waiting("-- 02"), "102", 2), "the first is down and wanted so");
    expect(gives(waiting("-- -2"), "1-2", 2), "so a launch");
    expect(gives(waiting("-- 0-"), "10-", 0), "so a shutdown");
    expect(gives(waiting("-- 02"), "0-1+102 01-", refused(33, 1)), "and is launched in that step");
    expect(gives(waiting("-- 02"), "0-1 102 01-", refused(33, 2)), "and was launched a step before");
    expect(gives(waiting("-- 0-"), "0-1+10- 01-", refused(33, 1)), "and is launched while the second shuts down");
    group("the first on its target");
}

static void test_several(void)
{
    expect(gives(waiting_by("01 01", "01 02"), "001 102", 8), "the same twice");
    expect(gives(waiting_by("01 12", "01 02 20"), "001 102 220", 14), "one behind the other");
    expect(gives(waiting_by("01 12", "01 02 20"), "001 102+220", refused(33, 2)), "the last two at once");
    expect(gives(waiting_by("01 12", "01 02 20"), "001+220 102", refused(33, 1)), "the last with the first");
    expect(gives(waiting_by("01 12", "01 22 20"), "001+220", 4), "it goes by the one it waits for, not on from there");
    expect(gives(waiting_by("02 12", "01 02 20"), "001+102 220", 9), "one for two");
    expect(gives(waiting_by("02 12", "01 02 20"), "001 102+220", refused(33, 2)), "and with the later of them");
    expect(gives(waiting_by("02 12", "01 02 20"), "102 001+220", refused(33, 2)), "whichever it is");
    expect(gives(waiting_by("02 12", "01 02 20"), "001 220 102", refused(33, 2)), "and between them");
    expect(gives(waiting_by("01 02", "01 02 20"), "001 102+220", 12), "two for one");
    expect(gives(waiting_by("01 02", "01 02 20"), "001+102 220", refused(33, 1)), "one of them with it");
    expect(gives(waiting_by("01 02", "01 02 20"), "001+220 102", refused(33, 1)), "the other with it");
    expect(gives(waiting_by("01 10", "01 02"), "001 102", refused(33, 1)), "each for the other");
    expect(gives(waiting_by("01 10", "01 02"), "102 001", refused(33, 1)), "each for the other, the other way");
    expect(gives(waiting_by("01 10", "01 02"), "001+102", refused(33, 1)), "each for the other, at once");
    expect(gives(waiting_by("01 10", "01 22"), "001", 3), "each for the other, one of them home");
    group("several that wait");
}

/* ---- the step that is told */

/* VM 2 goes to and fro until the last step there may be, which moves VM 1. */
static uint64_t verdict_on_long(uint32_t version)
{
    static struct record plan;
    const struct record *cluster = waiting("01 02 22");
    put_plan(&plan, version, KOB_MAX_STEPS);
    for (uint32_t i = 1; i < KOB_MAX_STEPS; i++) {
        put(&plan, 2, 1);
        put_move(&plan, 2, i % 2 == 1 ? 2 : 0, i % 2 == 1 ? 0 : 2);
    }
    put(&plan, 2, 1);
    put_move(&plan, 1, 0, 2);
    finish(&plan);
    return kob_check(0, cluster->bytes, cluster->len, plan.bytes, plan.len);
}

static void test_step(void)
{
    expect(gives(waiting("01 02 20"), "220 001+102", refused(33, 2)), "step 2");
    expect(gives(waiting("01 02 20"), "002 220 102 021", refused(33, 3)), "step 3");
    expect(gives(waiting("01 02 20"), "001+102 222", refused(33, 1)), "before 15 in a later step");
    expect(gives(waiting("01 02 20"), "001+222 102", refused(15, 1)), "after 15 in an earlier step");
    expect(gives(waiting("01 02 20"), "220 102 001+112", refused(33, 2)), "the first step at fault");
    expect(verdict_on_long(1) == refused(33, 512) && verdict_on_long(2) == refused(33, 512), "step 512");
    group("the step of 33");
}

/* ---- order of the numbers */

/* VM 1 does not wait for VM 0, and the step has another fault, mostly of VM 2. */
static void test_order(void)
{
    static const uint8_t ban[] = {0, 6, 1, 0, 1, 2, 1, 1};  /* VM 2 from node 1 */
    static const uint8_t spread[] = {0, 5, 3, 0, 2, 0, 2}; /* VMs 0 and 2 */
    static struct record cluster, plan;
    cluster = *waiting("01 02 20");
    expect(gives(&cluster, "001+102+220", refused(33, 1)), "33 alone");
    expect(gives(&cluster, "001+102+221 210", refused(33, 1)), "33 alone, with a VM aside");
    expect(gives(&cluster, "001+102+222", refused(15, 1)), "15: to where it is");
    expect(gives(&cluster, "001+102+320", refused(15, 1)), "15: no such VM");
    expect(gives(&cluster, "102+001", refused(15, 1)), "15: VMs that do not rise");
    expect(gives(&cluster, "001+10-", refused(15, 1)), "15: the second is shut down that is wanted on a node");
    expect(gives_in(2, 0, &cluster, "001+102+210", refused(27, 1)), "27 before 33");
    expect(gives_in(2, 0, &cluster, "001+112+220", refused(27, 1)), "27 before 33, of the second");
    expect(gives_in(1, 0, &cluster, "001+112+220", refused(33, 1)), "no source is named: 33");
    constrain(&cluster, ban, sizeof ban);
    expect(gives(&cluster, "001+102+221", refused(16, 1)), "16 before 33");
    cluster = *waiting("01 02 20");
    cluster.bytes[18] = 3; /* node 1's memory */
    expect(gives(&cluster, "001+102+221", refused(17, 1)), "17 before 33");
    expect(gives(&cluster, "001+102+220", refused(33, 1)), "33 if it fits");
    cluster = *waiting("01 02 20");
    constrain(&cluster, spread, sizeof spread);
    expect(gives(&cluster, "001+102+221", refused(18, 1)), "18 before 33");
    expect(gives(&cluster, "001+102", refused(33, 1)), "33 if no mates meet");
    expect(gives(&cluster, "102", refused(33, 1)), "33 before 19");
    expect(gives(&cluster, "001", refused(19, 0)), "19 alone");
    put_text_plan(&plan, 2, "001+102");
    plan.bytes[6] = 2; /* steps */
    expect(kob_check(0, cluster.bytes, cluster.len, plan.bytes, plan.len) == refused(14, 0), "14 before 33");
    cluster.bytes[18] = 2;
    expect(gives(&cluster, "001+102", refused(8, 0)), "8 before 33");
    group("order of the numbers");
}

/* ---- constraints that are malformed */

/* Whether all calls refuse a room with these bytes as its constraint, and change nothing. */
static int refuses(const char *vms, const uint8_t *constraint, size_t len, unsigned number)
{
    static struct record cluster, plan;
    put_text_room(&cluster, vms);
    constrain(&cluster, constraint, len);
    put_text_plan(&plan, 2, "");
    struct answers got = ask(0, &cluster, &plan, KOB_BUILD_BUFFER);
    return got.verdict == refused(number, 0) && got.built == got.verdict && got.right;
}

/* Whether they refuse this pair with 7. */
static int refuses_pair(const char *vms, uint8_t first, uint8_t second)
{
    const uint8_t before[] = {0, 3, 5, first, second};
    return refuses(vms, before, sizeof before, 7);
}

static void test_pairs(void)
{
    static struct record cluster;
    int good = 1;
    expect(refuses_pair("01 02", 0, 0) && refuses_pair("01 02", 1, 1), "a VM that waits for itself");
    expect(refuses_pair("01 02", 2, 0) && refuses_pair("01 02", 255, 0), "a first that is not there");
    expect(refuses_pair("01 02", 0, 2) && refuses_pair("01 02", 0, 255), "a second that is not there");
    expect(refuses_pair("01", 0, 0) && refuses_pair("01", 0, 1) && refuses_pair("01", 1, 0), "one VM alone");
    expect(refuses_pair("", 0, 0) && refuses_pair("", 0, 1), "no VM");
    expect(refuses_pair("-- --", 255, 0) && refuses_pair("-- --", 0, 255), "255 is no VM of version 2 either");
    put_text_room(&cluster, "01 02");
    put_before(&cluster, 0, 1);
    for (unsigned pair = 0; pair < 65536; pair++) {
        cluster.bytes[cluster.len - 2] = (uint8_t)(pair >> 8);
        cluster.bytes[cluster.len - 1] = (uint8_t)pair;
        uint64_t wanted = refused(pair == 0x0001 || pair == 0x0100 ? 19 : 7, 0);
        good = good && kob_check(0, cluster.bytes, cluster.len, NULL, 0) == wanted;
    }
    expect(good, "every pair of two bytes");
    for (unsigned first = 254; first < 256; first++) {
        chains(&cluster);
        put_before(&cluster, (uint8_t)first, 255);
        uint64_t wanted = refused(first == 255 ? 7 : 19, 0);
        expect(kob_check(0, cluster.bytes, cluster.len, NULL, 0) == wanted, "pairs of 256 VMs");
    }
    group("pairs");
}

/* The length of a constraint of this kind is 3, and no other. */
static void test_lengths(void)
{
    static const uint8_t none[] = {0, 0}, kind[] = {0, 1, 5}, one[] = {0, 2, 5, 0}, three[] = {0, 4, 5, 0, 1, 0};
    static const uint8_t list[] = {0, 5, 5, 0, 2, 0, 1}, lists[] = {0, 6, 5, 0, 1, 0, 1, 1};
    static const uint8_t less[] = {0, 2, 5, 0, 1}, more[] = {0, 4, 5, 0, 1};
    static uint8_t large[2 + 259] = {1, 3, 5, 0, 1};
    expect(refuses("01 02", none, sizeof none, 7), "length 0");
    expect(refuses("01 02", kind, sizeof kind, 7), "length 1");
    expect(refuses("01 02", one, sizeof one, 7), "length 2");
    expect(refuses("01 02", three, sizeof three, 7), "length 4");
    expect(refuses("01 02", list, sizeof list, 7), "a list as a spread has it");
    expect(refuses("01 02", lists, sizeof lists, 7), "lists as a ban has them");
    expect(refuses("01 02", large, sizeof large, 7), "length 259");
    expect(refuses("01 02", less, sizeof less, 5), "a byte behind the length stated");
    expect(refuses("01 02", more, sizeof more, 5), "a byte less than the length stated");
    group("lengths");
}

static void test_kinds(void)
{
    static struct record cluster;
    int good = 1;
    for (unsigned kind = 0; kind < 256; kind++) {
        const uint8_t constraint[] = {0, 3, (uint8_t)kind, 0, 1};
        good = good && (kind == 5 || refuses("01 02", constraint, sizeof constraint, 7));
    }
    expect(good, "two bytes are for kind 5 alone");
    put_text_room(&cluster, "01 02");
    for (int i = 0; i < KOB_MAX_CONSTRAINTS; i++)
        put_before(&cluster, 0, 1);
    expect(gives(&cluster, "001 102", 8) && gives(&cluster, "001+102", refused(33, 1)), "128 that wait");
    cluster.bytes[cluster.len - 1] = 0;
    expect(gives(&cluster, "001 102", refused(7, 0)), "the last of them malformed");
    put_before(&cluster, 0, 1);
    expect(gives(&cluster, "001 102", refused(4, 0)), "129 that wait");
    group("kinds and counts");
}

/* ---- the planner */

static void test_planned(void)
{
    static struct record free_room;
    put_text_room(&free_room, "01 02");
    expect(builds(&free_room, made(KOB_PLAN, 1, 2, 5), "001+102"), "nobody waits");
    expect(builds(waiting("01 02"), made(KOB_PLAN, 2, 2, 8), "001 102"), "VM 1 waits for VM 0");
    expect(builds(waiting_by("10", "01 02"), made(KOB_PLAN, 2, 2, 7), "102 001"), "VM 0 waits for VM 1");
    expect(builds(waiting("01 -2"), made(KOB_PLAN, 2, 2, 8), "001 1-2"), "a launch waits");
    expect(builds(waiting("01 0-"), made(KOB_PLAN, 2, 2, 6), "001 10-"), "a shutdown waits");
    expect(builds(waiting("-1 02"), made(KOB_PLAN, 2, 2, 8), "0-1 102"), "for a launch");
    expect(builds(waiting("0- 02"), made(KOB_PLAN, 2, 2, 2), "00- 102"), "for a shutdown");
    expect(builds(waiting("-- 02"), made(KOB_PLAN, 1, 1, 2), "102"), "not for a VM that stays down");
    expect(builds(waiting("11 02"), made(KOB_PLAN, 1, 1, 2), "102"), "not for a VM that stays");
    expect(builds(waiting("01 02 20"), made(KOB_PLAN, 2, 3, 9), "001+220 102"), "another VM does not wait");
    expect(builds(waiting_by("01 12", "01 02 20"), made(KOB_PLAN, 3, 3, 14), "001 102 220"), "in a row");
    expect(builds(waiting_by("02 12", "01 02 20"), made(KOB_PLAN, 2, 3, 9), "001+102 220"), "one for two");
    expect(builds(waiting_by("01 02", "01 02 20"), made(KOB_PLAN, 2, 3, 12), "001 102+220"), "two for one");
    group("planned");
}

static void test_blocked(void)
{
    const uint64_t nothing = made(KOB_BLOCKED, 0, 0, 0);
    expect(builds(waiting_by("01 10", "01 02"), nothing, ""), "each for the other");
    expect(builds(waiting_by("01 10", "-1 0-"), nothing, ""), "each for the other, a launch and a shutdown");
    expect(builds(waiting_by("01 12 20", "01 02 20"), nothing, ""), "in a ring");
    expect(builds(waiting_by("01 10", "01 02 20"), made(KOB_BLOCKED, 1, 1, 1), "220"), "a third goes first");
    expect(builds(waiting_by("01 10", "01 22"), made(KOB_PLAN, 1, 1, 3), "001"), "each for the other, one is home");
    expect(builds(waiting_by("01 12 20", "11 02 20"), made(KOB_PLAN, 2, 2, 5), "102 220"), "a ring, one is home");
    group("blocked");
}

/* A with a VM 2 of memory 1, which goes from node 2 to node 0. */
static void put_aside(struct record *cluster)
{
    put_cluster(cluster, 3, 3, 0);
    for (int i = 0; i < 3; i++)
        put_node(cluster, 4, 100);
    put_vm(cluster, 3, 50, 0, 1);
    put_vm(cluster, 2, 50, 1, 0);
    put_vm(cluster, 1, 0, 2, 0);
    finish(cluster);
}

/* VMs 0 and 1 change places, and either could step aside for it; VM 2 can go home once VM 1 is away. */
static void put_other_aside(struct record *cluster)
{
    put_cluster(cluster, 4, 3, 0);
    for (int i = 0; i < 4; i++)
        put_node(cluster, 4, 100);
    put_vm(cluster, 3, 10, 0, 1);
    put_vm(cluster, 4, 10, 1, 0);
    put_vm(cluster, 1, 10, 3, 1);
    finish(cluster);
}

/* A second does not step aside before its first is home, and nobody steps aside for one that waits on. */
static void test_aside(void)
{
    static struct record cluster;
    set(&cluster, cluster_a, sizeof cluster_a);
    expect(builds(&cluster, made(KOB_PLAN, 3, 3, 16), "002 110 021"), "A");
    put_before(&cluster, 0, 1);
    expect(builds(&cluster, made(KOB_BLOCKED, 0, 0, 0), ""), "A, VM 1 waits: VM 0 steps aside for nothing");
    expect(gives(&cluster, "002 110 021", refused(33, 2)), "its plan");
    set(&cluster, cluster_a, sizeof cluster_a);
    put_before(&cluster, 1, 0);
    expect(builds(&cluster, made(KOB_BLOCKED, 0, 0, 0), ""), "A, VM 0 waits: it cannot step aside");
    expect(gives(&cluster, "002 110 021", refused(33, 1)), "its plan");
    put_aside(&cluster);
    expect(builds(&cluster, made(KOB_PLAN, 4, 4, 20), "220 002 110 021"), "VM 2 goes home first");
    put_before(&cluster, 0, 2);
    expect(builds(&cluster, made(KOB_PLAN, 4, 4, 25), "002 110 021 220"), "it waits, while its first steps aside");
    put_other_aside(&cluster);
    expect(builds(&cluster, made(KOB_PLAN, 3, 4, 28), "002 110 021+231"), "VM 0 steps aside");
    put_before(&cluster, 2, 0);
    expect(builds(&cluster, made(KOB_PLAN, 4, 4, 29), "112 231 001 120"), "it waits: VM 1 steps aside");
    group("stepping aside");
}

/* ---- every room of two VMs */

/* Room number `number` of 256: each VM has one of four places now, and one as its target. */
static void put_numbered(struct record *cluster, unsigned number, char vms[6])
{
    static const char places[] = "012-";
    vms[0] = places[number & 3];
    vms[1] = places[number >> 2 & 3];
    vms[2] = ' ';
    vms[3] = places[number >> 4 & 3];
    vms[4] = places[number >> 6 & 3];
    vms[5] = '\0';
    put_text_room(cluster, vms);
}

/* The move of a VM to its target, as a text: nothing if it is there. */
static void put_home(char *steps, char vm, const char *places)
{
    const char move[] = {vm, places[0], places[1], '\0'};
    if (places[0] != places[1])
        strcat(steps, move);
}

/* Whether what is planned is the move home of the first and then, in a step of its own, that of the second; in one
 * step they are 33. `also` is whether the first waits for the second too: then nobody moves, if both have to. */
static int goes_home(unsigned number, unsigned first, int also)
{
    static struct record cluster;
    char vms[6], steps[8] = "", one_step[8] = "";
    unsigned second = 1 - first;
    put_numbered(&cluster, number, vms);
    put_before(&cluster, (uint8_t)first, (uint8_t)second);
    if (also)
        put_before(&cluster, (uint8_t)second, (uint8_t)first);
    const char *one = vms + 3 * first, *other = vms + 3 * second;
    unsigned moves = (one[0] != one[1]) + (other[0] != other[1]);
    uint64_t one_needs = one[0] == one[1] || one[1] == '-' ? 0 : 3 - first;
    uint64_t other_needs = other[0] == other[1] || other[1] == '-' ? 0 : 3 - second;
    put_home(one_step, '0', vms);
    if (moves == 2)
        strcat(one_step, "+");
    put_home(one_step, '1', vms + 3);
    if (moves < 2) /* neither waits */
        return builds(&cluster, made(KOB_PLAN, moves, moves, one_needs + other_needs), one_step)
               && gives(&cluster, one_step, one_needs + other_needs);
    if (also)
        return builds(&cluster, made(KOB_BLOCKED, 0, 0, 0), "") && gives(&cluster, one_step, refused(33, 1));
    put_home(steps, (char)('0' + first), one);
    strcat(steps, " ");
    put_home(steps, (char)('0' + second), other);
    return builds(&cluster, made(KOB_PLAN, 2, 2, 2 * one_needs + other_needs), steps)
           && gives(&cluster, steps, 2 * one_needs + other_needs) && gives(&cluster, one_step, refused(33, 1));
}

/* No target is refused for it: every one of these rooms is planned for, or blocked. */
static void test_rooms(void)
{
    for (unsigned first = 0; first < 2; first++)
        for (int also = 0; also < 2; also++) {
            int good = 1;
            for (unsigned number = 0; number < 256; number++)
                good = goes_home(number, first, also) && good;
            expect(good, also ? "256 rooms whose VMs wait for each other" : "256 rooms where a VM waits");
        }
    group("rooms of two VMs");
}

/* Waits that are met change nothing. */
static void test_met(void)
{
    static struct record plain, cluster;
    uint8_t out[KOB_BUILD_BUFFER], same[KOB_BUILD_BUFFER];
    memset(out, FILL, sizeof out);
    memset(same, FILL, sizeof same);
    chains(&plain);
    waiting_chains(&cluster);
    uint64_t built = kob_build(0, plain.bytes, plain.len, out, sizeof out);
    expect(kob_steps(built) == CHAIN_STEPS, "the chains");
    expect(kob_build(0, cluster.bytes, cluster.len, same, sizeof same) == built, "the chains, 128 waits met");
    expect(memcmp(out, same, sizeof out) == 0, "the same plan");
    uint64_t verdict = kob_check(0, cluster.bytes, cluster.len, same, kob_plan_length(same));
    expect(verdict == kob_cost(built), "accepted at the same cost");
    cluster.bytes[cluster.len - 2] = 0; /* VM 191, of the last chain, waits for VM 0, of the first */
    verdict = kob_check(0, cluster.bytes, cluster.len, same, kob_plan_length(same));
    expect(verdict == kob_cost(built), "also behind a first that comes home");
    cluster.bytes[cluster.len - 2] = 191;
    cluster.bytes[cluster.len - 1] = 0; /* the other way round */
    verdict = kob_check(0, cluster.bytes, cluster.len, same, kob_plan_length(same));
    expect(verdict == refused(33, 1), "33 for the one that goes first");
    group("waits that are met");
}

/* ---- at a reserve */

/* VM 0 needs memory 3 of a node's 10, so 70 is the most that can be kept. 33 does not look at it; 17, which comes
 * before, does: VMs 0 and 2 need 4 on node 1. */
static void test_kept(void)
{
    for (uint64_t reserve = 0; reserve <= KOB_MAX_RESERVE + 1; reserve++) {
        unsigned number = reserve > KOB_MAX_RESERVE ? 23 : reserve > 70 ? 8 : 0;
        uint64_t both = number == 0 ? refused(33, 1) : refused(number, 0);
        uint64_t crowd = number == 0 && reserve > 60 ? refused(17, 1) : both;
        uint64_t accepted = number == 0 ? 8 : refused(number, 0);
        expect(gives_in(2, reserve, waiting("01 02"), "001+102", both), "33 at every reserve");
        expect(gives_in(2, reserve, waiting("01 02 20"), "001+102+221 210", crowd), "17 before 33");
        expect(gives_in(2, reserve, waiting("01 02"), "001 102", accepted), "accepted at every reserve");
        if (number == 0)
            expect(builds_at(reserve, waiting("01 02"), made(KOB_PLAN, 2, 2, 8), "001 102"), "and so planned");
    }
    expect(builds_at(50, waiting_by("01 10", "01 02"), made(KOB_BLOCKED, 0, 0, 0), ""), "blocked at a reserve");
    group("at a reserve");
}

int main(void)
{
    test_second_waits();
    test_every_move();
    test_first_home();
    test_several();
    test_step();
    test_order();
    test_pairs();
    test_lengths();
    test_kinds();
    test_planned();
    test_blocked();
    test_aside();
    test_rooms();
    test_met();
    test_kept();
    return status();
}
