/* Counting, and the records that the test programs use. */
#include <stdio.h>
#include <stdlib.h>
#include <string.h>

#include "test.h"

static int passed, failed, any_failed;

void expect(int good, const char *what)
{
    if (good) {
        passed++;
        return;
    }
    failed++;
    any_failed = 1;
    fprintf(stderr, "failed: %s\n", what);
}

void group(const char *name)
{
    printf("%s: %d passed, %d failed\n", name, passed, failed);
    fflush(stdout);
    passed = failed = 0;
}

int status(void)
{
    return any_failed;
}

/* ---- results and buffers */

uint64_t refused(unsigned number, unsigned step)
{
    return (uint64_t)2 << 62 | (uint64_t)number << 16 | step;
}

uint64_t made(unsigned outcome, unsigned steps, unsigned moves, uint64_t cost)
{
    return (uint64_t)outcome << 62 | (uint64_t)steps << 53 | (uint64_t)moves << 44 | cost;
}

uint64_t divided(unsigned steps, uint64_t cost)
{
    return (uint64_t)steps << 44 | cost;
}

int all_are(const uint8_t *bytes, size_t len, uint8_t value)
{
    for (size_t i = 0; i < len; i++)
        if (bytes[i] != value)
            return 0;
    return 1;
}

uint8_t *copied(const uint8_t *bytes, size_t len)
{
    uint8_t *copy = malloc(len);
    if (copy == NULL)
        exit(1);
    memcpy(copy, bytes, len);
    return copy;
}

uint8_t *filled(size_t len)
{
    uint8_t *bytes = malloc(len);
    if (bytes == NULL)
        exit(1);
    memset(bytes, FILL, len);
    return bytes;
}

int alone(const struct fenced *fenced, const uint8_t *buffer, const uint8_t *wanted, size_t len)
{
    size_t before = (size_t)(buffer - fenced->front);
    return memcmp(buffer, wanted, len) == 0 && all_are(fenced->front, before, FILL)
           && all_are(buffer + len, fenced->size - before - len, FILL);
}

/* ---- A */

const uint8_t cluster_a[40] = {
    1, 0, 0, 0, 40, 0, 3, 0, 2, 0, 0,                  /* header: 3 nodes, 2 VMs, no constraint */
    0, 0, 4, 0, 100, 0, 0, 4, 0, 100, 0, 0, 4, 0, 100, /* nodes: memory 4, CPU 100 */
    0, 0, 3, 0, 50, 0, 1, 0, 0, 2, 0, 50, 1, 0         /* VM 0 from 0 to 1, VM 1 from 1 to 0 */
};

const uint8_t plan_a[22] = {2, 0, 0, 0, 22, 0, 3, 0, 1, 0, 0, 2, 0, 1, 1, 1, 0, 0, 1, 0, 2, 1};

const uint8_t plain_a[19] = {1, 0, 0, 0, 19, 0, 3, 0, 1, 0, 2, 0, 1, 1, 0, 0, 1, 0, 1};

void turnover(uint8_t cluster[sizeof cluster_a])
{
    memcpy(cluster, cluster_a, sizeof cluster_a);
    cluster[0] = 2;
    cluster[32] = KOB_NOWHERE; /* VM 0's target */
    cluster[38] = KOB_NOWHERE; /* VM 1's current node */
}

const uint8_t turnover_plan[17] = {2, 0, 0, 0, 17, 0, 2, 0, 1, 0, 0, 255, 0, 1, 1, 255, 0};

/* ---- reserves */

const uint64_t reserves[RESERVES] = {
    0, 10, KOB_MAX_RESERVE,                                        /* good */
    KOB_MAX_RESERVE + 1, 256, 65546,                               /* too high */
    (uint64_t)1 << 32, ((uint64_t)1 << 32) + 10, (uint64_t)1 << 63, UINT64_MAX
};

/* ---- writing records */

void put(struct record *record, unsigned bytes, uint32_t number)
{
    while (bytes-- > 0)
        record->bytes[record->len++] = (uint8_t)(number >> 8 * bytes);
}

void put_cluster(struct record *cluster, uint32_t nodes, uint32_t vms, uint32_t constraints)
{
    cluster->len = 0;
    put(cluster, 1, 1);
    put(cluster, 4, 0);
    put(cluster, 2, nodes);
    put(cluster, 2, vms);
    put(cluster, 2, constraints);
}

void put_node(struct record *cluster, uint32_t memory, uint32_t cpu)
{
    put(cluster, 3, memory);
    put(cluster, 2, cpu);
}

void put_vm(struct record *cluster, uint32_t memory, uint32_t cpu, uint32_t current, uint32_t target)
{
    put(cluster, 3, memory);
    put(cluster, 2, cpu);
    put(cluster, 1, current);
    put(cluster, 1, target);
}

void finish(struct record *record)
{
    size_t end = record->len;
    record->len = 1;
    put(record, 4, (uint32_t)end);
    record->len = end;
}

void set(struct record *record, const uint8_t *bytes, size_t len)
{
    memcpy(record->bytes, bytes, len);
    record->len = len;
}

int same(const struct record *one, const struct record *other)
{
    return one->len == other->len && memcmp(one->bytes, other->bytes, one->len) == 0;
}

size_t current_at(const struct record *cluster, uint32_t vm)
{
    return 11 + 5 * kob_number(cluster->bytes + 5, 2) + 7 * vm + 5;
}

void constrain(struct record *cluster, const uint8_t *constraint, size_t len)
{
    memcpy(cluster->bytes + cluster->len, constraint, len);
    cluster->len += len;
    cluster->bytes[10]++;
    finish(cluster);
}

void put_before(struct record *cluster, uint8_t first, uint8_t second)
{
    const uint8_t before[] = {0, 3, 5, first, second};
    constrain(cluster, before, sizeof before);
}

void put_plan(struct record *plan, uint32_t version, uint32_t steps)
{
    plan->len = 0;
    put(plan, 1, version);
    put(plan, 4, 0);
    put(plan, 2, steps);
}

void put_move(struct record *plan, uint32_t vm, uint32_t source, uint32_t destination)
{
    put(plan, 1, vm);
    if (plan->bytes[0] != 1)
        put(plan, 1, source);
    put(plan, 1, destination);
}

void plain_version(struct record *plain, const struct record *plan)
{
    kob_reader reader;
    unsigned moves, vm, destination;
    put_plan(plain, 1, kob_number(plan->bytes + 5, 2));
    kob_read_start(&reader, plan->bytes, plan->len);
    while (kob_read_step(&reader, &moves)) {
        put(plain, 2, moves);
        while (kob_read_move(&reader, &vm, &destination))
            put_move(plain, vm, 0, destination);
    }
    finish(plain);
}

const struct record *a_with(uint8_t memory)
{
    static struct record cluster;
    set(&cluster, cluster_a, sizeof cluster_a);
    cluster.bytes[13] = cluster.bytes[18] = cluster.bytes[23] = memory;
    return &cluster;
}

/* ---- records from texts */

uint32_t place(char character)
{
    return character == '-' ? KOB_NOWHERE : (uint32_t)(character - '0');
}

void put_text_room(struct record *cluster, const char *vms)
{
    uint32_t count = (uint32_t)(strlen(vms) + 1) / 3;
    put_cluster(cluster, 3, count, 0);
    for (int i = 0; i < 3; i++)
        put_node(cluster, 10, 100);
    for (uint32_t i = 0; i < count; i++)
        put_vm(cluster, 3 - i, 10, place(vms[3 * i]), place(vms[3 * i + 1]));
    if (strchr(vms, '-') != NULL)
        cluster->bytes[0] = 2;
    finish(cluster);
}

const struct record *room_of(const char *vms)
{
    static struct record room;
    put_text_room(&room, vms);
    return &room;
}

void put_text_plan(struct record *plan, uint32_t version, const char *steps)
{
    put_plan(plan, version, 0);
    while (*steps != '\0') {
        size_t moves = (strcspn(steps, " ") + 1) / 4;
        plan->bytes[6]++;
        put(plan, 2, (uint32_t)moves);
        for (; moves > 0; moves--, steps += steps[3] == '\0' ? 3 : 4)
            put_move(plan, place(steps[0]), place(steps[1]), place(steps[2]));
    }
    finish(plan);
}

int put_versions(struct record *room, struct record *plan, const struct record *cluster, const char *steps,
                 unsigned way)
{
    set(room, cluster->bytes, cluster->len);
    room->bytes[0] = (uint8_t)(room->bytes[0] + way / 2);
    put_text_plan(plan, 1 + way % 2, steps);
    return room->bytes[0] <= 2;
}

void put_all_kinds(struct record *cluster)
{
    static const uint8_t ban[] = {0, 6, 1, 0, 1, 2, 1, 1}, bounds[] = {0, 8, 2, 0, 1, 0, 3, 0, 1, 2};
    static const uint8_t spread[] = {0, 5, 3, 0, 2, 0, 1}, latency[] = {0, 11, 4, 0, 2, 0, 1, 2, 2, 1, 2, 1, 0};
    put_text_room(cluster, "01 12 20");
    constrain(cluster, ban, sizeof ban);
    constrain(cluster, bounds, sizeof bounds);
    constrain(cluster, spread, sizeof spread);
    constrain(cluster, latency, sizeof latency);
    put_before(cluster, 1, 0);
}

/* ---- records with a fault */

void put_cluster_fault(struct record *cluster, unsigned number)
{
    static const uint8_t no_kind[] = {0, 0};
    static const uint8_t ban[] = {0, 6, 1, 0, 1, 0, 1, 1}; /* VM 0 from node 1 */
    set(cluster, cluster_a, sizeof cluster_a);
    switch (number) {
    case KOB_FAULT_CLUSTER_SHORT: cluster->len = 10; break;
    case KOB_FAULT_CLUSTER_VERSION: cluster->bytes[0] = 3; break;
    case KOB_FAULT_CLUSTER_LENGTH: cluster->bytes[4] = 41; break;
    case KOB_FAULT_CLUSTER_COUNTS: cluster->bytes[6] = 0; break; /* nodes */
    case KOB_FAULT_CLUSTER_FILL: cluster->bytes[8] = 1; break;   /* VMs */
    case KOB_FAULT_VM_ROW: cluster->bytes[28] = 0; break;        /* VM 0's memory */
    case KOB_FAULT_CONSTRAINT: constrain(cluster, no_kind, sizeof no_kind); break;
    case KOB_FAULT_TARGET_OVERFULL: cluster->bytes[13] = 1; break; /* node 0's memory */
    case KOB_FAULT_TARGET_BROKEN: constrain(cluster, ban, sizeof ban); break;
    default: break;
    }
}

void put_plan_fault(struct record *cluster, struct record *plan, unsigned number)
{
    static const uint8_t ban[] = {0, 6, 1, 0, 1, 0, 1, 2}; /* VM 0 from node 2 */
    static const uint8_t spread[] = {0, 5, 3, 0, 2, 0, 1};
    static const uint8_t beside[] = {2, 0, 0, 0, 12, 0, 1, 0, 1, 0, 0, 1}; /* VM 0 to node 1 */
    static const uint8_t no_steps[] = {2, 0, 0, 0, 7, 0, 0};
    put_cluster_fault(cluster, 0);
    set(plan, plan_a, sizeof plan_a);
    switch (number) {
    case KOB_FAULT_PLAN_SHORT: plan->len = 6; break;
    case KOB_FAULT_PLAN_VERSION: plan->bytes[0] = 3; break;
    case KOB_FAULT_PLAN_LENGTH: plan->bytes[4] = 23; break;
    case KOB_FAULT_PLAN_SHAPE: plan->bytes[6] = 2; break; /* steps */
    case KOB_FAULT_MISNAMED: plan->bytes[11] = 0; break;  /* the first destination */
    case KOB_FAULT_ELSEWHERE: plan->bytes[10] = 1; break; /* the first source */
    case KOB_FAULT_FORBIDDEN: constrain(cluster, ban, sizeof ban); break;
    case KOB_FAULT_MISFIT: cluster->bytes[23] = 2; break; /* node 2's memory */
    case KOB_FAULT_MATE:
        constrain(cluster, spread, sizeof spread);
        cluster->bytes[13] = cluster->bytes[18] = 5; /* the memory of nodes 0 and 1 */
        set(plan, beside, sizeof beside);
        break;
    case KOB_FAULT_BEFORE: put_before(cluster, 1, 0); break; /* VM 0 waits for VM 1 */
    case KOB_FAULT_OFF_TARGET: set(plan, no_steps, sizeof no_steps); break;
    default: break;
    }
}

/* ---- calls */

struct answers ask(uint64_t reserve, const struct record *cluster, const struct record *plan, size_t out_len)
{
    struct answers answers;
    uint8_t *c = copied(cluster->bytes, cluster->len);
    uint8_t *p = copied(plan->bytes, plan->len);
    uint8_t *out = filled(out_len);
    answers.verdict = kobdrieft_check(reserve, c, cluster->len, p, plan->len);
    answers.built = kobdrieft_build(reserve, c, cluster->len, out, out_len);
    answers.right = kob_outcome_of(answers.built) != KOB_REFUSED || all_are(out, out_len, FILL);
    memset(out, FILL, out_len);
    uint64_t stopped = kobdrieft_stop(reserve, c, cluster->len, p, plan->len, 0, c, 0, out, out_len);
    uint64_t split = kobdrieft_split(reserve, c, cluster->len, p, plan->len, out, out_len);
    int bad = kob_outcome_of(answers.verdict) == KOB_REFUSED;
    answers.right = answers.right && all_are(out, out_len, FILL)
                    && stopped == (bad ? answers.verdict : refused(20, 0))
                    && split == (bad ? answers.verdict : refused(10, 0))
                    && memcmp(c, cluster->bytes, cluster->len) == 0 && memcmp(p, plan->bytes, plan->len) == 0;
    free(c);
    free(p);
    free(out);
    return answers;
}

void expect_checked_first(int (*alike)(uint64_t reserve, const struct record *cluster, const struct record *plan,
                                       unsigned number), const char *later)
{
    static struct record cluster, plan;
    static const unsigned more[] = {KOB_FAULT_ELSEWHERE, KOB_FAULT_BEFORE};
    char what[100];
    set(&plan, plan_a, sizeof plan_a);
    snprintf(what, sizeof what, "1 to 9 before %s", later);
    for (unsigned number = 1; number <= KOB_FAULT_TARGET_BROKEN; number++) {
        put_cluster_fault(&cluster, number);
        expect(alike(0, &cluster, &plan, number), what);
        expect(alike(KOB_MAX_RESERVE + 1, &cluster, &plan, 23), "23 before 1 to 9");
    }
    snprintf(what, sizeof what, "11 to 19 before %s", later);
    for (unsigned number = KOB_FAULT_PLAN_SHORT; number <= KOB_FAULT_OFF_TARGET; number++) {
        put_plan_fault(&cluster, &plan, number);
        expect(alike(0, &cluster, &plan, number), what);
        expect(alike(KOB_MAX_RESERVE + 1, &cluster, &plan, 23), "23 before 11 to 19");
    }
    snprintf(what, sizeof what, "27 and 33 before %s", later);
    for (size_t i = 0; i < 2; i++) {
        put_plan_fault(&cluster, &plan, more[i]);
        expect(alike(0, &cluster, &plan, more[i]), what);
        expect(alike(KOB_MAX_RESERVE + 1, &cluster, &plan, 23), "23 before 27 and 33");
    }
    put_plan_fault(&cluster, &plan, 0);
    for (size_t i = 0; i < RESERVES; i++)
        if (reserves[i] > 25)
            expect(alike(reserves[i], &cluster, &plan, reserves[i] > KOB_MAX_RESERVE ? 23 : 8), "8 and 23");
}

/* ---- damage */

/* (xorshift) */
uint32_t draw(void)
{
    static uint32_t state = 2463534242u;
    state ^= state << 13;
    state ^= state >> 17;
    state ^= state << 5;
    return state;
}

void damage(uint8_t *bytes, size_t len)
{
    for (uint32_t left = 1 + draw() % 3; left > 0; left--)
        bytes[draw() % len] = draw() % 2 == 0 ? (uint8_t)draw() : (uint8_t)(draw() % 4);
}

void damage_one(struct record *cluster, struct record *plan, int to_cluster)
{
    if (to_cluster)
        damage(cluster->bytes, cluster->len);
    else if (draw() % 2 == 0)
        damage(plan->bytes, plan->len);
}

/* ---- drawn rooms */

uint32_t draw_place(uint32_t nodes)
{
    return draw() % 7 == 0 ? KOB_NOWHERE : draw() % nodes;
}

void draw_room(struct record *cluster)
{
    static const uint8_t spread[] = {0, 5, 3, 0, 2, 0, 1};
    uint32_t nodes = 2 + draw() % 4, vms = 2 + draw() % 5;
    put_cluster(cluster, nodes, vms, 0);
    cluster->bytes[0] = 2;
    for (uint32_t i = 0; i < nodes; i++)
        put_node(cluster, 5 + draw() % 15, 50 + draw() % 150);
    for (uint32_t i = 0; i < vms; i++)
        put_vm(cluster, 1 + draw() % 6, draw() % 3 == 0 ? 0 : draw() % 60, draw_place(nodes), draw_place(nodes));
    finish(cluster);
    constrain(cluster, spread, sizeof spread);
    if (draw() % 3 == 0)
        put_before(cluster, 1, 0);
}

/* ---- the full room and its plans */

static void put_rising(struct record *cluster, uint32_t count)
{
    for (uint32_t i = 0; i < count; i++)
        put(cluster, 1, i);
}

/* A latency of all VMs with 64 groups: all nodes in the first, none in the others. */
static void put_latency(struct record *cluster)
{
    put(cluster, 2, 1 + 2 + 256 + 1 + 65 + 63);
    put(cluster, 1, 4);
    put(cluster, 2, 256);
    put_rising(cluster, 256);
    put(cluster, 1, 64);
    put(cluster, 1, 64);
    put_rising(cluster, 64);
    for (int i = 1; i < 64; i++)
        put(cluster, 1, 0);
}

void full_room(struct record *cluster)
{
    put_cluster(cluster, KOB_MAX_NODES, KOB_MAX_VMS, KOB_MAX_CONSTRAINTS);
    for (int i = 0; i < KOB_MAX_NODES; i++)
        put_node(cluster, 16777215, 65535);
    for (uint32_t i = 0; i < KOB_MAX_VMS; i++)
        put_vm(cluster, 1, 1, i % 64, (i + 1) % 64);
    for (int i = 0; i < KOB_MAX_CONSTRAINTS; i++)
        put_latency(cluster);
    finish(cluster);
}

/* First all VMs but VM 0 go home. Then VM 0 goes to and fro, 511 times, and VM 1 with it 258 times. */
void full_plan(struct record *plan, uint32_t version)
{
    put_plan(plan, version, KOB_MAX_STEPS);
    put(plan, 2, 255);
    for (uint32_t i = 1; i < KOB_MAX_VMS; i++)
        put_move(plan, i, i % 64, (i + 1) % 64);
    for (uint32_t i = 0; i < KOB_MAX_STEPS - 1; i++) {
        uint32_t to = i % 2 == 0 ? 1 : 0;
        put(plan, 2, i < 258 ? 2 : 1);
        put_move(plan, 0, 1 - to, to);
        if (i < 258)
            put_move(plan, 1, 3 - to, 2 + to);
    }
    finish(plan);
}

/* Rounds of all VMs, the last of perhaps fewer, aside and aside again; then all go home. A VM steps aside to the
 * second node behind its own and to the third in turn, and is at home on the first. */
void rounds(struct record *plan, uint32_t version, uint32_t moves)
{
    uint32_t left = moves - KOB_MAX_VMS, behind[KOB_MAX_VMS] = {0};
    put_plan(plan, version, (left + KOB_MAX_VMS - 1) / KOB_MAX_VMS + 1);
    for (uint32_t aside = 2; left > 0; aside = 5 - aside) {
        uint32_t count = left < KOB_MAX_VMS ? left : KOB_MAX_VMS;
        put(plan, 2, count);
        for (uint32_t i = 0; i < count; i++) {
            put_move(plan, i, (i + behind[i]) % 64, (i + aside) % 64);
            behind[i] = aside;
        }
        left -= count;
    }
    put(plan, 2, KOB_MAX_VMS);
    for (uint32_t i = 0; i < KOB_MAX_VMS; i++)
        put_move(plan, i, (i + behind[i]) % 64, (i + 1) % 64);
    finish(plan);
}

/* ---- the chains */

/* Four chains, one after the other. In each a walker goes from node 0 over the nodes 1 to 61 and 63 to node
 * 62; wherever it steps aside, a follower comes from the next node. A follower needs more than the one
 * before it left, so it cannot come while the walker is there. */
#define LINKS 62

static uint32_t walker(uint32_t chain)
{
    return 100000 - chain;
}

static uint32_t follower(uint32_t chain, uint32_t from)
{
    return 100000 + 100 * (chain + 1) + from;
}

/* What a node bears: its VMs at the start, and just the first walker beside them. */
static uint32_t bears(uint32_t node)
{
    uint32_t sum = 0;
    for (uint32_t chain = 0; chain < 4; chain++)
        sum += node == 0 ? walker(chain) : node <= LINKS ? follower(chain, node) : 1;
    if (node == 0)
        return sum + 2000;
    return node == LINKS ? sum : sum + walker(0);
}

void chains(struct record *cluster)
{
    put_cluster(cluster, KOB_MAX_NODES, KOB_MAX_VMS, 0);
    for (uint32_t node = 0; node < KOB_MAX_NODES; node++)
        put_node(cluster, bears(node), 0);
    for (uint32_t chain = 0; chain < 4; chain++) {
        put_vm(cluster, walker(chain), 0, 0, LINKS);
        for (uint32_t from = 1; from <= LINKS; from++)
            put_vm(cluster, follower(chain, from), 0, from, from - 1);
    }
    for (int i = 0; i < 4; i++)
        put_vm(cluster, 1, 0, 63, 63);
    finish(cluster);
}

void waiting_chains(struct record *cluster)
{
    chains(cluster);
    for (int i = 0; i < KOB_MAX_CONSTRAINTS; i++)
        put_before(cluster, 255, (uint8_t)(i < 64 ? i : i + 64));
}
