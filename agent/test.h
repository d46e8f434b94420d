/* What the test programs share: counting, and the records they use. */
#ifndef KOB_TEST_H
#define KOB_TEST_H

#include <stddef.h>
#include <stdint.h>

#include <kobdrieft.h>

/* Counts one test; a failed one is named on standard error. */
void expect(int good, const char *what);

/* Ends a group: prints `NAME: N passed, M failed`, and counts anew. */
void group(const char *name);

/* The exit status: 1 if any test failed. */
int status(void);

/* Results as the calls return them. */
uint64_t refused(unsigned number, unsigned step);
uint64_t made(unsigned outcome, unsigned steps, unsigned moves, uint64_t cost);
uint64_t divided(unsigned steps, uint64_t cost);

/* What a buffer has before a call. */
#define FILL 0x5a

/* Whether all these bytes have one value. */
int all_are(const uint8_t *bytes, size_t len, uint8_t value);

/* Allocations of just this size: a copy, and a buffer. */
uint8_t *copied(const uint8_t *bytes, size_t len);
uint8_t *filled(size_t len);

struct record {
    uint8_t bytes[KOB_MAX_CLUSTER_BYTES + 1];
    size_t len;
};

/* Appends a number of so many bytes, big-endian. */
void put(struct record *record, unsigned bytes, uint32_t number);

/* Begins a cluster record of version 1 with so many rows and constraints; its length is not stated yet. */
void put_cluster(struct record *cluster, uint32_t nodes, uint32_t vms, uint32_t constraints);

/* Appends a node's row. */
void put_node(struct record *cluster, uint32_t memory, uint32_t cpu);

/* Appends a VM's row. */
void put_vm(struct record *cluster, uint32_t memory, uint32_t cpu, uint32_t current, uint32_t target);

/* Puts these bytes, a constraint with its length, behind a whole cluster record. */
void constrain(struct record *cluster, const uint8_t *constraint, size_t len);

/* Lets the second VM wait for the first, in a whole cluster record. */
void put_before(struct record *cluster, uint8_t first, uint8_t second);

/* Begins a plan record of a version with so many steps; its length is not stated yet. */
void put_plan(struct record *plan, uint32_t version, uint32_t steps);

/* Appends a move, without its source if the record is of version 1. */
void put_move(struct record *plan, uint32_t vm, uint32_t source, uint32_t destination);

/* States the whole length. */
void finish(struct record *record);

/* Makes a record of these bytes. */
void set(struct record *record, const uint8_t *bytes, size_t len);

/* Whether two records have the same bytes. */
int same(const struct record *one, const struct record *other);

/* Where a cluster record has the current place of a VM; the target's is the next. */
size_t current_at(const struct record *cluster, uint32_t vm);

/* The steps of a plan of version 2, in version 1. */
void plain_version(struct record *plain, const struct record *plan);

/* A place in one character: a digit, or '-' for no node. */
uint32_t place(char character);

/* Three nodes of memory 10 and CPU 100, and VMs of memory 3, 2 and 1 and CPU 10. `vms` has a VM's current and
 * target place in two characters, and a space before the next VM. It is of version 2 if a VM is on no node. */
void put_text_room(struct record *cluster, const char *vms);

/* The same, to be used before the next one is asked for. */
const struct record *room_of(const char *vms);

/* A plan of a version. A move has three characters: VM, source, destination. '+' stands between moves of one step,
 * a space between steps. */
void put_text_plan(struct record *plan, uint32_t version, const char *steps);

/* The cluster, and a plan of these steps, in a way of versions, 0 and on: a cluster of version 1 as one of version 2
 * too, and with each the plan in both versions. Gives 0 if there is no such way. */
int put_versions(struct record *room, struct record *plan, const struct record *cluster, const char *steps,
                 unsigned way);

/* The room "01 12 20" with constraints of all kinds; VM 0 waits for VM 1. */
void put_all_kinds(struct record *cluster);

/* A cluster with this fault, 1 to 9; any other number gives A. */
void put_cluster_fault(struct record *cluster, unsigned number);

/* A cluster and a plan with this fault, 11 to 19, 27 or 33; any other number gives A and its plan. */
void put_plan_fault(struct record *cluster, struct record *plan, unsigned number);

/* What checking and building give, and whether all calls leave the records as they were, and of a refusal the
 * buffer; a stop in step 0 must be refused as the check is, or with 20, and a split into this buffer, which is to be
 * under 2,567 bytes, as the check is, or with 10. */
struct answers {
    uint64_t verdict, built;
    int right;
};

/* Asks all at a reserve; all is lent in allocations of just its size. */
struct answers ask(uint64_t reserve, const struct record *cluster, const struct record *plan, size_t out_len);

/* Expects that every fault of the checker comes before a call's own numbers, which `later` names, and 23 before every
 * one; `alike` is whether the call is refused as the check is, with this number, whatever else is wrong. */
void expect_checked_first(int (*alike)(uint64_t reserve, const struct record *cluster, const struct record *plan,
                                       unsigned number), const char *later);

/* The next number of a fixed series. */
uint32_t draw(void);

/* Changes one to three bytes. */
void damage(uint8_t *bytes, size_t len);

/* Damages the cluster, or else, about every other time, the plan. */
void damage_one(struct record *cluster, struct record *plan, int to_cluster);

/* Document 01's cluster A, and the plan for it, 3 steps, cost 16: as it is built, and in version 1. */
extern const uint8_t cluster_a[40];
extern const uint8_t plan_a[22];
extern const uint8_t plain_a[19];
#define STEPS_A "002 110 021"

/* A with this memory on each node, to be used before the next one is asked for. */
const struct record *a_with(uint8_t memory);

/* A in version 2: VM 0 is to shut down, VM 1 is down and to be launched on node 0, which has space for one. And
 * its plan, 2 steps, cost 2. */
void turnover(uint8_t cluster[sizeof cluster_a]);
extern const uint8_t turnover_plan[17];

/* Most nodes, VMs, constraints; 52,043 bytes. VM i goes from node i mod 64 to the next. */
void full_room(struct record *cluster);

/* A plan for it with most steps and most moves, and its cost: 4,103 bytes in version 2, 3,079 in version 1. */
void full_plan(struct record *plan, uint32_t version);
#define FULL_PLAN_COST 165251

/* A plan for it, in at most 4 steps, with so many moves, 256 to 1,024. */
void rounds(struct record *plan, uint32_t version, uint32_t moves);

/* Most nodes and VMs, planned in CHAIN_STEPS steps of one move. */
void chains(struct record *cluster);
#define CHAIN_STEPS 500

/* The same with most constraints: VMs 0 to 63 and 128 to 191 wait for VM 255, which is home and stays. */
void waiting_chains(struct record *cluster);

/* A room of version 2 with 2 to 5 nodes and 2 to 6 VMs, of which the first two are to be apart. */
void draw_room(struct record *cluster);

/* A place in it: a node, or seldom none. */
uint32_t draw_place(uint32_t nodes);

/* Reserves. Those above 90 are too high; with bits cut off some would not be. */
#define RESERVES 10
extern const uint64_t reserves[RESERVES];

/* Pages with an inaccessible one on either side. */
struct fenced {
    uint8_t *front;
    size_t size;
};

enum side { FRONT, BACK };

/* Pages for at least so many bytes. */
struct fenced fence(size_t least);

/* Room for so many bytes that begin, or end, at an inaccessible page. */
uint8_t *at(const struct fenced *fenced, enum side side, size_t len);

/* The same with a copy of these bytes, not to be written. */
const uint8_t *lend(const struct fenced *fenced, enum side side, const uint8_t *bytes, size_t len);

/* Whether a buffer in filled pages has these bytes, and the pages around it what they had. */
int alone(const struct fenced *fenced, const uint8_t *buffer, const uint8_t *wanted, size_t len);

#endif
