/* Tests of the plan reader and of kob_vm_current. The records begin, or end, at inaccessible pages. */
#include <stdlib.h>
#include <string.h>

#include "test.h"

static struct fenced pages;

/* ---- reading a record whole */

/* What a reader gave: how it started and ended, what it counted, and its moves written as a record again. */
struct reading {
    int started, whole;
    unsigned steps, moves, sources;
    struct record again;
};

static void read_moves(kob_reader *reader, struct reading *got)
{
    unsigned vm, source, destination;
    while (kob_read_move_from(reader, &vm, &source, &destination)) {
        got->moves++;
        got->sources += source != KOB_NO_SOURCE;
        put_move(&got->again, vm, source, destination);
    }
}

/* Reads the steps that are left. */
static void read_steps(kob_reader *reader, struct reading *got)
{
    unsigned moves;
    while (kob_read_step(reader, &moves)) {
        got->steps++;
        put(&got->again, 2, moves);
        read_moves(reader, got);
    }
    got->whole = kob_read_whole(reader);
}

static void read_all(const uint8_t *bytes, size_t len, struct reading *got)
{
    kob_reader reader;
    got->steps = got->moves = got->sources = 0;
    put_plan(&got->again, len == 0 ? 1 : bytes[0], 0);
    got->started = kob_read_start(&reader, bytes, len);
    read_steps(&reader, got);
    got->again.bytes[5] = (uint8_t)(got->steps >> 8);
    got->again.bytes[6] = (uint8_t)got->steps;
    finish(&got->again);
}

static const uint8_t no_steps[] = {1, 0, 0, 0, 7, 0, 0};
static const uint8_t no_steps_2[] = {2, 0, 0, 0, 7, 0, 0};

/* Of a whole record everything is read, and nothing else, sources of each move in version 2 and of none in
 * version 1; of 0 bytes what a header with 0 steps gives. */
static int read_whole(const struct reading *got, const uint8_t *bytes, size_t len)
{
    if (len == 0)
        return read_whole(got, no_steps, sizeof no_steps);
    return got->started == 1 && got->whole == 1 && got->again.len == len
           && memcmp(got->again.bytes, bytes, len) == 0 && got->sources == (bytes[0] == 2 ? got->moves : 0);
}

/* Of a damaged one nothing. */
static int read_damaged(const struct reading *got)
{
    return got->started == 0 && got->whole == 0 && got->steps == 0 && got->moves == 0;
}

/* Whether the library finds no fault of shape in these bytes as a plan. */
static int library_takes(const uint8_t *bytes, size_t len)
{
    unsigned number = kob_refusal_number(kob_check(0, cluster_a, sizeof cluster_a, bytes, len));
    return number < KOB_FAULT_PLAN_SHORT || number > KOB_FAULT_PLAN_SHAPE;
}

/* Whether the reader is right on these bytes at either side of the pages: it and the library agree on whole
 * or damaged. `whole` is set to which it is. */
static int agree(const uint8_t *bytes, size_t len, int *whole)
{
    static struct reading got;
    int right = 1;
    *whole = library_takes(bytes, len);
    for (int side = FRONT; side <= BACK; side++) {
        read_all(lend(&pages, (enum side)side, bytes, len), len, &got);
        right = right && (*whole ? read_whole(&got, bytes, len) : read_damaged(&got));
    }
    return right;
}

static int agree_whole(const uint8_t *bytes, size_t len)
{
    int whole;
    return agree(bytes, len, &whole) && whole;
}

static int agree_damaged(const uint8_t *bytes, size_t len)
{
    int whole;
    return agree(bytes, len, &whole) && !whole;
}

static int agree_either(const uint8_t *bytes, size_t len)
{
    int whole;
    return agree(bytes, len, &whole);
}

/* ---- the plan of A, by hand */

static int next_is(kob_reader *reader, unsigned vm, unsigned source, unsigned destination)
{
    unsigned moves = 99, got_vm = 99, got_source = 99, got_destination = 99;
    return kob_read_step(reader, &moves) && moves == 1
           && kob_read_move_from(reader, &got_vm, &got_source, &got_destination) && got_vm == vm
           && got_source == source && got_destination == destination
           && !kob_read_move_from(reader, &got_vm, &got_source, &got_destination);
}

/* A's plan, of either version. */
static void test_a(const uint8_t *plan, size_t len)
{
    kob_reader reader;
    unsigned moves = 99, vm = 99, source = 99, destination = 99;
    int named = plan[0] == 2;
    expect(kob_read_start(&reader, plan, len) == 1, "A: starts");
    expect(!kob_read_move(&reader, &vm, &destination), "A: no move before the first step");
    expect(!kob_read_move_from(&reader, &vm, &source, &destination), "A: and none with its source");
    expect(next_is(&reader, 0, named ? 0 : KOB_NO_SOURCE, 2), "A: step 1");
    expect(next_is(&reader, 1, named ? 1 : KOB_NO_SOURCE, 0), "A: step 2");
    expect(next_is(&reader, 0, named ? 2 : KOB_NO_SOURCE, 1), "A: step 3");
    expect(!kob_read_step(&reader, &moves) && kob_read_whole(&reader), "A: ends whole");
    expect(!kob_read_step(&reader, &moves) && kob_read_whole(&reader), "A: stays ended");
    expect(!kob_read_move_from(&reader, &vm, &source, &destination), "A: no move behind the last step");
    expect(moves == 99 && vm == 99 && source == 99 && destination == 99, "A: what is not given is not set");
    expect(agree_whole(plan, len), "A: against pages");
}

static void test_no_steps(const uint8_t *plan, size_t len)
{
    kob_reader reader;
    unsigned moves, vm, destination;
    expect(kob_read_start(&reader, plan, len) == 1, "no steps: starts");
    expect(!kob_read_step(&reader, &moves) && !kob_read_move(&reader, &vm, &destination), "no steps: none");
    expect(kob_read_whole(&reader), "no steps: whole");
    expect(agree_whole(plan, len), "no steps: against pages");
}

/* Whether a reader that has no more steps has no more moves either, however often it is asked. */
static int stays_ended(kob_reader *reader)
{
    unsigned moves, vm, destination;
    int ended = 1;
    for (int i = 0; i < 3; i++) {
        ended = ended && !kob_read_step(reader, &moves);
        ended = ended && !kob_read_move(reader, &vm, &destination);
    }
    return ended;
}

/* A whole record of no steps, and any pointer will do. */
static void test_no_bytes(void)
{
    const uint8_t *pointers[] = {NULL, (const uint8_t *)(uintptr_t)1, pages.front + pages.size};
    kob_reader reader;
    for (int i = 0; i < 3; i++) {
        static struct reading got;
        read_all(pointers[i], 0, &got);
        expect(read_whole(&got, NULL, 0) && got.steps == 0 && got.moves == 0, "0 bytes");
        kob_read_start(&reader, pointers[i], 0);
        expect(stays_ended(&reader) && kob_read_whole(&reader), "0 bytes: stays ended");
    }
    expect(agree_whole(no_steps, 0), "0 bytes: against pages");
}

/* Steps of 2, 3 and 1 moves. */
static void put_six(struct record *plan, uint32_t version)
{
    put_plan(plan, version, 3);
    for (unsigned step = 0; step < 3; step++) {
        unsigned moves = step == 0 ? 2 : step == 1 ? 3 : 1;
        put(plan, 2, moves);
        for (unsigned i = 0; i < moves; i++)
            put_move(plan, 10 * step + i, 100 + i, i);
    }
    finish(plan);
}

/* Moves that are not read are passed over. */
static void test_skipping(uint32_t version)
{
    static struct record plan;
    kob_reader reader, copy;
    unsigned moves, vm, destination;
    put_six(&plan, version);
    expect(agree_whole(plan.bytes, plan.len), "six moves");
    kob_read_start(&reader, plan.bytes, plan.len);
    expect(kob_read_step(&reader, &moves) && moves == 2, "skipping: step 1, nothing read");
    expect(kob_read_step(&reader, &moves) && moves == 3, "skipping: step 2");
    expect(kob_read_move(&reader, &vm, &destination) && vm == 10 && destination == 0, "skipping: a move");
    copy = reader;
    expect(kob_read_step(&reader, &moves) && moves == 1, "skipping: step 3");
    expect(kob_read_move(&reader, &vm, &destination) && vm == 20 && destination == 0, "skipping: its move");
    expect(!kob_read_step(&reader, &moves) && kob_read_whole(&reader), "skipping: ends whole");
    expect(kob_read_move(&copy, &vm, &destination) && vm == 11 && destination == 1, "a copy reads on");
}

/* No move is read at all; the record ends at a page. */
static void test_steps_only(uint32_t version)
{
    static struct record plan;
    kob_reader reader;
    unsigned moves, all = 0;
    put_six(&plan, version);
    kob_read_start(&reader, lend(&pages, BACK, plan.bytes, plan.len), plan.len);
    while (kob_read_step(&reader, &moves))
        all += moves;
    expect(all == 6 && kob_read_whole(&reader), "steps only: ends whole");
    expect(stays_ended(&reader) && kob_read_whole(&reader), "steps only: stays ended");
    plan.bytes[0] = 3;
    kob_read_start(&reader, lend(&pages, BACK, plan.bytes, plan.len), plan.len);
    expect(stays_ended(&reader) && !kob_read_whole(&reader), "another version: stays ended");
}

static void test_by_hand(void)
{
    test_a(plan_a, sizeof plan_a);
    test_a(plain_a, sizeof plain_a);
    test_no_steps(no_steps, sizeof no_steps);
    test_no_steps(no_steps_2, sizeof no_steps_2);
    test_no_bytes();
    for (uint32_t version = 1; version <= 2; version++) {
        test_skipping(version);
        test_steps_only(version);
    }
    group("reader by hand");
}

/* ---- limits */

/* A plan of so many steps, each of so many moves but the last. */
static void put_steps(struct record *plan, uint32_t version, unsigned steps, unsigned moves, unsigned last)
{
    put_plan(plan, version, steps);
    for (unsigned step = 1; step <= steps; step++) {
        unsigned count = step == steps ? last : moves;
        put(plan, 2, count);
        for (unsigned i = 0; i < count; i++)
            put_move(plan, i & 255, i & 63, step & 63);
    }
    finish(plan);
}

static void test_limits(uint32_t version)
{
    static struct record plan;
    const size_t longest = version == 2 ? KOB_MAX_PLAN_BYTES : 3079;
    put_steps(&plan, version, 512, 2, 2);
    expect(agree_whole(plan.bytes, plan.len), "512 steps");
    put_steps(&plan, version, 513, 1, 1);
    expect(agree_damaged(plan.bytes, plan.len), "513 steps");
    put_steps(&plan, version, 1, 0, 256);
    expect(agree_whole(plan.bytes, plan.len), "256 moves in a step");
    put_steps(&plan, version, 1, 0, 257);
    expect(agree_damaged(plan.bytes, plan.len), "257 moves in a step");
    put_steps(&plan, version, 3, 1, 0);
    expect(agree_damaged(plan.bytes, plan.len), "no moves in a step");
    put_steps(&plan, version, 4, 256, 256);
    expect(agree_whole(plan.bytes, plan.len), "1,024 moves");
    put_steps(&plan, version, 5, 256, 1);
    expect(agree_damaged(plan.bytes, plan.len), "1,025 moves");
    put_steps(&plan, version, 512, 2, 3);
    expect(agree_damaged(plan.bytes, plan.len), "1,025 moves in 512 steps");
    full_plan(&plan, version);
    expect(plan.len == longest && agree_whole(plan.bytes, plan.len), "the longest plan");
    put(&plan, 1, 0);
    finish(&plan);
    expect(agree_damaged(plan.bytes, plan.len), "a byte behind it");
    plan.len--;
    plan.bytes[0] = (uint8_t)(3 - version);
    finish(&plan);
    expect(agree_damaged(plan.bytes, plan.len), "the longest plan, read by the other version");
}

/* ---- damage */

/* Whether the front of a record is damaged, as it is and with its own length stated; 0 bytes are whole. */
static int cut_right(const uint8_t *bytes, size_t cut)
{
    static struct record front;
    if (cut == 0)
        return agree_whole(bytes, cut);
    memcpy(front.bytes, bytes, cut);
    front.len = cut;
    int right = agree_damaged(front.bytes, cut);
    if (cut >= 5)
        finish(&front);
    return right && agree_damaged(front.bytes, cut);
}

/* Whether all is right with one byte changed to each value. */
static int byte_right(const uint8_t *bytes, size_t len, size_t i)
{
    static uint8_t bad[KOB_MAX_PLAN_BYTES];
    const unsigned step = len < 100 ? 1 : 51; /* a few values suffice for a long record */
    int right = 1;
    memcpy(bad, bytes, len);
    for (unsigned value = 0; value < 256; value += value < 3 ? 1 : step) {
        bad[i] = (uint8_t)value;
        right = agree_either(bad, len) && right;
    }
    return right;
}

static void test_damaged(void)
{
    static struct record plan;
    int cuts = 1, bytes = 1;
    for (size_t i = 0; i < sizeof plan_a; i++) {
        expect(cut_right(plan_a, i), "A's plan, cut");
        expect(byte_right(plan_a, sizeof plan_a, i), "A's plan, a byte changed");
    }
    for (size_t i = 0; i < sizeof plain_a; i++) {
        expect(cut_right(plain_a, i), "A's plan in version 1, cut");
        expect(byte_right(plain_a, sizeof plain_a, i), "A's plan in version 1, a byte changed");
    }
    for (uint32_t version = 1; version <= 2; version++) {
        full_plan(&plan, version);
        for (size_t i = 0; i < plan.len; i++) {
            cuts = cut_right(plan.bytes, i) && cuts;
            bytes = byte_right(plan.bytes, plan.len, i) && bytes;
        }
    }
    expect(cuts, "the longest plan, cut");
    expect(bytes, "the longest plan, a byte changed");
    group("reader on damaged records");
}

/* ---- random bytes */

static void put_random(struct record *plan, size_t len)
{
    plan->len = 0;
    while (plan->len < len)
        put(plan, 1, draw());
}

/* Steps as they should be, mostly. */
static void put_likely(struct record *plan)
{
    unsigned steps = draw() % 6;
    put_plan(plan, 1 + draw() % 2, draw() % 8 == 0 ? steps + 1 : steps);
    for (; steps > 0; steps--) {
        unsigned moves = 1 + draw() % 4;
        put(plan, 2, draw() % 16 == 0 ? moves + draw() % 3 - 1 : moves);
        for (; moves > 0; moves--)
            put_move(plan, draw(), draw(), draw());
    }
    finish(plan);
}

/* One of three kinds: bytes, bytes behind a good version and length, steps. */
static void put_any(struct record *plan)
{
    uint32_t kind = draw() % 3;
    if (kind == 2) {
        put_likely(plan);
        return;
    }
    put_random(plan, kind == 0 ? draw() % 40 : 7 + draw() % 40);
    if (kind == 1) {
        plan->bytes[0] = (uint8_t)(1 + draw() % 2);
        plan->bytes[5] = 0;
        finish(plan);
    }
}

static void test_random(void)
{
    static struct record plan;
    int good = 1, whole, wholes = 0;
    for (int i = 0; i < 30000; i++) {
        put_any(&plan);
        good = agree(plan.bytes, plan.len, &whole) && good;
        wholes += whole;
    }
    expect(good, "30,000 random records");
    expect(wholes > 3000 && wholes < 27000, "whole and damaged ones among them");
    group("reader on random bytes");
}

/* ---- bytes that change while they are read: never outside, and it ends */

/* Reads none, one or two of three steps, has all bytes changed, and reads on. */
static void read_changed(uint8_t *bytes, const struct record *plan, const struct record *changed,
                         struct reading *got)
{
    kob_reader reader;
    unsigned moves, vm, destination;
    memcpy(bytes, plan->bytes, plan->len);
    got->steps = got->moves = got->sources = 0;
    put_plan(&got->again, plan->bytes[0], 0);
    got->started = kob_read_start(&reader, bytes, plan->len);
    for (unsigned steps = draw() % 3; steps > 0; steps--)
        kob_read_step(&reader, &moves);
    if (draw() % 2 == 0)
        kob_read_move(&reader, &vm, &destination);
    memcpy(bytes, changed->bytes, plan->len);
    read_steps(&reader, got);
}

static void test_changed(void)
{
    static struct record plan, changed;
    static struct reading got;
    int bounded = 1, damaged = 1;
    for (int i = 0; i < 20000; i++) {
        put_six(&plan, 1 + (uint32_t)i / 4 % 2);
        uint8_t *bytes = at(&pages, i % 2 == 0 ? FRONT : BACK, plan.len);
        put_random(&changed, plan.len);
        read_changed(bytes, &plan, &changed, &got);
        bounded = bounded && got.started && got.steps <= 3 && got.moves <= plan.len / 2;
        memset(changed.bytes, i % 4 < 2 ? 0 : 255, plan.len);
        read_changed(bytes, &plan, &changed, &got);
        damaged = damaged && got.started && got.steps == 0 && got.whole == 0;
    }
    expect(bounded, "40,000 records changed while they are read");
    expect(damaged, "counts of 0 or 65,535 end the reading");
    group("reader on changing bytes");
}

/* ---- where a VM is */

static int current_is(const uint8_t *cluster, size_t len, unsigned vm, unsigned wanted)
{
    unsigned node = 999;
    return kob_vm_current(cluster, len, vm, &node) == 1 && node == wanted;
}

static int current_is_none(const uint8_t *cluster, size_t len, unsigned vm)
{
    unsigned node = 999;
    return kob_vm_current(cluster, len, vm, &node) == 0 && node == 999;
}

static void test_current_a(void)
{
    uint8_t other[sizeof cluster_a];
    expect(current_is(cluster_a, sizeof cluster_a, 0, 0), "A: VM 0 is on node 0");
    expect(current_is(cluster_a, sizeof cluster_a, 1, 1), "A: VM 1 is on node 1");
    expect(current_is_none(cluster_a, sizeof cluster_a, 2), "A: there is no VM 2");
    expect(current_is_none(cluster_a, sizeof cluster_a, ~0u), "A: there is no VM of the largest number");
    expect(current_is_none(NULL, 0, 0), "0 bytes: there is no VM 0");
    memcpy(other, cluster_a, sizeof other);
    other[0] = 2;
    other[38] = KOB_NOWHERE;
    expect(current_is(other, sizeof other, 0, 0), "version 2: VM 0 is on node 0");
    expect(current_is(other, sizeof other, 1, KOB_NOWHERE), "version 2: VM 1 is on no node");
    other[0] = 3;
    expect(current_is_none(other, sizeof other, 0), "version 3: there is no VM 0");
    other[0] = 0;
    expect(current_is_none(other, sizeof other, 0), "version 0: there is no VM 0");
}

/* VM 0's current node is byte 31, VM 1's is byte 38. */
static void test_current_cut(void)
{
    for (size_t len = 0; len < sizeof cluster_a; len++) {
        int good = 1;
        for (int side = FRONT; side <= BACK; side++) {
            const uint8_t *part = lend(&pages, (enum side)side, cluster_a, len);
            good = good && (len > 31 ? current_is(part, len, 0, 0) : current_is_none(part, len, 0));
            good = good && (len > 38 ? current_is(part, len, 1, 1) : current_is_none(part, len, 1));
            good = good && current_is_none(part, len, 2);
        }
        expect(good, "A, cut: where its VMs are");
    }
}

static void test_current_full(void)
{
    static struct record room;
    int good = 1;
    full_room(&room);
    for (unsigned vm = 0; vm < KOB_MAX_VMS; vm++)
        good = good && current_is(room.bytes, room.len, vm, vm % 64);
    expect(good && current_is_none(room.bytes, room.len, 256), "the full room: where its VMs are");
}

/* Any answer will do, but it is one of the bytes. */
static void test_current_damaged(void)
{
    static const unsigned vms[] = {0, 1, 2, 255, 256, 65534, 65535, 65536, ~0u};
    int good = 1;
    for (int i = 0; i < 20000; i++) {
        uint8_t cluster[sizeof cluster_a];
        size_t len = draw() % (sizeof cluster + 1);
        memcpy(cluster, cluster_a, sizeof cluster);
        damage(cluster + 5, 6);
        const uint8_t *lent = lend(&pages, i % 2 == 0 ? FRONT : BACK, cluster, len);
        for (size_t j = 0; j < sizeof vms / sizeof vms[0]; j++) {
            unsigned node = 0;
            int given = kob_vm_current(lent, len, vms[j], &node);
            good = good && (!given || memchr(cluster, (int)node, len) != NULL);
        }
    }
    expect(good, "20,000 clusters with other counts");
}

static void test_current(void)
{
    test_current_a();
    test_current_cut();
    test_current_full();
    test_current_damaged();
    group("where a VM is");
}

int main(void)
{
    pages = fence(KOB_MAX_PLAN_BYTES + 1);
    test_by_hand();
    test_limits(1);
    test_limits(2);
    group("reader's limits");
    test_damaged();
    test_random();
    test_changed();
    test_current();
    return status();
}
