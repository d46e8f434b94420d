/* A small agent: plans for a cluster, has the plan checked, and writes it; writes the cluster anew when a plan was
 * stopped; and divides a plan into single moves.
 *
 *     agent [--keep-blocked] [--reserve PERCENT] CLUSTER PLAN-OUT
 *     agent --stop STEP MARKS [--reserve PERCENT] CLUSTER PLAN CLUSTER-OUT
 *     agent --split [--reserve PERCENT] CLUSTER PLAN PLAN-OUT
 *
 * CLUSTER is a file with a cluster record. PLAN-OUT gets the plan record, if there is a plan; with
 * --keep-blocked also the steps made before the planner was blocked. PERCENT, decimal digits, is kept free on
 * each node; 0 without the option. What was built goes through the checker, at the same reserve, before it is
 * written. A file that could not be written whole is refused by the checker; only where the plan has no steps
 * does a file of 0 bytes stand for the same.
 *
 * A line says what came of it. Behind it stands a line for each move made: step, VM, source, destination. 255
 * is no node: the source of a launch, the destination of a shutdown.
 *
 * With --stop: PLAN is a file with the plan record that was under way, and STEP, decimal digits, the step that it
 * was stopped in, from 1. MARKS is a word with a digit for each move of that step, in the plan's order: 1 if the
 * move ended, 0 if it had not begun or was called back. CLUSTER-OUT gets the cluster record with each VM where it
 * then is. PERCENT is the reserve that the plan was made at, and the planner must take that record at it before it
 * is written; plan anew from CLUSTER-OUT. A line says what came of it.
 *
 * With --split: PLAN is a file with a plan record, and PLAN-OUT gets the same plan with one move to a step. PERCENT
 * is the reserve that the plan was made at, and the checker must accept the divided plan at it before it is written.
 * A line says what came of it.
 *
 * Exit status:
 *   0  a plan was made and written; the cluster record, or the divided plan, was written
 *   1  blocked: the planner found no next step (this does not say that no plan exists)
 *   2  refused: the reserve is too high, the cluster record is damaged, or its target cannot be; of a stop also
 *      for what is wrong with the plan, the step or the marks; of a split for what is wrong with the plan, or if it
 *      has too many moves
 *   3  wrong use, or a file that cannot be read or written
 *   5  the library's calls disagree: a fault of the library; nothing is written
 */
#include <errno.h>
#include <inttypes.h>
#include <stdio.h>
#include <string.h>

#include <kobdrieft.h>

enum status { PLANNED = 0, STOPPED = 0, DIVIDED = 0, BLOCKED = 1, REFUSED = 2, USE_OR_FILE = 3, DISAGREE = 5 };

/* One more than a record's bytes and a step's moves may be, so that what is longer gets the library's number. */
#define LENT_MOST (KOB_MAX_CLUSTER_BYTES + 1)
#define MARKS_MOST (KOB_MAX_STEP_MOVES + 1)

struct options {
    const char *files[3]; /* CLUSTER and PLAN-OUT, or CLUSTER, PLAN and CLUSTER-OUT or PLAN-OUT */
    uint64_t reserve;
    int keep_blocked;
    int split;
    int stop;
    uint64_t step;
    uint8_t marks[MARKS_MOST];
    size_t marks_len;
};

struct record {
    uint8_t bytes[LENT_MOST];
    size_t len;
};

/* What kob_build gave: its result, and its record at the front of a buffer. */
struct built {
    uint64_t result;
    uint8_t bytes[KOB_BUILD_BUFFER];
    size_t len;
};

static int usage(void)
{
    fprintf(stderr, "usage: agent [--keep-blocked] [--reserve PERCENT] CLUSTER PLAN-OUT\n"
                    "       agent --stop STEP MARKS [--reserve PERCENT] CLUSTER PLAN CLUSTER-OUT\n"
                    "       agent --split [--reserve PERCENT] CLUSTER PLAN PLAN-OUT\n");
    return USE_OR_FILE;
}

/* Whether a text is decimal digits and nothing else. */
static int digits(const char *text)
{
    return *text != '\0' && text[strspn(text, "0123456789")] == '\0';
}

/* The number in decimal digits. One that 64 bits do not hold becomes the largest that they do, which is no reserve
 * and no step either. */
static uint64_t number_in(const char *text)
{
    uint64_t number = 0;
    for (; *text != '\0'; text++) {
        uint64_t digit = (uint64_t)(*text - '0');
        number = number <= (UINT64_MAX - digit) / 10 ? number * 10 + digit : UINT64_MAX;
    }
    return number;
}

/* Sets the marks: the digits of a word. */
static void set_marks(struct options *options, const char *word)
{
    for (; *word != '\0' && options->marks_len < MARKS_MOST; word++)
        options->marks[options->marks_len++] = (uint8_t)(*word - '0');
}

/* Whether the words behind --stop are right; then step and marks are set. */
static int parse_stop(struct options *options, const char *step, const char *marks)
{
    if (options->stop || !digits(step) || !digits(marks))
        return 0;
    options->stop = 1;
    options->step = number_in(step);
    set_marks(options, marks);
    return 1;
}

/* Whether the arguments are right; then the options are set. */
static int parse(int argc, char **argv, struct options *options)
{
    const char *percent = NULL;
    int count = 0;
    memset(options, 0, sizeof *options);
    for (int i = 1; i < argc; i++) {
        if (strcmp(argv[i], "--keep-blocked") == 0)
            options->keep_blocked = 1;
        else if (strcmp(argv[i], "--split") == 0)
            options->split = 1;
        else if (strcmp(argv[i], "--reserve") == 0 && percent == NULL && i + 1 < argc)
            percent = argv[++i];
        else if (strcmp(argv[i], "--stop") == 0 && i + 2 < argc && parse_stop(options, argv[i + 1], argv[i + 2]))
            i += 2;
        else if (strncmp(argv[i], "--", 2) == 0 || count == 3)
            return 0;
        else
            options->files[count++] = argv[i];
    }
    if (percent == NULL)
        percent = "0";
    if (!digits(percent) || count != (options->stop || options->split ? 3 : 2)
        || options->keep_blocked + options->stop + options->split > 1)
        return 0;
    options->reserve = number_in(percent);
    return 1;
}

static int file_fault(const char *verb, const char *path, int error)
{
    fprintf(stderr, "agent: cannot %s %s: %s\n", verb, path, strerror(error));
    return 0;
}

/* Reads a file to its end, or to one byte past the longest record. */
static int read_record(const char *path, struct record *record)
{
    FILE *file = fopen(path, "rb");
    if (file == NULL)
        return file_fault("read", path, errno);
    errno = 0;
    record->len = fread(record->bytes, 1, sizeof record->bytes, file);
    int whole = !ferror(file);
    int error = errno;
    fclose(file);
    return whole ? 1 : file_fault("read", path, error);
}

static int write_record(const char *path, const uint8_t *bytes, size_t len)
{
    FILE *file = fopen(path, "wb");
    if (file == NULL)
        return file_fault("write", path, errno);
    errno = 0;
    int whole = fwrite(bytes, 1, len, file) == len;
    int error = errno;
    if (fclose(file) != 0 && whole) {
        whole = 0;
        error = errno;
    }
    return whole ? 1 : file_fault("write", path, error);
}

/* ---- planning */

/* Plans. A refusal leaves no record, so its length is 0. */
static void plan_for(uint64_t reserve, const struct record *cluster, struct built *built)
{
    built->result = kob_build(reserve, cluster->bytes, cluster->len, built->bytes, sizeof built->bytes);
    built->len = kob_outcome_of(built->result) == KOB_REFUSED ? 0 : kob_plan_length(built->bytes);
}

/* Whether what was built can be read: a whole record that names its sources, or none if refused. */
static int readable(const struct built *built)
{
    kob_reader reader;
    if (kob_outcome_of(built->result) == KOB_REFUSED)
        return 1;
    return built->len > 0 && built->len <= sizeof built->bytes && built->bytes[0] == KOB_BUILD_VERSION
           && kob_read_start(&reader, built->bytes, built->len);
}

/* Whether the checker says of what was built what it must. */
static int agrees(uint64_t reserve, const struct record *cluster, const struct built *built)
{
    if (!readable(built))
        return 0;
    uint64_t verdict = kob_check(reserve, cluster->bytes, cluster->len, built->bytes, built->len);
    unsigned number = kob_refusal_number(verdict);
    switch (kob_outcome_of(built->result)) {
    case KOB_PLAN:
        return kob_outcome_of(verdict) == KOB_ACCEPTED && kob_cost(verdict) == kob_cost(built->result);
    case KOB_BLOCKED:
        return number == KOB_FAULT_OFF_TARGET && kob_refusal_step(verdict) == 0;
    case KOB_REFUSED: /* faults of the reserve, 23, and of the cluster, 1 to 9, are found by both */
        return verdict == built->result && (number == KOB_FAULT_RESERVE || number <= KOB_FAULT_TARGET_BROKEN);
    default:
        return 0;
    }
}

static void print_made(uint64_t result)
{
    printf("steps %u, moves %u, cost %" PRIu64, kob_steps(result), kob_moves(result), kob_cost(result));
}

/* The sources are those that the record names; the checker has held them against the cluster. */
static void print_moves(const struct built *built)
{
    unsigned moves, vm, source, destination;
    kob_reader reader;
    kob_read_start(&reader, built->bytes, built->len);
    for (unsigned step = 1; kob_read_step(&reader, &moves); step++)
        while (kob_read_move_from(&reader, &vm, &source, &destination))
            printf("%u %u %u %u\n", step, vm, source, destination);
}

static int end_planned(const struct options *options, const struct built *built)
{
    const char *path = options->files[1];
    if (!write_record(path, built->bytes, built->len))
        return USE_OR_FILE;
    printf("agent: plan: ");
    print_made(built->result);
    printf("; written to %s\n", path);
    print_moves(built);
    return PLANNED;
}

static int end_blocked(const struct options *options, const struct built *built)
{
    const char *path = options->files[1];
    if (options->keep_blocked && !write_record(path, built->bytes, built->len))
        return USE_OR_FILE;
    printf("agent: blocked: ");
    print_made(built->result);
    if (options->keep_blocked)
        printf("; these steps written to %s\n", path);
    else
        printf("; nothing written\n");
    print_moves(built);
    return BLOCKED;
}

/* The step is told if there is one. */
static int end_refused(uint64_t result)
{
    unsigned number = kob_refusal_number(result), step = kob_refusal_step(result);
    printf("agent: refused, number %u", number);
    if (step != 0)
        printf(", step %u", step);
    printf("; nothing written. %s\n", kob_fault_text(number));
    return REFUSED;
}

static int end_disagree(const char *who, uint64_t result)
{
    fprintf(stderr, "agent: %s disagree (result %016" PRIx64 "); nothing written\n", who, result);
    return DISAGREE;
}

/* Writes and says what was built. */
static int end(const struct options *options, const struct record *cluster, const struct built *built)
{
    if (!agrees(options->reserve, cluster, built))
        return end_disagree("planner and checker", built->result);
    switch (kob_outcome_of(built->result)) {
    case KOB_PLAN:
        return end_planned(options, built);
    case KOB_BLOCKED:
        return end_blocked(options, built);
    default:
        return end_refused(built->result);
    }
}

static int make_plan(const struct options *options, const struct record *cluster)
{
    static struct built built;
    plan_for(options->reserve, cluster, &built);
    return end(options, cluster, &built);
}

/* ---- stopping */

/* Whether the planner takes a cluster record. */
static int planned_for(uint64_t reserve, const struct record *cluster)
{
    static struct built built;
    plan_for(reserve, cluster, &built);
    return kob_outcome_of(built.result) != KOB_REFUSED;
}

/* Whether checker and planner say what they must of a stop: the one of the plan, the other of the record written. */
static int stop_agrees(uint64_t reserve, const struct record *cluster, const struct record *plan, uint64_t result,
                       const struct record *left)
{
    uint64_t verdict = kob_check(reserve, cluster->bytes, cluster->len, plan->bytes, plan->len);
    int accepted = kob_outcome_of(verdict) == KOB_ACCEPTED;
    switch (kob_refusal_number(result)) {
    case 0:
        return accepted && result == cluster->len && planned_for(reserve, left);
    case KOB_FAULT_NO_STEP:
    case KOB_FAULT_MARK:
        return accepted;
    case KOB_FAULT_BUFFER_SHORT:
    case KOB_FAULT_STOP_BUFFER: /* it is not */
        return 0;
    default: /* what is wrong with reserve, cluster and plan is found by both */
        return verdict == result;
    }
}

static unsigned ended(const struct options *options)
{
    unsigned count = 0;
    for (size_t i = 0; i < options->marks_len; i++)
        count += options->marks[i] == KOB_MARK_ENDED;
    return count;
}

static int end_stopped(const struct options *options, const struct record *left)
{
    const char *path = options->files[2];
    if (!write_record(path, left->bytes, left->len))
        return USE_OR_FILE;
    printf("agent: stopped: step %" PRIu64 ", %u of %zu moves ended; written to %s\n", options->step, ended(options),
           options->marks_len, path);
    return STOPPED;
}

/* Writes and says what a stop left. */
static int make_stop(const struct options *options, const struct record *cluster, const struct record *plan)
{
    static struct record left;
    uint64_t result = kob_stop(options->reserve, cluster->bytes, cluster->len, plan->bytes, plan->len, options->step,
                               options->marks, options->marks_len, left.bytes, sizeof left.bytes);
    left.len = kob_length(result) <= sizeof left.bytes ? kob_length(result) : 0;
    if (!stop_agrees(options->reserve, cluster, plan, result, &left))
        return end_disagree("stop, checker and planner", result);
    return kob_outcome_of(result) == KOB_REFUSED ? end_refused(result) : end_stopped(options, &left);
}

/* ---- splitting */

/* The moves of all steps of a plan. */
static unsigned moves_in(const struct record *plan)
{
    kob_reader reader;
    unsigned moves, all = 0;
    kob_read_start(&reader, plan->bytes, plan->len);
    while (kob_read_step(&reader, &moves))
        all += moves;
    return all;
}

/* Whether this move stands next, in a step of its own. */
static int next_is(kob_reader *reader, unsigned vm, unsigned source, unsigned destination)
{
    unsigned moves, its_vm, its_source, its_destination;
    return kob_read_step(reader, &moves) && moves == 1
           && kob_read_move_from(reader, &its_vm, &its_source, &its_destination) && its_vm == vm
           && its_source == source && its_destination == destination;
}

/* Whether a record has the moves of a plan, one after the other, and no more. */
static int divides(const struct record *plan, const struct record *divided)
{
    kob_reader reader, after;
    unsigned moves, vm, source, destination;
    kob_read_start(&reader, plan->bytes, plan->len);
    if (divided->len == 0 || !kob_read_start(&after, divided->bytes, divided->len))
        return 0;
    while (kob_read_step(&reader, &moves))
        while (kob_read_move_from(&reader, &vm, &source, &destination))
            if (!next_is(&after, vm, source, destination))
                return 0;
    return !kob_read_step(&after, &moves);
}

/* Whether the checker says what it must of a split: of the plan, and of what it was divided into. */
static int split_agrees(uint64_t reserve, const struct record *cluster, const struct record *plan, uint64_t result,
                        const struct record *divided)
{
    uint64_t verdict = kob_check(reserve, cluster->bytes, cluster->len, plan->bytes, plan->len);
    int accepted = kob_outcome_of(verdict) == KOB_ACCEPTED;
    switch (kob_refusal_number(result)) {
    case 0:
        return accepted && result == ((uint64_t)moves_in(plan) << 44 | kob_cost(result)) && divides(plan, divided)
               && kob_cost(verdict) <= kob_cost(result)
               && kob_check(reserve, cluster->bytes, cluster->len, divided->bytes, divided->len) == kob_cost(result);
    case KOB_FAULT_BUFFER_SHORT: /* it is not */
    case KOB_FAULT_NO_STEP: /* this and the next two are for a stop */
    case KOB_FAULT_MARK:
    case KOB_FAULT_STOP_BUFFER:
        return 0;
    case KOB_FAULT_PLAN_SHAPE: /* that of the divided plan, or found by both */
        return accepted ? moves_in(plan) > KOB_MAX_STEPS : verdict == result;
    default: /* what is wrong with reserve, cluster and plan is found by both */
        return verdict == result;
    }
}

static int end_divided(const struct options *options, uint64_t result, const struct record *divided)
{
    const char *path = options->files[2];
    if (!write_record(path, divided->bytes, divided->len))
        return USE_OR_FILE;
    printf("agent: divided: steps %u, cost %" PRIu64 "; written to %s\n", kob_split_steps(result), kob_cost(result),
           path);
    return DIVIDED;
}

/* Writes and says what a plan was divided into. */
static int make_split(const struct options *options, const struct record *cluster, const struct record *plan)
{
    static struct record divided;
    uint64_t result = kob_split(options->reserve, cluster->bytes, cluster->len, plan->bytes, plan->len, divided.bytes,
                                KOB_SPLIT_BUFFER);
    divided.len = kob_plan_length(divided.bytes) <= KOB_SPLIT_BUFFER ? kob_plan_length(divided.bytes) : 0;
    if (!split_agrees(options->reserve, cluster, plan, result, &divided))
        return end_disagree("split and checker", result);
    return kob_outcome_of(result) == KOB_REFUSED ? end_refused(result) : end_divided(options, result, &divided);
}

/* ---- */

/* The status, unless what was printed got lost. */
static int printed(int status)
{
    errno = 0;
    if (fflush(stdout) == 0 && !ferror(stdout))
        return status;
    file_fault("write", "standard output", errno);
    return USE_OR_FILE;
}

int main(int argc, char **argv)
{
    static struct record cluster, plan;
    static struct options options;
    if (!parse(argc, argv, &options))
        return usage();
    if (!read_record(options.files[0], &cluster))
        return USE_OR_FILE;
    if (!options.stop && !options.split)
        return printed(make_plan(&options, &cluster));
    if (!read_record(options.files[1], &plan))
        return USE_OR_FILE;
    return printed(options.stop ? make_stop(&options, &cluster, &plan) : make_split(&options, &cluster, &plan));
}
