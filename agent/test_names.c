/* A program with functions of its own called `check`, `build`, `stop` and `split`: they and the library's keep
 * apart. */
#include "test.h"

int check(int number);
int build(int number);
int stop(int number);
int split(int number);

int check(int number)
{
    return number + 41;
}

int build(int number)
{
    return number + 42;
}

int stop(int number)
{
    return number + 43;
}

int split(int number)
{
    return number + 44;
}

int main(void)
{
    static const uint8_t junk[40] = {7}, ended[] = {KOB_MARK_ENDED};
    uint8_t out[KOB_SPLIT_BUFFER], left[sizeof cluster_a];
    unsigned node = 0;
    uint64_t made = kob_build(0, cluster_a, sizeof cluster_a, out, sizeof out);
    expect(check(1) == 42, "the program's own check");
    expect(build(1) == 43, "the program's own build");
    expect(stop(1) == 44, "the program's own stop");
    expect(split(1) == 45, "the program's own split");
    expect(kob_steps(made) == 3 && kob_cost(made) == 16, "the library plans A");
    expect(kob_check(0, cluster_a, sizeof cluster_a, plan_a, sizeof plan_a) == 16, "the library checks A");
    uint64_t verdict = kob_check(0, junk, sizeof junk, plan_a, sizeof plan_a);
    expect(kob_refusal_number(verdict) == KOB_FAULT_CLUSTER_VERSION, "the library checks junk");
    made = kob_build(0, junk, sizeof junk, out, sizeof out);
    expect(kob_refusal_number(made) == KOB_FAULT_CLUSTER_VERSION, "the library plans for junk");
    uint64_t stopped = kob_stop(0, cluster_a, sizeof cluster_a, plan_a, sizeof plan_a, 1, ended, 1, left, sizeof left);
    expect(kob_length(stopped) == sizeof left && kob_vm_current(left, sizeof left, 0, &node) && node == 2,
           "the library stops A");
    stopped = kob_stop(0, junk, sizeof junk, plan_a, sizeof plan_a, 1, ended, 1, left, sizeof left);
    expect(kob_refusal_number(stopped) == KOB_FAULT_CLUSTER_VERSION, "the library stops junk");
    uint64_t single = kob_split(0, cluster_a, sizeof cluster_a, plan_a, sizeof plan_a, out, sizeof out);
    expect(kob_split_steps(single) == 3 && kob_cost(single) == 16, "the library divides A's plan");
    single = kob_split(0, junk, sizeof junk, plan_a, sizeof plan_a, out, sizeof out);
    expect(kob_refusal_number(single) == KOB_FAULT_CLUSTER_VERSION, "the library divides for junk");
    group("own names");
    return status();
}
