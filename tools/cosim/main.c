/* Makes the programs, has them run by cetvm and by the processor, compares, and prints how much was compared. */
#define _DEFAULT_SOURCE
#include "cosim.h"

#include <inttypes.h>
#include <stdio.h>
#include <stdlib.h>
#include <sys/mman.h>
#include <sys/wait.h>
#include <time.h>
#include <unistd.h>

enum { MOST_WORKERS = 4, RANDOM_CASES = 150000 };

struct job {
    const char *cetvm, *folder;
    struct suite suite;
    struct shared *shared;
    size_t workers;
};

static struct suite all_programs(uint64_t seed)
{
    struct suite suite = {.random = seed};
    arithmetic_cases(&suite);
    move_cases(&suite);
    flow_cases(&suite);
    spelling_cases(&suite);
    random_cases(&suite, RANDOM_CASES);
    finish(&suite.programs[suite.count - 1]);
    return suite;
}

/* Works on each program whose number leaves the worker's as its remainder. */
static void work(const struct job *job, size_t worker)
{
    struct tally *tally = &job->shared->tallies[worker];
    for (size_t number = worker; number < job->suite.count; number += job->workers) {
        const struct program *program = &job->suite.programs[number];
        struct guest guest = guest_of(job->cetvm, job->folder, number, program);
        struct trace trace = traced(&guest, program);
        compare(&guest, program, &trace, tally, &job->shared->differences);
        drop_guest(&guest);
        free(trace.steps);
    }
    tally->done = true;
}

static void start_workers(const struct job *job)
{
    fflush(stdout);
    for (size_t worker = 0; worker < job->workers; worker++) {
        pid_t child = fork();
        if (child < 0)
            fail("no process for a worker");
        if (child == 0) {
            work(job, worker);
            fflush(stdout);
            _exit(0);
        }
    }
}

/* The sum of what the workers compared. It is done where all of them came to their end. */
static struct tally wait_for_workers(const struct job *job)
{
    struct tally sum = {.done = true};
    for (size_t worker = 0; worker < job->workers; worker++)
        wait(NULL);
    for (size_t worker = 0; worker < job->workers; worker++) {
        const struct tally *tally = &job->shared->tallies[worker];
        sum.done = sum.done && tally->done;
        sum.images += tally->images;
        sum.steps += tally->steps;
        for (int group = 0; group < GROUPS; group++)
            sum.cases[group] += tally->cases[group];
        for (int condition = 0; condition < CONDITIONS; condition++)
            sum.settings[condition] |= tally->settings[condition];
    }
    return sum;
}

/* Prints the counts, and answers whether something of each kind was compared. */
static bool print_counts(const struct tally *sum)
{
    uint64_t cases = 0;
    bool complete = true;
    for (int group = SETUP + 1; group < GROUPS; group++) {
        printf("cosim: %8" PRIu64 " of %s\n", sum->cases[group], group_name(group));
        complete = complete && sum->cases[group];
        cases += sum->cases[group];
    }
    for (int condition = 0; condition < CONDITIONS; condition++)
        complete = complete && __builtin_popcount(sum->settings[condition]) >= SETTINGS;
    printf("cosim: %8" PRIu64 " cases, in %" PRIu64 " instructions of %" PRIu64 " images\n", cases, sum->steps,
           sum->images);
    return complete;
}

static int verdict(const struct job *job)
{
    struct tally sum = wait_for_workers(job);
    bool complete = print_counts(&sum);
    unsigned differences = atomic_load(&job->shared->differences);
    if (differences)
        printf("cosim: %u differences\n", differences);
    else if (!sum.done || !complete)
        printf("cosim: the comparison isn't complete\n");
    else
        printf("cosim: no difference\n");
    return differences || !sum.done || !complete;
}

int main(int count, char **words)
{
    if (count != 3 && count != 4)
        fail("the words are the program, a folder and perhaps a seed");
    uint64_t seed = count == 4 ? strtoull(words[3], NULL, 0) : (uint64_t)time(NULL);
    printf("cosim: seed %" PRIu64 "\n", seed);
    struct job job = {.cetvm = words[1], .folder = words[2], .suite = all_programs(seed)};
    long processors = sysconf(_SC_NPROCESSORS_ONLN);
    job.workers = processors < 1 ? 1 : processors > MOST_WORKERS ? MOST_WORKERS : (size_t)processors;
    size_t size = sizeof *job.shared + job.workers * sizeof *job.shared->tallies;
    job.shared = mmap(NULL, size, PROT_READ | PROT_WRITE, MAP_SHARED | MAP_ANONYMOUS, -1, 0);
    if (job.shared == MAP_FAILED)
        fail("out of memory");
    start_workers(&job);
    return verdict(&job);
}
