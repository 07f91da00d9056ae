/*
 * Programs to record.
 *
 *   workload known FACTS    known names, forks, threads, mappings and switches; what it did goes to the file FACTS,
 *                           a line each, for live_test.sh to compare with the report
 *   workload kiln           a kiln's heating steps every 10 ms, one of which a backup delays
 *   workload moved FACTS    a heater loses one cpu to a backup and is moved to another 40 ms later, where an innocent
 *                           program runs all the time
 *   workload periodic FACTS a heater that sleeps until its next step each time, every 20 ms; one step a backup delays
 *   workload firing FACTS   a heater with steps every 10 ms that sends SIGUSR1 to its parent, a flight recorder, when a
 *                           backup has delayed one of them, and goes on
 *   workload stalled FACTS  a backup that takes its parent's cpu for 120 ms: the parent runs on one cpu alone
 *
 * All but known and kiln end with 3 where they may not have a rank, or there is one cpu alone. What has a rank ends by
 * the clock.
 */
#define _GNU_SOURCE
#include <errno.h>
#include <fcntl.h>
#include <pthread.h>
#include <sched.h>
#include <signal.h>
#include <stdarg.h>
#include <stdbool.h>
#include <stdint.h>
#include <stdio.h>
#include <stdlib.h>
#include <string.h>
#include <sys/mman.h>
#include <sys/prctl.h>
#include <sys/resource.h>
#include <sys/stat.h>
#include <sys/syscall.h>
#include <sys/wait.h>
#include <time.h>
#include <unistd.h>

static void die(const char *what)
{
    fprintf(stderr, "workload: %s: %s\n", what, strerror(errno));
    exit(1);
}

/* A text that fits its room, or the end of the program: nothing is cut. */
static void compose(char *out, size_t room, const char *format, ...) __attribute__((format(printf, 3, 4)));

static void compose(char *out, size_t room, const char *format, ...)
{
    va_list list;
    va_start(list, format);
    int length = vsnprintf(out, room, format, list);
    va_end(list);
    if (length < 0 || (size_t)length >= room) {
        fprintf(stderr, "workload: a name is too long\n");
        exit(1);
    }
}

static void call_me(const char *name)
{
    if (prctl(PR_SET_NAME, name) != 0)
        die("prctl");
}

static uint64_t now_ns(void)
{
    struct timespec t;
    clock_gettime(CLOCK_MONOTONIC, &t);
    return (uint64_t)t.tv_sec * 1000000000u + (uint64_t)t.tv_nsec;
}

static void sleep_until(uint64_t ns)
{
    struct timespec t = { (time_t)(ns / 1000000000u), (long)(ns % 1000000000u) };
    while (clock_nanosleep(CLOCK_MONOTONIC, TIMER_ABSTIME, &t, NULL) == EINTR)
        ;
}

/* Processor time, so that a pause does not shorten the work. */
static void work(uint64_t ns)
{
    struct timespec t;
    uint64_t begin = 0, now = 0;
    do {
        clock_gettime(CLOCK_THREAD_CPUTIME_ID, &t);
        now = (uint64_t)t.tv_sec * 1000000000u + (uint64_t)t.tv_nsec;
        if (begin == 0)
            begin = now;
    } while (now - begin < ns);
}

static pid_t wait_for(pid_t pid)
{
    int status;
    if (waitpid(pid, &status, 0) != pid || !WIFEXITED(status) || WEXITSTATUS(status) != 0) {
        fprintf(stderr, "workload: a child failed\n");
        exit(1);
    }
    return pid;
}

/* ---- known ---- */

enum { CHILDREN = 3, NAPS = 40 };

static FILE *facts;

static void map_file(const char *path)
{
    int fd = open(path, O_RDONLY | O_CLOEXEC);
    if (fd < 0)
        die(path);
    void *at = mmap(NULL, 4096, PROT_READ | PROT_EXEC, MAP_PRIVATE, fd, 0);
    if (at == MAP_FAILED)
        die("mmap");
    munmap(at, 4096);
    close(fd);
}

static void copy_file(const char *from, const char *to)
{
    char buffer[65536];
    int in = open(from, O_RDONLY | O_CLOEXEC), out = open(to, O_WRONLY | O_CREAT | O_TRUNC | O_CLOEXEC, 0755);
    ssize_t count;
    if (in < 0 || out < 0)
        die(to);
    while ((count = read(in, buffer, sizeof buffer)) > 0)
        if (write(out, buffer, (size_t)count) != count)
            die(to);
    if (count < 0)
        die(from);
    close(in);
    close(out);
}

static void *thread_main(void *argument)
{
    call_me("glaze-thread");
    *(pid_t *)argument = (pid_t)syscall(SYS_gettid);
    usleep(2000);
    return NULL;
}

static void run_thread(void)
{
    pthread_t thread;
    pid_t tid = 0;
    if (pthread_create(&thread, NULL, thread_main, &tid) != 0)
        die("pthread_create");
    pthread_join(thread, NULL);
    fprintf(facts, "thread %d glaze-thread\n", tid);
}

static void run_children(void)
{
    for (int i = 0; i < CHILDREN; i++) {
        char name[16];
        compose(name, sizeof name, "kiln-child-%d", i);
        fflush(facts);
        pid_t pid = fork();
        if (pid < 0)
            die("fork");
        if (pid == 0) {
            call_me(name);
            work(1000000);
            _exit(0);
        }
        fprintf(facts, "child %d %s\n", wait_for(pid), name);
    }
}

static long switches(void)
{
    struct rusage usage;
    getrusage(RUSAGE_THREAD, &usage);
    return usage.ru_nvcsw + usage.ru_nivcsw;
}

/* Naps between two names. The kernel's own count of switches, taken within the
 * names and around them, bounds what a recording may show. */
static void run_naps(void)
{
    long before = switches();
    call_me("naps-begin");
    long first = switches();
    for (int i = 0; i < NAPS; i++)
        usleep(1000);
    long last = switches();
    call_me("naps-end");
    fprintf(facts, "naps %ld %ld\n", last - first, switches() - before);
}

/* A file in the folder whose whole name has this many bytes, mapped and removed. */
static void map_long_name(const char *own, const char *folder, const char *name, size_t bytes, char file[512])
{
    compose(file, 512, "%s/%.*s", folder, (int)(bytes - strlen(folder) - 1), name);
    copy_file(own, file);
    map_file(file);
    unlink(file);
}

/* A name of 72 bytes is the longest that the report shows; 73 are too many. */
static void run_maps(const char *own, const char *facts_path)
{
    char given[512], file[512];
    const char *slash = strrchr(facts_path, '/');
    compose(given, sizeof given, "%.*s", slash != NULL ? (int)(slash - facts_path) : 1, slash != NULL ? facts_path : ".");
    char *folder = realpath(given[0] != '\0' ? given : "/", NULL);
    if (folder == NULL)
        die(given);
    map_file(own);
    if (strlen(folder) > 60) {
        fprintf(facts, "long skipped\n");
    } else {
        map_long_name(own, folder, "cone-6-oxidation-firing-profile-of-the-big-kiln-in-the-yard-behind-the-old-school", 72, file);
        fprintf(facts, "mapped %s\n", file);
        map_long_name(own, folder, "dune-6-oxidation-firing-profile-of-the-big-kiln-in-the-yard-behind-the-old-school", 73, file);
        fprintf(facts, "long %zu\n", strlen(file));
    }
    free(folder);
}

static int known(const char *facts_path)
{
    char own[4096];
    ssize_t length = readlink("/proc/self/exe", own, sizeof own - 1);
    if (length < 0)
        die("/proc/self/exe");
    own[length] = '\0';
    facts = fopen(facts_path, "w");
    if (facts == NULL)
        die(facts_path);
    fprintf(facts, "pid %d\nprogram %s\n", getpid(), own);
    call_me("kiln-first");
    call_me("kiln-second");
    fprintf(facts, "name kiln-first\nname kiln-second\n");
    run_children();
    run_thread();
    run_naps();
    run_maps(own, facts_path);
    fprintf(facts, "end\n");
    if (fclose(facts) != 0)
        die(facts_path);
    return 0;
}

/* ---- kiln ---- */

#define MS UINT64_C(1000000)

/* On one cpu, before everybody whose rank is lower. */
static bool has_place(pid_t pid, int cpu, int rank)
{
    cpu_set_t set;
    struct sched_param param = { .sched_priority = rank };
    CPU_ZERO(&set);
    CPU_SET((size_t)cpu, &set);
    return sched_setaffinity(pid, sizeof set, &set) == 0 && (rank == 0 || sched_setscheduler(pid, SCHED_FIFO, &param) == 0);
}

/* Without the right to that it goes on as it is. */
static void take_place(int cpu, int rank)
{
    if (!has_place(0, cpu, rank))
        fprintf(stderr, "workload: not its own cpu, or no rank: %s\n", strerror(errno));
}

static pid_t helper(const char *name, int cpu, int rank, uint64_t at, uint64_t ns)
{
    pid_t pid = fork();
    if (pid < 0)
        die("fork");
    if (pid == 0) {
        call_me(name);
        take_place(cpu, rank);
        sleep_until(at);
        work(ns);
        _exit(0);
    }
    return pid;
}

static void map_profile(void)
{
    const char *path = "/tmp/kiln/cone-6.profile";
    mkdir("/tmp/kiln", 0755);
    int fd = open(path, O_RDWR | O_CREAT | O_TRUNC | O_CLOEXEC, 0644);
    if (fd < 0 || ftruncate(fd, 4096) != 0)
        die(path);
    close(fd);
    map_file(path);
    unlink(path);
    rmdir("/tmp/kiln");
}

static int kiln(void)
{
    enum { STEPS = 9 };
    long cpus = sysconf(_SC_NPROCESSORS_ONLN);
    int cpu = cpus > 1 ? 1 : 0;
    call_me("kiln");
    uint64_t start = now_ns() + 5 * MS;
    pid_t backup = helper("backup", cpu, 20, start + 31 * MS, 41 * MS);
    pid_t logger = helper("logger", 0, 10, start + 12 * MS, 6 * MS);
    take_place(cpu, 10);
    for (int step = 0; step < STEPS; step++) {
        sleep_until(start + (uint64_t)step * 10 * MS);
        work(3 * MS); /* the heating step */
        if (step == 1)
            map_profile();
    }
    wait_for(backup);
    wait_for(logger);
    return 0;
}

/* ---- moved and periodic ---- */

enum { NOT_HERE = 3 };

/* The first two cpus that we may use. */
static bool two_cpus(int cpus[2])
{
    cpu_set_t set;
    int count = 0;
    if (sched_getaffinity(0, sizeof set, &set) != 0)
        return false;
    for (int cpu = 0; cpu < CPU_SETSIZE && count < 2; cpu++)
        if (CPU_ISSET((size_t)cpu, &set))
            cpus[count++] = cpu;
    return count == 2;
}

/* A time in which it was kept from running, as it sees it by the clock. */
struct pause {
    uint64_t from, to;
};

/* Runs until then, whoever else wants to. The longest pause between two looks at the clock. */
static struct pause run_until(uint64_t ns)
{
    struct pause longest = { 0, 0 };
    uint64_t last = now_ns();
    while (last < ns) {
        uint64_t now = now_ns();
        if (now - last > longest.to - longest.from)
            longest = (struct pause){ last, now };
        last = now;
    }
    return longest;
}

/* For the facts: what another machine does to this one is seen in them. */
static void tell(const char *name, pid_t pid, uint64_t began, struct pause p)
{
    fprintf(facts, "%s %d began %llu paused %llu %llu ended %llu\n", name, pid, (unsigned long long)began, (unsigned long long)p.from,
        (unsigned long long)p.to, (unsigned long long)now_ns());
}

/* A program of that name and rank on a cpu, that runs from one time to another and tells of it. */
static pid_t runner(const char *name, int cpu, int rank, uint64_t from, uint64_t to)
{
    fflush(facts);
    pid_t pid = fork();
    if (pid < 0)
        die("fork");
    if (pid == 0) {
        call_me(name);
        if (!has_place(0, cpu, rank))
            _exit(1);
        sleep_until(from);
        uint64_t began = now_ns();
        tell(name, getpid(), began, run_until(to));
        _exit(fclose(facts) == 0 ? 0 : 1);
    }
    return pid;
}

static bool may_have_places(int cpus[2], int rank)
{
    if (two_cpus(cpus) && has_place(0, cpus[1], rank))
        return true;
    fprintf(stderr, "workload: it needs two cpus and the right to a rank\n");
    return false;
}

static int moved(void)
{
    int cpus[2];
    if (!may_have_places(cpus, 30))
        return NOT_HERE;
    fprintf(facts, "cpus %d %d\n", cpus[0], cpus[1]);
    const uint64_t start = now_ns() + 30 * MS;
    pid_t innocent = runner("innocent", cpus[1], 5, start, start + 110 * MS);
    pid_t backup = runner("backup", cpus[0], 20, start + 10 * MS, start + 90 * MS);
    pid_t heater = runner("heater", cpus[0], 10, start, start + 100 * MS);
    sleep_until(start + 50 * MS); /* 40 ms into its wait */
    fprintf(facts, "moved %llu\n", (unsigned long long)now_ns());
    if (!has_place(heater, cpus[1], 10))
        die("moving the heater");
    fflush(facts);
    wait_for(heater);
    wait_for(backup);
    wait_for(innocent);
    return 0;
}

enum { STEPS = 25, DELAYED = 12 };

/* The heater's steps, and when each of them began. */
static void heat(uint64_t start, uint64_t period)
{
    uint64_t before = 0, late = 0, jitter = 0;
    for (unsigned step = 0; step < STEPS; step++) {
        uint64_t due = start + step * period;
        sleep_until(due);
        uint64_t now = now_ns();
        if (step > 0 && now - before > period + late)
            late = now - before - period;
        if (step != DELAYED && now - due > jitter)
            jitter = now - due;
        if (step == DELAYED)
            fprintf(facts, "delayed %llu\n", (unsigned long long)now);
        before = now;
        work(MS);
    }
    fprintf(facts, "late %llu\njitter %llu\nheater %d\n", (unsigned long long)late, (unsigned long long)jitter, getpid());
    fflush(facts);
}

/* Both cpus for the heater and its backup; when its first step is due, and the one that will be delayed. */
static bool kiln_stands(int cpus[2], uint64_t period, uint64_t *start, uint64_t *due)
{
    if (!may_have_places(cpus, 50))
        return false;
    *start = now_ns() + 10 * MS;
    *due = *start + DELAYED * period;
    return true;
}

static int periodic(void)
{
    const uint64_t period = 20 * MS;
    uint64_t start, due;
    int cpus[2];
    if (!kiln_stands(cpus, period, &start, &due))
        return NOT_HERE;
    pid_t hog = runner("hog", cpus[1], 1, start, start + STEPS * period);
    pid_t backup = runner("backup", cpus[1], 60, due - 4 * MS, due + 9 * MS);
    call_me("heater");
    heat(start, period);
    wait_for(backup);
    wait_for(hog);
    return 0;
}

/* Once one of its steps comes more than 15 ms late it asks for the flight recorder's rings. */
static void fire(uint64_t start, uint64_t period)
{
    bool asked = false;
    for (unsigned step = 0; step < STEPS; step++) {
        uint64_t due = start + step * period;
        sleep_until(due);
        uint64_t now = now_ns();
        if (!asked && now - due > 15 * MS) {
            asked = true;
            if (kill(getppid(), SIGUSR1) != 0)
                die("kill");
            fprintf(facts, "asked %llu late %llu\n", (unsigned long long)now, (unsigned long long)(now - due));
        }
        work(MS);
    }
    fprintf(facts, "heater %d ended %llu\n", getpid(), (unsigned long long)now_ns());
    fflush(facts);
}

static int firing(void)
{
    const uint64_t period = 10 * MS;
    uint64_t start, due;
    int cpus[2];
    if (!kiln_stands(cpus, period, &start, &due))
        return NOT_HERE;
    pid_t backup = runner("backup", cpus[1], 60, due - 2 * MS, due + 30 * MS);
    call_me("heater");
    fire(start, period);
    wait_for(backup);
    return 0;
}

/* The backup is on the cpu that this program, and so its parent, has to itself. */
static int stalled(void)
{
    const uint64_t start = now_ns() + 200 * MS;
    int cpu = sched_getcpu();
    if (!has_place(0, cpu, 50)) {
        fprintf(stderr, "workload: it needs the right to a rank\n");
        return NOT_HERE;
    }
    pid_t backup = runner("backup", cpu, 60, start, start + 120 * MS);
    call_me("firing");
    wait_for(backup);
    sleep_until(start + 400 * MS);
    fprintf(facts, "cpu %d ended %llu\n", cpu, (unsigned long long)now_ns());
    return 0;
}

static int with_facts(const char *path, int (*act)(void))
{
    facts = fopen(path, "w");
    if (facts == NULL)
        die(path);
    int status = act();
    if (fclose(facts) != 0)
        die(path);
    return status;
}

int main(int argc, char **argv)
{
    if (argc == 3 && strcmp(argv[1], "known") == 0)
        return known(argv[2]);
    if (argc == 2 && strcmp(argv[1], "kiln") == 0)
        return kiln();
    if (argc == 3 && strcmp(argv[1], "moved") == 0)
        return with_facts(argv[2], moved);
    if (argc == 3 && strcmp(argv[1], "periodic") == 0)
        return with_facts(argv[2], periodic);
    if (argc == 3 && strcmp(argv[1], "firing") == 0)
        return with_facts(argv[2], firing);
    if (argc == 3 && strcmp(argv[1], "stalled") == 0)
        return with_facts(argv[2], stalled);
    fprintf(stderr, "usage: workload known FACTS | workload kiln | workload moved|periodic|firing|stalled FACTS\n");
    return 2;
}
