/* Several bus programs on one file at once, killed at random: "one program at a time keeps its image in a file", and a stop at any
 * moment leaves nothing that blocks the next one.
 *
 *   writers PROGRAM FILE COUNT ROUNDS
 *
 * In each round so many programs are started at the same moment, and each is killed within 60 ms. Each that gets in orders and
 * withdraws. Where two are in, or an answered order is lost, a ticket is told twice. Last, one program by itself has to get in. */
#define _GNU_SOURCE
#include <signal.h>
#include <stdio.h>
#include <stdlib.h>
#include <string.h>
#include <sys/mman.h>
#include <sys/time.h>
#include <sys/wait.h>
#include <unistd.h>

#define TICKETS 65536
#define MOST 64
#define WITHIN 60000 /* microseconds */

enum outcome { GOT_IN, TURNED_AWAY, KILLED_EARLY, WRONG };

static const char *program, *kept;
static int *told; /* how often each ticket was told; all processes share it */
static volatile pid_t bus;

static void stop(const char *why) {
    fprintf(stderr, "writers: %s\n", why);
    exit(WRONG);
}

static void kill_bus(int number) {
    (void)number;
    kill(bus, SIGKILL);
}

/* Starts the program with its input, output and errors on three pipes, of which `ends` are ours. */
static void start(FILE *ends[3]) {
    int pipes[3][2], i;

    for (i = 0; i < 3; i++)
        if (pipe(pipes[i]) != 0) stop("no pipe");
    bus = fork();
    if (bus < 0) stop("no process");
    for (i = 0; i < 3; i++) {
        int theirs = i == 0 ? 0 : 1;
        if (bus == 0) dup2(pipes[i][theirs], i);
        close(pipes[i][theirs]);
        if (bus == 0)
            close(pipes[i][!theirs]);
        else
            ends[i] = fdopen(pipes[i][!theirs], i == 0 ? "w" : "r");
    }
    if (bus != 0) return;
    execl(program, program, kept, (char *)NULL);
    _exit(WRONG);
}

/* One line to the program and its answer; 0 where the program has ended. */
static int ask(FILE *ends[3], const char *line, char answer[256]) {
    fprintf(ends[0], "%s\n", line);
    fflush(ends[0]);
    return fgets(answer, 256, ends[1]) && strchr(answer, '\n');
}

/* Orders and withdraws; how many tickets were told before the program ended, at most `most`. */
static int order(FILE *ends[3], int most) {
    char line[256], answer[256];
    unsigned ticket, first;
    int orders = 0;

    while (orders < most && ask(ends, "preview 1 1 10 60 1", answer)) {
        if (sscanf(answer, "start %u", &first) != 1) stop(answer);
        snprintf(line, sizeof line, "commit 1 1 10 60 1 %u", first);
        if (!ask(ends, line, answer)) break;
        if (sscanf(answer, "ticket %u", &ticket) != 1 || ticket >= TICKETS) stop(answer);
        if (__sync_fetch_and_add(&told[ticket], 1) != 0) stop("a ticket was told twice");
        orders++;
        snprintf(line, sizeof line, "withdraw %u", ticket);
        if (!ask(ends, line, answer)) break;
    }
    return orders;
}

/* How the program ended that told so many tickets. */
static enum outcome end(FILE *ends[3], int orders) {
    char errors[256];
    int status, said;

    fclose(ends[0]);
    said = fgets(errors, sizeof errors, ends[2]) != NULL;
    if (waitpid(bus, &status, 0) != bus) stop("the program cannot be waited for");
    if (orders > 0 && !said) return GOT_IN;
    if (WIFSIGNALED(status) && WTERMSIG(status) == SIGKILL) return KILLED_EARLY;
    if (!said || !WIFEXITED(status) || WEXITSTATUS(status) != 1) stop("a program ended otherwise than it says");
    if (!strstr(errors, ": another program keeps its image there\n")) stop(errors);
    return TURNED_AWAY;
}

/* One program, in a process of its own that begins when `gate` is closed, and kills it. */
static pid_t drive(int gate[2], unsigned after) {
    struct itimerval timer = {{0, 0}, {0, 0}};
    FILE *ends[3];
    char none;
    pid_t driver = fork();

    if (driver != 0) return driver;
    signal(SIGPIPE, SIG_IGN);
    signal(SIGALRM, kill_bus);
    timer.it_value.tv_usec = (suseconds_t)after;
    close(gate[1]);
    if (read(gate[0], &none, 1) != 0) stop("no gate");
    close(gate[0]);
    start(ends);
    setitimer(ITIMER_REAL, &timer, NULL);
    exit(end(ends, order(ends, TICKETS)));
}

static void play_round(int count, int outcomes[3]) {
    int gate[2], i, status, before = outcomes[TURNED_AWAY];
    pid_t drivers[MOST];

    if (pipe(gate) != 0) stop("no pipe");
    for (i = 0; i < count; i++) drivers[i] = drive(gate, 1 + (unsigned)rand() % WITHIN);
    close(gate[0]);
    close(gate[1]);
    for (i = 0; i < count; i++) {
        waitpid(drivers[i], &status, 0);
        if (!WIFEXITED(status) || WEXITSTATUS(status) >= WRONG) stop("failed");
        outcomes[WEXITSTATUS(status)]++;
    }
    if (outcomes[TURNED_AWAY] - before == count) stop("all are turned away");
}

int main(int words, char **word) {
    int outcomes[3] = {0, 0, 0}, count, rounds;
    FILE *ends[3];
    char answer[256];

    if (words != 5) stop("PROGRAM FILE COUNT ROUNDS");
    program = word[1];
    kept = word[2];
    count = atoi(word[3]) < MOST ? atoi(word[3]) : MOST;
    told = mmap(NULL, TICKETS * sizeof *told, PROT_READ | PROT_WRITE, MAP_SHARED | MAP_ANONYMOUS, -1, 0);
    if (told == MAP_FAILED) stop("no memory");
    signal(SIGPIPE, SIG_IGN);
    start(ends);
    if (!ask(ends, "open 1 720 2 50 0", answer) || strncmp(answer, "open 0", 6) != 0) stop("no station");
    fclose(ends[0]);
    waitpid(bus, NULL, 0);
    for (rounds = atoi(word[4]); rounds > 0; rounds--) play_round(count, outcomes);
    start(ends);
    if (order(ends, 1) != 1 || end(ends, 1) != GOT_IN) stop("nobody gets in any more");
    printf("%d programs at once: %d got in, %d were turned away, %d were killed before\n", count, outcomes[GOT_IN],
           outcomes[TURNED_AWAY], outcomes[KILLED_EARLY]);
    return outcomes[GOT_IN] > 0 && (count == 1 || outcomes[TURNED_AWAY] > 0) ? 0 : 1;
}
