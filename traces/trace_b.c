// Trace B of document 01 (b.pw) as a program: three threads, an event that two of them post, and a cell that is read
// too early where the other Post comes first. To see what happens-before tools say of it:
//   gcc -g -O0 -pthread trace_b.c -o trace_b && valgrind --tool=helgrind ./trace_b 0     (also --tool=drd)
//   gcc -g -O1 -fsanitize=thread -pthread trace_b.c -o trace_b_tsan && ./trace_b_tsan 0
// Argument 0: worker 0 posts first. Argument 1: worker 1 posts first. The race on `cell` is there in both.
// Seen with valgrind 3.19.0 and gcc 12.2.0: with 0, helgrind, DRD and ThreadSanitizer report nothing; with 1, the race.
#include <pthread.h>
#include <stdlib.h>
#include <unistd.h>

static pthread_mutex_t lock = PTHREAD_MUTEX_INITIALIZER;
static pthread_cond_t changed = PTHREAD_COND_INITIALIZER;
static int event, cell, first;

static void post(void) {
    pthread_mutex_lock(&lock);
    event = 1;
    pthread_cond_broadcast(&changed);
    pthread_mutex_unlock(&lock);
}

static void await(void) {
    pthread_mutex_lock(&lock);
    while (!event) pthread_cond_wait(&changed, &lock);
    pthread_mutex_unlock(&lock);
}

static void *worker0(void *_) {
    if (first == 1) usleep(300000);
    cell = 1;
    post();
    return _;
}

static void *worker1(void *_) {
    if (first == 0) usleep(300000);
    post();
    return _;
}

static void *worker2(void *_) {
    usleep(100000);
    await();
    volatile int seen = cell;
    (void)seen;
    return _;
}

int main(int argc, char **argv) {
    first = argc > 1 ? atoi(argv[1]) : 0;
    pthread_t worker[3];
    pthread_create(&worker[0], 0, worker0, 0);
    pthread_create(&worker[1], 0, worker1, 0);
    pthread_create(&worker[2], 0, worker2, 0);
    for (int i = 0; i < 3; i++) pthread_join(worker[i], 0);
    return 0;
}
