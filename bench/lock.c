/* What the benchmark measures the lock against: the light lock and unlock of the DRM, written anew, and a mutex of POSIX
   threads. One part is run so many times; the sum that its holds have left is printed. */
#include <pthread.h>
#include <stdint.h>
#include <stdio.h>
#include <stdlib.h>
#include <string.h>

#define HELD 0x80000000u
#define CONTENDED 0x40000000u
#define WORK_STEPS 250
#define THREADS 4

/* One exchange: the word becomes NEW where it is OLD. FAILED is 0 where it was. */
#define DRM_CAS(word, old, new, failed) \
    do { \
        uint32_t expected = (old); \
        (failed) = !__atomic_compare_exchange_n((word), &expected, (new), 0, __ATOMIC_SEQ_CST, __ATOMIC_SEQ_CST); \
    } while (0)

/* The light pair; where an exchange fails the kernel is asked, which here would be an error. */
#define DRM_LOCK(word, context) \
    do { \
        int failed; \
        DRM_CAS(word, context, HELD | (context), failed); \
        if (failed) ask_kernel(); \
    } while (0)

#define DRM_UNLOCK(word, context) \
    do { \
        int failed; \
        DRM_CAS(word, HELD | (context), context, failed); \
        if (failed) ask_kernel(); \
    } while (0)

static uint32_t lock_word;
static uint64_t sum = 1;
static uint32_t times;
static pthread_mutex_t mutex = PTHREAD_MUTEX_INITIALIZER;

static void ask_kernel(void)
{
    fputs("an exchange failed\n", stderr);
    exit(1);
}

/* The work of one hold, some half a microsecond. */
static void work(void)
{
    uint64_t next = sum;
    for (int i = 0; i < WORK_STEPS; i++) {
        next ^= next << 13;
        next ^= next >> 7;
        next ^= next << 17;
    }
    sum = next;
}

static void pairs(void)
{
    lock_word = 2;
    for (uint32_t i = 0; i < times; i++) {
        DRM_LOCK(&lock_word, 2);
        DRM_UNLOCK(&lock_word, 2);
    }
}

static void *holds(void *unused)
{
    for (uint32_t i = 0; i < times; i++) {
        pthread_mutex_lock(&mutex);
        work();
        pthread_mutex_unlock(&mutex);
    }
    return unused;
}

static void contend(void)
{
    pthread_t threads[THREADS];
    for (int i = 0; i < THREADS; i++)
        if (pthread_create(&threads[i], NULL, holds, NULL))
            exit(1);
    for (int i = 0; i < THREADS; i++)
        pthread_join(threads[i], NULL);
}

int main(int argc, char **argv)
{
    if (argc != 3)
        return 2;
    times = strtoul(argv[2], NULL, 10);
    if (!strcmp(argv[1], "pairs"))
        pairs();
    else if (!strcmp(argv[1], "contend"))
        contend();
    else
        return 2;
    printf("%llu\n", (unsigned long long)sum);
    return 0;
}
