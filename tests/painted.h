/* How much of the stack a piece of work uses: a thread does it, on a stack that is painted before and
 * looked at after. Behind the stack lies a page that cannot be touched, so that work that needs more
 * ends the program. For the tests of the calls and of their cost.
 */
#include <pthread.h>
#include <stdint.h>
#include <stdio.h>
#include <stdlib.h>
#include <string.h>
#include <sys/mman.h>

enum { PAINT = 0xa5, UNTOUCHABLE = 65536 };

/* The bytes of a stack of this size that a thread has used, those that any thread uses among them. */
static size_t painted_over(void *(*work)(void *), size_t size) {
    uint8_t *memory =
        mmap(NULL, size + UNTOUCHABLE, PROT_READ | PROT_WRITE, MAP_PRIVATE | MAP_ANONYMOUS, -1, 0);
    uint8_t *stack = memory + UNTOUCHABLE;
    pthread_attr_t attributes;
    pthread_t thread;
    size_t untouched = 0;
    if (memory == MAP_FAILED || mprotect(memory, UNTOUCHABLE, PROT_NONE) != 0) {
        fprintf(stderr, "painted: no memory\n");
        exit(1);
    }
    memset(stack, PAINT, size);
    if (pthread_attr_init(&attributes) != 0 ||
        pthread_attr_setstack(&attributes, stack, size) != 0 ||
        pthread_create(&thread, &attributes, work, NULL) != 0 || pthread_join(thread, NULL) != 0) {
        fprintf(stderr, "painted: no thread\n");
        exit(1);
    }
    while (untouched < size && stack[untouched] == PAINT)
        untouched++;
    pthread_attr_destroy(&attributes);
    munmap(memory, size + UNTOUCHABLE);
    return size - untouched;
}

static void *no_work(void *unused) { return unused; }

/* The bytes that the work itself has used. */
static size_t stack_used(void *(*work)(void *), size_t size) {
    return painted_over(work, size) - painted_over(no_work, size);
}
