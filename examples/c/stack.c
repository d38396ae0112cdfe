/* A counter and a stack without locks: four threads take nodes from one stack and push them onto another.
 *
 *     tools/haft-cc examples/c/stack.c > stack.ll
 *     ./haft run stack.ll examples/c/round_robin.sched
 *
 * The top of a stack is one word of 64 bits: the number of the node, and a count that rises with each change. Without that count a thread
 * could be late, find the same node on top again, though others had taken and pushed it, and link a wrong one. The order on the second stack
 * depends on the schedule. What is put out doesn't: how many nodes it holds, the sum and the exclusive or of their values, and the counter.
 */
#include "haft.h"

#include <pthread.h>
#include <stdatomic.h>
#include <stdbool.h>
#include <stddef.h>

#define NODES 24
#define THREADS 4
#define NONE 0xffffffffu

struct node {
    _Atomic uint32_t next;
    uint32_t value;
};

struct stack {
    _Atomic uint64_t top;
};

static struct node nodes[NODES];
static struct stack full = {NONE}, done = {NONE};
static atomic_uint moved;

static uint32_t node_of(uint64_t top) {
    return (uint32_t)top;
}

/* The word for another top: the change after this one. */
static uint64_t changed(uint64_t top, uint32_t node) {
    return (((top >> 32) + 1) << 32) | node;
}

static void push(struct stack *s, uint32_t node) {
    uint64_t top = atomic_load(&s->top);
    do
        atomic_store(&nodes[node].next, node_of(top));
    while (!atomic_compare_exchange_weak(&s->top, &top, changed(top, node)));
}

static bool pop(struct stack *s, uint32_t *node) {
    uint64_t top = atomic_load(&s->top);
    do {
        *node = node_of(top);
        if (*node == NONE)
            return false;
    } while (!atomic_compare_exchange_weak(&s->top, &top, changed(top, atomic_load(&nodes[*node].next))));
    return true;
}

static void *work(void *arg) {
    uint32_t mark = (uint32_t)(uintptr_t)arg, node;
    while (pop(&full, &node)) {
        nodes[node].value = nodes[node].value * 3 + 1;
        push(&done, node);
        atomic_fetch_add_explicit(&moved, 1, memory_order_relaxed);
        if (node % THREADS == mark && pop(&done, &node)) /* now and then one goes back and forth */
            push(&done, node);
    }
    return NULL;
}

int main(void) {
    pthread_t threads[THREADS];
    for (uint32_t k = 0; k < NODES; k++) {
        nodes[k].value = k * k;
        push(&full, k);
    }
    for (uintptr_t k = 0; k < THREADS; k++)
        pthread_create(&threads[k], NULL, work, (void *)k);
    for (int k = 0; k < THREADS; k++)
        pthread_join(threads[k], NULL);

    uint32_t node, count = 0, sum = 0, mixed = 0;
    while (pop(&done, &node)) {
        count++;
        sum += nodes[node].value;
        mixed ^= nodes[node].value;
    }
    haft_out(count);
    haft_out(sum);
    haft_out(mixed);
    haft_out(atomic_load(&moved));
    return count == NODES ? 0 : 1;
}
