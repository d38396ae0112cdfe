/* A matrix product: four threads take rows of the result from a counter, one at a time, until none is left.
 *
 *     tools/haft-cc examples/c/matrix.c > matrix.ll
 *     ./haft run matrix.ll examples/c/round_robin.sched
 *
 * Which thread does which row depends on the schedule, the product doesn't. It is put out row by row; then, as a check that was worked out
 * another way, whether the sums of its columns are those of the first matrix times the second one.
 */
#include "haft.h"

#include <pthread.h>
#include <stdatomic.h>
#include <stdbool.h>
#include <stddef.h>
#include <string.h>

#define N 5
#define THREADS 4

typedef int64_t matrix[N][N];

static matrix left, right, product;
static atomic_int next_row;
static atomic_int rows_done;

static void fill(void) {
    for (int i = 0; i < N; i++)
        for (int j = 0; j < N; j++) {
            left[i][j] = (i + 1) * (j + 2) % 7 - 3;
            right[i][j] = (i * 5 + j * 3) % 11 - 4;
        }
}

static void multiply_row(int i) {
    for (int j = 0; j < N; j++) {
        int64_t sum = 0;
        for (int k = 0; k < N; k++)
            sum += left[i][k] * right[k][j];
        product[i][j] = sum;
    }
}

static void *work(void *arg) {
    int *mine = arg;
    for (;;) {
        int row = atomic_fetch_add(&next_row, 1);
        if (row >= N)
            return NULL;
        multiply_row(row);
        ++*mine;
        atomic_fetch_add(&rows_done, 1);
    }
}

/* The sums of a matrix's columns. */
static void sum_columns(matrix m, int64_t sums[N]) {
    memset(sums, 0, N * sizeof *sums);
    for (int i = 0; i < N; i++)
        for (int j = 0; j < N; j++)
            sums[j] += m[i][j];
}

static bool checked(void) {
    int64_t of_left[N], of_product[N];
    sum_columns(left, of_left);
    sum_columns(product, of_product);
    for (int j = 0; j < N; j++) {
        int64_t sum = 0;
        for (int k = 0; k < N; k++)
            sum += of_left[k] * right[k][j];
        if (sum != of_product[j])
            return false;
    }
    return true;
}

int main(void) {
    pthread_t threads[THREADS];
    int rows[THREADS] = {0};
    fill();
    for (int k = 0; k < THREADS; k++)
        pthread_create(&threads[k], NULL, work, &rows[k]);
    int all = 0;
    for (int k = 0; k < THREADS; k++) {
        pthread_join(threads[k], NULL);
        all += rows[k];
    }
    for (int i = 0; i < N; i++)
        for (int j = 0; j < N; j++)
            haft_out((uint64_t)product[i][j]);
    haft_out(checked());
    return all == N && atomic_load(&rows_done) == N ? 0 : 1;
}
