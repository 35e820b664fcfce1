/* Times igraph, on one thread, over the graphs of bench_algorithms/src/graphs.rt.txt, which says what they are.

   igraph_algorithms GRAPH, with GRAPH demo, path, star or random, calls each algorithm three times and writes lines of the same form
   as bench_algorithms: GRAPH ALGORITHM WORKERS WALL BUSY SUM, in nanoseconds, with the same sum over the answer. */
#include <igraph.h>
#include <math.h>
#include <stdint.h>
#include <stdio.h>
#include <stdlib.h>
#include <string.h>
#include <time.h>

enum { TIMES = 3 };

typedef struct {
    igraph_t graph;
    igraph_vector_t weights;
    igraph_matrix_t rows;
    igraph_vector_int_t numbers;
} bench_t;

static int64_t nanos(clockid_t clock) {
    struct timespec now;
    clock_gettime(clock, &now);
    return (int64_t)now.tv_sec * 1000000000 + now.tv_nsec;
}

static uint64_t share(uint64_t place, uint64_t answer) {
    return (place + 1) * (answer + 1);
}

static uint64_t sum_of_row(const bench_t *b) {
    uint64_t sum = 0;
    for (igraph_integer_t v = 0; v < igraph_matrix_ncol(&b->rows); v++) {
        double answer = MATRIX(b->rows, 0, v);
        if (isfinite(answer)) {
            sum += share(v, (uint64_t)answer);
        }
    }
    return sum;
}

static uint64_t sum_of_numbers(const bench_t *b) {
    uint64_t sum = 0;
    for (igraph_integer_t v = 0; v < igraph_vector_int_size(&b->numbers); v++) {
        sum += share(v, VECTOR(b->numbers)[v]);
    }
    return sum;
}

/* The sum where each vertex has the least index in its component in the place of the component's number. */
static uint64_t sum_of_labels(const bench_t *b) {
    igraph_integer_t n = igraph_vector_int_size(&b->numbers);
    igraph_integer_t *least = malloc(n * sizeof *least);
    uint64_t sum = 0;
    for (igraph_integer_t v = n - 1; v >= 0; v--) {
        least[VECTOR(b->numbers)[v]] = v;
    }
    for (igraph_integer_t v = 0; v < n; v++) {
        sum += share(v, least[VECTOR(b->numbers)[v]]);
    }
    free(least);
    return sum;
}

static void hops(bench_t *b) {
    igraph_distances(&b->graph, &b->rows, igraph_vss_1(0), igraph_vss_all(), IGRAPH_OUT);
}

static void components(bench_t *b) {
    igraph_integer_t count;
    igraph_connected_components(&b->graph, &b->numbers, NULL, &count, IGRAPH_WEAK);
}

static void cores(bench_t *b) {
    igraph_coreness(&b->graph, &b->numbers, IGRAPH_ALL);
}

static void weights(bench_t *b) {
    igraph_distances_dijkstra(&b->graph, &b->rows, igraph_vss_1(0), igraph_vss_all(), &b->weights, IGRAPH_OUT);
}

static void time_call(bench_t *b, const char *shape, const char *name, void call(bench_t *), uint64_t sum_of(const bench_t *)) {
    for (int i = 0; i < TIMES; i++) {
        igraph_matrix_init(&b->rows, 0, 0);
        igraph_vector_int_init(&b->numbers, 0);
        int64_t busy = nanos(CLOCK_PROCESS_CPUTIME_ID);
        int64_t wall = nanos(CLOCK_MONOTONIC);
        call(b);
        wall = nanos(CLOCK_MONOTONIC) - wall;
        busy = nanos(CLOCK_PROCESS_CPUTIME_ID) - busy;
        printf("%s %s 1 %lld %lld %llu\n", shape, name, (long long)wall, (long long)busy, (unsigned long long)sum_of(b));
        fflush(stdout);
        igraph_vector_int_destroy(&b->numbers);
        igraph_matrix_destroy(&b->rows);
    }
}

/* 32 bits that look like chance. */
static uint64_t mixed(uint64_t x) {
    uint64_t y = x * 0x9E3779B97F4A7C15;
    uint64_t z = (y ^ (y >> 29)) * 0xBF58476D1CE4E5B9;
    return z >> 32;
}

static int64_t source_of(const char *shape, int64_t vertices, int64_t i) {
    switch (shape[0]) {
        case 'd': return 7919 * i % vertices;
        case 'p': return i - 1;
        case 's': return 0;
        default: return mixed(2 * i) % vertices;
    }
}

static int64_t target_of(const char *shape, int64_t vertices, int64_t i) {
    switch (shape[0]) {
        case 'd': return (104729 * i + 12345) % vertices;
        case 'r': return mixed(2 * i + 1) % vertices;
        default: return i;
    }
}

static void build(bench_t *b, const char *shape) {
    int64_t vertices = shape[0] == 'd' ? 100000 : shape[0] == 'r' ? 500000 : 1000000;
    int64_t edges = shape[0] == 'd' ? 200000 : shape[0] == 'r' ? 4000000 : 999999;
    igraph_vector_int_t ends;
    igraph_vector_int_init(&ends, 2 * edges);
    igraph_vector_init(&b->weights, edges);
    for (int64_t i = 1; i <= edges; i++) {
        VECTOR(ends)[2 * i - 2] = source_of(shape, vertices, i);
        VECTOR(ends)[2 * i - 1] = target_of(shape, vertices, i);
        VECTOR(b->weights)[i - 1] = 1 + 7919 * i % 1000;
    }
    igraph_create(&b->graph, &ends, vertices, IGRAPH_DIRECTED);
    igraph_vector_int_destroy(&ends);
}

int main(int argc, char **argv) {
    const char *shape = argc == 2 ? argv[1] : "";
    if (strcmp(shape, "demo") && strcmp(shape, "path") && strcmp(shape, "star") && strcmp(shape, "random")) {
        fprintf(stderr, "usage: igraph_algorithms demo|path|star|random\n");
        return 2;
    }
    bench_t bench;
    build(&bench, shape);
    time_call(&bench, shape, "hops", hops, sum_of_row);
    time_call(&bench, shape, "components", components, sum_of_labels);
    time_call(&bench, shape, "cores", cores, sum_of_numbers);
    time_call(&bench, shape, "weights", weights, sum_of_row);
    igraph_vector_destroy(&bench.weights);
    igraph_destroy(&bench.graph);
    return 0;
}
