/* The sweeps in C, as a good engineer would write them for speed: what the library's speed is measured against, and a
   second opinion on its results. Each edge is computed once, sums are taken along runs, and weights are never formed.

     gcc -O3 yardstick.c -o yardstick
     yardstick SIDE VIEWS COLUMNS ROWS [heights=N] [uneven] [timed]

   The arguments, the plan and the lines that it prints are those of the program `bench`: a cube of SIDE x SIDE x SIDE voxels
   (or N heights), the views all round, each swept forward and then back; a hash of all cells and of the voxels afterwards. */
#include <stdint.h>
#include <stdio.h>
#include <stdlib.h>
#include <string.h>
#include <time.h>

typedef int64_t i64;
typedef uint64_t u64;

#define MOST_EDGES 513

static const i64 sines[17] = {0, 1606, 3196, 4756, 6270, 7723, 9102, 10394, 11585, 12665, 13623, 14449, 15137, 15679, 16069, 16305, 16384};

typedef struct {
    int nx, ny, nz, columns, rows;
    i64 D, F;
    i64 x[MOST_EDGES], z[MOST_EDGES], k[MOST_EDGES], g[MOST_EDGES]; /* y has the edges of x */
} plan;

/* The whole number nearest to n / d, halves away from zero: one step on from n / d, which drops its fraction, where twice
   what is left over is |d| or more. What is left over is less than |d|, which is at most 2^41, so twice of it fits. */
static i64 nearest(i64 n, i64 d)
{
    i64 q = n / d, r = n % d;
    return 2 * llabs(r) < llabs(d) ? q : (n < 0) == (d < 0) ? q + 1 : q - 1;
}
static i64 least(i64 a, i64 b) { return a < b ? a : b; }
static i64 most(i64 a, i64 b) { return a > b ? a : b; }
static i64 overlap(i64 a0, i64 a1, i64 b0, i64 b1) { i64 o = least(a1, b1) - most(a0, b0); return o > 0 ? o : 0; }
static double now(void) { struct timespec t; clock_gettime(CLOCK_MONOTONIC, &t); return t.tv_sec + t.tv_nsec * 1e-9; }

static void direction(int step, i64 *s, i64 *c)
{
    int h = step / 16, r = step % 16;
    switch (h) {
    case 0: *s = sines[r]; *c = sines[16 - r]; break;
    case 1: *s = sines[16 - r]; *c = -sines[r]; break;
    case 2: *s = -sines[r]; *c = -sines[16 - r]; break;
    default: *s = -sines[16 - r]; *c = sines[r];
    }
}

/* One view, forward from the voxels to the cells or back from the cells to the voxels. */
static void sweep(const plan *p, int step, u64 *voxels, u64 *cells, int forward)
{
    i64 s, c;
    direction(step, &s, &c);
    int along_y = llabs(c) >= llabs(s);
    i64 a = along_y ? c : s, b = along_y ? s : -c;
    int slabs = along_y ? p->ny : p->nx, crosses = along_y ? p->nx : p->ny;
    static i64 S[MOST_EDGES], U[MOST_EDGES], W[MOST_EDGES];
    static i64 (*T)[MOST_EDGES];
    if (!T) T = malloc(sizeof(i64) * MOST_EDGES * MOST_EDGES);
    for (int k = 0; k <= p->columns; k++) S[k] = nearest(p->D * 16384 * p->k[k], p->F * a - p->k[k] * b);
    for (int k = 0; k < p->columns; k++) {
        i64 K = p->k[k] + p->k[k + 1];
        for (int m = 0; m <= p->rows; m++) T[k][m] = nearest(2 * p->D * a * p->g[m], 2 * p->F * a - K * b);
    }
    size_t stride = along_y ? 1 : p->nx, slab_stride = along_y ? p->nx : 1, rise = (size_t)p->nx * p->ny;
    for (int j = 0; j < slabs; j++) {
        i64 Q = (along_y ? 1 : -1) * (p->x[j] + p->x[j + 1]), depth = 2 * p->D * a - 16384 * Q;
        for (int i = 0; i <= crosses; i++) U[i] = nearest(p->D * (2 * p->x[i] * a + Q * b), depth);
        for (int l = 0; l <= p->nz; l++) W[l] = nearest(2 * p->D * a * p->z[l], depth);
        int i0 = 0;
        for (int kk = 0; kk < p->columns; kk++) {
            int k = a > 0 ? kk : p->columns - 1 - kk;
            i64 low = least(S[k], S[k + 1]), high = most(S[k], S[k + 1]);
            while (i0 < crosses && U[i0 + 1] <= low) i0++;
            int i1 = i0;
            while (i1 < crosses && U[i1] < high) i1++;
            if (i0 >= i1) continue;
            int m0 = 0;
            for (int l = 0; l < p->nz; l++) {
                while (m0 < p->rows && T[k][m0 + 1] <= W[l]) m0++;
                if (m0 >= p->rows || T[k][m0] >= W[l + 1]) continue;
                u64 *line = voxels + l * rise + j * slab_stride, sum = 0;
                if (forward) {
                    for (int i = i0; i < i1; i++) sum += (u64)overlap(U[i], U[i + 1], low, high) * line[i * stride];
                    for (int m = m0; m < p->rows && T[k][m] < W[l + 1]; m++)
                        cells[(size_t)m * p->columns + k] += sum * (u64)overlap(W[l], W[l + 1], T[k][m], T[k][m + 1]);
                } else {
                    for (int m = m0; m < p->rows && T[k][m] < W[l + 1]; m++)
                        sum += cells[(size_t)m * p->columns + k] * (u64)overlap(W[l], W[l + 1], T[k][m], T[k][m + 1]);
                    for (int i = i0; i < i1; i++) line[i * stride] += (u64)overlap(U[i], U[i + 1], low, high) * sum;
                }
            }
        }
    }
}

static void even(i64 *edges, i64 half, int n)
{
    for (int i = 0; i <= n; i++) edges[i] = -half + i * (2 * half / n);
}

/* Distances from the middle that grow as squares. */
static void uneven(i64 *edges, i64 half, int n)
{
    i64 widest = (i64)(n / 2) * (n / 2), unit = widest ? half / widest : 0;
    for (int i = 0; i <= n; i++) { i64 d = i - n / 2; edges[i] = d * llabs(d) * unit; }
}

static u64 hash(u64 h, const u64 *values, size_t n)
{
    for (size_t i = 0; i < n; i++) h = h * 31 + values[i];
    return h;
}

static void tell(const char *name, double updates, double seconds)
{
    printf("%s %.6f s %.0f million voxel updates a second\n", name, seconds, updates / 1e6 / seconds);
}

int main(int argc, char **argv)
{
    if (argc < 5) { fprintf(stderr, "usage: yardstick SIDE VIEWS COLUMNS ROWS [heights=N] [uneven] [timed]\n"); return 1; }
    int side = atoi(argv[1]), views = atoi(argv[2]), heights = side, is_uneven = 0, timed = 0;
    static plan p;
    p.columns = atoi(argv[3]);
    p.rows = atoi(argv[4]);
    for (int i = 5; i < argc; i++) {
        if (!strcmp(argv[i], "uneven")) is_uneven = 1;
        else if (!strcmp(argv[i], "timed")) timed = 1;
        else if (sscanf(argv[i], "heights=%d", &heights) != 1) { fprintf(stderr, "what is %s?\n", argv[i]); return 1; }
    }
    if (side < 1 || side > 512 || heights < 1 || heights > 512 || p.columns < 1 || p.columns > 512 || p.rows < 1 || p.rows > 512) {
        fprintf(stderr, "an axis has 1 to 512 cells\n");
        return 1;
    }
    p.nx = p.ny = side;
    p.nz = heights;
    p.D = 1000000;
    p.F = 1536000;
    (is_uneven ? uneven : even)(p.x, 128000, side);
    (is_uneven ? uneven : even)(p.z, 128000, heights);
    even(p.k, 256000, p.columns);
    even(p.g, 256000, p.rows);
    size_t all = (size_t)side * side * heights, view = (size_t)p.columns * p.rows;
    u64 *voxels = malloc(8 * all), *cells = malloc(8 * view), h = 0;
    for (size_t i = 0; i < all; i++) voxels[i] = i * 2654435761u % 1000;
    double forward = 0, back = 0;
    for (int v = 0; v < views; v++) {
        memset(cells, 0, 8 * view);
        double start = now();
        sweep(&p, v * 64 / views, voxels, cells, 1);
        forward += now() - start;
        h = hash(h, cells, view);
        start = now();
        sweep(&p, v * 64 / views, voxels, cells, 0);
        back += now() - start;
    }
    h = hash(h, voxels, all);
    printf("voxels %d %d %d %s panel %d %d views %d\nhash %llu\n", side, side, heights, is_uneven ? "uneven" : "even", p.columns, p.rows, views, (unsigned long long)h);
    if (timed) {
        tell("forward", (double)all * views, forward);
        tell("back", (double)all * views, back);
    }
}
