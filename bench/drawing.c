/* What the benchmark measures the card's drawing against: the same pixel rule in plain C, by spans, with a running quotient
   for each quantity and a reciprocal for the texture's sides. A pixel of back and front is a word of 32 bits, where the card has
   three bytes; a depth has 16 bits. A part is run so many times; the sum of what it leaves is printed. */
#include <stdint.h>
#include <stdio.h>
#include <stdlib.h>
#include <string.h>

#define WIDTH 640
#define HEIGHT 480
#define SIDE 64
#define WINDOW_RIGHT (16 * 280)
#define WINDOW_BOTTOM (16 * 220)
#define CELL 512
#define CELLS_ACROSS 20
#define CELLS_DOWN 15
#define TEXTURES 3
#define FRAMES 20
#define LEFT 61
#define TOP 43

enum { FLAT, SMOOTH };
enum { ALWAYS, LESS, LESS_EQUAL };
enum { OPAQUE, MIXED };
enum { PLAIN, MODULATED };

typedef struct { int x, y; int z, r, g, b, a, s, t; } vertex;
typedef struct { vertex a, b, c; } triangle;
typedef struct { int shade, depth, write, blend, mode; } rules;
typedef struct { int x1, y1, x2, y2; } rect;
typedef struct { int64_t origin, row, column, least; } edge;
typedef struct { const uint8_t *texels; uint32_t width, height; } image;

static uint32_t back[WIDTH * HEIGHT], front[WIDTH * HEIGHT];
static uint16_t depths[WIDTH * HEIGHT];
static uint8_t texels[SIDE * SIDE], bound[TEXTURES][SIDE * SIDE];
static volatile uint32_t texture_side = SIDE;
static unsigned char *bytes;

static int64_t floored(int64_t a, int64_t b) { int64_t q = a / b; return q * b > a ? q - 1 : q; }

static edge edge_between(const vertex *a, const vertex *b) {
    int64_t across = b->x - a->x, down = b->y - a->y;
    int top_left = (b->y == a->y && a->x < b->x) || b->y < a->y;
    return (edge){across * (8 - a->y) - down * (8 - a->x), 16 * across, 16 * down, top_left ? 0 : 1};
}

static int64_t distance(const edge *e, int64_t x, int64_t y) { return e->origin + e->row * y - e->column * x; }

/* The columns of a row that lie within an edge. */
static void narrow(const edge *e, int y, int *x1, int *x2) {
    int64_t slack = distance(e, 0, y) - e->least;
    if (e->column > 0) {
        int64_t end = floored(slack, e->column) + 1;
        if (end < *x2) *x2 = end < *x1 ? *x1 : (int)end;
    } else if (e->column < 0) {
        int64_t begin = -floored(slack, -e->column);
        if (begin > *x1) *x1 = begin > *x2 ? *x2 : (int)begin;
    } else if (slack < 0) {
        *x2 = *x1;
    }
}

/* A quantity that goes along a row. */
typedef struct { int64_t value, step; uint64_t rest, rest_step; } runner;

static inline int64_t weighed(const edge e[3], int a, int b, int c, int x, int y) {
    return distance(&e[1], x, y) * a + distance(&e[2], x, y) * b + distance(&e[0], x, y) * c;
}

static inline void slope(runner *r, const edge e[3], int a, int b, int c, int64_t area) {
    int64_t by = -(e[1].column * a + e[2].column * b + e[0].column * c);
    r->step = floored(by, area);
    r->rest_step = by - r->step * area;
}

static inline void stand(runner *r, const edge e[3], int a, int b, int c, int64_t area, int x, int y) {
    uint64_t sum = weighed(e, a, b, c, x, y);
    r->value = sum / area;
    r->rest = sum % area;
}

static inline void step(runner *r, uint64_t area) {
    r->value += r->step;
    r->rest += r->rest_step;
    if (r->rest >= area) { r->value++; r->rest -= area; }
}

/* What is left of a number below 4,096 by a side, by the side's reciprocal. */
static inline uint64_t reciprocal(uint32_t side) { return (0xffffffffu + (uint64_t)side) / side; }
static inline uint32_t rest(uint32_t n, uint32_t side, uint64_t by) { return n - side * (uint32_t)(n * by >> 32); }

static inline uint32_t in_255ths(uint32_t n) { return (n + 127) / 255; }
static inline uint32_t channel(uint32_t pixel, int n) { return pixel >> 8 * n & 255; }
static inline uint32_t packed(uint32_t r, uint32_t g, uint32_t b) { return r | g << 8 | b << 16; }
static inline int smallest(int a, int b, int c) { int m = a < b ? a : b; return m < c ? m : c; }
static inline int greatest(int a, int b, int c) { int m = a > b ? a : b; return m > c ? m : c; }

static inline __attribute__((always_inline)) void walk(const triangle *given, const image *texture, rect clip, int shade, int depth, int write, int blend, int mode) {
    triangle t = *given;
    int64_t area = (int64_t)(t.b.x - t.a.x) * (t.c.y - t.a.y) - (int64_t)(t.b.y - t.a.y) * (t.c.x - t.a.x);
    if (area == 0) return;
    if (area < 0) { vertex v = t.b; t.b = t.c; t.c = v; area = -area; }
    edge e[3] = {edge_between(&t.a, &t.b), edge_between(&t.b, &t.c), edge_between(&t.c, &t.a)};
    int y1 = (smallest(t.a.y, t.b.y, t.c.y) + 7) >> 4, y2 = (greatest(t.a.y, t.b.y, t.c.y) + 8) >> 4;
    if (y1 < clip.y1) y1 = clip.y1;
    if (y2 > clip.y2) y2 = clip.y2;
    const vertex *last = &given->c;
    const int with_z = depth != ALWAYS || write, with_colour = shade == SMOOTH, with_texel = mode == MODULATED;
    const uint32_t width = texture->width, height = texture->height;
    const uint64_t across = reciprocal(width), down = reciprocal(height);
    runner z, r, g, b, a, s, u;
    int begun = 0;
    for (int y = y1; y < y2; y++) {
        int x1 = clip.x1, x2 = clip.x2;
        for (int k = 0; k < 3; k++) narrow(&e[k], y, &x1, &x2);
        if (x2 <= x1) continue;
#define AT(run, field) \
    if (!begun) slope(&run, e, t.a.field, t.b.field, t.c.field, area); \
    stand(&run, e, t.a.field, t.b.field, t.c.field, area, x1, y);
        if (with_z) { AT(z, z) }
        if (with_colour) { AT(r, r) AT(g, g) AT(b, b) if (blend == MIXED) { AT(a, a) } }
        if (with_texel) { AT(s, s) AT(u, t) }
        begun = 1;
        uint32_t *pixel = back + y * WIDTH + x1;
        uint16_t *deep = depths + y * WIDTH + x1;
        for (int n = x2 - x1; n; n--, pixel++, deep++) {
            if (depth == ALWAYS || (depth == LESS ? z.value < *deep : z.value <= *deep)) {
                uint32_t cr = with_colour ? r.value : last->r, cg = with_colour ? g.value : last->g, cb = with_colour ? b.value : last->b;
                if (with_texel) {
                    uint32_t texel = texture->texels[rest((uint32_t)u.value / 16, height, down) * width + rest((uint32_t)s.value / 16, width, across)];
                    cr = in_255ths(texel * cr); cg = in_255ths(texel * cg); cb = in_255ths(texel * cb);
                }
                if (blend == MIXED) {
                    uint32_t alpha = with_colour ? a.value : last->a, under = *pixel;
                    cr = in_255ths(cr * alpha + channel(under, 0) * (255 - alpha));
                    cg = in_255ths(cg * alpha + channel(under, 1) * (255 - alpha));
                    cb = in_255ths(cb * alpha + channel(under, 2) * (255 - alpha));
                }
                *pixel = packed(cr, cg, cb);
                if (write) *deep = z.value;
            }
            if (with_z) step(&z, area);
            if (with_colour) { step(&r, area); step(&g, area); step(&b, area); if (blend == MIXED) step(&a, area); }
            if (with_texel) { step(&s, area); step(&u, area); }
        }
    }
}

static __attribute__((noinline)) void draw(const triangle *ts, int count, const image *texture, rect clip, rules by) {
    for (int k = 0; k < count; k++) {
        if (by.mode == MODULATED && by.depth == LESS) walk(&ts[k], texture, clip, FLAT, LESS, 1, OPAQUE, MODULATED);
        else if (by.mode == MODULATED) walk(&ts[k], texture, clip, FLAT, LESS_EQUAL, 1, OPAQUE, MODULATED);
        else if (by.blend == MIXED) walk(&ts[k], texture, clip, SMOOTH, ALWAYS, 0, MIXED, PLAIN);
        else if (by.shade == SMOOTH) walk(&ts[k], texture, clip, SMOOTH, ALWAYS, 0, OPAQUE, PLAIN);
        else walk(&ts[k], texture, clip, FLAT, ALWAYS, 0, OPAQUE, PLAIN);
    }
}

static void clear(rect r, uint32_t colour, uint16_t depth) {
    for (int y = r.y1; y < r.y2; y++)
        for (int x = r.x1; x < r.x2; x++) { back[y * WIDTH + x] = colour; depths[y * WIDTH + x] = depth; }
}

static void swap(rect r) {
    for (int y = r.y1; y < r.y2; y++) memcpy(front + y * WIDTH + r.x1, back + y * WIDTH + r.x1, 4 * (r.x2 - r.x1));
}

/* The bytes of a plane's pixels, and a list in which those of a rectangle wait. */
typedef struct { unsigned char *pixels, *lifted; int size; } plane;

static plane plane_of(int size) { return (plane){malloc(size * WIDTH * HEIGHT), malloc(size * WIDTH * HEIGHT), size}; }

static void lift(plane p, rect r) {
    size_t row = p.size * (r.x2 - r.x1);
    for (int y = r.y1; y < r.y2; y++) memcpy(p.lifted + row * (y - r.y1), p.pixels + p.size * (y * WIDTH + r.x1), row);
}

static void lay(plane p, rect r) {
    size_t row = p.size * (r.x2 - r.x1);
    for (int y = r.y1; y < r.y2; y++) memcpy(p.pixels + p.size * (y * WIDTH + r.x1), p.lifted + row * (y - r.y1), row);
}

static void move(const plane planes[3], rect from, rect to) {
    for (int k = 0; k < 3; k++) lift(planes[k], from);
    for (int k = 0; k < 3; k++) lay(planes[k], to);
    __asm__ volatile("" : : : "memory");
}

/* Moves a rectangle of 600 by 400 there and back so many times, in planes whose pixels have three, three and two bytes. */
static void move_often(long times) {
    const rect here = {0, 0, 600, 400}, there = {40, 80, 640, 480};
    plane planes[3] = {plane_of(3), plane_of(3), plane_of(2)};
    for (int k = 0; k < WIDTH * HEIGHT; k++) {
        memcpy(planes[0].pixels + 3 * k, front + k, 3);
        memcpy(planes[1].pixels + 3 * k, back + k, 3);
        memcpy(planes[2].pixels + 2 * k, depths + k, 2);
    }
    for (long n = 0; n < times; n++) { move(planes, here, there); move(planes, there, here); }
    for (int k = 0; k < WIDTH * HEIGHT; k++) {
        memcpy(front + k, planes[0].pixels + 3 * k, 3);
        memcpy(back + k, planes[1].pixels + 3 * k, 3);
        memcpy(depths + k, planes[2].pixels + 2 * k, 2);
    }
}

static triangle right_angle(int x, int y, int across, int down) {
    vertex a = {x, y, 1000, 255, 0, 0, 255, 0, 0};
    vertex b = {x + across, y, 2000, 0, 255, 0, 128, 1023, 0};
    vertex c = {x, y + down, 3000, 0, 0, 255, 64, 0, 1023};
    return (triangle){a, b, c};
}

static int window_halves(triangle *ts) {
    ts[0] = right_angle(0, 0, WINDOW_RIGHT, WINDOW_BOTTOM);
    ts[1] = ts[0];
    ts[1].a = ts[0].b;
    ts[1].b = (vertex){WINDOW_RIGHT, WINDOW_BOTTOM, 1000, 255, 0, 0, 255, 1023, 1023};
    return 2;
}

static int grid(triangle *ts, int across, int down) {
    int count = 0;
    for (int row = 0; row < CELLS_DOWN; row++)
        for (int column = 0; column < CELLS_ACROSS; column++) ts[count++] = right_angle(CELL * column, CELL * row, across, down);
    return count;
}

static int slivers(triangle *ts) {
    int count = 0;
    for (int column = 0; column < CELLS_ACROSS; column++) ts[count++] = right_angle(CELL * column, 0, 6, 16 * HEIGHT);
    return count;
}

/* A corner in the client's window. */
static vertex in_window(int x, int y, int z, int r, int s, int t) {
    return (vertex){16 * LEFT + x, 16 * TOP + y, z, r, 255, r, 255, s, t};
}

/* A frame of the load of one client. */
static void draw_frame(int n) {
    const rect window = {LEFT, TOP, LEFT + WINDOW_RIGHT / 16, TOP + WINDOW_BOTTOM / 16};
    const int last = 16 * SIDE - 1;
    image texture = {bound[(n - 1) % TEXTURES], texture_side, texture_side};
    triangle ts[2] = {
        {in_window(0, 0, 1000, 255, 0, 0), in_window(WINDOW_RIGHT, 0, 1000, 255, last, 0), in_window(0, WINDOW_BOTTOM, 1000, 255, 0, last)},
        {in_window(WINDOW_RIGHT, 16 * n, 500, 128, 0, 0), in_window(WINDOW_RIGHT, WINDOW_BOTTOM, 500, 128, last, 0), in_window(0, WINDOW_BOTTOM, 500, 128, 0, last)},
    };
    clear(window, packed(10 * n, 7, 0), 65535);
    draw(ts, 2, &texture, window, (rules){FLAT, LESS, 1, OPAQUE, MODULATED});
    swap(window);
}

static uint64_t sum(void) {
    uint64_t all = 0;
    for (int k = 0; k < WIDTH * HEIGHT; k++) all = all * 31 + (back[k] + 7 * (uint64_t)depths[k] + 11 * (uint64_t)front[k]);
    return all;
}

int main(int argc, char **argv) {
    if (argc != 3) return 2;
    const char *part = argv[1];
    long times = atol(argv[2]);
    static triangle ts[CELLS_ACROSS * CELLS_DOWN];
    rect whole = {0, 0, WIDTH, HEIGHT};
    image texture = {texels, texture_side, texture_side};
    rules flat = {FLAT, ALWAYS, 0, OPAQUE, PLAIN}, by = flat;
    int count = 0;
    for (int y = 0; y < SIDE; y++)
        for (int x = 0; x < SIDE; x++) {
            texels[SIDE * y + x] = x * y % 256;
            for (int k = 0; k < TEXTURES; k++) bound[k][SIDE * y + x] = (x * (k + 1) + y) % 256;
        }
    clear(whole, packed(10, 20, 30), 65535);
    int is_clear = !strcmp(part, "clear"), is_swap = !strcmp(part, "swap"), is_load = !strcmp(part, "load"), is_move = !strcmp(part, "move");
    if (!strcmp(part, "flat")) count = window_halves(ts);
    else if (!strcmp(part, "smooth")) { count = window_halves(ts); by.shade = SMOOTH; }
    else if (!strcmp(part, "blended")) { count = window_halves(ts); by.shade = SMOOTH; by.blend = MIXED; }
    else if (!strcmp(part, "textured")) { count = window_halves(ts); by = (rules){FLAT, LESS_EQUAL, 1, OPAQUE, MODULATED}; }
    else if (!strcmp(part, "cells")) { count = grid(ts, 256, 256); by = (rules){FLAT, LESS_EQUAL, 1, OPAQUE, MODULATED}; }
    else if (is_move) count = grid(ts, 256, 256);
    else if (!strcmp(part, "tiny")) count = grid(ts, 48, 48);
    else if (!strcmp(part, "row")) count = grid(ts, 256, 16);
    else if (!strcmp(part, "nothing")) count = grid(ts, 6, 6);
    else if (!strcmp(part, "sliver")) count = slivers(ts);
    else if (!is_clear && !is_swap && !is_load) return 2;
    bytes = malloc(5 * WIDTH * HEIGHT);
    if (is_move) { draw(ts, count, &texture, whole, by); swap(whole); move_often(times); times = 0; }
    for (long n = 0; n < times; n++) {
        if (is_clear) { memset(bytes, (int)n, 5 * WIDTH * HEIGHT); __asm__ volatile("" : : "r"(bytes) : "memory"); }
        else if (is_swap) { swap(whole); __asm__ volatile("" : : : "memory"); }
        else if (is_load) draw_frame(n % FRAMES + 1);
        else draw(ts, count, &texture, whole, by);
    }
    if (is_clear) clear(whole, packed(10, 20, 30), 65535);
    printf("%llu\n", (unsigned long long)sum());
    return 0;
}
