/* What the benchmark measures regions and the board against: pixman, which has the X server's region code. One part is done
   so many times; a sum over its results is printed. The parts and their figures are those of crates/dri_bench. */
#include <pixman.h>
#include <stdint.h>
#include <stdio.h>
#include <stdlib.h>
#include <string.h>

#define PITCH 8
#define SIDE 4
#define SHIFT 2
#define SCREEN_WIDTH 640
#define SCREEN_HEIGHT 480
#define MOST_WINDOWS 64

typedef pixman_region32_t Region;
typedef pixman_box32_t Box;
typedef pixman_bool_t Operation(Region *, Region *, Region *);

static void check(int done)
{
    if (!done)
        exit(7);
}

static Operation *operation_of(const char *word)
{
    if (!strcmp(word, "unite"))
        return (Operation *)pixman_region32_union;
    if (!strcmp(word, "subtract"))
        return (Operation *)pixman_region32_subtract;
    if (!strcmp(word, "intersect"))
        return (Operation *)pixman_region32_intersect;
    return NULL;
}

/* The rows and columns of a grid of so many rectangles. */
static void grid_sides(int count, int *rows, int *columns)
{
    *rows = count == 1000 ? 25 : count == 100 ? 10 : count == 10 ? 2 : 1;
    *columns = count / *rows;
}

static Region grid(int count, int shift)
{
    Region all;
    int rows, columns;
    grid_sides(count, &rows, &columns);
    pixman_region32_init(&all);
    for (int row = 0; row < rows; row++)
        for (int column = 0; column < columns; column++)
            check(pixman_region32_union_rect(&all, &all, column * PITCH + shift, row * PITCH + shift, SIDE, SIDE));
    return all;
}

/* The rectangle in the middle of a grid. */
static Region middle(int count)
{
    Region one;
    int rows, columns;
    grid_sides(count, &rows, &columns);
    pixman_region32_init_rect(&one, columns * 2, rows * 2, columns * 4, rows * 4);
    return one;
}

/* An operation on a grid and a shifted one, or a rectangle. */
static uint64_t combine(Operation *operation, int first_count, int second_count, uint32_t times)
{
    uint64_t sum = 0;
    Region first = grid(first_count, 0);
    Region second = second_count < first_count ? middle(first_count) : grid(second_count, SHIFT);
    for (uint32_t i = 0; i < times; i++) {
        Region result;
        pixman_region32_init(&result);
        check(operation(&result, &first, &second));
        sum += pixman_region32_n_rects(&result);
        pixman_region32_fini(&result);
    }
    pixman_region32_fini(&first);
    pixman_region32_fini(&second);
    return sum;
}

/* Windows by number from 1, their stack from top to bottom, what shows of each, and of the root as number 0. */
static int count;
static Box boxes[MOST_WINDOWS + 1];
static int stack[MOST_WINDOWS];
static Region clips[MOST_WINDOWS + 1];

static Region region_of(Box box)
{
    Region region;
    pixman_region32_init_rect(&region, box.x1, box.y1, box.x2 - box.x1, box.y2 - box.y1);
    return region;
}

static Box box_at(int x, int y, int width, int height)
{
    Box box = {x, y, x + width, y + height};
    return box;
}

static const Box screen = {0, 0, SCREEN_WIDTH, SCREEN_HEIGHT};

/* What shows of a stack in an area of the screen, handed out from the top. */
static void show(Region *area, Region *parts)
{
    Region left;
    pixman_region32_init(&left);
    check(pixman_region32_copy(&left, area));
    for (int at = 0; at < count; at++) {
        int number = stack[at];
        Region own = region_of(boxes[number]);
        pixman_region32_init(&parts[number]);
        check(pixman_region32_intersect(&parts[number], &left, &own));
        check(pixman_region32_subtract(&left, &left, &own));
        pixman_region32_fini(&own);
    }
    parts[0] = left;
}

/* Puts a window's new region in place. Gives the rectangles that it gained, which are painted, and one if it is touched. */
static uint64_t replace(int number, Region *next)
{
    uint64_t sum = 0;
    if (!pixman_region32_equal(next, &clips[number])) {
        Region gained;
        pixman_region32_init(&gained);
        check(pixman_region32_subtract(&gained, next, &clips[number]));
        sum = pixman_region32_n_rects(&gained) + (number > 0);
        pixman_region32_fini(&gained);
    }
    pixman_region32_fini(&clips[number]);
    clips[number] = *next;
    return sum;
}

static void raise_window(int number)
{
    int at = 0;
    while (stack[at] != number)
        at++;
    memmove(stack + 1, stack, at * sizeof *stack);
    stack[0] = number;
}

/* All lists anew. */
static uint64_t show_anew(int number)
{
    uint64_t sum = 0;
    Region area = region_of(screen), parts[MOST_WINDOWS + 1];
    (void)number;
    show(&area, parts);
    for (int n = 0; n <= count; n++)
        sum += replace(n, &parts[n]);
    pixman_region32_fini(&area);
    return sum;
}

static int meets(const Box *a, const Box *b)
{
    return a->x1 < b->x2 && b->x1 < a->x2 && a->y1 < b->y2 && b->y1 < a->y2;
}

/* A list with a part put in place of what it has in an area. */
static uint64_t mend_one(int number, Region *area, Region *part)
{
    Region next;
    pixman_region32_init(&next);
    check(pixman_region32_subtract(&next, &clips[number], area));
    check(pixman_region32_union(&next, &next, part));
    return replace(number, &next);
}

/* The lists mended in the area of one window. */
static uint64_t mend(int number)
{
    uint64_t sum = 0;
    Region all = region_of(screen), area = region_of(boxes[number]), left, part;
    check(pixman_region32_intersect(&area, &area, &all));
    pixman_region32_init(&left);
    check(pixman_region32_copy(&left, &area));
    for (int at = 0; at < count; at++) {
        int other = stack[at];
        if (!meets(&boxes[other], pixman_region32_extents(&area)))
            continue;
        Region own = region_of(boxes[other]);
        pixman_region32_init(&part);
        check(pixman_region32_intersect(&part, &left, &own));
        check(pixman_region32_subtract(&left, &left, &own));
        sum += mend_one(other, &area, &part);
        pixman_region32_fini(&part);
        pixman_region32_fini(&own);
    }
    sum += mend_one(0, &area, &left);
    pixman_region32_fini(&left);
    pixman_region32_fini(&area);
    pixman_region32_fini(&all);
    return sum;
}

/* Windows that all overlap, or two that do and others that stand apart. */
static Box place_of(int number, int overlap)
{
    if (overlap)
        return box_at(61 * number % 320, 43 * number % 200, 280, 220);
    if (number <= 2)
        return box_at(30 * (number - 1), 30 * (number - 1), 60, 60);
    return box_at(100 + number % 8 * 48, number / 8 * 48, 40, 40);
}

/* Raises of the first windows in turn. */
static uint64_t raises(int windows, int overlap, int raised, uint64_t made(int), uint32_t times)
{
    uint64_t sum = 0;
    Region area = region_of(screen);
    count = windows;
    for (int number = 1; number <= windows; number++) {
        boxes[number] = place_of(number, overlap);
        stack[number - 1] = number;
    }
    show(&area, clips);
    pixman_region32_fini(&area);
    for (uint32_t i = 0; i < times; i++) {
        int number = i % raised + 1;
        raise_window(number);
        sum += made(number);
    }
    return sum;
}

static int usage(void)
{
    fputs("usage: regions unite|subtract|intersect:COUNT:COUNT TIMES, or overlap|anew|apart:WINDOWS TIMES\n", stderr);
    return 2;
}

int main(int argc, char **argv)
{
    char word[16];
    int first, second = 0;
    uint32_t times;
    uint64_t sum;
    if (argc != 3 || sscanf(argv[1], "%15[a-z]:%d:%d", word, &first, &second) < 2)
        return usage();
    times = strtoul(argv[2], NULL, 10);
    if (operation_of(word))
        sum = combine(operation_of(word), first, second, times);
    else if (first < 2 || first > MOST_WINDOWS)
        return usage();
    else if (!strcmp(word, "overlap"))
        sum = raises(first, 1, first, mend, times);
    else if (!strcmp(word, "anew"))
        sum = raises(first, 1, first, show_anew, times);
    else if (!strcmp(word, "apart"))
        sum = raises(first, 0, 2, mend, times);
    else
        return usage();
    printf("%llu\n", (unsigned long long)sum);
    return 0;
}
