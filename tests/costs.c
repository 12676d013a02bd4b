/*
 * What a call of the linked library costs: the stack it takes, and the time of
 * the slowest call that was found. Reads move lines on standard input, of
 * which those with twice 16 corners are timed; tests/costs builds and runs it.
 *
 * Stack: each function is called on a stack of its own that was painted
 * beforehand; what is no longer painted afterwards was used, arguments and
 * return address included. What a stack uses without a call is taken off.
 *
 * Time: a move counts with the fastest of its calls, since the slower ones
 * were interrupted; the slowest move is printed.
 *
 * With a number of corners and a number of times, it reads nothing and only
 * makes so many calls of the outline test: for what counts instructions.
 */
#include <stdio.h>
#include <stdlib.h>
#include <string.h>
#include <time.h>
#include <ucontext.h>
#include <stonefruitle.h>

/* MOST_STACK is what include/stonefruitle.h says that a call takes at most. */
enum { MOST_STACK = 6144, STACK = 1 << 18, PAINT = 0xa5, CORNERS = 16, CALLS = 20 };

static uint8_t stack[STACK];
static const char head[] = "030001"; /* what makes a line of a log of it */
static uint8_t line[STONEFRUITLE_MOVE_ROOM], log_line[STONEFRUITLE_MOVE_ROOM + sizeof head], out[STONEFRUITLE_MOVE_ROOM];
static size_t line_length, written;
static uint8_t edge, kind;
static int64_t a[2 * CORNERS], b[2 * CORNERS], numbers[STONEFRUITLE_NUMBERS];
static uint8_t rectangle_line[STONEFRUITLE_RECTANGLES_ROOM];
static int64_t low_high_a[4], low_high_b[4], rectangle_numbers[STONEFRUITLE_RECTANGLES_NUMBERS];
static uint64_t answer_numbers[STONEFRUITLE_ANSWER_NUMBERS];
static const size_t rectangle_length = STONEFRUITLE_RECTANGLES_ROOM - 1;
static const size_t count = 2 * CORNERS;
static int64_t vax, vay, vbx, vby, limit;

/* ---- the calls */

static void call_nothing(void) {}

static void call_answer_line(void) { stonefruitle_answer_line(line, line_length, out, sizeof out, &written, &edge); }

static void call_answer_lists(void)
{
    stonefruitle_answer_lists(a, count, b, count, vax, vay, vbx, vby, limit, out, sizeof out, &written, &edge);
}

static void call_answer_edition_1(void)
{
    stonefruitle_answer_edition(1, a, count, b, count, vax, vay, vbx, vby, limit, answer_numbers, &edge);
}

static void call_answer_edition_2(void)
{
    stonefruitle_answer_edition(2, a, count, b, count, vax, vay, vbx, vby, limit, answer_numbers, &edge);
}

static void call_write_move(void)
{
    stonefruitle_write_move(a, count, b, count, vax, vay, vbx, vby, limit, out, sizeof out, &written, &edge);
}

static void call_read_line(void) { stonefruitle_read_line(line, line_length, &kind, &edge); }

static void call_read_move(void) { stonefruitle_read_move(line, line_length, numbers, &edge); }

static void call_log_step(void)
{
    bool some;
    uint16_t number, lost;
    stonefruitle_log_step(true, 0, log_line, line_length + strlen(head), out, sizeof out, &some, &number, &lost, &written,
                          &edge);
}

static void call_read_log(void)
{
    uint16_t number;
    stonefruitle_read_log(log_line, line_length + strlen(head), &number, numbers, &edge);
}

static void call_answer_rectangle_line(void)
{
    stonefruitle_answer_line(rectangle_line, rectangle_length, out, sizeof out, &written, &edge);
}

static void call_answer_rectangles(void)
{
    stonefruitle_answer_rectangles(low_high_a, 4, low_high_b, 4, vax, vay, vbx, vby, limit, out, sizeof out, &written, &edge);
}

static void call_write_rectangles(void)
{
    stonefruitle_write_rectangles(low_high_a, 4, low_high_b, 4, vax, vay, vbx, vby, limit, out, sizeof out, &written, &edge);
}

static void call_read_rectangles(void)
{
    stonefruitle_read_rectangles(rectangle_line, rectangle_length, rectangle_numbers, &edge);
}

static void call_test_outline(void) { stonefruitle_test_outline(a, count, &edge); }

static const struct {
    const char *name;
    void (*call)(void);
} functions[] = {
    {"answer_line", call_answer_line}, {"answer_lists", call_answer_lists}, {"write_move", call_write_move},
    {"read_line", call_read_line},     {"read_move", call_read_move},       {"test_outline", call_test_outline},
    {"log_step", call_log_step},       {"read_log", call_read_log},
    {"answer_line of rectangles", call_answer_rectangle_line},
    {"answer_rectangles", call_answer_rectangles},
    {"write_rectangles", call_write_rectangles},
    {"read_rectangles", call_read_rectangles},
    {"answer_edition in edition 1", call_answer_edition_1},
    {"answer_edition in edition 2", call_answer_edition_2},
};
enum { FUNCTIONS = sizeof functions / sizeof functions[0] };

/* ---- stack */

/* How many bytes of a painted stack a call uses. */
static size_t used(void (*call)(void))
{
    ucontext_t here, there;
    size_t at = 0;
    memset(stack, PAINT, STACK);
    getcontext(&there);
    there.uc_stack.ss_sp = stack;
    there.uc_stack.ss_size = STACK;
    there.uc_link = &here;
    makecontext(&there, call, 0);
    swapcontext(&here, &there);
    while (at < STACK && stack[at] == PAINT)
        at++;
    return STACK - at;
}

static size_t deepest[FUNCTIONS];

/* Low x, low y, high x, high y of what an outline takes up. */
static void around(const int64_t *outline, int64_t *low_high)
{
    for (int axis = 0; axis < 2; axis++) {
        int64_t low = outline[axis], high = outline[axis];
        for (int k = 1; k < CORNERS; k++) {
            int64_t n = outline[2 * k + axis];
            low = n < low ? n : low;
            high = n > high ? n : high;
        }
        low_high[axis] = low;
        low_high[axis + 2] = high;
    }
}

/* Measures the stack of each function on the move that stands in the variables, or on the rectangles around its outlines. */
static void measure_stack(void)
{
    size_t nothing = used(call_nothing);
    around(a, low_high_a);
    around(b, low_high_b);
    if (stonefruitle_write_rectangles(low_high_a, 4, low_high_b, 4, vax, vay, vbx, vby, limit, rectangle_line,
                                      sizeof rectangle_line, &written, &edge) != 0) {
        fprintf(stderr, "costs: a rectangle is refused\n");
        exit(1);
    }
    memcpy(log_line, head, strlen(head));
    memcpy(log_line + strlen(head), line, line_length);
    for (int i = 0; i < FUNCTIONS; i++) {
        size_t more = used(functions[i].call) - nothing;
        if (more > deepest[i])
            deepest[i] = more;
    }
}

/* ---- time */

static double slowest;
static char slowest_line[STONEFRUITLE_MOVE_ROOM], slowest_answer[STONEFRUITLE_ANSWER_ROOM];

static double now(void)
{
    struct timespec t;
    clock_gettime(CLOCK_MONOTONIC, &t);
    return 1e6 * t.tv_sec + 1e-3 * t.tv_nsec;
}

/* Times the move that stands in the variables. */
static void measure_time(void)
{
    double fastest = 1e9;
    for (int i = 0; i < CALLS; i++) {
        double start = now();
        stonefruitle_answer_line(line, line_length, out, sizeof out, &written, &edge);
        double took = now() - start;
        if (took < fastest)
            fastest = took;
    }
    if (fastest > slowest) {
        slowest = fastest;
        snprintf(slowest_line, sizeof slowest_line, "%.*s", (int)line_length, (const char *)line);
        snprintf(slowest_answer, sizeof slowest_answer, "%.*s", (int)written - 1, (const char *)out);
    }
}

/* ---- the moves */

static unsigned long measured, contacts;

/* Measures the move that stands in the variables line and line_length, if it is one with twice 16 corners. */
static void measure(void)
{
    if (stonefruitle_read_move(line, line_length, numbers, &edge) != 0)
        return;
    if (numbers[STONEFRUITLE_AT_COUNT_A] != CORNERS || numbers[STONEFRUITLE_AT_COUNT_B] != CORNERS)
        return;
    memcpy(a, numbers + STONEFRUITLE_AT_A, sizeof a);
    memcpy(b, numbers + STONEFRUITLE_AT_B, sizeof b);
    limit = numbers[STONEFRUITLE_AT_LIMIT];
    vax = numbers[STONEFRUITLE_AT_VELOCITY_A], vay = numbers[STONEFRUITLE_AT_VELOCITY_A + 1];
    vbx = numbers[STONEFRUITLE_AT_VELOCITY_B], vby = numbers[STONEFRUITLE_AT_VELOCITY_B + 1];
    measure_time();
    measured++;
    contacts += out[3] == '2';
    if (measured % 16 == 1)
        measure_stack();
}

/*
 * Two slivers that lie across each other, so that no corner is inside and the
 * pair of edges that meets comes late: fifteen corners at one end and one at
 * the other, numbered from each of them. Upright, and turned by an eighth.
 */
static void measure_slivers(int turned)
{
    int64_t sliver[CORNERS][2];
    for (int k = 0; k < CORNERS; k++) {
        int64_t x = k < CORNERS - 1 ? -5000 + (k - 7) * (k - 7) : 5000, y = k < CORNERS - 1 ? 70 - 10 * k : 0;
        sliver[k][0] = turned ? x - y : x;
        sliver[k][1] = turned ? x + y : y;
    }
    for (int i = 0; i < CORNERS * CORNERS; i++) {
        for (int k = 0; k < CORNERS; k++) {
            const int64_t *p = sliver[(k + i / CORNERS) % CORNERS], *q = sliver[(k + i % CORNERS) % CORNERS];
            a[2 * k] = p[0], a[2 * k + 1] = p[1];
            b[2 * k] = -q[1], b[2 * k + 1] = q[0];
        }
        if (stonefruitle_write_move(a, count, b, count, 3, 7, -8, 5, 9973, line, sizeof line, &written, &edge) != 0) {
            fprintf(stderr, "costs: a sliver is refused\n");
            exit(1);
        }
        line_length = written - 1;
        measure();
    }
}

/* The outline test of so many of sixteen corners on a circle, so many times over. */
static int repeat_outline_test(size_t corners, long times)
{
    static const int64_t circle[16][2] = {
        {10000, 0},  {9239, 3827},   {7071, 7071},   {3827, 9239},   {0, 10000},  {-3827, 9239},  {-7071, 7071},  {-9239, 3827},
        {-10000, 0}, {-9239, -3827}, {-7071, -7071}, {-3827, -9239}, {0, -10000}, {3827, -9239}, {7071, -7071}, {9239, -3827},
    };
    int64_t coordinates[32];
    if (corners < 3 || corners > 16)
        return 2;
    for (size_t i = 0; i < corners; i++)
        memcpy(&coordinates[2 * i], circle[i * 16 / corners], sizeof circle[0]);
    for (long i = 0; i < times; i++)
        if (stonefruitle_test_outline(coordinates, 2 * corners, &edge) != 0)
            return 1;
    return 0;
}

int main(int given, char **words)
{
    char text[1 << 12];
    size_t most = 0;
    if (given > 1)
        return given == 3 ? repeat_outline_test(strtoul(words[1], NULL, 10), strtol(words[2], NULL, 10)) : 2;
    while (fgets(text, sizeof text, stdin)) {
        line_length = strcspn(text, "\n");
        if (line_length >= sizeof line)
            continue;
        memcpy(line, text, line_length);
        measure();
    }
    measure_slivers(0);
    measure_slivers(1);
    printf("%lu moves of twice 16 corners, %lu in contact\n", measured, contacts);
    printf("stack in bytes:");
    for (int i = 0; i < FUNCTIONS; i++) {
        printf(" %s %zu", functions[i].name, deepest[i]);
        if (deepest[i] > most)
            most = deepest[i];
    }
    printf("; the most %zu\n", most);
    printf("slowest move: %.1f us, answered %s\n  %s\n", slowest, slowest_answer, slowest_line);
    if (measured == 0 || contacts == 0 || most > MOST_STACK) {
        fprintf(stderr, "costs: %s\n", most > MOST_STACK ? "a call takes more stack than the header says" : "nothing was measured");
        return 1;
    }
    return 0;
}
