/*
 * Rectangles through the linked functions, asked from C: answers, the kind that
 * is named, the numbers that are read, the bytes that are written and those that
 * stay. tests/linked builds and runs it.
 */
#include <stdio.h>
#include <string.h>
#include <stonefruitle.h>

enum { PAINT = 0xa5, MORE = 20, LENGTH = STONEFRUITLE_RECTANGLES_ROOM - 1 };

/* Limit, velocities, A and B; the line of kind 02; the refusal, and the answer line without its 0a. */
static const struct {
    int64_t numbers[STONEFRUITLE_RECTANGLES_NUMBERS];
    const char *line;
    uint8_t refusal;
    const char *answer;
} moves[] = {
    /* P1, P3, P6, P11 and P11 with names exchanged */
    {{10, 0, 0, -1, 0, 0, 0, 2, 2, 5, 0, 7, 2}, "02000a00000000ffff000000000000000200020005000000070002", 0,
     "81020000000300000001000000070000000101000100"},
    {{2, 0, 0, -1, 0, 0, 0, 2, 2, 5, 0, 7, 2}, "02000200000000ffff000000000000000200020005000000070002", 0, "810001"},
    {{10, 0, 0, -1, -3, 0, 0, 2, 2, 5, 4, 7, 6}, "02000a00000000fffffffd00000000000200020005000400070006", 0, "81010100"},
    {{0, 0, 0, 0, 0, -5, -1, 5, 1, -1, -5, 1, 5}, "0200000000000000000000fffbffff00050001fffffffb00010005", 0,
     "810200000000000000010000000000000001ff020001"},
    {{0, 0, 0, 0, 0, -1, -5, 1, 5, -5, -1, 5, 1}, "0200000000000000000000fffffffb00010005fffbffff00050001", 0,
     "810200000000000000010000000000000001ff020100"},
    /* T, a speed, a coordinate out of range, though A's low is its high, too */
    {{10001, 0, 0, -1, 0, 2, 0, 2, 2, 5, 0, 7, 2}, "02271100000000ffff000000020000000200020005000000070002", 5, "81ff05"},
    {{10, 0, 0, -10001, 0, 2, 0, 2, 2, 5, 0, 7, 2}, "02000a00000000d8ef000000020000000200020005000000070002", 6, "81ff06"},
    {{10, 0, 0, -1, 0, 2, 0, 2, 2, 5, 0, 10001, 2}, "02000a00000000ffff000000020000000200020005000027110002", 7, "81ff07"},
    /* low at high in x; above it in y; above it in both; both rectangles */
    {{10, 0, 0, -1, 0, 2, 0, 2, 2, 5, 0, 7, 2}, "02000a00000000ffff000000020000000200020005000000070002", 8, "81ff0800"},
    {{10, 0, 0, -1, 0, 0, 0, 2, 2, 5, 3, 7, 2}, "02000a00000000ffff000000000000000200020005000300070002", 9, "81ff0900"},
    {{10, 0, 0, -1, 0, 0, 0, 2, 2, 7, 2, 5, 0}, "02000a00000000ffff000000000000000200020007000200050000", 9, "81ff0900"},
    {{10, 0, 0, -1, 0, 2, 2, 0, 0, 7, 2, 5, 0}, "02000a00000000ffff000000020002000000000007000200050000", 8, "81ff0800"},
};

static int failed;

static void expect(int holds, const char *what, const char *line)
{
    if (!holds) {
        printf("%s: not as expected, for %s\n", what, line);
        failed = 1;
    }
}

/* The edge of a rectangle is 0; without 8 and 9 it is left as it was. */
static int edge_is(uint8_t edge, uint8_t refusal)
{
    return edge == (refusal == STONEFRUITLE_FIRST || refusal == STONEFRUITLE_SECOND ? 0 : PAINT);
}

/* The first bytes are the line and its 0a, so many are written, and the others are as they were. */
static int holds_line(const uint8_t *out, size_t room, size_t written, const char *line)
{
    size_t length = strlen(line);
    if (length > 0 && (written != length + 1 || memcmp(out, line, length) != 0 || out[length] != '\n'))
        return 0;
    if (length == 0 && written != 0)
        return 0;
    for (size_t i = written; i < room; i++)
        if (out[i] != PAINT)
            return 0;
    return 1;
}

static uint8_t out[STONEFRUITLE_MOVE_ROOM + MORE], edge, kind;
static size_t written;

static void paint(void)
{
    memset(out, PAINT, sizeof out);
    edge = kind = PAINT;
    written = 77;
}

typedef uint8_t from_lists(const int64_t *, size_t, const int64_t *, size_t, int64_t, int64_t, int64_t, int64_t, int64_t, uint8_t *,
                           size_t, size_t *, uint8_t *);

/* One call with lists of so many numbers and so much room, after painting. */
static uint8_t called(from_lists *call, const int64_t *n, size_t a_length, size_t b_length, size_t room)
{
    paint();
    return call(n + STONEFRUITLE_AT_RECTANGLE_A, a_length, n + STONEFRUITLE_AT_RECTANGLE_B, b_length,
                n[STONEFRUITLE_AT_VELOCITY_A], n[STONEFRUITLE_AT_VELOCITY_A + 1], n[STONEFRUITLE_AT_VELOCITY_B],
                n[STONEFRUITLE_AT_VELOCITY_B + 1], n[STONEFRUITLE_AT_LIMIT], out, room, &written, &edge);
}

static void ask_lists(const int64_t *n, const char *line, uint8_t refusal, const char *answer)
{
    from_lists *const calls[] = {stonefruitle_answer_rectangles, stonefruitle_write_rectangles};
    const size_t rooms[] = {STONEFRUITLE_ANSWER_ROOM, STONEFRUITLE_RECTANGLES_ROOM};
    const char *lines[] = {answer, refusal == 0 ? line : ""};
    for (int i = 0; i < 2; i++) {
        const char *what = i == 0 ? "answer_rectangles" : "write_rectangles";
        for (size_t more = 0; more <= MORE; more += MORE) {
            uint8_t returned = called(calls[i], n, 4, 4, rooms[i] + more);
            expect(returned == refusal && edge_is(edge, refusal), what, line);
            expect(holds_line(out, sizeof out, written, lines[i]), what, line);
        }
        expect(called(calls[i], n, 4, 4, rooms[i] - 1) == STONEFRUITLE_ROOM && edge == PAINT, what, line);
        expect(holds_line(out, sizeof out, written, ""), what, line);
        for (size_t length = 0; length < 4; length++) {
            uint8_t returned = called(calls[i], n, length, 4, rooms[i]);
            expect(returned == STONEFRUITLE_COUNT && edge == PAINT, what, "a list of fewer numbers");
            returned = called(calls[i], n, 4, length, rooms[i]);
            expect(returned == STONEFRUITLE_COUNT && edge == PAINT, what, "a list of fewer numbers");
            expect(holds_line(out, sizeof out, written, i == 0 ? "81ff04" : ""), what, "a list of fewer numbers");
        }
        /* A's four numbers and B's first after them. */
        uint8_t returned = called(calls[i], n, 5, 4, rooms[i]);
        expect(returned == STONEFRUITLE_COUNT && edge == PAINT, what, "a list of five numbers");
    }
}

static void ask_line(const int64_t *n, const char *text, uint8_t refusal, const char *answer)
{
    const uint8_t *line = (const uint8_t *)text;
    int64_t numbers[STONEFRUITLE_RECTANGLES_NUMBERS], none[STONEFRUITLE_RECTANGLES_NUMBERS] = {0}, of_outlines[STONEFRUITLE_NUMBERS];

    paint();
    uint8_t returned = stonefruitle_answer_line(line, LENGTH, out, STONEFRUITLE_ANSWER_ROOM, &written, &edge);
    expect(returned == refusal && edge_is(edge, refusal), "answer_line", text);
    expect(holds_line(out, sizeof out, written, answer), "answer_line", text);
    paint();
    returned = stonefruitle_answer_line(line, LENGTH, out, STONEFRUITLE_ANSWER_ROOM - 1, &written, &edge);
    expect(returned == STONEFRUITLE_ROOM && edge == PAINT && holds_line(out, sizeof out, written, ""), "answer_line, 44", text);

    paint();
    returned = stonefruitle_read_line(line, LENGTH, &kind, &edge);
    expect(returned == refusal && edge_is(edge, refusal), "read_line", text);
    expect(kind == (refusal == 0 ? STONEFRUITLE_RECTANGLES : PAINT), "read_line, the kind", text);
    paint();
    memset(numbers, PAINT, sizeof numbers);
    returned = stonefruitle_read_rectangles(line, LENGTH, numbers, &edge);
    expect(returned == refusal && edge_is(edge, refusal), "read_rectangles", text);
    expect(memcmp(numbers, refusal == 0 ? n : none, sizeof numbers) == 0, "read_rectangles, the numbers", text);
    paint();
    returned = stonefruitle_read_rectangles(line, LENGTH - 2, numbers, &edge);
    expect(returned == STONEFRUITLE_COUNT && edge == PAINT, "read_rectangles, 26 bytes", text);
    returned = stonefruitle_read_move(line, LENGTH, of_outlines, &edge);
    expect(returned == STONEFRUITLE_KIND && edge == PAINT, "read_move", text);

    /* A log has none. */
    char log_text[LENGTH + 7];
    bool some;
    uint16_t number, lost;
    snprintf(log_text, sizeof log_text, "030007%s", text);
    returned = stonefruitle_log_step(true, 6, (const uint8_t *)log_text, LENGTH + 6, out, STONEFRUITLE_ANSWER_ROOM, &some, &number,
                                     &lost, &written, &edge);
    expect(returned == STONEFRUITLE_KIND && some && number == 6 && lost == 0 && edge == PAINT, "log_step", text);
    returned = stonefruitle_read_log((const uint8_t *)log_text, LENGTH + 6, &number, of_outlines, &edge);
    expect(returned == STONEFRUITLE_KIND && edge == PAINT, "read_log", text);
}

/* P1 of kind 01. */
static void ask_outlines(void)
{
    const char *text = "010404000a00000000ffff00000000000000020000000200020000000200050000000700000007000200050002";
    const uint8_t *line = (const uint8_t *)text;
    int64_t numbers[STONEFRUITLE_RECTANGLES_NUMBERS];
    paint();
    expect(stonefruitle_read_line(line, strlen(text), &kind, &edge) == 0 && kind == STONEFRUITLE_OUTLINES, "read_line", text);
    expect(stonefruitle_read_rectangles(line, strlen(text), numbers, &edge) == STONEFRUITLE_KIND, "read_rectangles", text);
    paint();
    expect(stonefruitle_read_line(line, 2, &kind, &edge) == STONEFRUITLE_COUNT && kind == PAINT && edge == PAINT, "read_line", "01");
}

int main(void)
{
    for (size_t k = 0; k < sizeof moves / sizeof moves[0]; k++) {
        ask_lists(moves[k].numbers, moves[k].line, moves[k].refusal, moves[k].answer);
        ask_line(moves[k].numbers, moves[k].line, moves[k].refusal, moves[k].answer);
    }
    ask_outlines();
    return failed;
}
