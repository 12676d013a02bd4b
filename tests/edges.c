/*
 * The edge that the linked functions name, asked from C: with refusals 8 and 9
 * it is written, with any other refusal and with none it is left as it was.
 * tests/linked builds and runs it.
 *
 * Each line of a table is asked as a move line, as a line of a log, and where
 * its fields can be read as lists, through all eight functions that know of
 * outlines. Some have straight or repeated corners. Rectangles, whose edge is
 * always 0, are in tests/rectangles.c.
 */
#include <stdio.h>
#include <string.h>
#include <stonefruitle.h>

/* What an outline alone is refused with; edge where that is 8. */
struct tested {
    uint8_t refusal, edge;
};

static const struct {
    const char *line;
    uint8_t refusal, edge;
    struct tested a, b;
} moves[] = {
    /* P1 */
    {"010404000a00000000ffff00000000000000020000000200020000000200050000000700000007000200050002", 0, 0, {0, 0}, {0, 0}},
    {"0", 2, 0, {0, 0}, {0, 0}},
    {"04", 3, 0, {0, 0}, {0, 0}},
    {"01", 4, 0, {0, 0}, {0, 0}},
    /* A is the star, and the limit, a speed or a coordinate of B is out of range */
    {"01050427110000000000000000000a0000fff800060003fff700030009fff8fffa00000000000200000002000200000002", 5, 0, {8, 0}, {0, 0}},
    {"010504000a0000000000002711000a0000fff800060003fff700030009fff8fffa00000000000200000002000200000002", 6, 0, {8, 0}, {0, 0}},
    {"010504000a0000000000000000000a0000fff800060003fff700030009fff8fffa00000000000200000002000200002711", 7, 0, {8, 0}, {7, 0}},
    /* P12 */
    {"010504000a0000000000000000000a0000fff800060003fff700030009fff8fffa00000000000200000002000200000002", 8, 0, {8, 0}, {0, 0}},
    /* B is (0,0), (4,0), (1,1), (0,4) */
    {"010404000a00000000000000000000000000020000000200020000000200000000000400000001000100000004", 9, 1, {0, 0}, {8, 1}},
    /* A is (0,0), (4,0), (4,4), (3,1), and B is as before */
    {"010404000a00000000000000000000000000040000000400040003000100000000000400000001000100000004", 8, 2, {8, 2}, {8, 1}},
    /* A is (0,0), (1,0), (2,0), (0,2) */
    {"010404000a00000000000000000000000000010000000200000000000200000000000200000002000200000002", 0, 0, {0, 0}, {0, 0}},
    /* B has sixteen corners, thirteen of them straight */
    {"010410000a0000000000000000000000000002000000020002000000020000000000020000000400000006000000080000000a0000000800020006000400040006000200080000000a0000000800000006000000040000000200000001", 0, 0, {0, 0}, {0, 0}},
    /* A is (1,0), (3,0), (0,3), (0,0), (2,0): its last edge alone goes back */
    {"010504000a0000000000000000000100000003000000000003000000000002000000000000000200000002000200000002", 8, 4, {8, 4}, {0, 0}},
    /* A has (2,0) twice, one after the other */
    {"010404000a00000000000000000000000000020000000200000000000200000000000200000002000200000002", 8, 1, {8, 1}, {0, 0}},
    /* B has (2,0) twice, others between */
    {"010405000a0000000000000000000000000002000000020002000000020000000000020000000200020000000200020000", 9, 1, {0, 0}, {8, 1}},
    /* B is a triangle gone round twice, so that no corner is to the right of an edge */
    {"010406000a000000000000000000000000000200000002000200000002000000000003000000000003000000000003000000000003", 9, 0, {0, 0}, {8, 0}},
    /* B is (0,0), (4,0), (1,1), (0,4), (0,4): edge 1 has a corner to its right, and edge 3 starts at a repeated one */
    {"010405000a0000000000000000000000000002000000020002000000020000000000040000000100010000000400000004", 9, 1, {0, 0}, {8, 1}},
    /* all of A on one line, and of B at one place */
    {"010403000a000000000000000000040002000000000002000100060003000700070007000700070007", 8, 0, {8, 0}, {8, 0}},
    /* B is (2,0), (1,0), (0,0) */
    {"010403000a000000000000000000000000000200000002000200000002000200000001000000000000", 9, 0, {0, 0}, {8, 0}},
};

static int failed;
static uint8_t before, edge, kind;

/* One call returned this; it has to be the refusal, and the edge has to be that or be left alone. */
static void expect(const char *call, const char *line, uint8_t returned, uint8_t refusal, uint8_t named)
{
    uint8_t left = refusal == STONEFRUITLE_FIRST || refusal == STONEFRUITLE_SECOND ? named : before;
    if (returned != refusal || edge != left) {
        printf("%s: %d and edge %d, not %d and %d, for %s\n", call, returned, edge, refusal, left, line);
        failed = 1;
    }
    edge = before;
}

/* The refusal line of 8 and 9 says the same. */
static void expect_line(const char *line, const uint8_t *out, size_t written, uint8_t refusal, uint8_t named)
{
    char said[16];
    if (refusal != STONEFRUITLE_FIRST && refusal != STONEFRUITLE_SECOND)
        return;
    snprintf(said, sizeof said, "81ff%02x%02x\n", refusal, named);
    if (written != 9 || memcmp(said, out, 9) != 0) {
        printf("another refusal line than %.8s for %s\n", said, line);
        failed = 1;
    }
}

/* The byte and the signed number whose digits stand at a byte of a line. */
static int byte_at(const char *line, size_t at)
{
    unsigned byte;
    sscanf(line + 2 * at, "%2x", &byte);
    return (int)byte;
}

static int64_t signed_at(const char *line, size_t at)
{
    int n = 256 * byte_at(line, at) + byte_at(line, at + 1);
    return n < 32768 ? n : n - 65536;
}

static void ask_lines(const char *text, uint8_t refusal, uint8_t named)
{
    char log_text[400];
    snprintf(log_text, sizeof log_text, "030007%s", text);
    const uint8_t *line = (const uint8_t *)text, *log_line = (const uint8_t *)log_text;
    size_t length = strlen(text), log_length = strlen(log_text), written;
    uint8_t out[STONEFRUITLE_ANSWER_ROOM];
    int64_t numbers[STONEFRUITLE_NUMBERS];
    bool some;
    uint16_t number, lost;

    expect("answer_line", text, stonefruitle_answer_line(line, length, out, 45, &written, &edge), refusal, named);
    expect_line(text, out, written, refusal, named);
    expect("answer_line, 44", text, stonefruitle_answer_line(line, length, out, 44, &written, &edge), 1, 0);
    expect("read_line", text, stonefruitle_read_line(line, length, &kind, &edge), refusal, named);
    expect("read_move", text, stonefruitle_read_move(line, length, numbers, &edge), refusal, named);
    expect("read_log", text, stonefruitle_read_log(log_line, log_length, &number, numbers, &edge), refusal, named);
    /* In order, out of order, and without room. */
    for (uint16_t kept = 6; kept <= 7; kept++) {
        uint8_t expected = kept == 7 && refusal == 0 ? STONEFRUITLE_ORDER : refusal;
        uint8_t returned = stonefruitle_log_step(true, kept, log_line, log_length, out, 45, &some, &number, &lost, &written, &edge);
        expect("log_step", text, returned, expected, named);
        expect_line(text, out, written, expected, named);
        returned = stonefruitle_log_step(true, kept, log_line, log_length, out, 44, &some, &number, &lost, &written, &edge);
        expect("log_step, 44", text, returned, 1, 0);
    }
}

static void ask_lists(const char *line, uint8_t refusal, uint8_t named, struct tested of_a, struct tested of_b)
{
    int64_t v[4], numbers[64];
    size_t a_length = 2 * (size_t)byte_at(line, 1), b_length = 2 * (size_t)byte_at(line, 2), written;
    int64_t *a = numbers, *b = numbers + a_length, limit = signed_at(line, 3);
    uint8_t out[STONEFRUITLE_MOVE_ROOM];
    for (size_t i = 0; i < 4; i++)
        v[i] = signed_at(line, 5 + 2 * i);
    for (size_t i = 0; i < a_length + b_length; i++)
        numbers[i] = signed_at(line, 13 + 2 * i);

    uint8_t returned = stonefruitle_answer_lists(a, a_length, b, b_length, v[0], v[1], v[2], v[3], limit, out, 45, &written, &edge);
    expect("answer_lists", line, returned, refusal, named);
    expect_line(line, out, written, refusal, named);
    returned = stonefruitle_answer_lists(a, a_length, b, b_length, v[0], v[1], v[2], v[3], limit, out, 44, &written, &edge);
    expect("answer_lists, 44", line, returned, 1, 0);
    returned = stonefruitle_write_move(a, a_length, b, b_length, v[0], v[1], v[2], v[3], limit, out, 283, &written, &edge);
    expect("write_move", line, returned, refusal, named);
    returned = stonefruitle_write_move(a, a_length, b, b_length, v[0], v[1], v[2], v[3], limit, out, 282, &written, &edge);
    expect("write_move, 282", line, returned, 1, 0);
    expect("test_outline", line, stonefruitle_test_outline(a, a_length, &edge), of_a.refusal, of_a.edge);
    expect("test_outline", line, stonefruitle_test_outline(b, b_length, &edge), of_b.refusal, of_b.edge);
    expect("test_outline, odd", line, stonefruitle_test_outline(a, a_length - 1, &edge), 4, 0);
}

int main(void)
{
    const uint8_t befores[] = {0xa5, 0, 3};
    for (size_t i = 0; i < sizeof befores; i++) {
        before = edge = befores[i];
        for (size_t k = 0; k < sizeof moves / sizeof moves[0]; k++) {
            ask_lines(moves[k].line, moves[k].refusal, moves[k].edge);
            if (strlen(moves[k].line) > 2)
                ask_lists(moves[k].line, moves[k].refusal, moves[k].edge, moves[k].a, moves[k].b);
        }
    }
    return failed;
}
