/*
 * A first network from C: two boards, one cable, and a message of one data token.
 *
 *   cc -std=c99 -I include examples/c/first.c crates/host/out/libhost.a -o first && ./first
 */

#include <stdio.h>
#include <stdlib.h>

#include "tarvelgyo.h"

#define BOARDS 2
#define LINK_A 0
#define LINK_E 4

/* The three memories of the network, and how they are lent: each with its length. */
static uint32_t state[BOARDS * TARVELGYO_STATE_WORDS];
static uint16_t memory[BOARDS * TARVELGYO_MEMORY_WORDS];
static uint16_t lines[BOARDS * TARVELGYO_LINE_MEMORY_WORDS];
static const size_t words = sizeof state / sizeof state[0];
static const size_t tokens = sizeof memory / sizeof memory[0];
static const size_t things = sizeof lines / sizeof lines[0];
#define LENT state, words, memory, tokens, lines, things

/* The cases of an answer, by their numbers. */
static const char *const cases[] = {
    "no",          "done",           "granted",        "token",   "idle",    "waiting",   "moved",
    "opened link", "opened channel", "opened control", "refused", "dropped", "malformed", "unheard",
    "arrived",
};

/* Says what came of a call, with what the case carries, and goes no further where it was refused. */
static uint32_t made(const char *call, uint64_t answer) {
    uint32_t value = TARVELGYO_VALUE(answer);
    printf("%s: %s", call, cases[TARVELGYO_CASE(answer)]);
    if (value != 0)
        printf(" %u", (unsigned)value);
    printf("\n");
    if (TARVELGYO_CASE(answer) == TARVELGYO_CASE_NO)
        exit(1);
    return value;
}

/* Takes all off the line that starts at a link, up to the Idle that says it is empty. */
static void empty(const char *line, size_t slot, size_t link) {
    uint64_t answer;
    do {
        answer = tarvelgyo_line_step(LENT, slot, link);
        made(line, answer);
    } while (TARVELGYO_CASE(answer) != TARVELGYO_CASE_IDLE);
}

/* HELLO goes over one line, and the credit that it asks for comes back by the other. */
static void greet(const char *call, size_t slot, size_t link, size_t far_slot, size_t far_link) {
    made(call, tarvelgyo_hello(LENT, slot, link));
    empty("  HELLO's line", slot, link);
    empty("  the credit's line", far_slot, far_link);
}

/* A cable between link E of board 0, which the boot ROM has enabled, and link A of board 1, which it has not; greeted at both ends. */
static void join(void) {
    made("fresh", tarvelgyo_fresh(LENT, BOARDS));
    made("number of board 1", tarvelgyo_set_number(LENT, 1, 1));
    made("wire", tarvelgyo_wire(LENT, 0, LINK_E, 1, LINK_A));
    made("enable link A of board 1", tarvelgyo_set_enable(LENT, 1, LINK_A, 1));
    greet("HELLO of board 0", 0, LINK_E, 1, LINK_A);
    greet("HELLO of board 1", 1, LINK_A, 0, LINK_E);
}

/* Channel-end 2 of board 0 sends 9 and END to channel 7 of number 1. */
static void send(void) {
    made("aim", tarvelgyo_aim_channel(LENT, 0, 2, 1, 7, 0));
    made("output 9", tarvelgyo_output_data(LENT, 0, 2, 9));
    made("output END", tarvelgyo_output_control(LENT, 0, 2, TARVELGYO_END));
}

/* So many Steps of one port, as a list. */
static void step(const char *call, size_t slot, size_t port, size_t many) {
    enum { MOST = 6 };
    tarvelgyo_step_record list[MOST];
    uint64_t results[MOST];
    size_t record;
    for (record = 0; record < many && record < MOST; record++) {
        list[record].slot = slot;
        list[record].port = port;
    }
    made(call, tarvelgyo_steps(LENT, list, record, results, record));
    for (record = 0; record < many && record < MOST; record++)
        made("  step", results[record]);
}

/* The circuit opens, and its header, the token and END go on the line; the line brings them to link A of board 1, which takes them in. */
static void carry(void) {
    step("steps of board 0", 0, TARVELGYO_FIRST_TILE_PORT, 6);
    empty("the line from board 0", 0, LINK_E);
    step("steps of board 1", 1, LINK_A, 3);
}

int main(void) {
    uint32_t link[TARVELGYO_LINK_WORDS];
    uint32_t value;
    join();
    send();
    carry();
    value = made("input", tarvelgyo_input_data(LENT, 1, 7));
    made("input of END", tarvelgyo_input_control(LENT, 1, 7));
    if (!tarvelgyo_link(state, words, 0, LINK_E, link, TARVELGYO_LINK_WORDS))
        return 1;
    printf("credit of link E: %u\n", (unsigned)link[TARVELGYO_LINK_CREDIT]);
    printf("board 1 got %u, and the network is %s\n", (unsigned)value,
           tarvelgyo_is_quiet(LENT) ? "quiet" : "not quiet");
    return value == 9 ? 0 : 1;
}
