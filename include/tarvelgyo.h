/*
 * Tarvelgyo, the proved bench of XS1-L switches, links and channel-ends, from C and C++.
 *
 *   cc -I include program.c crates/host/out/libhost.a       (`rt lib` in crates/host writes it; docs/USING.md)
 *
 * A network is three memories that you lend to each call: `state`, TARVELGYO_STATE_WORDS words of 32 bits for each node, `memory`,
 * TARVELGYO_MEMORY_WORDS words of 16 bits for each node, what ports hold, and `lines`, TARVELGYO_LINE_MEMORY_WORDS words of 16 bits for
 * each node, what is on its way between ports. Nothing is kept elsewhere: three memories copied are a network copied, and calls on two
 * networks may be made at the same time.
 *
 * Every function answers for any arguments and for any contents of the memories; a call that is refused has changed nothing. What you
 * must see to: each pointer has behind it as many words as you say, no two of them overlap in a call, and no two threads make calls on one
 * network at once. A pointer with 0 words is not followed.
 *
 * These parameters are the same everywhere:
 *
 *   state, words      the state, and how many words of 32 bits it has
 *   memory, tokens    the token memory, and how many words of 16 bits it has
 *   lines, things     the lines' memory, and how many words of 16 bits it has
 *   slot              which node, by its place in the table, 0 for the first; not the number in its switch
 *
 * rust/bench/tests/header.rs holds this file to the declarations that the Rust side is built with.
 */
#ifndef TARVELGYO_H
#define TARVELGYO_H

#include <stdbool.h>
#include <stddef.h>
#include <stdint.h>

#ifdef __cplusplus
extern "C" {
#endif

/* ---- sizes ---- */

#define TARVELGYO_STATE_WORDS 778       /* words of state for each node; tarvelgyo_state_words() says it too */
#define TARVELGYO_MEMORY_WORDS 832      /* words of token memory for each node; tarvelgyo_memory_words() says it too */
#define TARVELGYO_LINE_MEMORY_WORDS 528 /* words of the lines' memory for each node; tarvelgyo_line_words() says it too */
#define TARVELGYO_MOST_NODES 16         /* nodes of a network, at most */
#define TARVELGYO_LINKS 8               /* links A..H of a node, which are its ports 0..7 */
#define TARVELGYO_TILE_LINKS 4          /* links from the switch to the tile */
#define TARVELGYO_FIRST_TILE_PORT 8     /* the first of the four ports from the tile, 8..11 */
#define TARVELGYO_REPLY_PORT 12         /* the port by which the control unit's replies leave */
#define TARVELGYO_PORTS 13              /* ports of a node */
#define TARVELGYO_CHANNEL_ENDS 32       /* channel-ends of a node */
#define TARVELGYO_CHANNELS 32           /* channels that a header can name, beside the sink */
#define TARVELGYO_SINK 255              /* the channel of the sink, which takes all and hands nothing */
#define TARVELGYO_PORT_BUFFER 64        /* tokens that a port holds, at most */
#define TARVELGYO_LINE_BUFFER 66        /* tokens, credits and HELLOs on a line, at most */
#define TARVELGYO_END_BUFFER 8          /* tokens that a channel-end holds, at most */
#define TARVELGYO_UNIT_BUFFER 11        /* tokens of a message that a control unit keeps, at most */
#define TARVELGYO_DIRECTIONS 16         /* directions of links and of a switch's table */
#define TARVELGYO_BITS 16               /* bits of a node's number, each with a direction entry */

/* ---- control tokens with a name ---- */

#define TARVELGYO_END 0x01    /* ends a message and its circuit */
#define TARVELGYO_PAUSE 0x02  /* ends a circuit, and is not handed */
#define TARVELGYO_ACK 0x03    /* a switch message was obeyed */
#define TARVELGYO_NACK 0x04   /* a switch message was not obeyed */
#define TARVELGYO_WRITEC 0xC0 /* begins a switch message that writes a register */
#define TARVELGYO_READC 0xC1  /* begins a switch message that reads one */

/* These are on lines alone: no Output lets them out, and no port holds them. */
#define TARVELGYO_CREDIT8 0xE0  /* brings credit for 8 tokens */
#define TARVELGYO_CREDIT16 0xE4 /* .. for 16 */
#define TARVELGYO_CREDIT64 0xE1 /* .. for 64 */
#define TARVELGYO_HELLO 0xE6    /* greets, and asks for credit */

/* ---- answers ----
 *
 * A call answers with one number of 64 bits: which case it is in the upper half, what the case carries in the lower.
 */

#define TARVELGYO_CASE(answer) ((uint32_t)((uint64_t)(answer) >> 32))
#define TARVELGYO_VALUE(answer) ((uint32_t)((uint64_t)(answer) & 0xFFFFFFFFu))

#define TARVELGYO_CASE_NO 0              /* refused, nothing is changed; carries a number for no */
#define TARVELGYO_CASE_DONE 1            /* done; carries 0 */
#define TARVELGYO_CASE_GRANTED 2         /* of HELLO: carries 0, as the grant comes when it has arrived */
#define TARVELGYO_CASE_TOKEN 3           /* of Input: carries the token's value */
#define TARVELGYO_CASE_IDLE 4            /* of a Step: the port holds nothing; of a line step: nothing is on the line */
#define TARVELGYO_CASE_WAITING 5         /* of a Step: nothing can be done now, and nothing is changed */
#define TARVELGYO_CASE_MOVED 6           /* of a Step: one token was moved, handed or heard */
#define TARVELGYO_CASE_OPENED_LINK 7     /* of a Step: a circuit was opened outward; carries the link */
#define TARVELGYO_CASE_OPENED_CHANNEL 8  /* of a Step: a circuit was opened to a channel of the node */
#define TARVELGYO_CASE_OPENED_CONTROL 9  /* of a Step: a circuit was opened to the node's control unit */
#define TARVELGYO_CASE_REFUSED 10        /* of a Step: the circuit is refused; carries a cause */
#define TARVELGYO_CASE_DROPPED 11        /* of a Step: one token of a refused circuit was dropped; carries the cause */
#define TARVELGYO_CASE_MALFORMED 12      /* of a Step: a switch message ended that has no reply and wrote nothing */
#define TARVELGYO_CASE_UNHEARD 13        /* of a Step: a switch message ended whose reply cannot be carried; what it wrote stays */
#define TARVELGYO_CASE_ARRIVED 14        /* of a line step: one has arrived; carries the grant that it brought, 0, 8, 16 or 64 */

/* The numbers for no. */
#define TARVELGYO_NO_UNSOUND 1     /* the memories are no network: tarvelgyo_unsound_clause says why */
#define TARVELGYO_NO_NO_SUCH 2     /* no such slot, link, port, channel-end, or count of nodes or results */
#define TARVELGYO_NO_VALUE 3       /* a value out of its range */
#define TARVELGYO_NO_BUSY 4        /* Wire: an end is wired; HELLO: the link is disabled, or a credit or HELLO is on a line of its cable; a
                                      setting: the link is in use, or enabled */
#define TARVELGYO_NO_UNAIMED 5     /* the channel-end has no destination */
#define TARVELGYO_NO_OPEN 6        /* the channel-end has a circuit open */
#define TARVELGYO_NO_HARDWARE 7    /* Output of control 0xE0..0xFF */
#define TARVELGYO_NO_PRIVILEGED 8  /* Output of control 0xC0..0xDF, but for WRITEC and READC towards a control unit */
#define TARVELGYO_NO_NARROW 9      /* a circuit to the sink or a control unit, opened at one-byte width */
#define TARVELGYO_NO_FULL 10       /* no room for the token, or no port or channel free: it may be put out later */
#define TARVELGYO_NO_EMPTY 11      /* the channel-end holds no token */
#define TARVELGYO_NO_TRAP 12       /* its next token is of the other kind, and stays */

/* Why a circuit is refused. */
#define TARVELGYO_CAUSE_SPLIT 0    /* a switch of the other header width read the header */
#define TARVELGYO_CAUSE_NO_ROUTE 1 /* no enabled link of that direction and network */

/* ---- starts ---- */

/* Fresh: makes a network of `nodes` nodes, 1 to 16, as the boot ROM leaves them, links E..H enabled, whatever the memories held. All must
 * have exactly the words of so many nodes, else it is Unsound. */
uint64_t tarvelgyo_fresh(uint32_t *state, size_t words, uint16_t *memory, size_t tokens, uint16_t *lines, size_t things, size_t nodes);

/* Blank: the same, `nodes` nodes, with every link disabled. */
uint64_t tarvelgyo_blank(uint32_t *state, size_t words, uint16_t *memory, size_t tokens, uint16_t *lines, size_t things, size_t nodes);

/* ---- cables and settings ---- */

/* Wire: a cable from link `link` of this node, 0..7 for A..H, to link `far_link` of the node in slot `far_slot`. Both must be unwired, and
 * not the same. It greets nobody. */
uint64_t tarvelgyo_wire(uint32_t *state, size_t words, const uint16_t *memory, size_t tokens, const uint16_t *lines, size_t things,
                        size_t slot, size_t link, size_t far_slot, size_t far_link);

/* Set: the node's number, `value` 0..65535. */
uint64_t tarvelgyo_set_number(uint32_t *state, size_t words, const uint16_t *memory, size_t tokens, uint16_t *lines, size_t things,
                              size_t slot, uint32_t value);

/* Set: how many bytes the node's headers have, `value` 1 or 3. */
uint64_t tarvelgyo_set_width(uint32_t *state, size_t words, const uint16_t *memory, size_t tokens, uint16_t *lines, size_t things,
                             size_t slot, uint32_t value);

/* Set: the node's direction entry for bit `bit`, 0..15, to direction `value`, 0..15. */
uint64_t tarvelgyo_set_direction(uint32_t *state, size_t words, const uint16_t *memory, size_t tokens, uint16_t *lines, size_t things,
                                 size_t slot, uint32_t bit, uint32_t value);

/* Set: the direction of link `link`, 0..7, to `value`, 0..15. */
uint64_t tarvelgyo_set_link_direction(uint32_t *state, size_t words, const uint16_t *memory, size_t tokens, uint16_t *lines, size_t things,
                                      size_t slot, size_t link, uint32_t value);

/* Set: the network of link `link`, 0..7, to `value`, 0..3. Busy where that is another and the link is enabled. */
uint64_t tarvelgyo_set_network(uint32_t *state, size_t words, const uint16_t *memory, size_t tokens, uint16_t *lines, size_t things,
                               size_t slot, size_t link, uint32_t value);

/* Set: link `link`, 0..7, enabled (`value` 1) or disabled (0). Busy where it would disable a link with a token or a circuit at either
 * end, or with anything on a line of its cable. */
uint64_t tarvelgyo_set_enable(uint32_t *state, size_t words, const uint16_t *memory, size_t tokens, uint16_t *lines, size_t things,
                              size_t slot, size_t link, uint32_t value);

/* HELLO on link `link`, 0..7: it goes on the line that starts there, or is lost where the far end is absent or disabled. The link is
 * greeted, and the far end grants, when it arrives, so that the answer carries 0. Busy on a disabled link, and while a credit or a HELLO is
 * on either line of the cable. */
uint64_t tarvelgyo_hello(uint32_t *state, size_t words, const uint16_t *memory, size_t tokens, uint16_t *lines, size_t things, size_t slot,
                         size_t link);

/* ---- a program's side ---- */

/* Aim: channel-end `channel_end`, 0..31, at channel `channel`, 0..31 or the sink, of the nodes of number `number`, on network `network`,
 * 0..3. Refused as Open while it has a circuit open. */
uint64_t tarvelgyo_aim_channel(uint32_t *state, size_t words, const uint16_t *memory, size_t tokens, const uint16_t *lines, size_t things,
                               size_t slot, size_t channel_end, uint32_t number, uint32_t channel, uint32_t network);

/* Aim: channel-end `channel_end`, 0..31, at the control unit of the nodes of number `number`, on network `network`, 0..3. */
uint64_t tarvelgyo_aim_unit(uint32_t *state, size_t words, const uint16_t *memory, size_t tokens, const uint16_t *lines, size_t things,
                            size_t slot, size_t channel_end, uint32_t number, uint32_t network);

/* Output: a data token of value `value` from channel-end `channel_end`, 0..31. The first token opens a circuit. */
uint64_t tarvelgyo_output_data(uint32_t *state, size_t words, uint16_t *memory, size_t tokens, const uint16_t *lines, size_t things,
                               size_t slot, size_t channel_end, uint8_t value);

/* Output: a control token of value `value` from channel-end `channel_end`, 0..31. END and PAUSE end the circuit. */
uint64_t tarvelgyo_output_control(uint32_t *state, size_t words, uint16_t *memory, size_t tokens, const uint16_t *lines, size_t things,
                                  size_t slot, size_t channel_end, uint8_t value);

/* Input: takes the next token of channel-end `channel_end`, 0..31, as data and answers its value. A control token is Trap, and stays. */
uint64_t tarvelgyo_input_data(uint32_t *state, size_t words, const uint16_t *memory, size_t tokens, const uint16_t *lines, size_t things,
                              size_t slot, size_t channel_end);

/* Input: takes the next token of channel-end `channel_end`, 0..31, as control and answers its value. A data token is Trap, and stays. */
uint64_t tarvelgyo_input_control(uint32_t *state, size_t words, const uint16_t *memory, size_t tokens, const uint16_t *lines, size_t things,
                                 size_t slot, size_t channel_end);

/* ---- steps ---- */

/* Step: one of port `port`, 0..12: its circuit is opened, refused or made to wait, or one token passes. A token that leaves by a link is
 * put on the line that starts there; tarvelgyo_line_step takes it off. The Step that takes the end of a switch message has it obeyed. */
uint64_t tarvelgyo_step(uint32_t *state, size_t words, uint16_t *memory, size_t tokens, uint16_t *lines, size_t things, size_t slot,
                        size_t port);

/* One Step of a list: port `port` of the node in slot `slot`. */
typedef struct tarvelgyo_step_record {
    size_t slot;
    size_t port;
} tarvelgyo_step_record;

/* Steps: those of `list`, which has `records` records, in order. What each answers, as tarvelgyo_step would, is written to the same place
 * of `results`, which has room for `room` numbers; a Step that is refused stops nothing. NoSuch, with nothing done and nothing written,
 * where room and records differ. */
uint64_t tarvelgyo_steps(uint32_t *state, size_t words, uint16_t *memory, size_t tokens, uint16_t *lines, size_t things,
                         const tarvelgyo_step_record *list, size_t records, uint64_t *results, size_t room);

/* A line step: one off the far end of the line that starts at link `link`, 0..7. A token comes to the far port, a credit or a HELLO to the
 * far link. Idle where nothing is on the line, or where no cable is. */
uint64_t tarvelgyo_line_step(uint32_t *state, size_t words, uint16_t *memory, size_t tokens, uint16_t *lines, size_t things, size_t slot,
                             size_t link);

/* ---- looks at the whole ---- */

/* How many words of state to lend for each node. */
size_t tarvelgyo_state_words(void);

/* How many words of token memory to lend for each node. */
size_t tarvelgyo_memory_words(void);

/* How many words of the lines' memory to lend for each node. */
size_t tarvelgyo_line_words(void);

/* How many nodes the state has: what its length says. */
size_t tarvelgyo_node_count(const uint32_t *state, size_t words);

/* Whether the memories are a network: the list "Sound" of documents 01 and 02. Where they are not, every call but the starts is Unsound. */
bool tarvelgyo_is_sound(const uint32_t *state, size_t words, const uint16_t *memory, size_t tokens, const uint16_t *lines, size_t things);

/* Whether the ties hold that calls keep beside that list. */
bool tarvelgyo_is_tight(const uint32_t *state, size_t words, const uint16_t *memory, size_t tokens, const uint16_t *lines, size_t things);

/* Whether there is no token, no claim and no open circuit anywhere, and nothing on a line. */
bool tarvelgyo_is_quiet(const uint32_t *state, size_t words, const uint16_t *memory, size_t tokens, const uint16_t *lines, size_t things);

/* The number of the first clause of that list that fails, 1..15 (docs/ARCHITECTURE.md, "Sound"), or 0 where none does. */
uint32_t tarvelgyo_unsound_clause(const uint32_t *state, size_t words, const uint16_t *memory, size_t tokens, const uint16_t *lines,
                                  size_t things);

/* ---- looks at records ----
 *
 * A record is written to `out`, which has room for `room` words: exactly the record's, else nothing is written and the answer is false. A
 * place that is not there shows words of 0. A circuit is two words, its kind and an index: kind 0 is none.
 */

/* A node: its number, its width (1 or 3), and its two direction registers. */
#define TARVELGYO_NODE_NUMBER 0
#define TARVELGYO_NODE_WIDTH 1
#define TARVELGYO_NODE_DIRECTIONS 2
#define TARVELGYO_NODE_WORDS 4

/* The record of the node, into `out` of `room` words, TARVELGYO_NODE_WORDS. */
bool tarvelgyo_node(const uint32_t *state, size_t words, size_t slot, uint32_t *out, size_t room);

/* A link: whether it is wired, to which slot and link, whether it is enabled, direction, network, whether it is greeted, credit, and the
 * port whose circuit leaves by it (kind 1, the port). */
#define TARVELGYO_LINK_WIRED 0
#define TARVELGYO_LINK_FAR_SLOT 1
#define TARVELGYO_LINK_FAR_LINK 2
#define TARVELGYO_LINK_ENABLED 3
#define TARVELGYO_LINK_DIRECTION 4
#define TARVELGYO_LINK_NETWORK 5
#define TARVELGYO_LINK_GREETED 6
#define TARVELGYO_LINK_CREDIT 7
#define TARVELGYO_LINK_USER 8
#define TARVELGYO_LINK_WORDS 10

/* The record of link `link`, 0..7, into `out` of `room` words, TARVELGYO_LINK_WORDS. */
bool tarvelgyo_link(const uint32_t *state, size_t words, size_t slot, size_t link, uint32_t *out, size_t room);

/* A port: where in its ring the oldest token lies, how many it holds, the tile link of a circuit to a channel, the network of the circuit
 * that has taken a port 8..11; where its circuit goes (kind 1 out by a link, 2 to a channel, 3 to the control unit, 4 dropped as Split,
 * 5 dropped as NoRoute), and the channel-end that sends by a port 8..11 (kind 2). */
#define TARVELGYO_PORT_HEAD 0
#define TARVELGYO_PORT_HELD 1
#define TARVELGYO_PORT_TILE 2
#define TARVELGYO_PORT_NETWORK 3
#define TARVELGYO_PORT_CIRCUIT 4
#define TARVELGYO_PORT_SENDER 6
#define TARVELGYO_PORT_WORDS 8

/* The record of port `port`, 0..12, into `out` of `room` words, TARVELGYO_PORT_WORDS. */
bool tarvelgyo_port(const uint32_t *state, size_t words, size_t slot, size_t port, uint32_t *out, size_t room);

/* A link from the switch to the tile: the port that uses it (kind 1). */
#define TARVELGYO_TILE_LINK_USER 0
#define TARVELGYO_TILE_LINK_WORDS 2

/* The record of tile link `tile_link`, 0..3, into `out` of `room` words, TARVELGYO_TILE_LINK_WORDS. */
bool tarvelgyo_tile_link(const uint32_t *state, size_t words, size_t slot, size_t tile_link, uint32_t *out, size_t room);

/* A channel-end: what it is aimed at (0 nothing, 1 a channel, 2 a control unit), of which number, which channel, on which network; how many
 * tokens it holds, their words, oldest first; its open circuit and who sends to it (kind 1 a port, 2 a channel-end of the node). */
#define TARVELGYO_CHANNEL_END_AIM 0
#define TARVELGYO_CHANNEL_END_NUMBER 1
#define TARVELGYO_CHANNEL_END_CHANNEL 2
#define TARVELGYO_CHANNEL_END_NETWORK 3
#define TARVELGYO_CHANNEL_END_HELD 4
#define TARVELGYO_CHANNEL_END_TOKENS 5
#define TARVELGYO_CHANNEL_END_SENDING 13
#define TARVELGYO_CHANNEL_END_CLAIM 15
#define TARVELGYO_CHANNEL_END_WORDS 17

/* The record of channel-end `channel_end`, 0..31, into `out` of `room` words, TARVELGYO_CHANNEL_END_WORDS. */
bool tarvelgyo_channel_end(const uint32_t *state, size_t words, size_t slot, size_t channel_end, uint32_t *out, size_t room);

/* A control unit: how many tokens of a message it has heard, their words, oldest first, and the port whose circuit it serves (kind 1). */
#define TARVELGYO_CONTROL_UNIT_HEARD 0
#define TARVELGYO_CONTROL_UNIT_TOKENS 1
#define TARVELGYO_CONTROL_UNIT_SERVES 12
#define TARVELGYO_CONTROL_UNIT_WORDS 14

/* The record of the node's control unit, into `out` of `room` words, TARVELGYO_CONTROL_UNIT_WORDS. */
bool tarvelgyo_control_unit(const uint32_t *state, size_t words, size_t slot, uint32_t *out, size_t room);

/* The line that starts at a link, and that link's count: where in the line's ring the first to arrive lies, how much is on it, and what the
 * link has issued to the far end and not yet received. */
#define TARVELGYO_LINE_HEAD 0
#define TARVELGYO_LINE_HELD 1
#define TARVELGYO_LINE_ISSUED 2
#define TARVELGYO_LINE_WORDS 3

/* The record of the line that starts at link `link`, 0..7, into `out` of `room` words, TARVELGYO_LINE_WORDS. */
bool tarvelgyo_line(const uint32_t *state, size_t words, size_t slot, size_t link, uint32_t *out, size_t room);

/* The node's direction entry for bit `bit`, 0..15. */
uint32_t tarvelgyo_direction(const uint32_t *state, size_t words, size_t slot, uint32_t bit);

/* ---- looks at tokens ----
 *
 * A look at a token answers in the form of a call's answer: case TARVELGYO_SEEN_TOKEN carries the token's word, case
 * TARVELGYO_SEEN_NOTHING is none.
 */

#define TARVELGYO_SEEN_NOTHING 0
#define TARVELGYO_SEEN_TOKEN 1

#define TARVELGYO_TOKEN_VALUE 0x0FF   /* these bits of a token's word are its value */
#define TARVELGYO_TOKEN_CONTROL 0x100 /* it is a control token, else data */
#define TARVELGYO_TOKEN_HEADER 0x200  /* it is part of a header */
#define TARVELGYO_TOKEN_THREE 0x400   /* of a three-byte header, else of one byte */

/* The token at place `place` of port `port`, 0..12; place 0 is the oldest. */
uint64_t tarvelgyo_port_token(const uint32_t *state, size_t words, const uint16_t *memory, size_t tokens, size_t slot, size_t port,
                              uint32_t place);

/* What is at place `place` of the line that starts at link `link`, 0..7; place 0 is the first to arrive. A credit or a HELLO is a control
 * token of the values above. */
uint64_t tarvelgyo_line_token(const uint32_t *state, size_t words, const uint16_t *lines, size_t things, size_t slot, size_t link,
                              uint32_t place);

/* The token at place `place` of channel-end `channel_end`, 0..31; place 0 is the oldest. */
uint64_t tarvelgyo_end_token(const uint32_t *state, size_t words, size_t slot, size_t channel_end, size_t place);

/* ---- the probe ----
 *
 * Tokens as transitions on the wires of a link, and a capture read back. A token is a word as a port holds it; its header marks are not
 * looked at, and a word of 2048 or more is none. A transition is a byte, the number of the wire that changes: 0 or 1 on the serial link, ten
 * a token; 0..4 on the fast link, four a token and four more where END or PAUSE needs a return. All wires are low at first. No network is
 * touched: these functions have none of the parameters above.
 *
 * Each answers one of these numbers, or TARVELGYO_NO_NO_SUCH where the buffer is too short for the whole result, and stores what it bears.
 * Every answer but TARVELGYO_PROBE_FILLED leaves the buffer as it was.
 */

#define TARVELGYO_PROBE_FILLED 0 /* bears how many words were filled; those behind are as they were */
#define TARVELGYO_PROBE_BAD 14   /* bears the place, counted from 0, of a word without a form or of the start of a sequence without a meaning */
#define TARVELGYO_PROBE_CUT 15   /* the capture ends within a sequence; bears 0, as TARVELGYO_NO_NO_SUCH does */

/* The tokens of `list`, `count` words, oldest first, as transitions of the serial link into `out` of `room` bytes; what the answer bears
 * goes to `value`. */
uint8_t tarvelgyo_write_serial(const uint16_t *list, size_t count, uint8_t *out, size_t room, size_t *value);

/* The tokens of `list`, `count` words, oldest first, as transitions of the fast link into `out` of `room` bytes; what the answer bears goes
 * to `value`. Control 0xFC..0xFF are the returns, and are not written. */
uint8_t tarvelgyo_write_fast(const uint16_t *list, size_t count, uint8_t *out, size_t room, size_t *value);

/* The transitions of `capture`, `length` bytes of the serial link, as tokens without header marks into `out` of `room` words; what the
 * answer bears goes to `value`. */
uint8_t tarvelgyo_read_serial(const uint8_t *capture, size_t length, uint16_t *out, size_t room, size_t *value);

/* The transitions of `capture`, `length` bytes of the fast link, as tokens without header marks into `out` of `room` words; returns are
 * passed over, and what the answer bears goes to `value`. */
uint8_t tarvelgyo_read_fast(const uint8_t *capture, size_t length, uint16_t *out, size_t room, size_t *value);

#ifdef __cplusplus
}
#endif

#endif
