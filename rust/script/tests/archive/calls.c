// Makes calls of the proved library as a C program does, linked with the archive that `rt lib` wrote for x86-64. Reads a call a
// line, the name of its function and five numbers, or, of a list of Steps, how many results there are, how many records, and the slot and
// port of each; writes its answer and then the memories and the results, each with its length in front.

typedef unsigned char u8;
typedef unsigned short u16;
typedef unsigned int u32;
typedef unsigned long u64;

// One Step of a list.
struct record {
    u64 slot, port;
};

u64 tarvelgyo_fresh(u32 *, u64, u16 *, u64, u16 *, u64, u64 nodes);
u64 tarvelgyo_blank(u32 *, u64, u16 *, u64, u16 *, u64, u64 nodes);
u64 tarvelgyo_wire(u32 *, u64, const u16 *, u64, const u16 *, u64, u64 slot, u64 link, u64 far_slot, u64 far_link);
u64 tarvelgyo_set_number(u32 *, u64, const u16 *, u64, u16 *, u64, u64 slot, u32 value);
u64 tarvelgyo_set_width(u32 *, u64, const u16 *, u64, u16 *, u64, u64 slot, u32 value);
u64 tarvelgyo_set_direction(u32 *, u64, const u16 *, u64, u16 *, u64, u64 slot, u32 bit, u32 value);
u64 tarvelgyo_set_link_direction(u32 *, u64, const u16 *, u64, u16 *, u64, u64 slot, u64 link, u32 value);
u64 tarvelgyo_set_network(u32 *, u64, const u16 *, u64, u16 *, u64, u64 slot, u64 link, u32 value);
u64 tarvelgyo_set_enable(u32 *, u64, const u16 *, u64, u16 *, u64, u64 slot, u64 link, u32 value);
u64 tarvelgyo_hello(u32 *, u64, const u16 *, u64, u16 *, u64, u64 slot, u64 link);
u64 tarvelgyo_aim_channel(u32 *, u64, const u16 *, u64, const u16 *, u64, u64 slot, u64 end, u32 number, u32 channel, u32 network);
u64 tarvelgyo_aim_unit(u32 *, u64, const u16 *, u64, const u16 *, u64, u64 slot, u64 end, u32 number, u32 network);
u64 tarvelgyo_output_data(u32 *, u64, u16 *, u64, const u16 *, u64, u64 slot, u64 end, u8 value);
u64 tarvelgyo_output_control(u32 *, u64, u16 *, u64, const u16 *, u64, u64 slot, u64 end, u8 value);
u64 tarvelgyo_input_data(u32 *, u64, const u16 *, u64, const u16 *, u64, u64 slot, u64 end);
u64 tarvelgyo_input_control(u32 *, u64, const u16 *, u64, const u16 *, u64, u64 slot, u64 end);
u64 tarvelgyo_step(u32 *, u64, u16 *, u64, u16 *, u64, u64 slot, u64 port);
u64 tarvelgyo_steps(u32 *, u64, u16 *, u64, u16 *, u64, const struct record *list, u64 records, u64 *results, u64 room);
u64 tarvelgyo_line_step(u32 *, u64, u16 *, u64, u16 *, u64, u64 slot, u64 link);
u64 tarvelgyo_state_words(void);

// Of the C library; the toolchain has no headers.
extern void *stdout;
int scanf(const char *, ...);
int strcmp(const char *, const char *);
u64 fwrite(const void *, u64, u64, void *);
void *calloc(u64, u64);
void abort(void);

static u32 *state;
static u16 *memory, *lines;
static u64 words, tokens, things;

// The results of the last call, none but of a list, and what they hold before it.
static u64 *results;
static u64 room;
static const u64 unwritten = 0xDEAD;

// A start is made on memories of its own, which take the place of the old ones where it is done.
static u64 started(u64 start(u32 *, u64, u16 *, u64, u16 *, u64, u64), u64 nodes, u64 lent, u64 for_lines) {
    u64 size = (nodes < 16 ? nodes : 16) * tarvelgyo_state_words();
    u32 *new_state = calloc(size + 1, sizeof(u32));
    u16 *new_memory = calloc(lent + 1, sizeof(u16));
    u16 *new_lines = calloc(for_lines + 1, sizeof(u16));
    u64 answer = start(new_state, size, new_memory, lent, new_lines, for_lines, nodes);
    if (answer >> 32 == 1) {
        state = new_state, memory = new_memory, lines = new_lines;
        words = size, tokens = lent, things = for_lines;
    }
    return answer;
}

static u64 number(void) {
    u64 read;
    if (scanf("%lu", &read) != 1) abort();
    return read;
}

// A list of Steps, with records and results in memory of its own.
static u64 steps(void) {
    room = number();
    u64 many = number();
    struct record *list = calloc(many + 1, sizeof(struct record));
    for (u64 i = 0; i < many; i++) list[i].slot = number(), list[i].port = number();
    results = calloc(room + 1, sizeof(u64));
    for (u64 i = 0; i < room; i++) results[i] = unwritten;
    return tarvelgyo_steps(state, words, memory, tokens, lines, things, list, many, results, room);
}

#define CALL(name, ...) \
    if (!strcmp(called, #name)) return tarvelgyo_##name(state, words, memory, tokens, lines, things, __VA_ARGS__)

static u64 answer(const char *called) {
    room = 0;
    if (!strcmp(called, "steps")) return steps();
    u64 a = number(), b = number(), c = number(), d = number(), e = number();
    if (!strcmp(called, "fresh")) return started(tarvelgyo_fresh, a, b, c);
    if (!strcmp(called, "blank")) return started(tarvelgyo_blank, a, b, c);
    CALL(wire, a, b, c, d);
    CALL(set_number, a, b);
    CALL(set_width, a, b);
    CALL(set_direction, a, b, c);
    CALL(set_link_direction, a, b, c);
    CALL(set_network, a, b, c);
    CALL(set_enable, a, b, c);
    CALL(hello, a, b);
    CALL(aim_channel, a, b, c, d, e);
    CALL(aim_unit, a, b, c, d);
    CALL(output_data, a, b, c);
    CALL(output_control, a, b, c);
    CALL(input_data, a, b);
    CALL(input_control, a, b);
    CALL(step, a, b);
    CALL(line_step, a, b);
    abort();
    return 0;
}

static void put(const void *from, u64 size, u64 many) {
    if (fwrite(from, size, many, stdout) != many) abort();
}

int main(void) {
    char called[32];
    while (scanf("%31s", called) == 1) {
        u64 answered = answer(called);
        u64 head[5] = {answered, words, tokens, things, room};
        put(head, sizeof(u64), 5);
        put(state, sizeof(u32), words);
        put(memory, sizeof(u16), tokens);
        put(lines, sizeof(u16), things);
        put(results, sizeof(u64), room);
    }
    return 0;
}
