// The devices: interrupt lines, root counters, the console, the start ports and the halt ports, and the schedule that reaches them.
#include "board.h"

enum {
    I_STAT = 0x1F801070, I_MASK = 0x1F801074, COUNTERS = 0x1F801100,
    CONSOLE_STATUS = 0x1F802100, CONSOLE_DATA = 0x1F802104,
    HALT_A = 0x1F802108, HALT_B = 0x1F80210C, HALT_C = 0x1F802110, HALT = 0x1F802114, START = 0x1F802118, START_EVENTS = 0x1F802128
};

// A root counter as it stands at the count `at`.
struct counter {
    uint32_t mode, value, target;
    bool reached_target, reached_top, raised;
    uint64_t at;
};

bool interrupt_line;
uint64_t next_event;

static struct start start;
static const struct entry *entries;
static size_t entry_count, delivered;
static uint8_t *console;
static size_t given, taken;
static uint32_t i_stat, i_mask, halt_word[3];
static struct counter counters[3];

static void update_line(void) { interrupt_line = (i_stat & i_mask) != 0; }

// ---- counters

// The steps from one turn of the counter to the next.
static uint32_t clock_of(int t) {
    bool divided = counters[t].mode >> (t == 2 ? 9 : 8) & 1;
    return !divided ? 1 : t == 1 ? 2048 : 8;
}

// Whether the next turn brings the value back to 0.
static bool is_last(const struct counter *c) { return c->value == 0xFFFF || (c->mode & 8 && c->target && c->value == c->target); }

// The turns up to the next value that is 0, the target or FFFFh.
static uint32_t turns_ahead(const struct counter *c) {
    if (is_last(c)) return 1;
    return (c->target > c->value ? c->target : 0xFFFF) - c->value;
}

// Turns that come to such a value at their end only, or to none.
static void make_turns(int t, uint32_t turns) {
    struct counter *c = &counters[t];
    c->value = is_last(c) ? 0 : c->value + turns;
    bool target = c->target && c->value == c->target, top = c->value == 0xFFFF;
    c->reached_target |= target;
    c->reached_top |= top;
    if ((target && c->mode & 0x10) || (top && c->mode & 0x20)) {
        if (c->mode & 0x40 || !c->raised) i_stat |= 1u << (4 + t);
        c->raised = true;
    }
}

// Brings the counters up to the count.
static void bring_up(void) {
    for (int t = 0; t < 3; t++) {
        uint64_t left = count / clock_of(t) - counters[t].at / clock_of(t);
        while (left) {
            uint32_t turns = turns_ahead(&counters[t]);
            if (turns > left) turns = (uint32_t)left;
            make_turns(t, turns);
            left -= turns;
        }
        counters[t].at = count;
    }
    update_line();
}

// The next count at which something happens of itself.
static void plan(void) {
    next_event = delivered < entry_count ? entries[delivered].count : UINT64_MAX;
    for (int t = 0; t < 3; t++) {
        uint64_t clock = clock_of(t), at = (count / clock + turns_ahead(&counters[t])) * clock;
        if (counters[t].mode & 0x30 && at < next_event) next_event = at;
    }
}

void ports_turn(void) {
    bring_up();
    for (; delivered < entry_count && entries[delivered].count <= count; delivered++) {
        struct entry e = entries[delivered];
        if (e.is_line) i_stat |= 1u << e.value;
        else console[given++] = e.value;
    }
    update_line();
    plan();
}

void ports_reset(struct start at_start, const struct entry *schedule, size_t length, uint8_t *due) {
    start = at_start;
    entries = schedule;
    entry_count = length;
    console = due;
    plan();
}

// ---- ports

static bool is_counter(uint32_t p) { return p >= COUNTERS && p <= COUNTERS + 0x28 && p % 4 == 0 && p % 16 < 12; }

bool is_port(uint32_t p) { return p == I_STAT || p == I_MASK || is_counter(p) || (p >= CONSOLE_STATUS && p <= START_EVENTS && p % 4 == 0); }

static uint32_t counter_read(struct counter *c, uint32_t which) {
    if (which == 0) return c->value;
    if (which == 8) return c->target;
    uint32_t mode = c->mode | (uint32_t)c->reached_target << 11 | (uint32_t)c->reached_top << 12;
    c->reached_target = c->reached_top = false;
    return mode;
}

static void counter_write(struct counter *c, uint32_t which, uint32_t value) {
    if (which == 0) c->value = value & 0xFFFF;
    if (which == 8) c->target = value & 0xFFFF;
    if (which == 4) *c = (struct counter){.mode = value & 0x3FF, .target = c->target, .at = count};
}

uint32_t port_read(uint32_t p) {
    bring_up();
    if (is_counter(p)) return counter_read(&counters[(p - COUNTERS) / 16], p % 16);
    switch (p) {
    case I_STAT: return i_stat;
    case I_MASK: return i_mask;
    case CONSOLE_STATUS: return taken < given;
    case CONSOLE_DATA: return taken < given ? console[taken++] : 0;
    default: return p >= START ? start.words[(p - START) / 4] : 0;
    }
}

static enum outcome halt(uint32_t code) {
    static const char *const unserved[] = {"Unserved A", "Unserved B", "Unserved C", "Unserved Y"};
    static const struct { const char *name; int words; } stops[8] = {
        [1] = {"Exit", 1}, [2] = {"Exception", 2}, [4] = {"BadPointer", 2}, [5] = {"BadThread", 2}, [6] = {"Deep", 1}, [7] = {"BadReturn", 1},
    };
    const uint32_t *w = halt_word;
    if (code == 3) return stop(HALTED, unserved[w[0] < 3 ? w[0] : 3], 2, w[1], w[2]);
    return code < 8 && stops[code].name ? stop(HALTED, stops[code].name, stops[code].words, w[0], w[1]) : GOES;
}

enum outcome port_write(uint32_t p, uint32_t value) {
    bring_up();
    if (is_counter(p)) counter_write(&counters[(p - COUNTERS) / 16], p % 16, value);
    switch (p) {
    case I_STAT: i_stat &= value; break;
    case I_MASK: i_mask = value & 0x7FF; break;
    case CONSOLE_DATA: tty_byte((uint8_t)value); break;
    case HALT_A: case HALT_B: case HALT_C: halt_word[(p - HALT_A) / 4] = value; break;
    case HALT: return halt(value);
    }
    update_line();
    plan();
    return GOES;
}
