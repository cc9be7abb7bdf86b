// The processor: the R3000A with load delay, delay slots, coprocessor 0 and exceptions, the memories, and the guard of the user side.
#include "board.h"

#include <stdio.h>

uint8_t ram[RAM_SIZE], scratchpad[SCRATCHPAD_SIZE], rom[ROM_SIZE];
uint64_t count;

static uint32_t r[32], hi, lo, pc = 0xBFC00000, next_pc = 0xBFC00004, sr = 0x00400000, cause, epc, bad_address; // as after reset
static uint32_t load_register, load_value; // the pending load; register 0 is none
static bool in_slot, latch = true, begun;  // latch: the kernel side; begun: the program was reached
static char stop_text[64];

enum { ADDRESS_LOAD = 4, ADDRESS_STORE = 5, SYSCALL = 8, BREAK = 9, RESERVED = 10, COPROCESSOR = 11, OVERFLOW = 12 };

enum outcome stop(enum outcome outcome, const char *name, int words, uint32_t a, uint32_t b) {
    static const char *const forms[] = {"%s", "%s %08X", "%s %08X %08X"};
    snprintf(stop_text, sizeof stop_text, forms[words], name, a, b);
    return outcome;
}

// ---- memory

static inline bool has_segment(uint32_t a) { return 0x31 >> (a >> 29) & 1; } // top bits 0, 4 and 5

static inline bool is_user(uint32_t a) {
    uint32_t p = a & 0x1FFFFFFF;
    return has_segment(a) && (p - 0x10000 < RAM_SIZE - 0x10000 || (p - 0x1F800000 < SCRATCHPAD_SIZE && a >> 29 != 5));
}

// The physical address of a gate, or 0.
static inline uint32_t gate(uint32_t a) {
    uint32_t p = a & 0x1FFFFFFF;
    return has_segment(a) && p >= 0xA0 && p <= 0xE0 && p % 16 == 0 ? p : 0;
}

// Where an address has its byte, or NULL.
static inline uint8_t *place(uint32_t a) {
    uint32_t p = a & 0x1FFFFFFF;
    if (!has_segment(a)) return NULL;
    if (p < RAM_SIZE) return ram + p;
    if (p - 0x1F800000 < SCRATCHPAD_SIZE) return scratchpad + (p - 0x1F800000);
    if (p - 0x1FC00000 < ROM_SIZE) return rom + (p - 0x1FC00000);
    return NULL;
}

// The little-endian number of so many bytes at an address; no memory reads 0.
static inline uint32_t read_memory(uint32_t a, int bytes) {
    const uint8_t *b = place(a);
    if (!b) return 0;
    if (bytes == 1) return b[0];
    if (bytes == 2) return b[0] | b[1] << 8;
    return b[0] | b[1] << 8 | b[2] << 16 | (uint32_t)b[3] << 24;
}

static inline void write_memory(uint32_t a, int bytes, uint32_t value) {
    uint8_t *b = place(a);
    if (!b || (a & 0x1FFFFFFF) >= 0x1FC00000) return;
    b[0] = value;
    if (bytes > 1) b[1] = value >> 8;
    if (bytes > 2) b[2] = value >> 16, b[3] = value >> 24;
}

// ---- where a step ends

// Behind any other instruction than a branch or jump.
static inline enum outcome advance(void) {
    r[0] = 0;
    pc = next_pc;
    next_pc += 4;
    in_slot = false;
    return GOES;
}

// Behind a branch or jump: the slot, and then the target.
static inline enum outcome jump(uint32_t target) {
    if (in_slot && !latch) return stop(BARRED, "SlotBranch", 1, pc, 0);
    r[0] = 0;
    pc = next_pc;
    next_pc = target;
    in_slot = true;
    return GOES;
}

static inline enum outcome branch(bool holds, uint32_t w) { return jump(holds ? pc + 4 + (uint32_t)(int16_t)w * 4 : pc + 8); }

static void trace_entry(uint32_t code) {
    char letter = code ? 'T' : 'I';
    uint32_t number = code;
    if (code == SYSCALL && !(cause >> 31)) {
        uint32_t p = gate(epc);
        letter = p ? "ABCPK"[p / 16 - 10] : 'Y';
        number = !p ? r[4] : p <= 0xC0 ? r[9] : r[2];
    }
    trace_begin('E', count);
    trace_word(cause | (uint32_t)interrupt_line << 10);
    trace_word(epc);
    trace_letter(letter);
    trace_word(number);
    trace_end();
}

// An exception, or an interrupt with the code 0.
static enum outcome enter(uint32_t code) {
    r[load_register] = load_value;
    load_register = r[0] = 0;
    cause = code << 2 | (uint32_t)in_slot << 31;
    epc = in_slot ? pc - 4 : pc;
    pc = sr >> 22 & 1 ? 0xBFC00180 : 0x80000080;
    next_pc = pc + 4;
    sr = (sr & ~0x3Fu) | (sr & 0xF) << 2;
    in_slot = false;
    latch = true;
    if (begun) trace_entry(code);
    return GOES;
}

static enum outcome bad(uint32_t a, uint32_t code) {
    bad_address = a;
    return enter(code);
}

// RFE: back to the user side.
static enum outcome leave(void) {
    sr = (sr & ~0xFu) | (sr >> 2 & 0xF);
    latch = false;
    advance();
    trace_begin(begun ? 'X' : 'B', count + 1);
    if (begun) {
        trace_word(pc), trace_word(sr), trace_word(hi), trace_word(lo);
        for (int i = 1; i < 32; i++) trace_word(r[i]);
    }
    trace_end();
    begun = true;
    return GOES;
}

// ---- instructions: w is the word, s and t are what the registers of these fields held before it

static void divide(int32_t s, int32_t t) {
    if (t == 0) lo = s < 0 ? 1 : 0xFFFFFFFF, hi = s;
    else if (t == -1) lo = -(uint32_t)s, hi = 0;
    else lo = s / t, hi = s % t;
}

static void set_product(uint64_t product) { hi = product >> 32, lo = (uint32_t)product; }

// Whether a sum of words whose signs are equal has another sign. A difference is the sum with the second word's bits turned.
static inline bool overflows(uint32_t a, uint32_t b, uint32_t sum) { return (~(a ^ b) & (a ^ sum)) >> 31; }

// The fields that an instruction of op 0 doesn't have, by funct: they are 0.
enum { S = 31 << 21, T = 31 << 16, D = 31 << 11, N = 31 << 6 };

static const uint32_t unused[64] = {
    [0x00] = S, [0x02] = S, [0x03] = S, [0x04] = N, [0x06] = N, [0x07] = N, [0x08] = T | D | N, [0x09] = T | N,
    [0x10] = S | T | N, [0x11] = T | D | N, [0x12] = S | T | N, [0x13] = T | D | N, [0x18] = D | N, [0x19] = D | N, [0x1A] = D | N, [0x1B] = D | N,
    [0x20] = N, [0x21] = N, [0x22] = N, [0x23] = N, [0x24] = N, [0x25] = N, [0x26] = N, [0x27] = N, [0x2A] = N, [0x2B] = N,
};

static enum outcome no_instruction(uint32_t op) {
    bool of_coprocessor = (op >= 0x11 && op <= 0x13) || (op >= 0x31 && op <= 0x33) || (op >= 0x39 && op <= 0x3B);
    return enter(of_coprocessor ? COPROCESSOR : RESERVED);
}

static inline enum outcome special(uint32_t w, uint32_t s, uint32_t t) {
    uint32_t *d = &r[w >> 11 & 31], n = w >> 6 & 31;
    if (w & unused[w & 63]) return enter(RESERVED);
    switch (w & 63) {
    case 0x00: *d = t << n; break;
    case 0x02: *d = t >> n; break;
    case 0x03: *d = (int32_t)t >> n; break;
    case 0x04: *d = t << (s & 31); break;
    case 0x06: *d = t >> (s & 31); break;
    case 0x07: *d = (int32_t)t >> (s & 31); break;
    case 0x08: return jump(s);
    case 0x09: *d = pc + 8; return jump(s);
    case 0x0C: return enter(SYSCALL);
    case 0x0D: return enter(BREAK);
    case 0x10: *d = hi; break;
    case 0x11: hi = s; break;
    case 0x12: *d = lo; break;
    case 0x13: lo = s; break;
    case 0x18: set_product((uint64_t)((int64_t)(int32_t)s * (int32_t)t)); break;
    case 0x19: set_product((uint64_t)s * t); break;
    case 0x1A: divide(s, t); break;
    case 0x1B: lo = t ? s / t : 0xFFFFFFFF, hi = t ? s % t : s; break;
    case 0x20: if (overflows(s, t, s + t)) return enter(OVERFLOW); // fallthrough
    case 0x21: *d = s + t; break;
    case 0x22: if (overflows(s, ~t, s - t)) return enter(OVERFLOW); // fallthrough
    case 0x23: *d = s - t; break;
    case 0x24: *d = s & t; break;
    case 0x25: *d = s | t; break;
    case 0x26: *d = s ^ t; break;
    case 0x27: *d = ~(s | t); break;
    case 0x2A: *d = (int32_t)s < (int32_t)t; break;
    case 0x2B: *d = s < t; break;
    default: return enter(RESERVED);
    }
    return advance();
}

// BLTZ, BGEZ, BLTZAL and BGEZAL, by the field t.
static inline enum outcome branch_by_sign(uint32_t w, uint32_t s) {
    uint32_t kind = w >> 16 & 31;
    if (kind & 0xE) return enter(RESERVED);
    if (kind & 0x10) r[31] = pc + 8;
    return branch((s >> 31) != (kind & 1), w);
}

static inline enum outcome coprocessor0(uint32_t w, uint32_t t) {
    uint32_t kind = w >> 21 & 31, d = w >> 11 & 31;
    bool moves = (kind == 0 || kind == 4) && !(w & 0x7FF);
    if (!moves && w != 0x42000010) return enter(RESERVED);
    if (!latch) return stop(BARRED, "Protected", 1, pc, 0);
    if (!moves) return leave();
    if (kind == 4) {
        if (d == 12) sr = t & 0x0041FF3F;
        return advance();
    }
    uint32_t value = d == 8 ? bad_address : d == 12 ? sr : d == 13 ? cause | (uint32_t)interrupt_line << 10 : d == 14 ? epc : 0;
    r[w >> 16 & 31] = t;
    load_register = w >> 16 & 31;
    load_value = value;
    return advance();
}

// The line of an access to a port.
static void trace_access(char letter, uint32_t p, uint32_t value) {
    if (!begun) return;
    trace_begin(letter, count);
    trace_word(p);
    trace_word(value);
    trace_end();
}

static inline uint32_t load_word(uint32_t a) {
    uint32_t p = a & 0x1FFFFFFF;
    if (place(a) || !has_segment(a) || !is_port(p)) return read_memory(a, 4);
    uint32_t value = port_read(p);
    trace_access('R', p, value);
    return value;
}

static inline enum outcome store_word(uint32_t a, uint32_t value) {
    uint32_t p = a & 0x1FFFFFFF;
    if (place(a) || !has_segment(a) || !is_port(p)) {
        write_memory(a, 4, value);
        return advance();
    }
    if (p < 0x1F802100 || p > 0x1F802114) trace_access('W', p, value);
    advance();
    return port_write(p, value);
}

// What stands in the way of an access: its alignment, and then the guard.
#define CHECK(bytes, code) \
    if (a & (bytes - 1)) return bad(a, code); \
    if (!latch && !is_user(a)) return stop(BARRED, "UserData", 2, pc, a)

static inline enum outcome load(uint32_t op, uint32_t w, uint32_t a, uint32_t t) {
    uint32_t to = w >> 16 & 31, latest = r[to], value, n = a % 4 * 8;
    switch (op) {
    case 0x20: CHECK(1, ADDRESS_LOAD); value = (uint32_t)(int8_t)read_memory(a, 1); break;
    case 0x21: CHECK(2, ADDRESS_LOAD); value = (uint32_t)(int16_t)read_memory(a, 2); break;
    case 0x22: CHECK(1, ADDRESS_LOAD); value = read_memory(a & ~3u, 4) << (24 - n) | (latest & (0x00FFFFFFu >> n)); break;
    case 0x24: CHECK(1, ADDRESS_LOAD); value = read_memory(a, 1); break;
    case 0x25: CHECK(2, ADDRESS_LOAD); value = read_memory(a, 2); break;
    case 0x26: CHECK(1, ADDRESS_LOAD); value = read_memory(a & ~3u, 4) >> n | (latest & ~(0xFFFFFFFFu >> n)); break;
    default: CHECK(4, ADDRESS_LOAD); value = load_word(a); break;
    }
    r[to] = t; // of two loads of one register in a row the first is dropped
    load_register = to;
    load_value = value;
    return advance();
}

static inline enum outcome store(uint32_t op, uint32_t a, uint32_t t) {
    uint32_t n = a % 4 * 8, word = a & ~3u;
    switch (op) {
    case 0x28: CHECK(1, ADDRESS_STORE); write_memory(a, 1, t); break;
    case 0x29: CHECK(2, ADDRESS_STORE); write_memory(a, 2, t); break;
    case 0x2A: CHECK(1, ADDRESS_STORE); write_memory(word, 4, t >> (24 - n) | (read_memory(word, 4) & ~(0xFFFFFFFFu >> (24 - n)))); break;
    case 0x2E: CHECK(1, ADDRESS_STORE); write_memory(word, 4, t << n | (read_memory(word, 4) & ~(0xFFFFFFFFu << n))); break;
    default: CHECK(4, ADDRESS_STORE); return store_word(a, t);
    }
    return advance();
}

static inline enum outcome other(uint32_t op, uint32_t w, uint32_t s, uint32_t t) {
    uint32_t *to = &r[w >> 16 & 31], zero_extended = w & 0xFFFF, extended = (uint32_t)(int16_t)w;
    switch (op) {
    case 0x01: return branch_by_sign(w, s);
    case 0x03: r[31] = pc + 8; // fallthrough
    case 0x02: return jump(((pc + 4) & 0xF0000000) | (w & 0x03FFFFFF) << 2);
    case 0x04: return branch(s == t, w);
    case 0x05: return branch(s != t, w);
    case 0x06: return w & T ? enter(RESERVED) : branch((int32_t)s <= 0, w);
    case 0x07: return w & T ? enter(RESERVED) : branch((int32_t)s > 0, w);
    case 0x08: if (overflows(s, extended, s + extended)) return enter(OVERFLOW); // fallthrough
    case 0x09: *to = s + extended; break;
    case 0x0A: *to = (int32_t)s < (int32_t)extended; break;
    case 0x0B: *to = s < extended; break;
    case 0x0C: *to = s & zero_extended; break;
    case 0x0D: *to = s | zero_extended; break;
    case 0x0E: *to = s ^ zero_extended; break;
    case 0x0F: if (w & S) return enter(RESERVED); *to = zero_extended << 16; break;
    case 0x10: return coprocessor0(w, t);
    case 0x20: case 0x21: case 0x22: case 0x23: case 0x24: case 0x25: case 0x26: return load(op, w, s + extended, t);
    case 0x28: case 0x29: case 0x2A: case 0x2B: case 0x2E: return store(op, s + extended, t);
    default: return no_instruction(op);
    }
    return advance();
}

// ---- one step

static inline enum outcome step(void) {
    if (interrupt_line && (sr & 0x401) == 0x401) return enter(0);
    if (pc & 3) return bad(pc, ADDRESS_LOAD);
    if (!latch && !is_user(pc) && !gate(pc)) return stop(BARRED, "UserFetch", 1, pc, 0);
    uint32_t w = read_memory(pc, 4), op = w >> 26;
    uint32_t s = r[w >> 21 & 31], t = r[w >> 16 & 31];
    r[load_register] = load_value;
    load_register = 0;
    return op == 0 ? special(w, s, t) : other(op, w, s, t);
}

const char *run(uint64_t budget) {
    while (count < budget) {
        if (count >= next_event) ports_turn();
        enum outcome outcome = step();
        if (outcome != BARRED) count++;
        if (outcome != GOES) return stop_text;
    }
    return "Budget";
}
