// A plain C interpreter of the board of docs/ports.md: what its three files share.
// It is written from the documents and definitions, as a second opinion on psxk's board and as the least host that the image needs.
#ifndef BOARD_H
#define BOARD_H

#include <stdbool.h>
#include <stddef.h>
#include <stdint.h>

enum { RAM_SIZE = 0x200000, SCRATCHPAD_SIZE = 0x400, ROM_SIZE = 0x80000 };

extern uint8_t ram[RAM_SIZE], scratchpad[SCRATCHPAD_SIZE], rom[ROM_SIZE];

// How many steps are finished.
extern uint64_t count;

// ---- cpu.c

enum outcome {
    GOES,   // the step is finished, and the run goes on
    HALTED, // the step is finished, and the run has stopped
    BARRED  // the guard has stopped the run before the step
};

// Sets the text of the stop, as in an S line, and answers what was given.
enum outcome stop(enum outcome outcome, const char *name, int words, uint32_t a, uint32_t b);
// Makes steps until a stop or until the budget is used up. Answers the stop's text.
const char *run(uint64_t budget);

// ---- ports.c

// What reaches the board from outside, and when: a byte of the console, or an interrupt line from 0 to 10.
struct entry {
    uint64_t count;
    bool is_line;
    uint8_t value;
};

// What the start ports read, in their order: the program's pc, gp and stack, and the kernel's numbers of threads and events.
enum { PC, GP, SP, THREADS, EVENTS };
struct start { uint32_t words[5]; };

// Whether a line that isn't masked is pending.
extern bool interrupt_line;
// The least count at which an entry is due or a counter may raise its line.
extern uint64_t next_event;

// The entries stay where they are; due has room for a byte for each of them.
void ports_reset(struct start given, const struct entry *entries, size_t entry_count, uint8_t *due);
// Makes the counters' turns and delivers the entries up to the count.
void ports_turn(void);
bool is_port(uint32_t physical);
uint32_t port_read(uint32_t physical);
enum outcome port_write(uint32_t physical, uint32_t value);

// ---- main.c

// A line of the trace: its letter and count, then words in hexadecimal, then the end.
void trace_begin(char letter, uint64_t at);
void trace_word(uint32_t word);
void trace_letter(char letter);
void trace_end(void);
void tty_byte(uint8_t byte);

#endif
