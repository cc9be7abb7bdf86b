// board IMAGE EXE SCHED BUDGET [CNF]: runs a PS-EXE on the image, as psxk's `run EXE SCHED BUDGET [CNF]` does; docs/formats.md has the texts.
// What the program wrote goes to board.tty, the trace to board.trace and the last memory to board.bin. The statuses are psxk's, and 8 where the image is no image.
// It refuses what it can't run. It isn't as strict as psxk with the form of schedules and configurations.
#include "board.h"

#include <inttypes.h>
#include <stdio.h>
#include <stdlib.h>
#include <string.h>

enum { USAGE = 2, BAD_EXE = 3, BAD_SCHEDULE = 4, NOT_READ = 5, NOT_WRITTEN = 6, BAD_IMAGE = 8, BAD_CONFIG = 9 };
enum { MOST_ENTRIES = 65536, HEADER = 0x800, LINE = 512 };

static FILE *trace, *tty;

// Ends with a report, the fault and where it is.
static void refuse(int status, const char *fault, const char *at) {
    printf("board: %s %s\n", fault, at);
    exit(status);
}

// ---- outputs

static FILE *open_file(const char *name, const char *mode) {
    FILE *file = fopen(name, mode);
    if (!file) refuse(*mode == 'r' ? NOT_READ : NOT_WRITTEN, *mode == 'r' ? "read" : "write", name);
    return file;
}

static void finish(FILE *file, const char *name) {
    bool failed = ferror(file);
    if (fclose(file) || failed) refuse(NOT_WRITTEN, "write", name);
}

void tty_byte(uint8_t byte) { putc(byte, tty); }

// The line of the trace that is being made; the longest is an X line of 35 words.
static char line[LINE];
static size_t length;

void trace_begin(char letter, uint64_t at) {
    char digits[20];
    int n = 0;
    length = 0;
    do digits[n++] = '0' + at % 10; while (at /= 10);
    line[length++] = letter;
    line[length++] = ' ';
    while (n) line[length++] = digits[--n];
}

void trace_word(uint32_t word) {
    line[length++] = ' ';
    for (int shift = 28; shift >= 0; shift -= 4) line[length++] = "0123456789ABCDEF"[word >> shift & 15];
}

void trace_letter(char letter) {
    line[length++] = ' ';
    line[length++] = letter;
}

void trace_end(void) {
    line[length++] = '\n';
    fwrite(line, 1, length, trace);
}

// ---- inputs

static void load_image(const char *name) {
    FILE *file = open_file(name, "rb");
    if (fread(rom, 1, ROM_SIZE, file) != ROM_SIZE || getc(file) != EOF) refuse(BAD_IMAGE, "image: hasn't 524288 bytes:", name);
    fclose(file);
}

// The byte of user memory at a virtual address.
static uint8_t *user_byte(uint32_t a, const char *name) {
    uint32_t p = a & 0x1FFFFFFF, top = a >> 29;
    bool in_ram = p >= 0x10000 && p < RAM_SIZE, in_scratchpad = p >= 0x1F800000 && p < 0x1F800000 + SCRATCHPAD_SIZE;
    if (!(top == 0 || top == 4 || (top == 5 && in_ram)) || !(in_ram || in_scratchpad)) refuse(BAD_EXE, "exe: is outside of user memory:", name);
    return in_ram ? &ram[p] : &scratchpad[p - 0x1F800000];
}

static uint32_t number_at(const uint8_t *b) { return b[0] | b[1] << 8 | b[2] << 16 | (uint32_t)b[3] << 24; }

// Places a PS-EXE: its text, then zeros in its fill.
static struct start load_exe(const char *name) {
    uint8_t header[HEADER];
    FILE *file = open_file(name, "rb");
    if (fread(header, 1, HEADER, file) != HEADER || memcmp(header, "PS-X EXE", 8)) refuse(BAD_EXE, "exe: has no header:", name);
    uint32_t pc = number_at(header + 0x10), to = number_at(header + 0x18), size = number_at(header + 0x1C);
    uint32_t fill = number_at(header + 0x28), fill_size = number_at(header + 0x2C), sp = number_at(header + 0x30);
    for (uint32_t i = 0; i < size; i++) {
        int byte = getc(file);
        if (byte == EOF) refuse(BAD_EXE, "exe: is cut off:", name);
        *user_byte(to + i, name) = (uint8_t)byte;
    }
    for (uint32_t i = 0; i < fill_size; i++) *user_byte(fill + i, name) = 0;
    user_byte(pc, name);
    if (pc % 4) refuse(BAD_EXE, "exe: has a pc that isn't a multiple of 4:", name);
    fclose(file);
    return (struct start){{pc, number_at(header + 0x14), sp ? sp + number_at(header + 0x34) : 0x801FFF00, 4, 16}};
}

static size_t load_schedule(const char *name, struct entry *entries) {
    char text[LINE], kind[5];
    size_t n = 0;
    if (!strcmp(name, "-")) return 0;
    FILE *file = open_file(name, "r");
    for (; fgets(text, LINE, file); n++) {
        struct entry e = {0};
        int read = n < MOST_ENTRIES ? sscanf(text, "%" SCNu64 " %4s", &e.count, kind) : 0;
        e.is_line = read == 2 && !strcmp(kind, "line");
        if (read == 2) read += sscanf(text, e.is_line ? "%*s %*s %2" SCNu8 : "%*s byte %2" SCNx8, &e.value);
        if (read != 3 || (e.is_line && e.value > 10) || (n && e.count < entries[n - 1].count)) refuse(BAD_SCHEDULE, "schedule: has a bad line:", text);
        entries[n] = e;
    }
    fclose(file);
    return n;
}

static void load_config(const char *name, struct start *start) {
    char text[LINE], key[LINE];
    FILE *file = open_file(name, "r");
    while (fgets(text, LINE, file)) {
        uint32_t *size = sscanf(text, " %[A-Z]", key) < 1 ? NULL : !strcmp(key, "TCB") ? &start->words[THREADS] : !strcmp(key, "EVENT") ? &start->words[EVENTS] : NULL;
        if (size && sscanf(text, " %*[A-Z] = %8" SCNx32, size) != 1) refuse(BAD_CONFIG, "config: has a bad line:", text);
    }
    uint32_t threads = start->words[THREADS], events = start->words[EVENTS];
    if (threads < 4 || threads > 16 || events < 16 || events > 64) refuse(BAD_CONFIG, "config: has a size out of its range:", name);
    fclose(file);
}

int main(int words, char **word) {
    static struct entry entries[MOST_ENTRIES];
    static uint8_t due[MOST_ENTRIES];
    char *behind = NULL;
    uint64_t budget = words == 5 || words == 6 ? strtoull(word[4], &behind, 10) : 0;
    if (budget == 0 || budget > 4000000000 || *behind) refuse(USAGE, "usage:", "IMAGE EXE SCHED BUDGET [CNF]");
    load_image(word[1]);
    struct start start = load_exe(word[2]);
    size_t entry_count = load_schedule(word[3], entries);
    if (words == 6) load_config(word[5], &start);
    trace = open_file("board.trace", "wb");
    tty = open_file("board.tty", "wb");
    ports_reset(start, entries, entry_count, due);
    const char *stopped = run(budget);
    fprintf(trace, "S %" PRIu64 " %s\n", count, stopped);
    finish(trace, "board.trace");
    finish(tty, "board.tty");
    FILE *memory = open_file("board.bin", "wb");
    fwrite(ram, 1, RAM_SIZE, memory);
    fwrite(scratchpad, 1, SCRATCHPAD_SIZE, memory);
    finish(memory, "board.bin");
    return strncmp(stopped, "Exit", 4) && strcmp(stopped, "Budget") ? 1 : 0;
}
