/* The kernel's calls that are served, under their names of PSX-SPX. Each has a line here, with its numbers, what it does, and its answer, and a line in kernel.s.
   A3C is number 3Ch of gate A0h. docs/calls.md of psxk says exactly what each call does.
   In the groups Numbers, Text and Memory a null pointer is answered with 0, and nothing is touched. A count has a sign for the kernel: from 80000000h on it means no bytes.
   An address that isn't user memory ends the run, with the stop BadPointer. */

#pragma once

#include <stddef.h>

/* Control */

typedef int jmp_buf[12];                                         /* r31, sp, fp, r16 to r23 and gp */

_Noreturn void exit(int code);                                   /* A06, B38: ends the run with the code */
_Noreturn void _exit(int code);                                  /* A3A: the same */
int setjmp(jmp_buf place) __attribute__((returns_twice));        /* A13: marks this place; 0, and once more longjmp's value when that comes back here */
_Noreturn void longjmp(jmp_buf place, int value);                /* A14: goes back to where setjmp marked the place */
void FlushCache(void);                                           /* A44: nothing, for there is no cache */

/* Files and console: the one file is "tty00:", the console, and 0 and 1 are open on it at the start. Where a call refuses it answers -1. */

int putchar(int byte);                                           /* A3C, B3D: writes the low 8 bits; these */
int getchar(void);                                               /* A3B, B3C: waits for a byte, and takes it; the byte */
char *gets(char *line);                                          /* A3D, B3E: waits for a line, and writes its bytes, at most 255, and a zero there; line */
int puts(const char *text);                                      /* A3E, B3F: writes the text, without a newline; 0 */
int open(const char *name, int mode);                            /* A00, B32: opens a file, with the mode 1 to read, 2 to write, 3 for both; its number */
int read(int file, void *to, int count);                         /* A02, B34: waits for a byte, and takes those that are there, at most so many; how many came */
int write(int file, const void *from, int count);                /* A03, B35: writes the bytes; how many */
int close(int file);                                             /* A04, B36: closes the file; its number */
int getc(int file);                                              /* A08, B3A: waits for a byte, and takes it; the byte */
int putc(int byte, int file);                                    /* A09, B3B: writes the low 8 bits; these */
int printf(const char *format, ...)
    __attribute__((format(printf, 1, 2)));                       /* A3F: writes the format with its arguments: %d %i %u %o %x %X %c %s with - 0 width .precision; how many bytes */
int GetLastError(void);                                          /* B54: the errno of the last call on files that refused, 9, 19, 22 or 24; 0 at first */

/* Numbers */

unsigned long strtoul(const char *text, char **rest, int base);  /* A0C: writes where the rest of the text begins, if rest isn't 0; the number that the text begins with */
long strtol(const char *text, char **rest, int base);            /* A0D: the same */
int atoi(const char *text);                                      /* A10: the number that the text begins with, in base 10 */
long atol(const char *text);                                     /* A11: the same */
int abs(int number);                                             /* A0E: the number without its sign */
long labs(long number);                                          /* A0F: the same */
int rand(void);                                                  /* A2F: the next random number, from 0 to 7FFFh */
void srand(unsigned state);                                      /* A30: what rand goes on from, 0 at first */

/* Text */

char *strcat(char *to, const char *text);                        /* A15: copies the text behind the other; to */
char *strncat(char *to, const char *text, size_t count);         /* A16: the same, but at most so many bytes, and a zero; to */
int strcmp(const char *one, const char *other);                  /* A17: the difference of the first bytes that differ, or 0 */
int strncmp(const char *one, const char *other, size_t count);   /* A18: the same of so many bytes at most */
char *strcpy(char *to, const char *text);                        /* A19: copies the text and its zero; to */
char *strncpy(char *to, const char *text, size_t count);         /* A1A: writes so many bytes: those of the text, and then zeros; to */
size_t strlen(const char *text);                                 /* A1B: how many bytes come before the zero */
char *index(const char *text, int byte);                         /* A1C: where the byte stands first, or 0; the zero counts as a byte */
char *rindex(const char *text, int byte);                        /* A1D: where it stands last, or 0 */
char *strchr(const char *text, int byte);                        /* A1E: index by its other name */
char *strrchr(const char *text, int byte);                       /* A1F: rindex by its other name */
char *strpbrk(const char *text, const char *set);                /* A20: where a byte of the set stands first, or 0 */
size_t strspn(const char *text, const char *set);                /* A21: how many bytes of the set the text begins with */
size_t strcspn(const char *text, const char *set);               /* A22: how many bytes that aren't in the set it begins with */
char *strtok(char *text, const char *set);                       /* A23: the first run of bytes that aren't in the set, as a text, or 0; the next one where text is 0 */
char *strstr(const char *text, const char *other);               /* A24: where the other text stands first in the text, or 0 */
int toupper(int byte);                                           /* A25: the low 8 bits, a small letter as its capital */
int tolower(int byte);                                           /* A26: the low 8 bits, a capital as its small letter */

/* Memory: gcc itself calls memcpy, memset, memmove and memcmp. */

void *bcopy(const void *from, void *to, size_t count);           /* A27: memcpy by its other name; to */
void *bzero(void *to, size_t count);                             /* A28: writes zeros; to */
int bcmp(const void *one, const void *other, size_t count);      /* A29: memcmp by its other name */
void *memcpy(void *to, const void *from, size_t count);          /* A2A: copies the bytes one by one, rising; to */
void *memset(void *to, int byte, size_t count);                  /* A2B: writes the low 8 bits so many times; to */
void *memmove(void *to, const void *from, size_t count);         /* A2C: copies the bytes as they were, also where the two places overlap; to */
int memcmp(const void *one, const void *other, size_t count);    /* A2D: the difference of the first bytes that differ, or 0 */
void *memchr(const void *from, int byte, size_t count);          /* A2E: where the byte stands first, or 0 */

/* Heap */

extern char heap_start[], heap_end[];                            /* all memory behind the program, but 32 KB for the stack (psexe.ld) */

void InitHeap(void *from, size_t count);                         /* A39: these bytes are the heap: InitHeap(heap_start, heap_end - heap_start) */
void *malloc(size_t count);                                      /* A33: a block of so many bytes, at a multiple of 8, or 0 */
void free(void *block);                                          /* A34: gives the block back; 0 and what is no block do nothing */
void *calloc(size_t count, size_t size);                         /* A37: a block of so many zeros as their product is, or 0 */
void *realloc(void *block, size_t count);                        /* A38: a block of so many bytes that begins with the old one's bytes, and the old one is given back; or 0 */

/* Threads, events, interrupts: handles are negative numbers, and -1 is none. ChangeThread to no thread ends the run, with the stop BadThread. */

struct element {                                                 /* of a chain of interrupt handlers */
    struct element *next;                                        /* written by the kernel */
    void (*second)(int answer);                                  /* called with the answer of the first, where that isn't 0 */
    int (*first)(void);
};

int OpenThread(void (*begin)(void), void *stack, void *gp);      /* B0E: a handle, or -1; begin has the stack below that address, and may never return */
int CloseThread(int thread);                                     /* B0F: frees the thread, also the one that runs, which goes on; 1 */
int ChangeThread(int thread);                                    /* B10: that thread runs now; 1 when this one is taken up again */
int OpenEvent(unsigned class, unsigned spec, unsigned mode,
              void (*function)(void));                           /* B08: a handle, or -1; the event is disabled */
int CloseEvent(int event);                                       /* B09: frees the event; 1 */
int WaitEvent(int event);                                        /* B0A: waits until the event is ready, and it is busy again; 1, or 0 where it isn't enabled */
int TestEvent(int event);                                        /* B0B: 1 where the event is ready, and it is busy again; else 0 */
int EnableEvent(int event);                                      /* B0C: the event is enabled: busy, until it is ready; 1 */
int DisableEvent(int event);                                     /* B0D: the event is disabled; 1 */
void UnDeliverEvent(unsigned class, unsigned spec);              /* B20: ready events of this class and spec, and of the mode 2000h, are busy again */
void DeliverEvent(unsigned class, unsigned spec);                /* B07: busy events of this class and spec are ready, of the mode 2000h, or their functions are called, of the mode 1000h */
_Noreturn void ReturnFromException(void);                        /* B17: ends the function that the kernel called, and all that was still to be called with it */
int SysEnqIntRP(int chain, struct element *element);             /* C02: puts the element before the others of the chain, 0 to 3; 0, or -1 where it has 8 */
int SysDeqIntRP(int chain, struct element *element);             /* C03: takes the element out; 0, or -1 where it isn't there */
void NoFunction(void);                                           /* SYSCALL 0: nothing */
int init_timer(int counter, unsigned target, unsigned flags);    /* B02: counter 0 to 2 begins at 0 with a target; 1, or 0 for another number */
unsigned get_timer(int counter);                                 /* B03: the counter's value */
int enable_timer_irq(int counter);                               /* B04: lets its interrupts through, or VBLANK's for 3; 1, or 0 for another number */
int disable_timer_irq(int counter);                              /* B05: masks them; the same */
int restart_timer(int counter);                                  /* B06: the counter begins at 0 again; 1, or 0 for another number */
int EnterCriticalSection(void);                                  /* SYSCALL 1: interrupts are off; 1 where they were on, else 0 */
void ExitCriticalSection(void);                                  /* SYSCALL 2: interrupts are on */
