/* Counts the words of the console's input up to an empty line, and writes each in the order of strcmp, with how often it came. The program's code is how many different ones there were.
   The words are a list in the heap. The lines come by a schedule, words.sched. */

#include "kernel.h"

struct word {
    struct word *next;
    unsigned count;
    char text[];
};

static const char blanks[] = " ,.;:!?";

static struct word *words;              /* rising by strcmp */

static struct word *new_word(const char *text, struct word *next) {
    struct word *word = malloc(sizeof *word + strlen(text) + 1);
    if (word == 0) {
        puts("the heap is full\n");
        exit(1);
    }
    word->next = next;
    word->count = 0;
    strcpy(word->text, text);
    return word;
}

static void count_word(const char *text) {
    struct word **place = &words;
    while (*place && strcmp((*place)->text, text) < 0) {
        place = &(*place)->next;
    }
    if (*place == 0 || strcmp((*place)->text, text) != 0) {
        *place = new_word(text, *place);
    }
    (*place)->count++;
}

static void count_words(char *line) {
    for (char *byte = line; *byte; byte++) {
        *byte = tolower(*byte);
    }
    for (char *text = strtok(line, blanks); text; text = strtok(0, blanks)) {
        count_word(text);
    }
}

int main(void) {
    char line[256];
    int different = 0;
    InitHeap(heap_start, heap_end - heap_start);
    while (*gets(line)) {
        count_words(line);
    }
    for (struct word *word = words; word; word = word->next) {
        printf("%u %s\n", word->count, word->text);
        different++;
    }
    return different;
}
