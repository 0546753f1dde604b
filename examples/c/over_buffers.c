/* Does what the program does for its words but `run`, over buffers: standard input is the text, standard output the picture and
 * standard error the notes. It asks once with small buffers, and once more with as much room as the answer says is needed. */
#include "dri.h"

#include <stdio.h>
#include <stdlib.h>
#include <string.h>

struct bytes {
    uint8_t *at;
    size_t length;
};

/* Makes room for so many bytes; null where there are none. */
static struct bytes room_for(size_t length) {
    struct bytes made = {length ? malloc(length) : NULL, length};
    if (length && !made.at) exit(DRI_OUT_OF_MEMORY);
    return made;
}

/* Reads standard input to its end. */
static struct bytes read_all(void) {
    struct bytes text = room_for(1 << 16);
    size_t taken = 0, count;
    while ((count = fread(text.at + taken, 1, text.length - taken, stdin)) > 0) {
        taken += count;
        if (taken == text.length) {
            text.length *= 2;
            text.at = realloc(text.at, text.length);
            if (!text.at) exit(DRI_OUT_OF_MEMORY);
        }
    }
    text.length = taken;
    return text;
}

/* The number that a word spells without leading zeros, or 0, which is in no range. */
static uint32_t number(const char *word) {
    char spelled[16];
    unsigned long value = strtoul(word, NULL, 10);
    snprintf(spelled, sizeof spelled, "%lu", value > 100000 ? 0 : value);
    return strcmp(word, spelled) ? 0 : (uint32_t)value;
}

/* Makes the call that the words name. Returns whether there is one. */
static int call(int count, char **words, struct bytes text, struct bytes picture, struct bytes notes, struct dri_answer *answer) {
#define BUFFERS picture.at, picture.length, notes.at, notes.length, answer
    if (count == 1 && !strcmp(words[0], "turns"))
        dri_turns(text.at, text.length, BUFFERS);
    else if (count == 1 && !strcmp(words[0], "sarea"))
        dri_sarea(text.at, text.length, BUFFERS);
    else if (count == 1 && !strcmp(words[0], "check"))
        dri_check(text.at, text.length, BUFFERS);
    else if (count == 1 && !strcmp(words[0], "flip"))
        dri_flip(text.at, text.length, BUFFERS);
    else if (count == 1 && !strcmp(words[0], "card16"))
        dri_card16(text.at, text.length, BUFFERS);
    else if (count == 1 && !strcmp(words[0], "many"))
        dri_many(text.at, text.length, BUFFERS);
    else if (count == 2 && !strcmp(words[0], "ring"))
        dri_ring(number(words[1]), text.at, text.length, BUFFERS);
    else if (count == 3 && !strcmp(words[0], "solo"))
        dri_solo(number(words[1]), number(words[2]), text.at, text.length, BUFFERS);
    else if (count == 2 && !strcmp(words[0], "make"))
        dri_make(number(words[1]), BUFFERS);
    else
        return 0;
#undef BUFFERS
    return 1;
}

int main(int count, char **words) {
    struct dri_answer answer;
    int makes = count == 3 && !strcmp(words[1], "make");
    struct bytes text = makes ? room_for(0) : read_all();
    struct bytes picture = room_for(0), notes = room_for(128);
    if (!call(count - 1, words + 1, text, picture, notes, &answer)) return DRI_USAGE;
    if (answer.status == DRI_WRITE_FAULT) {
        free(notes.at);
        picture = room_for(answer.picture_needed);
        notes = room_for(answer.notes_needed);
        call(count - 1, words + 1, text, picture, notes, &answer);
    }
    fwrite(picture.at, 1, answer.picture_written, stdout);
    fwrite(notes.at, 1, answer.notes_written, stderr);
    free(text.at);
    free(picture.at);
    free(notes.at);
    return (int)answer.status;
}
