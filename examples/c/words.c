/* Plays a client's frame and a move of its window, one turn more each time, and prints the lock word after each turn: whether
 * somebody holds the lock, whether somebody waits for it, and whose context is named, the server's 1 or client 1's 2. Behind it
 * stands the entry that the turn made; `-` for one that is in no journal, as joining the queue or marking the word is.
 *
 * usage: words SCENE, for which examples/c/move.scene is made */
#include "dri.h"

#include <stdio.h>

enum { MOST_TEXT = 1 << 16, MOST_PICTURE = 1 << 16, MOST_NOTES = 1 << 12, SERVER = 0, CLIENT = 1 };

static const uint32_t HELD = UINT32_C(1) << 31, CONTENDED = UINT32_C(1) << 30;

static const int32_t ITEMS[] = {
    CLIENT, CLIENT, CLIENT, CLIENT,                 /* takes the lock, finds its clips old, leaves, is told them */
    CLIENT, CLIENT,                                 /* takes the lock, clears */
    SERVER, SERVER, SERVER,                         /* joins the queue, marks the held word, is passed over */
    CLIENT, CLIENT,                                 /* yields, leaves through the kernel, since the word is marked */
    SERVER,                                         /* moves the window */
    CLIENT, CLIENT, CLIENT, CLIENT,                 /* takes the lock, finds its clips old, leaves, is told them */
    CLIENT, CLIENT, CLIENT, CLIENT, CLIENT, CLIENT, /* takes the lock, loads registers, draws, swaps, leaves, has ended */
};

/* (a journal's last line is `done`) */
enum { ITEM_COUNT = sizeof ITEMS / sizeof *ITEMS, LAST_LINE = sizeof "done\n" - 1 };

/* Prints an item, the word after it, and what it did: the journal is these notes, and had so many bytes before the item. */
static void print_turn(int32_t item, uint32_t word, int was_passed, const uint8_t *notes, uint64_t length, uint64_t before) {
    int entry = (int)(length - before), begin = (int)(before - LAST_LINE);
    printf("%s %08x %-4s %-9s context %u: ", item == SERVER ? "s" : "1", (unsigned)word, word & HELD ? "held" : "free",
           word & CONTENDED ? "contended" : "", (unsigned)(word & ~(HELD | CONTENDED)));
    if (was_passed) printf("passed over\n");
    else if (entry == 0) printf("-\n");
    else printf("%.*s", entry, (const char *)notes + begin);
}

int main(int count, char **words) {
    static uint8_t scene[MOST_TEXT], picture[MOST_PICTURE], notes[MOST_NOTES];
    uint8_t passed[ITEM_COUNT];
    uint64_t before = 0;
    struct dri_played played;
    struct dri_answer answer;
    FILE *file = count == 2 ? fopen(words[1], "rb") : NULL;
    if (!file) return DRI_USAGE;
    size_t length = fread(scene, 1, sizeof scene, file);
    fclose(file);
    for (size_t items = 0; items <= ITEM_COUNT; ++items) {
        dri_play(scene, length, ITEMS, items, passed, sizeof passed, picture, sizeof picture, notes, sizeof notes, &played, &answer);
        if (answer.status != DRI_DONE) return (int)answer.status;
        if (items > 0) print_turn(ITEMS[items - 1], played.word, passed[items - 1], notes, answer.notes_written, before);
        before = answer.notes_written;
    }
    return 0;
}
