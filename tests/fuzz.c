/* Random calls of the library from C, over texts that are damaged in many ways and buffers of many sizes. Each text ends where a
 * page ends behind which nothing may be read, and so does each buffer, before which stand bytes that must stay. In some calls memory
 * is refused. After each call all that dri.h says of it is looked at; the first call that breaks it ends the run.
 *
 * usage: fuzz CALL SEED CALLS TEXT.. */
#include "dri.h"

#include <stdio.h>
#include <stdlib.h>
#include <string.h>
#include <sys/mman.h>
#include <unistd.h>

enum { MOST_TEXTS = 256, MOST_TEXT = 1 << 18, MOST_BUFFER = 1 << 22, BEFORE = 64, FILL = 0xA5, MADE_IN = 20000,
       MOST_ITEMS = 96, REFUSED_IN = 8, MOST_GRANTED = 64 };

/* A stretch of pages, the last of which may not be touched. */
struct pages {
    uint8_t *at;
    size_t length;
};

/* Bytes that end where the pages may not be touched any more. */
struct bytes {
    uint8_t *at;
    size_t length;
};

/* What dri_play is given besides, and tells besides; for other calls there are no items. */
static struct {
    int32_t *items;
    size_t count;
    struct bytes passed;
    struct dri_played played;
} play;

/* How many of the library's allocations are granted before one is refused, or -1; and whether those behind it are refused too. */
static int granted = -1, refuses_all, was_refused;

static struct bytes texts[MOST_TEXTS];
static size_t text_count;
static uint64_t state, number_of_call;

static uint64_t random_number(void) {
    state ^= state << 13;
    state ^= state >> 7;
    state ^= state << 17;
    return state;
}

/* A number below the limit. */
static size_t below(size_t limit) { return limit ? random_number() % limit : 0; }

static void fail(const char *why) {
    fprintf(stderr, "call %llu: %s\n", (unsigned long long)number_of_call, why);
    exit(1);
}

/* Whether this allocation is refused. */
static int is_refused(void) {
    if (granted > 0) --granted;
    else if (granted == 0) {
        granted = refuses_all ? 0 : -1;
        was_refused = 1;
        return 1;
    }
    return 0;
}

/* (what the library calls as malloc and realloc, by the linker's --wrap) */
void *__real_malloc(size_t length);
void *__real_realloc(void *at, size_t length);
void *__wrap_malloc(size_t length);
void *__wrap_realloc(void *at, size_t length);

void *__wrap_malloc(size_t length) { return is_refused() ? NULL : __real_malloc(length); }

void *__wrap_realloc(void *at, size_t length) { return is_refused() ? NULL : __real_realloc(at, length); }

static struct pages pages_for(size_t length) {
    size_t page = (size_t)sysconf(_SC_PAGESIZE);
    struct pages made = {NULL, (length + page - 1) / page * page};
    made.at = mmap(NULL, made.length + page, PROT_READ | PROT_WRITE, MAP_PRIVATE | MAP_ANONYMOUS, -1, 0);
    if (made.at == MAP_FAILED || mprotect(made.at + made.length, page, PROT_NONE)) fail("no pages");
    return made;
}

/* The last bytes of the pages; sometimes a null pointer for none. */
static struct bytes last_of(struct pages pages, size_t length) {
    struct bytes made = {pages.at + pages.length - length, length};
    if (!length && below(2)) made.at = NULL;
    return made;
}

static struct bytes read_file(const char *path) {
    struct bytes text = {malloc(MOST_TEXT), 0};
    FILE *file = fopen(path, "rb");
    if (!file || !text.at) fail(path);
    text.length = fread(text.at, 1, MOST_TEXT, file);
    fclose(file);
    return text;
}

/* Puts one text, or the beginning of one and the end of another. */
static size_t put_text(uint8_t *into) {
    struct bytes first = texts[below(text_count)], second = texts[below(text_count)];
    size_t head = first.length, tail = 0;
    if (!below(4)) {
        head = below(first.length + 1);
        tail = below(second.length + 1);
    }
    memcpy(into, first.at, head);
    memcpy(into + head, second.at + second.length - tail, tail);
    return head + tail;
}

/* Where the line begins that has this place, and where the next begins. */
static void line_at(const uint8_t *text, size_t length, size_t place, size_t *begin, size_t *end) {
    for (*begin = place; *begin > 0 && text[*begin - 1] != '\n'; --*begin) {}
    for (*end = place; *end < length && text[*end] != '\n'; ++*end) {}
    if (*end < length) ++*end;
}

/* Damages a text in one way, and returns its length then. */
static size_t damage(uint8_t *text, size_t length) {
    size_t place = below(length), begin, end;
    if (!length) return 0;
    line_at(text, length, place, &begin, &end);
    switch (below(6)) {
    case 0: /* another byte */
        text[place] = (uint8_t)random_number();
        return length;
    case 1: /* another digit */
        while (place < length && (text[place] < '0' || text[place] > '9')) ++place;
        if (place < length) text[place] = (uint8_t)('0' + below(10));
        return length;
    case 2: /* cut */
        return place;
    case 3: /* a line less */
        memmove(text + begin, text + end, length - end);
        return length - (end - begin);
    case 4: /* a line twice */
        if (length + (end - begin) > MOST_TEXT) return length;
        memmove(text + end + (end - begin), text + end, length - end);
        memcpy(text + end, text + begin, end - begin);
        return length + (end - begin);
    default: /* a byte less */
        memmove(text + place, text + place + 1, length - place - 1);
        return length - 1;
    }
}

/* Makes a text at the end of the pages: whole, damaged, or nothing but random bytes. */
static struct bytes make_text(struct pages pages, uint8_t *scratch) {
    size_t length = below(64);
    if (below(16)) {
        length = put_text(scratch);
        for (size_t times = below(4); times > 0; --times) length = damage(scratch, length);
    } else {
        for (size_t i = 0; i < length; ++i) scratch[i] = (uint8_t)random_number();
    }
    struct bytes text = last_of(pages, length);
    if (length) memcpy(text.at, scratch, length);
    return text;
}

/* A length for a buffer: none, few bytes, or what some call needed, and one more or less. */
static size_t some_length(uint64_t needed) {
    switch (below(4)) {
    case 0: return 0;
    case 1: return below(256);
    case 2: return below(1 << 14);
    default: return needed + 1 + BEFORE < MOST_BUFFER ? needed + below(3) - (needed > 0) : 0;
    }
}

/* A filled buffer at the end of the pages, and the bytes before it. */
static struct bytes make_buffer(struct pages pages, uint64_t needed) {
    struct bytes buffer = last_of(pages, some_length(needed));
    memset(pages.at + pages.length - buffer.length - BEFORE, FILL, buffer.length + BEFORE);
    return buffer;
}

static int is_filled(const uint8_t *at, size_t length) {
    for (size_t i = 0; i < length; ++i) {
        if (at[i] != FILL) return 0;
    }
    return 1;
}

/* Looks at what a buffer gained. */
static void look_at_buffer(struct pages pages, struct bytes buffer, uint64_t written, uint64_t needed) {
    const uint8_t *end = pages.at + pages.length;
    if (written != (needed <= buffer.length ? needed : 0)) fail("bytes written");
    if (!is_filled(end - buffer.length - BEFORE, BEFORE)) fail("before a buffer");
    if (!is_filled(end - buffer.length + written, buffer.length - written)) fail("behind what was written");
}

/* Whether a call did what it was asked for, whatever room there was. */
static int did(const struct dri_answer *answer) { return answer->status == DRI_DONE || answer->status == DRI_WRITE_FAULT; }

/* Looks at an answer's numbers. */
static void look_at_answer(const struct dri_answer *answer, struct bytes picture, struct bytes notes, int plays) {
    int fits = answer->picture_needed <= picture.length && answer->notes_needed <= notes.length && play.count <= play.passed.length;
    int ran = did(answer);
    if (answer->status == DRI_OUT_OF_MEMORY) {
        if (!was_refused) fail("no memory was refused");
        if (answer->picture_needed || answer->notes_needed || answer->line || answer->reason || answer->entry) fail("want of memory");
        return;
    }
    if (answer->status > DRI_NOT_A_RUN || answer->status == DRI_READ_FAULT) fail("status");
    if (ran && fits != (answer->status == DRI_DONE)) fail("status and room");
    if (!ran && (answer->picture_needed || (answer->notes_needed == 0) != plays)) fail("what is needed without a run");
    if ((answer->status == DRI_REFUSED) != (answer->reason != 0) || answer->reason > DRI_FRAME) fail("reason");
    if (answer->status != DRI_REFUSED && answer->line) fail("line");
    if ((answer->status == DRI_NOT_A_RUN) != (answer->entry != 0)) fail("entry");
    if (!ran && answer->notes_written && memcmp(notes.at, "dri: ", 5)) fail("the status's line");
}

/* Puts so many items: turns of the first actors and at most one kill, or any numbers. */
static void put_items(int32_t *items, size_t count) {
    size_t actors = 2 + below(2), kill = below(4) ? count : below(count + 1);
    int is_wild = !below(4);
    for (size_t i = 0; i < count; ++i) {
        items[i] = (int32_t)below(actors);
        if (i == kill) items[i] = -1 - (int32_t)below(actors - 1);
        if (is_wild && !below(8)) items[i] = below(2) ? (int32_t)below(70) - 35 : (int32_t)random_number();
    }
}

/* Makes items and a buffer for their flags, each at the end of its pages. */
static void make_play(struct pages items_pages, struct pages passed_pages) {
    play.count = below(2) ? below(MOST_ITEMS) : below(8);
    play.items = (int32_t *)last_of(items_pages, play.count * sizeof *play.items).at;
    put_items(play.items, play.count);
    play.passed = make_buffer(passed_pages, play.count);
    memset(&play.played, FILL, sizeof play.played);
}

/* Looks at what playing told: a flag and at most one event for each item, or nothing. */
static void look_at_play(struct pages passed_pages, const struct dri_answer *answer) {
    uint64_t written = play.played.passed_written, made = 0;
    if (!did(answer) && (written || play.played.events || play.played.word)) fail("what wasn't played");
    look_at_buffer(passed_pages, play.passed, written, did(answer) ? play.count : play.passed.length + 1);
    for (uint64_t i = 0; i < written; ++i) {
        if (play.passed.at[i] > 1) fail("a flag");
        made += !play.passed.at[i];
    }
    if (written && made != play.played.events) fail("how many events were made");
    if (play.played.events > play.count) fail("more events than items");
    if ((play.played.word & 0x3FFFFFFF) > 33 || play.played.word >> 30 == 1) fail("the word");
}

/* A number that is mostly small. */
static uint32_t some_number(size_t small) { return (uint32_t)(below(4) ? below(small) : random_number() >> below(64)); }

/* Makes the call. The call that makes scenes draws where its number is in range, so mostly it isn't. */
static void call(const char *name, struct bytes text, struct bytes picture, struct bytes notes, struct dri_answer *answer) {
#define BUFFERS picture.at, picture.length, notes.at, notes.length, answer
    if (!strcmp(name, "turns")) dri_turns(text.at, text.length, BUFFERS);
    else if (!strcmp(name, "sarea")) dri_sarea(text.at, text.length, BUFFERS);
    else if (!strcmp(name, "check")) dri_check(text.at, text.length, BUFFERS);
    else if (!strcmp(name, "flip")) dri_flip(text.at, text.length, BUFFERS);
    else if (!strcmp(name, "card16")) dri_card16(text.at, text.length, BUFFERS);
    else if (!strcmp(name, "ring")) dri_ring(some_number(70), text.at, text.length, BUFFERS);
    else if (!strcmp(name, "many")) dri_many(text.at, text.length, BUFFERS);
    else if (!strcmp(name, "solo")) dri_solo(some_number(4), some_number(4), text.at, text.length, BUFFERS);
    else if (!strcmp(name, "make")) dri_make(below(MADE_IN) ? 33 + some_number(1 << 16) : some_number(3), BUFFERS);
    else if (!strcmp(name, "play"))
        dri_play(text.at, text.length, play.items, play.count, play.passed.at, play.passed.length, picture.at, picture.length, notes.at,
                 notes.length, &play.played, answer);
    else fail("no such call");
#undef BUFFERS
}

int main(int count, char **words) {
    uint64_t calls, needed[2] = {0, 0}, ended[8] = {0};
    if (count < 5) fail("usage: fuzz CALL SEED CALLS TEXT..");
    state = strtoull(words[2], NULL, 10) * 2 + 1;
    calls = strtoull(words[3], NULL, 10);
    for (int i = 4; i < count && text_count < MOST_TEXTS; ++i) texts[text_count++] = read_file(words[i]);
    struct pages text_pages = pages_for(2 * MOST_TEXT), picture_pages = pages_for(MOST_BUFFER), notes_pages = pages_for(MOST_BUFFER);
    struct pages items_pages = pages_for(MOST_ITEMS * sizeof *play.items), passed_pages = pages_for(MOST_BUFFER);
    int plays = !strcmp(words[1], "play");
    uint8_t *scratch = malloc(2 * MOST_TEXT);
    if (!scratch) fail("no memory");
    for (number_of_call = 1; number_of_call <= calls; ++number_of_call) {
        struct bytes text = make_text(text_pages, scratch);
        struct bytes picture = make_buffer(picture_pages, needed[0]), notes = make_buffer(notes_pages, needed[1]);
        struct dri_answer answer;
        memset(&answer, FILL, sizeof answer);
        if (plays) make_play(items_pages, passed_pages);
        was_refused = 0;
        refuses_all = !below(2);
        granted = below(REFUSED_IN) ? -1 : (int)below(MOST_GRANTED);
        call(words[1], text, picture, notes, &answer);
        granted = -1;
        look_at_answer(&answer, picture, notes, plays);
        if (plays) look_at_play(passed_pages, &answer);
        look_at_buffer(picture_pages, picture, answer.picture_written, answer.picture_needed);
        look_at_buffer(notes_pages, notes, answer.notes_written, answer.notes_needed);
        needed[0] = answer.picture_needed;
        needed[1] = answer.notes_needed;
        ++ended[answer.status];
    }
    printf("%s: %llu calls;", words[1], (unsigned long long)calls);
    for (int i = 0; i < 8; ++i) {
        if (ended[i]) printf(" %llu of status %d", (unsigned long long)ended[i], i);
    }
    printf("\n");
    free(scratch);
    for (size_t i = 0; i < text_count; ++i) free(texts[i].at);
    return 0;
}
