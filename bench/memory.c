/* The library over images of a file (bench images FILE), with heap buffers of exactly the lent sizes:
 *   memory check FILE   for valgrind's memcheck: roomy, exactly full, and one short of each kind
 *   memory stack FILE   the machine stack that each entry takes at most, by a thread whose stack is painted
 * Each image goes through the entries without switches, and through those with them under all on and under 16, which is 17.
 * With REPORTS defined and liblent.a linked, each list of errors goes through ownership_reports too.
 */
#define _GNU_SOURCE
#include "../include/ownership_pass.h"
#include <pthread.h>
#include <stdio.h>
#include <stdlib.h>
#include <string.h>
#include <sys/mman.h>

enum { PAINTED = 2 << 20, PAINT = 0xa5, KINDS = 4 };

/* The header's record is 12 numbers in their order, as src/ours.rs has it. */
#define STANDS(field, number) _Static_assert(offsetof(struct ownership_report, field) == 4 * (number), #field)
_Static_assert(sizeof(struct ownership_report) == 4 * OWNERSHIP_ERROR_NUMBERS, "size");
_Static_assert(_Alignof(struct ownership_report) == 4, "alignment");
STANDS(kind, 0);
STANDS(place, 1);
STANDS(hint, 2);
STANDS(count, 3);
STANDS(places, 4);
_Static_assert(sizeof((struct ownership_report *)0)->places == 8 * 4, "places");

/* What is lent: bytes, and numbers of errors, warnings and left-behind entries. */
struct lent {
    void *memory[KINDS];
    size_t size[KINDS]; /* in bytes */
    uint64_t *totals;
};

static const size_t WIDTH[KINDS] = {1, 4, 4, 4};
static const size_t NUMBERS[KINDS] = {1, OWNERSHIP_ERROR_NUMBERS, OWNERSHIP_WARNING_NUMBERS, OWNERSHIP_LEFT_NUMBERS};

static void die(const char *what, const char *label) {
    printf("WRONG %s: %s\n", label, what);
    exit(1);
}

static struct lent lend(const size_t many[KINDS]) {
    struct lent l;
    for (int k = 0; k < KINDS; k++) {
        l.size[k] = many[k] * WIDTH[k];
        l.memory[k] = malloc(l.size[k]);
    }
    l.totals = malloc(OWNERSHIP_TOTALS * sizeof(uint64_t));
    return l;
}

static void give_back(struct lent *l) {
    for (int k = 0; k < KINDS; k++)
        free(l->memory[k]);
    free(l->totals);
}

/* The switches, or PLAIN for the entries without. */
enum { PLAIN = -1, ALL_ON = 15, TOO_HIGH = 16 };
static const int SETTINGS[] = {PLAIN, ALL_ON, TOO_HIGH};
static int switches;

static uint32_t pass(const uint8_t *image, size_t length, struct lent *l) {
    if (switches == PLAIN)
        return ownership_pass(image, length, l->memory[0], l->size[0], l->memory[1], l->size[1] / 4, l->memory[2], l->size[2] / 4,
                              l->memory[3], l->size[3] / 4, l->totals);
    return ownership_pass_switched(switches, image, length, l->memory[0], l->size[0], l->memory[1], l->size[1] / 4, l->memory[2],
                                   l->size[2] / 4, l->memory[3], l->size[3] / 4, l->totals);
}

static uint32_t room_of(const uint8_t *image, size_t length, uint64_t *room) {
    return switches == PLAIN ? ownership_room(image, length, room) : ownership_room_switched(switches, image, length, room);
}

static uint32_t page_of(const uint8_t *image, size_t length, uint8_t *page, size_t page_len, uint64_t *written) {
    if (switches == PLAIN)
        return ownership_page(image, length, page, page_len, written);
    return ownership_page_switched(switches, image, length, page, page_len, written);
}

/* A sum over what was reported: memcheck sees it printed, so all of it must have been written. */
static uint64_t sum_of(const struct lent *l) {
    uint64_t sum = 0;
    for (int k = 0; k < KINDS; k++)
        for (size_t i = 0; i < l->totals[k] * NUMBERS[k] * WIDTH[k]; i++)
            sum = sum * 31 + ((uint8_t *)l->memory[k])[i];
    return sum;
}

static void painted(struct lent *l) {
    for (int k = 0; k < KINDS; k++)
        memset(l->memory[k], PAINT, l->size[k]);
    memset(l->totals, PAINT, OWNERSHIP_TOTALS * sizeof(uint64_t));
}

static int is_painted(const uint8_t *at, size_t length) {
    for (size_t i = 0; i < length; i++)
        if (at[i] != PAINT)
            return 0;
    return 1;
}

/* With too little of one kind: 14 or 15, and nothing changed. */
static void one_short(const char *label, const uint8_t *image, size_t length, const size_t needed[KINDS], int kind) {
    size_t many[KINDS];
    memcpy(many, needed, sizeof many);
    many[kind]--;
    struct lent l = lend(many);
    painted(&l);
    if (pass(image, length, &l) != (kind == 0 ? 15 : 14))
        die("one short, and not 14 or 15", label);
    for (int k = 0; k < KINDS; k++)
        if (!is_painted(l.memory[k], l.size[k]))
            die("changed on a refusal", label);
    give_back(&l);
}

#ifdef REPORTS
static size_t recorded; /* errors */

/* So many numbers and records lent: 14, and nothing changed. */
static void records_short(const char *label, const uint32_t *numbers, size_t numbers_len, size_t n, size_t lent) {
    size_t size = lent * sizeof(struct ownership_report);
    struct ownership_report *records = malloc(size);
    uint32_t *few = malloc(numbers_len * 4);
    memset(records, PAINT, size);
    memcpy(few, numbers, numbers_len * 4);
    if (ownership_reports(few, numbers_len, n, records, lent) != 14)
        die("records: too little, and not 14", label);
    if (!is_painted((uint8_t *)records, size))
        die("records: changed on a refusal", label);
    free(few);
    free(records);
}

/* The errors as records, with exactly what is needed; then a record short, and a number short. */
static void records(const char *label, const uint32_t *numbers, size_t n) {
    struct ownership_report *records = malloc(n * sizeof *records);
    if (ownership_reports(numbers, OWNERSHIP_ERROR_NUMBERS * n, n, records, n) != 0)
        die("records: an exact fit is refused", label);
    for (size_t i = 0; i < n; i++) {
        const struct ownership_report *r = &records[i];
        const uint32_t *e = numbers + OWNERSHIP_ERROR_NUMBERS * i;
        if (r->kind != e[0] || r->place != e[1] || r->hint != e[2] || r->count != e[3] || memcmp(r->places, e + 4, sizeof r->places) != 0)
            die("records: not the numbers", label);
    }
    free(records);
    recorded += n;
    if (n > 0) {
        records_short(label, numbers, OWNERSHIP_ERROR_NUMBERS * n, n, n - 1);
        records_short(label, numbers, OWNERSHIP_ERROR_NUMBERS * n - 1, n, n);
    }
}
#endif

/* The page, whatever the lists' lengths: roomy, exactly full, and a byte short: 16, and nothing changed. */
static uint64_t page(const char *label, const uint8_t *image, size_t length, uint32_t fault) {
    size_t room = 8 << 20;
    uint8_t *lent = malloc(room);
    memset(lent, PAINT, room);
    uint64_t *written = malloc(sizeof *written), sum = 0;
    uint32_t answer = page_of(image, length, lent, room, written);
    if (answer != fault && !(fault == 0 && answer == 16))
        die("page and room differ", label);
    if (!is_painted(lent + (answer == 0 ? *written : 0), room - (answer == 0 ? *written : 0)))
        die("changed past the page", label);
    free(lent);
    if (answer != 0) {
        free(written);
        return 0;
    }
    size_t needed = *written;
    lent = malloc(needed);
    if (page_of(image, length, lent, needed, written) != 0 || *written != needed)
        die("a page that fits exactly is refused", label);
    for (size_t i = 0; i < needed; i++)
        sum = sum * 31 + lent[i];
    free(lent);
    if (needed > 0) {
        lent = malloc(needed - 1);
        memset(lent, PAINT, needed - 1);
        if (page_of(image, length, lent, needed - 1, written) != 16 || *written != needed)
            die("a page a byte short, and not 16", label);
        if (!is_painted(lent, needed - 1))
            die("a page changed on a refusal", label);
        free(lent);
    }
    free(written);
    return sum;
}

/* 1 if the image is accepted; *sum is over what was reported. */
static int check(const char *label, const uint8_t *image, size_t length, uint64_t *sum) {
    uint64_t *room = malloc(sizeof *room);
    uint32_t fault = room_of(image, length, room);
    if ((fault == 17) != (switches == TOO_HIGH))
        die("17 is for a value above 15", label);
    size_t many[KINDS] = {fault == 0 ? *room : length, 12 * 4096, 2 * 4096, 3 * 4096}, needed[KINDS];
    free(room);
    *sum += page(label, image, length, fault);
    struct lent l = lend(many);
    uint32_t answer = pass(image, length, &l);
    if (answer != fault && !(fault == 0 && answer == 15))
        die("pass and room differ", label);
    if (answer == 0) {
        *sum += sum_of(&l);
        for (int k = 0; k < KINDS; k++)
            needed[k] = l.totals[k] * NUMBERS[k];
    }
    give_back(&l);
    if (answer != 0)
        return 0;
    l = lend(needed);
    if (pass(image, length, &l) != 0)
        die("an exact fit is refused", label);
    *sum += sum_of(&l);
#ifdef REPORTS
    records(label, l.memory[1], l.totals[1]);
#endif
    give_back(&l);
    for (int k = 0; k < KINDS; k++)
        if (needed[k] > 0)
            one_short(label, image, length, needed, k);
    return 1;
}

struct job {
    int entry; /* 0 none, 1 pass, 2 room, 3 page */
    const uint8_t *image;
    size_t length;
    struct lent *lent;
    uint64_t room;
};

static void *work(void *given) {
    struct job *j = given;
    if (j->entry == 1)
        pass(j->image, j->length, j->lent);
    if (j->entry == 2)
        room_of(j->image, j->length, &j->room);
    if (j->entry == 3)
        page_of(j->image, j->length, j->lent->memory[0], j->lent->size[0], &j->room);
    return NULL;
}

/* The bytes of stack that a thread with this job touched. */
static size_t stack_of(uint8_t *stack, struct job *j) {
    pthread_attr_t attributes;
    pthread_t thread;
    memset(stack, PAINT, PAINTED);
    pthread_attr_init(&attributes);
    if (pthread_attr_setstack(&attributes, stack, PAINTED) != 0 || pthread_create(&thread, &attributes, work, j) != 0)
        die("no thread", "stack");
    pthread_join(thread, NULL);
    pthread_attr_destroy(&attributes);
    uint64_t word, paint;
    size_t unused = 0;
    memset(&paint, PAINT, sizeof paint);
    while (unused < PAINTED && (memcpy(&word, stack + unused, sizeof word), word == paint))
        unused += sizeof word;
    return PAINTED - unused;
}

static uint8_t *file_of(const char *path, size_t *length) {
    FILE *f = fopen(path, "rb");
    if (f == NULL || fseek(f, 0, SEEK_END) != 0)
        die("no such file", path);
    *length = ftell(f);
    rewind(f);
    uint8_t *bytes = malloc(*length + 1);
    if (fread(bytes, 1, *length, f) != *length)
        die("not read", path);
    fclose(f);
    return bytes;
}

/* What was seen of the images so far. */
struct seen {
    size_t images, accepted, most[4];
    char label[4][256];
    uint64_t sum;
    uint8_t *stack;
    struct lent roomy;
};

static void measure(struct seen *s, const char *label, const uint8_t *image, size_t length) {
    for (int entry = s->images > 0; entry < 4; entry++) {
        struct job j = {entry, image, length, &s->roomy, 0};
        size_t bytes = stack_of(s->stack, &j);
        if (bytes > s->most[entry]) {
            s->most[entry] = bytes;
            strcpy(s->label[entry], label);
        }
    }
}

int main(int words, char **word) {
    if (words != 3)
        return 2;
    int stack = strcmp(word[1], "stack") == 0;
    size_t length, roomy[KINDS] = {4 << 20, 12 * 4096, 2 * 4096, 3 * 4096};
    uint8_t *file = file_of(word[2], &length);
    struct seen s = {0};
    s.stack = mmap(NULL, PAINTED, PROT_READ | PROT_WRITE, MAP_PRIVATE | MAP_ANONYMOUS, -1, 0);
    s.roomy = lend(roomy);
    for (size_t at = 0; at < length;) {
        /* a label's length in one byte, the label, an image's length in four, the image */
        char label[256] = {0};
        memcpy(label, file + at + 1, file[at]);
        at += 1 + file[at];
        size_t size = (size_t)file[at] << 24 | file[at + 1] << 16 | file[at + 2] << 8 | file[at + 3];
        uint8_t *image = malloc(size);
        memcpy(image, file + at + 4, size);
        for (size_t k = 0; k < sizeof SETTINGS / sizeof *SETTINGS; k++) {
            switches = SETTINGS[k];
            if (stack)
                measure(&s, label, image, size);
            else
                s.accepted += check(label, image, size, &s.sum);
        }
        if (memcmp(image, file + at + 4, size) != 0)
            die("the image was changed", label);
        free(image);
        s.images++;
        at += 4 + size;
    }
    if (stack)
        printf("stack over %zu images: pass %zu bytes (%s), room %zu bytes (%s), page %zu bytes (%s); besides %zu of the thread itself\n",
               s.images, s.most[1] - s.most[0], s.label[1], s.most[2] - s.most[0], s.label[2], s.most[3] - s.most[0], s.label[3], s.most[0]);
    else
        printf("%zu images under %zu settings, %zu accepted, exact fits and one short of each kind; sum %016llx\n", s.images, sizeof SETTINGS / sizeof *SETTINGS, s.accepted,
               (unsigned long long)s.sum);
#ifdef REPORTS
    if (!stack)
        printf("%zu errors as records, exact fits, a record and a number short\n", recorded);
#endif
    give_back(&s.roomy);
    munmap(s.stack, PAINTED);
    free(file);
    return 0;
}
