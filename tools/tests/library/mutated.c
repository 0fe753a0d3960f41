/*
 * Calls with octets that are changed at random: mutated CAPTURE ANCHORS STATEMENTS QUESTIONS SIGNED KEYS MACS COUNT THREADS. Each
 * thread makes COUNT calls, of all kinds in turn, each once with little room and once with enough; in one case of eight the
 * capture is SIGNED, and the keys and the MACs are given. The exit status is 0 where each answer was one that the header names,
 * an answer with enough room was the same as before but for the room, and no octet was written but those of the text.
 */
#include <dnssec_check.h>
#include <pthread.h>
#include <stdio.h>
#include <stdlib.h>
#include <string.h>

enum { CAPTURE, ANCHORS, STATEMENTS, QUESTIONS, SIGNED, KEYS, MACS, FILES };
enum { MOST = 1 << 16, ROOM = 1 << 18, LITTLE = 64, KINDS = 8, FROM = 1790000000, TO = 1806000000 };
static unsigned char files[FILES][MOST], kept[ROOM];
static size_t lengths[FILES];
static long calls;

/* Names, most of which are none; the last has a label of 300 octets. */
static char longest[302];
static const char *const names[] = {"www.bind.test.", "nosuch.bind.test.", "", "a", "a..b.", "\\256.", "\xff.", longest};

/* What is asked besides the case. */
struct asked {
    const char *name;
    uint32_t type, format, listing, detail;
    uint64_t from, to;
    dnssec_check_octets questions;
};

static uint64_t next(uint64_t *seed) {
    *seed ^= *seed << 13;
    *seed ^= *seed >> 7;
    *seed ^= *seed << 17;
    return *seed;
}

static size_t changed(unsigned char *to, int file, uint64_t *seed) {
    size_t length = lengths[file];
    memcpy(to, files[file], length);
    for (uint64_t count = next(seed) % 4; count > 0 && length > 0; count--) to[next(seed) % length] = (unsigned char)next(seed);
    return next(seed) % 8 == 0 ? next(seed) % (length + 1) : length;
}

static struct asked any(uint64_t *seed, dnssec_check_octets questions) {
    struct asked asked;
    uint64_t form = next(seed), range = next(seed);
    asked.name = names[form % 2 == 0 ? 0 : (form >> 1) % (sizeof names / sizeof *names)];
    asked.type = (uint32_t)((form >> 4) % 8 == 0 ? range : (form >> 7) % 2 == 0 ? 1 : 28);
    asked.format = (uint32_t)((form >> 8) % 16 == 0 ? form >> 32 : (form >> 12) % 2);
    asked.listing = (uint32_t)((form >> 13) % 4);
    asked.detail = (uint32_t)((form >> 15) % 8 == 0 ? 2 : (form >> 18) % 2);
    asked.from = FROM + range % (TO - FROM);
    asked.to = (form >> 19) % 16 == 0 ? next(seed) >> (form >> 23) % 64 : asked.from + (range >> 32) % (TO - FROM);
    asked.questions = questions;
    return asked;
}

static int call(int kind, const dnssec_check_case *given, const struct asked *by, void *text, size_t room, dnssec_check_outcome *told) {
    switch (kind) {
    case 0: return dnssec_check_show(&given->capture, text, room, told);
    case 1: return dnssec_check_list(given, by->listing, by->format, text, room, told);
    case 2: return dnssec_check_check(given, by->name, by->type, by->format, text, room, told);
    case 3: return dnssec_check_explain(given, by->name, by->type, by->format, text, room, told);
    case 4: return dnssec_check_check_each(given, &by->questions, by->format, text, room, told);
    case 5: return dnssec_check_list_range(given, by->from, by->to, by->listing, by->format, text, room, told);
    case 6: return dnssec_check_timeline(given, by->from, by->to, by->name, by->type, by->detail, by->format, text, room, told);
    default: return dnssec_check_explain_each(given, &by->questions, by->format, text, room, told);
    }
}

/* Whether no octet was written but those of the text, which are then written over as they were before. */
static int is_text_alone(int status, const dnssec_check_outcome *told, unsigned char *text) {
    size_t written = status == DNSSEC_CHECK_ROOM ? 0 : told->length;
    if (written > ROOM || memcmp(text + written, kept, ROOM - written) != 0) return 0;
    memcpy(text, kept, written);
    return 1;
}

static int one(uint64_t *seed, unsigned char *changes, unsigned char *text, int kind) {
    dnssec_check_case given;
    dnssec_check_outcome first, second;
    dnssec_check_octets octets[FILES];
    memset(&given, 0, sizeof given);
    for (int file = 0; file < FILES; file++) {
        octets[file].length = changed(changes + file * MOST, file, seed);
        octets[file].data = octets[file].length == 0 ? NULL : changes + file * MOST;
    }
    int is_signed = next(seed) % 8 == 0;
    given.capture = octets[is_signed ? SIGNED : CAPTURE];
    given.anchors = octets[ANCHORS];
    given.verified = octets[STATEMENTS];
    given.keys = is_signed ? &octets[KEYS] : NULL;
    given.macs = is_signed ? &octets[MACS] : NULL;
    given.verified_form = next(seed) % 8 == 0 ? (uint32_t)(next(seed) % 4) : 1;
    given.moment = next(seed) % 16 == 0 ? next(seed) : 1795348800;
    struct asked asked = any(seed, octets[QUESTIONS]);
    int little = call(kind, &given, &asked, text, next(seed) % LITTLE, &first);
    if (!is_text_alone(little, &first, text)) return 5;
    int status = call(kind, &given, &asked, text, ROOM - 1, &second);
    if (!is_text_alone(status, &second, text)) return 5;
    if (status < 0 || status == 8 || status > 10 || (status != little && little != DNSSEC_CHECK_ROOM)) return 1;
    if (memcmp(&first, &second, sizeof first) != 0) return 2;
    return status == DNSSEC_CHECK_ROOM && second.length < ROOM ? 3 : 0;
}

static void *work(void *number) {
    uint64_t seed = 0x9e3779b97f4a7c15u ^ (uint64_t)(size_t)number;
    unsigned char *changes = malloc(FILES * MOST), *text = malloc(ROOM);
    size_t failed = changes == NULL || text == NULL ? 4 : 0;
    if (text != NULL) memcpy(text, kept, ROOM);
    for (long done = 0; done < calls && failed == 0; done++) failed = (size_t)one(&seed, changes, text, (int)(done % KINDS));
    free(changes);
    free(text);
    return (void *)failed;
}

int main(int count, char **words) {
    if (count != 1 + FILES + 2) return 9;
    memset(kept, 7, sizeof kept);
    memset(longest, 'a', 300);
    longest[300] = '.';
    for (int file = 0; file < FILES; file++) {
        FILE *opened = fopen(words[1 + file], "rb");
        if (opened == NULL) return 9;
        lengths[file] = fread(files[file], 1, MOST, opened);
        fclose(opened);
    }
    calls = strtol(words[1 + FILES], NULL, 10);
    long threads = strtol(words[2 + FILES], NULL, 10);
    pthread_t *all = calloc((size_t)threads, sizeof *all);
    size_t worst = 0;
    for (long each = 0; each < threads; each++) pthread_create(&all[each], NULL, work, (void *)(size_t)(each + 1));
    for (long each = 0; each < threads; each++) {
        void *failed;
        pthread_join(all[each], &failed);
        if ((size_t)failed > worst) worst = (size_t)failed;
    }
    free(all);
    return (int)worst;
}
