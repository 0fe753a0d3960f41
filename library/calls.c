/*
 * The calls of the library as C has them, over those that are proved. The proved ones take no NULL, so that no octets are
 * those of `none`. Here a pointer that is NULL is told, and a length above what an object can have; a name gets its length,
 * and `Options` what the case says by numbers and pointers; one question goes to its call and many to theirs, each argument
 * to its place; and the version is said. None of this is proved: an argument in the wrong place tests alone would find.
 */
#include <stdbool.h>
#include <string.h>

#include "dnssec_check.h"

#ifndef DNSSEC_CHECK_VERSION
#error "the version is that of the program: compile with -DDNSSEC_CHECK_VERSION"
#endif

/* As `Options` of the crate dnssec_check_c. */
struct options {
    uint64_t moment;
    uint32_t verified;
    uint32_t format;
    bool why;
    bool has_keys;
    bool has_macs;
};

/* The exports of the crate, in which a slice is a pointer and a length. */
uint32_t dnssec_check_c_show(const void *, size_t, void *, size_t, dnssec_check_outcome *);
uint32_t dnssec_check_c_list(const void *, size_t, const void *, size_t, const struct options *, uint32_t, void *, size_t,
                             dnssec_check_outcome *);
uint32_t dnssec_check_c_list_range(const void *, size_t, const void *, size_t, const struct options *, uint64_t, uint64_t,
                                   uint32_t, void *, size_t, dnssec_check_outcome *);
uint32_t dnssec_check_c_timeline(const void *, size_t, const void *, size_t, const void *, size_t, const struct options *,
                                 uint64_t, uint64_t, const void *, size_t, uint32_t, uint32_t, void *, size_t,
                                 dnssec_check_outcome *);
uint32_t dnssec_check_c_check(const void *, size_t, const void *, size_t, const void *, size_t, const void *, size_t,
                              const void *, size_t, const struct options *, const void *, size_t, uint32_t, void *, size_t,
                              dnssec_check_outcome *);
uint32_t dnssec_check_c_check_each(const void *, size_t, const void *, size_t, const void *, size_t, const void *, size_t,
                                   const void *, size_t, const struct options *, const void *, size_t, void *, size_t,
                                   dnssec_check_outcome *);

static const unsigned char none[1];
static const dnssec_check_octets no_octets = {none, 0};

/* Whether no pointer to some octets is NULL, and no length above what an object can have. */
static bool are_octets(const void *data, size_t length) { return length <= PTRDIFF_MAX && (data != NULL || length == 0); }

static bool are_given(const dnssec_check_octets *octets) { return are_octets(octets->data, octets->length); }

static dnssec_check_octets in_memory(const dnssec_check_octets *octets) {
    return octets->length == 0 ? no_octets : *octets;
}

/* Where a call writes and tells, if the caller gives no place for it. */
struct place {
    unsigned char no_room[1];
    dnssec_check_outcome untold;
    void *buffer;
    size_t room;
    dnssec_check_outcome *outcome;
};

static bool has_place(struct place *place, void *buffer, size_t room, dnssec_check_outcome *outcome) {
    place->buffer = room == 0 ? place->no_room : buffer;
    place->room = room;
    place->outcome = outcome == NULL ? &place->untold : outcome;
    memset(place->outcome, 0, sizeof *place->outcome);
    return are_octets(buffer, room);
}

static bool is_case(const dnssec_check_case *given) {
    return given != NULL && are_given(&given->capture) && are_given(&given->anchors) && are_given(&given->verified)
           && (given->keys == NULL || are_given(given->keys)) && (given->macs == NULL || are_given(given->macs));
}

static struct options options_of(const dnssec_check_case *given, uint32_t format, bool why) {
    struct options options = {given->moment, given->verified_form, format, why, given->keys != NULL, given->macs != NULL};
    return options;
}

int dnssec_check_show(const dnssec_check_octets *capture, void *buffer, size_t room, dnssec_check_outcome *outcome) {
    struct place to;
    if (!has_place(&to, buffer, room, outcome) || capture == NULL || !are_given(capture)) return DNSSEC_CHECK_NULL;
    dnssec_check_octets shown = in_memory(capture);
    return (int)dnssec_check_c_show(shown.data, shown.length, to.buffer, to.room, to.outcome);
}

int dnssec_check_list(const dnssec_check_case *given, uint32_t listing, uint32_t format, void *buffer, size_t room,
                      dnssec_check_outcome *outcome) {
    struct place to;
    if (!has_place(&to, buffer, room, outcome) || !is_case(given)) return DNSSEC_CHECK_NULL;
    dnssec_check_octets capture = in_memory(&given->capture), verified = in_memory(&given->verified);
    struct options options = options_of(given, format, false);
    return (int)dnssec_check_c_list(capture.data, capture.length, verified.data, verified.length, &options, listing,
                                    to.buffer, to.room, to.outcome);
}

int dnssec_check_list_range(const dnssec_check_case *given, uint64_t from, uint64_t to, uint32_t listing, uint32_t format,
                            void *buffer, size_t room, dnssec_check_outcome *outcome) {
    struct place place;
    if (!has_place(&place, buffer, room, outcome) || !is_case(given)) return DNSSEC_CHECK_NULL;
    dnssec_check_octets capture = in_memory(&given->capture), verified = in_memory(&given->verified);
    struct options options = options_of(given, format, false);
    return (int)dnssec_check_c_list_range(capture.data, capture.length, verified.data, verified.length, &options, from, to,
                                          listing, place.buffer, place.room, place.outcome);
}

int dnssec_check_timeline(const dnssec_check_case *given, uint64_t from, uint64_t to, const char *name, uint32_t type,
                          uint32_t detail, uint32_t format, void *buffer, size_t room, dnssec_check_outcome *outcome) {
    struct place place;
    if (!has_place(&place, buffer, room, outcome) || !is_case(given) || name == NULL) return DNSSEC_CHECK_NULL;
    dnssec_check_octets capture = in_memory(&given->capture), anchors = in_memory(&given->anchors);
    dnssec_check_octets verified = in_memory(&given->verified);
    struct options options = options_of(given, format, false);
    return (int)dnssec_check_c_timeline(capture.data, capture.length, anchors.data, anchors.length, verified.data,
                                        verified.length, &options, from, to, name, strlen(name), type, detail, place.buffer,
                                        place.room, place.outcome);
}

static int judge(const dnssec_check_case *given, const char *name, uint32_t type, const dnssec_check_octets *questions,
                 uint32_t format, bool why, void *buffer, size_t room, dnssec_check_outcome *outcome) {
    struct place to;
    if (!has_place(&to, buffer, room, outcome) || !is_case(given)) return DNSSEC_CHECK_NULL;
    if (name == NULL && (questions == NULL || !are_given(questions))) return DNSSEC_CHECK_NULL;
    dnssec_check_octets capture = in_memory(&given->capture), anchors = in_memory(&given->anchors);
    dnssec_check_octets verified = in_memory(&given->verified);
    dnssec_check_octets keys = in_memory(given->keys == NULL ? &no_octets : given->keys);
    dnssec_check_octets macs = in_memory(given->macs == NULL ? &no_octets : given->macs);
    struct options options = options_of(given, format, why);
    if (name != NULL)
        return (int)dnssec_check_c_check(capture.data, capture.length, anchors.data, anchors.length, verified.data,
                                         verified.length, keys.data, keys.length, macs.data, macs.length, &options, name,
                                         strlen(name), type, to.buffer, to.room, to.outcome);
    dnssec_check_octets each = in_memory(questions);
    return (int)dnssec_check_c_check_each(capture.data, capture.length, anchors.data, anchors.length, verified.data,
                                          verified.length, keys.data, keys.length, macs.data, macs.length, &options,
                                          each.data, each.length, to.buffer, to.room, to.outcome);
}

int dnssec_check_check(const dnssec_check_case *given, const char *name, uint32_t type, uint32_t format, void *buffer,
                       size_t room, dnssec_check_outcome *outcome) {
    return judge(given, name, type, NULL, format, false, buffer, room, outcome);
}

int dnssec_check_explain(const dnssec_check_case *given, const char *name, uint32_t type, uint32_t format, void *buffer,
                         size_t room, dnssec_check_outcome *outcome) {
    return judge(given, name, type, NULL, format, true, buffer, room, outcome);
}

int dnssec_check_check_each(const dnssec_check_case *given, const dnssec_check_octets *questions, uint32_t format,
                            void *buffer, size_t room, dnssec_check_outcome *outcome) {
    return judge(given, NULL, 0, questions, format, false, buffer, room, outcome);
}

int dnssec_check_explain_each(const dnssec_check_case *given, const dnssec_check_octets *questions, uint32_t format,
                              void *buffer, size_t room, dnssec_check_outcome *outcome) {
    return judge(given, NULL, 0, questions, format, true, buffer, room, outcome);
}

const char *dnssec_check_version(void) { return DNSSEC_CHECK_VERSION; }
