/*
 * dnssec_check: what captured DNS messages prove by DNSSEC, offline, as of a moment that the caller gives.
 *
 * Each call does what the program `dnssec_check` does by the command of its name, over octets in memory. No call keeps
 * anything, opens anything or waits for anything, and any number of them may run at the same time.
 *
 * A call that gives a text writes it into the caller's buffer, in ASCII and with no NUL or other octet behind it, and answers
 * the exit status of the program. Where the buffer is too small it answers DNSSEC_CHECK_ROOM and writes nothing, and
 * `outcome->length` is the room that the text needs: so call once with some room, and once more where it didn't do. The
 * buffer may be NULL where the room is 0, and the outcome may be NULL, which tells nothing.
 *
 * A case begins as `dnssec_check_case given = {0};`, in which nothing is given. A name is text that ends with its last dot and
 * then NUL, as "www.example." A type is its number, up to 65535.
 *
 * Octets that are passed are only read, and neither the buffer nor the outcome may overlap them, or each other. The functions
 * malloc, realloc and free have to come from one allocator, whose blocks are aligned as malloc's of C are. Call nothing here
 * from a signal handler, nor in the child of a fork whose parent had threads.
 */
#ifndef DNSSEC_CHECK_H
#define DNSSEC_CHECK_H

#include <stddef.h>
#include <stdint.h>

#ifdef __cplusplus
extern "C" {
#endif

/* What a call answers. Those below 8 are the exit statuses of the program. */
enum dnssec_check_status {
    DNSSEC_CHECK_DONE = 0,          /* the text is written; of a question: its answer, or its absence, is secure */
    DNSSEC_CHECK_FAILED = 1,        /* memory is wanting (number 90), or octets are too many (211) */
    DNSSEC_CHECK_MISUSED = 2,       /* nothing is asked so: a moment is above 2^48 - 1, a type above 65535, a number none of its
                                       enum that the call takes, or the name not UTF-8; or answers are given where something
                                       is listed, or keys for a timeline; the outcome is all 0 */
    DNSSEC_CHECK_INSECURE = 3,      /* the name may lie in a zone that isn't signed */
    DNSSEC_CHECK_PENDING = 4,       /* that depends on signatures that are still to be verified */
    DNSSEC_CHECK_BOGUS = 5,         /* nothing is proved at or below a trust anchor */
    DNSSEC_CHECK_INDETERMINATE = 6, /* no trust anchor is at or above the name */
    DNSSEC_CHECK_REFUSED = 7,       /* what was given is refused, and `number` says why; of many questions, where `number`
                                       is 0: one is refused by itself, and the text says which */
    DNSSEC_CHECK_NULL = 9,          /* a pointer is NULL that may not be, or a length above what an object can have; NULL
                                       with the length 0 is no octets */
    DNSSEC_CHECK_ROOM = 10          /* the buffer is too small, and nothing is written */
};

/* How a text is written. */
enum dnssec_check_format {
    DNSSEC_CHECK_LINES = 0, /* as lines that the manual page dnssec_check(1) describes */
    DNSSEC_CHECK_JSON = 1   /* as an object of JSON on a line, which docs/schema.json describes */
};

/* What a list has. */
enum dnssec_check_listing {
    DNSSEC_CHECK_OPEN = 0,    /* the signatures that a verifier still has to check, each with its key and octets */
    DNSSEC_CHECK_COMPACT = 1, /* the same, with each octet once */
    DNSSEC_CHECK_ALL = 2      /* the signed octets of every signature */
};

/* What an interval of a timeline has. */
enum dnssec_check_detail {
    DNSSEC_CHECK_WORDS = 0, /* its verdict with what carries that */
    DNSSEC_CHECK_KINDS = 1  /* the kind of its verdict alone, so that neighbours of one kind are one interval */
};

/* What octets say of signatures that were verified. */
enum dnssec_check_verified {
    DNSSEC_CHECK_NOTHING = 0,    /* nothing; the octets aren't looked at */
    DNSSEC_CHECK_STATEMENTS = 1, /* lines `good ALG KEY DATA SIG` or `bad ALG KEY DATA SIG`, in hex */
    DNSSEC_CHECK_ANSWERS = 2     /* answers by the numbers of a compact list; of no use where something is listed */
};

/* What octets are too long. */
enum dnssec_check_input {
    DNSSEC_CHECK_CAPTURE = 1,
    DNSSEC_CHECK_ANCHORS = 2,
    DNSSEC_CHECK_VERIFIED = 3,
    DNSSEC_CHECK_KEYS = 4,
    DNSSEC_CHECK_MACS = 5,
    DNSSEC_CHECK_QUESTIONS = 6
};

/* Octets. `data` may be NULL where `length` is 0. */
typedef struct dnssec_check_octets {
    const void *data;
    size_t length;
} dnssec_check_octets;

/* What questions are judged by. The octets have the forms of the files that the program reads. */
typedef struct dnssec_check_case {
    dnssec_check_octets capture;     /* DNS messages, each behind its length in two octets */
    dnssec_check_octets anchors;     /* trust anchors, as lines */
    dnssec_check_octets verified;    /* what says which signatures were verified */
    uint32_t verified_form;          /* enum dnssec_check_verified */
    uint64_t moment;                 /* in seconds since 1970, up to 2^48 - 1 */
    const dnssec_check_octets *keys; /* the keys by which every message was signed (TSIG); NULL: none are given */
    const dnssec_check_octets *macs; /* with keys, the MACs of the requests; NULL: none are given */
} dnssec_check_case;

/* What a call tells besides its status. All is 0 that isn't known; messages, records and lines are counted from 1. */
typedef struct dnssec_check_outcome {
    size_t length;   /* how many octets the whole text has */
    size_t message;  /* the message of the capture at which a fault arose */
    size_t record;   /* the record of that message, through its three sections */
    size_t line;     /* the line of a text at which a fault arose */
    uint32_t number; /* the number of the fault, which the manual page dnssec_check(1) explains */
    uint32_t input;  /* enum dnssec_check_input: what is too long, where that is the fault */
} dnssec_check_outcome;

/* Shows every message of the capture with its question and records. */
int dnssec_check_show(const dnssec_check_octets *capture, void *buffer, size_t room, dnssec_check_outcome *outcome);

/* Lists what `listing` says (enum dnssec_check_listing). Of the case the capture counts, the moment, and what was verified. */
int dnssec_check_list(const dnssec_check_case *given, uint32_t listing, uint32_t format, void *buffer, size_t room,
                      dnssec_check_outcome *outcome);

/* Lists the signatures that a verifier still has to check for the moments from `from` to `to`, each once, where `listing` is
   DNSSEC_CHECK_OPEN or DNSSEC_CHECK_COMPACT. The case counts as above, but for its moment. A range that is turned, or in
   which moments lie 2^32 seconds or more apart, is refused by number 821. */
int dnssec_check_list_range(const dnssec_check_case *given, uint64_t from, uint64_t to, uint32_t listing, uint32_t format,
                            void *buffer, size_t room, dnssec_check_outcome *outcome);

/* Says what the case proves of a name, which ends with a dot, and a type. */
int dnssec_check_check(const dnssec_check_case *given, const char *name, uint32_t type, uint32_t format, void *buffer,
                       size_t room, dnssec_check_outcome *outcome);

/* Says the same, and then why it stands or fails. */
int dnssec_check_explain(const dnssec_check_case *given, const char *name, uint32_t type, uint32_t format, void *buffer,
                         size_t room, dnssec_check_outcome *outcome);

/* Says what the case proves of a name and a type at each moment from `from` to `to`, as intervals of moments, with the
   signatures that end or begin between them; `detail` is of enum dnssec_check_detail. The moment of the case doesn't count.
   Answers by number are those of the compact list of just this range. Keys aren't taken, since a message that is signed by
   one opens within minutes only: where they are given, it answers DNSSEC_CHECK_MISUSED. A range is refused as above. The
   status is 0, whatever the verdicts are; but a question that is refused at every moment is refused. */
int dnssec_check_timeline(const dnssec_check_case *given, uint64_t from, uint64_t to, const char *name, uint32_t type,
                          uint32_t detail, uint32_t format, void *buffer, size_t room, dnssec_check_outcome *outcome);

/* Says what the case proves of each question of a text of lines `NAME TYPE`, one behind the other; TYPE is a number. The case
   is read once, and the status is the greatest of all. */
int dnssec_check_check_each(const dnssec_check_case *given, const dnssec_check_octets *questions, uint32_t format,
                            void *buffer, size_t room, dnssec_check_outcome *outcome);

/* Says the same, and of each why it stands or fails. */
int dnssec_check_explain_each(const dnssec_check_case *given, const dnssec_check_octets *questions, uint32_t format,
                              void *buffer, size_t room, dnssec_check_outcome *outcome);

/* The version, as "0.10.0". */
const char *dnssec_check_version(void);

#ifdef __cplusplus
}
#endif

#endif
