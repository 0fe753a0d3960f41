/*
 * Octets of gigabytes, in a mapping of zeros of which the system keeps no page that isn't written: huge FILE, one of the words of
 * `named`. A capture is refused where its first message begins, without a look at the rest; of a text no more is read than one
 * may have. Lengths of octets that aren't there are told as NULL. The exit status is the line of what isn't so, or 0.
 */
#define _GNU_SOURCE
#include <dnssec_check.h>
#include <string.h>
#include <sys/mman.h>

#define IS(told, wanted) do { if ((told) != (wanted)) return __LINE__; } while (0)

static const char *const named[] = {"lengths", "capture", "anchors", "verified", "keys", "macs", "questions"};
static const size_t gigabytes = (size_t)3 << 30, terabyte = (size_t)1 << 40;
static unsigned char text[64];
static dnssec_check_outcome told;

static int asked(const dnssec_check_case *given) {
    return dnssec_check_check(given, "a.", 1, DNSSEC_CHECK_LINES, text, sizeof text, &told);
}

static int over_time(const dnssec_check_case *given) {
    return dnssec_check_timeline(given, 3, 9, "a.", 1, DNSSEC_CHECK_WORDS, DNSSEC_CHECK_LINES, text, sizeof text, &told);
}

static int of_lengths(void) {
    dnssec_check_octets lost = {NULL, terabyte}, one = {text, SIZE_MAX}, none = {NULL, 0};
    dnssec_check_case given;
    memset(&given, 0, sizeof given);
    dnssec_check_octets *each[] = {&given.capture, &given.anchors, &given.verified};
    for (int file = 0; file < 3; file++) {
        *each[file] = lost;
        IS(asked(&given), DNSSEC_CHECK_NULL);
        IS(over_time(&given), DNSSEC_CHECK_NULL);
        IS(dnssec_check_list(&given, DNSSEC_CHECK_OPEN, DNSSEC_CHECK_LINES, text, sizeof text, &told), DNSSEC_CHECK_NULL);
        IS(dnssec_check_list_range(&given, 3, 9, DNSSEC_CHECK_OPEN, 0, text, sizeof text, &told), DNSSEC_CHECK_NULL);
        *each[file] = one;
        IS(asked(&given), DNSSEC_CHECK_NULL);
        *each[file] = none;
    }
    IS(dnssec_check_show(&lost, text, sizeof text, &told), DNSSEC_CHECK_NULL);
    IS(dnssec_check_check_each(&given, &lost, DNSSEC_CHECK_LINES, text, sizeof text, &told), DNSSEC_CHECK_NULL);
    IS(dnssec_check_show(&none, NULL, terabyte, &told), DNSSEC_CHECK_NULL);
    IS(dnssec_check_show(&none, text, SIZE_MAX, &told), DNSSEC_CHECK_NULL);
    given.keys = &lost;
    IS(asked(&given), DNSSEC_CHECK_NULL);
    given.keys = &none;
    given.macs = &lost;
    IS(asked(&given), DNSSEC_CHECK_NULL);
    return 0;
}

static int of_capture(const dnssec_check_octets *zeros) {
    dnssec_check_case given;
    memset(&given, 0, sizeof given);
    given.capture = *zeros;
    IS(asked(&given), DNSSEC_CHECK_REFUSED);
    IS(told.number, 208);
    IS(told.message, 1);
    IS(over_time(&given), DNSSEC_CHECK_REFUSED);
    IS(told.number, 208);
    IS(dnssec_check_list_range(&given, 3, 9, DNSSEC_CHECK_OPEN, 0, text, sizeof text, &told), DNSSEC_CHECK_REFUSED);
    IS(dnssec_check_show(zeros, text, sizeof text, &told), DNSSEC_CHECK_REFUSED);
    IS(told.number, 208);
    return 0;
}

static int of_text(uint32_t input, const dnssec_check_octets *zeros) {
    static const dnssec_check_octets key = {"a. AAAAAAAAAAAAAAAAAAAAAA==\n", 28};
    dnssec_check_case given;
    memset(&given, 0, sizeof given);
    if (input == DNSSEC_CHECK_ANCHORS) given.anchors = *zeros;
    if (input == DNSSEC_CHECK_VERIFIED) given.verified = *zeros;
    if (input == DNSSEC_CHECK_VERIFIED) given.verified_form = DNSSEC_CHECK_STATEMENTS;
    if (input == DNSSEC_CHECK_KEYS) given.keys = zeros;
    if (input == DNSSEC_CHECK_MACS) given.keys = &key;
    if (input == DNSSEC_CHECK_MACS) given.macs = zeros;
    if (input == DNSSEC_CHECK_QUESTIONS)
        IS(dnssec_check_check_each(&given, zeros, DNSSEC_CHECK_LINES, text, sizeof text, &told), DNSSEC_CHECK_FAILED);
    else
        IS(asked(&given), DNSSEC_CHECK_FAILED);
    IS(told.number, 211);
    IS(told.input, input);
    return 0;
}

int main(int count, char **words) {
    uint32_t input = 0;
    while (count == 2 && input < 7 && strcmp(words[1], named[input]) != 0) input++;
    if (count != 2 || input == 7) return 9;
    void *mapped = mmap(NULL, gigabytes, PROT_READ, MAP_PRIVATE | MAP_ANONYMOUS | MAP_NORESERVE, -1, 0);
    if (mapped == MAP_FAILED) return 8;
    dnssec_check_octets zeros = {mapped, gigabytes};
    return input == 0 ? of_lengths() : input == DNSSEC_CHECK_CAPTURE ? of_capture(&zeros) : of_text(input, &zeros);
}
