/* Calls with NULL and with too little room. The exit status is the number of the first line that isn't so, or 0. */
#include <dnssec_check.h>
#include <string.h>

#define LAST (((uint64_t)1 << 48) - 1)
#define IS(told, wanted) do { if ((told) != (wanted)) return __LINE__; } while (0)

int main(void) {
    static const char timeline[] = "timeline a. 1\n3 9 Indeterminate\n";
    static const unsigned char query[] = {0, 12, 0, 1, 0, 0, 0, 0, 0, 0, 0, 0, 0, 0};
    dnssec_check_octets none = {NULL, 0}, lost = {NULL, 1}, huge = {query, (size_t)-1}, one = {query, sizeof query};
    dnssec_check_outcome told;
    dnssec_check_case given;
    unsigned char text[64], kept[64];
    memset(&given, 0, sizeof given);
    memset(kept, 7, sizeof kept);

    IS(dnssec_check_show(&none, text, sizeof text, &told), DNSSEC_CHECK_DONE);
    IS(told.length, 0);
    IS(dnssec_check_show(NULL, text, sizeof text, &told), DNSSEC_CHECK_NULL);
    IS(dnssec_check_show(&lost, text, sizeof text, &told), DNSSEC_CHECK_NULL);
    IS(dnssec_check_show(&huge, text, sizeof text, &told), DNSSEC_CHECK_NULL);
    IS(dnssec_check_show(&none, NULL, 1, &told), DNSSEC_CHECK_NULL);
    IS(dnssec_check_show(&none, NULL, 0, NULL), DNSSEC_CHECK_DONE);

    IS(dnssec_check_check(&given, "a.", 1, DNSSEC_CHECK_LINES, NULL, 0, &told), DNSSEC_CHECK_ROOM);
    IS(told.length, 19);
    IS(told.number, 0);
    memcpy(text, kept, sizeof text);
    IS(dnssec_check_check(&given, "a.", 1, DNSSEC_CHECK_LINES, text, 18, &told), DNSSEC_CHECK_ROOM);
    IS(memcmp(text, kept, sizeof text), 0);
    IS(dnssec_check_check(&given, "a.", 1, DNSSEC_CHECK_LINES, text, 19, &told), DNSSEC_CHECK_INDETERMINATE);
    IS(memcmp(text, "Indeterminate a. 1\n", 19), 0);
    IS(memcmp(text + 19, kept + 19, sizeof text - 19), 0);

    IS(dnssec_check_check(NULL, "a.", 1, DNSSEC_CHECK_LINES, text, sizeof text, &told), DNSSEC_CHECK_NULL);
    IS(dnssec_check_check(&given, NULL, 1, DNSSEC_CHECK_LINES, text, sizeof text, &told), DNSSEC_CHECK_NULL);
    IS(dnssec_check_check_each(&given, NULL, DNSSEC_CHECK_LINES, text, sizeof text, &told), DNSSEC_CHECK_NULL);
    IS(dnssec_check_check_each(&given, &none, DNSSEC_CHECK_LINES, text, sizeof text, &told), DNSSEC_CHECK_DONE);
    IS(dnssec_check_check(&given, "a.", 65536, DNSSEC_CHECK_LINES, text, sizeof text, &told), DNSSEC_CHECK_MISUSED);
    IS(dnssec_check_check(&given, "a.", 1, 2, text, sizeof text, &told), DNSSEC_CHECK_MISUSED);
    IS(dnssec_check_check(&given, "\xff.", 1, DNSSEC_CHECK_LINES, text, sizeof text, &told), DNSSEC_CHECK_MISUSED);
    IS(dnssec_check_list(&given, 3, DNSSEC_CHECK_LINES, text, sizeof text, &told), DNSSEC_CHECK_MISUSED);
    given.moment = (uint64_t)1 << 48;
    IS(dnssec_check_check(&given, "a.", 1, DNSSEC_CHECK_LINES, text, sizeof text, &told), DNSSEC_CHECK_MISUSED);
    given.moment--;
    IS(dnssec_check_check(&given, "a.", 1, DNSSEC_CHECK_LINES, text, sizeof text, &told), DNSSEC_CHECK_INDETERMINATE);
    given.verified_form = DNSSEC_CHECK_ANSWERS;
    IS(dnssec_check_check(&given, "a.", 1, DNSSEC_CHECK_LINES, text, sizeof text, &told), DNSSEC_CHECK_REFUSED);
    IS(told.number, 805);
    IS(dnssec_check_list(&given, DNSSEC_CHECK_OPEN, DNSSEC_CHECK_LINES, text, sizeof text, &told), DNSSEC_CHECK_MISUSED);
    given.verified_form = 3;
    IS(dnssec_check_check(&given, "a.", 1, DNSSEC_CHECK_LINES, text, sizeof text, &told), DNSSEC_CHECK_MISUSED);
    given.verified_form = DNSSEC_CHECK_NOTHING;
    given.capture = one;
    IS(dnssec_check_check(&given, "a.", 1, DNSSEC_CHECK_LINES, text, sizeof text, &told), DNSSEC_CHECK_REFUSED);
    IS(told.number, 401);
    IS(told.message, 1);

    given.verified_form = DNSSEC_CHECK_NOTHING;
    given.capture = none;
    given.moment = UINT64_MAX;
    IS(dnssec_check_timeline(&given, 3, 9, "a.", 1, DNSSEC_CHECK_WORDS, DNSSEC_CHECK_LINES, NULL, 0, &told), DNSSEC_CHECK_ROOM);
    IS(told.length, sizeof timeline - 1);
    memcpy(text, kept, sizeof text);
    IS(dnssec_check_timeline(&given, 3, 9, "a.", 1, DNSSEC_CHECK_KINDS, DNSSEC_CHECK_LINES, text, sizeof text, &told), DNSSEC_CHECK_DONE);
    IS(memcmp(text, timeline, sizeof timeline - 1), 0);
    IS(memcmp(text + sizeof timeline - 1, kept, sizeof text - (sizeof timeline - 1)), 0);
    IS(dnssec_check_timeline(NULL, 3, 9, "a.", 1, 0, 0, text, sizeof text, &told), DNSSEC_CHECK_NULL);
    IS(dnssec_check_timeline(&given, 3, 9, NULL, 1, 0, 0, text, sizeof text, &told), DNSSEC_CHECK_NULL);
    IS(dnssec_check_timeline(&given, 3, 9, "a.", 1, 0, 0, NULL, 1, &told), DNSSEC_CHECK_NULL);
    IS(dnssec_check_timeline(&given, 3, 9, "a.", 65536, 0, 0, text, sizeof text, &told), DNSSEC_CHECK_MISUSED);
    IS(dnssec_check_timeline(&given, 3, 9, "a.", 1, 2, 0, text, sizeof text, &told), DNSSEC_CHECK_MISUSED);
    IS(dnssec_check_timeline(&given, 3, 9, "a.", 1, 0, 2, text, sizeof text, &told), DNSSEC_CHECK_MISUSED);
    IS(dnssec_check_timeline(&given, 3, 9, "\xff.", 1, 0, 0, text, sizeof text, &told), DNSSEC_CHECK_MISUSED);
    IS(dnssec_check_timeline(&given, 3, (uint64_t)1 << 48, "a.", 1, 0, 0, text, sizeof text, &told), DNSSEC_CHECK_MISUSED);
    IS(dnssec_check_timeline(&given, (uint64_t)1 << 48, 3, "a.", 1, 0, 0, text, sizeof text, &told), DNSSEC_CHECK_MISUSED);
    IS(dnssec_check_timeline(&given, 9, 3, "a.", 1, 0, 0, text, sizeof text, &told), DNSSEC_CHECK_REFUSED);
    IS(told.number, 821);
    IS(dnssec_check_timeline(&given, 3, (uint64_t)3 + UINT32_MAX, "a.", 1, 0, 0, NULL, 0, &told), DNSSEC_CHECK_ROOM);
    IS(dnssec_check_timeline(&given, 3, (uint64_t)4 + UINT32_MAX, "a.", 1, 0, 0, NULL, 0, &told), DNSSEC_CHECK_REFUSED);
    IS(told.number, 821);
    IS(dnssec_check_list_range(&given, 3, 9, DNSSEC_CHECK_COMPACT, 0, NULL, 0, &told), DNSSEC_CHECK_DONE);
    IS(dnssec_check_list_range(&given, 3, 9, DNSSEC_CHECK_ALL, 0, text, sizeof text, &told), DNSSEC_CHECK_MISUSED);
    IS(dnssec_check_list_range(&given, 9, 3, DNSSEC_CHECK_OPEN, 0, text, sizeof text, &told), DNSSEC_CHECK_REFUSED);
    IS(told.number, 821);
    IS(dnssec_check_list_range(&given, 3, (uint64_t)1 << 48, DNSSEC_CHECK_OPEN, 0, text, sizeof text, &told), DNSSEC_CHECK_MISUSED);
    IS(dnssec_check_list_range(NULL, 3, 9, DNSSEC_CHECK_OPEN, 0, text, sizeof text, &told), DNSSEC_CHECK_NULL);
    given.macs = &none;
    IS(dnssec_check_timeline(&given, 3, 9, "a.", 1, 0, 0, text, sizeof text, &told), DNSSEC_CHECK_DONE);
    given.keys = &none;
    IS(dnssec_check_timeline(&given, 3, 9, "a.", 1, 0, 0, text, sizeof text, &told), DNSSEC_CHECK_MISUSED);
    given.keys = NULL;
    given.macs = NULL;
    given.verified_form = DNSSEC_CHECK_ANSWERS;
    IS(dnssec_check_list_range(&given, 3, 9, DNSSEC_CHECK_OPEN, 0, text, sizeof text, &told), DNSSEC_CHECK_MISUSED);
    IS(dnssec_check_timeline(&given, 3, 9, "a.", 1, 0, 0, text, sizeof text, &told), DNSSEC_CHECK_REFUSED);
    IS(told.number, 805);
    given.verified_form = DNSSEC_CHECK_NOTHING;

    given.moment = LAST;
    given.capture = one;
    given.keys = &lost;
    IS(dnssec_check_check(&given, "a.", 1, DNSSEC_CHECK_LINES, text, sizeof text, &told), DNSSEC_CHECK_NULL);
    given.keys = &none;
    IS(dnssec_check_check(&given, "a.", 1, DNSSEC_CHECK_LINES, text, sizeof text, &told), DNSSEC_CHECK_REFUSED);
    IS(told.number, 310);
    return 0;
}
