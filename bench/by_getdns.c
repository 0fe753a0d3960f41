/*
 * How many captures getdns validates in a second of a processor: by_getdns CAPTURE ANCHOR MOMENT SECONDS. ANCHOR is a DS record
 * as text. The answer of the last message is what is validated, by the records of all answers; each validation reads the
 * messages anew, as a new capture would be.
 */
#include <getdns/getdns.h>
#include <getdns/getdns_extra.h>
#include <stdio.h>
#include <stdlib.h>
#include <time.h>

static unsigned char capture[1 << 20];
static size_t length;

static void add_all(getdns_list *to, getdns_list *from) {
    size_t count = 0, next = 0;
    getdns_list_get_length(from, &count);
    getdns_list_get_length(to, &next);
    for (size_t each = 0; each < count; each++) {
        getdns_dict *record;
        if (getdns_list_get_dict(from, each, &record) == GETDNS_RETURN_GOOD) getdns_list_set_dict(to, next++, record);
    }
}

/* The answers of all messages, and of the last one. */
static int read_all(getdns_list *all, getdns_list *last) {
    size_t place = 0;
    while (place + 2 <= length) {
        size_t size = (size_t)capture[place] << 8 | capture[place + 1];
        getdns_dict *message = NULL;
        getdns_list *answer;
        if (getdns_wire2msg_dict(capture + place + 2, size, &message) != GETDNS_RETURN_GOOD) return 0;
        place += 2 + size;
        if (getdns_dict_get_list(message, "answer", &answer) != GETDNS_RETURN_GOOD) return 0;
        add_all(all, answer);
        if (place == length) add_all(last, answer);
        getdns_dict_destroy(message);
    }
    return 1;
}

static int is_secure(const getdns_list *anchors, time_t moment) {
    getdns_list *all = getdns_list_create(), *last = getdns_list_create();
    int secure = read_all(all, last) && getdns_validate_dnssec2(last, all, anchors, moment, 0) == GETDNS_DNSSEC_SECURE;
    getdns_list_destroy(all);
    getdns_list_destroy(last);
    return secure;
}

int main(int count, char **words) {
    if (count != 5) return 2;
    FILE *file = fopen(words[1], "rb");
    getdns_dict *anchor = NULL;
    if (file == NULL || getdns_str2rr_dict(words[2], &anchor, NULL, 3600) != GETDNS_RETURN_GOOD) return 3;
    length = fread(capture, 1, sizeof capture, file);
    fclose(file);
    getdns_list *anchors = getdns_list_create();
    getdns_list_set_dict(anchors, 0, anchor);
    time_t moment = (time_t)strtoll(words[3], NULL, 10);
    double least = strtod(words[4], NULL) * CLOCKS_PER_SEC;
    if (!is_secure(anchors, moment)) return 4;
    clock_t begin = clock();
    long done = 0;
    while (clock() - begin < least) {
        if (!is_secure(anchors, moment)) return 4;
        done++;
    }
    printf("%.0f\n", done * (double)CLOCKS_PER_SEC / (double)(clock() - begin));
    return 0;
}
