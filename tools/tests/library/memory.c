/*
 * Each call for memory failing in turn: memory CAPTURE ANCHORS STATEMENTS, linked with --wrap of malloc, realloc and free. The exit
 * status is 0 where every call that lacked memory told just that, wrote nothing and kept nothing.
 */
#include <dnssec_check.h>
#include <stdio.h>
#include <string.h>

void *__real_malloc(size_t size);
void *__real_realloc(void *block, size_t size);
void __real_free(void *block);

static long left = -1, held;

void *__wrap_malloc(size_t size) {
    if (left == 0) return NULL;
    if (left > 0) left--;
    held++;
    return __real_malloc(size);
}

void *__wrap_realloc(void *block, size_t size) {
    if (left == 0) return NULL;
    if (left > 0) left--;
    return __real_realloc(block, size);
}

void __wrap_free(void *block) {
    if (block != NULL) held--;
    __real_free(block);
}

enum { FROM = 1790000000, TO = 1806000000, KINDS = 6 };
static unsigned char files[3][1 << 16], text[1 << 20];

static int asked(int kind, const dnssec_check_case *given, dnssec_check_outcome *told) {
    static const dnssec_check_octets questions = {"www.bind.test. 1\nnosuch.bind.test. 28\n", 38};
    switch (kind) {
    case 0: return dnssec_check_show(&given->capture, text, sizeof text, told);
    case 1: return dnssec_check_list(given, DNSSEC_CHECK_COMPACT, DNSSEC_CHECK_JSON, text, sizeof text, told);
    case 2: return dnssec_check_explain(given, "www.bind.test.", 1, DNSSEC_CHECK_LINES, text, sizeof text, told);
    case 3: return dnssec_check_list_range(given, FROM, TO, DNSSEC_CHECK_OPEN, DNSSEC_CHECK_JSON, text, sizeof text, told);
    case 4: return dnssec_check_timeline(given, FROM, TO, "www.bind.test.", 1, 0, DNSSEC_CHECK_JSON, text, sizeof text, told);
    default: return dnssec_check_check_each(given, &questions, DNSSEC_CHECK_JSON, text, sizeof text, told);
    }
}

int main(int count, char **words) {
    dnssec_check_case given;
    dnssec_check_outcome told;
    memset(&given, 0, sizeof given);
    dnssec_check_octets *each[] = {&given.capture, &given.anchors, &given.verified};
    if (count != 4) return 9;
    for (int file = 0; file < 3; file++) {
        FILE *opened = fopen(words[1 + file], "rb");
        if (opened == NULL) return 9;
        each[file]->data = files[file];
        each[file]->length = fread(files[file], 1, sizeof files[file], opened);
        fclose(opened);
    }
    given.verified_form = DNSSEC_CHECK_STATEMENTS;
    given.moment = 1795348800;
    for (int kind = 0; kind < KINDS; kind++) {
        long before = held;
        for (long first = 0;; first++) {
            memset(text, 7, sizeof text);
            left = first;
            int status = asked(kind, &given, &told);
            int is_lacking = left == 0 && status == DNSSEC_CHECK_FAILED;
            left = -1;
            if (held != before) return 1;
            if (!is_lacking) {
                if (told.number != 0 || told.length == 0 || first < 10) return 2;
                break;
            }
            if (told.number != 90 || told.length != 0) return 3;
            for (size_t place = 0; place < sizeof text; place += 61) if (text[place] != 7) return 4;
            if (text[0] != 7) return 4;
        }
    }
    return 0;
}
