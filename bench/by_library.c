/*
 * How many captures the library judges in a second of a processor, from C and by statements:
 * by_library CAPTURE ANCHORS STATEMENTS MOMENT NAME TYPE SECONDS.
 */
#include <dnssec_check.h>
#include <stdio.h>
#include <stdlib.h>
#include <time.h>

static unsigned char files[3][1 << 20];

static dnssec_check_octets octets_of(const char *path, int number) {
    FILE *file = fopen(path, "rb");
    if (file == NULL) exit(3);
    dnssec_check_octets octets = {files[number], fread(files[number], 1, sizeof files[number], file)};
    fclose(file);
    return octets;
}

int main(int count, char **words) {
    if (count != 8) return 2;
    dnssec_check_case given = {0};
    given.capture = octets_of(words[1], 0);
    given.anchors = octets_of(words[2], 1);
    given.verified = octets_of(words[3], 2);
    given.verified_form = DNSSEC_CHECK_STATEMENTS;
    given.moment = strtoull(words[4], NULL, 10);
    static char text[1 << 16];
    double least = strtod(words[7], NULL) * CLOCKS_PER_SEC;
    clock_t begin = clock();
    long done = 0;
    while (clock() - begin < least) {
        int status = dnssec_check_check(&given, words[5], (uint32_t)atoi(words[6]), DNSSEC_CHECK_LINES, text, sizeof text, NULL);
        if (status != DNSSEC_CHECK_DONE) return 4;
        done++;
    }
    printf("%.0f\n", done * (double)CLOCKS_PER_SEC / (double)(clock() - begin));
    return 0;
}
