/* Says when a question has which verdict: over_time CAPTURE ANCHORS STATEMENTS FROM TO NAME TYPE */
#include <dnssec_check.h>
#include <stdio.h>
#include <stdlib.h>

static dnssec_check_octets read_all(const char *path) {
    static unsigned char room[3][1 << 20];
    static int next;
    FILE *file = fopen(path, "rb");
    if (file == NULL || next == 3) exit(1);
    dnssec_check_octets octets = {room[next], fread(room[next], 1, sizeof room[next], file)};
    if (ferror(file) || getc(file) != EOF) exit(1); /* unread, or longer than the room */
    next++;
    fclose(file);
    return octets;
}

int main(int count, char **words) {
    if (count != 8) return 2;
    dnssec_check_case given = {0};
    given.capture = read_all(words[1]);
    given.anchors = read_all(words[2]);
    given.verified = read_all(words[3]);
    given.verified_form = DNSSEC_CHECK_STATEMENTS;
    uint64_t from = strtoull(words[4], NULL, 10), to = strtoull(words[5], NULL, 10);

    static char text[1 << 16];
    dnssec_check_outcome told;
    int status = dnssec_check_timeline(&given, from, to, words[6], (uint32_t)atoi(words[7]), DNSSEC_CHECK_KINDS,
                                       DNSSEC_CHECK_LINES, text, sizeof text, &told);
    if (told.number != 0) fprintf(stderr, "refused %u\n", told.number);
    fwrite(text, 1, status == DNSSEC_CHECK_DONE ? told.length : 0, stdout);
    return status;
}
