/* Says what a capture proves of a question: example CAPTURE ANCHORS STATEMENTS MOMENT NAME TYPE */
#include <dnssec_check.h>
#include <stdio.h>
#include <stdlib.h>

static dnssec_check_octets read_all(const char *path) {
    static unsigned char room[3][1 << 20];
    static int next;
    FILE *file = fopen(path, "rb");
    if (file == NULL || next == 3) exit(1);
    dnssec_check_octets octets = {room[next], fread(room[next], 1, sizeof room[next], file)};
    if (ferror(file) || getc(file) != EOF) exit(1); /* unread, or longer than the room */
    next++;
    fclose(file);
    return octets;
}

int main(int count, char **words) {
    if (count != 7) return 2;
    dnssec_check_case given = {0};
    given.capture = read_all(words[1]);
    given.anchors = read_all(words[2]);
    given.verified = read_all(words[3]);
    given.verified_form = DNSSEC_CHECK_STATEMENTS;
    given.moment = strtoull(words[4], NULL, 10);

    static char text[1 << 16];
    dnssec_check_outcome told;
    int status = dnssec_check_check(&given, words[5], (uint32_t)atoi(words[6]), DNSSEC_CHECK_LINES, text, sizeof text, &told);
    if (told.number != 0) fprintf(stderr, "refused %u\n", told.number);
    fwrite(text, 1, told.number == 0 && status < 8 ? told.length : 0, stdout);
    return status;
}
