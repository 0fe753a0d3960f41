/* Asks the library as an example asks the program:

       asked SUBCOMMAND FORM FORMAT MOMENT FROM TO NAME TYPE CAPTURE ANCHORS STATEMENTS ANSWERS KEYS MACS QUESTIONS

   where `-` is a moment or a file that isn't given, and FORM what a list or a timeline has. Writes the text and the fault as the
   program does, and ends with its status. The first call has too little room for any text. */
#include <dnssec_check.h>
#include <stdio.h>
#include <stdlib.h>
#include <string.h>

enum { COMMAND = 1, FORM, FORMAT, MOMENT, FROM, TO, NAME, TYPE, CAPTURE, ANCHORS, STATEMENTS, ANSWERS, KEYS, MACS, QUESTIONS, COUNT };

static int is_given(const char *word) { return strcmp(word, "-") != 0; }

static uint32_t number(const char *word) { return (uint32_t)strtoul(word, NULL, 10); }

static dnssec_check_octets all_of(const char *path) {
    dnssec_check_octets octets = {NULL, 0};
    FILE *file = is_given(path) ? fopen(path, "rb") : NULL;
    if (file == NULL) return octets;
    fseek(file, 0, SEEK_END);
    octets.length = (size_t)ftell(file);
    rewind(file);
    void *data = malloc(octets.length + 1);
    if (data == NULL || fread(data, 1, octets.length, file) != octets.length) exit(99);
    octets.data = data;
    fclose(file);
    return octets;
}

static int call(char **words, const dnssec_check_case *given, void *text, size_t room, dnssec_check_outcome *told) {
    const char *command = words[COMMAND], *name = words[NAME];
    uint32_t form = number(words[FORM]), format = number(words[FORMAT]), type = number(words[TYPE]);
    uint64_t from = strtoull(words[FROM], NULL, 10), to = strtoull(words[TO], NULL, 10);
    dnssec_check_octets questions = all_of(words[QUESTIONS]);
    int is_many = is_given(words[QUESTIONS]), is_why = strcmp(command, "explain") == 0;
    if (strcmp(command, "show") == 0) return dnssec_check_show(&given->capture, text, room, told);
    if (strcmp(command, "timeline") == 0) return dnssec_check_timeline(given, from, to, name, type, form, format, text, room, told);
    if (strcmp(command, "list") == 0 && is_given(words[FROM])) return dnssec_check_list_range(given, from, to, form, format, text, room, told);
    if (strcmp(command, "list") == 0) return dnssec_check_list(given, form, format, text, room, told);
    if (is_many && is_why) return dnssec_check_explain_each(given, &questions, format, text, room, told);
    if (is_many) return dnssec_check_check_each(given, &questions, format, text, room, told);
    return (is_why ? dnssec_check_explain : dnssec_check_check)(given, name, type, format, text, room, told);
}

static void say(int status, const dnssec_check_outcome *told, int has_answers) {
    static const char *const inputs[] = {"", "capture", "anchors", "statements", "keys", "macs", "questions"};
    fprintf(stderr, "%s %u", status == DNSSEC_CHECK_REFUSED ? "refused" : "fault", (unsigned)told->number);
    if (told->message != 0) fprintf(stderr, " message %zu", told->message);
    if (told->record != 0) fprintf(stderr, " record %zu", told->record);
    if (told->line != 0) fprintf(stderr, " line %zu", told->line);
    if (told->input != 0) fprintf(stderr, " %s", told->input == DNSSEC_CHECK_VERIFIED && has_answers ? "answers" : inputs[told->input]);
    fputc('\n', stderr);
}

int main(int count, char **words) {
    if (count != COUNT) return 98;
    dnssec_check_octets keys = all_of(words[KEYS]), macs = all_of(words[MACS]);
    int has_statements = is_given(words[STATEMENTS]), has_answers = is_given(words[ANSWERS]);
    dnssec_check_case given = {0};
    given.capture = all_of(words[CAPTURE]);
    given.anchors = all_of(words[ANCHORS]);
    given.verified = all_of(words[has_answers ? ANSWERS : STATEMENTS]);
    given.verified_form = has_answers ? DNSSEC_CHECK_ANSWERS : has_statements ? DNSSEC_CHECK_STATEMENTS : DNSSEC_CHECK_NOTHING;
    given.moment = is_given(words[MOMENT]) ? strtoull(words[MOMENT], NULL, 10) : UINT64_MAX;
    given.keys = is_given(words[KEYS]) ? &keys : NULL;
    given.macs = is_given(words[MACS]) ? &macs : NULL;

    dnssec_check_outcome told;
    int status = call(words, &given, NULL, 0, &told);
    if (status != DNSSEC_CHECK_ROOM && told.number != 0) return say(status, &told, has_answers), status;
    char *text = malloc(told.length + 1);
    if (text == NULL) return 97;
    size_t room = told.length;
    status = call(words, &given, text, room, &told);
    if (told.length != room) return 96;
    fwrite(text, 1, told.length, stdout);
    return status;
}
