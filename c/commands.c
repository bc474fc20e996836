/* Commands of the program over the library, for tools/test: `replay`, `follow`, `show TABLE` (of standard input), `gen NUMBER COUNT`, and
   `check` (of the two files that are named); and `session`, a replay line by line, but for a last line that is cut off, and `trial`, the same with each line
   tried before; and `shown TABLE`, the table of a session that has taken the same lines. In front of them may stand `--room N`:
   the room of the first call; `--fail N`: the Nth allocation of the library is refused; `--thread`: in a thread with 512 kB of stack;
   `--times N`. */
#include <pthread.h>
#include <stdio.h>
#include <stdlib.h>
#include <string.h>
#include "switchbr.h"

static size_t refused, asked;

void *__real_malloc(size_t size);
void *__real_realloc(void *at, size_t size);
void *__wrap_malloc(size_t size) { return ++asked == refused ? NULL : __real_malloc(size); }
void *__wrap_realloc(void *at, size_t size) { return ++asked == refused ? NULL : __real_realloc(at, size); }

struct text { uint8_t *bytes; size_t len; };

static struct text read_all(const char *name) {
    FILE *file = name ? fopen(name, "rb") : stdin;
    struct text text = {__real_malloc(1), 0};
    size_t room = 1, got;
    while (file && (got = fread(text.bytes + text.len, 1, room - text.len, file)) > 0) {
        text.len += got;
        if (text.len == room) text.bytes = __real_realloc(text.bytes, room *= 2);
    }
    return text;
}

static char **words;
static size_t first_room = 1 << 20, times = 1;
static struct text one, two;
static int answer;

static uint8_t table_of(const char *word) {
    return !strcmp(word, "fdb") ? SWITCHBR_FDB : !strcmp(word, "vlan") ? SWITCHBR_VLAN : !strcmp(word, "mdb") ? SWITCHBR_MDB : 3;
}

static switchbr_status call(uint8_t *out, size_t room, size_t *len) {
    if (!strcmp(words[0], "replay")) return switchbr_replay(one.bytes, one.len, out, room, len);
    if (!strcmp(words[0], "follow")) return switchbr_follow(one.bytes, one.len, out, room, len);
    if (!strcmp(words[0], "show")) return switchbr_show(table_of(words[1]), one.bytes, one.len, out, room, len);
    return switchbr_generate(strtoull(words[1], NULL, 10), strtoul(words[2], NULL, 10), out, room, len);
}

static void *give(void *nothing) {
    if (!strcmp(words[0], "check")) {
        uint32_t line = 7;
        answer = switchbr_check(one.bytes, one.len, two.bytes, two.len, &line);
        printf("%u\n", line);
        return nothing;
    }
    size_t room = first_room, len = 7;
    uint8_t *out = __real_malloc(room + 1);
    memset(out, '.', room + 1);
    answer = call(out, room, &len);
    if (answer == SWITCHBR_NO_ROOM) {
        size_t wanted = len;
        for (size_t at = 0; at <= room; at++) if (out[at] != '.') exit(100);
        if (len <= room) exit(101);
        out = __real_realloc(out, (room = len) + 1);
        memset(out, '.', room + 1);
        answer = call(out, room, &len);
        if (answer != SWITCHBR_NO_MEMORY && len != wanted) exit(102);
    }
    for (size_t at = len; at <= room; at++) if (out[at] != '.') exit(103);
    for (size_t more = 1; more < times; more++) answer = call(out, room, &len);
    fwrite(out, 1, len, stdout);
    free(out);
    return nothing;
}

static switchbr_session session = SWITCHBR_SESSION_INIT;
static uint8_t *shown;
static size_t len;
static int is_quiet, is_trial, is_table;

/* Writes what a call on the session has given. */
static int show(switchbr_status status) {
    if (status == SWITCHBR_NO_ROOM) {
        if (len <= first_room) exit(106);
        shown = __real_realloc(shown, first_room = len);
        status = switchbr_text(&session, shown, first_room, &len);
    }
    if (!is_quiet) fwrite(shown, 1, len, stdout);
    return status;
}

static int is_end(const char *line, size_t size) {
    size_t at = 0;
    while (at < size && line[at] == ' ') at++;
    if (size - at < 3 || memcmp(line + at, "end", 3)) return 0;
    for (at += 3; at < size && line[at] == ' '; at++);
    return at == size;
}

static size_t section_behind(const char *line, size_t size) {
    char copy[64] = {0};
    size_t length = 0;
    memcpy(copy, line, size < 63 ? size : 63);
    return sscanf(copy, " capture %zu", &length) == 1 ? length : 0;
}

/* What becomes of a line, as it was tried. */
static int tried_line(const uint8_t *line, size_t size) {
    uint8_t last[64];
    size_t last_len = 9;
    switchbr_status tried = is_trial ? switchbr_try(&session, line, size, last, sizeof last, &last_len) : SWITCHBR_NO_MEMORY;
    switchbr_status status = show(switchbr_line(&session, line, size, shown, first_room, &len));
    if (tried == SWITCHBR_NO_MEMORY || status == SWITCHBR_NO_MEMORY) return status;
    if (tried != status || (tried != SWITCHBR_BAD_LINE && last_len)) exit(109);
    if (len < last_len || memcmp(shown + len - last_len, last, last_len)) exit(110);
    return status;
}

/* Writes a table of what was taken. */
static void show_table(void) {
    switchbr_status status = switchbr_shown(&session, table_of(words[1]), shown, first_room, &len);
    if (status == SWITCHBR_NO_ROOM) {
        shown = __real_realloc(shown, first_room = len);
        status = switchbr_shown(&session, table_of(words[1]), shown, first_room, &len);
    }
    if (status) answer = status;
    else fwrite(shown, 1, len, stdout);
}

static void step_by_step(void) {
    size_t at = 0;
    shown = __real_malloc(first_room + 1);
    if (switchbr_end(&session) != SWITCHBR_CLOSED) exit(107);
    if (!(answer = switchbr_open(&session))) answer = show(switchbr_text(&session, shown, first_room, &len));
    while (!answer && at < one.len) {
        const uint8_t *line = one.bytes + at, *feed = memchr(line, '\n', one.len - at);
        size_t size = feed ? (size_t)(feed - line) : one.len - at, section = section_behind((const char *)line, size);
        if (!feed && size <= 20000 && !is_end((const char *)line, size)) break;
        answer = tried_line(line, size);
        at += size + !!feed;
        if (answer || !section) continue;
        if (section > one.len - at) break;
        answer = show(switchbr_section(&session, one.bytes + at, section, shown, first_room, &len));
        at += section;
    }
    if (answer == SWITCHBR_CLOSED) answer = SWITCHBR_OK;
    else if (!answer) answer = switchbr_line(&session, (const uint8_t *)"", 0, shown, first_room, &len) == SWITCHBR_CLOSED ? SWITCHBR_OK : SWITCHBR_BAD_LINE;
    if (is_table && answer != SWITCHBR_NO_MEMORY) show_table();
    if (switchbr_end(&session) != (answer == SWITCHBR_NO_MEMORY ? SWITCHBR_CLOSED : SWITCHBR_OK)) exit(108);
    free(shown);
}

static void *steps(void *nothing) {
    for (is_quiet = 1; times > 1; times--) step_by_step();
    is_quiet = is_table;
    step_by_step();
    return nothing;
}

int main(int count, char **given) {
    int in_thread = 0;
    size_t fail = 0;
    for (words = given + 1; --count && !strncmp(*words, "--", 2); words++) {
        if (!strcmp(*words, "--thread")) { in_thread = 1; continue; }
        size_t number = strtoul(words[1], NULL, 10);
        *(!strcmp(*words, "--room") ? &first_room : !strcmp(*words, "--fail") ? &fail : &times) = number;
        words++, count--;
    }
    if (switchbr_abi() != SWITCHBR_ABI) return 104;
    if (!strcmp(words[0], "check")) one = read_all(words[1]), two = read_all(words[2]);
    else if (strcmp(words[0], "gen")) one = read_all(NULL);
    refused = fail ? asked + fail : 0;
    is_trial = !strcmp(words[0], "trial");
    is_table = !strcmp(words[0], "shown");
    void *(*run)(void *) = is_trial || is_table || !strcmp(words[0], "session") ? steps : give;
    if (in_thread) {
        pthread_attr_t small;
        pthread_t thread;
        pthread_attr_init(&small);
        pthread_attr_setstacksize(&small, 1 << 19);
        if (pthread_create(&thread, &small, run, NULL) || pthread_join(thread, NULL)) return 105;
    } else run(NULL);
    fprintf(stderr, "%zu\n", asked);
    return answer;
}
