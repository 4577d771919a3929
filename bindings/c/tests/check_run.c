/* Calls the whole program as a C program does, and prints `c: N passed, M failed`. */
#include <stdio.h>
#include <stdlib.h>
#include <string.h>

#include "vortex_select.h"

static int passed, failed;

static void expect(int holds, const char *what) {
    passed += holds;
    failed += !holds;
    if (!holds) {
        printf("c: not so: %s\n", what);
    }
}

static int is(vortex_answer answer, uint64_t status, uint64_t value) {
    return answer.status == status && answer.value == value;
}

static const char two[] = "{\"column\":{\"layout\":\"Primitive\",\"type\":\"i16\",\"values\":[-2,"
                          "300,7]},\"steps\":[{\"slice\":[0,2]},{\"slice\":[1,2]}]}";
static uint8_t dst[64];

static vortex_answer run(const char *words, size_t words_len, const char *document, size_t room) {
    memset(dst, 0xab, sizeof dst);
    return vortex_program((const uint8_t *)words, words_len, (const uint8_t *)document,
        strlen(document), dst, room);
}

static int is_untouched(void) {
    for (size_t k = 0; k < sizeof dst; k++) {
        if (dst[k] != 0xab) {
            return 0;
        }
    }
    return 1;
}

static void texts(void) {
    vortex_answer answer = run("rows", 5, two, sizeof dst);
    expect(is(answer, VORTEX_PROGRAM_DONE, 8), "a run");
    expect(memcmp(dst, "i16\n300\n", 8) == 0 && dst[8] == 0xab, "its text");
    answer = run("rows", 4, two, 8);
    expect(is(answer, VORTEX_PROGRAM_DONE, 8), "a word that ends with the bytes, and just the room");
    answer = run("rows", 5, two, 7);
    expect(is(answer, VORTEX_PROGRAM_ROOM, 8) && is_untouched(), "a byte too little room");
    answer = vortex_program((const uint8_t *)"rows", 4, (const uint8_t *)two, strlen(two), NULL, 0);
    expect(is(answer, VORTEX_PROGRAM_ROOM, 8), "no room");
    answer = run("made\0007\0", 7, "", sizeof dst);
    expect(answer.status == VORTEX_PROGRAM_DONE && answer.value == 42, "two words, no document");
    const char *broken = "{\"column\":{\"layout\":\"Primitive\",\"type\":\"i16\",\"values\":[]},"
                         "\"steps\":[{\"slice\":[0,2]}]}";
    answer = run("rows", 5, broken, sizeof dst);
    expect(answer.status == VORTEX_PROGRAM_BROKEN && dst[answer.value - 1] == '\n', "a broken step");
    answer = run("rows", 5, broken, 3);
    expect(answer.status == VORTEX_PROGRAM_ROOM && is_untouched(), "no room for a fault's line");
}

static void refusals(void) {
    vortex_answer answer = vortex_program(NULL, 0, NULL, 0, NULL, 0);
    expect(answer.status == VORTEX_PROGRAM_WORDS, "no words, no document, no room");
    answer = vortex_program((const uint8_t *)"rows", 4, NULL, 0, NULL, 0);
    expect(answer.status == VORTEX_PROGRAM_MALFORMED, "no document");
    answer = run("rows\0\0", 6, two, sizeof dst);
    expect(answer.status == VORTEX_PROGRAM_WORDS && is_untouched(), "an empty word behind");
    answer = run("page\0001\0003", 8, two, sizeof dst);
    expect(answer.status == VORTEX_PROGRAM_MALFORMED && is_untouched(), "a page of what is no table");
    answer = run("rows\xff", 5, two, sizeof dst);
    expect(answer.status == VORTEX_PROGRAM_NO_WORDS && is_untouched(), "a word that is not UTF-8");
    answer = run("rows", 5, "{", sizeof dst);
    expect(answer.status == VORTEX_PROGRAM_MALFORMED && is_untouched(), "half a document");
    size_t len = 16777217;
    uint8_t *most = malloc(len);
    memset(most, ' ', len);
    answer = vortex_program((const uint8_t *)"rows", 5, most, len, dst, sizeof dst);
    expect(answer.status == VORTEX_PROGRAM_TOO_LONG && is_untouched(), "a byte too many");
    answer = vortex_program((const uint8_t *)"rows", 5, most, len - 1, dst, sizeof dst);
    expect(answer.status == VORTEX_PROGRAM_MALFORMED && is_untouched(), "as many as there may be");
    memset(most, 'a', len);
    answer = vortex_program(most, len, (const uint8_t *)two, strlen(two), dst, sizeof dst);
    expect(answer.status == VORTEX_PROGRAM_WORDS && is_untouched(), "a long word");
    memset(most, 0, len);
    answer = vortex_program(most, len, (const uint8_t *)two, strlen(two), dst, sizeof dst);
    expect(answer.status == VORTEX_PROGRAM_WORDS && is_untouched(), "many empty words");
    free(most);
}

int main(void) {
    texts();
    refusals();
    printf("c: %d passed, %d failed\n", passed, failed);
    return failed != 0;
}
