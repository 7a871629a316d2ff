/* Uses every function of the C interface on good and bad input, and compares with expected bytes and with the model. */
#include "dartzulia.h"
#include "model.h"

#include <stdio.h>
#include <string.h>

static int failures;
static int checks;

static void expect(int holds, const char *what)
{
    checks++;
    if (!holds) {
        failures++;
        printf("failed: %s\n", what);
    }
}

static int all(const uint8_t *bytes, size_t n, uint8_t value)
{
    for (size_t i = 0; i < n; i++) {
        if (bytes[i] != value) {
            return 0;
        }
    }
    return 1;
}

/* A row of numbers that look like chance, the same in every run. */
static uint32_t drawn = 1;

static unsigned draw(unsigned below)
{
    drawn = drawn * 1664525u + 1013904223u;
    return (drawn >> 8) % below;
}

/* A buffer for the library to write, between bytes that it must leave. The sanitizers do not see what the library does. */
enum { GUARD = 32, KEPT = 0xa5 };

struct room {
    uint8_t before[GUARD];
    uint8_t bytes[DARTZULIA_WORD_BYTES + GUARD];
};

static uint8_t *clear(struct room *room)
{
    memset(room, KEPT, sizeof *room);
    return room->bytes;
}

static void expect_kept_around(const struct room *room, size_t written, const char *what)
{
    expect(all(room->before, sizeof room->before, KEPT) && all(room->bytes + written, sizeof room->bytes - written, KEPT),
           what);
}

static void names(void)
{
    static const struct {
        uint32_t answer;
        const char *text;
    } texts[] = {
        {0, "accepted"},
        {3, "wrong count of bytes: 9 a block record, 33 a group"},
        {4, "block of a kind above 3"},
        {6, "word not of 544 symbols, or message not of 514"},
        {7, "symbol above 1023"},
        {8, "no codeword within reach"},
        {1, "not an answer of this library"},
        {5, "not an answer of this library"},
        {UINT32_MAX, "not an answer of this library"},
    };
    char version[32];

    for (size_t i = 0; i < sizeof texts / sizeof texts[0]; i++) {
        expect(strcmp(dartzulia_answer_text(texts[i].answer), texts[i].text) == 0, texts[i].text);
    }
    expect(DARTZULIA_ACCEPTED == 0 && DARTZULIA_REFUSED_BYTES == 3 && DARTZULIA_REFUSED_KIND == 4, "the answers of groups");
    expect(DARTZULIA_REFUSED_LENGTH == 6 && DARTZULIA_REFUSED_SYMBOL == 7 && DARTZULIA_REFUSED_REACH == 8,
           "the answers of words");
    expect(DARTZULIA_KIND_BAD_ZEROS == 0 && DARTZULIA_KIND_CONTROL == 1, "the kinds 0 and 1");
    expect(DARTZULIA_KIND_DATA == 2 && DARTZULIA_KIND_BAD_ONES == 3, "the kinds 2 and 3");
    expect(DARTZULIA_RECORD_BYTES == 9 && DARTZULIA_RECORDS_BYTES == 36 && DARTZULIA_GROUP_BYTES == 33, "the sizes of groups");
    expect(DARTZULIA_MESSAGE_BYTES == 1028 && DARTZULIA_WORD_BYTES == 1088, "the sizes of words");
    expect(DARTZULIA_MESSAGE_SYMBOLS == 514 && DARTZULIA_WORD_SYMBOLS == 544, "their symbols");
    expect(DARTZULIA_RECORDS == 36 && DARTZULIA_GROUP == 33 && DARTZULIA_MESSAGE == 1028 && DARTZULIA_WORD == 1088,
           "the older names");

    snprintf(version, sizeof version, "%d.%d.%d", DARTZULIA_VERSION_MAJOR, DARTZULIA_VERSION_MINOR, DARTZULIA_VERSION_PATCH);
    expect(strcmp(version, DARTZULIA_VERSION) == 0, "the version's text and its numbers");
    expect(dartzulia_version() == DARTZULIA_VERSION_NUMBER, "the library is of the header's version");
}

/* A control block of type 1E with seven zero octets, then data blocks of octets 11, 22 and 33. */
static void example(uint8_t records[DARTZULIA_RECORDS])
{
    memset(records, 0, DARTZULIA_RECORDS);
    records[0] = 1;
    records[1] = 0x1e;
    for (int i = 1; i < 4; i++) {
        records[9 * i] = 2;
        memset(records + 9 * i + 1, 0x11 * i, 8);
    }
}

static void groups(void)
{
    uint8_t records[DARTZULIA_RECORDS], back[DARTZULIA_RECORDS], group[DARTZULIA_GROUP], expected[DARTZULIA_GROUP];
    uint8_t sound = 7;
    size_t place = 99;

    example(records);
    memset(expected, 0, sizeof expected);
    expected[1] = 0xee;
    memset(expected + 9, 0x11, 8);
    memset(expected + 17, 0x22, 8);
    memset(expected + 25, 0x33, 8);

    memset(group, 0xaa, sizeof group);
    expect(dartzulia_write_group(records, sizeof records, group, sizeof group, &place) == 0, "write is accepted");
    expect(place == 0, "write: place 0");
    expect(memcmp(group, expected, sizeof group) == 0, "write: the example group");

    place = 99;
    memset(back, 0xaa, sizeof back);
    group[0] |= 0xfe;
    expect(dartzulia_read_group(group, sizeof group, back, sizeof back, &place) == 0, "read is accepted");
    expect(place == 0, "read: place 0");
    expect(memcmp(back, records, sizeof back) == 0, "read: the blocks come back");

    place = 99;
    expect(dartzulia_is_sound(records, sizeof records, &sound, &place) == 0 && sound == 1, "the example is sound");
    records[1] = 0x3e;
    expect(dartzulia_is_sound(records, sizeof records, &sound, &place) == 0 && sound == 0, "type 3E is not sound");
    expect(dartzulia_write_group(records, sizeof records, group, sizeof group, &place) == 0, "type 3E is written");
    expect(dartzulia_read_group(group, sizeof group, back, sizeof back, &place) == 0 && back[1] == 0x1e,
           "and comes back as 1E");
}

static void refused_groups(void)
{
    uint8_t records[DARTZULIA_RECORDS + 1], group[DARTZULIA_GROUP + 1], kept[DARTZULIA_RECORDS];
    uint8_t sound = 7;
    size_t place = 99;

    example(records);
    memset(group, 0xaa, sizeof group);
    expect(dartzulia_write_group(records, 35, group, 33, &place) == 3 && place == 0, "35 bytes of records");
    expect(dartzulia_write_group(records, 36, group, 34, &place) == 3 && place == 0, "34 bytes of group");
    records[18] = 4;
    expect(dartzulia_write_group(records, 36, group, 32, &place) == 3 && place == 0, "3 comes before 4");
    expect(dartzulia_write_group(records, 36, group, 33, &place) == 4 && place == 2, "kind 4 in block 2");
    expect(all(group, sizeof group, 0xaa), "a refused write leaves the group");
    expect(dartzulia_is_sound(records, 36, &sound, &place) == 4 && place == 2 && sound == 7, "is_sound refuses alike");
    expect(dartzulia_is_sound(records, 0, &sound, &place) == 3 && place == 0 && sound == 7, "no bytes of records");
    memset(kept, 0x55, sizeof kept);
    expect(dartzulia_read_group(group, 32, kept, 36, &place) == 3 && place == 0, "32 bytes of group");
    expect(dartzulia_read_group(group, 33, kept, 35, &place) == 3 && place == 0, "room for 35 bytes");
    expect(all(kept, sizeof kept, 0x55), "a refused read leaves the records");
}

/* One group by the library and by the model: written, judged, and read back. */
static void compare_group(const uint8_t records[DARTZULIA_RECORDS_BYTES])
{
    struct room room;
    uint8_t expected[DARTZULIA_RECORDS_BYTES], *group = clear(&room), kept[DARTZULIA_GROUP_BYTES], sound = 7;
    size_t place = 99;

    model_write(records, expected);
    expect(dartzulia_write_group(records, DARTZULIA_RECORDS_BYTES, group, DARTZULIA_GROUP_BYTES, &place) == 0 && place == 0,
           "a group of good kinds is written");
    expect(memcmp(group, expected, DARTZULIA_GROUP_BYTES) == 0, "the group is the model's");
    expect_kept_around(&room, DARTZULIA_GROUP_BYTES, "nothing is written beside the group");
    place = 99;
    expect(dartzulia_is_sound(records, DARTZULIA_RECORDS_BYTES, &sound, &place) == 0 && place == 0,
           "a group of good kinds is judged");
    expect(sound == model_is_sound(records), "the model judges alike");

    memcpy(kept, group, sizeof kept);
    clear(&room);
    place = 99;
    model_read(kept, expected);
    expect(dartzulia_read_group(kept, sizeof kept, room.bytes, DARTZULIA_RECORDS_BYTES, &place) == 0 && place == 0,
           "a group is read");
    expect(memcmp(room.bytes, expected, DARTZULIA_RECORDS_BYTES) == 0, "the records are the model's");
    expect_kept_around(&room, DARTZULIA_RECORDS_BYTES, "nothing is written beside the records");
    if (sound) {
        expect(memcmp(room.bytes, records, DARTZULIA_RECORDS_BYTES) == 0, "a sound group comes back as it was");
    }
}

static void fill_payloads(uint8_t records[DARTZULIA_RECORDS_BYTES])
{
    for (size_t i = 0; i < DARTZULIA_RECORDS_BYTES; i++) {
        if (i % 9 != 0) {
            records[i] = (uint8_t)draw(256);
        }
    }
}

static void groups_by_the_model(void)
{
    uint8_t records[DARTZULIA_RECORDS_BYTES], group[DARTZULIA_GROUP_BYTES], back[DARTZULIA_RECORDS_BYTES];
    uint8_t expected[DARTZULIA_RECORDS_BYTES], again[DARTZULIA_GROUP_BYTES];
    uint8_t sound = 7;
    size_t place = 99;

    for (unsigned kinds = 0; kinds < 256; kinds++) {
        for (unsigned i = 0; i < 4; i++) {
            records[9 * i] = (uint8_t)((kinds >> (2 * i)) & 3);
        }
        fill_payloads(records);
        compare_group(records);
    }
    /* the first control block at each place, with each first octet */
    for (unsigned c = 0; c < 4; c++) {
        for (unsigned type = 0; type < 256; type++) {
            for (unsigned i = 0; i < 4; i++) {
                records[9 * i] = (uint8_t)(i < c ? 2 : 1 + draw(2));
            }
            records[9 * c] = DARTZULIA_KIND_CONTROL;
            fill_payloads(records);
            records[9 * c + 1] = (uint8_t)type;
            compare_group(records);
        }
    }
    /* any 33 bytes are a group, whatever the other bits of the first byte */
    for (int n = 0; n < 1000; n++) {
        for (size_t i = 0; i < sizeof group; i++) {
            group[i] = (uint8_t)draw(256);
        }
        group[1] = (uint8_t)(n % 4 == 0 ? group[1] | 15 : group[1]);
        model_read(group, expected);
        expect(dartzulia_read_group(group, sizeof group, back, sizeof back, &place) == 0, "any group is read");
        expect(memcmp(back, expected, sizeof back) == 0, "any group is read as the model reads it");
    }
    /* headers 00, 11, 00, 11 over a zero digit come back, and are not sound */
    memset(records, 0x50, sizeof records);
    for (unsigned i = 0; i < 4; i++) {
        records[9 * i] = (uint8_t)(i % 2 ? DARTZULIA_KIND_BAD_ONES : DARTZULIA_KIND_BAD_ZEROS);
    }
    records[1] = 0x05;
    expect(dartzulia_write_group(records, sizeof records, again, sizeof again, &place) == 0, "bad headers are written");
    expect(dartzulia_read_group(again, sizeof again, back, sizeof back, &place) == 0, "and read");
    expect(memcmp(back, records, sizeof back) == 0, "and come back");
    expect(dartzulia_is_sound(records, sizeof records, &sound, &place) == 0 && sound == 0, "and are not sound");
}

/* Every length near the right ones, and every block of a bad kind. */
static void refused_groups_at_each_length(void)
{
    uint8_t records[40], group[40];
    struct room room;
    uint8_t sound = 7;

    for (size_t m = 0; m <= 40; m++) {
        for (size_t n = 0; n <= 40; n++) {
            size_t place = 99;
            uint32_t write = m == 36 && n == 33 ? DARTZULIA_ACCEPTED : DARTZULIA_REFUSED_BYTES;
            memset(records, 0, sizeof records);
            memset(group, 0, sizeof group);
            clear(&room);
            expect(dartzulia_write_group(records, m, room.bytes, n, &place) == write && place == 0, "write at each length");
            expect_kept_around(&room, write ? 0 : n, "a group of a wrong length stays");
            clear(&room);
            place = 99;
            expect(dartzulia_read_group(group, n, room.bytes, m, &place) == write && place == 0, "read at each length");
            expect_kept_around(&room, write ? 0 : m, "records of a wrong length stay");
        }
        size_t place = 99;
        sound = 7;
        uint32_t judged = m == 36 ? DARTZULIA_ACCEPTED : DARTZULIA_REFUSED_BYTES;
        expect(dartzulia_is_sound(records, m, &sound, &place) == judged && place == 0, "is_sound at each length");
        expect(sound == (judged ? 7 : 0), "a refused is_sound leaves its answer");
    }
    for (unsigned bad = 0; bad < 4; bad++) {
        for (unsigned kind = 4; kind < 256; kind++) {
            size_t place = 99;
            memset(records, 0, sizeof records);
            for (unsigned i = bad; i < 4; i++) {
                records[9 * i] = (uint8_t)(i == bad ? kind : draw(256));
            }
            clear(&room);
            expect(dartzulia_write_group(records, 36, room.bytes, 33, &place) == DARTZULIA_REFUSED_KIND && place == bad,
                   "the first block of a bad kind");
            expect_kept_around(&room, 0, "a group refused for a kind stays");
            place = 99;
            sound = 7;
            expect(dartzulia_is_sound(records, 36, &sound, &place) == DARTZULIA_REFUSED_KIND && place == bad && sound == 7,
                   "is_sound and the first block of a bad kind");
        }
    }
}

static void encode_example(uint8_t word[DARTZULIA_WORD])
{
    uint8_t message[DARTZULIA_MESSAGE];
    size_t place = 99;
    unsigned x = 1;

    for (size_t i = 0; i < 514; i++) {
        x = (x * 77 + 31) % 1024;
        set_symbol(message, i, x);
    }
    memset(word, 0xaa, DARTZULIA_WORD);
    expect(dartzulia_encode(message, sizeof message, word, DARTZULIA_WORD, &place) == 0 && place == 0, "encode is accepted");
    expect(memcmp(word, message, sizeof message) == 0, "the word begins with the message");
}

static void words(void)
{
    uint8_t sent[DARTZULIA_WORD], word[DARTZULIA_WORD], zero[DARTZULIA_MESSAGE];
    size_t changed, place;

    /* the message that is 0 but for its last symbol, 1, has the generator's coefficients behind it */
    static const unsigned generator[30] = {575, 552, 187, 230, 552, 1,   108, 565, 282, 249, 593, 132, 94,  720, 495,
                                           385, 942, 503, 883, 361, 788, 610, 193, 392, 127, 185, 158, 128, 834, 523};
    memset(zero, 0, sizeof zero);
    set_symbol(zero, 513, 1);
    expect(dartzulia_encode(zero, sizeof zero, word, sizeof word, &place) == 0, "encode of a single 1");
    for (size_t i = 0; i < 30; i++) {
        expect(symbol(word, 514 + i) == generator[i], "a coefficient of the generator");
    }

    encode_example(sent);
    for (size_t n = 0; n <= 15; n++) {
        memcpy(word, sent, sizeof word);
        for (size_t i = 0; i < n; i++) {
            set_symbol(word, 36 * i + n, symbol(word, 36 * i + n) ^ (1 + 61 * (unsigned)i));
        }
        changed = 99;
        place = 99;
        expect(dartzulia_correct(word, sizeof word, &changed, &place) == 0, "up to 15 changed symbols are corrected");
        expect(changed == n && place == 0, "the number of changed symbols");
        expect(memcmp(word, sent, sizeof word) == 0, "the word sent");
    }
    changed = 99;
    expect(dartzulia_watch(word, sizeof word, &changed, &place) == 0 && changed == 0, "watch takes a codeword");
    set_symbol(word, 7, symbol(word, 7) ^ 1);
    memcpy(sent, word, sizeof word);
    changed = 99;
    place = 99;
    expect(dartzulia_watch(word, sizeof word, &changed, &place) == 8 && changed == 99 && place == 0,
           "watch refuses one changed symbol");
    expect(memcmp(word, sent, sizeof word) == 0, "and leaves the word");
}

static void refused_words(void)
{
    uint8_t sent[DARTZULIA_WORD], word[DARTZULIA_WORD], message[DARTZULIA_MESSAGE];
    size_t changed = 99, place = 99;

    encode_example(sent);
    memcpy(word, sent, sizeof word);
    for (size_t i = 0; i < 16; i++) {
        set_symbol(word, 34 * i, symbol(word, 34 * i) ^ 1);
    }
    memcpy(sent, word, sizeof word);
    expect(dartzulia_correct(word, sizeof word, &changed, &place) == 8 && place == 0, "16 changed symbols, out of reach");
    expect(memcmp(word, sent, sizeof word) == 0 && changed == 99, "a refused word and its count stay");
    expect(dartzulia_correct(word, sizeof word - 1, &changed, &place) == 6 && place == 0, "an odd length");
    expect(dartzulia_correct(word, sizeof word - 2, &changed, &place) == 6 && place == 0, "543 symbols");
    expect(dartzulia_watch(word, 0, &changed, &place) == 6 && place == 0, "no symbols");
    set_symbol(word, 543, 1024);
    set_symbol(word, 300, 65535);
    expect(dartzulia_correct(word, sizeof word, &changed, &place) == 7 && place == 300, "the lowest symbol above 1,023");
    expect(dartzulia_watch(word, sizeof word, &changed, &place) == 7 && place == 300 && changed == 99, "watch refuses alike");

    memset(message, 0, sizeof message);
    set_symbol(message, 2, 1024);
    memcpy(sent, word, sizeof word);
    expect(dartzulia_encode(message, sizeof message, word, sizeof word, &place) == 7 && place == 2,
           "a message symbol above 1,023");
    expect(dartzulia_encode(message, sizeof message - 2, word, sizeof word, &place) == 6 && place == 0,
           "513 symbols of message");
    expect(dartzulia_encode(message, sizeof message, word, sizeof word - 1, &place) == 6 && place == 0, "a word of odd length");
    expect(memcmp(word, sent, sizeof word) == 0, "a refused encode leaves the word");
}

static void draw_message(uint8_t message[DARTZULIA_MESSAGE_BYTES])
{
    for (size_t i = 0; i < DARTZULIA_MESSAGE_SYMBOLS; i++) {
        set_symbol(message, i, draw(1024));
    }
}

/* Changes n symbols of the word, at places drawn, or next to each other from `first` on. */
static void damage(uint8_t word[DARTZULIA_WORD_BYTES], size_t n, int in_a_row, size_t first)
{
    uint8_t taken[DARTZULIA_WORD_SYMBOLS] = {0};

    for (size_t i = 0; i < n; i++) {
        size_t at = in_a_row ? first + i : draw(DARTZULIA_WORD_SYMBOLS);
        while (taken[at]) {
            at = (at + 1) % DARTZULIA_WORD_SYMBOLS;
        }
        taken[at] = 1;
        set_symbol(word, at, symbol(word, at) ^ (1 + draw(1023)));
    }
}

/* What `correct` and `watch` make of a word that lies n symbols from the word sent. */
static void compare_word(const uint8_t sent[DARTZULIA_WORD_BYTES], const uint8_t received[DARTZULIA_WORD_BYTES], size_t n)
{
    struct room room;
    uint8_t *word = clear(&room);
    size_t changed = 99, place = 99;
    uint32_t answer;

    memcpy(word, received, DARTZULIA_WORD_BYTES);
    answer = dartzulia_correct(word, DARTZULIA_WORD_BYTES, &changed, &place);
    expect(place == 0, "correct: place 0");
    expect_kept_around(&room, DARTZULIA_WORD_BYTES, "nothing is written beside the word");
    if (n <= 15) {
        expect(answer == DARTZULIA_ACCEPTED && changed == n, "a word within reach is accepted, with its count");
        expect(memcmp(word, sent, DARTZULIA_WORD_BYTES) == 0, "and is the word sent");
    } else if (answer == DARTZULIA_ACCEPTED) {
        expect(changed <= 15 && changed == model_distance(received, word), "the count of another codeword");
        expect(model_is_codeword(word), "another codeword is one");
    } else {
        expect(answer == DARTZULIA_REFUSED_REACH && changed == 99, "a word out of reach is refused with 8");
        expect(memcmp(word, received, DARTZULIA_WORD_BYTES) == 0, "and stays");
    }

    memcpy(word, received, DARTZULIA_WORD_BYTES);
    changed = place = 99;
    answer = dartzulia_watch(word, DARTZULIA_WORD_BYTES, &changed, &place);
    expect(answer == (n == 0 ? DARTZULIA_ACCEPTED : DARTZULIA_REFUSED_REACH), "watch takes the word sent alone");
    expect(changed == (n == 0 ? 0 : 99) && place == 0, "watch: count and place");
    expect(memcmp(word, received, DARTZULIA_WORD_BYTES) == 0, "watch leaves every word");
}

static void words_by_the_model(void)
{
    uint8_t message[DARTZULIA_MESSAGE_BYTES], kept[DARTZULIA_MESSAGE_BYTES];
    uint8_t sent[DARTZULIA_WORD_BYTES], received[DARTZULIA_WORD_BYTES];
    struct room room;

    for (int turn = 0; turn < 4; turn++) {
        size_t place = 99;
        clear(&room);
        draw_message(message);
        memcpy(kept, message, sizeof kept);
        expect(dartzulia_encode(message, sizeof message, room.bytes, DARTZULIA_WORD_BYTES, &place) == 0 && place == 0,
               "encode");
        expect_kept_around(&room, DARTZULIA_WORD_BYTES, "nothing is written beside the codeword");
        memcpy(sent, room.bytes, sizeof sent);
        expect(memcmp(message, kept, sizeof kept) == 0 && memcmp(sent, message, sizeof message) == 0, "the message leads");
        expect(model_is_codeword(sent), "the word is a codeword by the model's products");
        for (size_t n = 0; n <= 30; n++) {
            memcpy(received, sent, sizeof received);
            damage(received, n, 0, 0);
            compare_word(sent, received, n);
        }
        /* the first symbols, the last of the message, and the last of the word */
        for (size_t n = 1; n <= 15; n += 7) {
            static const size_t first[] = {0, 514 - 15, 514, 544 - 15};
            for (size_t i = 0; i < sizeof first / sizeof first[0]; i++) {
                memcpy(received, sent, sizeof received);
                damage(received, n, 1, first[i]);
                compare_word(sent, received, n);
            }
        }
    }
}

/* Lengths near the right ones, and a symbol above 1,023 at each place. */
static void refused_words_at_each_length(void)
{
    uint8_t message[DARTZULIA_WORD_BYTES + 4], word[DARTZULIA_WORD_BYTES + 4], kept[DARTZULIA_WORD_BYTES + 4];

    memset(message, 0xff, sizeof message);
    memset(word, 0xff, sizeof word);
    memset(kept, 0xff, sizeof kept);
    for (size_t n = 0; n <= sizeof word; n++) {
        size_t changed = 99, place = 99;
        uint32_t answer = n == DARTZULIA_WORD_BYTES ? DARTZULIA_REFUSED_SYMBOL : DARTZULIA_REFUSED_LENGTH;
        expect(dartzulia_correct(word, n, &changed, &place) == answer && changed == 99 && place == 0, "correct at each length");
        place = 99;
        expect(dartzulia_watch(word, n, &changed, &place) == answer && changed == 99 && place == 0, "watch at each length");
        answer = n == DARTZULIA_MESSAGE_BYTES ? DARTZULIA_REFUSED_SYMBOL : DARTZULIA_REFUSED_LENGTH;
        place = 99;
        expect(dartzulia_encode(message, n, word, DARTZULIA_WORD_BYTES, &place) == answer && place == 0,
               "encode at each length");
        answer = n == DARTZULIA_WORD_BYTES ? DARTZULIA_REFUSED_SYMBOL : DARTZULIA_REFUSED_LENGTH;
        place = 99;
        expect(dartzulia_encode(message, DARTZULIA_MESSAGE_BYTES, word, n, &place) == answer && place == 0,
               "room at each length");
    }
    expect(memcmp(word, kept, sizeof word) == 0, "refused words stay");
    for (size_t i = 0; i < DARTZULIA_WORD_SYMBOLS; i++) {
        size_t changed = 99, place = 99;
        memset(word, 0, sizeof word);
        set_symbol(word, i, i % 2 ? 1024 : 65535);
        set_symbol(word, i + draw((unsigned)(DARTZULIA_WORD_SYMBOLS - i)), 4096);
        memcpy(kept, word, sizeof kept);
        expect(dartzulia_correct(word, DARTZULIA_WORD_BYTES, &changed, &place) == DARTZULIA_REFUSED_SYMBOL && place == i,
               "correct and the first symbol above 1,023");
        place = 99;
        expect(dartzulia_watch(word, DARTZULIA_WORD_BYTES, &changed, &place) == DARTZULIA_REFUSED_SYMBOL && place == i,
               "watch and the first symbol above 1,023");
        expect(changed == 99 && memcmp(word, kept, sizeof word) == 0, "a word with such a symbol stays");
        if (i < DARTZULIA_MESSAGE_SYMBOLS) {
            memcpy(message, word, sizeof message);
            place = 99;
            uint32_t answer = dartzulia_encode(message, DARTZULIA_MESSAGE_BYTES, word, DARTZULIA_WORD_BYTES, &place);
            expect(answer == DARTZULIA_REFUSED_SYMBOL && place == i, "encode and the first symbol above 1,023");
            expect(memcmp(word, kept, sizeof word) == 0, "the room of a refused message stays");
        }
    }
    /* what stands in the room for the codeword is not looked at */
    size_t place = 99;
    memset(message, 0, sizeof message);
    memset(word, 0xff, sizeof word);
    expect(dartzulia_encode(message, DARTZULIA_MESSAGE_BYTES, word, DARTZULIA_WORD_BYTES, &place) == 0 && place == 0,
           "room with any symbols");
    expect(all(word, DARTZULIA_WORD_BYTES, 0) && all(word + DARTZULIA_WORD_BYTES, 4, 0xff), "the codeword of zeros");
}

int main(void)
{
    names();
    groups();
    refused_groups();
    groups_by_the_model();
    refused_groups_at_each_length();
    words();
    refused_words();
    words_by_the_model();
    refused_words_at_each_length();
    printf("c client: %d checks, %d failed\n", checks, failures);
    return failures != 0;
}
