/* Frames of a batch, and rows of values that are read back: each code, and what a refused call leaves. */
#include "check.h"

static const char packets[] = "schema packet\nindex sources src\nask all list *\n";
static const char records[] = "schema records ts:u64,key:u16,mac:b6\nindex keys key\nask all list *\n";

static confluo_frame frame_of(uint32_t number, uint32_t link, uint64_t from, uint64_t count) {
    return (confluo_frame){.capture = {.ns = 1000 * number, .number = number, .length = 60, .link = link}, .from = from, .count = count};
}

static void batches(void) {
    parts it = parts_of(packets, 6, 64);
    uint8_t bytes[60] = {[12] = 8, [14] = 0x45, [17] = 20, [26] = 10, [29] = 1};
    uint32_t offsets[4] = {77, 77, 77, 77}, number = 7;
    size_t done = 9, count = 9;
    confluo_value values[24];
    const confluo_frame good[] = {frame_of(1, 1, 0, 60), frame_of(2, 1, 0, 60), frame_of(3, 1, 60, 0)};
    const struct {
        confluo_frame frames[3];
        size_t frames_len, offsets_len, done;
        uint32_t code;
    } cases[] = {
        {{good[0]}, 0, 0, 0, CONFLUO_OK},
        {{good[0], good[1], good[2]}, 3, 2, 0, CONFLUO_SIZES},
        {{good[0], good[1], good[2]}, 3, 4, 3, CONFLUO_OK},
        {{good[0], frame_of(5, 65537, 0, 60), good[1]}, 3, 4, 1, CONFLUO_FRAME},
        {{frame_of(6, 1, 1, 60)}, 1, 4, 0, CONFLUO_FRAME},
        {{frame_of(6, 1, 61, 0)}, 1, 4, 0, CONFLUO_FRAME},
        {{frame_of(6, 1, UINT64_MAX, 2)}, 1, 4, 0, CONFLUO_FRAME},
        {{frame_of(6, 1, 2, UINT64_MAX)}, 1, 4, 0, CONFLUO_FRAME},
        {{good[0], good[1], good[2]}, 3, 4, 2, CONFLUO_FULL},
        {{good[0]}, 1, 4, 0, CONFLUO_FULL},
    };
    for (size_t k = 0; k < sizeof cases / sizeof *cases; k++) {
        memset(offsets, 77, sizeof offsets);
        const uint32_t code =
            confluo_append_many(it.writer, cases[k].frames, cases[k].frames_len, bytes, sizeof bytes, offsets, cases[k].offsets_len, &done);
        is(code, cases[k].code, "code of a batch");
        is(done, cases[k].done, "how many were appended");
        for (size_t o = 0; o + 1 < done; o++) is(offsets[o + 1], offsets[o] + 1, "offsets of one writer");
        for (size_t o = done; o < 4; o++) is(offsets[o], 0x4d4d4d4d, "offsets of none");
    }
    is(confluo_tail(it.reader, &number), CONFLUO_OK, "tail");
    is(number, 6, "six records");
    const uint32_t numbers[] = {1, 2, 3, 1, 1, 2};
    for (uint32_t k = 0; k < 6; k++) {
        is(confluo_row(it.reader, k, &number, values, 24, &count), CONFLUO_OK, "row");
        is(number, numbers[k], "its number");
        is(count, 20, "values of a packet");
        is(values[0].number, 1000 * numbers[k], "time");
        is(values[11].number, numbers[k] == 3 ? 0 : 0x0a000001, "sender");
        is(values[3].kind == CONFLUO_BYTES && values[3].length == 6, 1, "an address of the link");
    }
    free_parts(&it);

    it = parts_of(packets, 6, 3);
    is(confluo_append_many(it.writer, good, 3, bytes, sizeof bytes, offsets, 4, &done), CONFLUO_NODES, "too few nodes");
    is(done, 0, "none was appended");
    free_parts(&it);

    it = parts_of(records, 6, 3);
    is(confluo_append_many(it.writer, good, 3, bytes, sizeof bytes, offsets, 4, &done), CONFLUO_UNFIT, "frames among records");
    is(done, 0, "none was appended");
    free_parts(&it);
}

static confluo_value number_of(uint64_t number) { return (confluo_value){.number = number}; }

static confluo_value bytes_of(const char *text, uint32_t length) {
    confluo_value value = {.kind = CONFLUO_BYTES, .length = length};
    memcpy(value.bytes, text, strlen(text));
    return value;
}

static void rows(void) {
    parts it = parts_of(records, 3, 16);
    const confluo_value time = number_of(1000), key = number_of(7), mac = bytes_of("abcdef", 6);
    confluo_value back[3] = {number_of(9), number_of(9), number_of(9)};
    uint32_t offset = 7, number = 7;
    size_t count = 9;
    const struct {
        confluo_value values[4];
        size_t values_len;
        uint32_t code;
    } cases[] = {
        {{time, key, mac}, 0, CONFLUO_UNFIT},
        {{time, key, mac}, 2, CONFLUO_UNFIT},
        {{time, key, mac, key}, 4, CONFLUO_UNFIT},
        {{time, number_of(65536), mac}, 3, CONFLUO_UNFIT},
        {{time, mac, mac}, 3, CONFLUO_UNFIT},
        {{time, key, key}, 3, CONFLUO_UNFIT},
        {{time, key, bytes_of("abcde", 5)}, 3, CONFLUO_UNFIT},
        {{time, key, bytes_of("abcdefg", 6)}, 3, CONFLUO_UNFIT},
        {{time, key, bytes_of("abcdef", 17)}, 3, CONFLUO_UNFIT},
        {{time, key, mac}, 3, CONFLUO_OK},
        {{time, number_of(0x7777), mac}, 3, CONFLUO_OK},
        {{time, number_of(0x1234), mac}, 3, CONFLUO_OK},
        {{time, key, mac}, 3, CONFLUO_FULL},
    };
    for (size_t k = 0; k < sizeof cases / sizeof *cases; k++) {
        const uint32_t before = offset;
        is(confluo_append_row(it.writer, (uint32_t)k, cases[k].values, cases[k].values_len, &offset), cases[k].code, "append of a row");
        if (cases[k].code != CONFLUO_OK) is(offset, before, "the offset that a refused call leaves");
    }
    is(offset, 2, "the last offset");
    is(confluo_row(it.reader, 0, &number, back, 3, &count), CONFLUO_NO_ROW, "a row that the reader has not seen");
    is(number == 7 && count == 9 && back[0].number == 9, 1, "what that leaves");
    is(confluo_tail(it.reader, &number), CONFLUO_OK, "tail");
    is(confluo_row(it.reader, 3, &number, back, 3, &count), CONFLUO_NO_ROW, "a row past the tail");
    is(confluo_row(it.reader, UINT32_MAX, &number, back, 3, &count), CONFLUO_NO_ROW, "a row far past it");
    is(confluo_row(it.reader, 0, &number, back, 2, &count), CONFLUO_OK, "a row");
    is(number, 9, "its number");
    is(count, 3, "its values");
    is(back[0].number == 1000 && back[0].kind == CONFLUO_NUMBER && back[1].number == 7 && back[2].number == 9, 1, "two of them");
    is(confluo_row(it.reader, 0, &number, back, 0, &count), CONFLUO_OK, "its number alone");
    is(confluo_row(it.reader, 1, &number, back, 3, &count), CONFLUO_OK, "another row");
    is(memcmp(&back[2], &mac, sizeof mac), 0, "its bytes");
    free_parts(&it);
}

static void nothing(void) {
    confluo_writer *writer = NULL;
    confluo_reader *reader = NULL;
    const confluo_frame frame = frame_of(1, 1, 0, 0);
    confluo_value value = number_of(9);
    uint8_t byte = 0;
    uint32_t out = 7;
    size_t done = 9;
    is(confluo_append_many(writer, &frame, 1, &byte, 0, &out, 0, &done), CONFLUO_NOTHING, "a batch by nothing");
    is(done, 0, "none of it");
    is(confluo_append_row(writer, 1, &value, 0, &out), CONFLUO_NOTHING, "a row by nothing");
    is(confluo_row(reader, 0, &out, &value, 1, &done), CONFLUO_NOTHING, "a row of nothing");
    is(out == 7 && value.number == 9, 1, "what that leaves");
}

static void *all(void *given) {
    batches();
    rows();
    nothing();
    return given;
}

int main(void) { return in_a_small_stack(all); }
