/* Writes an entry of one chunk and reads it back, up to the first refusal. From the project's root, after tests/archive:
 *   cc -Iinclude tests/link/example.c target/staticlib/libokaywal_segment.a -o target/example && target/example */
#include <stdio.h>
#include "okaywal_segment.h"

static uint64_t writer[OKW_WRITER_WORDS], reader[OKW_READER_WORDS], answer[OKW_ANSWER_WORDS];
static uint8_t info[OKW_INFO_BYTES], image[256], staging[64];
#define WRITER writer, OKW_WRITER_WORDS, info, OKW_INFO_BYTES, image, sizeof image, staging, sizeof staging
#define READER reader, OKW_READER_WORDS, image, sizeof image
#define ANSWER answer, OKW_ANSWER_WORDS

int main(void) {
    const uint8_t version[] = "v1", text[] = "hello, journal";
    if (okw_writer_open(WRITER, version, 2, 1, 0, 0, 0, 0, sizeof image) || okw_writer_begin(WRITER, 7)
        || okw_writer_begin_chunk(WRITER, 14) || okw_writer_write(WRITER, text, 14, ANSWER)
        || okw_writer_finish(WRITER, ANSWER) || okw_writer_commit(WRITER, ANSWER) || okw_writer_flush(WRITER)) return 1;
    if (okw_reader_open(READER, 1) || okw_reader_entry(READER, ANSWER) || okw_reader_chunk(READER, ANSWER)
        || okw_reader_data(READER, answer[2], ANSWER)) return 1;
    printf("%.*s, at %d\n", (int)answer[1], (const char *)image + answer[0], (int)answer[0]);
    return okw_reader_check_crc(READER, ANSWER) || answer[0] != 1;
}
