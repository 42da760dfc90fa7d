/* Runs of the program. */
#include "private.h"

#include <stdlib.h>
#include <string.h>

enum { ERROR_ROOM = 128 };

void drillolive_output_free(drillolive_output *output) {
    if (!is_handle(output, OUTPUT_WORD)) return;
    free(output->text);
    free(output->error);
    release(output);
}

drillolive_output *take_output(size_t text_room, size_t error_room) {
    drillolive_output *output = take(1, sizeof *output);
    if (!output) return NULL;
    *output = (drillolive_output){.word = OUTPUT_WORD, .text_length = text_room, .error_length = error_room};
    output->text = take(text_room + 1, 1);
    output->error = take(error_room + 1, 1);
    if (output->text && output->error) return output;
    drillolive_output_free(output);
    return NULL;
}

void fit_output(drillolive_output *output, struct far_ran ran) {
    output->status = ran.status;
    output->text_length = (size_t)ran.written;
    output->error_length = (size_t)ran.reported;
    output->text[output->text_length] = 0;
    output->error[output->error_length] = 0;
    output->text = shrink(output->text, output->text_length + 1, 1);
    output->error = shrink(output->error, output->error_length + 1, 1);
}

/* Runs once in as much room as `ran` says, which gets what the answer needs. */
static drillolive_fault run_once(const uint8_t *words, size_t words_length, const uint8_t *input, size_t input_length, struct far_ran *ran,
                                 drillolive_output **out) {
    if (ran->written > PTRDIFF_MAX - 1 || ran->reported > PTRDIFF_MAX - 1) return memory_fault();
    drillolive_output *output = take_output((size_t)ran->written, (size_t)ran->reported);
    if (!output) return memory_fault();
    size_t text_room = output->text_length, error_room = output->error_length;
    *ran = far_run(words, words_length, input, input_length, (uint8_t *)output->text, text_room, (uint8_t *)output->error, error_room);
    if (ran->written > text_room || ran->reported > error_room) {
        drillolive_output_free(output);
        return fault_of(DRILLOLIVE_TOO_SHORT, 0, 0, 0);
    }
    fit_output(output, *ran);
    *out = output;
    return fault_of(DRILLOLIVE_DONE, 0, 0, 0);
}

/* Joins words, each ended by a zero byte. */
static drillolive_fault join(size_t count, const char *const *words, uint8_t **out, size_t *length) {
    size_t total = 0, at = 0;
    for (size_t i = 0; i < count; i++) {
        if (!words[i]) return fault_of(DRILLOLIVE_NULL, 0, 1, 0);
        size_t size = strlen(words[i]) + 1;
        if (size > PTRDIFF_MAX - total) return length_fault(1, size);
        total += size;
    }
    *out = take(total, 1);
    if (!*out) return memory_fault();
    for (size_t i = 0; i < count; i++) {
        size_t size = strlen(words[i]) + 1;
        memcpy(*out + at, words[i], size);
        at += size;
    }
    *length = total;
    return fault_of(DRILLOLIVE_DONE, 0, 0, 0);
}

drillolive_fault drillolive_run(size_t word_count, const char *const *words, const void *input, size_t input_length, drillolive_output **out) {
    uint8_t *joined = NULL;
    size_t length = 0;
    if (!out) return fault_of(DRILLOLIVE_NULL, 0, 4, 0);
    *out = NULL;
    drillolive_fault fault = check_array(words, word_count, 1);
    if (!fault.status) fault = check_array(input, input_length, 2);
    if (!fault.status && input_length > PTRDIFF_MAX / 64) fault = length_fault(3, input_length);
    if (!fault.status) fault = join(word_count, words, &joined, &length);
    if (fault.status) return fault;
    struct far_ran room = {0, 16 * (uint64_t)input_length + 65536, ERROR_ROOM};
    fault = run_once(joined, length, address_of(input), input_length, &room, out);
    if (fault.status == DRILLOLIVE_TOO_SHORT) fault = run_once(joined, length, address_of(input), input_length, &room, out);
    free(joined);
    return fault;
}

uint32_t drillolive_output_status(const drillolive_output *output) {
    return is_handle(output, OUTPUT_WORD) ? output->status : DRILLOLIVE_KIND;
}

const char *drillolive_output_text(const drillolive_output *output, size_t *length) {
    bool is_output = is_handle(output, OUTPUT_WORD);
    if (length) *length = is_output ? output->text_length : 0;
    return is_output ? output->text : NULL;
}

const char *drillolive_output_error(const drillolive_output *output, size_t *length) {
    bool is_output = is_handle(output, OUTPUT_WORD);
    if (length) *length = is_output ? output->error_length : 0;
    return is_output ? output->error : NULL;
}
