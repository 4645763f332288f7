/* The form model for a host program in C: the calls of libdotterelwire.a (docs/ABI.md, docs/LAYOUT.md).
 *
 * A slice is its address and its length in bytes; the address is never NULL, also where the length is 0. A slice that is
 * not const shares no byte with another slice of the same call. Numbers are the bits of a double in a uint64_t.
 *
 * A call answers 0, or the number of its refusal. A refused call changes not one byte of the model. Where `out` has
 * DW_REPORT bytes or more, the first DW_REPORT are written, taken or refused; a shorter one is left alone.
 */
#ifndef DOTTERELWIRE_H
#define DOTTERELWIRE_H

#include <stddef.h>
#include <stdint.h>
#include <string.h>

#ifdef __cplusplus
extern "C" {
#endif

/* Sizes in bytes. */
enum {
    DW_MODEL = 27200,  /* a model */
    DW_REPORT = 64,    /* a report */
    DW_TAG = 32,       /* the longest tag */
    DW_EDIT = 256,     /* an edit of a list */
    DW_ORDER = 2560,   /* an order: 64 rows of 40 bytes */
    DW_WORDS = 48,     /* a component: its kind and five numbers */
    DW_PLACES = 120,   /* the places of a list: 3 rows of 40 bytes */
    DW_DATA = 24       /* the data of a parameter */
};

/* The kinds of component, and their numbers. */
enum {
    DW_CONSTANT = 0,   /* the number */
    DW_SPHERE = 1,     /* centre x, y, z, radius */
    DW_TORUS = 2,      /* centre x, y, z, r, t */
    DW_MULTIPLY = 3,
    DW_ADD = 4,
    DW_SUBTRACT = 5,
    DW_DIVIDE = 6,
    DW_LERP = 7,       /* factor */
    DW_VARIABLE_LERP = 8,
    DW_REMAP = 9,      /* FromMin, FromMax, ToMin, ToMax */
    DW_BOOLEAN_UNION = 10,
    DW_BOOLEAN_INTERSECTION = 11,
    DW_BOOLEAN_DIFFERENCE = 12,
    DW_OFFSET = 13,    /* distance */
    DW_THICKNESS = 14  /* t */
};

/* The refusals. */
enum {
    DW_TAG_TOO_LONG = 1,
    DW_INCORRECT_INPUT_COUNT = 2,
    DW_INPUT_INDEX_OUT_OF_RANGE = 3,
    DW_PARAMETER_DOES_NOT_FIT = 4,
    DW_PARAMETER_TOO_NEAR = 5,
    DW_INVALID_MODEL = 7,
    DW_DUPLICATE_TAG = 11,
    DW_MISSING_TAG = 12,
    DW_MISSING_INPUT = 13,
    DW_CYCLIC_DEPENDENCY = 14,
    DW_COMPONENTS_FULL = 15,
    DW_LISTS_FULL = 16,
    DW_NUMBERED_TAG_TOO_LONG = 17
};

/* What changes a model. */
uint32_t dw_new(uint8_t *model, size_t model_len, uint8_t *out, size_t out_len);
uint32_t dw_add_constant(uint8_t *model, size_t model_len, const uint8_t *tag, size_t tag_len, uint64_t value,
                         uint8_t *out, size_t out_len);
uint32_t dw_add_function(uint8_t *model, size_t model_len, const uint8_t *tag, size_t tag_len, uint64_t kind,
                         uint64_t a, uint64_t b, uint64_t c, uint64_t d, uint64_t e, uint8_t *out, size_t out_len);
/* `given` is 0 where no inputs are given, else their count and 1. */
uint32_t dw_add_operation(uint8_t *model, size_t model_len, const uint8_t *tag, size_t tag_len, uint64_t kind,
                          uint64_t a, uint64_t b, uint64_t c, uint64_t d, uint64_t e, uint64_t given,
                          const uint8_t *first, size_t first_len, const uint8_t *second, size_t second_len,
                          const uint8_t *third, size_t third_len, uint8_t *out, size_t out_len);
uint32_t dw_add_component(uint8_t *model, size_t model_len, const uint8_t *tag, size_t tag_len, uint64_t kind,
                          uint64_t a, uint64_t b, uint64_t c, uint64_t d, uint64_t e, uint8_t *out, size_t out_len);
uint32_t dw_add_input(uint8_t *model, size_t model_len, const uint8_t *target, size_t target_len,
                      const uint8_t *source, size_t source_len, uint64_t index, uint8_t *out, size_t out_len);
uint32_t dw_remove_input(uint8_t *model, size_t model_len, const uint8_t *tag, size_t tag_len, uint64_t index,
                         uint8_t *out, size_t out_len);
uint32_t dw_remove_component(uint8_t *model, size_t model_len, const uint8_t *tag, size_t tag_len, uint8_t *out,
                             size_t out_len);
uint32_t dw_rename_component(uint8_t *model, size_t model_len, const uint8_t *old_tag, size_t old_len,
                             const uint8_t *new_tag, size_t new_len, uint8_t *out, size_t out_len);
/* The kind of data: 0 a value (a), 1 a vec3 (a, b, c), 2 a boolean (a is 0 or 1). */
uint32_t dw_set_parameter(uint8_t *model, size_t model_len, const uint8_t *tag, size_t tag_len, const uint8_t *name,
                          size_t name_len, uint64_t kind, uint64_t a, uint64_t b, uint64_t c, uint8_t *out,
                          size_t out_len);
/* Runs a list of edits, then asks the form under its newest tag: the number is the answer's bits. */
uint32_t dw_evaluate_after(uint8_t *model, size_t model_len, const uint8_t *edits, size_t edits_len,
                           const uint8_t *target, size_t target_len, uint64_t x, uint64_t y, uint64_t z, uint8_t *out,
                           size_t out_len);

/* What reads a model. */
uint32_t dw_check(const uint8_t *model, size_t model_len, uint8_t *out, size_t out_len);
/* The number is the count; `order` takes so many rows of 40 bytes, where it has DW_ORDER bytes. */
uint32_t dw_compile(const uint8_t *model, size_t model_len, const uint8_t *target, size_t target_len, uint8_t *order,
                    size_t order_len, uint8_t *out, size_t out_len);
/* The number is the answer's bits: negative is wall, positive is air. */
uint32_t dw_evaluate_at(const uint8_t *model, size_t model_len, const uint8_t *target, size_t target_len, uint64_t x,
                        uint64_t y, uint64_t z, uint8_t *out, size_t out_len);
/* The number is 1 and the tag the default, or 0 where there is none. */
uint32_t dw_default(const uint8_t *model, size_t model_len, uint8_t *out, size_t out_len);
/* The number is 1 where there is a component, else 0; `words` has DW_WORDS bytes. */
uint32_t dw_component_at(const uint8_t *model, size_t model_len, uint64_t position, uint8_t *words, size_t words_len,
                         uint8_t *out, size_t out_len);
uint32_t dw_get_component(const uint8_t *model, size_t model_len, const uint8_t *tag, size_t tag_len, uint8_t *words,
                          size_t words_len, uint8_t *out, size_t out_len);
/* The number is the count of places and 1, or 0 where there is no list; `places` has DW_PLACES bytes. */
uint32_t dw_list_at(const uint8_t *model, size_t model_len, uint64_t position, uint8_t *places, size_t places_len,
                    uint8_t *out, size_t out_len);
uint32_t dw_get_inputs(const uint8_t *model, size_t model_len, const uint8_t *tag, size_t tag_len, uint8_t *places,
                       size_t places_len, uint8_t *out, size_t out_len);
/* The number is 0 where there is no such parameter, 1 a value, 2 a vec3; `words` has DW_DATA bytes. */
uint32_t dw_read_parameter(const uint8_t *model, size_t model_len, const uint8_t *tag, size_t tag_len,
                           const uint8_t *name, size_t name_len, uint8_t *words, size_t words_len, uint8_t *out,
                           size_t out_len);

/* What touches no model. */
/* The kind's name in the tag; the number is the count of inputs and 1, or 0 where the kind is none. */
uint32_t dw_type_name(uint64_t kind, uint8_t *out, size_t out_len);
/* The name of the kind's parameter in the tag; the number is 0 none, 1 a value, 2 a vec3. */
uint32_t dw_parameter(uint64_t kind, uint64_t index, uint8_t *out, size_t out_len);
double dw_root(double x);
double dw_sphere(double cx, double cy, double cz, double radius, double x, double y, double z);
double dw_torus(double cx, double cy, double cz, double r, double t, double x, double y, double z);

/* The bits of a number, and the number of some bits. */
static inline uint64_t dw_bits(double number) {
    uint64_t bits;
    memcpy(&bits, &number, sizeof bits);
    return bits;
}

static inline double dw_number(uint64_t bits) {
    double number;
    memcpy(&number, &bits, sizeof number);
    return number;
}

/* The word at a place of some bytes: a report's index is at 8, its tag's length at 16, the tag at 24, the number at 56. */
static inline uint64_t dw_word(const uint8_t *bytes, size_t at) {
    uint64_t word = 0;
    for (size_t i = 8; i > 0; i--) word = word << 8 | bytes[at + i - 1];
    return word;
}

#ifdef __cplusplus
}
#endif

#endif
