/*
 * Farshavan: a verified RELAX NG validator (ISO/IEC 19757-2). Link with libfarshavan.a (rt lib in crates/farshavan).
 * docs/FORMAT.md says what the tables hold, when each code is given and at which place.
 *
 * Answers. Every function returns one number. Its upper 32 bits are the code of a refusal, 0 where nothing is refused;
 * its lower 32 bits are the place of the refusal or, with code 0, the answer. farshavan_code, farshavan_place and
 * farshavan_answer take it apart.
 *
 * Buffers. Each is a pointer and a length in elements: bytes for uint8_t, words for uint32_t. What is lent as const is
 * only read. Any tables may be lent: what breaks a rule is refused. A buffer of length 0 is neither read nor written,
 * and its pointer may be NULL. An output must not overlap another buffer of the same call.
 *
 * Outputs. What an output held before the call has no effect on the answer. After a refusal every output is zero
 * throughout; otherwise it is zero past what is used. An output too short for what it is to hold is refused by code
 * FARSHAVAN_CODE_OUTPUT at place 0.
 *
 * Nothing is allocated and nothing is kept between calls, so that calls from several threads need no lock. What a call
 * works with stands on the stack: a stack of 2 MiB is enough. Measured, not proved, on the largest jobs: 1.5 MB for a
 * report, 1.4 MB for a verdict or a match list, 0.11 MB for the calls on a schema, 20 KB for the others.
 */
#ifndef FARSHAVAN_H
#define FARSHAVAN_H

#include <stddef.h>
#include <stdint.h>

#ifdef __cplusplus
extern "C" {
#endif

/* The word for no except in a schema row, no parent in an instance row, no row in an answer; `-` in a job file. */
#define FARSHAVAN_NONE 4294967295u

/* The words of a schema row (kind, a, b) and of an instance row (kind, parent, a, b, c). */
#define FARSHAVAN_SCHEMA_WORDS 3u
#define FARSHAVAN_INSTANCE_WORDS 5u

/* The kinds of schema rows, with what the fields a and b hold. A field that is not named is 0. */
#define FARSHAVAN_EMPTY 1u
#define FARSHAVAN_NOT_ALLOWED 2u
#define FARSHAVAN_TEXT 3u
#define FARSHAVAN_DATA 4u         /* datatype; except pattern or FARSHAVAN_NONE */
#define FARSHAVAN_VALUE 5u        /* datatype; string */
#define FARSHAVAN_LIST 6u         /* pattern */
#define FARSHAVAN_ATTRIBUTE 7u    /* name class; pattern */
#define FARSHAVAN_REF 8u          /* element row */
#define FARSHAVAN_ONE_OR_MORE 9u  /* pattern */
#define FARSHAVAN_CHOICE 10u      /* pattern; pattern */
#define FARSHAVAN_GROUP 11u       /* pattern; pattern */
#define FARSHAVAN_INTERLEAVE 12u  /* pattern; pattern */
#define FARSHAVAN_ANY_NAME 16u    /* except class or FARSHAVAN_NONE */
#define FARSHAVAN_NS_NAME 17u     /* namespace; except class or FARSHAVAN_NONE */
#define FARSHAVAN_NAME 18u        /* namespace; local name, not 0 */
#define FARSHAVAN_NAME_CHOICE 19u /* name class; name class */
#define FARSHAVAN_ELEMENT 20u     /* name class; pattern: a definition */
#define FARSHAVAN_START 21u       /* pattern: the last row */

/* The datatypes of data and value. */
#define FARSHAVAN_STRING 0u
#define FARSHAVAN_TOKEN 1u

/* The kinds of instance rows, with what the fields a, b and c hold. A field that is not named is 0. */
#define FARSHAVAN_ELEMENT_NODE 1u   /* namespace; local name */
#define FARSHAVAN_ATTRIBUTE_NODE 2u /* namespace; local name; string */
#define FARSHAVAN_TEXT_NODE 3u      /* string */

/* The codes, in the order in which they are tried; farshavan_read_job tries the last before the one above it. */
#define FARSHAVAN_CODE_STRINGS 1u       /* the strings break their rule */
#define FARSHAVAN_CODE_SCHEMA 2u        /* schema rows break their rule */
#define FARSHAVAN_CODE_PLACES 3u        /* empty or notAllowed out of place */
#define FARSHAVAN_CODE_NAME_CLASSES 4u  /* anyName or nsName where an except has no place for it */
#define FARSHAVAN_CODE_PATHS 5u         /* a prohibited path */
#define FARSHAVAN_CODE_SEQUENCES 6u     /* string sequences */
#define FARSHAVAN_CODE_ATTRIBUTES 7u    /* the restrictions on attributes */
#define FARSHAVAN_CODE_INTERLEAVES 8u   /* the restrictions on interleave */
#define FARSHAVAN_CODE_INSTANCE 9u      /* instance rows break their rule */
#define FARSHAVAN_CODE_WIDTH 10u        /* an element with too many attributes or children */
#define FARSHAVAN_CODE_NOT_A_CLASS 11u  /* the row of a question is no name class */
#define FARSHAVAN_CODE_OUTPUT 12u       /* an output is too short */
#define FARSHAVAN_CODE_JOB_FILE 13u     /* the text of a job file; the place is a line, from 1 */

/* Limits of the tables: strings, their bytes, rows, and the attributes and the children of one element. */
#define FARSHAVAN_MAX_STRINGS 512u
#define FARSHAVAN_MAX_BYTES 16384u
#define FARSHAVAN_MAX_SCHEMA_ROWS 512u
#define FARSHAVAN_MAX_INSTANCE_ROWS 1024u
#define FARSHAVAN_MAX_WIDTH 63u

/* Bytes that a job file has at most, that suffice as work buffer, and that suffice for the text of a report. */
#define FARSHAVAN_MAX_FILE 65536u
#define FARSHAVAN_WORK_BYTES 49155u
#define FARSHAVAN_REPORT_BYTES 131072u

/* A number that a function returned: the code of the refusal or 0, the place of a refusal, the answer beside code 0. */
static inline uint32_t farshavan_code(uint64_t returned) { return (uint32_t)(returned >> 32); }
static inline uint32_t farshavan_place(uint64_t returned) { return (uint32_t)(returned & 4294967295u); }
static inline uint32_t farshavan_answer(uint64_t returned) { return (uint32_t)(returned & 4294967295u); }

/* The number of pairs, and 1 for valid or 0 for not valid, of an answer of farshavan_match_list. */
static inline uint32_t farshavan_pairs(uint32_t answer) { return answer >> 1; }
static inline uint32_t farshavan_valid(uint32_t answer) { return answer & 1u; }

/*
 * Schema verdict: whether the schema keeps the simple form and its restrictions.
 * Answers 0. Codes 1 to 8.
 */
uint64_t farshavan_schema_verdict(const uint8_t *bytes, size_t bytes_length, const uint32_t *ends, size_t ends_length,
                                  const uint32_t *schema, size_t schema_length);

/*
 * Name in class: whether the name class at a row of the schema holds a name, and which row says so. Only excepts within
 * this class count.
 * Answers 1 or 0 with a row in `row`, one word. For 1 it is the smallest row of an anyName, an nsName or a name that
 * lies in the class below no except and, taken with its own except, holds the name. For 0 it is the smallest except
 * class that holds the name, under an anyName or an nsName of the name's namespace that lies in the class below no
 * except; FARSHAVAN_NONE where there is none.
 * Codes 1 to 8, 11 at the row of the question where it is no name class, and 12 where `row` has no word.
 */
uint64_t farshavan_name_in_class(const uint8_t *bytes, size_t bytes_length, const uint32_t *ends, size_t ends_length,
                                 const uint32_t *schema, size_t schema_length, uint32_t name_class,
                                 uint32_t name_space, uint32_t local, uint32_t *row, size_t row_length);

/*
 * Least common name of the name classes at two rows, by namespace and then by local name.
 * Answers 1 with namespace and local name in `name`, two words, or 0 where they have none in common.
 * Codes 1 to 8, 11 at the first of the rows that is no name class, and 12 where there is a name and `name` has fewer
 * than two words.
 */
uint64_t farshavan_least_common_name(const uint8_t *bytes, size_t bytes_length, const uint32_t *ends,
                                     size_t ends_length, const uint32_t *schema, size_t schema_length, uint32_t first,
                                     uint32_t second, uint32_t *name, size_t name_length);

/*
 * Verdict on schema and instance.
 * Answers 1 where the instance is valid, 0 where it is not. Codes 1 to 10, and 12 for the work buffer.
 * Where the schema has a list row, `work` has three bytes more than three times the length of the longest attribute
 * value or text of the instance; otherwise any length will do. FARSHAVAN_WORK_BYTES always suffice. It is left zero.
 */
uint64_t farshavan_verdict(const uint8_t *bytes, size_t bytes_length, const uint32_t *ends, size_t ends_length,
                           const uint32_t *schema, size_t schema_length, const uint32_t *instance,
                           size_t instance_length, uint8_t *work, size_t work_length);

/*
 * Match list: every pair of an element and a definition that it matches, by rising element rows and then rising
 * definition rows, each as two words in `list`.
 * Answers twice the number of pairs, which is the number of words used, and 1 more where the instance is valid; see
 * farshavan_pairs and farshavan_valid. Codes 1 to 10, and 12 where the pairs have more words than `list`, or for the
 * work buffer, which is as for the verdict and is left zero.
 */
uint64_t farshavan_match_list(const uint8_t *bytes, size_t bytes_length, const uint32_t *ends, size_t ends_length,
                              const uint32_t *schema, size_t schema_length, const uint32_t *instance,
                              size_t instance_length, uint32_t *list, size_t list_length, uint8_t *work,
                              size_t work_length);

/*
 * Text of a string, copied to `text`.
 * Answers its length; 0 also where the strings break their rule or have no such string. Code 12 alone. The longest
 * text has FARSHAVAN_MAX_BYTES.
 */
uint64_t farshavan_string_text(const uint8_t *bytes, size_t bytes_length, const uint32_t *ends, size_t ends_length,
                               uint32_t string, uint8_t *text, size_t text_length);

/*
 * Read job: the tables of a job file. They are not judged.
 * Answers 0 with the numbers of bytes, strings, schema rows and instance rows in `counts`, four words. Code 13 at the
 * first wrong line, then 12. These lengths suffice for every file: FARSHAVAN_MAX_BYTES, FARSHAVAN_MAX_STRINGS,
 * FARSHAVAN_MAX_SCHEMA_ROWS * FARSHAVAN_SCHEMA_WORDS, FARSHAVAN_MAX_INSTANCE_ROWS * FARSHAVAN_INSTANCE_WORDS, 4.
 */
uint64_t farshavan_read_job(const uint8_t *file, size_t file_length, uint8_t *bytes, size_t bytes_length,
                            uint32_t *ends, size_t ends_length, uint32_t *schema, size_t schema_length,
                            uint32_t *instance, size_t instance_length, uint32_t *counts, size_t counts_length);

/*
 * Write job: the job file of tables, in `file`. The rows are not judged but for their number.
 * Answers its length. Code 1 with its place; 2 and 9 at 0, for too many rows or words that are no whole rows; then 12,
 * also where the text has more than FARSHAVAN_MAX_FILE bytes.
 */
uint64_t farshavan_write_job(const uint8_t *bytes, size_t bytes_length, const uint32_t *ends, size_t ends_length,
                             const uint32_t *schema, size_t schema_length, const uint32_t *instance,
                             size_t instance_length, uint8_t *file, size_t file_length);

/*
 * Report: what the program `check` prints for a job file, in `text`; a refusal of the job is a line of it.
 * Answers its length. Code 12 alone; FARSHAVAN_REPORT_BYTES suffice for every file.
 */
uint64_t farshavan_report(const uint8_t *file, size_t file_length, uint8_t *text, size_t text_length);

#ifdef __cplusplus
}
#endif

#endif
