/*
 * The calls of include/farshavan.h from C. Reads the job on standard input and prints to standard output what `check`
 * prints for it, by the calls on its tables. Each call is made at least once, on this job and on buffers of no length,
 * and each result is one test; the sum is the last line on standard error. It is written for tests/jobs/p1.job.
 */
#include <farshavan.h>
#include <stdio.h>
#include <string.h>

static unsigned passed, failed;

static void hold(int holds, const char *what)
{
    if (holds) {
        passed++;
    } else {
        failed++;
        fprintf(stderr, "FAILED %s\n", what);
    }
}

static uint8_t file[FARSHAVAN_MAX_FILE + 1], written[FARSHAVAN_MAX_FILE];
static uint8_t bytes[FARSHAVAN_MAX_BYTES], text[FARSHAVAN_MAX_BYTES];
static uint32_t ends[FARSHAVAN_MAX_STRINGS];
static uint32_t schema[FARSHAVAN_MAX_SCHEMA_ROWS * FARSHAVAN_SCHEMA_WORDS];
static uint32_t instance[FARSHAVAN_MAX_INSTANCE_ROWS * FARSHAVAN_INSTANCE_WORDS];
static uint32_t counts[4], list[2 * 8192];
static uint8_t work[FARSHAVAN_WORK_BYTES], report[FARSHAVAN_REPORT_BYTES];

/* The lengths of the file and of the tables that it holds. */
static size_t file_length, bytes_length, ends_length, schema_length, instance_length;

#define STRINGS bytes, bytes_length, ends, ends_length
#define SCHEMA STRINGS, schema, schema_length
#define TABLES SCHEMA, instance, instance_length

static void read_tables(void)
{
    uint64_t returned = farshavan_read_job(file, file_length, bytes, sizeof bytes, ends, FARSHAVAN_MAX_STRINGS, schema,
                                           sizeof schema / sizeof *schema, instance, sizeof instance / sizeof *instance,
                                           counts, 4);
    hold(returned == 0, "the job reads");
    bytes_length = counts[0];
    ends_length = counts[1];
    schema_length = counts[2] * FARSHAVAN_SCHEMA_WORDS;
    instance_length = counts[3] * FARSHAVAN_INSTANCE_WORDS;
    hold(schema_length == 45 && schema[42] == FARSHAVAN_START, "start is the last of fifteen rows");
    hold(instance_length == 25 && instance[1] == FARSHAVAN_NONE, "the root is the first of five rows");
}

/* Puts the match list into `shown`, which has room for it, as `check` prints it. */
static void show_list(char *shown)
{
    uint64_t returned = farshavan_match_list(TABLES, list, sizeof list / sizeof *list, work, sizeof work);
    uint32_t answer = farshavan_answer(returned), pair;
    hold(farshavan_code(returned) == 0, "nothing is refused");
    shown += sprintf(shown, "valid=%s\n", farshavan_valid(answer) ? "yes" : "no");
    shown += sprintf(shown, "pairs=%u\n", (unsigned)farshavan_pairs(answer));
    for (pair = 0; pair < farshavan_pairs(answer); pair++) {
        shown += sprintf(shown, "pair=%u,%u\n", (unsigned)list[2 * pair], (unsigned)list[2 * pair + 1]);
    }
}

/* The local name of an element of the instance. */
static const char *name_of(uint32_t element)
{
    uint32_t local = instance[element * FARSHAVAN_INSTANCE_WORDS + 3];
    uint64_t returned = farshavan_string_text(STRINGS, local, text, sizeof text);
    hold(farshavan_code(returned) == 0 && strlen((char *)text) == farshavan_answer(returned), "the text of a name");
    return (char *)text;
}

static void check_answers(void)
{
    uint32_t row[3] = {7, 7, 7}, name[3] = {7, 7, 7};
    uint64_t returned;
    hold(farshavan_schema_verdict(SCHEMA) == 0, "the schema passes");
    hold(farshavan_verdict(TABLES, work, sizeof work) == 1, "the instance is valid");
    hold(strcmp(name_of(list[0]), "art") == 0, "the first pair is of an art");
    hold(strcmp(name_of(list[2]), "ti") == 0, "the second pair is of a ti");
    hold(strcmp(name_of(list[4]), "ti") == 0, "the third pair is of the same");
    hold(farshavan_name_in_class(SCHEMA, 0, 0, 1, row, 3) == 1, "art is in the class at row 0");
    hold(row[0] == 0 && row[1] == 0 && row[2] == 0, "that row says so");
    hold(farshavan_name_in_class(SCHEMA, 0, 0, 2, row, 3) == 0, "id is not");
    hold(row[0] == FARSHAVAN_NONE && row[1] == 0 && row[2] == 0, "no except shuts it out");
    hold(farshavan_name_in_class(SCHEMA, 10, 0, 3, row, 1) == 1 && row[0] == 10, "ti is in the class at row 10");
    hold(farshavan_least_common_name(SCHEMA, 7, 10, name, 3) == 1, "the two classes of ti have a name in common");
    hold(name[0] == 0 && name[1] == 3 && name[2] == 0, "that name is ti");
    hold(farshavan_least_common_name(SCHEMA, 0, 7, name, 3) == 0, "art and ti have none");
    returned = farshavan_write_job(TABLES, written, sizeof written);
    hold(returned == file_length && memcmp(written, file, file_length) == 0, "the job is written as it was read");
}

static int refused(uint64_t returned, uint32_t code, uint32_t place)
{
    return farshavan_code(returned) == code && farshavan_place(returned) == place;
}

static void check_refusals(void)
{
    uint32_t row[2] = {7, 7};
    uint64_t returned = farshavan_name_in_class(SCHEMA, 2, 0, 1, row, 2);
    hold(refused(returned, FARSHAVAN_CODE_NOT_A_CLASS, 2), "row 2 is no class");
    hold(row[0] == 0 && row[1] == 0, "and no row says so");
    returned = farshavan_match_list(TABLES, list, 5, work, sizeof work);
    hold(refused(returned, FARSHAVAN_CODE_OUTPUT, 0), "three pairs need six words");
    hold(list[0] == 0 && list[1] == 0 && list[2] == 0 && list[3] == 0 && list[4] == 0, "a refusal leaves zeros");
    file[0] = 'x';
    returned = farshavan_read_job(file, file_length, bytes, 0, ends, 0, schema, 0, instance, 0, counts, 4);
    hold(refused(returned, FARSHAVAN_CODE_JOB_FILE, 1), "the first line is wrong");
    hold(counts[0] == 0 && counts[1] == 0 && counts[2] == 0 && counts[3] == 0, "and there are no counts");
}

#define NOTHING NULL, 0
#define NO_TABLES NOTHING, NOTHING, NOTHING, NOTHING

/* Every buffer may be a null pointer of length 0. */
static void check_nothing(void)
{
    const uint32_t strings = FARSHAVAN_CODE_STRINGS, output = FARSHAVAN_CODE_OUTPUT, job_file = FARSHAVAN_CODE_JOB_FILE;
    hold(refused(farshavan_schema_verdict(NOTHING, NOTHING, NOTHING), strings, 0), "schema verdict on nothing");
    hold(refused(farshavan_name_in_class(NOTHING, NOTHING, NOTHING, 0, 0, 1, NOTHING), strings, 0), "name in no class");
    hold(refused(farshavan_name_in_class(SCHEMA, 0, 0, 1, NOTHING), output, 0), "a row into nothing");
    hold(refused(farshavan_least_common_name(NOTHING, NOTHING, NOTHING, 0, 0, NOTHING), strings, 0), "no least name");
    hold(refused(farshavan_verdict(NO_TABLES, NOTHING), strings, 0), "verdict on nothing");
    hold(refused(farshavan_match_list(NO_TABLES, NOTHING, NOTHING), strings, 0), "match list of nothing");
    hold(farshavan_string_text(NOTHING, NOTHING, 0, NOTHING) == 0, "text of nothing");
    hold(refused(farshavan_write_job(NO_TABLES, NOTHING), strings, 0), "job of nothing");
    hold(refused(farshavan_read_job(NOTHING, NO_TABLES, NOTHING), job_file, 1), "tables of no file");
    hold(refused(farshavan_report(NOTHING, NOTHING), output, 0), "report into nothing");
    hold(refused(farshavan_match_list(TABLES, NOTHING, NOTHING), output, 0), "three pairs into nothing");
    hold(farshavan_verdict(TABLES, NOTHING) == 1, "valid without a work buffer, as no row is a list");
}

int main(void)
{
    static char shown[32 + 8192 * 14];
    uint64_t returned;
    file_length = fread(file, 1, sizeof file, stdin);
    read_tables();
    show_list(shown);
    fputs(shown, stdout);
    check_answers();
    check_nothing();
    returned = farshavan_report(file, file_length, report, sizeof report);
    hold(returned == strlen(shown) && memcmp(report, shown, strlen(shown) + 1) == 0, "the report says the same");
    check_refusals();
    fprintf(stderr, "%u passed, %u failed\n", passed, failed);
    return failed == 0 && passed > 0 ? 0 : 1;
}
