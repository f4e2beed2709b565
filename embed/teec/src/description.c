/* Reads boot descriptions. python/tulgexar/description.py reads them too, and says the same causes. */
#include "description.h"

#include "parts.h"

#include <errno.h>
#include <libgen.h>
#include <stdlib.h>
#include <string.h>
#include <sys/stat.h>
#include <unistd.h>

enum { MOST_NAMES = 64, MOST_WORDS = 5, UUID_LENGTH = 36 };
enum { MOST_CPUS = 8, MOST_FRAMES = 1024, MOST_STEPS = 1000000, MOST_LIMIT = 3600000 };
enum { USUAL_STEPS = 100000, USUAL_LIMIT = 10000 };

struct image {
    char *name, *digits;
};

struct reading {
    struct description *description;
    const char *path;
    int line;
    struct image images[MOST_NAMES];
    size_t image_count;
    unsigned seen; /* lines of which there is one at most, by their place in `forms` */
};

/* ---- Files. */

/* The path of a file that a description names: beside it, where it isn't absolute. */
static char *beside(const char *path, const char *file) {
    const char *slash = strrchr(path, '/');
    size_t front = file[0] == '/' || slash == NULL ? 0 : (size_t)(slash + 1 - path);
    char *whole = malloc(front + strlen(file) + 1);
    if (whole) memcpy(whole, path, front), strcpy(whole + front, file);
    return whole;
}

/* The first line of a file, or null. */
static char *first_line(const char *path) {
    FILE *file = path ? fopen(path, "re") : NULL;
    char *line = NULL;
    size_t room = 0;
    ssize_t length = file ? getline(&line, &room, file) : -1;
    if (file) fclose(file);
    if (length < 0) {
        free(line);
        return NULL;
    }
    line[strcspn(line, "\r\n")] = 0;
    return line;
}

/* Whether files may be made in a folder. */
static bool is_open_folder(const char *path) {
    struct stat found;
    return stat(path, &found) == 0 && S_ISDIR(found.st_mode) && access(path, W_OK | X_OK) == 0;
}

/* Whether files may lie in a folder: it is there, or can be made in one that is. */
static bool can_hold_files(const char *path) {
    struct stat found;
    if (lstat(path, &found) == 0) return is_open_folder(path);
    bool is_free = errno == ENOENT;
    char *copy = is_free ? strdup(path) : NULL;
    bool can_be_made = copy && is_open_folder(dirname(copy));
    free(copy);
    return can_be_made;
}

/* ---- Words. */

static int digit_value(char digit) {
    if (digit >= '0' && digit <= '9') return digit - '0';
    char low = (char)(digit | 32);
    return low >= 'a' && low <= 'f' ? low - 'a' + 10 : -1;
}

static bool is_hexadecimal(const char *text) {
    while (*text && digit_value(*text) >= 0) text++;
    return *text == 0;
}

/* The byte of two digits. */
static uint8_t byte_of(const char *digits) {
    return (uint8_t)(digit_value(digits[0]) << 4 | digit_value(digits[1]));
}

static bool takes_bytes(const char *text, uint8_t *bytes, size_t length) {
    if (strlen(text) != 2 * length || !is_hexadecimal(text)) return false;
    for (size_t i = 0; i < length; i++) bytes[i] = byte_of(text + 2 * i);
    return true;
}

/* Takes a UUID in the hyphenated form, in small letters. */
static bool takes_uuid(const char *text, char uuid[UUID_LENGTH + 1]) {
    if (strlen(text) != UUID_LENGTH) return false;
    for (int i = 0; i < UUID_LENGTH; i++) {
        bool is_hyphen = i == 8 || i == 13 || i == 18 || i == 23;
        if (is_hyphen ? text[i] != '-' : digit_value(text[i]) < 0) return false;
        uuid[i] = text[i] >= 'A' && text[i] <= 'F' ? (char)(text[i] | 32) : text[i];
    }
    uuid[UUID_LENGTH] = 0;
    return true;
}

/* Takes a number in decimal, from 1 to the most. */
static bool takes_number(const char *text, unsigned most, unsigned *number) {
    for (*number = 0; *text >= '0' && *text <= '9' && *number <= most; text++) *number = 10 * *number + (unsigned)(*text - '0');
    return *text == 0 && *number >= 1 && *number <= most;
}

/* Whether an image has the system call that unmasks, number 10. Behind a head of 36 bytes each instruction has eight: the operation,
 * three registers, and a word. */
static bool has_unmask(const char *image) {
    enum { HEAD_DIGITS = 72, DIGITS = 16 };
    uint8_t code[8];
    for (size_t at = HEAD_DIGITS, length = strlen(image); at + DIGITS <= length; at += DIGITS) {
        for (size_t i = 0; i < sizeof code; i++) code[i] = byte_of(image + at + 2 * i);
        if (code[0] == 0x18 && code[4] == 10 && code[5] == 0 && code[6] == 0 && code[7] == 0) return true;
    }
    return false;
}

/* ---- Lines: each gives the cause where it is wrong, or null. */

static const char no_memory[] = "want of memory", out_of_limits[] = "a number that isn't in its limits";

static const char *take_boot(struct reading *reading, char **words) {
    struct description *to = reading->description;
    bool is_well = takes_number(words[1], MOST_CPUS, &to->cpus) && takes_number(words[2], MOST_THREADS, &to->threads) &&
                   takes_number(words[3], MOST_FRAMES, &to->frames);
    return is_well ? NULL : out_of_limits;
}

static const char *digits_of(const struct reading *reading, const char *name) {
    for (size_t i = 0; i < reading->image_count; i++)
        if (strcmp(reading->images[i].name, name) == 0) return reading->images[i].digits;
    return NULL;
}

static const char *take_image(struct reading *reading, char **words) {
    if (digits_of(reading, words[1])) return "a second image of this name";
    if (reading->image_count == MOST_NAMES) return "too many images";
    char *path = beside(reading->path, words[2]), *digits = first_line(path), *name = strdup(words[1]);
    free(path);
    if (digits && name) {
        reading->images[reading->image_count++] = (struct image){name, digits};
        return is_hexadecimal(digits) ? NULL : "an image that isn't hexadecimal digits";
    }
    free(digits), free(name);
    return name ? "an image that can't be read" : no_memory;
}

static const char *take_ta(struct reading *reading, char **words) {
    struct description *to = reading->description;
    if (to->application_count == MOST_APPLICATIONS) return "too many applications";
    struct described_application *application = &to->applications[to->application_count];
    if (!takes_uuid(words[1], application->uuid)) return "a UUID that isn't of its form";
    if (description_application(to, application->uuid)) return "a second application of this UUID";
    const char *digits = words[2][0] == '$' ? digits_of(reading, words[2] + 1) : words[2];
    if (digits == NULL) return "a name of no image";
    if (!is_hexadecimal(digits)) return "an image that isn't hexadecimal digits";
    application->can_unmask = has_unmask(digits), application->line = reading->line;
    application->image = strdup(digits);
    if (application->image == NULL) return no_memory;
    to->application_count++;
    return NULL;
}

static const char *take_key(struct reading *reading, char **words) {
    reading->description->has_key = takes_bytes(words[1], reading->description->key, sizeof reading->description->key);
    return reading->description->has_key ? NULL : "a key that isn't 64 digits";
}

static const char *take_program(struct reading *reading, char **words) {
    return (reading->description->program = beside(reading->path, words[1])) ? NULL : no_memory;
}

static const char *take_files(struct reading *reading, char **words) {
    reading->description->files = beside(reading->path, words[1]);
    if (reading->description->files == NULL) return no_memory;
    return can_hold_files(reading->description->files) ? NULL : "a folder that can't be made";
}

static const char *take_clock(struct reading *reading, char **words) {
    reading->description->is_virtual = strcmp(words[1], "virtual") == 0;
    return reading->description->is_virtual || strcmp(words[1], "real") == 0 ? NULL : "a clock that is neither real nor virtual";
}

static const char *take_steps(struct reading *reading, char **words) {
    return takes_number(words[1], MOST_STEPS, &reading->description->steps) ? NULL : out_of_limits;
}

static const char *take_limit(struct reading *reading, char **words) {
    return takes_number(words[1], MOST_LIMIT, &reading->description->limit) ? NULL : out_of_limits;
}

static const char *take_history(struct reading *reading, char **words) {
    reading->description->has_history = strcmp(words[1], "on") == 0;
    return reading->description->has_history || strcmp(words[1], "off") == 0 ? NULL : "a history that is neither on nor off";
}

static const struct form {
    const char *word;
    size_t count; /* of words */
    bool is_repeated;
    const char *(*take)(struct reading *, char **);
} forms[] = {
    {"boot", 4, false, take_boot},   {"image", 3, true, take_image}, {"ta", 3, true, take_ta},
    {"key", 2, false, take_key},     {"program", 2, false, take_program}, {"files", 2, false, take_files},
    {"clock", 2, false, take_clock}, {"steps", 2, false, take_steps}, {"limit", 2, false, take_limit},
    {"history", 2, false, take_history},
};
enum { FORM_COUNT = sizeof forms / sizeof forms[0] };

static const char *take_line(struct reading *reading, char *line) {
    char *words[MOST_WORDS], *rest = line, *word;
    size_t count = 0;
    while (count < MOST_WORDS && (word = strtok_r(rest, " \t\r\n", &rest))) words[count++] = word;
    if (count == 0 || words[0][0] == '#') return NULL;
    for (size_t i = 0; i < FORM_COUNT; i++) {
        if (strcmp(words[0], forms[i].word) != 0) continue;
        if (forms[i].count != count) return "another number of words";
        if (!forms[i].is_repeated && reading->seen & 1u << i) return "a second line of this word";
        reading->seen |= 1u << i;
        return forms[i].take(reading, words);
    }
    return "a word that isn't known";
}

/* ---- Descriptions. */

static TEEC_Result result_of(const char *cause) {
    return cause == NULL ? TEEC_SUCCESS : cause == no_memory ? TEEC_ERROR_OUT_OF_MEMORY : TEEC_ERROR_BAD_FORMAT;
}

static const char *read_lines(struct reading *reading, FILE *file) {
    char *line = NULL;
    size_t room = 0;
    const char *cause = NULL;
    errno = 0;
    while (cause == NULL && getline(&line, &room, file) >= 0) reading->line++, cause = take_line(reading, line);
    free(line);
    if (cause) SAY("%s:%d: %s", reading->path, reading->line, cause);
    else if (ferror(file)) SAY("%s: %s", reading->path, cause = strerror(errno));
    else if (reading->description->threads == 0) SAY("%s: %s", reading->path, cause = "no line boot");
    return cause;
}

TEEC_Result description_read(struct description *description, const char *path) {
    struct reading reading = {.description = description, .path = path};
    *description = (struct description){.steps = USUAL_STEPS, .limit = USUAL_LIMIT};
    FILE *file = fopen(path, "re");
    if (file == NULL) {
        SAY("%s: %s", path, strerror(errno));
        return TEEC_ERROR_ITEM_NOT_FOUND;
    }
    TEEC_Result result = result_of(read_lines(&reading, file));
    fclose(file);
    for (size_t i = 0; i < reading.image_count; i++) free(reading.images[i].name), free(reading.images[i].digits);
    return result;
}

void description_free(struct description *description) {
    for (size_t i = 0; i < description->application_count; i++) free(description->applications[i].image);
    free(description->program), free(description->files);
}

const struct described_application *description_application(const struct description *description, const char *uuid) {
    for (size_t i = 0; i < description->application_count; i++)
        if (strcmp(uuid, description->applications[i].uuid) == 0) return &description->applications[i];
    return NULL;
}
