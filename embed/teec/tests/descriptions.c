/* Descriptions that are wrong are told with file, line and cause, those of wrong.txt and those that the core refuses. */
#include "test.h"

enum { MOST_SAID = 1000 };

/* What beginning a context from this text says on standard error, in one line, and its result. */
static TEEC_Result begun(const char *text, char said[MOST_SAID]) {
    TEEC_Context context;
    char path[] = "/tmp/teec_said_XXXXXX";
    snprintf(described_path, sizeof described_path, "/tmp/teec_%d.txt", (int)getpid());
    FILE *file = fopen(described_path, "w");
    fputs(text, file), fclose(file);
    int before = dup(2), told = mkstemp(path);
    dup2(told, 2);
    TEEC_Result result = TEEC_InitializeContext(described_path, &context);
    dup2(before, 2), close(before);
    ssize_t length = pread(told, said, MOST_SAID - 1, 0);
    said[length < 0 ? 0 : length] = 0;
    close(told), unlink(path), unlink(described_path);
    if (result == TEEC_SUCCESS) TEEC_FinalizeContext(&context);
    return result;
}

static void expects(const char *text, int line, const char *cause) {
    char said[MOST_SAID], wanted[MOST_SAID];
    CHECK(begun(text, said) == TEEC_ERROR_BAD_FORMAT);
    if (line) snprintf(wanted, sizeof wanted, "teec: %s:%d: %s\n", described_path, line, cause);
    else snprintf(wanted, sizeof wanted, "teec: %s: %s\n", described_path, cause);
    CHECK(strcmp(said, wanted) == 0);
    if (strcmp(said, wanted)) printf("   said   %s   wanted %s", said, wanted);
}

/* Each block of wrong.txt. */
static void table(void) {
    char line[300], text[1000] = "", cause[200] = "";
    int at = -1, count = 0;
    FILE *file = fopen("tests/wrong.txt", "r");
    while (fgets(line, sizeof line, file)) {
        if (strncmp(line, "== ", 3) != 0) {
            if (at >= 0) strcat(text, line);
            continue;
        }
        if (at >= 0) expects(text, at, cause), count++;
        text[0] = 0, CHECK(sscanf(line, "== %d %199[^\n]", &at, cause) == 2);
    }
    expects(text, at, cause);
    fclose(file);
    CHECK(count >= 28);
}

/* What the core itself refuses: an image of four digits, the second of two applications. */
static void refused(void) {
    char said[MOST_SAID], wanted[MOST_SAID], text[100000], image[90000];
    FILE *file = fopen("../../examples/applications/copy.hex", "r");
    CHECK(file && fgets(image, sizeof image, file)), fclose(file);
    static const char second[] = "33333333-4444-5555-6666-777777777778";
    snprintf(text, sizeof text, "boot 1 4 8\nta 33333333-4444-5555-6666-777777777777 %s\nta %s 4f54\n", image, second);
    CHECK(begun(text, said) == TEEC_ERROR_BAD_FORMAT);
    snprintf(wanted, sizeof wanted, "%s:4: the core refuses application %s: bad image\n", described_path, second);
    CHECK(strstr(said, wanted) != NULL);
}

/* Tabs, empty lines and comments may stand, and the last line feed may be left out. */
static void taken(void) {
    char said[MOST_SAID];
    CHECK(begun("\n# a comment\n\tboot 1  4 8 \r\nlimit 5000\nsteps 1000000\nclock real\nhistory off\n\n", said) == TEEC_SUCCESS);
    CHECK(begun("limit 5000\nboot 1 4 8", said) == TEEC_SUCCESS);
}

int main(void) {
    table(), refused(), taken();
    return ended("descriptions");
}
