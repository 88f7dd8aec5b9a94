/* Edits, places, refusals, unfound targets, positions and diagnostics, called as a program in C does; each answer is compared with
   the one that is written here. */
#include "cargo_manifest.h"

#include <stdio.h>
#include <string.h>

#define TEXT(text) {(const uint8_t *)(text), sizeof(text) - 1}
#define KEY(key) {TEXT(key), 0, 0}
#define INDEX(index) {{NULL, 0}, index, 1}
#define COUNT_OF(type, ...) (sizeof((const type[]){__VA_ARGS__}) / sizeof(type))
#define PATH(...) {(const struct manifest_step[]){__VA_ARGS__}, COUNT_OF(struct manifest_step, __VA_ARGS__)}
#define EDITS(...) (const struct manifest_edit[]){__VA_ARGS__}, COUNT_OF(struct manifest_edit, __VA_ARGS__)
#define SET(text, ...) {PATH(__VA_ARGS__), TEXT(text), MANIFEST_SET}
#define INSERT(text, ...) {PATH(__VA_ARGS__), TEXT(text), MANIFEST_INSERT}
#define REMOVE(...) {PATH(__VA_ARGS__), {NULL, 0}, MANIFEST_REMOVE}
#define RENAME(text, ...) {PATH(__VA_ARGS__), TEXT(text), MANIFEST_RENAME}

#define MANIFEST "[package]\nname = 'a' # its name\n\n# what it needs\n[dependencies]\nlog = '0.4'\n"
#define CUT "a\xc3"
#define BYTES(text) text, sizeof(text) - 1

/* A text, edits of it, and the text that they make or the status with which they are refused. */
static const struct edits {
    const char *text;
    const struct manifest_edit *edits;
    size_t edits_length;
    int status;
    const char *wanted;
} EDITS_OF[] = {
    {MANIFEST, EDITS(SET("'b'", KEY("package"), KEY("name"))), 0,
     "[package]\nname = 'b' # its name\n\n# what it needs\n[dependencies]\nlog = '0.4'\n"},
    {MANIFEST,
     EDITS(RENAME("tracing", KEY("dependencies"), KEY("log")), INSERT("'2021'", KEY("package"), KEY("edition"))), 0,
     "[package]\nname = 'a' # its name\nedition = '2021'\n\n# what it needs\n[dependencies]\ntracing = '0.4'\n"},
    {MANIFEST, EDITS(REMOVE(KEY("dependencies"), KEY("log"))), 0,
     "[package]\nname = 'a' # its name\n\n# what it needs\n[dependencies]\n"},
    {"a = [1, 2]\n", EDITS(SET("3", KEY("a"), INDEX(1))), 0, "a = [1, 3]\n"},
    {"a = 1\n", NULL, 0, 0, "a = 1\n"},
    {"a = \n", EDITS(SET("2", KEY("a"))), MANIFEST_NO_TOML, NULL},
    {"a = 1\n", EDITS(SET("2 # x", KEY("a"))), MANIFEST_NOT_A_VALUE, ""},
    {"a = 1\n", EDITS(SET("2", KEY("b"))), MANIFEST_NO_PLACE, ""},
    {"a = [1]\n", EDITS(SET("2", KEY("a")), SET("3", KEY("a"), INDEX(0))), MANIFEST_OVERLAP, ""},
    {"a = 1\nb = 2\n", EDITS(RENAME("b", KEY("a"))), MANIFEST_NOT_EDITED, ""},
    {"a = 1\n", EDITS(SET(CUT, KEY("a"))), MANIFEST_NOT_TEXT, ""},
    {"a = 1\n", EDITS(REMOVE(KEY(CUT))), MANIFEST_NOT_TEXT, ""},
    {"\xff", EDITS(REMOVE(KEY("a"))), MANIFEST_NOT_UTF8, ""},
};

#define MEMBER "package.name = 'a'\npackage.version.workspace = true"
#define NEEDS "[package]\nname = 'a'\n[dependencies]\nb.workspace = true\n"
#define LINTS "[package]\nname = 'a'\n[lints]\nworkspace = true\n"

/* A member, a root, and the bytes of the refusals or the status. */
static const struct refusals {
    const char *member;
    const char *root;
    int status;
    const char *wanted;
    size_t length;
} REFUSALS_OF[] = {
    /* [[3, 'package', [[3, 'version', [[0, 10, 'version']]]]]], [[[], [19, 34], []]], [[[], [], [0, 11]]] */
    {MEMBER, "[workspace]", 0,
     BYTES("\7\3\7\1\7\3\2\3\1\7package\7\1\7\3\2\3\1\7version\7\1\7\3\2\0\2\12\1\7version"
           "\7\1\7\3\7\0\7\2\2\23\2\42\7\0" "\7\1\7\3\7\0\7\0\7\2\2\0\2\13")},
    /* [[3, 'dependencies', [[3, 'b', [[0, 11, 'b']]]]]], [[[], [36, 37], [21, 35]]], [[[], [25, 26], [0, 24]]] */
    {NEEDS, "[workspace.dependencies]\nb.workspace = true\n", 0,
     BYTES("\7\3\7\1\7\3\2\3\1\14dependencies\7\1\7\3\2\3\1\1b\7\1\7\3\2\0\2\13\1\1b"
           "\7\1\7\3\7\0\7\2\2\44\2\45\7\2\2\25\2\43" "\7\1\7\3\7\0\7\2\2\31\2\32\7\2\2\0\2\30")},
    /* [[3, 'lints', [[0, 13, '']]]], [[[], [], [21, 28]]], [[[], [], [0, 27]]] */
    {LINTS, "[workspace.lints.workspace]\n", 0,
     BYTES("\7\3\7\1\7\3\2\3\1\5lints\7\1\7\3\2\0\2\15\1\0"
           "\7\1\7\3\7\0\7\0\7\2\2\25\2\34" "\7\1\7\3\7\0\7\0\7\2\2\0\2\33")},
    {MEMBER, "workspace.package.version = '1.0.0'", 0, BYTES("\7\3\7\0\7\0\7\0")},
    {"[package]", "[workspace]", MANIFEST_SCHEMA, BYTES("package.name")},
    {MEMBER, "\xff", MANIFEST_ROOT_NOT_UTF8, BYTES("")},
    {MEMBER, "[package]\nname = 'b'\n", MANIFEST_NO_WORKSPACE, BYTES("")},
};

#define SOUND "[package]\nname = 'a'\nversion = '0.1.0'\nedition = '2021'\n"
#define BRACKETS "[[[[[[[[[[[[[[[["
#define DEEP BRACKETS BRACKETS BRACKETS BRACKETS BRACKETS BRACKETS BRACKETS BRACKETS BRACKETS
#define ALL(type, ...) {(const type[]){__VA_ARGS__}, COUNT_OF(type, __VA_ARGS__)}
#define FOLDERS_OF(...) .folders = ALL(struct manifest_folder, __VA_ARGS__), .has_folders = 1
#define MEMBERS_OF(...) .members = ALL(struct manifest_member, __VA_ARGS__), .has_members = 1
#define LED_BY(...) ALL(size_t, __VA_ARGS__)
#define PACKAGES_OF(...) .packages = ALL(struct manifest_package, __VA_ARGS__), .has_packages = 1
#define FOLDER(path, ...) {TEXT(path), ALL(struct manifest_bytes, __VA_ARGS__), MANIFEST_NO_FAULT}
#define FAULTY(path, fault) {TEXT(path), {NULL, 0}, fault}
#define READ SOUND "[[bin]]\nname = 'b'\npath = 'docs/b.rs'\n"
#define SOURCES FOLDER(".", TEXT("docs"), TEXT("src")), FOLDER("src", TEXT("lib.rs"))
#define TWICE "[workspace]\nmembers = ['a', './a']\nresolver = '2'\n"

/* What is asked of diagnostics, the status, and how the tagged bytes begin. (`most` is any number where it is 0.) */
static const struct checks {
    struct manifest_check_request request;
    int status;
    const char *wanted;
    size_t length;
} CHECKS_OF[] = {
    {{.bytes = TEXT(SOUND)}, 0, BYTES("\7\0")},
    /* [['wrong-kind', 0, ..], ..] */
    {{.bytes = TEXT("[package]\nname = 1\nversion = '0.1.0'\nedition = '2021'\n")}, 0,
     BYTES("\7\1\7\11\1\12wrong-kind\2\0")},
    {{.bytes = TEXT("a = \n")}, 0, BYTES("\7\1\7\11\1\14invalid-toml\2\0")},
    {{.bytes = TEXT("a = '\xff'")}, 0, BYTES("\7\1\7\11\1\10not-utf8\2\0")},
    {{.bytes = TEXT("a = " DEEP)}, 0, BYTES("\7\1\7\11\1\16nests-too-deep\2\0")},
    /* what is wrong around bytes that are no document is not looked at */
    {{.bytes = TEXT("a = \n"), .root = TEXT("\xff"), .has_root = MANIFEST_IS}, 0, BYTES("\7\1\7\11\1\14invalid-toml\2\0")},
    {{.bytes = TEXT(SOUND), .root = TEXT("[workspace]\n"), .has_root = MANIFEST_IS, .is_listed = MANIFEST_IS}, 0, BYTES("\7\0")},
    {{.bytes = TEXT(SOUND), .root = TEXT("[workspace]\n"), .has_root = MANIFEST_IS, .is_listed = MANIFEST_IS_NOT}, 0,
     BYTES("\7\1\7\11\1\14not-a-member\2\0")},
    {{.bytes = TEXT(SOUND), .root = TEXT("\xff"), .has_root = MANIFEST_IS_NOT}, 0, BYTES("\7\0")},
    {{.bytes = TEXT(SOUND), .root = TEXT("\xff"), .has_root = MANIFEST_IS}, MANIFEST_ROOT_NOT_UTF8, BYTES("")},
    {{.bytes = TEXT(SOUND), .root = TEXT("[workspace"), .has_root = MANIFEST_IS}, MANIFEST_ROOT_NO_TOML, NULL, 0},
    {{.bytes = TEXT(SOUND), .root = TEXT("a = " DEEP), .has_root = MANIFEST_IS}, MANIFEST_ROOT_TOO_DEEP, BYTES("")},
    {{.bytes = TEXT(SOUND), .config = TEXT("a = "), .has_config = 1}, MANIFEST_CONFIGURATION, BYTES("")},
    {{.bytes = TEXT(SOUND), .config = TEXT("\xff"), .has_config = 255}, MANIFEST_CONFIGURATION, BYTES("")},
    {{.bytes = TEXT(SOUND), .config = TEXT("a = ")}, 0, BYTES("\7\0")},
    {{.bytes = TEXT(SOUND), FOLDERS_OF(FOLDER("src", TEXT("lib.rs")), FOLDER(".", TEXT("src")))}, 0, BYTES("\7\0")},
    {{.bytes = TEXT(SOUND), FOLDERS_OF(FOLDER(".", TEXT("README.md")))}, 0, BYTES("\7\1\7\11\1\12no-targets\2\0")},
    {{.bytes = TEXT(SOUND), FOLDERS_OF(FOLDER("src", TEXT("b"), TEXT("a")))}, MANIFEST_LISTINGS, BYTES("")},
    /* a folder that is not passed in is not there, and neither is one that is not found; of one with another fault nothing is
       known */
    {{.bytes = TEXT(READ), FOLDERS_OF(SOURCES)}, 0, BYTES("\7\1\7\11\1\21wrong-target-path\2\0")},
    {{.bytes = TEXT(READ), FOLDERS_OF(SOURCES, FAULTY("docs", MANIFEST_NOT_FOUND))}, 0,
     BYTES("\7\1\7\11\1\21wrong-target-path\2\0")},
    {{.bytes = TEXT(READ), FOLDERS_OF(SOURCES, FAULTY("docs", MANIFEST_OTHER_FAULT))}, 0, BYTES("\7\0")},
    {{.bytes = TEXT(READ), FOLDERS_OF(SOURCES, FAULTY("docs", 255))}, 0, BYTES("\7\0")},
    /* each pattern has to lead to a member, and several may lead to one; none leads to what a dependency leads to */
    {{.bytes = TEXT(TWICE), MEMBERS_OF({TEXT("a"), TEXT(SOUND), LED_BY(0, 1), 1})}, 0, BYTES("\7\0")},
    {{.bytes = TEXT(TWICE), MEMBERS_OF({TEXT("a"), TEXT(SOUND), LED_BY(0), 1})}, 0,
     BYTES("\7\1\7\11\1\16missing-member\2\0")},
    {{.bytes = TEXT(TWICE), MEMBERS_OF({TEXT("a"), TEXT(SOUND), {NULL, 0}, 1})}, 0,
     BYTES("\7\2\7\11\1\16missing-member\2\0")},
    {{.bytes = TEXT(TWICE), MEMBERS_OF({TEXT("a"), TEXT(""), LED_BY(0, 1), 0})}, 0,
     BYTES("\7\2\7\11\1\16missing-member\2\0")},
    {{.bytes = TEXT(TWICE), MEMBERS_OF({TEXT(CUT), TEXT(SOUND), LED_BY(0, 1), 1})}, MANIFEST_NOT_TEXT, BYTES("")},
    /* what is passed in as the root of a root is not looked at */
    {{.bytes = TEXT(TWICE), .root = TEXT("\xff"), .has_root = MANIFEST_IS}, 0, BYTES("\7\0")},
    {{.bytes = TEXT(TWICE), .root = TEXT("[workspace"), .has_root = MANIFEST_IS}, 0, BYTES("\7\0")},
    {{.bytes = TEXT(SOUND), PACKAGES_OF({TEXT("b"), TEXT(CUT), 0})}, MANIFEST_NOT_TEXT, BYTES("")},
    /* of two refusals the first is reported: the root, the configuration, the folders, the members, the packages */
    {{.bytes = TEXT(SOUND), .root = TEXT("\xff"), .has_root = MANIFEST_IS, .config = TEXT("a = "), .has_config = 1},
     MANIFEST_ROOT_NOT_UTF8, BYTES("")},
    {{.bytes = TEXT(SOUND), .config = TEXT("a = "), .has_config = 1, FOLDERS_OF(FOLDER("src", TEXT("b"), TEXT("a")))},
     MANIFEST_CONFIGURATION, BYTES("")},
    {{.bytes = TEXT(SOUND), FOLDERS_OF(FOLDER("src", TEXT("b"), TEXT("a"))), MEMBERS_OF({TEXT(CUT), TEXT(SOUND), LED_BY(0), 1})},
     MANIFEST_LISTINGS, BYTES("")},
    {{.bytes = TEXT(SOUND), .most = 2}, 0, BYTES("\7\0")},
    {{.bytes = TEXT(SOUND), .most = 1}, MANIFEST_TOO_LONG, BYTES("")},
};

static int passed, failed;

static void count(int is_right, const char *what, size_t number)
{
    if (is_right) {
        passed++;
    } else {
        failed++;
        printf("%s %zu: wrong\n", what, number);
    }
}

/* Whether the answer is this status with these bytes, or, where there are none, with any. */
static int is_answer(struct manifest_answer answer, const uint8_t *out, int status, const char *wanted, size_t length)
{
    if (answer.status != status || answer.cause != 0)
        return 0;
    return !wanted || (answer.length == length && !memcmp(out, wanted, length));
}

/* The refusals of each row, which may have a cause. */
static void try_refusals(void)
{
    uint8_t out[256];
    for (size_t i = 0; i < sizeof REFUSALS_OF / sizeof *REFUSALS_OF; i++) {
        const struct refusals *row = &REFUSALS_OF[i];
        struct manifest_answer answer = manifest_placed_refusals((const uint8_t *)row->member, strlen(row->member),
                                                                 (const uint8_t *)row->root, strlen(row->root), SIZE_MAX,
                                                                 out, sizeof out);
        answer.cause = 0;
        count(is_answer(answer, out, row->status, row->wanted, row->length), "refusals", i + 1);
    }
}

/* The diagnostics of each row: the tagged bytes begin as they should, and those of none are no more. */
static void try_diagnostics(void)
{
    uint8_t out[4096];
    for (size_t i = 0; i < sizeof CHECKS_OF / sizeof *CHECKS_OF; i++) {
        const struct checks *row = &CHECKS_OF[i];
        struct manifest_check_request request = row->request;
        request.most = request.most ? request.most : SIZE_MAX;
        struct manifest_answer answer = manifest_diagnostics(request, out, sizeof out);
        if (row->length > 2 && answer.length > row->length)
            answer.length = row->length;
        count(is_answer(answer, out, row->status, row->wanted, row->length), "diagnostics", i + 1);
    }
}

#define HAS(answer, text) is_answer(answer, out, MANIFEST_ACCEPTED, text, sizeof(text) - 1)

int main(void)
{
    uint8_t out[4096];
    for (size_t i = 0; i < sizeof EDITS_OF / sizeof *EDITS_OF; i++) {
        const struct edits *row = &EDITS_OF[i];
        struct manifest_answer answer = manifest_edited((const uint8_t *)row->text, strlen(row->text), row->edits,
                                                        row->edits_length, 0, SIZE_MAX, out, sizeof out);
        count(is_answer(answer, out, row->status, row->wanted, row->wanted ? strlen(row->wanted) : 0), "edits", i + 1);
    }
    const struct manifest_edit set[] = {SET("300", KEY("a"))};
    const uint8_t *one = (const uint8_t *)"a = 1 # one";
    /* [[4, 5, '300']] */
    count(HAS(manifest_edited(one, 11, set, 1, 1, SIZE_MAX, out, sizeof out), "\7\1\7\3\2\4\2\5\1\3" "300"), "replaced", 1);
    count(HAS(manifest_edited(one, 11, set, 1, 0, 13, out, sizeof out), "a = 300 # one"), "most", 1);
    count(manifest_edited(one, 11, set, 1, 0, 12, out, sizeof out).status == MANIFEST_TOO_LONG, "most", 2);
    count(manifest_edited(one, 11, set, 1, 0, SIZE_MAX, NULL, 0).length == 13, "room", 1);

    /* [[[3, 'name', [[0, 1]]]], [[[7, 8], [0, 4], []]]] */
    count(HAS(manifest_placed_findings((const uint8_t *)"name = 1", 8, SIZE_MAX, out, sizeof out),
              "\7\2\7\1\7\3\2\3\1\4name\7\1\7\2\2\0\2\1\7\1\7\3\7\2\2\7\2\10\7\2\2\0\2\4\7\0"), "placed", 1);
    count(HAS(manifest_placed_findings((const uint8_t *)"name = 'a'", 10, SIZE_MAX, out, sizeof out), "\7\2\7\0\7\0"),
          "placed", 2);

    try_refusals();
    try_diagnostics();

    const uint8_t *library = (const uint8_t *)"package.name = 'a'\n\nlib = {}";
    const struct manifest_bytes names[] = {TEXT("lib.rs")};
    const struct manifest_folder sources[] = {{TEXT("src"), {names, 1}, MANIFEST_NO_FAULT}};
    const struct manifest_folder faulty[] = {{TEXT("src"), {NULL, 0}, MANIFEST_OTHER_FAULT}};
    /* [[['lib']], [[[26, 28], [20, 23], []]]] */
    count(HAS(manifest_placed_unfound_targets(library, 28, NULL, 0, SIZE_MAX, out, sizeof out),
              "\7\2\7\1\7\1\1\3lib\7\1\7\3\7\2\2\32\2\34\7\2\2\24\2\27\7\0"), "unfound", 1);
    count(HAS(manifest_placed_unfound_targets(library, 28, sources, 1, SIZE_MAX, out, sizeof out), "\7\2\7\0\7\0"),
          "unfound", 2);
    count(manifest_placed_unfound_targets(library, 28, faulty, 1, SIZE_MAX, out, sizeof out).status == MANIFEST_IO,
          "unfound", 3);
    count(manifest_placed_unfound_targets(library, 28, NULL, 0, 8, out, sizeof out).status == MANIFEST_TOO_LONG, "unfound", 4);

    const size_t offsets[] = {4, 6, 9};
    const uint8_t *lines = (const uint8_t *)"a = 1\n\xc3\xa9 = 2";
    /* [[1, 4, 4, 4], [2, 0, 0, 0], [2, 3, 2, 2]] */
    count(HAS(manifest_positions(lines, 12, offsets, 3, SIZE_MAX, out, sizeof out),
              "\7\3\7\4\2\1\2\4\2\4\2\4\7\4\2\2\2\0\2\0\2\0\7\4\2\2\2\3\2\2\2\2"), "positions", 1);
    count(manifest_positions(lines, 8, offsets, 3, SIZE_MAX, out, sizeof out).status == MANIFEST_OFFSETS, "positions", 2);
    const size_t back[] = {6, 4};
    count(manifest_positions(lines, 12, back, 2, SIZE_MAX, out, sizeof out).status == MANIFEST_OFFSETS, "positions", 3);
    printf("%d passed, %d failed\n", passed, failed);
    return failed != 0;
}
