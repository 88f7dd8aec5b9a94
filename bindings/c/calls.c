/* Calls the library as a program in C does, alone and from four threads, and compares each answer with the one that is
   written here. With the word `layout` it prints how the declarations of the header lie in memory. */
#include "cargo_manifest.h"

#include <pthread.h>
#include <stdio.h>
#include <stdlib.h>
#include <string.h>

enum which {
    CANONICAL, COMPLETED, RESOLVED, RESOLVED_COMPLETED, TABLE, COMPLETED_TABLE, RESOLVED_TABLE, RESOLVED_COMPLETED_TABLE,
    TABLE_WITHOUT_METADATA, DOCUMENT, FINDINGS, CANONICAL_OF_TABLE, COMPLETED_OF_TABLE, RESOLVED_OF_TABLES,
    COMPLETED_TEXT_OF_TABLE, ALL_OF_TABLES
};

/* A call, and its answer. For bytes, a root or folders that are null a null pointer and the length 0 are passed. */
struct call {
    enum which which;
    const char *bytes;
    const char *root;
    const struct manifest_folder *folders;
    size_t folders_length;
    int status;
    int cause;
    size_t start;
    const char *text;   /* or null, for `toml`'s words */
    size_t text_length; /* or 0, where a zero byte ends the text */
};

#define COUNT_OF(type, ...) (sizeof((const type[]){__VA_ARGS__}) / sizeof(type))
#define TEXT(text) {(const uint8_t *)(text), sizeof(text) - 1}
#define NOTHING {NULL, 0}
#define NAMES(...) {(const struct manifest_bytes[]){__VA_ARGS__}, COUNT_OF(struct manifest_bytes, __VA_ARGS__)}
#define FOLDERS(...) \
    .folders = (const struct manifest_folder[]){__VA_ARGS__}, .folders_length = COUNT_OF(struct manifest_folder, __VA_ARGS__)

#define HERE {TEXT("."), NOTHING, MANIFEST_NO_FAULT}
#define SOURCES {TEXT("src"), NAMES(TEXT("lib.rs"), TEXT("other.rs")), MANIFEST_NO_FAULT}
#define FAULTY {TEXT("src"), NOTHING, MANIFEST_OTHER_FAULT}
#define TOOL {TEXT("src/bin"), NAMES(TEXT("tool")), MANIFEST_NO_FAULT}
#define ONE_NAME(text) {TEXT("src"), NAMES(TEXT(text)), MANIFEST_NO_FAULT}
#define TWO_NAMES(one, other) {TEXT("src"), NAMES(one, other), MANIFEST_NO_FAULT}

#define NAME "[package]\nname = 'p-q'\n"
#define OWN NAME "edition = '2021'\n"
#define MEMBER OWN "version.workspace = true\n"
#define ROOT "[workspace.package]\nversion = '2.0.0'\n"
#define LINTS NAME "[lints]\nworkspace = true\n"
#define CUT "a\xc3"

#define PACKAGE "[package]\nedition = \"2021\"\nname = \"p-q\"\n"
#define LIBRARY                                                                                                         \
    "[lib]\ncrate-type = [\"lib\"]\nedition = \"2021\"\nname = \"p_q\"\npath = \"src/lib.rs\"\nrequired-features = []\n\n"
#define VERSION "version = \"2.0.0\"\n"
#define MISSED "can't find library, rename file to `src/lib.rs` or specify lib.path"

static const struct call READINGS[] = {
    {CANONICAL, .bytes = NAME "version = '1.0.0'", .text = "[package]\nname = \"p-q\"\nversion = \"1.0.0\"\n"},
    {CANONICAL, .bytes = "", .status = MANIFEST_SCHEMA, .cause = MANIFEST_MISSING, .text = "name"},
    {CANONICAL, .bytes = "\xff", .status = MANIFEST_NOT_UTF8, .text = ""},
    {CANONICAL, .bytes = "[package\nname = 'p'", .status = MANIFEST_NO_TOML, .start = 8},
    {CANONICAL, .bytes = NAME "authors = [true]", .status = MANIFEST_SCHEMA, .cause = MANIFEST_WRONG_KIND,
     .text = "package.authors[0]"},
    {CANONICAL, .bytes = NAME "[target.'cfg(unix)'.dependencies]\nb = 1", .status = MANIFEST_SCHEMA,
     .cause = MANIFEST_WRONG_KIND, .text = "target.\"cfg(unix)\".dependencies.b"},
    {CANONICAL, .bytes = NAME "[dependencies]\na = {default-features = true, default_features = true}",
     .status = MANIFEST_SCHEMA, .cause = MANIFEST_TWO_SPELLINGS, .text = "dependencies.a.default-features"},
    {CANONICAL, .bytes = NAME "edition = '1999'", .status = MANIFEST_SCHEMA, .cause = MANIFEST_NOT_A_CHOICE,
     .text = "package.edition"},
    {CANONICAL, .bytes = NAME "[profile.release]\ncodegen-units = 65536", .status = MANIFEST_SCHEMA,
     .cause = MANIFEST_OUT_OF_RANGE, .text = "profile.release.codegen-units"},
    {CANONICAL, .bytes = NAME "[lints]\nworkspace = false", .status = MANIFEST_SCHEMA, .cause = MANIFEST_NOT_TRUE,
     .text = "lints.workspace"},
    {CANONICAL, .bytes = NAME "[package.metadata]\na = [0, 1.5]", .status = MANIFEST_SCHEMA,
     .cause = MANIFEST_HOLDS_FLOAT, .text = "package.metadata.a[1]"},
    {TABLE, .bytes = "[package]\nname = 'a'\nautobins = false",
     .text = "\x08\x01\x07package\x08\x02\x08" "autobins\x04\x04name\x01\x01" "a"},
    {TABLE, .bytes = "[package]", .status = MANIFEST_SCHEMA, .cause = MANIFEST_MISSING, .text = "package.name"},
};

static const struct call COMPLETIONS[] = {
    {COMPLETED, .bytes = OWN, FOLDERS(SOURCES, HERE), .text = LIBRARY PACKAGE},
    {COMPLETED, .bytes = OWN, FOLDERS(HERE), .text = PACKAGE},
    {COMPLETED, .bytes = OWN, FOLDERS({TEXT("."), NAMES(TEXT("build.rs")), 0}),
     .text = "[package]\nbuild = \"build.rs\"\nedition = \"2021\"\nname = \"p-q\"\n"},
    {COMPLETED, .bytes = MEMBER, FOLDERS(HERE), .text = PACKAGE "\n[package.version]\nworkspace = true\n"},
    {COMPLETED, .bytes = OWN, FOLDERS(SOURCES, HERE, {TEXT("not/asked"), NAMES(TEXT("x")), MANIFEST_OUT_OF_MEMORY}),
     .text = LIBRARY PACKAGE},
    {COMPLETED, .bytes = OWN, FOLDERS(HERE, TOOL, {TEXT("src/bin/tool"), NOTHING, MANIFEST_OTHER_FAULT}), .text = PACKAGE},
    {COMPLETED, .bytes = OWN, FOLDERS(HERE, {TEXT("src"), NAMES(TEXT("lib.rs")), MANIFEST_NOT_FOUND}), .text = PACKAGE},
    {COMPLETED, .bytes = OWN, FOLDERS(SOURCES), .status = MANIFEST_IO, .cause = MANIFEST_NOT_FOUND, .text = ""},
    {COMPLETED, .bytes = OWN, FOLDERS(HERE, TOOL, {TEXT("src/bin/tool"), NOTHING, MANIFEST_OUT_OF_MEMORY}),
     .status = MANIFEST_IO, .cause = MANIFEST_OUT_OF_MEMORY, .text = ""},
    {COMPLETED, .bytes = OWN, FOLDERS(HERE, FAULTY), .status = MANIFEST_IO, .cause = MANIFEST_OTHER_FAULT, .text = ""},
    {COMPLETED, .bytes = OWN, FOLDERS(HERE, {TEXT("src"), NAMES(TEXT("lib.rs")), 255}), .status = MANIFEST_IO,
     .cause = MANIFEST_OTHER_FAULT, .text = ""},
    {COMPLETED, .bytes = OWN "[lib]", FOLDERS(HERE), .status = MANIFEST_OTHER, .text = MISSED},
    {COMPLETED, .bytes = OWN, FOLDERS(HERE, SOURCES, HERE), .status = MANIFEST_LISTINGS, .text = ""},
    {COMPLETED, .bytes = OWN, FOLDERS(HERE, TWO_NAMES(TEXT("b"), TEXT("a"))), .status = MANIFEST_LISTINGS, .text = ""},
    {COMPLETED, .bytes = OWN, FOLDERS(HERE, TWO_NAMES(TEXT("a"), TEXT("a"))), .status = MANIFEST_LISTINGS, .text = ""},
    {COMPLETED, .bytes = OWN, FOLDERS(HERE, ONE_NAME(CUT)), .status = MANIFEST_LISTINGS, .text = ""},
    {COMPLETED, .bytes = OWN, FOLDERS(HERE, {TEXT("x"), NAMES(TEXT(CUT)), 1}), .status = MANIFEST_LISTINGS, .text = ""},
    {COMPLETED, .bytes = OWN, FOLDERS(HERE, {TEXT(CUT), NOTHING, 0}), .status = MANIFEST_LISTINGS, .text = ""},
};

static const struct call RESOLVINGS[] = {
    {RESOLVED, .bytes = MEMBER, .root = ROOT, .text = PACKAGE VERSION},
    {RESOLVED_COMPLETED, .bytes = MEMBER, .root = ROOT, FOLDERS(SOURCES, HERE), .text = LIBRARY PACKAGE VERSION},
    {RESOLVED, .bytes = OWN, .root = ROOT, .text = PACKAGE},
    {RESOLVED, .bytes = OWN, .root = OWN, .status = MANIFEST_NO_WORKSPACE, .text = ""},
    {RESOLVED, .bytes = MEMBER, .root = "[workspace]", .status = MANIFEST_NOT_IN_WORKSPACE, .text = "version"},
    {RESOLVED, .bytes = NAME "[dependencies]\n'a.b'.workspace = true", .root = ROOT,
     .status = MANIFEST_NOT_IN_WORKSPACE, .text = "a.b"},
    {RESOLVED, .bytes = LINTS, .root = ROOT, .status = MANIFEST_NOT_IN_WORKSPACE, .text = "lints"},
    {RESOLVED, .bytes = NAME "[dependencies]\na.workspace = true",
     .root = "[workspace.dependencies]\na.workspace = true", .status = MANIFEST_INHERITED_IN_WORKSPACE, .text = "a"},
    {RESOLVED, .bytes = LINTS "rust.unsafe_code = 'forbid'", .root = "[workspace.lints.rust]\nunsafe_code = 'forbid'",
     .status = MANIFEST_MIXED_LINTS, .text = ""},
    {RESOLVED, .bytes = LINTS, .root = "[workspace.lints.workspace]\na = 'warn'",
     .status = MANIFEST_TOOL_NAMED_WORKSPACE, .text = ""},
    {RESOLVED, .bytes = MEMBER, .root = "[workspace", .status = MANIFEST_ROOT_NO_TOML, .start = 10},
    {RESOLVED, .bytes = MEMBER, .root = "", .status = MANIFEST_ROOT_SCHEMA, .cause = MANIFEST_MISSING, .text = "name"},
    {RESOLVED, .bytes = OWN, .root = "[workspace]\nmembers = 1", .status = MANIFEST_ROOT_SCHEMA,
     .cause = MANIFEST_WRONG_KIND, .text = "workspace.members"},
    {RESOLVED, .bytes = OWN, .root = CUT, .status = MANIFEST_ROOT_NOT_UTF8, .text = ""},
};

/* The tagged bytes, worked out by hand from their layout in the header. */
#define PACKAGE_TABLE "\x07package\x08\x02\x07" "edition\x01\x04" "2021\x04name\x01\x03p-q"
#define BUILT_TABLE                                                                                                     \
    "\x07package\x08\x03\x05" "build\x01\x08" "build.rs\x07" "edition\x01\x04" "2021\x04name\x01\x03p-q"
#define VERSIONED_TABLE                                                                                                 \
    "\x07package\x08\x03\x07" "edition\x01\x04" "2021\x04name\x01\x03p-q\x07version\x01\x05" "2.0.0"

static const struct call TABLES[] = {
    {COMPLETED_TABLE, .bytes = OWN, FOLDERS(HERE), .text = "\x08\x01" PACKAGE_TABLE},
    {COMPLETED_TABLE, .bytes = OWN, FOLDERS({TEXT("."), NAMES(TEXT("build.rs")), 0}), .text = "\x08\x01" BUILT_TABLE},
    {COMPLETED_TABLE, .bytes = OWN, FOLDERS(HERE, HERE), .status = MANIFEST_LISTINGS, .text = ""},
    {COMPLETED_TABLE, .bytes = OWN "[lib]", FOLDERS(HERE), .status = MANIFEST_OTHER, .text = MISSED},
    {COMPLETED_TABLE, .status = MANIFEST_SCHEMA, .cause = MANIFEST_MISSING, .text = "name"},
    {RESOLVED_TABLE, .bytes = MEMBER, .root = ROOT, .text = "\x08\x01" VERSIONED_TABLE},
    {RESOLVED_TABLE, .bytes = OWN, .root = OWN, .status = MANIFEST_NO_WORKSPACE, .text = ""},
    {RESOLVED_TABLE, .bytes = MEMBER, .status = MANIFEST_ROOT_SCHEMA, .cause = MANIFEST_MISSING, .text = "name"},
    {RESOLVED_COMPLETED_TABLE, .bytes = MEMBER, .root = ROOT, FOLDERS(HERE), .text = "\x08\x01" VERSIONED_TABLE},
    {RESOLVED_COMPLETED_TABLE, .bytes = MEMBER, .root = ROOT, .status = MANIFEST_IO, .cause = MANIFEST_NOT_FOUND,
     .text = ""},
};

/* An answer with zero bytes in it. */
#define BYTES(bytes) .text = (bytes), .text_length = sizeof(bytes) - 1
#define HALF "\x09\x80\x80\x80\x80\x80\x80\x80\xf0\x3f"
#define NOT_A_NUMBER "\x09\x80\x80\x80\x80\x80\x80\x80\xfc\x7f"
#define VERSIONS_TABLE "\x08\x01\x09workspace\x08\x01\x07package\x08\x01\x07version\x01\x05" "2.0.0"
/* a date-time whose month is 77 */
#define NO_DATE "\x06\x01\x4d\x01\x01\x01\x01\x01\x01\x01\x01\x01\x01\x01\x01"
#define MEMBER_TABLE                                                                                                    \
    "\x08\x01\x07package\x08\x03\x07" "edition\x01\x04" "2021\x04name\x01\x03p-q\x07version\x08\x01\x09workspace\x05"

/* Metadata that is not looked at, and documents whatever they mean. */
static const struct call UNREAD[] = {
    {TABLE_WITHOUT_METADATA, .bytes = NAME "[package.metadata]\na = [0, 1.5]",
     BYTES("\x08\x01\x07package\x08\x02\x08metadata\x08\x00\x04name\x01\x03p-q")},
    {TABLE_WITHOUT_METADATA, .bytes = "name = 'p-q'\nmetadata = 0.5",
     BYTES("\x08\x01\x07package\x08\x02\x08metadata\x08\x00\x04name\x01\x03p-q")},
    {TABLE_WITHOUT_METADATA, .bytes = "[workspace.metadata]\na = nan",
     BYTES("\x08\x01\x09workspace\x08\x02\x07members\x07\x00\x08metadata\x08\x00")},
    {TABLE_WITHOUT_METADATA, .bytes = NAME, .text = "\x08\x01\x07package\x08\x01\x04name\x01\x03p-q"},
    {TABLE_WITHOUT_METADATA, .bytes = NAME "authors = [true]", .status = MANIFEST_SCHEMA, .cause = MANIFEST_WRONG_KIND,
     .text = "package.authors[0]"},
    {TABLE_WITHOUT_METADATA, .bytes = NAME "[profile.dev]\nlto = 0.5", .status = MANIFEST_SCHEMA,
     .cause = MANIFEST_HOLDS_FLOAT, .text = "profile.dev.lto"},
    {TABLE_WITHOUT_METADATA, .bytes = "[package\nname = 'p'", .status = MANIFEST_NO_TOML, .start = 8},
    {DOCUMENT, .bytes = "x = 0.5\ny = nan", .text = "\x08\x02\x01x" HALF "\x01y" NOT_A_NUMBER},
    {DOCUMENT, .bytes = "edition = 1", .text = "\x08\x01\x07" "edition\x02\x01"},
    {DOCUMENT, .bytes = "\xff", .status = MANIFEST_NOT_UTF8, .text = ""},
    {DOCUMENT, .bytes = "[package\nname = 'p'", .status = MANIFEST_NO_TOML, .start = 8},
    {DOCUMENT, BYTES("\x08\x00")},
};

/* Parts of what is found, whose numbers are 0 to 8, and whose keys are written with their length before them. */
#define FAULT(cause) "\x07\x02\x02\x00\x02" cause
#define IGNORED(cause) "\x07\x02\x02\x01\x02" cause
#define NO_CHOICE(what, count) "\x07\x03\x02" what "\x02\x04\x07" count
#define UNUSED(key) "\x07\x02\x02\x02\x01" key
#define BELOW(key, count) "\x07\x03\x02\x03\x01" key "\x07" count
#define IN_ITEM(index, count) "\x07\x03\x02\x03\x02" index "\x07" count

/* What is found in documents. */
static const struct call FINDINGS_OF[] = {
    {FINDINGS, .bytes = NAME, BYTES("\x07\x00")},
    {FINDINGS, BYTES("\x07\x01" BELOW("\x04name", "\x01") FAULT("\x02"))},
    {FINDINGS, .bytes = "[package]\nname = 1\nedtion = '2021'",
     BYTES("\x07\x01" BELOW("\x07package", "\x02") BELOW("\x04name", "\x01") FAULT("\x01") UNUSED("\x06" "edtion"))},
    {FINDINGS, .bytes = NAME "authors = [true, 'a', 2]",
     BYTES("\x07\x01" BELOW("\x07package", "\x01") BELOW("\x07" "authors", "\x02") IN_ITEM("\x00", "\x01") FAULT("\x01")
           IN_ITEM("\x02", "\x01") FAULT("\x01"))},
    {FINDINGS, .bytes = NAME "resolver = '4'\n[lints.rust]\na = ''",
     BYTES("\x07\x02" BELOW("\x07package", "\x01") BELOW("\x08resolver", "\x01")
           NO_CHOICE("\x00", "\x03") "\x01\x01" "1\x01\x01" "2\x01\x01" "3"
           BELOW("\x05lints", "\x01") BELOW("\x04rust", "\x01") BELOW("\x01" "a", "\x01")
           NO_CHOICE("\x00", "\x04") "\x01\x06" "forbid\x01\x04" "deny\x01\x04warn\x01\x05" "allow")},
    {FINDINGS, .bytes = NAME "[badges]\ngitlab = 1\nx = 1",
     BYTES("\x07\x01" BELOW("\x06" "badges", "\x02") BELOW("\x06gitlab", "\x01") IGNORED("\x01") UNUSED("\x01x"))},
    {FINDINGS, .bytes = NAME "metadata = nan", BYTES("\x07\x00")},
    {FINDINGS, .bytes = NAME "[profile.a]\nlto = nan",
     BYTES("\x07\x01" BELOW("\x07profile", "\x01") BELOW("\x01" "a", "\x01") BELOW("\x03lto", "\x01") FAULT("\x07"))},
    {FINDINGS, .bytes = "\xff", .status = MANIFEST_NOT_UTF8, .text = ""},
    {FINDINGS, .bytes = "[package\nname = 'p'", .status = MANIFEST_NO_TOML, .start = 8},
};

/* Calls whose bytes are a tagged table. */
static const struct call OF_TABLES[] = {
    {CANONICAL_OF_TABLE, .bytes = "\x08\x01" PACKAGE_TABLE, .text = PACKAGE},
    {CANONICAL_OF_TABLE, .bytes = "\x08\x01\x04name\x01\x03p-q", .text = ""},
    {CANONICAL_OF_TABLE, .bytes = "\x08\x01\x07package\x08\x01\x04name\x05", .status = MANIFEST_SCHEMA,
     .cause = MANIFEST_WRONG_KIND, .text = "package.name"},
    {CANONICAL_OF_TABLE, .bytes = "\x08\x01\x07package\x08\x02\x08metadata" HALF "\x04name\x01\x03p-q",
     .status = MANIFEST_SCHEMA, .cause = MANIFEST_HOLDS_FLOAT, .text = "package.metadata"},
    {CANONICAL_OF_TABLE, .bytes = "\x08\x01\x07package\x08\x02\x08metadata" NO_DATE "\x04name\x01\x03p-q",
     .status = MANIFEST_DATE, .text = "a date-time of a kept value is not a valid date"},
    {CANONICAL_OF_TABLE, .bytes = "\x05", .status = MANIFEST_SCHEMA, .cause = MANIFEST_WRONG_KIND, .text = "(top)"},
    {CANONICAL_OF_TABLE, .status = MANIFEST_UNTAGGED, .text = ""},
    {CANONICAL_OF_TABLE, .bytes = NAME, .status = MANIFEST_UNTAGGED, .text = ""},
    {CANONICAL_OF_TABLE, .bytes = "\x08\x02" PACKAGE_TABLE, .status = MANIFEST_UNTAGGED, .text = ""},
    {CANONICAL_OF_TABLE, .bytes = "\x08\x01" PACKAGE_TABLE "\x05", .status = MANIFEST_UNTAGGED, .text = ""},
    {CANONICAL_OF_TABLE, .bytes = "\x08\x01\x07package\x08\x01\x04name\x01\x02" CUT, .status = MANIFEST_UNTAGGED, .text = ""},
    {CANONICAL_OF_TABLE, .bytes = "\x08\x02\x01" "b\x05\x01" "a\x05", .status = MANIFEST_UNTAGGED, .text = ""},
    {CANONICAL_OF_TABLE, .bytes = "\x08\x02\x01" "a\x05\x01" "a\x05", .status = MANIFEST_UNTAGGED, .text = ""},
    {CANONICAL_OF_TABLE, .bytes = "\x08\x81\x80\x80\x80\x80\x80\x80\x80\x80\x01", .status = MANIFEST_UNTAGGED, .text = ""},
    {CANONICAL_OF_TABLE, .bytes = "\x08\xff\xff\xff\xff\xff\xff\xff\xff\xff\x7f", .status = MANIFEST_UNTAGGED, .text = ""},
    {COMPLETED_OF_TABLE, .bytes = "\x08\x01" PACKAGE_TABLE, FOLDERS({TEXT("."), NAMES(TEXT("build.rs")), 0}),
     .text = "\x08\x01" BUILT_TABLE},
    {COMPLETED_OF_TABLE, .bytes = "\x08\x01" PACKAGE_TABLE, FOLDERS(HERE, HERE), .status = MANIFEST_LISTINGS, .text = ""},
    {COMPLETED_OF_TABLE, .bytes = OWN, FOLDERS(HERE), .status = MANIFEST_UNTAGGED, .text = ""},
    {COMPLETED_OF_TABLE, .bytes = "\x08\x01" PACKAGE_TABLE, FOLDERS(HERE, FAULTY), .status = MANIFEST_IO,
     .cause = MANIFEST_OTHER_FAULT, .text = ""},
    {RESOLVED_OF_TABLES, .bytes = MEMBER_TABLE, .root = VERSIONS_TABLE, .text = "\x08\x01" VERSIONED_TABLE},
    {RESOLVED_OF_TABLES, .bytes = MEMBER_TABLE, .root = MEMBER_TABLE, .status = MANIFEST_NO_WORKSPACE, .text = ""},
    {RESOLVED_OF_TABLES, .bytes = MEMBER_TABLE, .root = ROOT, .status = MANIFEST_ROOT_UNTAGGED, .text = ""},
    {RESOLVED_OF_TABLES, .bytes = MEMBER, .root = ROOT, .status = MANIFEST_UNTAGGED, .text = ""},
    {RESOLVED_OF_TABLES, .bytes = MEMBER_TABLE, .root = "\x05", .status = MANIFEST_ROOT_SCHEMA,
     .cause = MANIFEST_WRONG_KIND, .text = "(top)"},
    {COMPLETED_TEXT_OF_TABLE, .bytes = "\x08\x01" PACKAGE_TABLE, FOLDERS(SOURCES, HERE), .text = LIBRARY PACKAGE},
    {COMPLETED_TEXT_OF_TABLE, .bytes = OWN, FOLDERS(HERE), .status = MANIFEST_UNTAGGED, .text = ""},
    {ALL_OF_TABLES, .bytes = MEMBER_TABLE, .root = VERSIONS_TABLE, FOLDERS(HERE), .text = "\x08\x01" VERSIONED_TABLE},
    {ALL_OF_TABLES, .bytes = MEMBER_TABLE, .root = VERSIONS_TABLE, FOLDERS(HERE, FAULTY), .status = MANIFEST_IO,
     .cause = MANIFEST_OTHER_FAULT, .text = ""},
    {ALL_OF_TABLES, .bytes = MEMBER_TABLE, .root = ROOT, FOLDERS(HERE), .status = MANIFEST_ROOT_UNTAGGED, .text = ""},
};

/* A text, repeated a given number of times. */
#define TEN(text) text text text text text text text text text text
#define HUNDRED(text) TEN(TEN(text))
#define TIMES_15(text) TEN(text) text text text text text
#define TIMES_21(text) TEN(text) TEN(text) text
#define TIMES_29(text) TEN(text) TEN(text) text text text text text text text text text
#define TIMES_48(text) TEN(text) TEN(text) TEN(text) TEN(text) text text text text text text text text
#define TIMES_79(text) TIMES_48(text) TIMES_29(text) text text
#define TIMES_128(text) HUNDRED(text) TEN(text) TEN(text) text text text text text text text text
#define TIMES_510(text) HUNDRED(text) HUNDRED(text) HUNDRED(text) HUNDRED(text) HUNDRED(text) TEN(text)

/* The beginning of a table of one key, whose value stands after it, and that of an array of one value. */
#define KEY "\x08\x01\x01k"
#define ITEM "\x07\x01"
/* A text with 128 tables in one another in its whole table, if one part of a key more is not put in. */
#define DEEP(more) "[k" TIMES_79(".k") "]\nk" TIMES_48(".k") more " = true"
/* A text with tables in one another by the dots of a key, and arrays by brackets. */
#define BOTH(more_dots, more_brackets, closing) \
    "k" TIMES_15(".k") more_dots " = " more_brackets TIMES_21("[") "true" TIMES_21("]") closing
/* A text with 112 parts of a header of an array of tables and of dots, if none more is put in. */
#define ARRAY(more) "[[k" TIMES_79(".k") "]]\nk" TIMES_15(".k") TIMES_15(".k") ".k.k" more " = true"
#define BRACKETS "k = " TIMES_510("[")

/* What nests as deep as it may, and deeper. */
static const struct call DEPTHS[] = {
    {DOCUMENT, .bytes = DEEP(""), .text = TIMES_128(KEY) KEY "\x05"},
    {DOCUMENT, .bytes = DEEP(".k"), .status = MANIFEST_TOO_DEEP, .text = ""},
    {CANONICAL, .bytes = OWN DEEP(""), .text = PACKAGE},
    {CANONICAL, .bytes = OWN DEEP(".k"), .status = MANIFEST_TOO_DEEP, .text = ""},
    {COMPLETED, .bytes = OWN DEEP(".k"), FOLDERS(HERE), .status = MANIFEST_TOO_DEEP, .text = ""},
    {RESOLVED, .bytes = OWN, .root = ROOT DEEP(""), .text = PACKAGE},
    {RESOLVED, .bytes = OWN, .root = ROOT DEEP(".k"), .status = MANIFEST_ROOT_TOO_DEEP, .text = ""},
    {CANONICAL_OF_TABLE, .bytes = TIMES_128(KEY) KEY "\x05", .text = ""},
    {CANONICAL_OF_TABLE, .bytes = TIMES_128(KEY) KEY KEY "\x05", .status = MANIFEST_TOO_DEEP, .text = ""},
    {CANONICAL_OF_TABLE, .bytes = TIMES_128(KEY) ITEM "\x05", .text = ""},
    {CANONICAL_OF_TABLE, .bytes = TIMES_128(KEY) ITEM ITEM "\x05", .status = MANIFEST_TOO_DEEP, .text = ""},
    {COMPLETED_OF_TABLE, .bytes = TIMES_128(KEY) KEY KEY "\x05", FOLDERS(HERE), .status = MANIFEST_TOO_DEEP, .text = ""},
    {RESOLVED_OF_TABLES, .bytes = MEMBER_TABLE, .root = TIMES_128(KEY) KEY KEY "\x05", .status = MANIFEST_ROOT_TOO_DEEP,
     .text = ""},
    {DOCUMENT, .bytes = BOTH("", "", ""), .text = KEY TIMES_15(KEY) TIMES_21(ITEM) "\x05"},
    /* (each level is counted once, wherever its dot or bracket stands) */
    {DOCUMENT, .bytes = BOTH(".k", "", ""), .text = KEY TIMES_15(KEY) KEY TIMES_21(ITEM) "\x05"},
    {DOCUMENT, .bytes = BOTH("", "[", "]"), .text = KEY TIMES_15(KEY) TIMES_21(ITEM) ITEM "\x05"},
    {DOCUMENT, .bytes = "[k" TIMES_15(".k") ".k]\nk = " TIMES_21("[") "true" TIMES_21("]"),
     .text = KEY TIMES_15(KEY) KEY KEY TIMES_21(ITEM) "\x05"},
    {DOCUMENT, .bytes = ARRAY(""), .text = TIMES_79(KEY) KEY ITEM TIMES_15(KEY) TIMES_15(KEY) KEY KEY KEY "\x05"},
    {DOCUMENT, .bytes = ARRAY(".k"), .status = MANIFEST_TOO_DEEP, .text = ""},
    {DOCUMENT, .bytes = "k" TIMES_128(".k") ".k = true", .status = MANIFEST_TOO_DEEP, .text = ""},
    {DOCUMENT, .bytes = BRACKETS, .status = MANIFEST_TOO_DEEP, .text = ""},
    {FINDINGS, .bytes = OWN DEEP(""), BYTES("\x07\x01" UNUSED("\x01k"))},
    {FINDINGS, .bytes = OWN DEEP(".k"), .status = MANIFEST_TOO_DEEP, .text = ""},
    {FINDINGS, .bytes = BRACKETS, .status = MANIFEST_TOO_DEEP, .text = ""},
    {TABLE, .bytes = OWN BRACKETS, .status = MANIFEST_TOO_DEEP, .text = ""},
    {RESOLVED_TABLE, .bytes = OWN, .root = BRACKETS, .status = MANIFEST_ROOT_TOO_DEEP, .text = ""},
    {DOCUMENT, .bytes = "k = '" TIMES_510("[") "' # " TIMES_510("["), .text = KEY "\x01\xfe\x03" TIMES_510("[")},
    {DOCUMENT, .bytes = "k = \"\\\"" TIMES_510(".") "\"", .text = KEY "\x01\xff\x03\"" TIMES_510(".")},
};

/* Of two steps that refuse, the one that goes before the other is reported. */
static const struct call ORDERS[] = {
    {COMPLETED, .bytes = CUT, FOLDERS(HERE, HERE), .status = MANIFEST_LISTINGS, .text = ""},
    {RESOLVED_COMPLETED, .bytes = OWN, .root = CUT, FOLDERS(HERE, HERE), .status = MANIFEST_LISTINGS, .text = ""},
    {COMPLETED, .bytes = BRACKETS, FOLDERS(HERE, HERE), .status = MANIFEST_LISTINGS, .text = ""},
    {CANONICAL, .bytes = BRACKETS CUT, .status = MANIFEST_NOT_UTF8, .text = ""},
    {CANONICAL, .bytes = "edition = 1\n" DEEP(".k"), .status = MANIFEST_TOO_DEEP, .text = ""},
    {RESOLVED, .bytes = BRACKETS, .root = BRACKETS, .status = MANIFEST_TOO_DEEP, .text = ""},
    {RESOLVED, .bytes = CUT, .root = BRACKETS, .status = MANIFEST_NOT_UTF8, .text = ""},
    {RESOLVED, .bytes = BRACKETS, .root = CUT, .status = MANIFEST_TOO_DEEP, .text = ""},
    {RESOLVED, .bytes = OWN, .root = BRACKETS CUT, .status = MANIFEST_ROOT_NOT_UTF8, .text = ""},
    {RESOLVED_COMPLETED, .bytes = OWN, .root = DEEP(".k"), FOLDERS(HERE, FAULTY), .status = MANIFEST_ROOT_TOO_DEEP,
     .text = ""},
    {RESOLVED, .bytes = CUT, .root = "\xff", .status = MANIFEST_NOT_UTF8, .text = ""},
    {COMPLETED, .bytes = CUT, FOLDERS(HERE, FAULTY), .status = MANIFEST_NOT_UTF8, .text = ""},
    {RESOLVED_COMPLETED, .bytes = OWN, .root = CUT, FOLDERS(HERE, FAULTY), .status = MANIFEST_ROOT_NOT_UTF8, .text = ""},
    {RESOLVED_COMPLETED, .bytes = MEMBER, .root = OWN, FOLDERS(HERE, FAULTY), .status = MANIFEST_NO_WORKSPACE, .text = ""},
    {RESOLVED_COMPLETED, .bytes = MEMBER, .root = "[workspace]", FOLDERS(HERE, FAULTY),
     .status = MANIFEST_NOT_IN_WORKSPACE, .text = "version"},
    {COMPLETED, .bytes = OWN "[lib]", FOLDERS(HERE, FAULTY), .status = MANIFEST_IO, .cause = MANIFEST_OTHER_FAULT,
     .text = ""},
    {COMPLETED, .bytes = OWN "[lib]", FOLDERS(SOURCES, {TEXT("."), NOTHING, MANIFEST_OTHER_FAULT}),
     .status = MANIFEST_IO, .cause = MANIFEST_OTHER_FAULT, .text = ""},
};

/* Null pointers of length 0, for each slice there is. (Those for `out` are in each call that is tried.) */
static const struct call NULLS[] = {
    {CANONICAL, .status = MANIFEST_SCHEMA, .cause = MANIFEST_MISSING, .text = "name"},
    {TABLE, .status = MANIFEST_SCHEMA, .cause = MANIFEST_MISSING, .text = "name"},
    {COMPLETED, .status = MANIFEST_SCHEMA, .cause = MANIFEST_MISSING, .text = "name"},
    {COMPLETED, .bytes = OWN, .status = MANIFEST_IO, .cause = MANIFEST_NOT_FOUND, .text = ""},
    {COMPLETED, .bytes = "[workspace]", .text = "[workspace]\nmembers = []\n"},
    {RESOLVED, .status = MANIFEST_SCHEMA, .cause = MANIFEST_MISSING, .text = "name"},
    {RESOLVED, .bytes = MEMBER, .status = MANIFEST_ROOT_SCHEMA, .cause = MANIFEST_MISSING, .text = "name"},
    {RESOLVED_COMPLETED, .status = MANIFEST_SCHEMA, .cause = MANIFEST_MISSING, .text = "name"},
    {RESOLVED_COMPLETED, .bytes = MEMBER, .status = MANIFEST_ROOT_SCHEMA, .cause = MANIFEST_MISSING, .text = "name"},
    {RESOLVED_COMPLETED, .bytes = MEMBER, .root = ROOT, .status = MANIFEST_IO, .cause = MANIFEST_NOT_FOUND, .text = ""},
    {COMPLETED, .bytes = OWN, FOLDERS(SOURCES, {NOTHING, NAMES(TEXT("x")), 0}, HERE), .text = LIBRARY PACKAGE},
    {COMPLETED, .bytes = OWN, FOLDERS(HERE, {NOTHING, NOTHING, 0}, {TEXT(""), NOTHING, 0}),
     .status = MANIFEST_LISTINGS, .text = ""},
    {COMPLETED, .bytes = OWN, FOLDERS(HERE, TWO_NAMES(NOTHING, TEXT("lib.rs")), {TEXT("src/bin"), NAMES(NOTHING), 0}),
     .text = LIBRARY PACKAGE},
    {COMPLETED, .bytes = OWN,
     FOLDERS(HERE, {TEXT("src/bin"), NAMES(NOTHING), 0}, {TEXT("src/bin/"), NAMES(TEXT("main.rs")), 0}),
     .text = "[[bin]]\nedition = \"2021\"\nname = \"\"\npath = \"src/bin//main.rs\"\nrequired-features = []\n\n" PACKAGE},
    {COMPLETED, .bytes = OWN, FOLDERS(HERE, TWO_NAMES(TEXT("lib.rs"), NOTHING)), .status = MANIFEST_LISTINGS, .text = ""},
    {COMPLETED, .bytes = OWN, FOLDERS(HERE, TWO_NAMES(NOTHING, NOTHING)), .status = MANIFEST_LISTINGS, .text = ""},
    {COMPLETED, .bytes = OWN, FOLDERS(HERE, TWO_NAMES(NOTHING, TEXT(""))), .status = MANIFEST_LISTINGS, .text = ""},
};

#define GROUP(calls) {#calls, calls, sizeof(calls) / sizeof(calls)[0]}

static const struct group {
    const char *name;
    const struct call *calls;
    size_t length;
} GROUPS[] = {GROUP(READINGS), GROUP(COMPLETIONS), GROUP(RESOLVINGS), GROUP(TABLES), GROUP(UNREAD), GROUP(FINDINGS_OF),
              GROUP(OF_TABLES), GROUP(DEPTHS), GROUP(ORDERS), GROUP(NULLS)};

enum { GROUP_COUNT = sizeof GROUPS / sizeof GROUPS[0], THREADS = 4, TURNS = 20, STACK = 512 << 10, SET = 0xAA };

/* A call, whose text or table may take this many bytes. */
static struct manifest_answer made(const struct call *call, size_t most, uint8_t *out, size_t room)
{
    const uint8_t *bytes = (const uint8_t *)call->bytes, *root = (const uint8_t *)call->root;
    size_t length = bytes ? strlen(call->bytes) : 0, root_length = root ? strlen(call->root) : 0;
    switch (call->which) {
    case CANONICAL:
        return manifest_canonical(bytes, length, most, out, room);
    case COMPLETED:
        return manifest_completed(bytes, length, call->folders, call->folders_length, most, out, room);
    case RESOLVED:
        return manifest_resolved(bytes, length, root, root_length, most, out, room);
    case RESOLVED_COMPLETED:
        return manifest_resolved_completed(bytes, length, root, root_length, call->folders, call->folders_length, most, out,
                                           room);
    case TABLE:
        return manifest_table(bytes, length, most, out, room);
    case COMPLETED_TABLE:
        return manifest_completed_table(bytes, length, call->folders, call->folders_length, most, out, room);
    case RESOLVED_TABLE:
        return manifest_resolved_table(bytes, length, root, root_length, most, out, room);
    case RESOLVED_COMPLETED_TABLE:
        return manifest_resolved_completed_table(bytes, length, root, root_length, call->folders, call->folders_length, most,
                                                 out, room);
    case TABLE_WITHOUT_METADATA:
        return manifest_table_without_metadata(bytes, length, most, out, room);
    case DOCUMENT:
        return manifest_document(bytes, length, most, out, room);
    case FINDINGS:
        return manifest_findings(bytes, length, most, out, room);
    case CANONICAL_OF_TABLE:
        return manifest_canonical_of_table(bytes, length, most, out, room);
    case COMPLETED_OF_TABLE:
        return manifest_completed_of_table(bytes, length, call->folders, call->folders_length, most, out, room);
    case RESOLVED_OF_TABLES:
        return manifest_resolved_of_tables(bytes, length, root, root_length, most, out, room);
    case COMPLETED_TEXT_OF_TABLE:
    case ALL_OF_TABLES:
        break;
    }
    struct manifest_request request = {0};
    request.bytes.at = bytes, request.bytes.length = length;
    request.folders.at = call->folders, request.folders.length = call->folders_length;
    request.most = most;
    request.input = MANIFEST_OF_TABLE;
    request.has_folders = 1;
    if (call->which == ALL_OF_TABLES) {
        request.root.at = root, request.root.length = root_length;
        request.has_root = 200; /* (as each number but 0) */
        request.output = 255;
    }
    return manifest_run(request, out, room);
}

/* How long the expected text is. */
static size_t wanted(const struct call *call)
{
    return call->text_length ? call->text_length : strlen(call->text);
}

/* Whether an answer has the expected numbers. */
static int has_numbers(struct manifest_answer answer, const struct call *call)
{
    return answer.status == call->status && answer.cause == call->cause && answer.start == call->start
           && (call->text ? answer.end == 0 && answer.length == wanted(call)
                          : answer.end >= answer.start && answer.length > 0);
}

/* The text of a call, in memory that was never set and is as long as the call without memory says; null where an answer is
   not as expected. */
static uint8_t *text_of(const struct call *call, size_t *length)
{
    struct manifest_answer answer = made(call, SIZE_MAX, NULL, 0);
    if (!has_numbers(answer, call))
        return NULL;
    *length = answer.length;
    /* (malloc may answer null for nothing) */
    uint8_t *out = malloc(*length ? *length : 1);
    if (!out)
        return NULL;
    answer = made(call, SIZE_MAX, out, *length);
    if (has_numbers(answer, call) && answer.length == *length && (!call->text || !memcmp(out, call->text, *length)))
        return out;
    free(out);
    return NULL;
}

/* Whether a call with this much room puts the text at the beginning of `out`, or leaves all of it as it was. */
static int is_put(const struct call *call, const uint8_t *text, size_t length, size_t room)
{
    size_t size = room + 8, put = length <= room ? length : 0;
    uint8_t *out = malloc(size);
    if (!out)
        return 0;
    memset(out, SET, size);
    struct manifest_answer answer = made(call, SIZE_MAX, out, room);
    int is_right = has_numbers(answer, call) && answer.length == length && !memcmp(out, text, put);
    for (size_t i = put; i < size; i++)
        is_right = is_right && out[i] == SET;
    free(out);
    return is_right;
}

/* Whether the text of a call is a table, of which each byte is counted. */
static int is_table(const struct call *call)
{
    return call->which != CANONICAL && call->which != COMPLETED && call->which != RESOLVED
           && call->which != RESOLVED_COMPLETED && call->which != CANONICAL_OF_TABLE
           && call->which != COMPLETED_TEXT_OF_TABLE;
}

/* Whether the answer is that the text is longer than it may be, and all of `out` is as it was. */
static int is_too_long(const struct call *call, size_t most)
{
    uint8_t out[64];
    memset(out, SET, sizeof out);
    struct manifest_answer answer = made(call, most, out, sizeof out);
    int is_right = answer.status == MANIFEST_TOO_LONG && answer.cause == 0 && answer.length == 0 && answer.start == 0
                   && answer.end == 0;
    for (size_t i = 0; i < sizeof out; i++)
        is_right = is_right && out[i] == SET;
    return is_right;
}

/* Whether the length of a text is limited, and that of a refusal is not. A text may be refused that is shorter than what it
   may take, and not one that takes a small part of that. */
static int is_limited(const struct call *call, size_t length)
{
    /* (the length is looked at before the text is printed) */
    if (call->status == MANIFEST_DATE)
        return is_too_long(call, 0);
    if (call->status != MANIFEST_ACCEPTED)
        return has_numbers(made(call, 0, NULL, 0), call);
    size_t enough = is_table(call) ? length : 16 * length + 1024;
    return has_numbers(made(call, enough, NULL, 0), call)
           && (length == 0 || (is_too_long(call, length - 1) && is_too_long(call, 0)));
}

/* Whether the call is answered as expected, with an `out` of each length from 0 to one more than is needed. */
static int is_answered(const struct call *call)
{
    size_t length;
    uint8_t *text = text_of(call, &length);
    int is_right = text != NULL && is_limited(call, length);
    for (size_t room = 0; is_right && room <= length + 1; room++)
        is_right = is_put(call, text, length, room);
    free(text);
    return is_right;
}

/* Counts, at `failed`, the answers of many turns that are not as expected. */
static void *turns(void *failed)
{
    for (int turn = 0; turn < TURNS; turn++)
        for (int group = 0; group < GROUP_COUNT; group++)
            for (size_t i = 0; i < GROUPS[group].length; i++) {
                size_t length;
                uint8_t *text = text_of(&GROUPS[group].calls[i], &length);
                *(int *)failed += !text;
                free(text);
            }
    return NULL;
}

/* How many answers are as expected, and how many are not. */
static int passed, failed;

static void count(int is_right, const char *what, size_t number)
{
    passed += is_right;
    failed += !is_right;
    if (!is_right)
        printf("%s %zu: the answer is not as wanted\n", what, number);
}

/* Counts the threads in which each answer is as expected; whether there are threads. (If nothing is said, a thread has 128 KiB
   of stack over musl, which is less than a call may take.) */
static int count_threads(void)
{
    pthread_t threads[THREADS];
    pthread_attr_t attributes;
    int failed_there[THREADS] = {0};
    if (pthread_attr_init(&attributes) || pthread_attr_setstacksize(&attributes, STACK))
        return 0;
    for (int i = 0; i < THREADS; i++)
        if (pthread_create(&threads[i], &attributes, turns, &failed_there[i]))
            return 0;
    pthread_attr_destroy(&attributes);
    for (int i = 0; i < THREADS; i++) {
        pthread_join(threads[i], NULL);
        count(!failed_there[i], "thread", i + 1);
    }
    return 1;
}

static void print_layout_of_check(void)
{
    printf("check_request: %zu, bytes %zu, root %zu, config %zu, folders %zu, members %zu, packages %zu, most %zu, ",
           sizeof(struct manifest_check_request), offsetof(struct manifest_check_request, bytes),
           offsetof(struct manifest_check_request, root), offsetof(struct manifest_check_request, config),
           offsetof(struct manifest_check_request, folders), offsetof(struct manifest_check_request, members),
           offsetof(struct manifest_check_request, packages), offsetof(struct manifest_check_request, most));
    printf("has_root %zu, is_listed %zu, has_config %zu, has_folders %zu, has_members %zu, has_packages %zu, publishes %zu\n",
           offsetof(struct manifest_check_request, has_root), offsetof(struct manifest_check_request, is_listed),
           offsetof(struct manifest_check_request, has_config), offsetof(struct manifest_check_request, has_folders),
           offsetof(struct manifest_check_request, has_members), offsetof(struct manifest_check_request, has_packages),
           offsetof(struct manifest_check_request, publishes));
}

static void print_layout(void)
{
    printf("answer: %zu, status %zu, cause %zu, length %zu, start %zu, end %zu\n", sizeof(struct manifest_answer),
           offsetof(struct manifest_answer, status), offsetof(struct manifest_answer, cause),
           offsetof(struct manifest_answer, length), offsetof(struct manifest_answer, start),
           offsetof(struct manifest_answer, end));
    printf("folder: %zu, path %zu, names %zu, fault %zu\n", sizeof(struct manifest_folder),
           offsetof(struct manifest_folder, path), offsetof(struct manifest_folder, names),
           offsetof(struct manifest_folder, fault));
    printf("bytes: %zu, at %zu, length %zu\n", sizeof(struct manifest_bytes), offsetof(struct manifest_bytes, at),
           offsetof(struct manifest_bytes, length));
    printf("names: %zu, at %zu, length %zu\n", sizeof(struct manifest_names), offsetof(struct manifest_names, at),
           offsetof(struct manifest_names, length));
    printf("folders: %zu, at %zu, length %zu\n", sizeof(struct manifest_folders), offsetof(struct manifest_folders, at),
           offsetof(struct manifest_folders, length));
    printf("path: %zu, at %zu, length %zu\n", sizeof(struct manifest_path), offsetof(struct manifest_path, at),
           offsetof(struct manifest_path, length));
    printf("step: %zu, key %zu, index %zu, is_index %zu\n", sizeof(struct manifest_step), offsetof(struct manifest_step, key),
           offsetof(struct manifest_step, index), offsetof(struct manifest_step, is_index));
    printf("edit: %zu, path %zu, text %zu, kind %zu\n", sizeof(struct manifest_edit), offsetof(struct manifest_edit, path),
           offsetof(struct manifest_edit, text), offsetof(struct manifest_edit, kind));
    printf("request: %zu, bytes %zu, root %zu, folders %zu, most %zu, input %zu, output %zu, has_root %zu, has_folders %zu\n",
           sizeof(struct manifest_request), offsetof(struct manifest_request, bytes), offsetof(struct manifest_request, root),
           offsetof(struct manifest_request, folders), offsetof(struct manifest_request, most),
           offsetof(struct manifest_request, input), offsetof(struct manifest_request, output),
           offsetof(struct manifest_request, has_root), offsetof(struct manifest_request, has_folders));
    printf("member: %zu, path %zu, bytes %zu, patterns %zu, has_manifest %zu\n", sizeof(struct manifest_member),
           offsetof(struct manifest_member, path), offsetof(struct manifest_member, bytes),
           offsetof(struct manifest_member, patterns), offsetof(struct manifest_member, has_manifest));
    printf("package: %zu, path %zu, name %zu, has_name %zu\n", sizeof(struct manifest_package),
           offsetof(struct manifest_package, path), offsetof(struct manifest_package, name),
           offsetof(struct manifest_package, has_name));
    printf("indexes: %zu, at %zu, length %zu\n", sizeof(struct manifest_indexes), offsetof(struct manifest_indexes, at),
           offsetof(struct manifest_indexes, length));
    printf("members: %zu, at %zu, length %zu\n", sizeof(struct manifest_members), offsetof(struct manifest_members, at),
           offsetof(struct manifest_members, length));
    printf("packages: %zu, at %zu, length %zu\n", sizeof(struct manifest_packages), offsetof(struct manifest_packages, at),
           offsetof(struct manifest_packages, length));
    print_layout_of_check();
}

int main(int words_length, char **words)
{
    if (words_length == 2 && !strcmp(words[1], "layout")) {
        print_layout();
        return 0;
    }
    for (int group = 0; group < GROUP_COUNT; group++)
        for (size_t i = 0; i < GROUPS[group].length; i++)
            count(is_answered(&GROUPS[group].calls[i]), GROUPS[group].name, i + 1);
    count(manifest_version() == MANIFEST_VERSION, "version", MANIFEST_VERSION);
    if (!count_threads())
        return 2;
    printf("%d passed, %d failed\n", passed, failed);
    return failed != 0;
}
