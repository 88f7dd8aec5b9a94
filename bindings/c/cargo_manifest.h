/* Cargo manifests: a library that reads a Cargo.toml, completes it by what its folders hold, puts in what it inherits from
   its workspace, and writes it as its one canonical text. Its code is proved to do what its definitions say, but for the
   three functions by which it asks for memory.

   LINKING. Where the library is installed,

       cc program.c $(pkg-config --cflags --libs cargo_manifest)

   links libcargo_manifest.so, which has to stand where the loader looks, as after ldconfig, or in a folder that
   LD_LIBRARY_PATH names. In CMake, find_package(cargo_manifest) gives the targets cargo_manifest::cargo_manifest and
   cargo_manifest::cargo_manifest_static. The archive libcargo_manifest.a links by itself: cc program.c libcargo_manifest.a.
   Both want nothing but a C library, the GNU one or musl. They are for Linux on x86-64, with a processor of the level
   x86-64-v2 (SSE 4.2 and POPCNT, as all have since about 2010), and on aarch64.

   A CALL takes bytes and memory for its text, and answers at once:

       uint8_t out[4096];
       struct manifest_answer answer = manifest_canonical(bytes, length, SIZE_MAX, out, sizeof out);
       if (answer.status == MANIFEST_ACCEPTED && answer.length <= sizeof out)
           fwrite(out, 1, answer.length, stdout);

   - Each slice that is passed in is a pointer and a length. It may be empty: the length is 0, and the pointer may be null.
   - `most` is how many bytes the text or the table may take, as LIMITS says; SIZE_MAX for any number.
   - `out` is memory for the text. It need not be set before: it is only written, which is tested. It overlaps nothing else
     that is passed in. Without any (null and 0) the call returns how long the text is. As one call can run out of memory and
     the next not, `length` is looked at after each call.
   - Another thread may read what is passed in meanwhile, and may not write to it, nor read or write `out`.
   - The answer depends on what is passed in, and on nothing else but whether there is memory, which is tested.
   - The library keeps nothing from one call to the next, keeps no pointer that it is given, frees nothing that it is given,
     and gives nothing that has to be freed.

   THREADS. Each call may be made from any thread, also while others run, which is tested. Since it asks for memory, it may
   not be made from a signal handler, nor from the forked child of a process that has threads. It has to run to its end:
   a call that is broken off, by longjmp or by cancelling its thread, does not free its memory, and of later calls of that
   thread nothing is said.

   LIMITS
   (limits: of docs/LIBRARY.md)

   `most` is how many bytes the text or the table may take. What could take more is refused as too long. Of what a manifest
   inherits the texts of the workspace's dependencies are counted, at each place that inherits one, before any of them is
   copied. Of a text a bound is counted before it is printed: its keys and values, and for each table a header with its whole
   path. Of a table the exact length of its bytes is compared, after they are made. The text of a refusal is given whatever
   `most` is. Some kilobytes can mean many megabytes, since a header repeats the keys above it: a program that takes
   manifests from others bounds their length, and sets `most`.

   Arrays and tables may stand 128 deep in one another, the whole table not counted: `a = [{}]` is 2 deep. What is deeper is
   refused as too deep; and where the headers, dotted keys and brackets of a text lead deeper, or a dotted key leads deeper
   than 112 after a header of an array of tables, it is refused before it is parsed. `toml`, which reads texts, has two
   limits of its own: 80 arrays and inline tables in one another, and 80 parts of a key. What is over these is refused as no
   TOML. Each text that the library writes of a table at most 80 deep is read again.

   A call takes at most 111 KiB of stack on all inputs that were tried, so a thread with 128 KiB makes it, which is what musl
   gives its threads if nothing is said. Where a place or an edit is looked for below 126 keys in one another, the calls for
   places and `manifest_edited` take 136 KiB: a thread with 160 KiB makes each of them. `manifest_diagnostics` takes 178 KiB
   below headers of arrays of tables that are as deep as is read: a thread with 192 KiB makes it.

   A call has at most 768 bytes of memory at once for each byte that is passed in (a name of a folder counts as 16 more), and
   64 for each byte of `most`, on all inputs that were tried.

   (end of limits)

   MEMORY is asked for by three functions over malloc, realloc and free, which a program may replace: see the end. */
#ifndef CARGO_MANIFEST_H
#define CARGO_MANIFEST_H

#include <stddef.h>
#include <stdint.h>

#ifdef __cplusplus
extern "C" {
#endif

/* The status of an answer: whether the text is what was asked for, or else why it is not. The steps of a call go in this
   order, as far as it has them, and the first that refuses is reported, which is tested and not proved:

       the folders                8
       the bytes                  4, 15, 1, 15, 2, or 14 and 15, then 2
       the root                   20, 31, 17, 31, 18, or 30 and 31, then 18   (it is read also where the manifest inherits nothing)
       its workspace              9
       what is inherited          32, and then 10, 11, 12, 13
       the completion             3, 5
       the printing               32, 7

   A text is refused as too deep before it is parsed (by its headers, dotted keys and brackets) or after that (by its table). Of
   tagged bytes 14 or 15 is reported, by which is met first.
   MANIFEST_MEMORY may stand in the place of any of them. There are no other numbers than these.

   A key path is keys that are joined by points, in double quotes where they are no bare keys of TOML, and places in arrays, from 0
   on: `package.authors[0]`, `target."cfg(unix)".dependencies.b`. No text is read as a manifest that is refused as MANIFEST_DATE,
   which is proved: tables that are passed in can be. Of 15 and 32 LIMITS says more. */
enum manifest_status {
    /* (made by scripts/keys --write) */
    /* nothing is refused: the text is what was asked for */
    MANIFEST_ACCEPTED = 0,
    /* the bytes are no TOML: the text is the message of `toml` */
    MANIFEST_NO_TOML = 1,
    /* the bytes are TOML and no manifest: `cause` is one of enum manifest_cause, and the text is the key path, as
       `package.authors[0]` */
    MANIFEST_SCHEMA = 2,
    /* a folder has a fault that refuses the completion: `cause` is one of enum manifest_fault */
    MANIFEST_IO = 3,
    /* the bytes are not UTF-8 */
    MANIFEST_NOT_UTF8 = 4,
    /* a declared library has no file: the text is a sentence that says so */
    MANIFEST_OTHER = 5,
    /* no memory was left */
    MANIFEST_MEMORY = 6,
    /* the manifest keeps a date-time that no text can have: the text is a sentence that says so */
    MANIFEST_DATE = 7,
    /* the folders are no listings: a path or a name is not UTF-8, the names of a folder do not ascend in the order of their
       bytes, or two folders have one path */
    MANIFEST_LISTINGS = 8,
    /* the root has no `workspace` */
    MANIFEST_NO_WORKSPACE = 9,
    /* the workspace does not have what is inherited: the text is its key, as `version`, or the name of a dependency, or
       `lints` */
    MANIFEST_NOT_IN_WORKSPACE = 10,
    /* the workspace inherits its own dependency: the text is its name */
    MANIFEST_INHERITED_IN_WORKSPACE = 11,
    /* lints are inherited, and the manifest has lints of a tool as well */
    MANIFEST_MIXED_LINTS = 12,
    /* lints are inherited, and those of the workspace have a tool `workspace` */
    MANIFEST_TOOL_NAMED_WORKSPACE = 13,
    /* bytes that should be a tagged table are not one: a text in them is not UTF-8, the keys of a table do not ascend, a
       number is not written in the shortest way, or they end too early or too late */
    MANIFEST_UNTAGGED = 14,
    /* arrays and tables stand in one another more than 128 deep, or a dotted key leads deeper than 112 after a header of an
       array of tables */
    MANIFEST_TOO_DEEP = 15,
    /* 1, 2, 4, 14 and 15 of the root: 16 more. `start` and `end` are places in the root */
    MANIFEST_ROOT_NO_TOML = 17,
    MANIFEST_ROOT_SCHEMA = 18,
    MANIFEST_ROOT_NOT_UTF8 = 20,
    MANIFEST_ROOT_UNTAGGED = 30,
    MANIFEST_ROOT_TOO_DEEP = 31,
    /* what is asked for could take more bytes than `most`, or what is inherited does */
    MANIFEST_TOO_LONG = 32,
    /* what an edit puts in is not one value of TOML and nothing else */
    MANIFEST_NOT_A_VALUE = 33,
    /* nothing that this edit can change is written at its path */
    MANIFEST_NO_PLACE = 34,
    /* two edits touch one place, or one lies within what another one replaces */
    MANIFEST_OVERLAP = 35,
    /* the new text would not be the document with these changes, as where a new key is there already */
    MANIFEST_NOT_EDITED = 36,
    /* a key or a text of an edit is not UTF-8, or a path or a name of what is around a manifest */
    MANIFEST_NOT_TEXT = 37,
    /* the offsets do not ascend, or one is over the end of the bytes */
    MANIFEST_OFFSETS = 38,
    /* the configuration of Cargo is no TOML, or nests too deep */
    MANIFEST_CONFIGURATION = 39
};

/* How deep arrays and tables may stand in one another, the whole table not counted: see LIMITS. */
#define MANIFEST_DEPTH_LIMIT 128

/* The cause of MANIFEST_SCHEMA and MANIFEST_ROOT_SCHEMA. */
enum manifest_cause {
    /* (made by scripts/keys --write) */
    MANIFEST_WRONG_KIND = 1,    /* the value is of another kind, as a number for a text */
    MANIFEST_MISSING = 2,       /* a required key is absent; the path ends with it */
    MANIFEST_TWO_SPELLINGS = 3, /* a table has a key by both spellings, as `default-features` and `default_features` */
    MANIFEST_NOT_A_CHOICE = 4,  /* the text is none of those that may stand there, as `edition = "2020"` */
    MANIFEST_OUT_OF_RANGE = 5,  /* the whole number is too large or too small */
    MANIFEST_NOT_TRUE = 6,      /* a boolean that has to be true is false */
    MANIFEST_HOLDS_FLOAT = 7,   /* a value that is kept as it is, as metadata, holds a float */
    MANIFEST_METADATA = 8       /* the type of the metadata refuses it; no call of the library has such a type */
};

/* What a call answers. */
struct manifest_answer {
    uint8_t status; /* one of enum manifest_status */
    uint8_t cause;  /* more of the status, where it says so; else 0 */
    /* How many bytes the text takes. They stand at the beginning of `out` where it has as many or more, and the rest of `out`
       is as it was. Else all of `out` is as it was, and a call with an `out` of `length` bytes has the text. It is
       UTF-8, and no zero byte stands after it. Where a status says nothing of a text, it is empty. */
    size_t length;
    /* Where the fault of a text that is no TOML begins, and where it ends, within the bytes. Else both are 0. */
    size_t start;
    size_t end;
};

/* Borrowed bytes: `length` of them from `at` on, which may be null where there are none. */
struct manifest_bytes {
    const uint8_t *at;
    size_t length;
};

/* Borrowed names, in the same way. */
struct manifest_names {
    const struct manifest_bytes *at;
    size_t length;
};

/* The fault of a folder, and the cause of MANIFEST_IO. As the fault of a folder, each other number is MANIFEST_OTHER_FAULT
   too. As a cause, MANIFEST_OUT_OF_MEMORY is reported also where there was no memory for a copy of a folder's names. */
enum manifest_fault {
    MANIFEST_NO_FAULT = 0,
    /* (made by scripts/keys --write) */
    MANIFEST_NOT_FOUND = 1,
    MANIFEST_OUT_OF_MEMORY = 2,
    MANIFEST_OTHER_FAULT = 3
};

/* A folder, and the names in it. The path is that from the folder of the manifest, with `/` between its parts, as `src/bin`;
   the folder of the manifest itself is `.`. Path and names are UTF-8, and the names ascend strictly in the order of their
   bytes. Where there is a fault the names count nothing, and have to be such names all the same.

   A completion asks for `src`, `src/bin`, `examples`, `tests` and `benches`, for each entry of the last four, as if it were
   a folder, and for `.` where the manifest's `build` is absent or true. A folder that is not passed in is not found, which
   refuses a completion where it is `.`, and nowhere else: so pass in `.` always. What is not asked for makes no difference,
   so all folders may be passed in. */
struct manifest_folder {
    struct manifest_bytes path;
    struct manifest_names names;
    uint8_t fault;
};

/* Borrowed folders. */
struct manifest_folders {
    const struct manifest_folder *at;
    size_t length;
};

/* What the bytes of a request are: each number but 0 is MANIFEST_OF_TABLE. */
enum manifest_input {
    MANIFEST_OF_TEXT = 0, /* the text of a Cargo.toml */
    MANIFEST_OF_TABLE = 1 /* its table as tagged bytes, such as a call gives, or a program makes. A table has no old headers: its
                             package is `package`. A float in it is refused as any other value that does not fit */
};

/* What a request asks for: each number but 0 is MANIFEST_AS_TABLE. */
enum manifest_output {
    MANIFEST_AS_TEXT = 0, /* the canonical text: TOML, its keys in the order of their bytes, each by its first spelling. Comments,
                             and keys that no manifest has, are left out */
    MANIFEST_AS_TABLE = 1 /* the table that the canonical text says, as tagged bytes: see below */
};

/* A request. All that it does not need is 0, so a program begins with `struct manifest_request request = {0};`, and with `{}` in
   C++. */
struct manifest_request {
    /* the manifest, as `input` says */
    struct manifest_bytes bytes;
    /* where has_root is not 0: the manifest of the workspace's root, in the same form. What the manifest inherits from its
       workspace is put in */
    struct manifest_bytes root;
    /* where has_folders is not 0: the folders of the manifest. It is completed over them, after what it inherits is put in: with
       the library, binaries, examples, tests, benches and build script that are found there */
    struct manifest_folders folders;
    /* how many bytes the text or the table may take: see LIMITS */
    size_t most;
    uint8_t input;  /* one of enum manifest_input */
    uint8_t output; /* one of enum manifest_output */
    uint8_t has_root;
    uint8_t has_folders;
};

/* What the request asks for of the manifest that it makes.

   A table is given as tagged bytes. A value is a tag and what stands after it:

      1  a text: how many bytes it has, and the bytes, which are UTF-8
      2  a whole number from 0 on: a number
      3  a whole number below 0: -1 minus it, a number
      4  false                        5  true
      6  a date-time: its date, its time and its offset, of which each is 0 for none, or 1 and the part
      7  an array: how many values it has, and the values
      8  a table: how many keys it has, and each key, a text without tag, with its value after it; the keys ascend
         in the order of their bytes

   A number stands in groups of seven bits, the lowest first, with 128 added to each but the last. A date is a byte for
   the month, one for the day, and the year, a number. A time is a byte for the hour, one for the minute, the second (0
   for none, or 1 and a byte), and the nanosecond (0 for none, or 1 and a number). An offset is 0 for `Z`, 1 and the
   minutes ahead of UTC, or 2 and the minutes behind UTC less 1. `[package]` with `name = "a"` and `autobins = false` is
   8 1 7 `package` 8 2 8 `autobins` 4 4 `name` 1 1 `a`. */
struct manifest_answer manifest_run(struct manifest_request request, uint8_t *out, size_t out_length);

/* The table of the manifest that the bytes of a Cargo.toml are, as tagged bytes, but that the metadata of the package and of the
   workspace is not looked at: where there is any, it is written as the empty table. So no value in metadata refuses anything,
   not a float either, but for what nests too deep. manifest_run keeps metadata as it is, and refuses a float in it as
   MANIFEST_HOLDS_FLOAT: whoever does not need metadata asks for this table, and passes it to manifest_run. */
struct manifest_answer manifest_table_without_metadata(const uint8_t *bytes, size_t bytes_length, size_t most,
                                                       uint8_t *out, size_t out_length);

/* The document that the bytes are, as a tagged table, whatever it means: all its keys as they stand. It may have floats:

      9  a float: its 64 bits as a number, 0x7ff8000000000000 for all that are not a number */
struct manifest_answer manifest_document(const uint8_t *bytes, size_t bytes_length, size_t most, uint8_t *out,
                                         size_t out_length);

/* The parts of what is found by manifest_findings. */
enum manifest_found {
    MANIFEST_FOUND_FAULT = 0,    /* the value here, or its absence, does not fit: the manifest is refused */
    MANIFEST_FOUND_IGNORED = 1,  /* it does not fit where that refuses nothing: a badge, which counts as absent */
    MANIFEST_FOUND_UNUSED = 2,   /* nothing reads this key of the table here, as a misspelled one, or looks below it */
    MANIFEST_FOUND_BELOW = 3     /* what is found in a value of the table or the array here */
};

/* What is found in the document that the bytes are, as in a manifest: every fault, and not the first one alone, what is
   ignored, and every key that nothing reads. The status is MANIFEST_ACCEPTED with faults too: they are what was asked for.
   Without any, the bytes are a manifest, which manifest_run accepts if its text is not too long; and else the first
   fault is the one with which that refuses them. Metadata is not looked at here: a float in it, which Cargo takes, is no
   fault, though the calls that keep metadata refuse it, and before what is found here (see manifest_table_without_metadata).

   It is a tagged array of parts, of what is found in the whole table. Each part is an array, whose first value is a number of
   enum manifest_found. What stands after it:

      0, 1   a number of enum manifest_cause; and after MANIFEST_NOT_A_CHOICE, and no other, an array of the texts that are
             allowed here
      2      the key, a text
      3      a text for a key, or a number for an index of an array, from 0 on; and an array of the parts of what is found in
             the value that it leads to. What is missing is found in the value that it would be

   So each step of a path stands once, however much is found below it (tested). Read from the beginning, the parts stand in
   the order in which docs/KEYS.md of the repository has the keys: the values of a table key by key, those of lists and maps
   one by one, and after all of a table its keys that nothing reads. `[package]` with `name = 1` and `edtion = "2021"` is
   7 1 7 3 2 3 1 7 `package` 7 2 7 3 2 3 1 4 `name` 7 1 7 2 2 0 2 1 7 2 2 2 1 6 `edtion`. */
struct manifest_answer manifest_findings(const uint8_t *bytes, size_t bytes_length, size_t most, uint8_t *out,
                                         size_t out_length);

/* The same, with the place of each finding: a tagged array of two, of which the first is that of manifest_findings. The second
   is an array that has for each finding, in their order, an array of three ranges, each of which is an array of two offsets of
   bytes, where it begins and where it ends, or the empty array for none:

      the value      where it has a place: a table or an array of tables that is written by headers or dotted keys has none
      its key        the whole key, of a dotted one too; of a table that a dotted key goes through, the key up to that part.
                     An item of an array has none, nor has a table that is written by headers
      its header     that under which the value stands, and none at the top of the text; of a table that is written by headers
                     the one that opens it, or else the first one that goes through it

   Of a key that is missing they are those of the table in which it belongs; of a key that nothing reads, those of that key. The
   second array is empty where nothing is found. (It is so too where the places of the text are not found,
   as where it has the numbers that are tried in the places of its values: docs/LIBRARY.md.) That each place is right is proved:
   with a number in it the text is the document with that number at the path.
   `name = 1` is 7 2, the bytes of its findings, and 7 1 7 3 7 2 2 7 2 8 7 2 2 0 2 4 7 0. */
struct manifest_answer manifest_placed_findings(const uint8_t *bytes, size_t bytes_length, size_t most, uint8_t *out,
                                                size_t out_length);

/* Why the member that the bytes are cannot inherit from the workspace of the root: every reason, and not the first one alone,
   with its place in both texts. The status is MANIFEST_ACCEPTED whatever is refused: the refusals are what was asked for, and
   where there are none, manifest_run resolves the member. Refused is what manifest_run refuses with a root: a member or a root
   that is no manifest, and a root without a workspace. It is a tagged array of three:

      the refusals   parts, as of manifest_findings. Each refusal is an array of three: MANIFEST_FOUND_FAULT, the status with
                     which manifest_run refuses it, MANIFEST_NOT_IN_WORKSPACE to MANIFEST_TOOL_NAMED_WORKSPACE, and the text of
                     that status
      in the member  for each refusal, in their order, the three ranges of what inherits, as manifest_placed_findings has them
      in the root    for each the three ranges of what it asks for there: `workspace.package.version` for `package.version`,
                     `workspace.dependencies.serde` for a dependency `serde` in any map, `workspace.lints` for lints, and the
                     tool `workspace` of these. Of what is missing they are those of the table in which it belongs

   The second and the third are empty where nothing is refused, and each where the places of its text are not found. Under an old
   header, or by a second spelling, as `dev_dependencies`, what inherits does not stand at the path of its refusal: then its
   ranges are those of the table in which that would belong. That each place is right is proved. */
struct manifest_answer manifest_placed_refusals(const uint8_t *bytes, size_t bytes_length, const uint8_t *root, size_t root_length,
                                                size_t most, uint8_t *out, size_t out_length);

/* Which declared targets of the manifest that the bytes are have no file in the folders, with their places in the text: the
   library, where manifest_run refuses to complete the manifest for it, and each binary, example, test or bench that it leaves
   without a path. (A path that is declared is not looked up.) Refused is what manifest_run refuses with folders: folders that
   are no listings, bytes that are no manifest, and a fault of a folder. It is a tagged array of two: an array of the paths, each
   an array of its steps, a text for a key or a number for an index, as `[["lib"], ["bin", 1]]`; and an array that has for each of
   them, in their order, the three ranges as manifest_placed_findings has them. The second is empty where nothing is unfound, and
   where the places of the text are not found. */
struct manifest_answer manifest_placed_unfound_targets(const uint8_t *bytes, size_t bytes_length,
                                                       const struct manifest_folder *folders, size_t folders_length,
                                                       size_t most, uint8_t *out, size_t out_length);

/* The lines and the columns of offsets in a UTF-8 text, which ascend and of which none is over its end: a tagged array that has
   for each offset an array of four numbers: its line, from 1 on, and how many bytes, characters and units of UTF-16 stand before
   it in that line. A line ends after a line feed, and nowhere else. It is one pass over the text, however many offsets there are. */
struct manifest_answer manifest_positions(const uint8_t *bytes, size_t bytes_length, const size_t *offsets,
                                          size_t offsets_length, size_t most, uint8_t *out, size_t out_length);

/* One step of a key path: an index of an array, from 0 on, where is_index is not 0, and else a key, which is UTF-8 and without
   quotes. (The key of an index counts nothing, and has to be UTF-8 all the same.) */
struct manifest_step {
    struct manifest_bytes key;
    size_t index;
    uint8_t is_index;
};

/* Borrowed steps. */
struct manifest_path {
    const struct manifest_step *at;
    size_t length;
};

/* What is done to a text: each number but 0, 1 and 2 is MANIFEST_RENAME. */
enum manifest_kind {
    MANIFEST_SET = 0,    /* the text is a value of TOML, which takes the place of the value at the path */
    MANIFEST_INSERT = 1, /* the text is a value of TOML; the path ends with a new key, or with the index after the last item of an
                            array */
    MANIFEST_REMOVE = 2, /* nothing more at the path: the entry goes with the rest of its line, or with blanks and one comma */
    MANIFEST_RENAME = 3  /* the text is another key, without quotes, for what is at the path */
};

/* An edit. */
struct manifest_edit {
    struct manifest_path path;
    struct manifest_bytes text;
    uint8_t kind; /* one of enum manifest_kind */
};

/* The text of a TOML document, whatever it means, with all of these edits: comments, order and layout stay, and the new text is
   that of the document with these changes and no others, which is proved. Where as_replacements is not 0, what they replace in the
   old text, as an editor takes it: a tagged array of arrays of three, where a range begins, where it ends, and the text that takes
   its place; they ascend and do not overlap. Either all edits are made or none. Paths and indexes are those of the document as it
   is given.

   A new key stands after the table's own entries, before the comments of the next header; where the table has no header, it gets
   one at the end of the text. A key is replaced in each dotted key and each header that goes through it. Refused as
   MANIFEST_NO_PLACE is a path at which nothing is, and to set or to remove a table or an array of tables that is written by
   headers or by dotted keys. */
struct manifest_answer manifest_edited(const uint8_t *bytes, size_t bytes_length, const struct manifest_edit *edits,
                                       size_t edits_length, uint8_t as_replacements, size_t most, uint8_t *out,
                                       size_t out_length);

/* Borrowed indexes. */
struct manifest_indexes {
    const size_t *at;
    size_t length;
};

/* A member of the workspace whose root is checked, as the patterns of `workspace.members` and `path` dependencies lead to it: the
   path of its folder from that of the root, as `crates/a`, and the bytes of its Cargo.toml. `patterns` are the indexes in
   `workspace.members` of all patterns that lead to it, from the first one on: of `members = ["m", "./m"]` both; none where a `path`
   dependency leads to it. What is wrong with the member is reported at the first of them. Where has_manifest is 0, its folder has
   no Cargo.toml, and the bytes are not looked at. The path is UTF-8. */
struct manifest_member {
    struct manifest_bytes path;
    struct manifest_bytes bytes;
    struct manifest_indexes patterns;
    uint8_t has_manifest;
};

/* Borrowed members. */
struct manifest_members {
    const struct manifest_member *at;
    size_t length;
};

/* A package to which the `path` of a dependency leads: that path as it is written in the manifest, and the name of the package in
   the Cargo.toml there. Where has_name is 0 there is none. Path and name are UTF-8. */
struct manifest_package {
    struct manifest_bytes path;
    struct manifest_bytes name;
    uint8_t has_name;
};

/* Borrowed packages. */
struct manifest_packages {
    const struct manifest_package *at;
    size_t length;
};

/* What is known of something: each number but 0 and 1 is MANIFEST_IS_NOT. */
enum manifest_known {
    MANIFEST_UNKNOWN = 0, /* nobody looked */
    MANIFEST_IS = 1,
    MANIFEST_IS_NOT = 2
};

/* What is asked of manifest_diagnostics: a manifest, and what is known of the files around it. What is not known is 0, and the rules
   that need it say nothing, so a program begins with `struct manifest_check_request request = {0};`. */
struct manifest_check_request {
    /* the text of the Cargo.toml */
    struct manifest_bytes bytes;
    /* where has_root is MANIFEST_IS: that of the root of its workspace. It is not looked at where the manifest has a `workspace`,
       so it is not refused then, and a second place in the root has no range */
    struct manifest_bytes root;
    /* where has_config is not 0: the configuration of Cargo, `.cargo/config.toml`: that of the folder with, of each entry that it
       does not have, that of the nearest folder above */
    struct manifest_bytes config;
    /* where has_folders is not 0: the folders of the manifest. The rules ask for those that a completion asks for, for each folder
       and each file that a path of the manifest leads to, as if it were a folder, and for `.`. What is not passed in is not there;
       of a folder with a fault that is not MANIFEST_NOT_FOUND nothing is known, and nothing is said of the files in it */
    struct manifest_folders folders;
    /* where has_members is not 0: all members, where the manifest is the root of a workspace */
    struct manifest_members members;
    /* where has_packages is not 0: the packages to which the `path`s of its dependencies lead */
    struct manifest_packages packages;
    /* how many bytes the tagged array may take: see LIMITS */
    size_t most;
    uint8_t has_root;  /* one of enum manifest_known: MANIFEST_IS_NOT where Cargo looks for a root and there is none */
    uint8_t is_listed; /* one of enum manifest_known: whether the root lists the package, or leaves it out by `exclude` */
    uint8_t has_config;
    uint8_t has_folders;
    uint8_t has_members;
    uint8_t has_packages;
    uint8_t publishes; /* not 0: say also what a registry wants of the package */
};

/* The level of a diagnostic. */
enum manifest_level {
    MANIFEST_ERROR = 0,   /* Cargo refuses to read the manifest, or to build the package */
    MANIFEST_WARNING = 1, /* Cargo warns of it, or refuses it only by its version, its channel or its configuration */
    MANIFEST_NOTE = 2     /* it is worth knowing, and needs no change */
};

/* The file of a second place. */
enum manifest_file {
    MANIFEST_OF_MANIFEST = 0, /* the manifest itself */
    MANIFEST_OF_ROOT = 1,     /* the root that is passed in */
    MANIFEST_OF_MEMBER = 2    /* one of the members that are passed in */
};

/* Everything that is wrong with the manifest, as the program manifest_check reports it: docs/CHECKS.md of the repository has a
   section for each code. The status is MANIFEST_ACCEPTED whatever is wrong. Bytes that are not UTF-8, no TOML or too deep have one
   diagnostic, which says so. Refused is what is around the manifest: a root that is no document (MANIFEST_ROOT_NO_TOML,
   MANIFEST_ROOT_NOT_UTF8, MANIFEST_ROOT_TOO_DEEP), folders that are no listings, a path or a name of a member or a package that is
   not UTF-8 (MANIFEST_NOT_TEXT), and a configuration that is no document. A member that is no document is known to be there, and
   no more. Levels that a manifest sets in its metadata change nothing: they are for the program that shows what is wrong.

   It is a tagged array of diagnostics: first what manifest_findings finds, in its order, and then what the rules say. Each is an
   array of nine:

      the code         a text, as `unknown-feature`
      the level        a number of enum manifest_level
      the message      a text: what is wrong. Few have more lines than one, as that of `no-targets`
      the path         an array of its steps, a text for a key or a number for an index, as `["features", "default", 0]`; empty
                       where it is about a range of the text, or about the whole of it
      the range        that is meant, an array of two offsets of bytes, where it begins and where it ends; the empty array where it
                       is the whole text, or where it has no place
      the places       of the path: an array of three ranges, as manifest_placed_findings has them; the empty array where nothing
                       has a place
      second places    an array of arrays of four: a number of enum manifest_file, the index of the member (else 0), a range in the
                       text of that file, which may be the empty array, and a text that says what is there
      notes            an array of texts
      suggestions      an array of arrays of three: a text that says what to write; true where it is certain to be what was meant,
                       else false; and what it replaces, as manifest_edited has it: an array of arrays of three, where a range begins,
                       where it ends, and the text that takes its place. They ascend and do not overlap; there are none where
                       the text alone says what to do

   That the diagnostics of the schema are what is found, and that the places are those of the paths, is proved; codes, levels, words
   and what the rules say are tested. Of `a = ` it is one of nine, 7 1 7 9 1 12 `invalid-toml` 2 0, its message, 7 0 for its path,
   and so on. */
struct manifest_answer manifest_diagnostics(struct manifest_check_request request, uint8_t *out, size_t out_length);

/* The calls of earlier versions, each by the request that it is. */
static inline struct manifest_request manifest_request_of(const uint8_t *bytes, size_t bytes_length, uint8_t input,
                                                            uint8_t output, size_t most)
{
    struct manifest_request request;
    request.bytes.at = bytes;
    request.bytes.length = bytes_length;
    request.root.at = 0;
    request.root.length = 0;
    request.folders.at = 0;
    request.folders.length = 0;
    request.most = most;
    request.input = input;
    request.output = output;
    request.has_root = 0;
    request.has_folders = 0;
    return request;
}

static inline void manifest_set_root(struct manifest_request *request, const uint8_t *root, size_t root_length)
{
    request->root.at = root;
    request->root.length = root_length;
    request->has_root = 1;
}

static inline void manifest_set_folders(struct manifest_request *request, const struct manifest_folder *folders,
                                          size_t folders_length)
{
    request->folders.at = folders;
    request->folders.length = folders_length;
    request->has_folders = 1;
}

/* The canonical text of the manifest that the bytes are. */
static inline struct manifest_answer manifest_canonical(const uint8_t *bytes, size_t bytes_length, size_t most,
        uint8_t *out, size_t out_length)
{
    struct manifest_request request = manifest_request_of(bytes, bytes_length, MANIFEST_OF_TEXT, MANIFEST_AS_TEXT, most);
    return manifest_run(request, out, out_length);
}

/* The same, completed over the folders. */
static inline struct manifest_answer manifest_completed(const uint8_t *bytes, size_t bytes_length,
        const struct manifest_folder *folders, size_t folders_length, size_t most, uint8_t *out, size_t out_length)
{
    struct manifest_request request = manifest_request_of(bytes, bytes_length, MANIFEST_OF_TEXT, MANIFEST_AS_TEXT, most);
    manifest_set_folders(&request, folders, folders_length);
    return manifest_run(request, out, out_length);
}

/* The same as the first, with what the manifest inherits from the workspace of the root put in. */
static inline struct manifest_answer manifest_resolved(const uint8_t *bytes, size_t bytes_length,
        const uint8_t *root, size_t root_length, size_t most, uint8_t *out, size_t out_length)
{
    struct manifest_request request = manifest_request_of(bytes, bytes_length, MANIFEST_OF_TEXT, MANIFEST_AS_TEXT, most);
    manifest_set_root(&request, root, root_length);
    return manifest_run(request, out, out_length);
}

/* The same, resolved and then completed. */
static inline struct manifest_answer manifest_resolved_completed(const uint8_t *bytes, size_t bytes_length,
        const uint8_t *root, size_t root_length, const struct manifest_folder *folders, size_t folders_length,
        size_t most, uint8_t *out, size_t out_length)
{
    struct manifest_request request = manifest_request_of(bytes, bytes_length, MANIFEST_OF_TEXT, MANIFEST_AS_TEXT, most);
    manifest_set_root(&request, root, root_length);
    manifest_set_folders(&request, folders, folders_length);
    return manifest_run(request, out, out_length);
}

/* The tables that these texts say, as tagged bytes. */
static inline struct manifest_answer manifest_table(const uint8_t *bytes, size_t bytes_length, size_t most,
        uint8_t *out, size_t out_length)
{
    struct manifest_request request = manifest_request_of(bytes, bytes_length, MANIFEST_OF_TEXT, MANIFEST_AS_TABLE, most);
    return manifest_run(request, out, out_length);
}

static inline struct manifest_answer manifest_completed_table(const uint8_t *bytes, size_t bytes_length,
        const struct manifest_folder *folders, size_t folders_length, size_t most, uint8_t *out, size_t out_length)
{
    struct manifest_request request = manifest_request_of(bytes, bytes_length, MANIFEST_OF_TEXT, MANIFEST_AS_TABLE, most);
    manifest_set_folders(&request, folders, folders_length);
    return manifest_run(request, out, out_length);
}

static inline struct manifest_answer manifest_resolved_table(const uint8_t *bytes, size_t bytes_length,
        const uint8_t *root, size_t root_length, size_t most, uint8_t *out, size_t out_length)
{
    struct manifest_request request = manifest_request_of(bytes, bytes_length, MANIFEST_OF_TEXT, MANIFEST_AS_TABLE, most);
    manifest_set_root(&request, root, root_length);
    return manifest_run(request, out, out_length);
}

static inline struct manifest_answer manifest_resolved_completed_table(const uint8_t *bytes, size_t bytes_length,
        const uint8_t *root, size_t root_length, const struct manifest_folder *folders, size_t folders_length,
        size_t most, uint8_t *out, size_t out_length)
{
    struct manifest_request request = manifest_request_of(bytes, bytes_length, MANIFEST_OF_TEXT, MANIFEST_AS_TABLE, most);
    manifest_set_root(&request, root, root_length);
    manifest_set_folders(&request, folders, folders_length);
    return manifest_run(request, out, out_length);
}

/* The canonical text of a tagged table, and the table of it, completed, or with what it inherits from a tagged root. */
static inline struct manifest_answer manifest_canonical_of_table(const uint8_t *bytes, size_t bytes_length,
        size_t most, uint8_t *out, size_t out_length)
{
    struct manifest_request request = manifest_request_of(bytes, bytes_length, MANIFEST_OF_TABLE, MANIFEST_AS_TEXT, most);
    return manifest_run(request, out, out_length);
}

static inline struct manifest_answer manifest_completed_of_table(const uint8_t *bytes, size_t bytes_length,
        const struct manifest_folder *folders, size_t folders_length, size_t most, uint8_t *out, size_t out_length)
{
    struct manifest_request request = manifest_request_of(bytes, bytes_length, MANIFEST_OF_TABLE, MANIFEST_AS_TABLE, most);
    manifest_set_folders(&request, folders, folders_length);
    return manifest_run(request, out, out_length);
}

static inline struct manifest_answer manifest_resolved_of_tables(const uint8_t *bytes, size_t bytes_length,
        const uint8_t *root, size_t root_length, size_t most, uint8_t *out, size_t out_length)
{
    struct manifest_request request = manifest_request_of(bytes, bytes_length, MANIFEST_OF_TABLE, MANIFEST_AS_TABLE, most);
    manifest_set_root(&request, root, root_length);
    return manifest_run(request, out, out_length);
}

/* The version of these calls and of the tagged bytes: MANIFEST_VERSION, where the library is of the same version as this
   header. */
#define MANIFEST_VERSION 4
uint32_t manifest_version(void);

/* What a request for memory answers. */
struct rattle_tried {
    uint8_t is_there; /* 1, or 0 where there is no memory */
    void *block;      /* the block; where there is no memory, any pointer that is not null */
};

/* The memory of the library. A program that links the archive may define these three functions itself, all of them, in an
   object file: they then stand in the place of those over malloc, realloc and free that the archive has. (A program that
   links libcargo_manifest.so has those over malloc in any case.) All three are over one allocator, and may be called by each
   thread that calls the library, at once.

   rattle_alloc    a block of `size` bytes, aligned to `align`, which is a power of two and 16 at most. `size` may be 0: the
                   block is then one as any other, and is given back.
   rattle_realloc  a block of `size` bytes that begins with the first `kept` bytes of the old one, aligned in the same way;
                   the old one is given back. Where there is no memory, the old one stays, as it was.
   rattle_dealloc  gives a block back. */
struct rattle_tried rattle_alloc(size_t size, size_t align);
struct rattle_tried rattle_realloc(void *block, size_t kept, size_t size, size_t align);
void rattle_dealloc(void *block);

/* The sizes and places that the library was compiled with. */
#ifdef __LP64__
#if defined __cplusplus && __cplusplus >= 201103L
#define MANIFEST_CHECK(name, is_so) static_assert(is_so, #name)
#elif !defined __cplusplus && defined __STDC_VERSION__ && __STDC_VERSION__ >= 201112L
#define MANIFEST_CHECK(name, is_so) _Static_assert(is_so, #name)
#else
#define MANIFEST_CHECK(name, is_so) typedef char manifest_checked_##name[(is_so) ? 1 : -1]
#endif

MANIFEST_CHECK(answer, sizeof(struct manifest_answer) == 32 && offsetof(struct manifest_answer, status) == 0
                           && offsetof(struct manifest_answer, cause) == 1
                           && offsetof(struct manifest_answer, length) == 8
                           && offsetof(struct manifest_answer, start) == 16
                           && offsetof(struct manifest_answer, end) == 24);
MANIFEST_CHECK(bytes, sizeof(struct manifest_bytes) == 16 && offsetof(struct manifest_bytes, at) == 0
                          && offsetof(struct manifest_bytes, length) == 8);
MANIFEST_CHECK(names, sizeof(struct manifest_names) == 16 && offsetof(struct manifest_names, at) == 0
                          && offsetof(struct manifest_names, length) == 8);
MANIFEST_CHECK(folder, sizeof(struct manifest_folder) == 40 && offsetof(struct manifest_folder, path) == 0
                           && offsetof(struct manifest_folder, names) == 16
                           && offsetof(struct manifest_folder, fault) == 32);
MANIFEST_CHECK(folders, sizeof(struct manifest_folders) == 16 && offsetof(struct manifest_folders, at) == 0
                            && offsetof(struct manifest_folders, length) == 8);
MANIFEST_CHECK(request, sizeof(struct manifest_request) == 64 && offsetof(struct manifest_request, bytes) == 0
                            && offsetof(struct manifest_request, root) == 16
                            && offsetof(struct manifest_request, folders) == 32
                            && offsetof(struct manifest_request, most) == 48
                            && offsetof(struct manifest_request, input) == 56
                            && offsetof(struct manifest_request, output) == 57
                            && offsetof(struct manifest_request, has_root) == 58
                            && offsetof(struct manifest_request, has_folders) == 59);
MANIFEST_CHECK(step, sizeof(struct manifest_step) == 32 && offsetof(struct manifest_step, key) == 0
                         && offsetof(struct manifest_step, index) == 16
                         && offsetof(struct manifest_step, is_index) == 24);
MANIFEST_CHECK(path, sizeof(struct manifest_path) == 16 && offsetof(struct manifest_path, at) == 0
                         && offsetof(struct manifest_path, length) == 8);
MANIFEST_CHECK(edit, sizeof(struct manifest_edit) == 40 && offsetof(struct manifest_edit, path) == 0
                         && offsetof(struct manifest_edit, text) == 16 && offsetof(struct manifest_edit, kind) == 32);
MANIFEST_CHECK(indexes, sizeof(struct manifest_indexes) == 16 && offsetof(struct manifest_indexes, at) == 0
                            && offsetof(struct manifest_indexes, length) == 8);
MANIFEST_CHECK(member, sizeof(struct manifest_member) == 56 && offsetof(struct manifest_member, path) == 0
                           && offsetof(struct manifest_member, bytes) == 16
                           && offsetof(struct manifest_member, patterns) == 32
                           && offsetof(struct manifest_member, has_manifest) == 48);
MANIFEST_CHECK(members, sizeof(struct manifest_members) == 16 && offsetof(struct manifest_members, at) == 0
                            && offsetof(struct manifest_members, length) == 8);
MANIFEST_CHECK(package, sizeof(struct manifest_package) == 40 && offsetof(struct manifest_package, path) == 0
                            && offsetof(struct manifest_package, name) == 16
                            && offsetof(struct manifest_package, has_name) == 32);
MANIFEST_CHECK(packages, sizeof(struct manifest_packages) == 16 && offsetof(struct manifest_packages, at) == 0
                             && offsetof(struct manifest_packages, length) == 8);
MANIFEST_CHECK(check_request, sizeof(struct manifest_check_request) == 112
                                  && offsetof(struct manifest_check_request, bytes) == 0
                                  && offsetof(struct manifest_check_request, root) == 16
                                  && offsetof(struct manifest_check_request, config) == 32
                                  && offsetof(struct manifest_check_request, folders) == 48
                                  && offsetof(struct manifest_check_request, members) == 64
                                  && offsetof(struct manifest_check_request, packages) == 80
                                  && offsetof(struct manifest_check_request, most) == 96
                                  && offsetof(struct manifest_check_request, has_root) == 104
                                  && offsetof(struct manifest_check_request, is_listed) == 105
                                  && offsetof(struct manifest_check_request, has_config) == 106
                                  && offsetof(struct manifest_check_request, has_folders) == 107
                                  && offsetof(struct manifest_check_request, has_members) == 108
                                  && offsetof(struct manifest_check_request, has_packages) == 109
                                  && offsetof(struct manifest_check_request, publishes) == 110);
MANIFEST_CHECK(tried, sizeof(struct rattle_tried) == 16 && offsetof(struct rattle_tried, is_there) == 0
                          && offsetof(struct rattle_tried, block) == 8);
#undef MANIFEST_CHECK
#endif

#ifdef __cplusplus
}
#endif

#endif
