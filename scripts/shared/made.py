"""What is made of the rows of a form (schema.py): in docs/KEYS.md, in the definitions, in the code, in the Rust crate and
in the Python package. Each function returns lines without their indent."""
import re
import textwrap

from .schema import FORMS, value

# what stands where something begins that is made: in the code, the definitions, Python, C and a page
WORDS = "(made by scripts/keys --write)"
MARK, IN_DEFINITIONS, IN_PYTHON, IN_C, IN_PAGE = (
    mark.format(WORDS) for mark in ("// {}", "-- {}", "# {}", "/* {} */", "<!-- {} -->")
)
REFERENCE = "https://doc.rust-lang.org/cargo/reference"
# what one value and many values of a kind are called, its type in the definitions, what a value of the code holds there, and its
# type in Rust
KINDS = {
    "text": ("text", "texts", "Text", "string_bytes", "String"),
    "flag": ("boolean", "booleans", "Bool", "λ b. b", "bool"),
    "truth": ("`true`", "", "Unit {0}", "λ t. tt", "True"),
    "texts": ("list of texts", "lists of texts", "List Text", "λ v. map string_bytes v.items", "Vec<String>"),
    "text_or_flag": ("text or boolean", "", "StringOrBool", "text_or_flag_content", "StringOrBool"),
    "publish": ("boolean or list of texts", "", "Publish", "publish_content", "Publish"),
    "codegen": ("whole number from 0 to 65535", "", "ℤ", "pos", "u16"),
    "priority": ("whole number from -128 to 127", "", "ℤ", "λ n. n", "i8"),
    "raw": ("any value without a float", "values without a float", "Data", "view", "Value"),
    "metadata": ("metadata", "", "Data", "tree", "M"),
    "dependency": ("dependency", "dependencies", "Dependency", "dependency_content", "Dependency"),
    "lint": ("lint", "lints", "Lint", "lint_content", "Lint"),
    "edition": ("[edition](#words)", "", "Edition", "edition_content", "Edition"),
    "resolver": ("[resolver](#words)", "", "Resolver", "resolver_content", "Resolver"),
    "level": ("[level](#words)", "", "LintLevel", "level_content", "LintLevel"),
    "status": ("[status](#words)", "", "MaintenanceStatus", "status_content", "MaintenanceStatus"),
    "strip": ("[strip](#words)", "", "StripSetting", "strip_content", "StripSetting"),
}
# of forms whose name another definition has: what a value of the code holds, as a function, and the name of its laws
CONTENTS = {"detailed_rows": "detail_content", "lint_rows": "lint_config_content"}
LAWS = {"lint_rows": "lint_config"}
# the maps that have a name in Rust
MAPS = {
    "BTreeMap<String, Dependency>": "DepsSet",
    "BTreeMap<String, Target>": "TargetDepsSet",
    "BTreeMap<String, Vec<String>>": "FeatureSet",
    "BTreeMap<String, DepsSet>": "PatchSet",
    "BTreeMap<String, Lint>": "ToolLintsSet",
    "BTreeMap<String, ToolLintsSet>": "LintsSet",
}
WRITTEN = {"never": "always", "if_true": "unless true", "if_false": "unless false", "is_empty": "unless empty"}


def region(pattern, lines, indent="", mark=None):
    """A part of a file: where it stands, and its lines, the first of which may be a mark."""
    return pattern, [f"{indent}{line}".rstrip() for line in ([mark] if mark else []) + list(lines)]


# A KIND
def called(kind):
    """What a value of a kind is called in docs/KEYS.md, and many of them."""
    match kind:
        case str():
            return KINDS[kind][:2]
        case [inner]:
            return called(inner)
        case ["form", inner]:
            section = FORMS[inner if isinstance(inner, str) else inner[0]][0]
            link = f"(#{section.lower().replace(' ', '-')})"
            return f"table [{section}]{link}", f"tables [{section}]{link}"
        case ["inh", inner]:
            return f"{called(inner)[0]}, or inherited", ""
        case ["list_of" | "map_of" as of, inner]:
            word, many = of.removesuffix("_of"), called(inner)[1]
            return f"{word} of {many}", f"{word}s of {many}"
    raise ValueError(f"no kind is known by {kind}")


def content_type(kind):
    """The type of a kind's contents, and whether it is one word."""
    match kind:
        case str():
            of = KINDS[kind][2]
        case [inner]:
            return content_type(inner)
        case ["form", inner]:
            of = FORMS[inner if isinstance(inner, str) else inner[0]][1]
        case [of, inner]:
            of = {"inh": "Inheritable", "list_of": "List", "map_of": "Entries"}[of] + " " + in_parentheses(content_type(inner))
    return of


def in_parentheses(text):
    return f"({text})" if " " in text else text


def rust_type(kind):
    """The type of a kind's values, by the names that maps have."""
    match kind:
        case "package_metadata" | "workspace_metadata":
            return {"package_metadata": "P", "workspace_metadata": "W"}[kind]
        case str():
            return KINDS[kind][4]
        case [inner]:
            return rust_type(inner)
        case ["form", [inner, of]]:
            return f"{FORMS[inner][1]}<{rust_type(of)}>"
        case ["form", inner]:
            return FORMS[inner][1]
        case ["inh", inner]:
            return f"MaybeInherited<{rust_type(inner)}>"
        case ["list_of", inner]:
            return f"Vec<{rust_type(inner)}>"
        case ["map_of", inner]:
            return MAPS.get(of := f"BTreeMap<String, {rust_type(inner)}>", of)
    raise ValueError(f"no kind is known by {kind}")


def field_type(row):
    """The type of a field."""
    if row.need == "others":
        return rust_type(["map_of", row.kind])
    return f"Option<{rust_type(row.kind)}>" if row.is_option else rust_type(row.kind)


# docs/KEYS.md
def need(row):
    """Whether a field is required or what its default is, and when it is written."""
    default = None if row.absent is None else f"default `{value(row.absent, row.kind)}`"
    match row.need:
        case "required":
            return "required", "always"
        case "optional" | "others":
            return "optional", "if it is there"
        case "default":
            return default, WRITTEN[row.skipped]
        case "lenient_optional":
            return "lenient: absent if it does not fit", "if it fits"
        case "lenient_default":
            return f"lenient: {default}, also if it does not fit", "always"
    raise ValueError(f"no need is known by {row.need}")


def keys_table(form):
    """The table of a form."""
    rows = [
        (f"`{row.key}`" if row.key else "any other key", f"`{row.second}`" if row.second else "", called(row.kind)[0], *need(row))
        for row in form.rows
    ]
    return table(("key", "second spelling", "holds", "required or default", "written"), rows)


def table(head, rows):
    """A table of a page."""
    first, *others = (re.sub(r"  (?=\|)", " ", f"| {' | '.join(cells)} |") for cells in (head, *rows))
    return [first, "|" + "---|" * len(head), *others]


# THE DEFINITIONS
def content_of(name):
    """The function that says what a value of a form's struct holds."""
    return CONTENTS.get(name, name.replace("_rows", "_content"))


def escaped(field):
    return f"«{field}»" if field in ("package", "optional") else field


def content_record(form):
    """The fields of the record."""
    for row in form.rows:
        of = content_type(row.kind)
        if row.is_mark:
            continue
        if row.need == "others":
            of = f"Entries {in_parentheses(of)}"
        elif row.is_option:
            of = f"Option {in_parentheses(of)}"
        yield f"pub {escaped(row.field)} : {of}"


def function(kind, maps):
    """What a value of a kind holds, as a function; `maps` are the functions of those maps that have one."""
    match kind:
        case "package_metadata" | "workspace_metadata":
            return kind.replace("metadata", "tree")
        case str():
            return KINDS[kind][3]
        case [inner]:
            return function(inner, maps)
        case ["form", [inner, of]]:
            return f"{content_of(inner)} {function(of, maps)}"
        case ["form", inner]:
            return content_of(inner)
        case ["inh", inner]:
            return f"inh_content {in_parentheses(function(inner, maps))}"
        case ["list_of", inner]:
            return f"λ v. map {in_parentheses(function(inner, maps))} v.items"
        case ["map_of", inner]:
            return maps.get(str(kind), f"λ m. entries_content {in_parentheses(function(inner, maps))} m.entries")
    raise ValueError(f"no kind is known by {kind}")


def applied(text, place):
    """A function, applied to what stands at a place."""
    if not text.startswith("λ"):
        return f"{text} {place}"
    name, _, body = text.removeprefix("λ ").partition(". ")
    return place if body == name else re.sub(rf"\b{name}\b(?=\.(?:items|entries)$)", place, body)


def content_function(form, place, maps):
    """The fields of what a value of the code holds; `place` is the variable that the value has."""
    for row in form.rows:
        if row.is_mark:
            continue
        kind = ["map_of", row.kind] if row.need == "others" else row.kind
        text, at = function(kind, maps), f"{place}.{'«optional»' if row.field == 'optional' else row.field}"
        held = f"option_map {in_parentheses(text)} {at}" if row.is_option else applied(text, at)
        yield f"{escaped(row.field)} = {held};"


def absent_record(form, given):
    """The fields of the record of which nothing is there but what is required, which is `given`."""
    for row in form.rows:
        if not row.is_mark:
            none = {"required": given, "optional": "None", "lenient_optional": "None", "others": "[]"}
            yield f"{escaped(row.field)} = {none.get(row.need) or spelled(row.absent)};"


def spelled(words):
    """The text of an expression."""
    return words if isinstance(words, str) else " ".join(map(spelled, words))


# THE CODE
def about(row):
    """The comment of a field."""
    said = row.about
    if row.need == "default":
        default = value(row.absent, row.kind)
        said += " Default: " + ("empty." if default in ("[]", "{}") else f"`{default}`.")
    lines = textwrap.wrap(said, 108, break_long_words=False, break_on_hyphens=False)
    return [f"/// {line}" for line in lines] + ["///", f"/// [Cargo reference]({REFERENCE}/{row.reference})."]


def struct(form):
    """The fields of the struct."""
    for row in form.rows:
        yield from about(row)
        yield f"pub {row.field}: {field_type(row)},"


def code_need(row):
    """The need of a row, in the lists of the code."""
    match row.need, row.absent, row.skipped:
        case "optional", _, _:
            return "tree" if row.kind in ("metadata", "package_metadata", "workspace_metadata") else "optional"
        case "lenient_optional", _, _:
            return "lenient"
        case "lenient_default", _, _:
            return f"lenient_default({rust_type(row.kind)}::default())"
        case "default", "true" | "false" as flag, _:
            return f"default_{flag}"
        case "default", "[]", "is_empty":
            return "nonempty_list"
        case "default", "[]", _:
            return "default_map" if row.kind[0] == "map_of" else "default_list"
        case "default", ["codes", text], _:
            return f"default_text({text})"
        case "default", ["pos", number], _:
            return f"default({number})"
    return row.need


def others_about(form):
    """The comment of the field of all other keys."""
    return [line for row in form.rows if row.key is None for line in about(row)]


def code_rows(form):
    """The rows of the list."""
    for row in form.rows:
        if row.key:
            second = f' | "{row.second}"' if row.second else ""
            yield f'{row.field}: {code_need(row)} "{row.key}"{second};'


def code_list(form):
    """The list, and the static of its spellings."""
    return [
        f"macro_rules! {form.macro} {{", "    ($make:ident $given:tt) => {", "        $make! { $given",
        *indented(12, [MARK, *code_rows(form)]), "        }", "    };", "}",
        "", f"static {form.macro.upper()}: &[Spellings] = {form.macro}!(names_of_rows());",
    ]


def indented(by, lines):
    return [f"{' ' * by}{line}".rstrip() for line in lines]


def spaced(blocks):
    """The lines of all blocks, with an empty line between two."""
    return [line for block in blocks if block for line in ("", *block)][1:]


def comment(text):
    """The comment of an item."""
    return [f"/// {line}" for line in textwrap.wrap(text, 116, break_long_words=False, break_on_hyphens=False)]


def ghost(name, what):
    """A ghost member of an impl."""
    return textwrap.wrap(f"ghost {name} = {{ {what} }};", 96, subsequent_indent="    ")


def parameters(form):
    """The type parameters of a form's struct: the types of its metadata."""
    return [rust_type(kind) for kind in form.kinds]


def struct_of(form):
    """The struct of a form, with its type parameters."""
    return f"{form.record}<{', '.join(names)}>" if (names := parameters(form)) else form.record


def impl_of(trait, form):
    """The first line of an impl for a form's struct."""
    bounds = ", ".join(f"{name}: Metadata" for name in parameters(form))
    return f"impl<{bounds}> {trait} for {struct_of(form)} {{" if bounds else f"impl {trait} for {form.record} {{"


def of_metadata(name, form, *members):
    """A definition that takes these members of each type of metadata."""
    names = parameters(form)
    return " ".join([name, *(member.format(name) for member in members for name in names)])


def needs_memory(form):
    """Whether `empty` takes the allocator, but for a required row."""
    with_memory = ("default_list", "nonempty_list", "default_map", "default_text")
    return any(code_need(row).startswith(with_memory) for row in form.rows if row.key)


def empty_of(form):
    """What makes a record of which no row is read, with what the required row holds: its comment and its line; None where the
    required row is no text, so that it is by hand."""
    required = [row for row in form.rows if row.need == "required"]
    if form.is_open or parameters(form) or [row.kind for row in required] not in ([], ["text"]):
        return None
    alloc = "alloc" if needs_memory(form) or required else "()"
    if required:
        said = f"the struct, the allocator, and what `{required[0].field}`, the required row, holds until it is read"
    elif alloc == "alloc":
        said = "the struct and the allocator; no row is required"
    else:
        said = "the struct; no row needs the allocator, and none is required"
    return f"// {said}", f"{form.macro}!(empty_of({form.record}, {alloc}, {'String::new(alloc)' if required else '()'}))"


def empty(form, text):
    """The method `empty`, by what the file has; None where it is by hand."""
    if re.search(rf"^impl Default for {form.record} {{", text, re.M):
        lines = [f"{form.record}::default()"]
    elif re.search(rf"^    pub fn default\(alloc: Global\) -> {form.record}\b", text, re.M):
        lines = [f"{form.record}::default(alloc)"]
    elif not (lines := empty_of(form)):
        return None
    alloc = "alloc" if "alloc" in lines[-1] else "_alloc"
    return [f"fn empty({alloc}: Global) -> {struct_of(form)} {{", *indented(4, lines), "}"]


def default(form):
    """The impl of `Default`, within its braces, of a form of which each row may be absent; None where it is by hand."""
    lines = empty_of(form)
    if lines is None or "alloc" in lines[-1]:
        return None
    is_default = ghost("is_default", f"IsOfTable {form.name} {content_of(form.name)} no_members")
    return [MARK, *spaced([is_default, [f"fn default() -> {form.record} {{", *indented(4, lines), "}"]])]


def clone_clauses(form):
    """What the impl of `Clone` says of a copy: that each field is one of the field of the original, and what needs no memory."""
    fields = [(f"⟦<{field_type(row)} as Clone>⟧", row.field) for row in form.rows]
    for clause, places, said in (("is_clone", "x y", "is_clone x.{0} y.{0}"), ("is_infallible", "x", "is_infallible x.{0}")):
        yield f"ghost {clause} = {{ λ {places}."
        for number, (of, field) in enumerate(fields, 1):
            yield f"    {of}.{said.format(field)}{' };' if number == len(fields) else ' ×'}"


def cloned_fields(form):
    """What copies each field."""
    return (f"to.{row.field}.clone_from(&from.{row.field})?;" for row in form.rows)


# what the impl of `Rowed` may have that is by hand: a method `empty` that is not as any other; the attributes of `read_row`; and,
# with its comment, that each row is always well-formed
BY_HAND = {
    "empty": r"^    fn empty\((?:.*\n)*?    \}\n",
    "attributes": r"(?:^    #\[.*\n)+(?=(?:^    //.*\n)?^    fn read_row\()",
    "well_formed": r"(?:^    /// .*\n)+^    fn row_is_well_formed\((?:.*\n)*?    \}\n",
}


def by_hand(impl):
    """The lines of each of these, of an impl as it stands there."""
    found = {name: re.search(pattern, impl, re.M) for name, pattern in BY_HAND.items()}
    return {name: textwrap.dedent(part[0]).strip().split("\n") if part else [] for name, part in found.items()}


def rowed_head(form):
    """The beginning of the impl of `Rowed`."""
    content = of_metadata(f"{form.macro}_of", form, "{}.kind", "{}.content") if form.kinds else content_of(form.name)
    return spaced([
        ghost("Content", f"Contents.{form.record}"), ghost("content", content),
        ghost("rows", of_metadata(form.name, form, "(tree_of {}.kind)")),
        ["fn names() -> &'static [Spellings] {", f"    {form.macro.upper()}", "}"],
    ])


def rowed_methods(form):
    """The end of it: the methods that go over the rows."""
    methods = {
        "read_row(&mut self, alloc: Global, i: usize, key: Word, slot: &mut RowSlot<'_>) -> RowRead":
            "read_row_of(self, alloc, i, key, slot)",
        "row_findings(&self, alloc: Global, i: usize, key: Word, slot: &RowSlot<'_>) -> Found":
            "findings_of_row(self, alloc, i, key, slot)",
        "put_row<'a>(&'a self, alloc: Global, i: usize, key: Word, out: &mut Pairs<'a>) -> RowPut":
            "put_row_of(self, alloc, i, key, out)",
        "row_is_well_formed(&self, i: usize) -> bool": "good_row_of(self, i)",
    }
    return [[f"fn {head} {{", f"    {form.macro}!({call})", "}"] for head, call in methods.items()]


def rowed(form, text, kept):
    """The impl of `Rowed`, in a file with this text; `kept` is what it has that is by hand."""
    others = " but the last" if kept["well_formed"] else ""
    said = comment(
        f"[`Rowed`] says what each method does. The body `{form.macro}!(read_row_of(..))` is made of the rows of"
        f" `{form.macro}!`, as a `match` on the row's index `i`, and so are the others{others} (`manifest_value::row_macros`).")
    first, methods = empty(form, text), rowed_methods(form)
    mark = [] if first and not kept["attributes"] else [MARK]
    methods[0] = [*kept["attributes"], *mark, *methods[0]]
    methods[-1] = kept["well_formed"] or methods[-1]
    lines = spaced([[MARK, *rowed_head(form)], first or kept["empty"], *methods])
    return [*said, impl_of("Rowed", form), *indented(4, lines), "}"]


def form_impl(form, kept):
    """The impl of `Form`, after that of `Rowed`; none of a form that takes any other key."""
    if form.is_open:
        return []
    said = comment("A form: each field is a row, so it is read and written by its list alone, and `Schema` comes with it."
                   " `covers` is a law, with an empty body.")
    law = f"{LAWS.get(form.name, form.macro)}_sound"
    lawful = ghost("lawful", of_metadata(law, form, "(tree_of {}.kind)", "(tree_sound {}.lawful)"))
    lines = [*([MARK] if kept["well_formed"] else []), "fn covers() {}", "", *lawful]
    return [*said, impl_of("Form", form), *indented(4, lines), "}"]


def impls(form, text, there):
    """The impls of `Rowed` and `Form`, in a file with this text, where they stand there as `there`."""
    kept = by_hand(there)
    return spaced([rowed(form, text, kept), form_impl(form, kept)])


# THE IMPLS of Copied and of Compared
# kinds whose values have no memory, so that a copy of one is never refused
SMALL = ("flag", "truth", "codegen", "priority", "lint", "edition", "resolver", "level", "status", "strip")
# forms so wide that a copy is compared with the original row by row
WIDE = ("detailed_rows", "badges_rows", "profile_rows", "workspace_package_rows")
# types whose impl of Copied is by hand: they hold values of other types, whose laws it names
COPIED_BY_HAND = ("Dependency", "Target", "Profiles", "Package", "Workspace", "Manifest")


def is_small(kind, forms):
    """Whether a value of a kind has no memory."""
    match kind:
        case [inner]:
            return is_small(inner, forms)
        case ["form", str(form)]:
            return all(is_small(row.kind, forms) for row in forms[form].rows)
    return kind in SMALL


def copied(held, content, shown):
    """The impl of `Copied`, within its braces."""
    return spaced([ghost("Held", held), ghost("held", content), shown])


def copies_of(form, forms):
    """How it is shown that a copy of a form's struct holds what it is copied from."""
    if form.name not in WIDE:
        return ghost("copies", "Prim.search rules" if is_small(["form", form.name], forms) else "Prim.search (rules, copy_laws)")
    content = content_of(form.name)
    return [
        f"ghost copies = {{ λ x y c. by_rows {form.name} {form.macro}_built",
        f"    ({content} y) ({content} x)", f"    (unfold {form.name} in Prim.search (rules, copy_laws)) }};",
    ]


def impls_of_copied(forms):
    """Of each type its impl of `Copied`, within its braces."""
    by_name = {form.name: form for form in forms}
    of_types = {}
    for name, (_, _, content, held, of) in KINDS.items():
        content = content if "{" in content else f"Contents.{content}"
        shown = "Prim.search rules" if name in SMALL else "Prim.search (rules, copy_laws)"
        of_types[of] = copied(content, held, ghost("copies", shown))
    for form in forms:
        of_types[form.record] = copied(f"Contents.{form.record}", content_of(form.name), copies_of(form, by_name))
    return {name: lines for name, lines in of_types.items() if name not in COPIED_BY_HAND}


def impls_of_compared(forms):
    """Of each type whose values have no memory its impl of `Compared`, within its braces."""
    by_name = {form.name: form for form in forms}
    small = [of for name, (*_, of) in KINDS.items() if name in SMALL]
    small += [form.record for form in forms if is_small(["form", form.name], by_name)]
    return dict.fromkeys(small, spaced([ghost("compares", "Prim.search rules"), ghost("succeeds", "Prim.search rules")]))


# THE RUST CRATE
# what it has for a default
RUST_VALUES = {"[]": "Vec::new()", "{}": "BTreeMap::new()", '"master"': '"master".into()'}
# its fields that serde writes as nothing where they are absent, and not as null, are `optional`; these are the other ones
NULLABLE = {
    "Product": ("path", "name", "edition"),
    "Badge": ("service", "id", "project_name"),
    "Profiles": ("release", "dev", "test", "bench", "doc"),
    "Profile": None,
    "DependencyDetail": ("registry_index",),
    "WorkspacePackage": ("version", "authors", "rust_version"),
    "Package": ("rust_version",),
}
# fields that stand after all others, in the order of the crate cargo-manifest, by which they are printed
LAST = {"WorkspacePackage": ("publish", "exclude", "include", "repository", "rust_version")}


def rust_need(form, row):
    """The need of a row in the Rust crate."""
    of = rust_type(row.kind)
    default = None if row.absent is None else value(row.absent, row.kind)
    match row.need:
        case "optional":
            if of in ("M", "P", "W"):
                return f"metadata({form.record.lower()})"
            nullable = NULLABLE.get(form.record, ())
            return "nullable" if nullable is None or row.field in nullable else "optional"
        case "lenient_optional":
            return "lenient"
        case "lenient_default":
            return f"lenient_default({of}::default())"
        case "default":
            given = f"{of}::new()" if of in MAPS.values() else RUST_VALUES.get(default, default)
            return f"default({given})" if row.skipped == "never" else f"unless({given})"
    return row.need


def rust_rows(form):
    """The rows of the record, but for that of all other keys."""
    last = LAST.get(form.record, ())
    rows = [row for row in form.rows if row.key]
    for row in sorted(rows, key=lambda row: last.index(row.field) if row.field in last else -1):
        second = f' also "{row.second}"' if row.second else ""
        of = re.sub(r"\bM\b", "Metadata", re.sub(r"<P>", "<PackageMetadata>", re.sub(r"<W>", "<WorkspaceMetadata>", field_type(row))))
        yield from about(row)
        yield f'"{row.key}"{second} => {row.field}: {of}, {rust_need(form, row)};'


def rust_absent(form):
    """The fields of which nothing is there but what is required, which has the name of its field."""
    for row in form.rows:
        absent = RUST_VALUES.get(value := "None" if row.is_option else spelled(row.absent or ""), value)
        yield f"{row.field}: {absent}," if row.need != "required" else f"{row.field},"


# THE PYTHON PACKAGE
def without_links(cell):
    """A cell of a table without the links in it, and without backquotes."""
    return re.sub(r"\[([^\]]*)\]\([^)]*\)", r"\1", cell).replace("`", "")


# THE SERVER OF EDITORS
def quoted(text):
    """A text as the code has it."""
    return '"' + text.replace("\\", "\\\\").replace('"', '\\"') + '"'


def key_list(form):
    """The keys of a table, for an editor: a line each."""
    yield f'pub(crate) static {form.macro.upper()}: &str = "\\'
    for row in form.rows:
        if row.key:
            said = [row.key, row.second or "", without_links(called(row.kind)[0]), without_links(need(row)[0]), row.reference, row.about]
            assert not any(" | " in text or "\n" in text for text in said)
            yield quoted(" | ".join(said))[1:-1]
    yield '";'


def choice_list(choices):
    """The texts of each choice, for an editor: a line each, after its name."""
    yield 'pub(crate) static CHOICES: &str = "\\'
    for name, words in choices:
        yield " | ".join([name, *(word[1:-1] for word in words if word.startswith('"'))])
    yield '";'


def python_forms(forms):
    """The rows of each form."""
    for form in forms:
        yield f'"{form.section}": {{'
        yield from (f'    "{row.key or "any other key"}": "{without_links(called(row.kind)[0])}",' for row in form.rows)
        yield "},"
