//! Why a member cannot inherit, and targets without a file, each with its places: of texts that are written here, in which the
//! places are looked for.

use cargo_manifest::calls::{resolved, AtMost, ListingError, Listings, Part, Refusal};
use cargo_manifest::{refusals, unfound_targets, Cause, Place, UnresolvedCause};
use std::ops::Range;

fn not_in_workspace(name: &str) -> UnresolvedCause {
    UnresolvedCause::NotInWorkspace(name.into())
}

fn inherited(name: &str) -> UnresolvedCause {
    UnresolvedCause::InheritedInWorkspace(name.into())
}

/// Where in the text this stands, once.
fn range_of(text: &str, word: &str) -> Option<Range<usize>> {
    let start = text.find(word)?;
    assert_eq!(text.rfind(word), Some(start), "{word:?} stands in {text:?} more than once");
    Some(start..start + word.len())
}

/// A refusal: its path, its cause, and what stands in both texts at its place: the value, the key and the header, each empty where
/// there is none.
type Wanted<'a> = (&'a str, UnresolvedCause, [&'a str; 3], [&'a str; 3]);

fn place_of(text: &str, words: [&str; 3]) -> Place {
    let [value, key, header] =
        words.map(|word| (!word.is_empty()).then(|| range_of(text, word).unwrap_or_else(|| panic!("no {word:?}"))));
    Place { value, key, header }
}

fn is_refused(member: &str, root: &str, wanted: &[Wanted<'_>]) {
    let found = refusals(member.as_bytes(), root.as_bytes()).expect("refusals");
    assert_eq!(found.len(), wanted.len(), "{found:?}");
    for (refusal, (path, cause, own, shared)) in found.iter().zip(wanted) {
        assert_eq!((refusal.path.to_string().as_str(), &refusal.cause), (*path, cause));
        assert_eq!(refusal.place, place_of(member, *own), "{path} in the member");
        assert_eq!(refusal.root_place, place_of(root, *shared), "{path} in the root");
    }
    let first = found.into_iter().next().map(|refusal| Refusal::from(refusal.cause));
    assert_eq!(resolved(member.as_bytes(), root.as_bytes()).err(), first);
}

#[test]
fn fields_are_missing_in_the_workspace() {
    let member = "[package]\nname = 'a'\nedition = { workspace = true }\nversion.workspace = true\n";
    let root = "[workspace.package]\nedition = '2021'\n";
    let own = ["", "version", "[package]"];
    is_refused(member, root, &[("package.version", not_in_workspace("version"), own, ["", "", "[workspace.package]"])]);
    let root = "members = 1\n[package]\nname = 'r'\n[workspace]\n";
    is_refused(
        member,
        root,
        &[
            (
                "package.edition",
                not_in_workspace("edition"),
                ["{ workspace = true }", "edition", "[package]"],
                ["", "", "[workspace]"],
            ),
            ("package.version", not_in_workspace("version"), own, ["", "", "[workspace]"]),
        ],
    );
}

#[test]
fn dependencies_of_every_map() {
    let member = "[package]\nname = 'a'\n\n[dependencies]\none = { workspace = true, optional = true }\n\n\
                  [dev-dependencies.two]\nworkspace = true\n\n[build-dependencies]\nthree.workspace = true\n\n\
                  [target.'cfg(unix)'.dependencies]\n\"fo.ur\".workspace = true\n";
    let root = "[workspace]\nmembers = ['a']\n\n[workspace.dependencies]\ntwo = { workspace = true }\nfive = '5'\n";
    let missing = ["", "", "[workspace.dependencies]"];
    is_refused(
        member,
        root,
        &[
            (
                "dependencies.one",
                not_in_workspace("one"),
                ["{ workspace = true, optional = true }", "one", "[dependencies]"],
                missing,
            ),
            (
                "dev-dependencies.two",
                inherited("two"),
                ["", "", "[dev-dependencies.two]"],
                ["{ workspace = true }", "two", "[workspace.dependencies]"],
            ),
            ("build-dependencies.three", not_in_workspace("three"), ["", "three", "[build-dependencies]"], missing),
            (
                "target.\"cfg(unix)\".dependencies.\"fo.ur\"",
                not_in_workspace("fo.ur"),
                ["", "\"fo.ur\"", "[target.'cfg(unix)'.dependencies]"],
                missing,
            ),
        ],
    );
}

#[test]
fn lints_of_each_kind() {
    let member = "[package]\nname = 'a'\n[lints]\nworkspace = true\n";
    let (at, lints) = (["", "", "[lints]"], "lints");
    is_refused(member, "[workspace]\n", &[(lints, not_in_workspace(lints), at, ["", "", "[workspace]"])]);
    let root = "[workspace.lints.workspace]\na = 'warn'\n";
    is_refused(
        member,
        root,
        &[(lints, UnresolvedCause::ToolNamedWorkspace, at, ["", "", "[workspace.lints.workspace]"])],
    );
    let root = "workspace.lints = { workspace = { a = 'warn' } }";
    let tool = ["{ a = 'warn' }", "workspace =", ""];
    let found = refusals(member.as_bytes(), root.as_bytes()).expect("refusals");
    assert_eq!(found[0].root_place.value, range_of(root, tool[0]));
    let member = "package.name = 'a'\nlints = { workspace = true, rust.a = 'warn' }\n";
    let own = ["{ workspace = true, rust.a = 'warn' }", "lints", ""];
    let root = "[workspace.lints]\nrust = {}\n";
    is_refused(member, root, &[(lints, UnresolvedCause::MixedLints, own, ["", "", "[workspace.lints]"])]);
    is_refused(
        member,
        "[workspace]\n",
        &[
            (lints, UnresolvedCause::MixedLints, own, ["", "", "[workspace]"]),
            (lints, not_in_workspace(lints), own, ["", "", "[workspace]"]),
        ],
    );
}

#[test]
fn nothing_is_refused() {
    let root =
        "[workspace.package]\nversion = '1.0.0'\n[workspace.dependencies]\nlog = '0.4'\n[workspace.lints.rust]\n";
    is_refused("name = 'a'", root, &[]);
    let member = "[package]\nname = 'a'\nversion.workspace = true\n[dependencies]\nlog.workspace = true\n";
    is_refused(member, root, &[]);
}

/// The places of a text are not found whose first value is the number that is tried in its place; those of the other text are.
#[test]
fn places_that_are_not_found() {
    let member = "[package.metadata]\nx = -1000000000\n[package]\nname = 'a'\nversion.workspace = true\n";
    let root = "[workspace]\n";
    let found = refusals(member.as_bytes(), root.as_bytes()).expect("refusals");
    assert_eq!((found.len(), &found[0].place), (1, &Place::default()));
    assert_eq!(found[0].root_place, place_of(root, ["", "", "[workspace]"]));
    assert_eq!((found[0].span(), found[0].line_column(member.as_bytes())), (None, None));
    let member = "[package]\nname = 'a'\nversion.workspace = true\n";
    let root = "[workspace.metadata]\nx = -1000000000\n";
    let found = refusals(member.as_bytes(), root.as_bytes()).expect("refusals");
    assert_eq!(found[0].place, place_of(member, ["", "version", "[package]"]));
    assert_eq!((found[0].root_span(), found[0].root_line_column(root.as_bytes())), (None, None));
    let lib = "[package.metadata]\nx = -1000000000\n[package]\nname = 'a'\n[lib]\n";
    let unfound = unfound_targets(lib.as_bytes(), &Listings::new()).expect("targets");
    assert_eq!((unfound.len(), &unfound[0].place), (1, &Place::default()));
}

/// What stands under an old header, or by a second spelling, stands at no path of a refusal: its place is the table around it.
#[test]
fn other_spellings_and_old_headers() {
    let member = "[project]\nname = 'a'\nversion.workspace = true\n[dev_dependencies]\nb.workspace = true\n";
    let found = refusals(member.as_bytes(), b"[workspace]").expect("refusals");
    let paths: Vec<_> = found.iter().map(|refusal| refusal.path.to_string()).collect();
    assert_eq!(paths, ["package.version", "dev-dependencies.b"]);
    assert!(found.iter().all(|refusal| refusal.place == Place::default() && refusal.root_span() == Some(0..11)));
}

#[test]
fn what_is_not_read_is_refused() {
    let member = b"[package]\nname = 'a'\nversion.workspace = true\n";
    let with = |member: &[u8], root: &[u8]| refusals(member, root).unwrap_err();
    assert_eq!(with(b"\xff", b"[workspace]"), Refusal::Utf8(Part::Manifest));
    assert_eq!(with(member, b"\xff"), Refusal::Utf8(Part::Root));
    let missing = |part, path: &str| Refusal::Schema { part, cause: Cause::Missing, path: path.into() };
    assert_eq!(with(b"[package]", b"\xff"), missing(Part::Manifest, "package.name"));
    assert_eq!(with(member, b"[package]"), missing(Part::Root, "package.name"));
    assert_eq!(with(member, b"name = 'r'"), Refusal::NoWorkspace);
    assert_eq!(with(member, format!("a = {}", "[".repeat(129)).as_bytes()), Refusal::TooDeep(Part::Root));
    assert!(matches!(with(member, b"[workspace"), Refusal::Toml { part: Part::Root, range, .. } if range == (10..10)));
    // (a float in metadata is kept by no table of the library)
    let float = b"[workspace.metadata]\na = 0.5";
    let held = |part| Refusal::Schema { part, cause: Cause::HoldsFloat, path: "workspace.metadata.a".into() };
    assert_eq!(with(float, b"[workspace]"), held(Part::Manifest));
    assert_eq!(with(member, float), held(Part::Root));
}

#[test]
fn the_bound_is_that_on_the_tagged_bytes() {
    let member = b"package.name = 'a'\npackage.version.workspace = true";
    // 7 3 7 1 7 3 2 3 1 7 `package` 7 1 7 3 2 3 1 7 `version` 7 1 7 3 2 0 2 10 1 7 `version`, then
    // 7 1 7 3 7 0 7 2 2 19 2 34 7 0 and 7 1 7 3 7 0 7 0 7 2 2 0 2 11
    let all = refusals(member, b"[workspace]");
    assert_eq!(AtMost(77).refusals(member, b"[workspace]"), all);
    assert_eq!(AtMost(76).refusals(member, b"[workspace]"), Err(Refusal::TooLong));
    // 7 2 7 1 7 1 1 3 `lib` 7 1 7 3 7 2 2 26 2 28 7 2 2 20 2 23 7 0
    let library = b"package.name = 'a'\n\nlib = {}";
    assert_eq!(AtMost(29).unfound_targets(library, &Listings::new()), unfound_targets(library, &Listings::new()));
    assert_eq!(AtMost(28).unfound_targets(library, &Listings::new()), Err(Refusal::TooLong));
}

const TARGETS: &str = "lib = { name = 'l' }\n[package]\nname = 'a'\nedition = '2021'\n[[bin]]\nname = 'b'\npath = 'b.rs'\n\n\
                       [[bin]]\nname = 'c'\n\n[[example]]\nname = 'd'\n\n[[test]]\nname = 'e'\n\n[[bench]]\nname = 'f'\n";

/// The paths and the words at the places of the unfound targets.
fn lines(text: &str, listings: &Listings) -> Vec<(String, String)> {
    let found = unfound_targets(text.as_bytes(), listings).expect("targets");
    let at = |place: Option<Range<usize>>| text[place.expect("a place")].to_owned();
    found.iter().map(|target| (target.path.to_string(), at(target.span()))).collect()
}

#[test]
fn targets_without_a_file() {
    let pairs = |pairs: &[(&str, &str)]| -> Vec<(String, String)> {
        pairs.iter().map(|(path, word)| ((*path).to_owned(), (*word).to_owned())).collect()
    };
    let all = [
        ("lib", "{ name = 'l' }"),
        ("bin[1]", "[[bin]]"),
        ("example[0]", "[[example]]"),
        ("test[0]", "[[test]]"),
        ("bench[0]", "[[bench]]"),
    ];
    assert_eq!(lines(TARGETS, &Listings::new()), pairs(&all));
    let found = unfound_targets(TARGETS.as_bytes(), &Listings::new()).expect("targets");
    assert_eq!(found[1].line_column(TARGETS.as_bytes()), Some((9, 1)));
    assert_eq!(found[0].place, place_of(TARGETS, ["{ name = 'l' }", "lib", ""]));
    let mut listings = Listings::new();
    listings.put("src", ["lib.rs"]);
    listings.put("examples", ["d"]);
    listings.put("examples/d", ["main.rs"]);
    listings.put("tests", ["e.rs", "other.rs"]);
    assert_eq!(lines(TARGETS, &listings), pairs(&[("bin[1]", "[[bin]]"), ("bench[0]", "[[bench]]")]));
    assert_eq!(lines("[package]\nname = 'a'\n", &Listings::new()), []);
    assert_eq!(lines("[workspace]\n", &Listings::new()), []);
}

#[test]
fn folders_with_faults() {
    let mut listings = Listings::new();
    listings.put_error(".", ListingError::Other);
    listings.put_error("tests", ListingError::Other);
    assert_eq!(lines(TARGETS, &listings).len(), 5);
    listings.put_error("benches", ListingError::OutOfMemory);
    let refused = |listings: &Listings| unfound_targets(TARGETS.as_bytes(), listings).unwrap_err();
    assert_eq!(refused(&listings), Refusal::Io(ListingError::OutOfMemory));
    listings.put_error("src", ListingError::Other);
    assert_eq!(refused(&listings), Refusal::Io(ListingError::Other));
    let text = b"[package]\nname = 1";
    let wrong = Refusal::Schema { part: Part::Manifest, cause: Cause::WrongKind, path: "package.name".into() };
    assert_eq!(unfound_targets(text, &Listings::new()), Err(wrong));
}
