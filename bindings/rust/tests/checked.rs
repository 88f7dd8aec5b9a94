//! What is wrong with manifests: the cases of `tests/checks` of the repository, and what the calls refuse.

mod cases;

use cargo_manifest::calls::{ListingError, Listings, Part, Refusal};
use cargo_manifest::check::{check, fixed, Check, File, Level, Member, PathPackage};
use cases::{cases, Told};
use std::collections::BTreeSet;

const SOUND: &[u8] = b"[package]\nname = 'a'\nversion = '0.1.0'\nedition = '2021'\n";

/// What is reported, without the columns that are not compared.
fn compared(mut told: Vec<Told>, expected: &[Told]) -> Vec<Told> {
    let free: BTreeSet<(&String, usize, &String)> =
        expected.iter().filter(|each| each.2 == 0).map(|each| (&each.0, each.1, &each.3)).collect();
    for each in &mut told {
        if free.contains(&(&each.0, each.1, &each.3)) {
            each.2 = 0;
        }
    }
    told.sort();
    told
}

/// Exactly what is expected is reported of each case. A root that cannot be read is passed in by no `Check`, so the cases that expect
/// `unreadable-root` are left out.
#[test]
fn each_case_is_reported() {
    let all = cases();
    let (left_out, tried): (Vec<_>, Vec<_>) =
        all.iter().partition(|case| case.expected.iter().any(|each| each.3 == "unreadable-root"));
    let wrong: Vec<String> = tried
        .iter()
        .filter_map(|case| {
            let told = compared(case.told(), &case.expected);
            (told != case.expected).then(|| format!("{}:\n  {told:?}\n  in place of\n  {:?}", case.name, case.expected))
        })
        .collect();
    println!("{} cases, of which {} are left out", all.len(), left_out.len());
    assert!(wrong.is_empty(), "{} of {} cases:\n{}", wrong.len(), tried.len(), wrong.join("\n"));
    assert!(all.is_empty() || tried.len() > 900 && left_out.len() < 5, "{} and {}", tried.len(), left_out.len());
}

fn codes(check: &Check<'_>) -> Vec<String> {
    check.diagnostics().expect("diagnostics").into_iter().map(|found| found.code).collect()
}

#[test]
fn what_is_not_passed_in_is_not_known() {
    assert_eq!(check(SOUND), Ok(Vec::new()));
    let nothing = Listings::new();
    assert_eq!(codes(&Check::of(SOUND).folders(&nothing)), ["no-targets"]);
    assert_eq!(codes(&Check::of(SOUND).without_root()), [""; 0]);
    let root = b"[workspace]\nresolver = '2'\n";
    assert_eq!(codes(&Check::of(SOUND).root(root)), [""; 0]);
    assert_eq!(codes(&Check::of(SOUND).root(root).is_listed(true)), [""; 0]);
    assert_eq!(codes(&Check::of(SOUND).root(root).is_listed(false)), ["not-a-member"]);
    let wanted = ["missing-description", "missing-license", "missing-links"];
    assert_eq!(codes(&Check::of(SOUND).publishing(true)), wanted);
    assert_eq!(codes(&Check::of(SOUND).publishing(false)), [""; 0]);
}

#[test]
fn bytes_that_are_no_document() {
    let one = |bytes: &[u8]| {
        let mut found = check(bytes).expect("diagnostics");
        assert_eq!(found.len(), 1);
        let one = found.remove(0);
        assert_eq!((one.level, one.path.steps().len(), one.suggestions.len()), (Level::Error, 0, 0));
        let at = one.line_column(bytes);
        (one.code, at)
    };
    assert_eq!(one(b"a = 1\nb = '\xff'"), ("not-utf8".into(), Some((2, 6))));
    assert_eq!(one(b"[package]\nname = \n"), ("invalid-toml".into(), Some((2, 8))));
    let deep = format!("a = {}", "[".repeat(129));
    assert_eq!(one(deep.as_bytes()).0, "nests-too-deep");
    // (what stands around it is not looked at)
    assert_eq!(codes(&Check::of(b"[").root(b"\xff").config(b"\xff")).len(), 1);
}

#[test]
fn what_stands_around_it_is_refused() {
    let root = |root: &'static [u8]| Check::of(SOUND).root(root).diagnostics();
    assert_eq!(root(b"\xff"), Err(Refusal::Utf8(Part::Root)));
    assert!(matches!(root(b"[workspace"), Err(Refusal::Toml { part: Part::Root, range, .. }) if range == (10..10)));
    let deep = format!("a = {}", "[".repeat(129));
    assert_eq!(Check::of(SOUND).root(deep.as_bytes()).diagnostics(), Err(Refusal::TooDeep(Part::Root)));
    for config in [&b"\xff"[..], b"a = ", deep.as_bytes()] {
        assert_eq!(Check::of(SOUND).config(config).diagnostics(), Err(Refusal::Configuration));
    }
    assert_eq!(Check::of(SOUND).config(b"[profile.dev]\n").diagnostics(), Ok(Vec::new()));
    assert_eq!(Check::of(SOUND).config(b"a = ").root(b"\xff").diagnostics(), Err(Refusal::Utf8(Part::Root)));
    // (a fault of a folder refuses nothing)
    let mut listings = Listings::new();
    listings.put(".", ["Cargo.toml", "src"]);
    listings.put("src", ["lib.rs"]);
    listings.put_error("tests", ListingError::Other);
    listings.put_error("benches", ListingError::NotFound);
    assert_eq!(Check::of(SOUND).folders(&listings).diagnostics(), Ok(Vec::new()));
}

/// What is passed in as the root is not looked at where the manifest is a root itself.
#[test]
fn the_root_of_a_root_is_not_looked_at() {
    let root = b"[workspace]\nmembers = ['a']\n\n[workspace.lints.rust]\nunsafe_code = 'forbid'\n";
    let own = [SOUND, root].concat();
    let found = check(&own).expect("diagnostics");
    assert_eq!(found.iter().map(|found| found.code.as_str()).collect::<Vec<_>>(), ["lints-not-inherited"]);
    let deep = format!("a = {}", "[".repeat(129));
    for other in [&b"\xff"[..], b"[workspace", deep.as_bytes(), root] {
        let told = Check::of(&own).root(other).is_listed(false).diagnostics().expect("diagnostics");
        assert_eq!(told, found);
        assert!(told.iter().flat_map(|found| &found.labels).all(|label| label.range.is_none()), "{told:?}");
    }
}

#[test]
fn folders_with_faults() {
    let text = [SOUND, b"[[bin]]\nname = 'b'\npath = 'docs/b.rs'\n"].concat();
    let mut listings = Listings::new();
    listings.put(".", ["Cargo.toml", "docs", "src"]);
    listings.put("src", ["lib.rs"]);
    let told = |listings: &Listings| codes(&Check::of(&text).folders(listings));
    assert_eq!(told(&listings), ["wrong-target-path"]);
    listings.put_error("docs", ListingError::NotFound);
    assert_eq!(told(&listings), ["wrong-target-path"]);
    for fault in [ListingError::Other, ListingError::OutOfMemory] {
        listings.put_error("docs", fault);
        assert_eq!(told(&listings), [""; 0]);
    }
    listings.put("docs", ["b.rs"]);
    // (the file, as if it were a folder)
    listings.put_error("docs/b.rs", ListingError::Other);
    assert_eq!(told(&listings), [""; 0]);
    listings.put("docs", ["c.rs"]);
    assert_eq!(told(&listings), ["wrong-target-path"]);
}

#[test]
fn the_bound_is_that_on_the_tagged_bytes() {
    assert_eq!(Check::of(SOUND).at_most(2).diagnostics(), Ok(Vec::new()));
    assert_eq!(Check::of(SOUND).at_most(1).diagnostics(), Err(Refusal::TooLong));
    let wrong = b"[package]\nname = 1\n";
    assert_eq!(Check::of(wrong).at_most(20).diagnostics(), Err(Refusal::TooLong));
    assert_eq!(Check::of(wrong).at_most(4096).diagnostics(), check(wrong));
}

#[test]
fn second_places_are_in_the_root() {
    let root = b"[workspace]\nmembers = ['a']\n\n[workspace.lints.rust]\nunsafe_code = 'forbid'\n";
    let found = Check::of(SOUND).root(root).is_listed(true).diagnostics().expect("diagnostics");
    for label in found.iter().flat_map(|found| &found.labels) {
        let text = if label.file == File::Root { &root[..] } else { SOUND };
        assert!(label.range.clone().is_some_and(|range| text.get(range).is_some()), "{label:?}");
    }
    assert_eq!(found.iter().map(|found| found.code.as_str()).collect::<Vec<_>>(), ["lints-not-inherited"]);
    assert_eq!(found[0].labels[0].file, File::Root);
}

#[test]
fn members_and_packages() {
    let root = b"[workspace]\nmembers = ['a', 'b', 'c*']\nresolver = '2'\n";
    let other = b"[package]\nname = 'a'\nversion = '0.2.0'\nedition = '2021'\n";
    let member = |path, manifest, patterns| Member { path, manifest, patterns };
    let all = [member("a", Some(SOUND), &[0][..]), member("b", Some(&other[..]), &[1]), member("c", None, &[2])];
    let told = codes(&Check::of(root).members(&all));
    assert!(told.contains(&"missing-member".into()) && told.contains(&"repeated-package-name".into()), "{told:?}");
    assert_eq!(codes(&Check::of(root)), [""; 0]);

    // (each pattern has to lead to a member, and several may lead to one)
    let root = b"[workspace]\nmembers = ['a', './a', '?']\nresolver = '2'\n";
    let led_by =
        |patterns| Check::of(root).members(&[member("a", Some(SOUND), patterns)]).diagnostics().expect("diagnostics");
    assert_eq!(led_by(&[0, 1, 2]), []);
    let steps = |patterns| led_by(patterns).iter().map(|found| found.path.to_string()).collect::<Vec<_>>();
    assert_eq!(steps(&[0, 2]), ["workspace.members[1]"]);
    assert_eq!(steps(&[]), ["workspace.members[0]", "workspace.members[1]", "workspace.members[2]"]);
    assert!(led_by(&[]).iter().all(|found| found.code == "missing-member"));

    let text = [SOUND, b"[dependencies]\nb = { path = '../b' }\n"].concat();
    let with = |name| codes(&Check::of(&text).packages(&[PathPackage { path: "../b", name }]));
    assert_eq!(with(Some("b")), [""; 0]);
    assert_eq!(with(None), ["missing-path-package"]);
    assert_eq!(with(Some("c")), ["missing-path-package"]);
    assert_eq!(codes(&Check::of(&text)), [""; 0]);
}

#[test]
fn certain_suggestions_are_made() {
    let text = [SOUND, b"[dev_dependencies]\nb = '1' # for tests\n"].concat();
    let found = check(&text).expect("diagnostics");
    let new = fixed(&text, &found);
    assert_eq!(new, [SOUND, b"[dev-dependencies]\nb = '1' # for tests\n"].concat());
    assert_eq!(check(&new), Ok(Vec::new()));
    assert_eq!(fixed(SOUND, &found), SOUND);
}
