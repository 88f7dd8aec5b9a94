//! Metadata with floats, which the archive returns by calls of their own.

use cargo_manifest::{canonical, Cause, Error, Manifest, Value};

/// The metadata of the package and of the workspace.
fn metadata(text: &str) -> (Option<Value>, Option<Value>) {
    let manifest: Manifest = text.parse().unwrap();
    let package = manifest.package.and_then(|package| package.metadata);
    (package, manifest.workspace.and_then(|workspace| workspace.metadata))
}

fn half() -> Option<Value> {
    Some(Value::from_iter([("a", vec![Value::from(0), Value::from(0.5)])]))
}

#[test]
fn under_each_header() {
    let half_at = |place: &str| format!("[{place}]\na = [0, 0.5]\n");
    assert_eq!(metadata(&format!("[package]\nname = 'p'\n{}", half_at("package.metadata"))), (half(), None));
    assert_eq!(metadata(&format!("[project]\nname = 'p'\n{}", half_at("project.metadata"))), (half(), None));
    assert_eq!(metadata(&format!("name = 'p'\n{}", half_at("metadata"))), (half(), None));
    assert_eq!(metadata(&half_at("workspace.metadata")), (None, half()));
    let both = format!("[package]\nname = 'p'\nmetadata = 0.25\n{}", half_at("workspace.metadata"));
    assert_eq!(metadata(&both), (Some(Value::Float(0.25)), half()));
    // next to `workspace` an old header does not count
    let workspace = format!("name = 'p'\n{}{}", half_at("metadata"), half_at("workspace.metadata"));
    assert_eq!(metadata(&workspace), (None, half()));
}

#[test]
fn what_is_beside_the_float_is_read_too() {
    let text = "[package]\nname = 'p'\nversion.workspace = true\n[package.metadata]\nx = 1.5\ny = { z = 1979-05-27 }\n\
                [dependencies]\na = '1'\n[workspace]\nmembers = ['m']\n[workspace.metadata]\nk = 'v'\n";
    let manifest: Manifest = text.parse().unwrap();
    let without: Manifest = text.replace("x = 1.5\n", "").parse().unwrap();
    let mut same = manifest.clone();
    let package = same.package.as_mut().and_then(|package| package.metadata.as_mut()).unwrap();
    assert_eq!(package.as_table_mut().unwrap().remove("x"), Some(Value::Float(1.5)));
    assert_eq!(same, without);
}

#[test]
fn floats_of_all_kinds_are_written_and_read_back() {
    let numbers =
        [0.0, -0.0, 1.0, -1.5, 0.1, 1e300, 5e-324, f64::MAX, f64::MIN_POSITIVE, f64::INFINITY, f64::NEG_INFINITY];
    let mut manifest: Manifest = "[package]\nname = 'p'\n[workspace]\n".parse().unwrap();
    let table = Value::from_iter([("n", Value::from(numbers.to_vec())), ("t", Value::from_iter([("a b", 1e16)]))]);
    manifest.package.as_mut().unwrap().metadata = Some(table);
    manifest.workspace.as_mut().unwrap().metadata = Some(numbers.to_vec().into());
    let text = manifest.to_toml_string().unwrap();
    let again: Manifest = text.parse().unwrap();
    assert_eq!(format!("{again:?}"), format!("{manifest:?}"));
    assert_eq!(again, manifest);
    let nan: Manifest = "[package]\nname = 'p'\nmetadata = nan\n".parse().unwrap();
    let text = nan.to_toml_string().unwrap();
    assert_eq!(text, "[package]\nmetadata = nan\nname = \"p\"\n");
    assert!(metadata(&text).0.unwrap().as_float().unwrap().is_nan());
}

#[test]
fn values_at_the_limits_of_their_bytes() {
    // lengths and counts in one group of seven bits, in two and in three, and next to the limits of a byte and of two
    for length in [0, 1, 127, 128, 254, 255, 256, 257, 16_383, 16_384, 65_535, 65_536, 65_537] {
        let (text, items) = ("x".repeat(length), "1, ".repeat(length));
        let held = Value::from_iter([("i", Value::from(vec![1; length])), ("t", Value::from(text.as_str()))]);
        let manifest = format!("[package]\nname = 'p'\n[package.metadata]\ni = [{items}]\nt = '{text}'\n");
        assert_eq!(metadata(&manifest).0, Some(held.clone()));
        let written = manifest.parse::<Manifest>().unwrap().to_toml_string().unwrap();
        assert_eq!(metadata(&written).0, Some(held));
    }
    // numbers in up to nine groups; date-times in which each part is the least or the greatest that TOML has
    for written in [
        "-9223372036854775808",
        "-4611686018427387905",
        "-129",
        "-128",
        "-1",
        "0",
        "127",
        "128",
        "4611686018427387904",
        "9223372036854775807",
        "0000-01-01",
        "9999-12-31",
        "00:00:00",
        "23:59:60",
        "12:30:00.000000001",
        "12:30:00.999999999",
        "0000-01-01T00:00:00Z",
        "9999-12-31T23:59:60.999999999+23:59",
        "2000-02-29T00:00:00-23:59",
        "2000-02-29T00:00:00-00:01",
        "2000-02-29T00:00:00+00:01",
    ] {
        let manifest = format!("[package]\nmetadata = {written}\nname = \"p\"\n");
        let value = metadata(&manifest).0.unwrap();
        assert_eq!(value.to_string(), written);
        assert_eq!(manifest.parse::<Manifest>().unwrap().to_toml_string().unwrap(), manifest);
    }
}

#[test]
fn a_float_elsewhere_is_refused() {
    for (text, path) in [
        ("[package]\nname = 'p'\nmetadata = 1.5\n[profile.dev]\nlto = [2.5]\n", "profile.dev.lto[0]"),
        ("[package]\nname = 'p'\n[profile.dev.package]\nmetadata = 2.5\n", "profile.dev.package.metadata"),
    ] {
        let Err(Error::Parse(error)) = Manifest::from_slice(text.as_bytes()) else { panic!("{text}") };
        assert_eq!((error.cause(), error.key_path()), (Some(Cause::HoldsFloat), Some(path)));
    }
    let wrong = "[package]\nname = 'p'\nmetadata = 1.5\nauthors = 1\n";
    let Err(Error::Parse(error)) = Manifest::from_slice(wrong.as_bytes()) else { panic!() };
    assert_eq!(error.key_path(), Some("package.authors"));
    // the canonical text is the proved one alone, which has no floats
    assert!(canonical(b"[package]\nname = 'p'\nmetadata = 1.5\n").is_err());
}

#[test]
fn completing_keeps_a_float() {
    let mut manifest: Manifest = "[package]\nname = 'p'\nmetadata = 1.5\n".parse().unwrap();
    let before = manifest.clone();
    assert!(manifest.complete_from_path(std::path::Path::new("/no/such/folder/Cargo.toml")).is_err());
    assert_eq!(manifest, before);
}
