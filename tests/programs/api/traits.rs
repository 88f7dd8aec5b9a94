//! The traits of each type.

use cargo_manifest::*;
use std::any::type_name;
use std::cmp::Ordering;
use std::error;
use std::fmt::{Debug, Display};
use std::hash::Hash;
use std::io;
use std::panic::{RefUnwindSafe, UnwindSafe};
use std::str::FromStr;

fn plain<T: Debug + Clone + PartialEq + Send + Sync + Unpin + UnwindSafe + RefUnwindSafe + 'static>() -> String {
    let name = type_name::<T>();
    name.rsplit("::").next().unwrap_or(name).to_string()
}

fn equal<T: Eq>() {}

fn word<T: Eq + Copy + Hash>() {}

fn default<T: Default + Debug>() -> String {
    format!("{:?}", T::default())
}

fn fault<T: error::Error + Clone + Display + Send + Sync + 'static>() {}

fn read<T: FromStr<Err = Error>>(text: &str) -> Option<T> {
    text.parse().ok()
}

macro_rules! each {
    ($with:ident: $($type:ty),+ $(,)?) => {
        vec![$($with::<$type>()),+]
    };
}

fn of_metadata() -> String {
    #[derive(Clone, Debug, Default, PartialEq)]
    struct Own;
    plain::<Manifest<Own, Own>>();
    plain::<Package<Own>>();
    equal::<Workspace<()>>();
    equal::<MaybeInherited<Vec<String>>>();
    default::<Manifest<Own, Own>>() + &default::<Workspace<Own>>()
}

const fn borrowed<T>(inherited: &MaybeInherited<T>) -> MaybeInherited<&T> {
    inherited.as_ref()
}

/// What is a constant, and what patterns of constants are.
fn constants() -> String {
    const LOCAL: MaybeInherited<Edition> = MaybeInherited::Local(Edition::E2021);
    const REFERENCE: MaybeInherited<&Edition> = borrowed(&LOCAL);
    const LEVEL: LintLevel = LintLevel::Warn;
    let is_level = matches!(Lint::Level(LintLevel::Warn).level(), LEVEL);
    format!("{REFERENCE:?} {is_level} {:?} {:?}", LOCAL.as_local(), MaybeInherited::<String>::inherited().as_local())
}

fn of_error(error: Error) -> String {
    let copy = error.clone();
    let source = error::Error::source(&error).is_some();
    match copy {
        Error::Parse(parse) => format!("parse {} {source}", !parse.to_string().is_empty()),
        Error::Io(fault) => format!("io {:?} {fault} {source}", fault.kind()),
        Error::Utf8(fault) => format!("utf8 {} {fault} {source}", fault.valid_up_to()),
        Error::Other(text) => format!("other {text} {error} {source}"),
    }
}

fn errors() -> Vec<String> {
    let passed_on = |text: &str| -> Result<Value, Error> { Ok(text.parse::<Value>()?) };
    let kept = |text: &str| text.parse::<Value>().map_err(Error::Parse);
    let boxed: Box<dyn error::Error + Send + Sync> = Error::Other("b".to_string()).into();
    let mut lines: Vec<String> = [
        Error::from(io::Error::new(io::ErrorKind::NotFound, "n")),
        Error::Other("o".to_string()),
        Manifest::from_slice(b"name = \"\xff\"").unwrap_err(),
        Manifest::from_slice(b"name = 1").unwrap_err(),
        passed_on("a = ").unwrap_err(),
        kept("[").unwrap_err(),
        StripSetting::try_from(Value::Integer(1)).map_err(|_| Error::Other("strip".to_string())).unwrap_err(),
    ]
    .into_iter()
    .map(of_error)
    .collect();
    lines.push(boxed.to_string());
    lines
}

pub fn lines() -> Vec<String> {
    let mut lines = each!(plain: Manifest, Package, Workspace, WorkspacePackage, Profiles, Profile, StripSetting, Product, Target,
        Dependency, DependencyDetail, InheritedDependencyDetail, MaybeInherited<bool>, True, StringOrBool, Publish, Badge, Badges,
        Maintenance, MaintenanceStatus, Edition, Resolver, LintLevel, LintConfig, Lint, MaybeInheritedLintsSet, Value);
    each!(equal: WorkspacePackage, StripSetting, Product, Target, Dependency, DependencyDetail, InheritedDependencyDetail,
        MaybeInherited<bool>, True, StringOrBool, Publish, Badge, Badges, Maintenance, LintConfig, Lint, MaybeInheritedLintsSet);
    each!(word: MaintenanceStatus, Edition, Resolver, LintLevel);
    fault::<Error>();
    let copied = Maintenance::default();
    let (one, other) = (copied, copied);
    lines.extend(
        each!(default: Manifest, WorkspacePackage, Profiles, Product, DependencyDetail, Publish, Badges, Maintenance,
        MaintenanceStatus, Edition, Resolver, True),
    );
    lines.push(format!("{} {:?}", one == other, StripSetting::None.cmp(&StripSetting::Symbols) == Ordering::Less));
    lines.push(of_metadata());
    lines.push(constants());
    lines.push(format!("{:?}", read::<Manifest>("name = 'a'").map(|manifest| manifest.package.is_some())));
    lines.extend(errors());
    lines
}
