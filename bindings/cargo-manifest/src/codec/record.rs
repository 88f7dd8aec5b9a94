//! The macro that makes a type of its rows.

/// A struct that stands in a manifest as a table, with what reads and writes it. A row says the key, its second spelling
/// where it has one, the field, its type, and whether it is required:
///
/// | word | without the key | written |
/// |---|---|---|
/// | `required` | no such table | always |
/// | `optional` | `None` | where it is there |
/// | `nullable` | the same | the same; by serde also as nothing, which is `null` in JSON |
/// | `default(x)` | `x` | always |
/// | `unless(x)` | `x` | unless it is `x` |
/// | `lenient` | `None`, also where the value does not fit | as a `nullable` one |
/// | `lenient_default(x)` | `x`, also where the value does not fit | always |
/// | `metadata(place)` | `None` | where it is there: it is kept aside, and the field is `None` |
///
/// `others` is the field of all other keys.
macro_rules! record {
    (
        $(#[$about:meta])*
        pub struct $name:ident $(<$($param:ident),+>)? {
            $(
                $(#[$doc:meta])*
                $key:literal $(also $second:literal)? => $field:ident: $type:ty, $how:ident $(($($with:tt)+))?;
            )+
        }
        $(others { $(#[$others_doc:meta])* $others:ident: BTreeMap<String, $other:ty> })?
    ) => {
        $(#[$about])*
        pub struct $name $(<$($param = $crate::Value),+>)? {
            $($(#[$doc])* pub $field: $type,)+
            $($(#[$others_doc])* pub $others: std::collections::BTreeMap<String, $other>,)?
        }

        impl $(<$($param),+>)? $crate::codec::Form for $name $(<$($param),+>)? {
            #[inline]
            fn decode(reader: &mut $crate::codec::Reader<'_>) -> Option<Self> {
                $(#[allow(unused_mut, unused_assignments)] let mut $field = None;)+
                $(let mut $others = Vec::new();)?
                let mut keys = reader.table()?;
                while let Some(key) = keys.next(reader)? {
                    match key {
                        $($key => $crate::codec::row!(decode reader $field $how $(($($with)+))?),)+
                        other => $crate::codec::others_of!(reader other $($others)?),
                    }
                }
                Some($name {
                    $($field: $crate::codec::row!(done $field $how $(($($with)+))?),)+
                    $($others: $others.into_iter().collect(),)?
                })
            }

            fn read(value: $crate::Value, aside: &mut $crate::codec::Aside) -> Result<Self, $crate::codec::Misfit> {
                let mut members = $crate::codec::read::members::<Self>(value)?;
                Ok($name {
                    $($field: $crate::codec::row!(read members aside $key ($($second)?) $how $(($($with)+))?),)+
                    $($others: $crate::codec::read::others::<$other>(members, aside)?,)?
                })
            }

            fn expected() -> $crate::codec::Expected {
                $crate::codec::Expected::table(stringify!($name))
            }

            #[cfg(feature = "serde")]
            fn keys() -> Option<(&'static str, &'static [&'static str])> {
                const KEYS: &[&str] = &[$($key, $($second,)?)+];
                $crate::codec::others_of!(keys (stringify!($name), KEYS) $($other)?)
            }

            fn expected_at(path: &[$crate::codec::Step]) -> Option<$crate::codec::Expected> {
                let [$crate::codec::Step::Key(key), path @ ..] = path else {
                    return path.is_empty().then(Self::expected);
                };
                match key.as_str() {
                    $($key $(| $second)? => $crate::codec::row!(expected path ($type) $how $(($($with)+))?),)+
                    _ => $crate::codec::others_of!(expected path $($other)?),
                }
            }
        }

        impl $(<$($param),+>)? $crate::codec::Encode for $name $(<$($param),+>)? {
            fn encode(&self, writer: &mut $crate::codec::Writer) {
                const KEYS: &[&str] = &[$($key),+];
                let mut members = $crate::codec::Members::with_room(KEYS.len());
                $($crate::codec::row!(encode writer members $key (&self.$field) $how $(($($with)+))?);)+
                $(
                    for (key, value) in &self.$others {
                        if KEYS.contains(&key.as_str()) {
                            writer.refuse(format!("no {} can be named `{key}`", stringify!($others)));
                        }
                        members.push(key, value);
                    }
                )?
                members.encode(writer);
            }
        }

        #[cfg(feature = "serde")]
        impl $(<$($param: ::serde::Serialize),+>)? ::serde::Serialize for $name $(<$($param),+>)? {
            fn serialize<S: ::serde::Serializer>(&self, serializer: S) -> Result<S::Ok, S::Error> {
                let mut members = serializer.serialize_map(None)?;
                $($crate::codec::row!(serialize members $key (&self.$field) $how $(($($with)+))?);)+
                $(
                    for (key, value) in &self.$others {
                        ::serde::ser::SerializeMap::serialize_entry(&mut members, key, value)?;
                    }
                )?
                ::serde::ser::SerializeMap::end(members)
            }
        }
    };
}
pub(crate) use record;

/// What a row does with its field, by its need.
macro_rules! row {
    (decode $reader:ident $field:ident metadata($place:ident)) => {
        $reader.aside.$place = Some($crate::codec::Form::decode($reader)?)
    };
    (decode $reader:ident $field:ident $how:ident $(($($with:tt)+))?) => {
        $field = Some($crate::codec::Form::decode($reader)?)
    };
    (done $field:ident required) => { $field? };
    (done $field:ident default($with:expr)) => { $field? };
    (done $field:ident lenient_default($with:expr)) => { $field? };
    (done $field:ident unless($with:expr)) => {
        match $field {
            None => $with,
            // (what is as usual is not written)
            Some(value) if value == $with => return None,
            Some(value) => value,
        }
    };
    (done $field:ident $how:ident $(($($with:tt)+))?) => { $field };
    (read $members:ident $aside:ident $key:literal ($($second:literal)?) metadata($place:ident)) => {{
        $aside.$place = $members.remove($key);
        None
    }};
    (read $members:ident $aside:ident $key:literal ($($second:literal)?) required) => {
        $crate::codec::read::required(&mut $members, $key, $crate::codec::row!(second $($second)?), $aside)?
    };
    (read $members:ident $aside:ident $key:literal ($($second:literal)?) optional) => {
        $crate::codec::read::optional(&mut $members, $key, $crate::codec::row!(second $($second)?), $aside)?
    };
    (read $members:ident $aside:ident $key:literal ($($second:literal)?) nullable) => {
        $crate::codec::row!(read $members $aside $key ($($second)?) optional)
    };
    (read $members:ident $aside:ident $key:literal ($($second:literal)?) lenient) => {
        $crate::codec::read::optional(&mut $members, $key, None, $aside).unwrap_or_default()
    };
    (read $members:ident $aside:ident $key:literal ($($second:literal)?) lenient_default($with:expr)) => {
        $crate::codec::read::optional(&mut $members, $key, None, $aside).unwrap_or_default().unwrap_or_else(|| $with)
    };
    (read $members:ident $aside:ident $key:literal ($($second:literal)?) $how:ident($with:expr)) => {
        $crate::codec::read::optional(&mut $members, $key, $crate::codec::row!(second $($second)?), $aside)?
            .unwrap_or_else(|| $with)
    };
    (second) => { None };
    (second $second:literal) => { Some($second) };
    (expected $path:ident ($type:ty) metadata($place:ident)) => { None };
    (expected $path:ident ($type:ty) $how:ident $(($with:expr))?) => {
        <$type as $crate::codec::Form>::expected_at($path)
    };
    (encode $writer:ident $members:ident $key:literal ($value:expr) metadata($place:ident)) => {
        if $writer.aside.$place.is_some() {
            $members.push($key, &$crate::codec::AsideOf::$place);
        }
    };
    (encode $writer:ident $members:ident $key:literal ($value:expr) optional) => {
        if let Some(value) = $value {
            $members.push($key, value);
        }
    };
    (encode $writer:ident $members:ident $key:literal ($value:expr) nullable) => {
        $crate::codec::row!(encode $writer $members $key ($value) optional)
    };
    (encode $writer:ident $members:ident $key:literal ($value:expr) lenient) => {
        $crate::codec::row!(encode $writer $members $key ($value) optional)
    };
    (encode $writer:ident $members:ident $key:literal ($value:expr) unless($with:expr)) => {
        if *$value != $with {
            $members.push($key, $value);
        }
    };
    (encode $writer:ident $members:ident $key:literal ($value:expr) $how:ident $(($($with:tt)+))?) => {
        $members.push($key, $value)
    };
    (serialize $members:ident $key:literal ($value:expr) metadata($place:ident)) => {
        $crate::codec::row!(serialize $members $key ($value) optional)
    };
    (serialize $members:ident $key:literal ($value:expr) optional) => {
        if let Some(value) = $value {
            ::serde::ser::SerializeMap::serialize_entry(&mut $members, $key, value)?;
        }
    };
    (serialize $members:ident $key:literal ($value:expr) unless($with:expr)) => {
        if *$value != $with {
            ::serde::ser::SerializeMap::serialize_entry(&mut $members, $key, $value)?;
        }
    };
    (serialize $members:ident $key:literal ($value:expr) $how:ident $(($with:expr))?) => {
        ::serde::ser::SerializeMap::serialize_entry(&mut $members, $key, $value)?
    };
}
pub(crate) use row;

/// What is done with a key that no row has.
macro_rules! others_of {
    (keys $keys:tt) => {
        Some($keys)
    };
    (keys ($name:expr, $keys:ident) $other:ty) => {{
        let _ = $keys;
        None
    }};
    (expected $path:ident) => {
        None
    };
    (expected $path:ident $other:ty) => {
        <$other as $crate::codec::Form>::expected_at($path)
    };
    ($reader:ident $key:ident) => {{
        let _ = $key;
        return None;
    }};
    ($reader:ident $key:ident $others:ident) => {
        $others.push(($key.to_owned(), $crate::codec::Form::decode($reader)?))
    };
}
pub(crate) use others_of;
