//! The macro that makes a choice of its words.

/// An enum that stands in a manifest as one of these words.
macro_rules! words {
    (
        $(#[$about:meta])*
        pub enum $name:ident { $($(#[$doc:meta])* $variant:ident = $word:literal,)+ }
    ) => {
        $(#[$about])*
        pub enum $name {
            $($(#[$doc])* $variant,)+
        }

        impl $name {
            /// The word as it stands in a manifest.
            pub fn as_str(&self) -> &'static str {
                match self {
                    $($name::$variant => $word,)+
                }
            }

            /// The choice of a word.
            fn of_word(word: &str) -> Option<$name> {
                match word {
                    $($word => Some($name::$variant),)+
                    _ => None,
                }
            }
        }

        impl $crate::codec::Form for $name {
            fn decode(reader: &mut $crate::codec::Reader<'_>) -> Option<$name> {
                reader.string().and_then($name::of_word)
            }

            fn read(value: $crate::Value, _: &mut $crate::codec::Aside) -> Result<$name, $crate::codec::Misfit> {
                let word = value.as_str().ok_or_else($crate::codec::Misfit::wrong_kind::<$name>)?;
                $name::of_word(word).ok_or_else(|| $crate::codec::Misfit::new::<$name>($crate::Cause::NotAChoice))
            }

            fn expected() -> $crate::codec::Expected {
                $crate::codec::Expected::one_of(&[$($word),+])
            }
        }

        impl $crate::codec::Encode for $name {
            fn encode(&self, writer: &mut $crate::codec::Writer) {
                writer.string(self.as_str());
            }
        }
    };
}
pub(crate) use words;
