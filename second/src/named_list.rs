//! One macro for enums whose cases are listed and printed by name.

/// Makes an enum with `ALL`, its cases in the written order, and `name`.
/// Keeping case and name on one line means neither can be forgotten.
macro_rules! named_list {
    ($(#[$note:meta])* $list:ident { $($item:ident = $name:expr,)* }) => {
        $(#[$note])*
        #[derive(Clone, Copy, Debug, PartialEq, Eq)]
        pub enum $list { $($item,)* }

        impl $list {
            pub const ALL: &'static [$list] = &[$($list::$item,)*];

            pub fn name(self) -> &'static str {
                match self { $($list::$item => $name,)* }
            }
        }
    };
}
