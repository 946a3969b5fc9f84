//! Stands in for custom_derive with newtype_derive: a tuple struct of one field, with the traits in its first list of
//! derives. A `Newtype..` name makes what newtype_derive makes of it; every other name is a derive of Rust's own. The
//! second list, serde's, is dropped.

#[macro_export]
macro_rules! custom_derive {
    (
        $(#[doc = $text:expr])*
        #[derive($($names:tt)*)]
        #[derive(serde::Serialize, serde::Deserialize)]
        pub struct $name:ident(pub $inner:ty);
    ) => {
        $crate::newtype!([$($names)*] [] $name $inner);
    };
}

/// Takes the derives one by one: those of Rust's own are gathered in the second list.
#[doc(hidden)]
#[macro_export]
macro_rules! newtype {
    ([] [$($own:ident)*] $name:ident $inner:ty) => {
        #[derive($($own),*)]
        pub struct $name(pub $inner);
    };
    ([NewtypeFrom, $($rest:tt)*] $own:tt $name:ident $inner:ty) => {
        impl From<$inner> for $name {
            fn from(inner: $inner) -> Self {
                $name(inner)
            }
        }
        impl From<$name> for $inner {
            fn from(outer: $name) -> Self {
                outer.0
            }
        }
        $crate::newtype!([$($rest)*] $own $name $inner);
    };
    ([NewtypeDeref, $($rest:tt)*] $own:tt $name:ident $inner:ty) => {
        impl std::ops::Deref for $name {
            type Target = $inner;
            fn deref(&self) -> &$inner {
                &self.0
            }
        }
        $crate::newtype!([$($rest)*] $own $name $inner);
    };
    ([NewtypeAdd(*), $($rest:tt)*] $own:tt $name:ident $inner:ty) => {
        $crate::newtype_operator!(Add add $name $inner);
        $crate::newtype!([$($rest)*] $own $name $inner);
    };
    ([NewtypeSub(*), $($rest:tt)*] $own:tt $name:ident $inner:ty) => {
        $crate::newtype_operator!(Sub sub $name $inner);
        $crate::newtype!([$($rest)*] $own $name $inner);
    };
    ([NewtypeMul(*), $($rest:tt)*] $own:tt $name:ident $inner:ty) => {
        $crate::newtype_operator!(Mul mul $name $inner);
        $crate::newtype!([$($rest)*] $own $name $inner);
    };
    ([NewtypeDiv(*), $($rest:tt)*] $own:tt $name:ident $inner:ty) => {
        $crate::newtype_operator!(Div div $name $inner);
        $crate::newtype!([$($rest)*] $own $name $inner);
    };
    ([$derive:ident, $($rest:tt)*] [$($own:ident)*] $name:ident $inner:ty) => {
        $crate::newtype!([$($rest)*] [$($own)* $derive] $name $inner);
    };
}

/// An operator on the field, for values and references on either side.
#[doc(hidden)]
#[macro_export]
macro_rules! newtype_operator {
    ($operator:ident $method:ident $name:ident $inner:ty) => {
        $crate::newtype_operator!($operator $method $name $inner, $name, $name);
        $crate::newtype_operator!($operator $method $name $inner, &$name, $name);
        $crate::newtype_operator!($operator $method $name $inner, $name, &$name);
        $crate::newtype_operator!($operator $method $name $inner, &$name, &$name);
    };
    ($operator:ident $method:ident $name:ident $inner:ty, $left:ty, $right:ty) => {
        impl std::ops::$operator<$right> for $left {
            type Output = $name;
            fn $method(self, right: $right) -> $name {
                $name(<$inner as std::ops::$operator>::$method(self.0, right.0))
            }
        }
    };
}
