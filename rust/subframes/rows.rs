// Made by tools/rust of crates/subframes/src/rows.rt: change that.
//! The rows of the tables of fields, with the standard's own bit numbers.
//!
//! A table is a macro, as `clock_rows!`, that hands its rows to the macro that it is given:
//! `layout_of!` makes the line of one field of them, `fields_of!` the list of all. So each field
//! stands in one row, as `Iodc: unsigned!("iodc", 83..=84, 211..=218; 0)`: its variant, whether it
//! is in two's complement, its name, its one or two parts, and its scale factor's power of two.

/// The line of a field in two's complement.
macro_rules! signed {
    ($($row:tt)*) => { layout!(true, $($row)*) };
}

/// The line of a field that has no sign.
macro_rules! unsigned {
    ($($row:tt)*) => { layout!(false, $($row)*) };
}

/// The line of a field in one or two parts, the first one's bits being the highest.
macro_rules! layout {
    ($is_signed:literal, $name:literal, $first:literal..=$last:literal; $exponent:literal) => {
        Layout {
            name: $name,
            head: Bits { first: $first, last: $last },
            tail: None,
            is_signed: $is_signed,
            exponent: $exponent,
        }
    };
    (
        $is_signed:literal, $name:literal, $first:literal..=$last:literal,
        $next:literal..=$end:literal; $exponent:literal
    ) => {
        Layout {
            name: $name,
            head: Bits { first: $first, last: $last },
            tail: Some(Bits { first: $next, last: $end }),
            is_signed: $is_signed,
            exponent: $exponent,
        }
    };
}

/// The line of a field, among the rows of its table.
macro_rules! layout_of {
    ($field:tt { $table:ident($names:ident) $($name:ident: $layout:expr,)* }) => {
        match $field {
            $($names::$name => $layout,)*
        }
    };
}

/// The fields of one table, or of some, one after the other.
macro_rules! fields_of {
    ($({ $table:ident($names:ident) $($name:ident: $layout:expr,)* })*) => {
        [$($(Field::$table($names::$name),)*)*]
    };
}

pub(crate) use fields_of;
pub(crate) use layout;
pub(crate) use layout_of;
pub(crate) use signed;
pub(crate) use unsigned;
