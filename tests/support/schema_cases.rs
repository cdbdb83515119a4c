//! Schemas and name classes with the answers that they get, as literals: rows by their words, or in the notation of the
//! maker, where `!` marks the row at fault.

use super::maker::Row;
use super::reference::{Answer, NONE};

/// A schema that passes, and a code at a place.
pub const PASSES: Answer = (0, 0);
pub const fn at(code: u64, place: u32) -> Answer {
    (code, place as u64)
}

/// In place of a bad value.
pub const H: u32 = 77_777;
const NO_PATTERN: &[u32] = &[0, 2, 4, 5, 6, 7, 8, 9, 10, 11, 12, 13, 100, 256, 512, 65_536, NONE - 1];
const NO_CLASS: &[u32] = &[1, 2, 4, 5, 6, 7, 8, 9, 10, 11, 12, 13, 100, 257, 512, 65_537, NONE - 1];
/// A text, a class and a data.
const T: Row = [3, 0, 0];
const C: Row = [18, 0, 2];
const D: Row = [4, 0, NONE];

/// Bad values, and the rows that take them at H; the fault is at the last of the rows.
#[rustfmt::skip]
pub const HOLES: [(&[u32], &[&[Row]]); 10] = [
    (NO_PATTERN, &[&[[4, 0, H]], &[[6, H, 0]], &[[9, H, 0]], &[[10, H, H]], &[[11, H, H]], &[[12, H, H]],
        &[[21, H, 0]], &[C, [7, 3, H]], &[C, [20, 3, H]], &[T, [10, 3, H]], &[T, [11, 3, H]],
        &[T, [12, 3, H]], &[T, [10, H, 3]], &[T, [11, H, 3]], &[T, [12, H, 3]]]),
    (NO_CLASS, &[&[[16, H, 0]], &[[17, 1, H]], &[[19, H, H]], &[T, [7, H, 3]], &[T, [20, H, 3]],
        &[C, [19, 3, H]], &[C, [19, H, 3]]]),
    (&[3], &[&[[4, 0, H]], &[[6, H, 0]], &[[9, H, 0]], &[[10, H, H]], &[[16, H, 0]], &[[17, 1, H]], &[[19, H, H]]]),
    (&[NONE], &[&[[6, H, 0]], &[[9, H, 0]], &[C, [7, 3, H]], &[T, [7, H, 3]], &[T, [10, 3, H]], &[T, [11, H, 3]],
        &[T, [12, 3, H]], &[C, [19, 3, H]], &[C, [19, H, 3]], &[C, [20, 3, H]], &[T, [20, H, 3]]]),
    (&[0, 1, 3, 4, 9, 10, 11, 258, 65_538, NONE], &[&[[8, H, 0]]]),
    (&[1, 2, 256, 65_536, NONE], &[&[[1, H, 0]], &[[1, 0, H]], &[[2, H, 0]], &[[2, 0, H]], &[[3, H, 0]],
        &[[3, 0, H]], &[D, [6, 3, H]], &[[8, 2, H]], &[T, [9, 3, H]], &[[16, NONE, H]], &[C, [16, 3, H]]]),
    (&[2, 3, 256, 65_536, NONE], &[&[[4, H, NONE]], &[[4, 0, NONE], [4, H, 3]], &[[5, H, 1]]]),
    (&[4, 256, 65_537, NONE],
        &[&[[5, 0, H]], &[[17, H, NONE]], &[C, [17, H, 3]], &[[18, H, 1]], &[[18, 1, H]]]),
    (&[0], &[&[[18, 0, H]], &[[18, 3, H]]]),
    (&[0, 13, 14, 15, 22, 23, 259, 262, 65_539, NONE],
        &[&[[H, 0, 0]], &[[H, 1, 0]], &[[H, 0, 1]], &[[H, 1, 1]]]),
];

/// Rows from row 3 on, with rows before and after them that are right.
#[rustfmt::skip]
pub const ROWS: [(&str, Answer, &[&[Row]]); 9] = [
    ("good rows", PASSES, &[&[[1, 0, 0]], &[[2, 0, 0]], &[T], &[[4, 0, NONE]], &[[4, 1, NONE]], &[[5, 0, 0]],
        &[[5, 1, 3]], &[[16, NONE, 0]], &[[17, 0, NONE]], &[[17, 3, NONE]], &[C], &[[18, 3, 3]],
        &[[8, 2, 0]], &[[8, 5, 0]], &[[8, 8, 0]], &[D, [4, 0, 3]], &[D, [6, 3, 0]], &[T, [9, 3, 0]],
        &[C, [16, 3, 0]], &[C, [17, 3, 3]], &[C, C, [19, 3, 4]], &[C, C, [19, 4, 3]],
        &[T, T, [11, 3, 4]], &[T, T, [10, 4, 3]], &[T, C, [7, 4, 3]], &[C, T, [20, 3, 4], T]]),
    ("no parent", at(2, 3), &[&[T, T], &[C, T], &[[1, 0, 0], C], &[[16, NONE, 0], T], &[[8, 2, 0], T],
        &[[5, 0, 1], T, [9, 4, 0]], &[C, C, [16, 4, 0]], &[D, D], &[D, D, [6, 4, 0]]]),
    ("no parent after a bad field", at(2, 3), &[&[T, [9, 0, 0]], &[T, [6, 0, 0]], &[C, [6, 3, 0]], &[T, [4, 0, 0]],
        &[C, [16, 1, 0]], &[C, [17, 0, 1]], &[T, T, [10, 5, 4]], &[T, T, [10, 4, 4]], &[C, C, [19, 1, 4]]]),
    ("no parent by a bad kind", at(2, 3),
        &[&[T, [13, 3, 0]], &[T, [14, 3, 3]], &[C, [15, 3, 3]], &[T, [0, 3, 3]]]),
    ("two parents", at(2, 3), &[&[T, [9, 3, 0], [10, 3, 4]], &[D, [6, 3, 0], [10, 3, 4]],
        &[D, [6, 3, 0], [6, 3, 0], [10, 4, 5]], &[T, [4, 0, 3], [4, 0, 3], [11, 4, 5]],
        &[C, [16, 3, 0], [17, 1, 3], [19, 4, 5]], &[C, T, [7, 3, 4], [20, 3, 5], T]]),
    ("one child twice", at(2, 3),
        &[&[T, [10, 3, 3]], &[T, [11, 3, 3]], &[T, [12, 3, 3]], &[C, [19, 3, 3]]]),
    ("pattern used again", at(2, 1),
        &[&[[6, 1, 0]], &[[9, 1, 0]], &[[10, 1, 1]], &[[4, 0, 1]], &[C, [7, 3, 1]], &[[21, 1, 0]]]),
    ("class used again", at(2, 0),
        &[&[[16, 0, 0]], &[[17, 1, 0]], &[[19, 0, 0]], &[T, [7, 0, 3]], &[[7, 0, 1]]]),
    ("two faults", at(2, 4), &[&[T, [9, 3, 1], [13, 0, 0], T], &[T, [9, 3, 0], [3, 0, 1]],
        &[D, [6, 3, 1], [6, 4, 0]]]),
];

/// The words of whole schemas.
#[rustfmt::skip]
pub const WORDS: [(Answer, &[&[u32]]); 4] = [
    (PASSES, &[&[2, 0, 0, 21, 0, 0]]),
    (at(2, 0), &[&[], &[2], &[2, 0], &[2, 0, 0, 21], &[2, 0, 0, 21, 0], &[2, 0, 0, 21, 0, 0, 0],
        &[2, 0, 0, 21, 0, 0, 0, 0], &[21, 0, 0], &[21, NONE, 0], &[2, 0, 0, 21, 0, 0, 21, 0, 0]]),
    (at(2, 1), &[&[2, 0, 0, 21, 0, 1], &[2, 0, 0, 21, 0, NONE], &[2, 0, 0, 21, 0, 0, 9, 1, 0, 21, 2, 0],
        &[2, 0, 0, 21, 0, 0, 21, 1, 0], &[18, 0, 1, 2, 0, 0, 20, 0, 1, 21, 1, 0]]),
    (at(2, 3), &[&[18, 0, 1, 2, 0, 0, 20, 0, 1, 21, 0, 0], &[18, 0, 1, 2, 0, 0, 20, 0, 1, 21, 2, 0],
        &[18, 0, 1, 2, 0, 0, 20, 0, 1, 21, 3, 0], &[18, 0, 1, 2, 0, 0, 20, 0, 1, 21, 4, 0],
        &[18, 0, 1, 2, 0, 0, 20, 0, 1, 21, NONE, 0]]),
];

/// Strings, and the place of their fault.
#[rustfmt::skip]
pub const STRINGS: [(&[u8], &[u32], u32); 8] = [
    (b"", &[], 0), (b"a", &[1], 0), (b"ab", &[0, 9, 9], 2), (b"abc", &[0, 2, 1, 3], 2),
    (b"aa", &[0, 1, 2], 2), (b"abc", &[0, 1, 2], 2), (b"a", &[0, 1, 1], 2), (b"aabc", &[0, 1, 2, 3], 3),
];

/// A name, a code, and two lists: each of the second in place of `_` in each of the first is the
/// content of the first definition.
#[rustfmt::skip]
pub const BODIES: &[(&str, u64, &str, &str)] = &[
    ("in place", 0, "_", "empty; none; @ 0:1 empty; | empty text; | empty | empty data; , text | empty $1;
        + | empty $1; @ 0:1 | empty data; text element 2:2 empty"),
    ("out of place", 3, "_; , text _; + _; @ 0:1 _; | empty _; data- _; text element 0:3 _",
       "| !none text; | text !none; , !none text; , text !none; & !none text; & text !none; + !none;
        @ 0:1 !none; data- !none; | text !empty; | empty !empty; , !empty text; , text !empty;
        & !empty text; & text !empty; + !empty; data- | value !empty"),
    ("in place in a list", 0, "_; | text _; @ 0:1 _; , @ 0:1 text _; + @ * _",
       "list empty; list | empty data; list + | empty value; list , data | empty data; list | empty | empty token"),
    ("out of place in a list", 3, "list _; list , data _; list + _; list | empty _; list data- _; @ 0:1 list _",
       "| !none data; | data !none; , !none data; , data !none; + !none; data- !none; | data !empty;
        | empty !empty; , !empty data; , data !empty; + !empty; list !none; @ 0:1 !none; & !empty data;
        data- | value !empty"),
    ("notAllowed as a list", 3, "_; | text _; @ 0:1 _", "list !none"),
    // Classes of attributes, and of elements that nothing refers to.
    ("class in place", 0, "+ @ _ text; & text + | $1 @ _ data; text element _ text; none element _ $0",
       "*; 0:*; 0:1; *- 0:1; *- 0:*; *- / 0:1 1:*; *- 0:*- 0:1; 0:*- 0:1; / * *; 0:*- / 1:1 / 0:2 0:1;
        / *- 0:1 *- 0:1; / 0:* *; / 0:*- 0:1 0:*- 0:2; *- / 0:* 0:*; / * / *- 0:1 *; / 0:*- 0:1 *- 0:*"),
    ("below except of anyName", 4, "+ @ *- _ text; @ *- / 0:1 _ text; | text @ *- / _ 0:* text;
        text element *- _ none; none element *- / 0:1 / 0:2 _ text; none element / 0:1 *- _ $0;
        none element *- / / 0:1 _ 0:2 empty", "!*; !*- 0:1; !*- 0:*"),
    ("below except of nsName", 4, "+ @ 0:*- _ text; @ 0:*- / 0:1 _ text; | text @ 1:*- / _ 0:1 text;
        text element *- 0:*- _ none; none element *- / 0:1 0:*- / 0:2 _ $0;
        none element / 0:* 0:*- _ empty", "!*; !*- 0:1; !0:*; !1:*; !1:*- 0:1"),
    ("below attribute", 5, "@ 0:1 _; @ 0:1 | text _; @ 0:1 | _ text; @ 0:1 + _; @ 0:1 , text _;
        @ 0:1 & _ text; @ 0:1 | empty + , _ text; | text @ 0:2 + _; + @ 0:1 | data _",
       "!$1; !@ 0:3 text; !@ 0:3 + data"),
    ("below attribute, pass", 0, "_; + _",
       "@ 0:1 text; @ 0:1 data; @ 0:1 value; @ 0:1 data- value; @ 0:1 empty; @ 0:1 + text;
        @ 0:1 , text text; @ 0:1 | text data; @ 0:1 + , text + text"),
    ("below a group below oneOrMore", 5, "+ , text _; + & _ text; + , _ $1; + & $1 _; + | text , text _;
        + , text + _; + , text | text _; + + & text + _; + , , _ text text; | text + & text | text _;
        , text + & _ $1; + , text , text + | $1 _", "!@ 0:1 text; !@ 0:2 data; !@ * text"),
    ("below oneOrMore, pass", 0, "+ _; + + _; , text + _; & + _ text; + | text _; , + _ text;
        & text , $1 + _; + | _ , text text; | , text text + _", "@ 0:1 text; @ 0:2 , text text; @ * empty"),
    ("refs are not followed", 0, "_", "+ , $2 $1; , $2 + & $1 $2; + , $0 $0;
        @ 0:2 text element 3:3 + , $0 $2"),
    ("below except of data", 5, "data- _; data- | value _; data- | value | _ data; data- data- _;
        | text data- | value data- _; @ 0:1 data- _; @ 0:1 data- data- | _ value",
       "!text; !$1; !@ 0:3 data; !, data data; !& value data; !+ value"),
    ("empty below except of data", 5, "_; @ 0:1 _",
       "data- !empty; data- | !empty value; data- data- !empty"),
    ("below except of data, pass", 0, "data- _; data- | value _; data- data- _; @ 0:1 data- _",
       "data; token; value; | data value; data- token; | | value data data- value"),
    ("below a list", 5, "list _; list | data _; list | _ data; list + _; list , data _; list , _ value;
        list | empty + , _ data; | text list _; @ 0:1 list _; + @ 0:1 list + _; , text list | data _; + list _",
       "!text; !$1; !@ 0:3 data; !& data value; & + data !list data; !list data; !list empty; !list + data"),
    ("below a list, the smaller row", 5, "list _; list + _; @ 0:1 list | data _; data- list _",
       "@ 0:3 !text; @ 0:3 & !text data; list !text; list list !text; & !$1 data; data- !text; data- !$1; data- !empty;
        data- !, data data; data- !+ value; , !text text; data- @ 0:3 !text; data- !@ 0:3 data; data- !list data;
        data- list !empty; list data- !text; data- data- !list value; data- | value !list value"),
    ("list below except of data", 5, "data- _; data- | value _; data- | value | _ data; data- data- _;
        | text data- | value data- _; @ 0:1 data- _; list data- _; list + , data data- _",
       "!list data; !list value; !list token; !list data- value; !list | data value; list !+ data;
        list !, data value; list !empty; list | !empty data; list | data !+ value; list data- !text"),
    // Content types in pairs.
    ("empty and all", 0, ", _ @ 0:3 data; & @ 0:3 data _; , | empty @ 0:3 text _;
        | text & _ | empty @ 0:3 text",
       "@ 0:2 data; | empty @ 0:2 text; , @ 0:2 text @ 1:2 data; & @ 0:2 text + @ 1:2 value; text; $0;
        + text; | empty text; | text @ 0:2 data; , @ 0:2 data text; & text @ 0:2 data; data; value; token;
        data- value; | empty data; | data text; | $0 value; | @ 0:2 text data; , @ 0:2 text data;
        & value @ 0:2 text"),
    ("complex and complex", 0, ", _ $2; , $2 _; & _ $2; & $2 _; , | empty $2 _; & _ , @ 0:3 value $2;
        , + $2 _",
       "text; $0; + text; | empty text; | text @ 0:2 data; | $0 text; , @ 0:2 data text; & text $0"),
    ("complex and simple", 6, "!, _ token; !, data- value _; !& _ data; !& | empty value _;
        | text !, _ | $2 value; !, & data @ 0:3 text _",
       "text; $0; + text; | empty text; | text @ 0:2 data; , @ 0:2 data text; & text $0"),
    ("simple and simple", 6, "!, _ token; !, data- value _; !& _ data; !& | empty value _;
        | text !, _ | $2 value; !, & data @ 0:3 text _",
       "data; token; value; data- value; | empty data; | data text; | $0 value; | @ 0:2 text data;
        , @ 0:2 text data; & value @ 0:2 text; | | text data $0"),
    ("oneOrMore", 0, "+ _; , text + _; + + _; + | _ text",
       "@ 0:2 data; text; $1; | empty text; | empty @ 0:2 data; | $1 @ 0:2 text; @ 0:2 data- value"),
    ("oneOrMore of simple", 6, "_; | empty _; @ 0:1 _; + _; , text @ 0:2 | text _",
       "!+ data; !+ value; !+ data- value; !+ | data text; !+ | empty token; !+ | text | text value"),
    ("content of an attribute", 6, "@ 0:1 _; , text @ 0:1 _; + @ 0:1 | empty _",
       "!, data text; !, text value; !& data data; !& | text token text; !, + text data;
        , text !, data data; | value !& text data"),
    ("content of an attribute, pass", 0, "@ 0:1 _; + @ 0:1 | empty _",
       ", text text; | data text; , text , text text; + + text; | , text text data"),
    ("a list is simple", 6, "!, _ token; !, text _; !, $1 _; !, _ $2; !& _ text; !& $1 _; !& value _; !, _ list data;
        !& list empty _; | text !, _ | $2 value",
       "list empty; list data; list value; list + data; list , data value; list | empty data; | empty list data;
        | list data text; | list empty list data; , @ 0:3 text list data; & list empty @ 0:3 list data"),
    ("a list repeated or in an attribute", 6,
       "!+ _; !+ | text _; @ 0:1 !, text _; @ 0:1 !+ _; , @ 0:2 list + data !+ _",
       "list empty; list data; list value; list + data; list , data value; | empty list data; | list data text"),
    ("a list as content", 0, "_; , @ 0:1 text _; & _ @ 0:1 data; , | empty @ 0:1 text _; | text _; | _ $1; | data _;
        | _ + text; , @ 0:1 list + data _; | , @ 0:1 list data _ & text $1; | _ , text text",
       "list empty; list data; list value; list + data; | empty list data; | list data text; | list data list empty;
        , @ 0:3 text list data; & list empty @ 0:3 list data; @ 0:3 list data"),
    ("no type inside a list", 0, "list _; | text list _; @ 0:1 list _; + @ * list _; list , data _; list + _;
        list | empty + _",
       "+ data; + + value; , data value; , data , data data; + , data | empty value; , + data + + data;
        | , data data + data;
         + | empty data; + data- value; , data- | value data data"),
    ("P12 and content, which row", 6, "_", "!, data $1; !, $1 data; , @ 0:2 text !, data text;
        !, , data @ 0:2 text value; , !, data text , data text; , !+ data data; & text , $1 !+ value"),
    ("content through a ref", 0, "_", ", $3 $3; + $3; , text $3"),
    // Attributes.
    ("P10 and attributes of one name", 7, "!, _; !& _; | text !, _; , | text !& _ $1",
       "@ 0:2 text @ 0:2 text; @ 0:2 data | text @ 0:2 text; + @ 0:2 text @ 0:2 text;
        @ 0:2 text , text @ 0:2 text; , $1 @ 0:2 text & @ 0:3 text @ 0:2 data;
        | | $1 @ 0:2 text $1 & @ 1:1 text + @ 0:2 text; @ / 0:1 0:2 text @ / 0:2 0:3 text;
        @ / 0:1 / 0:2 1:2 text @ 1:2 text; @ 0:2 text + @ * text; + @ 0:* text @ 0:3 text;
        + @ *- 0:3 text @ 0:2 text; + @ * text + @ * text; + @ 0:* text + @ * text;
        + @ *- 0:1 text + @ *- 0:2 text; + @ 0:* text + @ *- 0:*- 0:3 text;
        + @ 0:*- 0:3 text + @ 0:*- 0:1 text; + @ 0:*- / 0:1 / 0:2 0:3 text + @ 0:* text;
        + @ *- / / 0:* 1:* / 2:* 3:* text + @ *- 0:* text; + @ 0:*- 1:2 text @ 0:2 text;
        @ / 0:1 0:1 text @ 0:1 text; + | @ 1:* text @ 0:1 text | text @ 0:1 text"),
    ("attributes apart", 0, ", _; & _; | text , _",
       "@ 0:2 text @ 0:3 text; @ 0:2 text @ 1:2 text; $2 @ 0:2 text; @ 1:2 text @ 2:1 text;
        @ / 0:1 0:2 text @ / 0:3 1:1 text; + @ 0:* text @ 1:3 text; @ 0:2 text + @ *- 0:2 text;
        @ 0:2 text + @ 0:*- 0:2 text; + @ 0:* text + @ 1:* text; + @ 0:* text + @ *- 0:* text;
        + @ 0:*- 0:3 text + @ *- 0:*- 0:3 text; @ 0:2 , text text , $1 $1;
        + @ *- / 0:1 0:2 text @ / 0:2 0:1 text; @ 0:2 text | @ 0:1 text @ 0:1 data;
        + @ *- / 0:* 1:* text , @ 0:1 text + @ 1:* text"),
    ("attributes, which row", 7, "_", ", @ 0:2 text !, @ 0:3 text @ 0:3 text;
        , !, @ 0:2 text @ 0:2 text @ 0:2 text; !, @ 0:2 text , @ 0:3 text @ 0:2 text;
        !, , @ 0:2 text @ 0:3 text @ 0:2 text; , @ 0:2 text !@ * text;
        , !, @ 0:2 text @ 0:2 text | text @ * text; , + @ 0:2 text & text !, @ 0:3 text @ 0:3 text;
        , !@ * text @ 0:2 text; & !@ * text @ 0:1 text; $1 element 3:3 !, @ 0:2 text @ 0:2 text"),
    ("attributes with lists", 7, "_; | text _", "!, @ 0:2 list data @ 0:2 list empty; !& @ 0:2 list + data + @ * text;
        !@ * list + data; , @ 0:1 list data !@ 0:* list , data data; | list data !@ 0:* list data"),
    ("attributes with lists, pass", 0, "_; | list + data _", ", @ 0:2 list data @ 0:3 list data; + @ 0:* list + data;
        & @ 0:2 list empty + @ 1:* list data; | @ 0:2 list data @ 0:2 list empty"),
    ("attributes in a choice", 0, "_", "| @ 0:2 text @ 0:2 text; + | @ * text @ * text;
        | , text @ 0:2 text @ 0:2 text; + | @ 0:1 text + @ 0:* text"),
    ("attribute in an attribute", 5, "_", ", @ 0:2 text @ 0:3 !@ 0:2 text; & @ 0:3 !@ 0:2 text @ 0:2 text"),
    ("wild attribute", 7, "_; , text _; | + text _; , + $1 _; & + @ 0:2 text | text _",
       "!@ * text; !@ 3:* text; !@ 1:*- 1:1 + text; !@ / 1:1 1:* text; !@ / 1:* 1:1 data;
        !@ *- / 0:1 0:2 text; !@ / 1:1 / 1:1 *- 0:2 text"),
    ("wild attribute, pass", 0, "+ _; + | text _; + + _; , text + | text _; | + | text | $1 _ text",
       "@ * text; @ 3:* text; @ *- 0:1 text; @ 1:*- 1:1 + text; @ / 0:1 0:* data;
        @ / 0:1 / 0:2 *- 1:* text"),
    ("wild attribute and a ref", 7, "_", "+ $1 element 3:3 !@ * text; !@ 0:* text element 3:3 + $0"),
    // Interleaves.
    ("P11 and interleaves", 8, "_; + _; , $2 | text _",
       "!& text text; !& | $1 text text; !& + text , $1 text; !& $1 $1; !& $1 , $2 $1; !& + $2 | $1 $2;
        !& $0 $0; !& $1 $3; !& $3 $1; !& $2 $4; !& , text $4 $1; & $0 !& $1 $1; & !& $1 $1 $1;
        !& & $1 text & $2 text; , text !& , $0 $2 | text $4"),
    ("interleave, pass", 0, "_; , $2 | text _",
       "& text $1; & $1 $2; & $2 $3; , $1 $1; | $1 $1; & $0 & $1 $2; & $0 $4; & text @ 0:2 text;
        & @ 1:1 text $1; & @ 0:2 text $2; & , text text $1; & | $1 $1 $2; & + text + $1;
        & $0 | text , text text; , text text; | text text"),
    ("interleave in an attribute", 8, "_", "@ 0:2 !& text text; , text @ 0:2 | empty !& text + text"),
    ("interleave of classes", 8, "!& $1 $2 _",
       "element 1:* none element *- 1:1 none; element * none element * text;
        element *- / 0:* 1:* none element 2:*- 2:1 none; element / 2:1 2:2 none element *- / 2:1 2:3 none"),
    ("interleave of classes, pass", 0, "& $1 $2 _",
       "element 1:* none element *- 1:* none; element 2:1 & text $2 element 2:*- 2:1 & $0 text;
        element 2:2 none element *- / 2:1 2:2 none"),
];

/// Contents of a definition with which a schema has as many rows as it may.
#[rustfmt::skip]
pub const LARGE: &[(u64, &str)] = &[
    (0, "(. 1 507 +) text"), (0, "(. 1 507 +) $0"), (3, "(. 1 507 +) !none"),
    (6, "(. 1 506 +) !+ data"), (0, "(. 1 505 +) @ * data"), (5, "(. 1 503 +) , text !@ * data"),
    (0, "@ 0:1 (. 1 505 +) text"), (7, "!@ * (. 1 505 +) text"),
    (0, "list (. 1 506 +) data"), (5, "list (. 1 506 +) !text"), (3, "list (. 1 506 +) !empty"),
    (6, "(. 1 505 +) !+ list data"), (0, "list (, 1 253 data)"), (5, "list (. 1 252 , data) !$0"),
    (0, "list (. 1 253 | empty) data"), (5, "data- (. 1 251 | value) !list data"),
    (0, "list (. 1 506 data-) value"),
    (0, "(. 1 507 data-) value"), (5, "(. 1 507 data-) !text"),
    (0, "(. 1 253 | empty) data"), (3, "(. 1 253 | text) !empty"), (0, "(, 1 254 text)"),
    (6, "(. 1 252 , text) !, text data"), (8, "(. 1 252 & $0) !& $0 $0"), (0, "(| 1 254 $0)"),
    (0, "+ (. 1 252 | text) @ * text"), (5, "+ , text (. 1 250 | text) !@ 0:1 text"),
    (5, "@ 0:1 (. 1 252 | text) !$0"), (5, "data- (. 1 252 | value) !text"),
    (4, "none element *- (. 1 250 / 0:1) !* none"), (4, "none element 0:*- (. 1 250 / 0:1) !1:* none"),
    // 127 attributes of distinct names, or the last of them equal to the first.
    (0, "(, 1 127 @ 0:# text)"), (7, "!, (, 1 126 @ 0:# text) @ 0:1 text"), (0, "(& 1 127 @ 0:# text)"),
    (7, "!& (, 1 126 @ 0:# text) @ 0:1 text"), (7, "!, @ 0:126 text (& 1 126 @ 0:# text)"),
    // Two classes of 252 names in all, apart or with one in common.
    (0, ", @ (/ 1 126 0:#) text @ (/ 127 252 0:#) text"),
    (0, ", @ (/ 1 250 0:#) text @ / 0:251 0:252 text"),
    (7, "!, @ (/ 1 126 0:#) text @ / (/ 127 251 0:#) 0:126 text"),
    (7, "!& @ / 0:251 0:250 text @ (/ 1 250 0:#) text"),
    (0, ", + @ *- (/ 1 125 0:#) text @ (/ 1 125 0:#) text"),
    (7, "!, + @ *- (/ 1 125 0:#) text @ / (/ 1 124 0:#) 0:126 text"),
    (0, "(& 1 101 $#) (. 1 101 element 1:# none)"),
    (8, "!& (& 1 100 $#) $101 (. 1 100 element 1:# none) element 1:1 none"),
    (0, "& $1 $2 element (/ 1 125 0:#) none element (/ 126 250 0:#) none"),
    (8, "!& $1 $2 element (/ 1 125 0:#) none element / (/ 126 249 0:#) 0:125 none"),
];

/// Two large classes and their least common name, or none.
#[rustfmt::skip]
pub const LARGE_CLASSES: &[(&str, &str, Option<[u32; 2]>)] = &[
    ("*- (/ 1 250 0:#)", "*", Some([0, 251])), ("(/ 2 250 0:#)", "*- / 0:1 0:2", Some([0, 3])),
    ("*- (/ 0 249 #:*)", "*", Some([250, 1])), ("0:*- (/ 1 250 0:#)", "0:*- 0:252", Some([0, 251])),
    ("(/ 1 125 0:#)", "*- (/ 1 124 0:#)", Some([0, 125])), ("(/ 1 125 0:#)", "*- (/ 1 125 0:#)", None),
    ("(/ 1 250 0:#)", "0:251", None), ("(/ 1 250 #:#)", "/ 251:250 250:250", Some([250, 250])),
    // Names of which no two have a number in common, and the same with one in both.
    ("(/ 1 127 #:#)", "(/ 128 254 #:#)", None), ("(/ 10 99 #:1#)", "(/ 10 99 2#:3#)", None),
    ("(/ 1 127 #:#)", "(/ 127 253 #:#)", Some([127, 127])), ("(/ 385 511 #:#)", "(/ 259 385 #:#)", Some([385, 385])),
    // The same namespaces, or the same local names.
    ("(/ 100 226 #:#)", "(/ 100 226 #:300)", None), ("(/ 100 226 #:#)", "(/ 100 226 #:226)", Some([226, 226])),
    ("(/ 10 99 #:1#)", "(/ 10 99 #:2#)", None), ("(/ 1 127 #:#)", "*- (/ 1 126 #:#)", Some([127, 127])),
    ("(/ 100 226 0:#)", "(/ 100 226 1:#)", None), ("(/ 100 226 0:#)", "/ (/ 100 225 1:#) 0:226", Some([0, 226])),
    // A fresh local name; one beside other namespaces alone; one in an except of an except alone.
    ("*- (/ 1 252 0:#)", "0:*", Some([0, 253])), ("0:*- (/ 1 125 0:#)", "0:*- (/ 126 250 0:#)", Some([0, 251])),
    ("0:*- / / / / (/ 0 24 0:#1) (/ 0 24 0:#3) (/ 0 24 0:#5) (/ 0 24 0:#7) (/ 0 24 0:#9)",
        "0:*- / / / / (/ 0 24 0:#2) (/ 0 24 0:#4) (/ 0 24 0:#6) (/ 0 24 0:#8) (/ 1 25 0:#0)", Some([0, 251])),
    ("*- (/ 1 250 #:#)", "*- / 0:1 0:251", Some([0, 2])), ("0:*- (/ 1 125 0:#)", "*- (/ 126 250 1:#)", Some([0, 126])),
    ("*- 7:*- (/ 1 126 7:#)", "7:*- (/ 1 125 7:#)", Some([7, 126])), ("7:*- (/ 260 511 7:#)", "*", Some([7, 1])),
    // A fresh namespace.
    ("*- (/ 0 125 #:*)", "*- (/ 126 251 #:*)", Some([252, 1])), ("*- (/ 0 251 #:*)", "*", Some([252, 1])),
    ("*- (/ 0 125 #:*)", "*- (/ 127 251 #:*)", Some([126, 1])), ("*- (/ 260 511 #:*)", "*", Some([0, 1])),
    ("*- / / / / (/ 0 24 #1:*) (/ 0 24 #3:*) (/ 0 24 #5:*) (/ 0 24 #7:*) (/ 0 24 #9:*)",
        "*- / / / / (/ 0 24 #2:*) (/ 0 24 #4:*) (/ 0 24 #6:*) (/ 0 24 #8:*) (/ 0 25 #0:*)", Some([251, 1])),
];
