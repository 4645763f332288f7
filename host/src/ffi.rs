//! The calls of the static library on slices: the one file with `unsafe`.
//!
//! Each call takes a slice as its address and its length, asks nothing of its caller, and writes only inside the slices
//! that it may change (docs/ABI.md), so each is safe on any slices. Rust itself sees to it that a slice that a call may
//! change is no part of another.
#![allow(unsafe_code)]

/// Declares a call and makes its safe function: `read` is a slice that is read, `change` one that may be changed, `word` a u64.
macro_rules! calls {
    ($( $(#[$note:meta])* $name:ident as $symbol:ident ( $( $argument:ident : $kind:ident ),* ); )*) => {
        $(
            $(#[$note])*
            #[allow(clippy::too_many_arguments)]
            pub fn $name( $( $argument: calls!(@type $kind) ),* ) -> u32 {
                calls!(@call $symbol [] [] $( $argument $kind ),*)
            }
        )*
    };
    (@type read) => { &[u8] };
    (@type change) => { &mut [u8] };
    (@type word) => { u64 };
    // one argument after the other goes into the declaration and into the call
    (@call $symbol:ident [$($types:tt)*] [$($values:tt)*] $argument:ident read $(, $($rest:tt)*)?) => {
        calls!(@call $symbol [$($types)* _: *const u8, _: usize,] [$($values)* $argument.as_ptr(), $argument.len(),] $($($rest)*)?)
    };
    (@call $symbol:ident [$($types:tt)*] [$($values:tt)*] $argument:ident change $(, $($rest:tt)*)?) => {
        calls!(@call $symbol [$($types)* _: *mut u8, _: usize,] [$($values)* $argument.as_mut_ptr(), $argument.len(),] $($($rest)*)?)
    };
    (@call $symbol:ident [$($types:tt)*] [$($values:tt)*] $argument:ident word $(, $($rest:tt)*)?) => {
        calls!(@call $symbol [$($types)* _: u64,] [$($values)* $argument,] $($($rest)*)?)
    };
    (@call $symbol:ident [$($types:tt)*] [$($values:tt)*]) => {{
        extern "C" {
            fn $symbol($($types)*) -> u32;
        }
        // SAFETY: every address comes with the length of its slice, borrowed for the call.
        unsafe { $symbol($($values)*) }
    }};
}

// What changes a model.
calls! {
    new as dw_new(model: change, out: change);
    add_constant as dw_add_constant(model: change, tag: read, value: word, out: change);
    add_function as dw_add_function(
        model: change, tag: read, kind: word, a: word, b: word, c: word, d: word, e: word, out: change
    );
    add_operation as dw_add_operation(
        model: change, tag: read, kind: word, a: word, b: word, c: word, d: word, e: word,
        given: word, first: read, second: read, third: read, out: change
    );
    add_component as dw_add_component(
        model: change, tag: read, kind: word, a: word, b: word, c: word, d: word, e: word, out: change
    );
    add_input as dw_add_input(model: change, target: read, source: read, index: word, out: change);
    remove_input as dw_remove_input(model: change, tag: read, index: word, out: change);
    remove_component as dw_remove_component(model: change, tag: read, out: change);
    rename_component as dw_rename_component(model: change, old: read, new: read, out: change);
    set_parameter as dw_set_parameter(
        model: change, tag: read, name: read, kind: word, a: word, b: word, c: word, out: change
    );
    evaluate_after as dw_evaluate_after(
        model: change, edits: read, target: read, x: word, y: word, z: word, out: change
    );
}

// What reads a model.
calls! {
    check as dw_check(model: read, out: change);
    compile as dw_compile(model: read, target: read, order: change, out: change);
    evaluate_at as dw_evaluate_at(model: read, target: read, x: word, y: word, z: word, out: change);
    default as dw_default(model: read, out: change);
    component_at as dw_component_at(model: read, position: word, words: change, out: change);
    get_component as dw_get_component(model: read, tag: read, words: change, out: change);
    list_at as dw_list_at(model: read, position: word, places: change, out: change);
    get_inputs as dw_get_inputs(model: read, tag: read, places: change, out: change);
    read_parameter as dw_read_parameter(model: read, tag: read, name: read, words: change, out: change);
}

// What touches no model.
calls! {
    type_name as dw_type_name(kind: word, out: change);
    parameter as dw_parameter(kind: word, index: word, out: change);
}

extern "C" {
    fn dw_root(x: f64) -> f64;
    fn dw_sphere(cx: f64, cy: f64, cz: f64, radius: f64, x: f64, y: f64, z: f64) -> f64;
    fn dw_torus(cx: f64, cy: f64, cz: f64, r: f64, t: f64, x: f64, y: f64, z: f64) -> f64;
}

/// The root of a number.
pub fn root(x: f64) -> f64 {
    // SAFETY: numbers alone are passed.
    unsafe { dw_root(x) }
}

/// The distance of a point to a sphere.
pub fn sphere(centre: [f64; 3], radius: f64, [x, y, z]: [f64; 3]) -> f64 {
    let [cx, cy, cz] = centre;
    // SAFETY: numbers alone are passed.
    unsafe { dw_sphere(cx, cy, cz, radius, x, y, z) }
}

/// The distance of a point to a torus.
pub fn torus(centre: [f64; 3], r: f64, t: f64, [x, y, z]: [f64; 3]) -> f64 {
    let [cx, cy, cz] = centre;
    // SAFETY: numbers alone are passed.
    unsafe { dw_torus(cx, cy, cz, r, t, x, y, z) }
}
