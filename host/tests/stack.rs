//! The stack that docs/ABI.md promises is enough for each call.
#[path = "../examples/stack/calls.rs"]
mod calls;

use calls::{full, CALLS};

const ENOUGH: usize = 1024 * 1024;

#[test]
fn every_call_fits_on_a_small_stack() {
    let full = full();
    for (name, call) in CALLS {
        let mut model = full.clone();
        let thread = std::thread::Builder::new().name(name.to_string()).stack_size(ENOUGH);
        let called = thread.spawn(move || call(&mut model)).unwrap();
        assert_eq!(called.join().unwrap(), if name == "dw_add_input" { 14 } else { 0 }, "{name}");
    }
}
