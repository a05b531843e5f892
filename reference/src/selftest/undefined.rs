//! Tests that look at an undefined pointer, told apart by what they find.

use crate::statement::{Op, Statement};

/// The fault of such a test, as the request numbers it.
pub const FAULT: u8 = 2;

/// The ways in which a test meets an undefined pointer.
pub const WAYS: [&str; 5] =
    ["u = null", "u = w with u undefined", "u = w with w undefined", "u = w with both undefined", "u = u"];

/// The number of the way in which a statement meets one, if it does.
pub fn way(statement: &Statement, is_undefined: impl Fn(usize) -> bool) -> Option<usize> {
    let Statement { op, u, w, .. } = *statement;
    match op {
        Op::TestNull => is_undefined(u).then_some(0),
        Op::TestEqual if u == w => is_undefined(u).then_some(4),
        Op::TestEqual => match (is_undefined(u), is_undefined(w)) {
            (true, false) => Some(1),
            (false, true) => Some(2),
            (true, true) => Some(3),
            (false, false) => None,
        },
        _ => None,
    }
}

/// Wants fault 2 of a test that meets an undefined pointer, and no fault of
/// every other test.
pub fn check(statement: &Statement, way: Option<usize>, fault: u8) -> Result<(), String> {
    let due = match (statement.op, way) {
        (Op::TestNull | Op::TestEqual, Some(_)) => FAULT,
        (Op::TestNull | Op::TestEqual, None) => 0,
        _ => return Ok(()),
    };
    if fault == due {
        Ok(())
    } else {
        Err(format!("{statement:?} has fault {fault} where {due} is due"))
    }
}
