//! What the example prints.

#[allow(dead_code)] // its `main`
#[path = "../examples/convert.rs"]
mod convert;

#[test]
fn the_example_prints_its_violations() {
    let expected = "\
Request
  66 E 65 8    WhereClauseConstRefNotFound at `MAX_ROOM`
  16 E 102 2    OrdinalReusedAfterRemoved at `@1`
  28 E 111 3    InvalidMapKey at `f32`
  49 E 120 11    LimitInvalidTarget at `@limit(0x0)`
  51 E 120 11    LimitZero at `@limit(0x0)`
  total 5 errors 5
Status
  36 E 163 2    EnumBackingTooNarrow at `u8`
  total 1 errors 1
Saved
  20 E 207 8    NewtypeOverConfig at `Settings`
  total 1 errors 1
";
    assert_eq!(convert::printed().unwrap(), expected);
}
