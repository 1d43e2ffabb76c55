//! The example of docs/README.md of the repository.

#[test]
fn the_example_has_its_value() -> Result<(), cfgx::ParseError> {
    let condition = cfgx::Expression::parse("any(unix, feature = \"x\")")?;
    let value: Option<bool> = condition.eval(|asked| match asked {
        cfgx::Predicate::Feature(name) => Some(*name == "x"),
        _ => None,
    });
    assert_eq!(value, Some(true));
    Ok(())
}
