//! Names of variables.

/// The name of a variable from 1, with these names for 1, 2, ..; `x` and its number where it has none.
pub fn variable(number: usize, names: &[String]) -> String {
    let name = names.get(number - 1);
    name.map_or_else(|| format!("x{number}"), String::clone)
}
