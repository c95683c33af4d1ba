//! Headers, cubes and regions as plain strings, judged without the implementation's help.

use reference::generator::random::Random;

/// A base and its cuts, drawn with 0, 1 and *.
pub type Drawing = (String, Vec<String>);

/// All headers of W bits as strings of 0 and 1.
pub fn headers(w: usize) -> Vec<String> {
    (0..1usize << w).map(|value| format!("{value:0w$b}")).collect()
}

/// All cubes of W positions.
pub fn cubes(w: usize) -> Vec<String> {
    let mut cubes = vec![String::new()];
    for _ in 0..w {
        let longer = |cube: &String| ['0', '1', '*'].map(|value| format!("{cube}{value}"));
        cubes = cubes.iter().flat_map(longer).collect();
    }
    cubes
}

pub fn in_cube(header: &str, cube: &str) -> bool {
    header.chars().zip(cube.chars()).all(|(bit, value)| value == '*' || value == bit)
}

pub fn in_difference(header: &str, (base, cuts): &Drawing) -> bool {
    in_cube(header, base) && !cuts.iter().any(|cut| in_cube(header, cut))
}

pub fn in_region(header: &str, region: &[Drawing]) -> bool {
    region.iter().any(|difference| in_difference(header, difference))
}

pub fn random_cube(random: &mut Random, w: usize) -> String {
    let values = random.pick(&["01*", "01***", "01*******"]);
    (0..w).map(|_| char::from(random.pick(values.as_bytes()))).collect()
}

pub fn random_difference(random: &mut Random, w: usize) -> Drawing {
    let count = random.below(6);
    let base = random_cube(random, w);
    (base, (0..count).map(|_| random_cube(random, w)).collect())
}

pub fn random_region(random: &mut Random, w: usize) -> Vec<Drawing> {
    let count = random.below(4);
    (0..count).map(|_| random_difference(random, w)).collect()
}
