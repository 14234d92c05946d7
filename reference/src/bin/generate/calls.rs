//! Random rehearsals.

use reference::random::{program, Random, Shape};

/// A compile line and the calls of one rehearsal, or of a few, on its program.
pub fn rehearsal(random: &mut Random, i: usize) -> String {
    let (variables, rows) = match random.below(8) {
        0 => (random.below(3), random.between(1, 6)),
        1..=4 => (random.between(1, 8), random.between(3, 20)),
        5 | 6 => (random.between(4, 20), random.between(12, 50)),
        _ => (random.between(20, 64), random.between(60, 128)),
    };
    let mut shape = Shape::any(random, variables, rows);
    match i % 4 {
        // Endless runs that put out much, or take much in.
        0 => shape = Shape { backward: 100, puts: 30, inputs: 0, branches: 5, ..shape },
        1 => shape = Shape { backward: 90, inputs: 20, puts: 15, prelude: rows.min(2), ..shape },
        2 => shape.weights = false,
        _ => {}
    }
    let draft = program(random, &shape);
    let mut lines = vec![format!("{} {}", reference::draft::hex(&draft.bytes()), random.below(2))];
    for _ in 0..if random.chance(15) { 2 } else { 1 } {
        lines.push("> open".to_string());
        if random.chance(20) {
            play(random, &mut lines);
        }
        for _ in 0..random.between(1, 3) {
            restart(random, &mut lines);
            for _ in 0..random.between(1, 6) {
                play(random, &mut lines);
            }
            if random.chance(25) {
                lines.push("> state".to_string());
                play(random, &mut lines);
            }
        }
        lines.push("> state".to_string());
    }
    lines.join("\n")
}

fn play(random: &mut Random, lines: &mut Vec<String>) {
    let side = random.pick(&["source", "code"]);
    let few = random.between(1, 40) as u64;
    let asked = random.pick(&[
        0,
        1,
        2,
        3,
        few,
        few,
        few,
        500,
        4000,
        65_535,
        65_535,
        65_536,
        70_000,
        4_294_967_295,
    ]);
    lines.push(format!("> {side} {asked}"));
}

fn restart(random: &mut Random, lines: &mut Vec<String>) {
    let few = random.between(1, 30);
    let count = random.pick(&[0, 1, 2, few, few, few, 255, 256, 257, 300, 65_536]);
    if count > 256 {
        lines.push(format!("> restart {count}"));
        if random.chance(50) {
            play(random, lines);
        }
        return;
    }
    let style = random.below(3);
    let numbers: Vec<String> = (0..count)
        .map(|_| match style {
            0 => random.below(5) as u32,
            1 => random.pick(&[0, 1, 255, 256, 65_535, 65_536, u32::MAX]),
            _ => random.number() as u32,
        })
        .map(|number| number.to_string())
        .collect();
    let list = if numbers.is_empty() { "-".to_string() } else { numbers.join(",") };
    lines.push(format!("> restart {count} {list}"));
}
