//! Makes the stored rows, the same each time: `rows > crates/replay/stdin` those of the arithmetic, of chop and of
//! splice, `rows strokes > crates/replay_strokes/stdin` those of simplify and chop_adaptive, `rows meshes >
//! crates/replay_meshes/stdin` those of draw, weld, section and contour, `rows sheets > crates/replay_sheets/stdin`
//! those of write_sheet and read_sheet, `rows stl > crates/replay_stl/stdin` those of read_stl and write_stl.

#[cfg(not(original))]
fn main() {
    eprintln!("{}", compare::NO_ORIGINAL);
    std::process::exit(1);
}

#[cfg(original)]
fn main() {
    use std::io::Write;
    let mut out = std::io::BufWriter::new(std::io::stdout().lock());
    let lines = match std::env::args().nth(1).as_deref() {
        Some("strokes") => compare::call_rows::stroke_rows(),
        Some("meshes") => compare::call_rows::mesh_rows(),
        Some("sheets") => compare::call_rows::sheet_rows(),
        Some("stl") => compare::call_rows::stl_rows(),
        _ => made::rows().into_iter().chain(compare::call_rows::rows()).collect(),
    };
    for line in lines {
        writeln!(out, "{line}").unwrap();
    }
}

#[cfg(original)]
mod made {
    use compare::arithmetic::{FUNCTIONS, MOST_OPERANDS};
    use compare::numbers::{SPECIAL, near_middle, number};
    use compare::random::Random;
    use compare::rows::line;

    /// How many rows each function has, besides those of the special numbers.
    const ROWS: usize = 300;
    const SQRT_ROWS: usize = 1200;

    pub fn rows() -> Vec<String> {
        let mut random = Random::new(1);
        let mut rows = Vec::new();
        for (place, function) in FUNCTIONS.iter().enumerate() {
            let mut add = |operands: &[f64]| rows.push(line(place, operands, (function.original)(operands)));
            if function.operands == 1 {
                SPECIAL.iter().for_each(|&x| add(&[x]));
            }
            if function.name == "sqrt" {
                roots(&mut random, add);
                continue;
            }
            for _ in 0..ROWS {
                let mut operands = [0.0; MOST_OPERANDS];
                function.fill(&mut random, &mut operands);
                add(&operands[..function.operands]);
            }
        }
        rows
    }

    /// Roots: near the middle of two f64 on both sides, near powers of two, squares, subnormals, and any.
    fn roots(random: &mut Random, mut add: impl FnMut(&[f64])) {
        for k in 0..SQRT_ROWS / 12 {
            let whole = random.below(1 << 26) as f64;
            let power = f64::from_bits((k as u64 * 20 + 1) << 52);
            let near = near_middle(random);
            let subnormal = f64::from_bits(random.bits() >> (12 + k % 50));
            let any = [number(random), number(random), number(random).abs(), f64::from_bits(random.bits() >> 1)];
            let others = [whole * whole, power, power.next_down(), power.next_up(), subnormal, whole];
            near.iter().chain(&any).chain(&others).for_each(|&x| add(&[x]));
        }
    }
}
