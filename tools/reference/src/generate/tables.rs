//! Tables: starred and not, with few or no rows and columns, columns of every form, cells in and out of the domains.
use super::expressions::{int, World};
use super::rng::Rng;
use super::Scale;
use crate::set::{Domain, Int, Statement, Table, LIMIT};

pub fn table(rng: &mut Rng, world: &World, scale: Scale) -> Statement {
    let (columns, rows) = match scale {
        Scale::Small => (rng.below(5), rng.below(7)),
        Scale::Medium => (rng.below(9), rng.below(24)),
        Scale::Large => (rng.below(30), rng.below(60)),
    };
    let columns: Vec<Int> = (0..columns).map(|_| column(rng, world)).collect();
    let stars = if rng.chance(35) { rng.pick(&[5, 30, 70]) } else { 0 };
    let mut made: Vec<Vec<Option<i32>>> = vec![];
    for _ in 0..rows {
        let row = if !made.is_empty() && rng.chance(15) {
            made[rng.below(made.len())].clone()
        } else {
            row(rng, world, &columns, stars)
        };
        made.push(row);
    }
    Statement::Table(Table { columns, rows: made })
}

fn column(rng: &mut Rng, world: &World) -> Int {
    let variable = Int::Var(rng.below(world.domains.len()));
    if world.domains.is_empty() {
        return Int::Const(rng.range(-3, 3));
    }
    match rng.below(12) {
        0 => Int::Const(rng.range(-3, 3)),
        1 => Int::Sum(vec![(1, variable)]),
        2 => Int::Sum(vec![(1, variable.clone()), (-1, variable)]),
        3 => Int::Sum(vec![(rng.pick(&[-2, -1, 0, 2, 3]), variable)]),
        4..=5 => {
            let size = rng.size(1, 3);
            int(rng, world, size, 2)
        }
        _ => variable,
    }
}

/// A row of cells: those of one assignment, or each by itself, some changed or starred.
fn row(rng: &mut Rng, world: &World, columns: &[Int], stars: usize) -> Vec<Option<i32>> {
    let mut values = draw(rng, world);
    let joint = rng.chance(60);
    let mut cells = vec![];
    for column in columns {
        if !joint {
            values = draw(rng, world);
        }
        let moved = if rng.chance(6) { rng.range(-9, 9) } else { 0 };
        let limit = LIMIT as i128;
        let cell = (value(column, &values) + moved as i128).clamp(-limit, limit);
        cells.push(if rng.chance(stars) { None } else { Some(cell as i32) });
    }
    cells
}

/// A value of every declared integer.
fn draw(rng: &mut Rng, world: &World) -> Vec<i64> {
    let value = |d: &Domain| d.nth(rng.below(d.count() as usize) as u64);
    world.domains.iter().map(value).collect()
}

fn value(e: &Int, values: &[i64]) -> i128 {
    match e {
        Int::Const(c) => *c as i128,
        Int::Var(v) => values[*v] as i128,
        Int::Sum(terms) => terms.iter().map(|(c, e)| *c as i128 * value(e, values)).sum(),
        Int::If(_, t, _) => value(t, values),
    }
}
