//! How long reads take, in nanoseconds a row: 100,000 rows, the best of some rounds, beside columns of plain Rust. Run it
//! with `--release`.
use scene::{Error, Kind, Scene, Shape};
use std::hint::black_box;
use std::time::Instant;

const ROWS: i64 = 100_000;
const ROUNDS: usize = 200;

/// The best time of a row, of a read that gives a sum; and whether each sum is the wanted one.
fn measure(what: &str, wanted: i64, mut read: impl FnMut() -> Result<i64, Error>) -> Result<bool, Error> {
    let mut best = f64::INFINITY;
    let mut all_right = true;
    for _ in 0..ROUNDS {
        let begin = Instant::now();
        all_right &= black_box(read()?) == wanted;
        best = best.min(begin.elapsed().as_nanos() as f64 / ROWS as f64);
    }
    println!("{what}: {best:.1} ns a row");
    Ok(all_right)
}

fn built() -> Result<(Scene, [Kind; 3]), Error> {
    let mut scene = Scene::new()?;
    let health = scene.declare("Health", Shape::Int)?;
    let armor = scene.declare("Armor", Shape::Int)?;
    let at = scene.declare("At", Shape::Vec3)?;
    let mut frame = scene.frame();
    for number in 0..ROWS {
        frame.spawn(&[health.of(number), armor.of(1), at.of([number, 0, -1])]);
    }
    frame.commit()?;
    Ok((scene, [health, armor, at]))
}

fn main() -> Result<(), Error> {
    let (scene, [health, armor, at]) = built()?;
    let sum = ROWS * (ROWS - 1) / 2;
    let plain: [Vec<i64>; 2] = [(0..ROWS).collect(), vec![1; ROWS as usize]];
    let all_right = measure("two integers of plain Rust", sum + ROWS, || {
        let [lives, armors] = black_box(&plain);
        Ok(lives.iter().zip(armors).map(|(life, armor)| life + armor).sum())
    })? && measure("one integer", sum, || Ok(scene.query::<i64>(health)?.sum()))?
        && measure("two integers", sum + ROWS, || {
            Ok(scene.query::<(i64, i64)>([health, armor])?.map(|(life, armor)| life + armor).sum())
        })?
        && measure("an integer and a vector", 2 * sum - ROWS, || {
            Ok(scene.query::<(i64, [i64; 3])>([health, at])?.map(|(life, [x, y, z])| life + x + y + z).sum())
        })?
        && measure("an integer, a vector and the entity", 3 * sum - ROWS, || {
            let rows = scene.query::<(i64, [i64; 3])>([health, at])?.with_entities();
            Ok(rows.map(|(entity, (life, [x, y, z]))| i64::from(entity.index) + life + x + y + z).sum())
        })?
        && measure("two integers, in a loop", sum + ROWS, || {
            let mut found = 0;
            for (life, armor) in scene.query::<(i64, i64)>([health, armor])? {
                found += life + armor;
            }
            Ok(found)
        })?
        && measure("two integers, as whole columns", sum + ROWS, || {
            let mut found = 0;
            for table in scene.tables(scene::Filter::need(&[health, armor]))? {
                found += scene.column::<i64>(table.kinds, health)?.iter().sum::<i64>();
                found += scene.column::<i64>(table.kinds, armor)?.iter().sum::<i64>();
            }
            Ok(found)
        })?;
    assert!(all_right, "what was read is another sum than what was written");
    Ok(())
}
