//! An index of two dimensions with one basis, the unit vectors: three vectors added, and three searches.
use bbqvec::{Index, Mode, Query, Refusal, Work};

fn show(index: &Index, work: &mut Work, target: [f32; 2], query: Query) {
    match index.search(work, &target, query) {
        Err(refusal) => println!("refused {}", refusal.number().expect("each refusal of a search has a number")),
        Ok(found) => {
            println!("found {} checked {}", found.entries.len(), found.checked);
            for entry in found.entries {
                println!("{} {:08X}", entry.id, entry.score.to_bits());
            }
        }
    }
}

fn main() -> Result<(), Refusal> {
    let mut index = Index::new(2, 1, 64, Mode::Full)?;
    println!("geometry 2 1 64 0");
    index.set_basis(0, &[1.0, 0.0, 0.0, 1.0])?;
    println!("basis 0");
    for (id, vector) in [(1, [2.0, 0.0]), (2, [0.0, 3.0]), (5, [4.0, 0.0])] {
        index.add(id, &vector)?;
        println!("added {id}");
    }
    let mut work = index.work();
    show(&index, &mut work, [1.0, 0.0], Query::new(2, 1, 0));
    show(&index, &mut work, [1.0, 0.0], Query::new(2, 3, 1));
    show(&index, &mut work, [1.0, 1.0], Query::new(2, 1, 1));
    Ok(())
}
