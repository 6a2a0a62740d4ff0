//! The two independent solvers against each other in both modes, without the proved calls.

use blocks::{Kind, Random};
use differential::check;
use matrix::VERSIONS;
use solver::Mode;

#[test]
fn the_column_method_agrees_with_every_division() {
    let mut random = Random::new(6);
    let mut searched = 0;
    for i in 0..12000 {
        let (kind, version) = (Kind::SMALL[i % Kind::SMALL.len()], VERSIONS[i % 2]);
        let block = kind.matrix(version, &mut random).block();
        let (work, out) = solver::rooms(&block).unwrap_or((0, 0));
        for (call, mode) in
            [solver::columns, solver::walk].into_iter().flat_map(|call| Mode::ALL.map(|mode| (call, mode)))
        {
            match check(call, mode, &block, (work + i % 3, out + i % 2), &mut random) {
                Ok((_, tried)) => searched += usize::from(tried),
                Err(fault) => panic!("{fault}"),
            }
        }
    }
    println!("{searched} calls");
    assert!(searched > 36000, "every division was tried for {searched} calls only");
}
