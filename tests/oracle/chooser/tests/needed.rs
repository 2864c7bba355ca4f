//! What the model says a tree needs is enough, and one less of anything is refused with that thing's number.

use chooser::pool::{edges, needs_all};
use generator::Mode;

#[test]
fn needed_is_exact_on_generated_trees() {
    let mut with_everything = 0;
    for seed in 400_000..403_000 {
        let tree = generator::tree(seed, Mode::Mixed);
        let needed = model::needed(&tree).expect("a generated tree is accepted");
        let numbers: Vec<u32> = edges(&tree, &needed)
            .iter()
            .map(|call| call.answer.number)
            .collect();
        if needs_all(&needed) {
            with_everything += 1;
            assert_eq!(numbers, [0, 6, 7, 8, 17, 9, 10]);
        }
        assert!(numbers[0] == 0 && numbers[1..].iter().all(|&number| number != 0));
    }
    assert!(with_everything > 100);
}
