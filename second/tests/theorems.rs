//! The text of the theorems that `agree` writes.

use second::theorems::{module_file, theorem_file};

#[test]
fn a_file_of_two_theorems() {
    let text = theorem_file(20, &[vec![1, 2, 0], vec![]]);
    let expected = "\
use Rattle.std.specs.Prelude.{◌≡◌, refl, [], ◌∷◌}
use Rattle.rules.specs.Listing.{listing, text}

pub stream-20 : listing (1 ∷ 2 ∷ 0 ∷ []) ≡ text \"open refused 1\\n\"
stream-20 = refl

pub stream-21 : listing [] ≡ text \"open refused 1\\n\"
stream-21 = refl
";
    assert_eq!(text, expected);
}

#[test]
fn the_file_that_names_the_others() {
    assert_eq!(module_file(2), "pub mod Streams0\npub mod Streams1\n");
}
