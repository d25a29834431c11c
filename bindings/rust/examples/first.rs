use opening_tree::{published, NotAccepted, Tree};

fn main() -> Result<(), NotAccepted> {
    let set = published::width_12(4, 2)?; // nodes of four words, three to a row, and nine leaves
    let leaves: Vec<u64> = (0..36).collect();
    let tree = Tree::build(&set, &leaves)?;
    let (root, opening) = (tree.root(), tree.open(5)?);
    // Whoever holds the root alone asks whether this leaf stood at place 5: an error unless the opening is accepted.
    set.verify(&root, &leaves[20..24], &opening)?;
    for word in root.words() {
        println!("{word}");
    }
    println!("accepted");
    Ok(())
}
