//! A push of one record over 2^32. The list takes 224 GiB of addresses, though no memory: it is refused before a record is read.

mod model;
mod support;

use opening_tree::{entries, published, Refusal};
use support::mapping::Mapping;

const RECORDS: usize = (1 << 32) + 1;

#[test]
fn a_push_of_over_2_to_the_32_records_is_refused() {
    let records = Mapping::of_bytes(RECORDS * 7 * 8);
    let set = published::width_8(2, 0).expect("accepted");
    let mut store = [1, 2];
    assert_eq!(entries::push_numbers(set.array(), &mut store, records.numbers()), Err(Refusal::BadLength));
    assert_eq!(store, [1, 2]);
}
