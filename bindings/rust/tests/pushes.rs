//! Pushes beside the reference, and beside their records done singly: of lists that repeat a place and of lists that don't, in trees of
//! one place and of up to 2^22.

mod model;
mod support;

use model::field::P;
use model::set::Set;
use opening_tree::entries::{self, record_numbers};
use opening_tree::{Record, Refusal, Tree};
use support::calls::kept;
use support::cases::{nodes_above, places_under, refused_sets, set_of, small, SHAPES};
use support::generator::Generator;
use support::reference::{printed, Input};

const SEED: u64 = 17;

/// The records of a flat list.
fn records(list: &[u64]) -> Vec<Record> {
    let record = |flat: &[u64]| Record { place: flat[0], words: flat[1..].try_into().expect("six words") };
    list.chunks(Record::NUMBERS).map(record).collect()
}

/// What the reference says of a push: its answer, and the places and new values of the store's numbers that it changes.
struct Wanted {
    records: usize,
    answer: Result<u64, u8>,
    changes: Vec<(usize, u64)>,
}

impl Wanted {
    /// The form is that of the docstring of `reference/push_vectors.py`.
    fn read(line: &str) -> Wanted {
        let parts: Vec<&str> = line.split(' ').collect();
        let number = |text: &str| text.parse::<u64>().unwrap_or_else(|error| panic!("{text}: {error}"));
        let (records, answer, changed, listed) = match &parts[..] {
            ["push", records, "refused", refusal] => (records, Err(number(refusal) as u8), 0, &[][..]),
            ["push", records, "compressions", made, "changed", changed, listed @ ..] => {
                (records, Ok(number(made)), number(changed), listed)
            }
            _ => panic!("no line of a push: {line}"),
        };
        let changes: Vec<_> = listed.chunks(2).map(|pair| (number(pair[0]) as usize, number(pair[1]))).collect();
        assert_eq!(changes.len() as u64, changed);
        Wanted { records: number(records) as usize, answer, changes }
    }
}

/// A store as the reference has it, and one for each way of handing in records.
struct Stores {
    wanted: Vec<u64>,
    by_records: Vec<u64>,
    by_numbers: Vec<u64>,
}

impl Stores {
    fn new(store: Vec<u64>) -> Stores {
        Stores { wanted: store.clone(), by_records: store.clone(), by_numbers: store }
    }

    /// Pushes the list in both ways, and compares both answers and both whole stores.
    fn push(&mut self, set: &Set, list: &[u64], wanted: &Wanted) {
        let (array, records) = (&set.array(), records(list));
        assert_eq!(records.len(), wanted.records);
        for &(at, word) in &wanted.changes {
            assert_ne!(self.wanted[at], word, "the reference lists a number that stays");
            self.wanted[at] = word;
        }
        let places = || records.iter().map(|record| record.place).collect::<Vec<u64>>();
        let answer = entries::push(array, &mut self.by_records, &records);
        assert_eq!(answer.map_err(Refusal::number), wanted.answer, "records for {:?} under {set:?}", places());
        let answer = entries::push_numbers(array, &mut self.by_numbers, list);
        assert_eq!(answer.map_err(Refusal::number), wanted.answer, "numbers for {:?} under {set:?}", places());
        for store in [&self.by_records, &self.by_numbers] {
            assert!(*store == self.wanted, "{} after {:?} under {set:?}", difference(store, &self.wanted), places());
        }
    }
}

/// Where two stores differ first.
fn difference(store: &[u64], wanted: &[u64]) -> String {
    match store.iter().zip(wanted).position(|(a, b)| a != b) {
        Some(at) => format!("number {at} of the store is {} and not {}", store[at], wanted[at]),
        None => format!("the store has {} numbers and not {}", store.len(), wanted.len()),
    }
}

/// The store that a case begins with: zeros, and the runs that are written over them.
fn read_store(input: &mut Input) -> Vec<u64> {
    let mut store = vec![0; input.number() as usize];
    for _ in 0..input.number() {
        let (place, length) = (input.number() as usize, input.number() as usize);
        store[place..place + length].fill_with(|| input.number());
    }
    store
}

/// The cases of `reference/push_cases.py`, whose docstring has their form, with the lines of `reference/push_vectors.py`.
#[test]
fn the_reference_has_the_same_answers_and_stores() {
    const RECORD_PLACES: usize = 7168;
    let mut input = Input::new(&printed("push_cases.py"));
    let lines = printed("push_vectors.py");
    let mut lines = lines.lines();
    let (mut done, mut fewer, mut refused, mut most_places) = (0, 0, 0, 0);
    for _ in 0..input.number() {
        let set = input.set();
        let mut stores = Stores::new(read_store(&mut input));
        let pushes = input.number();
        let Set { width, node_size, height, full_rounds, partial_rounds, .. } = &set;
        let begins = format!("{width} {node_size} {height} {full_rounds} {partial_rounds} pushes {pushes}");
        assert_eq!(lines.next(), Some(&begins[..]));
        most_places = most_places.max(set.places());
        for _ in 0..pushes {
            let list = input.list(RECORD_PLACES);
            let wanted = Wanted::read(lines.next().expect("a line for each push"));
            stores.push(&set, &list, &wanted);
            match wanted.answer {
                Ok(made) => {
                    let places: Vec<u64> = list.iter().step_by(Record::NUMBERS).copied().collect();
                    assert_eq!(made, nodes_above(set.arity(), set.height, &places), "places {places:?} under {set:?}");
                    let most = set.height * places.len() as u64;
                    assert!(made <= most && (places.len() != 1 || made == most));
                    done += 1;
                    fewer += u64::from(made < most);
                }
                Err(17) => refused += 1,
                Err(_) => {}
            }
        }
    }
    assert!(input.is_at_its_end());
    assert_eq!(lines.next(), None);
    println!("{done} pushes done, {fewer} of them with a node above several places, and {refused} that repeat a place");
    println!("in trees of up to {most_places} places");
    assert!(done > 1000 && fewer > 800 && refused > 1000 && most_places == 1 << 22);
}

/// The number of the refusal of a push, by records and by numbers, after which the store is as it was.
fn refusal(set: &Set, store: &[u64], records: &[Record]) -> u8 {
    let (mut by_records, mut by_numbers) = (store.to_vec(), store.to_vec());
    let refusal = entries::push(&set.array(), &mut by_records, records).expect_err("refused");
    assert_eq!(entries::push_numbers(&set.array(), &mut by_numbers, record_numbers(records)), Err(refusal));
    assert_eq!((&by_records[..], &by_numbers[..]), (store, store));
    refusal.number()
}

#[test]
fn a_repeated_place_is_refused_last() {
    let record = Record { place: 1, words: [7, 8, P, P, P, P] };
    for count in [2, 3, 128, 129, 300] {
        let repeated = &mut vec![record; count];
        assert_eq!(refusal(&small(), &[0; 6], repeated), 17);
        for (set, number) in refused_sets() {
            assert_eq!(refusal(&set, &[0; 6], repeated), number);
        }
        for length in [0, 5, 7] {
            assert_eq!(refusal(&small(), &vec![P; length], repeated), 10);
        }
        let mut store = [0; 6];
        let flat = &record_numbers(repeated)[..7 * count - 1];
        assert_eq!(entries::push_numbers(&small().array(), &mut store, flat), Err(Refusal::BadLength));
        assert_eq!(store, [0; 6]);
        // The store's numbers, then a leaf's, then a place.
        assert_eq!(refusal(&small(), &[0, 0, 0, 0, 0, P], repeated), 12);
        repeated[count - 1].words[1] = P;
        assert_eq!(refusal(&small(), &[0; 6], repeated), 12);
        repeated[0].place = 2;
        assert_eq!(refusal(&small(), &[0; 6], repeated), 11);
    }
}

/// A tree is as it was after a push that repeats a place, and goes on like one that saw no such push.
#[test]
fn trees_go_on_after_a_refused_push() {
    let generator = &mut Generator(SEED);
    for shape in SHAPES {
        for height in 0..=3 {
            let set = set_of(generator, shape, height, 2, 1);
            let (places, l) = (set.places() as usize, set.node_size as usize);
            let set = kept(&set);
            let mut tree = Tree::build(&set, &generator.words(set.leaf_words())).expect("words");
            for count in [1, 2, 100, 128, 129, 200] {
                let count = count.min(places);
                let chosen = generator.some_below(count, places);
                let mut list: Vec<Record> =
                    chosen.iter().map(|&place| Record::new(place as u64, &generator.words(l)).expect("six at most")).collect();
                let mut other = tree.clone();
                let listed: Vec<u64> = list.iter().map(|record| record.place).collect();
                let above = nodes_above(set.arity(), height, &listed);
                assert_eq!(other.push(&list), Ok(above));
                let again = Record { place: generator.pick(&list).place, ..generator.pick(&list) };
                let at = generator.below(count + 1);
                list.insert(at, again);
                let before = tree.clone();
                assert_eq!(tree.push(&list), Err(Refusal::RepeatedPlace));
                assert_eq!(tree, before);
                list.remove(at);
                assert_eq!(tree.push(&list), Ok(above));
                assert_eq!(tree, other);
            }
        }
    }
}

/// Lists of places: the first and the last; neighbours in a row and where a node ends; all under a node of each level, and all of these but
/// one, in a drawn order; one under each node of a level; and drawn ones.
fn lists_of_places(generator: &mut Generator, set: &Set) -> Vec<Vec<u64>> {
    let (k, places) = (set.arity(), set.places() as u64);
    let mut lists = vec![vec![], vec![0], vec![places - 1]];
    if set.height > 0 {
        lists.extend([vec![places - 1, 0], vec![0, places - 1]]);
        let row = k * (generator.number() % (places / k));
        let at = row + generator.number() % (k - 1);
        lists.extend([vec![at, at + 1], vec![at + 1, at]]);
    }
    for level in 0..=set.height {
        let under = k.pow(level as u32);
        lists.push(places_under(generator, set, level));
        lists.push(places_under(generator, set, level)[1..].to_vec());
        lists.extend((under < places).then(|| vec![places - under, places - under - 1]));
        let one_under_each: Vec<u64> = (0..places / under).map(|node| node * under + generator.number() % under).collect();
        lists.push(one_under_each.iter().rev().copied().collect());
        lists.push(one_under_each);
    }
    for count in [2, 3, 10, 50, 128, 129, 200] {
        let drawn = generator.some_below(count.min(places as usize), places as usize);
        lists.push(drawn.into_iter().map(|place| place as u64).collect());
    }
    lists
}

/// Pushes leaves to these places, and puts them there singly, each by a replacement that answers h: both leave the same store. Answers what
/// the push does.
fn push_beside_singly(generator: &mut Generator, set: &Set, mut store: Vec<u64>, places: &[u64]) -> u64 {
    let l = set.node_size as usize;
    let mut record = |&place: &u64| Record::new(place, &generator.words(l)).expect("six at most");
    let records: Vec<Record> = places.iter().map(&mut record).collect();
    let mut singly = store.clone();
    for Record { place, words } in &records {
        assert_eq!(entries::replace(&set.array(), &mut singly, *place, &words[..l]), Ok(set.height));
    }
    let answer = entries::push(&set.array(), &mut store, &records);
    assert!(store == singly, "{} after {places:?} under {set:?}", difference(&store, &singly));
    answer.expect("different places")
}

/// On stores that are built and on any words, by turns. The answer is the number of different nodes above the places.
#[test]
fn a_push_leaves_what_its_records_leave_singly() {
    let generator = &mut Generator(SEED + 1);
    let (mut pushes, mut fewer) = (0, 0);
    for shape in SHAPES {
        let arity = shape.0 / shape.1;
        let greatest = (0..).take_while(|&height| arity.pow(height) <= 256).last().expect("0 is one");
        for height in 0..=greatest.into() {
            let set = &set_of(generator, shape, height, 2, 1);
            for places in lists_of_places(generator, set) {
                let mut store = generator.words(set.store_words() as usize);
                if pushes % 2 == 0 {
                    let leaves = generator.words(set.leaf_words() as usize);
                    entries::build(&set.array(), &leaves, &mut store).expect("words");
                }
                let made = push_beside_singly(generator, set, store, &places);
                assert_eq!(made, nodes_above(arity, height, &places), "{places:?} under {set:?}");
                pushes += 1;
                fewer += u64::from(made < height * places.len() as u64);
            }
        }
    }
    println!("{pushes} pushes, {fewer} of them with a node above several places");
    assert!(pushes > 1000 && fewer > 500);
}
