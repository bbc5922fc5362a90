//! Each call beside what plain lists of bits give. `CONTHIRAL_SEED` repeats a run.

use conthiral::{Bits, Vob};
use rand::Rng;

const ROUNDS: usize = 300;

fn list(len: usize) -> Vec<bool> {
    let mut rng = rand::rng();
    // few, many or all bits are set, so that words of one value come too
    match rng.random_range(0..4) {
        0 => vec![false; len],
        1 => vec![true; len],
        2 => (0..len).map(|_| rng.random_range(0..40) == 0).collect(),
        _ => (0..len).map(|_| rng.random()).collect(),
    }
}

fn some_len() -> usize {
    let mut rng = rand::rng();
    match rng.random_range(0..3) {
        0 => rng.random_range(0..4) * 64,
        _ => rng.random_range(0..400),
    }
}

fn bits(list: &[bool]) -> Vob {
    list.iter().copied().collect()
}

fn same(bits: &Vob, list: &[bool]) {
    assert_eq!(bits.len(), list.len());
    assert_eq!(bits.iter().collect::<Vec<_>>(), list);
    let past = list.len() % 64;
    assert_eq!(bits.words().len(), list.len().div_ceil(64));
    assert!(past == 0 || bits.words()[list.len() / 64] >> past == 0, "a bit past the last one is set");
}

fn indices(list: &[bool], value: bool) -> Vec<usize> {
    (0..list.len()).filter(|&index| list[index] == value).collect()
}

#[test]
fn ranges() {
    let mut rng = rand::rng();
    for _ in 0..ROUNDS {
        let (mut own, other) = (list(some_len()), list(some_len()));
        let start = rng.random_range(0..own.len() + 1);
        let stop = rng.random_range(start..own.len() + 1);
        let mut call = bits(&own);
        let value = rng.random();
        let changes = own[start..stop].iter().any(|&bit| bit != value);
        assert_eq!(call.set_range(start..stop, value), changes);
        own[start..stop].fill(value);
        same(&call, &own);
        call.negate_range(start..stop);
        own[start..stop].iter_mut().for_each(|bit| *bit = !*bit);
        same(&call, &own);
        same(&call.slice(start..stop), &own[start..stop]);
        let at = rng.random_range(0..own.len() - (stop - start) + 1);
        call.copy_within(start..stop, at);
        own.copy_within(start..stop, at);
        same(&call, &own);
        let count = other.len().min(own.len() - at);
        call.copy_range(at, &bits(&other), ..count);
        own[at..at + count].copy_from_slice(&other[..count]);
        same(&call, &own);
    }
}

#[test]
fn all_bits() {
    let mut rng = rand::rng();
    for _ in 0..ROUNDS {
        let mut own = list(some_len());
        let mut call = bits(&own);
        let n = rng.random_range(0..own.len() + 70);
        call.reverse();
        own.reverse();
        same(&call, &own);
        call.rotate_left(n);
        let turn = n.checked_rem(own.len()).unwrap_or(0);
        own.rotate_left(turn);
        same(&call, &own);
        call.rotate_right(n);
        own.rotate_right(turn);
        same(&call, &own);
        let len = own.len();
        let mut up = call.clone();
        up.shl(n);
        same(&up, &(0..len).map(|i| i >= n && own[i - n]).collect::<Vec<_>>());
        let mut down = call.clone();
        down.shr(n);
        same(&down, &(0..len).map(|i| len - i > n && own[i + n]).collect::<Vec<_>>());
        same(&!&call, &own.iter().map(|bit| !bit).collect::<Vec<_>>());
    }
}

#[test]
fn two_and_three() {
    type Two = (fn(&mut Vob, &Vob) -> bool, fn(&Vob, &Vob) -> usize, fn(bool, bool) -> bool);
    let two: [Two; 4] = [
        (Bits::and, Bits::count_and, |a, b| a && b),
        (Bits::or, Bits::count_or, |a, b| a || b),
        (Bits::xor, Bits::count_xor, |a, b| a != b),
        (Bits::and_not, Bits::count_and_not, |a, b| a && !b),
    ];
    for _ in 0..ROUNDS {
        let len = some_len();
        let (own, first, second) = (list(len), list(len), list(len));
        let (of_own, of_first) = (bits(&own), bits(&first));
        for (call, count, of_bits) in two {
            let mut result = of_own.clone();
            let wanted: Vec<bool> = own.iter().zip(&first).map(|(&a, &b)| of_bits(a, b)).collect();
            assert_eq!(count(&of_own, &of_first), indices(&wanted, true).len());
            assert_eq!(call(&mut result, &of_first), wanted != own);
            same(&result, &wanted);
        }
        let wanted: Vec<bool> = (0..len).map(|i| own[i] || first[i] && second[i]).collect();
        let mut result = of_own.clone();
        assert_eq!(result.or_and(&of_first, &bits(&second)), wanted != own);
        same(&result, &wanted);
        let wanted: Vec<bool> = (0..len).map(|i| own[i] || first[i] && !second[i]).collect();
        let mut result = of_own.clone();
        assert_eq!(result.or_and_not(&of_first, &bits(&second)), wanted != own);
        same(&result, &wanted);
        assert_eq!(of_own.is_subset(&of_first), (0..len).all(|i| !own[i] || first[i]));
        assert_eq!(of_own.is_disjoint(&of_first), (0..len).all(|i| !own[i] || !first[i]));
        assert_eq!(of_own.first_difference(&of_first), (0..len).find(|&i| own[i] != first[i]));
        let third = list(some_len());
        assert_eq!(of_own.cmp(&bits(&third)), own.cmp(&third));
        assert_eq!(of_own.cmp(&of_first), own.cmp(&first));
        assert_eq!(of_own == of_first, own == first);
    }
}

#[test]
fn counts_and_walks() {
    let mut rng = rand::rng();
    for _ in 0..ROUNDS {
        let own = list(some_len());
        let call = bits(&own);
        let (set, unset) = (indices(&own, true), indices(&own, false));
        assert_eq!(call.count_ones(), set.len());
        assert_eq!(call.count_zeros(), unset.len());
        let at = rng.random_range(0..own.len() + 70);
        assert_eq!(call.rank(at), set.iter().filter(|&&index| index < at).count());
        assert_eq!(call.select(at), set.get(at).copied());
        assert_eq!(call.next_set(at), set.iter().copied().find(|&index| index >= at));
        assert_eq!(call.next_unset(at), unset.iter().copied().find(|&index| index >= at));
        assert_eq!(call.previous_set(at), set.iter().rev().copied().find(|&index| index <= at));
        assert_eq!(call.previous_unset(at), unset.iter().rev().copied().find(|&index| index <= at));
        let n = at % 9 + 1;
        let run = (0..own.len()).find(|&i| own.len() - i >= n && !own[i..i + n].contains(&true));
        assert_eq!(call.first_unset_run(n), run);
        let mut walk = call.iter_set_bits(at..);
        let mut left: std::collections::VecDeque<usize> = set.iter().copied().filter(|&index| index >= at).collect();
        // from either end, as it comes
        loop {
            assert_eq!(walk.clone().count(), left.len());
            let (found, wanted) =
                if rng.random() { (walk.next(), left.pop_front()) } else { (walk.next_back(), left.pop_back()) };
            assert_eq!(found, wanted);
            if found.is_none() {
                break;
            }
        }
        assert_eq!(walk.next(), None);
        assert_eq!(walk.next_back(), None);
    }
}

#[test]
fn bytes_and_blocks() {
    for _ in 0..ROUNDS {
        let own = list(some_len());
        let call = bits(&own);
        let bytes: Vec<u8> = own
            .chunks(8)
            .map(|eight| eight.iter().enumerate().map(|(i, &bit)| u8::from(bit) << (7 - i)).sum())
            .collect();
        assert_eq!(call.to_bytes(), bytes);
        let back = Vob::from_bytes(&bytes);
        assert_eq!(back.slice(..own.len()), call);
        let mut small = Vob::<u8>::new_with_storage_type(0);
        small.extend(own.iter().copied());
        let blocks: Vec<u8> =
            own.chunks(8).map(|eight| eight.iter().enumerate().map(|(i, &bit)| u8::from(bit) << i).sum()).collect();
        assert_eq!(small.iter_storage().collect::<Vec<_>>(), blocks);
        let mut signed = Vob::<i8>::new_with_storage_type(0);
        signed.extend(own.iter().copied());
        assert_eq!(signed.iter_storage().map(|block| block as u8).collect::<Vec<_>>(), blocks);
        let (words, len) = call.clone().into_words();
        assert_eq!(Vob::from_words(words, len), Ok(call));
    }
    assert!(Vob::from_words(vec![2], 1).is_err());
    assert!(Vob::from_words(vec![], 1).is_err());
}

/// What a program may do with words that it owns: they hold a list, and then another.
#[test]
fn views() {
    let mut rng = rand::rng();
    for _ in 0..ROUNDS {
        let (mut own, other) = (list(some_len()), list(some_len()));
        let len = own.len();
        let mut words = bits(&own).into_words().0;
        let from = bits(&other).into_words().0;
        let read = Bits::from_words(&from[..], other.len()).unwrap();
        let mut view = Bits::from_words(&mut words[..], len).unwrap();
        let (start, stop) = (rng.random_range(0..len + 1), rng.random_range(0..len + 1));
        let stop = start.max(stop);
        let value = rng.random();
        view.set_range(start..stop, value);
        own[start..stop].fill(value);
        if len > 0 {
            let index = rng.random_range(0..len);
            assert_eq!(view.set(index, !value), own[index] == value);
            own[index] = !value;
            assert_eq!((view.get(index), view[index]), (Some(!value), !value));
        }
        let at = rng.random_range(0..len + 1);
        let count = other.len().min(len - at);
        view.copy_range(at, &read, ..count);
        own[at..at + count].copy_from_slice(&other[..count]);
        assert_eq!(view.iter().collect::<Vec<_>>(), own);
        assert_eq!(view.iter_set_bits(start..).collect::<Vec<_>>(), after(start, indices(&own, true)));
        assert_eq!(view.next_unset(start), after(start, indices(&own, false)).first().copied());
        assert_eq!(view.count_ones(), indices(&own, true).len());
        assert_eq!(view, bits(&own));
        assert_eq!(view.to_vob(), view);
        assert_eq!(view.first_difference(&read), (0..len.min(other.len())).find(|&i| own[i] != other[i]));
        let third = list(len);
        view.or(&bits(&third));
        view ^= &Bits::from_words(bits(&own).words(), len).unwrap();
        let wanted: Vec<bool> = own.iter().zip(&third).map(|(&a, &b)| (a || b) != a).collect();
        same(&(&view & &view), &wanted);
        same(&bits_of_words(&words, len), &wanted);
    }
    let mut words = [0, 8];
    assert!(Bits::from_words(&words[..], 67).is_err());
    assert!(Bits::from_words(&words[..], 129).is_err());
    assert!(Bits::from_words(&words[..], 64).is_err());
    assert_eq!(Bits::from_words(&mut words[..], 67), Err(&mut [0, 8][..]));
    assert!(Bits::from_words(words, 68).unwrap()[67]);
}

fn after(start: usize, indices: Vec<usize>) -> Vec<usize> {
    indices.into_iter().filter(|&index| index >= start).collect()
}

fn bits_of_words(words: &[u64], len: usize) -> Vob {
    Vob::from_words(words.to_vec(), len).unwrap()
}

/// A program that is written for vob 4.0.1 leaves types to be inferred.
#[test]
fn types_are_inferred() {
    let list = [true, false, true];
    let own = bits(&list);
    let mut call = own.clone();
    assert_eq!(own, list.into_iter().collect());
    assert!(!call.or(&list.into_iter().collect()));
    call |= &list.into_iter().collect();
    call.extend_from_vob(&Default::default());
    assert!(call == own && call != Default::default());
    assert_eq!(&call & &list.into_iter().collect(), own);
    let split = call.split_off(7);
    assert_eq!((split, call.len()), (Default::default(), 3));
}

#[test]
#[should_panic(expected = "the lengths differ")]
fn lengths_must_match() {
    Vob::from_elem(true, 3).or(&Vob::from_elem(true, 4));
}
