//! Sharing a page: who can and in which order, each refusal and their order, what stays as it was, and rival sets laid out.

use pas::{raw, Bidder, Refusal};

/// A call with plain numbers.
#[derive(Clone, Debug)]
struct Call {
    n: u32,
    m: u32,
    members: Vec<u8>,
    sets: Vec<u8>,
}

/// A call with these rival sets, from bidder 1's on; the bidders after them name nobody.
fn call(n: u32, m: u32, members: &[u8], sets: &[&[u8]]) -> Call {
    let mut lent: Vec<u8> = sets.iter().flat_map(|set| [&[set.len() as u8], *set].concat()).collect();
    lent.resize(lent.len() + (n as usize).saturating_sub(sets.len()), 0);
    Call { n, m, members: members.to_vec(), sets: lent }
}

impl Call {
    /// The number, with what the call leaves in a buffer of sevens and in the answer.
    fn lent(&self, room: usize) -> (u32, Vec<u8>, u8) {
        let (mut result, mut answer) = (vec![7; room], 77);
        let number = raw::share_page(self.n, self.m, &self.members, &self.sets, &mut result, &mut answer);
        (number, result, answer)
    }

    /// A yes: this order is written, in a buffer that is just long enough and in longer ones, with every later byte as it was; in a shorter one nothing is.
    #[track_caller]
    fn shares(&self, order: &[u8]) {
        for more in [0, 1, 3, 100] {
            let with_sevens = [order, &vec![7; more]].concat();
            assert_eq!(self.lent(order.len() + more), (0, with_sevens, 1), "{self:?}");
        }
        for room in 0..order.len() {
            assert_eq!(self.lent(room), (19, vec![7; room], 77), "{self:?}, room for {room}");
        }
    }

    /// A no: nothing but the answer is written, and no room is needed.
    #[track_caller]
    fn shares_not(&self) {
        for room in [0, 1, 2, 3, 15, 16, 17, 64, 100] {
            assert_eq!(self.lent(room), (0, vec![7; room], 0), "{self:?}, room for {room}");
        }
    }

    /// The call is refused with the number, whatever the buffer, and nothing lent has changed.
    #[track_caller]
    fn refused(&self, number: u32) {
        for room in [0, 1, 2, 3, 15, 16, 17, 64, 100] {
            assert_eq!(self.lent(room), (number, vec![7; room], 77), "{self:?}, room for {room}");
        }
    }
}

fn bidders(numbers: &[u8]) -> Vec<Bidder> {
    numbers.iter().copied().map(Bidder).collect()
}

#[test]
fn members_share_a_page_as_in_the_header() {
    let of_header = Call { n: 4, m: 3, members: vec![2, 4, 1], sets: vec![2, 3, 2, 0, 1, 2, 0] };
    of_header.shares(&[1, 2, 4]);
    Call { members: vec![1, 2, 3, 4], ..of_header }.shares_not();
    assert_eq!(pas::share_page(4, 3, &bidders(&[2, 4, 1]), &[2, 3, 2, 0, 1, 2, 0]), Ok(Some(bidders(&[1, 2, 4]))));
}

#[test]
fn each_member_stands_above_its_rivals() {
    call(2, 2, &[1, 2], &[&[2], &[]]).shares(&[1, 2]);
    call(2, 2, &[1, 2], &[&[], &[1]]).shares(&[2, 1]);
    call(4, 4, &[1, 2, 3, 4], &[&[], &[1], &[2], &[3]]).shares(&[4, 3, 2, 1]);
    call(4, 4, &[1, 2, 3, 4], &[&[], &[1, 3, 4], &[1, 4], &[1]]).shares(&[2, 3, 4, 1]);
    call(5, 4, &[5, 3, 1], &[&[2, 3], &[1], &[4], &[], &[2, 3, 1]]).shares(&[5, 1, 3]);
}

#[test]
fn of_several_orders_the_first_in_dictionary_order_is_written() {
    call(4, 4, &[4, 3, 2, 1], &[]).shares(&[1, 2, 3, 4]);
    call(4, 4, &[4, 3, 2, 1], &[&[], &[], &[], &[1]]).shares(&[2, 3, 4, 1]);
    call(4, 4, &[4, 3, 2, 1], &[&[], &[], &[], &[2]]).shares(&[1, 3, 4, 2]);
    call(4, 4, &[4, 3, 2, 1], &[&[], &[], &[1], &[2]]).shares(&[3, 1, 4, 2]);
    call(4, 4, &[4, 3, 2, 1], &[&[4], &[], &[], &[2]]).shares(&[1, 3, 4, 2]);
    call(4, 4, &[4, 3, 2, 1], &[&[], &[], &[2, 1], &[]]).shares(&[3, 1, 2, 4]);
}

#[test]
fn a_circle_of_rivals_shares_no_page() {
    call(2, 2, &[1, 2], &[&[2], &[1]]).shares_not();
    call(3, 3, &[1, 2, 3], &[&[2], &[3], &[1]]).shares_not();
    call(3, 3, &[1, 2, 3], &[&[3], &[1], &[2]]).shares_not();
    call(4, 4, &[1, 2, 3, 4], &[&[], &[], &[4], &[3]]).shares_not();
    call(4, 4, &[1, 2, 3, 4], &[&[2], &[1], &[], &[]]).shares_not();
    // The first orders begin well.
    call(5, 5, &[1, 2, 3, 4, 5], &[&[2], &[3], &[4], &[5], &[3]]).shares_not();
    // Who is in no circle but below one cannot stand either, and without the circle can.
    call(3, 3, &[1, 2, 3], &[&[2], &[1, 3], &[]]).shares_not();
    call(3, 3, &[2, 3], &[&[2], &[1, 3], &[]]).shares(&[2, 3]);
}

#[test]
fn sixteen_members_of_64_bidders_share_a_page() {
    // Everyone above all with a lower number, the rivals that are no members too.
    let lower: Vec<Vec<u8>> = (1..=64).map(|bidder| (1..bidder).collect()).collect();
    let mut sets: Vec<&[u8]> = lower.iter().map(|set| &set[..]).collect();
    let members: Vec<u8> = (1..=64).step_by(4).collect();
    let falling: Vec<u8> = members.iter().rev().copied().collect();
    call(64, 16, &members, &sets).shares(&falling);
    call(64, 15, &members, &sets).shares_not();
    // A circle of all of them: the lowest above the highest.
    sets[0] = &[61];
    call(64, 16, &members, &sets).shares_not();
    sets[0] = &[64];
    call(64, 16, &members, &sets).shares(&falling);
}

#[test]
fn more_members_than_slots_share_no_page_and_just_as_many_can() {
    for m in 1..=16 {
        let all: Vec<u8> = (1..=m as u8 + 1).rev().collect();
        let rising: Vec<u8> = (2..=m as u8 + 1).collect();
        call(64, m, &all, &[]).shares_not();
        call(64, m, &all[..m as usize], &[]).shares(&rising);
    }
    let everyone: Vec<u8> = (1..=64).collect();
    call(64, 16, &everyone, &[]).shares_not();
}

#[test]
fn no_members_share_a_page_and_need_no_room() {
    call(1, 1, &[], &[]).shares(&[]);
    call(64, 16, &[], &[&[2], &[1]]).shares(&[]);
    assert_eq!(call(2, 2, &[], &[&[2], &[1]]).lent(3), (0, vec![7; 3], 1));
    assert_eq!(pas::share_page(2, 2, &[], &[0, 0]), Ok(Some(vec![])));
}

#[test]
fn one_member_stands_alone() {
    call(1, 1, &[1], &[]).shares(&[1]);
    for member in 1..=64 {
        call(64, 1, &[member], &[&[2, 3], &[1]]).shares(&[member]);
    }
}

#[test]
fn rivals_that_are_no_members_do_not_matter() {
    let sets: [&[u8]; 4] = [&[2, 3, 4], &[1, 3, 4], &[1, 2, 4], &[1, 2]];
    call(4, 4, &[4, 3], &sets).shares(&[3, 4]);
    call(4, 4, &[3], &sets).shares(&[3]);
    call(4, 4, &[4, 1, 3], &[&[2], &[1], &[2], &[2, 1]]).shares(&[3, 4, 1]);
    call(4, 4, &[1, 2], &sets).shares_not();
}

#[test]
fn a_repeat_counts_once() {
    call(3, 2, &[3, 1, 3, 1, 1], &[&[], &[], &[1, 1, 1, 2, 2]]).shares(&[3, 1]);
    call(3, 2, &[2; 1000], &[]).shares(&[2]);
    call(3, 2, &[1, 2].repeat(300), &[&[], &[1]]).shares(&[2, 1]);
    call(3, 2, &[1, 2, 1, 3], &[]).shares_not();
    call(2, 2, &[1, 2], &[&[], &[1; 255]]).shares(&[2, 1]);
    call(2, 2, &[1, 2], &[&[2; 255], &[1; 255]]).shares_not();
}

#[test]
fn every_rival_set_is_read() {
    for upper in 1..=64u8 {
        for lower in (1..=64).filter(|&lower| lower != upper) {
            let mut sets: Vec<&[u8]> = vec![&[]; 64];
            let set = [lower];
            sets[usize::from(upper) - 1] = &set;
            call(64, 2, &[upper.min(lower), upper.max(lower)], &sets).shares(&[upper, lower]);
        }
    }
}

#[test]
fn each_number_is_refused_outside_its_range_and_not_cut() {
    let right = || call(3, 3, &[1, 2, 3], &[&[2, 3]]);
    right().shares(&[1, 2, 3]);
    // 256 more is the same in the low byte, 65,536 more in the low two.
    let outside = |most: u32| [0, most + 1, 255, 3 + 256, 300, 3 + 65_536, 3 + (1 << 31), u32::MAX];
    for n in outside(64) {
        Call { n, ..right() }.refused(4);
    }
    for m in outside(16) {
        Call { m, ..right() }.refused(5);
    }
    for wrong in [0, 4, 5, 64, 65, 67, 128, 129, 255] {
        for at in 0..3 {
            let mut members = right();
            members.members[at] = wrong;
            members.refused(23);
        }
        call(3, 3, &[1], &[&[wrong], &[], &[]]).refused(23);
        call(3, 3, &[1], &[&[2, 3], &[1, wrong], &[]]).refused(23);
        call(3, 3, &[1], &[&[2, 3], &[1], &[2, 1, wrong]]).refused(23);
        call(3, 3, &[], &[&[], &[], &[wrong, 1]]).refused(23);
    }
}

#[test]
fn the_bytes_are_exactly_n_sets() {
    let right = || call(3, 3, &[1, 2, 3], &[&[2, 3], &[], &[2, 2]]);
    assert_eq!(right().sets, [2, 2, 3, 0, 2, 2, 2]);
    right().shares(&[1, 3, 2]);
    for length in 0..7 {
        let mut short = right();
        short.sets.truncate(length);
        short.refused(23);
    }
    for more in [&[0][..], &[1], &[2], &[0, 0], &[1, 1], &[255], &[0; 256]] {
        let mut long = right();
        long.sets.extend(more);
        long.refused(23);
    }
    // Lengths that move what follows: sets that run past the bytes, and a length that leaves bytes over.
    for (at, length) in [(4, 3), (4, 1), (4, 0), (4, 255), (3, 1), (0, 5), (0, 6), (0, 7), (0, 255)] {
        let mut other = right();
        other.sets[at] = length;
        other.refused(23);
    }
    // Fewer sets than bidders, and more.
    Call { n: 4, ..right() }.refused(23);
    Call { n: 64, ..right() }.refused(23);
    call(2, 3, &[1, 2], &[&[2], &[], &[]]).refused(23);
    call(1, 1, &[1], &[]).shares(&[1]);
    Call { n: 1, m: 1, members: vec![1], sets: vec![] }.refused(23);
}

#[test]
fn every_number_of_every_set_is_looked_at() {
    for bidder in 1..=64u8 {
        for (wrong, number) in [(0, 23), (65, 23), (bidder, 24)] {
            for at in 0..3 {
                let other = bidder % 64 + 1;
                let mut set = [other; 3];
                set[at] = wrong;
                let mut sets: Vec<&[u8]> = vec![&[]; 64];
                sets[usize::from(bidder) - 1] = &set;
                // Whether the bidder is a member does not matter.
                call(64, 16, &[bidder], &sets).refused(number);
                call(64, 16, &[other], &sets).refused(number);
                call(64, 16, &[], &sets).refused(number);
            }
        }
    }
    for at in 0..300 {
        let mut members = [3; 300];
        members[at] = 65;
        call(64, 1, &members, &[]).refused(23);
        members[at] = 0;
        call(64, 1, &members, &[]).refused(23);
    }
}

#[test]
fn a_wrong_set_anywhere_comes_before_a_bidder_in_its_own_set() {
    call(3, 3, &[1], &[&[1], &[], &[]]).refused(24);
    call(3, 3, &[1], &[&[1], &[], &[4]]).refused(23);
    call(3, 3, &[1], &[&[1], &[0], &[]]).refused(23);
    call(3, 3, &[1], &[&[1, 4], &[], &[]]).refused(23);
    call(3, 3, &[4], &[&[1], &[], &[]]).refused(23);
    Call { n: 3, m: 3, members: vec![1], sets: vec![1, 1, 0] }.refused(23);
    Call { n: 3, m: 3, members: vec![1], sets: vec![1, 1, 0, 0, 0] }.refused(23);
    Call { n: 3, m: 3, members: vec![1], sets: vec![1, 1, 0, 0] }.refused(24);
}

#[test]
fn a_refusal_comes_before_a_no() {
    call(3, 1, &[1, 2], &[]).shares_not();
    call(3, 1, &[1, 2, 4], &[]).refused(23);
    call(3, 1, &[1, 2], &[&[], &[], &[4]]).refused(23);
    call(3, 1, &[1, 2], &[&[], &[], &[3]]).refused(24);
    call(3, 3, &[1, 2], &[&[2], &[1], &[]]).shares_not();
    call(3, 3, &[1, 2], &[&[2], &[1], &[3]]).refused(24);
    call(3, 3, &[1, 2], &[&[2], &[1], &[0]]).refused(23);
}

/// A rule's number, and what makes a call break it.
type Fault = (u32, fn(&mut Call));

/// Faults for each rule but that of the buffer, in the order of the rules.
const FAULTS: [&[Fault]; 4] = [
    &[(4, |call| call.n = 65), (4, |call| call.n = 0)],
    &[(5, |call| call.m = 0), (5, |call| call.m = 17)],
    &[
        (23, |call| call.members.push(0)),
        (23, |call| call.members.insert(0, 9)),
        (23, |call| call.sets.push(0)),
        (23, |call| *call.sets.last_mut().expect("a set") = 1),
        (23, |call| call.sets[2] = 8),
    ],
    &[(24, |call| call.sets[1] = 1)],
];

#[test]
fn of_two_rules_that_are_broken_the_first_decides_and_a_short_buffer_comes_last() {
    let right = || call(3, 3, &[3, 2, 1], &[&[2, 3], &[], &[]]);
    right().shares(&[1, 2, 3]);
    for (at, faults) in FAULTS.iter().enumerate() {
        for (number, spoil) in faults.iter() {
            let mut once = right();
            spoil(&mut once);
            once.refused(*number);
            for (_, spoil_too) in FAULTS[at + 1..].iter().copied().flatten() {
                let mut twice = right();
                spoil_too(&mut twice);
                spoil(&mut twice);
                twice.refused(*number);
            }
        }
    }
}

#[test]
fn the_wrapper_names_the_refusals_and_cuts_nothing() {
    let sets = pas::rival_sets([&[Bidder(2)][..], &[], &[]]).expect("short sets");
    let share = |n, m, members: &[u8], sets: &[u8]| pas::share_page(n, m, &bidders(members), sets);
    assert_eq!(share(3, 3, &[2, 1], &sets), Ok(Some(bidders(&[1, 2]))));
    assert_eq!(share(3, 1, &[2, 1], &sets), Ok(None));
    for n in [0, 65, 300, 256 + 3, 65_536 + 3, (1 << 32) + 3, usize::MAX] {
        assert_eq!(share(n, 3, &[2, 1], &sets), Err(Refusal::WrongBidders), "{n} bidders");
    }
    for m in [0, 17, 300, 256 + 3, 65_536 + 3, (1 << 32) + 3, usize::MAX] {
        assert_eq!(share(3, m, &[2, 1], &sets), Err(Refusal::WrongSlots), "{m} slots");
    }
    assert_eq!(share(3, 3, &[2, 4], &sets), Err(Refusal::WrongSet));
    assert_eq!(share(3, 3, &[2, 1], &sets[..3]), Err(Refusal::WrongSet));
    assert_eq!(share(3, 3, &[2, 1], &[1, 1, 0, 0]), Err(Refusal::RivalIsOwner));
    let (mut result, members) = ([7; 4], bidders(&[2, 1, 2]));
    assert_eq!(pas::share_page_into(3, 3, &members, &sets, &mut result[..1]), Err(Refusal::ResultTooShort));
    assert_eq!(pas::share_page_into(3, 1, &members, &sets, &mut result), Ok(false));
    assert_eq!(pas::share_page_into(3, 1, &members, &sets, &mut []), Ok(false));
    assert_eq!(result, [7; 4]);
    assert_eq!(pas::share_page_into(3, 3, &members, &sets, &mut result), Ok(true));
    assert_eq!(result, [1, 2, 7, 7]);
}

#[test]
fn the_order_of_a_full_page_is_given_whole() {
    let everyone: Vec<u8> = (1..=16).collect();
    assert_eq!(pas::share_page(16, 16, &bidders(&everyone), &[0; 16]), Ok(Some(bidders(&everyone))));
}

#[test]
fn rival_sets_are_laid_out_with_their_lengths_and_not_judged() {
    let lent = |sets: &[&[u8]]| pas::rival_sets(sets.iter().map(|set| bidders(set)));
    assert_eq!(lent(&[]), Ok(vec![]));
    assert_eq!(lent(&[&[]]), Ok(vec![0]));
    assert_eq!(lent(&[&[2, 3], &[], &[1]]), Ok(vec![2, 2, 3, 0, 1, 1]));
    assert_eq!(lent(&[&[0, 1, 255, 1], &[2]]), Ok(vec![4, 0, 1, 255, 1, 1, 2]));
    let longest = lent(&[&[], &[1; 255]]).expect("255 numbers");
    assert_eq!((longest.len(), &longest[..3]), (257, &[0, 255, 1][..]));
    assert_eq!(pas::share_page(2, 2, &bidders(&[1, 2]), &longest), Ok(Some(bidders(&[2, 1]))));
    for length in [256, 257, 300, 511, 512, 65_536] {
        assert_eq!(lent(&[&[], &vec![1; length]]), Err(Refusal::WrongSet), "{length} numbers have no length byte");
    }
}
