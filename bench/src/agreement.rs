//! The programs must leave the same bytes and give the same answer.

use crate::programs::{Case, Program};
use oracle::abi;
use oracle::generate::{self, spoil, Group, Habits, ListenCase, PollCase, Prng, TickCase, Turn};

/// Makes a call with each program; the answer and what the call left. A difference ends the run.
pub fn agree<C: Case>(case: &C) -> (u64, C) {
    let call = |program: &Program<C>| {
        let mut case = case.clone();
        (program(&mut case), case)
    };
    let proved = call(&C::PROGRAMS[0]);
    assert!(proved == call(&C::PROGRAMS[1]), "the proved library and the oracle differ");
    let twin = C::PROGRAMS.get(2);
    assert!(twin.is_none_or(|twin| call(twin) == proved), "the twin and the oracle differ");
    proved
}

/// Random calls, good and bad, of random groups.
pub fn agree_on_random(count: usize) {
    let mut rng = Prng::new(3);
    let mut done = 0;
    while done < count {
        let setup = generate::setup(&mut rng);
        let (dips, nudges) = (rng.one_in(2), rng.one_in(2));
        let habits = Habits { noise: true, dips, nudges, deafness: rng.range(1, 4) };
        let mut group = Group::fresh(&mut rng, setup, habits);
        let lags = rng.one_in(2);
        group.add_observer(&mut rng, lags);
        for _ in 0..rng.range(1, 300) {
            match group.next_turn(&mut rng) {
                (node, Turn::Node(case)) => {
                    let (word, case) = agree_around(&mut rng, &case);
                    group.settle(node, case, &abi::unpack_tick(word));
                    done += 7;
                }
                (observer, Turn::Observer(case)) => {
                    let (word, case) = agree(&case);
                    group.settle_observer(observer, case, &abi::unpack_tick(word));
                    done += 1;
                }
            }
        }
    }
}

/// A tick, and other calls before and after it; the tick's answer and what it left.
fn agree_around(rng: &mut Prng, case: &TickCase) -> (u64, TickCase) {
    let mut wrong = case.clone();
    spoil::spoil(rng, &mut wrong);
    agree(&wrong);
    agree(&ListenCase::of(wrong));
    agree(&case.stepped(rng));
    agree(&ListenCase::stepped(rng, case));
    let (word, case) = agree(case);
    agree(&PollCase::after(rng, &case));
    agree(&PollCase::random(rng, &case));
    (word, case)
}
