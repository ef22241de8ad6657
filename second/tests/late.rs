//! Document 02, wish 3, "Late payloads through a tunnel": demand 3 in its new
//! form, on many runs of one sender whose payloads arrive in any order and any
//! number of times within the bounds of the wish.

use second::generate::Random;
use second::payload::{digits, signalling};
use second::receivers::{DigitReceiver, SignallingReceiver};
use second::senders::{DigitEntry, DigitSender, SignallingSender};
use std::collections::BTreeSet;
use std::fmt::Debug;

/// A kind of payload: its sender's run and its receiver.
trait Kind {
    /// Successive fresh arrivals are at most so many periods apart.
    const APART: usize;
    /// Older ones are at most so many periods behind the last fresh one.
    const BEHIND: usize;
    /// A period of the record, as the sender and the receiver have it.
    type Period: Copy + Debug + PartialEq;
    /// The receiver, fresh at first.
    type Receiver: Clone + Default + PartialEq;

    /// What one sender sends: its start state, and for each period that it sends
    /// what it holds and its payloads (a static repeat is one more).
    fn run(random: &mut Random, periods: usize) -> Run<Self::Period>;

    /// What a receiver fills where it repeats a period.
    fn fill(period: Self::Period) -> Self::Period;

    /// What a receiver appends for a payload, or the refusal.
    fn accept(receiver: &mut Self::Receiver, payload: &[u8]) -> Result<Appended<Self::Period>, u8>;
}

/// What a receiver appends.
#[derive(Debug, PartialEq)]
struct Appended<P> {
    /// How many fills, of what.
    filled: usize,
    with: P,
    carried: Vec<P>,
}

/// What one sender sends.
struct Run<P> {
    start: P,
    periods: Vec<P>,
    payloads: Vec<Vec<Vec<u8>>>,
}

impl<P: Copy> Run<P> {
    /// What stands at a place, the start state before the first.
    fn at(&self, place: isize) -> P {
        match usize::try_from(place) {
            Ok(place) => self.periods[place],
            Err(_) => self.start,
        }
    }
}

struct Digits;

impl Kind for Digits {
    const APART: usize = 127;
    const BEHIND: usize = 128;
    type Period = digits::Window;
    type Receiver = DigitReceiver;

    fn run(random: &mut Random, periods: usize) -> Run<digits::Window> {
        let mut run = Run {
            start: digits::Window::default(),
            periods: Vec::new(),
            payloads: Vec::new(),
        };
        let mut sender = DigitSender::new();
        let mut state = None;
        while run.periods.len() < periods {
            let next = match random.below(6) {
                0 => None,
                1 => Some(random.small(0, 15)),
                _ => state,
            };
            let change = next != state;
            state = next;
            let period = digits::Window {
                digit_type: state.is_some().into(),
                edge: if change { random.small(0, 19) } else { 0 },
                code: state.unwrap_or(0),
            };
            let entry = DigitEntry {
                on: state.is_some(),
                code: period.code,
                edge: period.edge,
                level: -3,
            };
            if let Some(payload) = sender.enter(&entry).unwrap() {
                run.periods.push(period);
                run.payloads.push(vec![payload.to_vec()]);
            }
        }
        run
    }

    fn fill(period: digits::Window) -> digits::Window {
        digits::Window { edge: 0, ..period }
    }

    fn accept(
        receiver: &mut DigitReceiver,
        payload: &[u8],
    ) -> Result<Appended<digits::Window>, u8> {
        let answer = receiver.accept(payload)?;
        Ok(Appended {
            filled: answer.filled.into(),
            with: answer.with,
            carried: answer.periods[..answer.carried].to_vec(),
        })
    }
}

struct Signalling;

impl Kind for Signalling {
    const APART: usize = 63;
    const BEHIND: usize = 64;
    type Period = [u8; 10];
    type Receiver = SignallingReceiver;

    fn run(random: &mut Random, periods: usize) -> Run<[u8; 10]> {
        let start = random.small(0, 15);
        let mut run = Run {
            start: [start; 10],
            periods: Vec::new(),
            payloads: Vec::new(),
        };
        let mut sender = SignallingSender::new(start).unwrap();
        let (mut sample, mut quiet, mut numbers) = (start, 0, Vec::new());
        while run.periods.len() < periods {
            let mut samples = [sample; 10];
            match quiet {
                0 => {
                    samples[random.below(10)] ^= random.small(1, 15);
                    quiet = random.pick(&[0, 0, 0, 0, 0, 0, 1, 2, 9, 30, 600]);
                }
                _ => quiet -= 1,
            }
            sample = samples[9];
            if let Some(payload) = sender.enter(&samples, random.one_in(2)).unwrap() {
                let number = payload[0] & 127;
                if numbers.last() == Some(&number) {
                    run.payloads.last_mut().unwrap().push(payload.to_vec());
                    continue;
                }
                numbers.push(number);
                run.periods.push(samples);
                run.payloads.push(vec![payload.to_vec()]);
            }
        }
        run
    }

    fn fill(period: [u8; 10]) -> [u8; 10] {
        [period[9]; 10]
    }

    fn accept(receiver: &mut SignallingReceiver, payload: &[u8]) -> Result<Appended<[u8; 10]>, u8> {
        let before = receiver.last_sequence();
        let answer = receiver.accept(payload)?;
        // Alarm and value follow each payload that is taken as fresh.
        let read = signalling::read(payload).unwrap();
        let same = before == Some(read.sequence);
        assert_eq!(receiver.alarm(), read.alarm);
        assert_eq!(receiver.value(), read.samples[if same { 0 } else { 29 }]);
        Ok(Appended {
            filled: answer.filled.into(),
            with: [answer.with; 10],
            carried: answer.periods[..answer.carried].to_vec(),
        })
    }
}

/// Places that arrive in turn, the fresh ones rising by at most so many and older
/// ones, at most so far behind, among them.
fn arrivals<K: Kind>(random: &mut Random, sent: usize) -> Vec<usize> {
    let mut last = random.below(2 * K::APART);
    let mut arrivals = vec![last];
    loop {
        if random.one_in(2) {
            arrivals.extend(older::<K>(random, last));
            continue;
        }
        last += match random.below(16) {
            0 => random.between(0, K::APART),
            1 => K::APART,
            2 => 0,
            3 | 4 => random.between(1, 12),
            _ => random.between(1, 4),
        };
        if last >= sent {
            return arrivals;
        }
        arrivals.push(last);
    }
}

/// A place behind the last fresh one, if there is one.
fn older<K: Kind>(random: &mut Random, last: usize) -> Option<usize> {
    let behind = match random.below(8) {
        0 => K::BEHIND,
        1 | 2 => random.between(1, K::BEHIND),
        _ => random.between(1, 4),
    };
    last.checked_sub(behind)
}

/// The arrivals that are fresh: those that are not below the last fresh one.
fn fresh_of(arrivals: &[usize]) -> Vec<usize> {
    let mut fresh: Vec<usize> = Vec::new();
    for place in arrivals {
        if fresh.last().map_or(true, |last| place >= last) {
            fresh.push(*place);
        }
    }
    fresh
}

/// A second receiver's arrivals: its fresh ones are those of the first and some
/// more, its older ones are its own.
fn more_arrivals<K: Kind>(random: &mut Random, fresh: &[usize]) -> Vec<usize> {
    let mut places: Vec<usize> = fresh.to_vec();
    for pair in fresh.windows(2) {
        while random.one_in(2) {
            places.push(random.between(pair[0], pair[1]));
        }
    }
    let before = random.below(K::APART);
    places.extend(fresh[0].checked_sub(before));
    places.sort();
    let mut arrivals = Vec::new();
    for place in places {
        arrivals.push(place);
        while random.one_in(3) {
            arrivals.extend(older::<K>(random, place));
        }
    }
    arrivals
}

/// A record: for each period what it holds and whether it is carried.
type Record<P> = Vec<(P, bool)>;

/// Gives a receiver what arrives. It answers 0 to exactly the fresh ones and 19
/// to the others, and these leave all of it as it was.
fn replay<K: Kind>(
    random: &mut Random,
    run: &Run<K::Period>,
    arrivals: &[usize],
) -> Record<K::Period> {
    let mut receiver = K::Receiver::default();
    let mut record = Vec::new();
    let mut last = None;
    for place in arrivals {
        let payloads = &run.payloads[*place];
        let payload = &payloads[random.below(payloads.len())];
        let before = receiver.clone();
        let answer = K::accept(&mut receiver, payload);
        if last.map_or(false, |last| *place < last) {
            assert_eq!(answer.err(), Some(19));
            assert!(receiver == before);
            continue;
        }
        last = Some(*place);
        let appended = answer.unwrap();
        record.extend(vec![(appended.with, false); appended.filled]);
        record.extend(appended.carried.iter().map(|period| (*period, true)));
    }
    record
}

/// Demand 3, "arrived" read as arrived and taken as fresh.
fn check<K: Kind>(run: &Run<K::Period>, fresh: &[usize], record: &Record<K::Period>) {
    let (first, last) = (fresh[0] as isize - 2, fresh[fresh.len() - 1] as isize);
    assert_eq!(record.len() as isize, last - first + 1);
    let fresh: BTreeSet<isize> = fresh.iter().map(|place| *place as isize).collect();
    let mut state = run.start;
    for (place, (period, carried)) in (first..).zip(record) {
        let brought = (place..=place + 2).any(|it| fresh.contains(&it));
        assert_eq!(*carried, brought);
        if brought {
            assert_eq!(*period, run.at(place));
            state = K::fill(*period);
        } else {
            assert_eq!(*period, state);
        }
    }
}

/// Runs of a kind, two receivers each; how many arrivals were fresh and how many
/// older.
fn simulate<K: Kind>(seeds: u64, sent: usize) -> (usize, usize) {
    let (mut fresh_count, mut older_count) = (0, 0);
    for seed in 0..seeds {
        let random = &mut Random::new(seed);
        let run = K::run(random, sent);
        let arrivals = arrivals::<K>(random, sent);
        let fresh = fresh_of(&arrivals);
        let record = replay::<K>(random, &run, &arrivals);
        check::<K>(&run, &fresh, &record);
        let more = more_arrivals::<K>(random, &fresh);
        let more_fresh = fresh_of(&more);
        assert!(fresh.iter().all(|place| more_fresh.contains(place)));
        let more_record = replay::<K>(random, &run, &more);
        check::<K>(&run, &more_fresh, &more_record);
        // The second carries all that the first carries.
        let shift = fresh[0] - more_fresh[0];
        for (place, (period, carried)) in record.iter().enumerate() {
            if *carried {
                assert_eq!(more_record[place + shift], (*period, true));
            }
        }
        let all_fresh = fresh.len() + more_fresh.len();
        fresh_count += all_fresh;
        older_count += arrivals.len() + more.len() - all_fresh;
    }
    (fresh_count, older_count)
}

#[test]
fn wish_3_digits_in_any_order() {
    let (fresh, older) = simulate::<Digits>(200, 3000);
    assert!(fresh > 100_000 && older > 50_000, "{fresh} {older}");
}

#[test]
fn wish_3_signalling_in_any_order() {
    let (fresh, older) = simulate::<Signalling>(200, 3000);
    assert!(fresh > 100_000 && older > 50_000, "{fresh} {older}");
}

/// One period farther is too far: ahead of the last fresh one it is taken as
/// older, behind it as fresh.
fn one_farther<K: Kind>() {
    let run = K::run(&mut Random::new(1), 1000);
    let mut receiver = K::Receiver::default();
    let mut answer = |place: usize| K::accept(&mut receiver, &run.payloads[place][0]);
    assert!(answer(300).is_ok());
    assert_eq!(answer(300 + K::APART + 1).err(), Some(19));
    assert_eq!(answer(300 - K::BEHIND).err(), Some(19));
    let appended = answer(300 - K::BEHIND - 1).unwrap();
    assert_eq!((appended.filled, appended.carried.len()), (K::APART - 3, 3));
}

#[test]
fn wish_3_the_bounds_are_sharp() {
    one_farther::<Digits>();
    one_farther::<Signalling>();
}
