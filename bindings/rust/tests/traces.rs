//! Replay through the archive: what it leaves is what the same calls leave one by one, and number,
//! count and last answer are those of the second program, on sound traces and on damaged ones.

#[path = "common/chance.rs"]
mod chance;
#[path = "common/file.rs"]
mod file;
#[path = "common/lcg.rs"]
mod lcg;
#[path = "common/pair.rs"]
mod pair;
#[path = "common/walk.rs"]
mod walk;

use file::{record, trace, RECORD};
use lcg::Lcg;
use pair::{told, told_by_bank, Pair};
use thymewax::{Answer, Call, Model, Number, Replayed};
use walk::Walk;

const WALKS: usize = 300;

/// The calls of a walk from here that a trace can have, made with an empty output as a replay does.
fn recorded(pair: &mut Pair, walk: &mut Walk, lcg: &mut Lcg, calls: usize) -> Vec<(Call, Answer)> {
    pair.lend(0);
    let steps = (0..calls).map(|_| walk.step(pair, lcg));
    // Without an output a trigger may still begin a burst of writes.
    let mut made = Vec::new();
    for (call, answer) in steps {
        if call == Call::Trigger && answer.is_done() {
            break;
        }
        if call != Call::Trigger {
            made.push((call, answer));
        }
    }
    made
}

/// The replay on both sides.
fn replayed(pair: &mut Pair, file: &[u8], section: u32, limit: usize) -> Replayed {
    let made = pair.model.replay(file, section, limit);
    let other = reference::trace::replay(file, section as usize, limit, &mut pair.bank);
    assert_eq!(made.number.get(), u32::from(other.number));
    assert_eq!(made.count, other.done);
    assert_eq!(told(made.last), told_by_bank(other.last));
    made
}

/// So many calls one by one, with an empty output.
fn one_by_one(mut model: Model, calls: &[(Call, Answer)]) -> Model {
    model.lend_output(0);
    for (call, answer) in calls {
        assert_eq!(model.step(*call), *answer);
    }
    model
}

fn same_state(replayed: &Model, one_by_one: &Model) {
    assert!(replayed.kept() == one_by_one.kept());
    assert!(replayed.store() == one_by_one.store());
}

/// From any state, an open burst too: sections in order, then a part of one.
#[test]
fn a_replay_is_its_calls_one_by_one() {
    let mut lcg = Lcg::new(1);
    let mut records_done = 0;
    let mut starts = 0;
    let mut refused = 0;
    for number in 0..WALKS {
        let mut walk = Walk::new(number % 2 == 0);
        let mut pair = Pair::set_up(&chance::set_up(&mut lcg)).expect("a set-up in range");
        pair.lend(16);
        for _ in 0..lcg.below(400) {
            let _ = walk.step(&mut pair, &mut lcg);
        }
        let begin = pair.clone();
        let calls = recorded(&mut pair, &mut walk, &mut lcg, 400);
        let records: Vec<_> = calls.iter().filter_map(|(call, _)| record(*call)).collect();
        assert_eq!(records.len(), calls.len());

        let (cut, end) = (lcg.below(calls.len() as u32 + 1) as usize, calls.len());
        let file = trace(&[&records[..cut], &[], &records[cut..]]);
        let sections = thymewax::sections(&file).expect("a sound trace");
        assert_eq!(sections[0], records[..cut].as_flattened());
        assert_eq!(sections[1], [0; 0]);
        assert_eq!(sections[2], records[cut..].as_flattened());

        let mut whole = begin.clone();
        for (section, count) in [(0, cut), (1, 0), (2, end - cut)] {
            let made = replayed(&mut whole, &file, section, usize::MAX);
            assert_eq!((made.number, made.count), (Number::DONE, count));
        }
        let stepped = one_by_one(begin.model.clone(), &calls);
        same_state(&whole.model, &stepped);
        whole.drain();
        // The output is not lent to a replay.
        assert_eq!(whole.model.output(), begin.model.output());

        let limit = lcg.below(cut as u32 + 2) as usize;
        let mut part = begin.clone();
        let made = replayed(&mut part, &file, 0, limit);
        assert_eq!(made.count, limit.min(cut));
        if let Some((_, last)) = calls[..made.count].last() {
            assert_eq!(made.last, *last);
        }
        same_state(&part.model, &one_by_one(begin.model, &calls[..made.count]));

        records_done += end;
        let done = |(call, answer): &&(Call, Answer)| *call == Call::Start && answer.is_done();
        starts += calls.iter().filter(done).count();
        refused += calls.iter().filter(|(_, answer)| !answer.is_done()).count();
    }
    println!("{records_done} records, {starts} starts done, {refused} records refused");
    assert!(records_done > 50_000 && starts > 1_000 && refused > 10_000);
}

/// A byte changed, bytes cut off or added: the same number as the second program's, and what was
/// done is what it says.
#[test]
fn damaged_traces_are_refused_alike() {
    let mut lcg = Lcg::new(2);
    let mut had = [0; 28];
    let mut walk = Walk::new(true);
    let mut pair = Pair::set_up(&chance::set_up(&mut lcg)).expect("a set-up in range");
    let begin = pair.clone();
    let calls = recorded(&mut pair, &mut walk, &mut lcg, 60);
    let records: Vec<_> = calls.iter().filter_map(|(call, _)| record(*call)).collect();
    let sound = trace(&[&records[..20], &records[20..21], &records[21..]]);
    for _ in 0..60_000 {
        let mut file = sound.clone();
        match lcg.below(8) {
            0 => file.truncate(lcg.below(sound.len() as u32) as usize),
            1 => file.extend(vec![0; 1 + lcg.below(13) as usize]),
            2 => {}
            // The head and the table are few bytes; they get as many hits as the records.
            3..=5 => file[lcg.below(30) as usize] = lcg.pick(&[0, 1, 4, 22, 255]),
            _ => {
                let place = lcg.below(sound.len() as u32) as usize;
                file[place] = lcg.byte();
            }
        }
        let section = lcg.pick(&[0, 0, 0, 1, 2, 2, 3, 64, u32::MAX]);
        let limit = lcg.pick(&[0, 1, 20, usize::MAX, usize::MAX, usize::MAX]);

        let found = thymewax::section(&file, section);
        let (bytes, number) = reference::trace::section(&file, section as usize);
        assert_eq!(
            found.err().map_or(0, |no| no.number().get()),
            u32::from(number)
        );
        if let Ok(part) = found {
            assert_eq!(part.as_ptr_range(), bytes.as_ptr_range());
        }
        let all = thymewax::sections(&file)
            .err()
            .map_or(0, |no| no.number().get());
        assert_eq!(all, u32::from(reference::trace::check(&file)));

        let mut pair = begin.clone();
        let made = replayed(&mut pair, &file, section, limit);
        had[made.number.get() as usize] += 1;
        match made.number {
            Number::DONE | Number::WRONG_RECORD => {
                // As the records before it, which may have other arguments by now.
                let mut short = begin.model.clone();
                let done = trace(&[&bytes.as_chunks::<RECORD>().0[..made.count]]);
                let count = short.replay(&done, 0, usize::MAX).count;
                assert_eq!(count, made.count);
                same_state(&pair.model, &short);
                pair.compare();
            }
            _ => {
                assert_eq!((made.count, told(made.last)), (0, (0, 0)));
                assert!(pair.model == begin.model, "a refused replay left a mark");
            }
        }
    }
    println!("0: {}, 24 to 27: {:?}", had[0], &had[24..]);
    assert!([0, 24, 25, 26, 27].iter().all(|number| had[*number] >= 500));
}
