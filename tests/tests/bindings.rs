//! The safe functions of the crate `dispatch`: what a caller sees of states, boards and rosters.

use dispatch::roster::{self, Parts, Refusal, Step};
use dispatch::{
    next, Answer, Object, Outcome, Place, Priority, Report, Row, State, Task, LONGEST_ADVANCE,
    MOST_OBJECTS, MOST_TASKS, REPLY_SIZE, STATE_SIZE,
};
use harness::report::bytes_of;
use harness::rosters::{every_step, WHOLE_CASE};

#[test]
fn every_answer_has_its_number() {
    for number in 0..=255 {
        match Answer::of(number) {
            Some(answer) => assert_eq!((answer.number(), number <= 22), (number, true)),
            None => assert!(number > 22, "{number} is an answer"),
        }
    }
    assert_eq!(Answer::Done.done(), Ok(()));
    assert_eq!(Answer::Unsound.done(), Err(Answer::Unsound));
    assert!(Answer::Done.is_done() && !Answer::NoSuchTask.is_done());
}

#[test]
fn every_report_has_its_number() {
    let reports = [Report::Unchanged, Report::Preempted, Report::Changed];
    for (number, report) in (0..).zip(reports) {
        assert_eq!(
            (report.number(), Report::of(number)),
            (number, Some(report))
        );
    }
    assert!((3..=255).all(|number| Report::of(number).is_none()));
    assert_eq!(done(Report::Changed).done(), Ok(Report::Changed));
    assert_eq!(refused(Answer::Unsound).done(), Err(Answer::Unsound));
}

/// What an accepted event gives back.
fn done(report: Report) -> Outcome {
    Outcome {
        answer: Answer::Done,
        report,
    }
}

/// What a refused event gives back.
fn refused(answer: Answer) -> Outcome {
    Outcome {
        answer,
        report: Report::Unchanged,
    }
}

/// The marked cases that take few events: A to E and G to L.
#[test]
fn events_move_a_state() {
    let (answer, mut state) = State::fresh(&[10, 20, 10], &[20]);
    assert_eq!((answer, state.running()), (Answer::Done, Some(Task(1))));
    let (same, other) = (done(Report::Unchanged), done(Report::Changed));
    assert_eq!(state.set(Task(0), Priority(10)), same);
    assert_eq!(state.running(), Some(Task(1)));
    for priority in [0, 33, 256, 257, u64::MAX] {
        let outcome = state.set(Task(1), Priority(priority));
        assert_eq!(outcome, refused(Answer::BadPriority));
    }
    let outcome = state.set(Task(3), Priority(0));
    assert_eq!(outcome, refused(Answer::NoSuchTask));
    assert_eq!(state.enter(Object(0)), same);
    assert_eq!(state.enter(Object(0)), refused(Answer::InsideAction));
    assert_eq!(state.enter(Object(1)), refused(Answer::NoSuchObject));
    assert_eq!(state.delay(0), refused(Answer::InsideAction));
    assert_eq!(state.leave(Object(0)), same);
    assert_eq!(state.leave(Object(0)), refused(Answer::NotInnermost));
    assert_eq!(state.set(Task(1), Priority::LAST), same);
    assert_eq!(state.enter(Object(0)), refused(Answer::AboveCeiling));
    assert_eq!(state.release(Task(1)), same);
    assert_eq!((state.suspend(), state.running()), (same, Some(Task(1))));
    assert_eq!((state.suspend(), state.running()), (other, Some(Task(2))));
    let backwards = refused(Answer::BadReading);
    assert_eq!((state.clock(5), state.clock(4)), (same, backwards));
    let farthest = 5 + LONGEST_ADVANCE;
    assert_eq!(state.clock(farthest + 1), refused(Answer::BadReading));
    assert_eq!(state.clock(farthest), same);
    assert_eq!((state.delay(0), state.running()), (other, Some(Task(0))));
    assert_eq!((state.work(), state.delay(7)), (same, other));
    assert_eq!((state.finish(), state.running()), (other, None));
    assert_eq!(state.finish(), refused(Answer::NobodyRuns));
    let outcome = state.set(Task(2), Priority::DEFAULT);
    assert_eq!(outcome, refused(Answer::EndedTask));
    assert!(state.is_sound());
}

/// Every event that can preempt does so, and hands out its report; the same with a task that was sent away.
#[test]
fn events_report_why_the_processor_changed_hands() {
    let preempted = (done(Report::Preempted), Some(Task(1)));
    let changed = |t| (done(Report::Changed), Some(Task(t)));
    let (_, mut state) = State::fresh(&[10, 15], &[20]);
    assert_eq!((state.suspend(), state.running()), changed(0));
    assert_eq!((state.release(Task(1)), state.running()), preempted);
    assert_eq!((state.delay(5), state.running()), changed(0));
    assert_eq!((state.clock(5), state.running()), preempted);
    assert_eq!(
        (state.set(Task(1), Priority(9)), state.running()),
        changed(0)
    );
    assert_eq!(
        (state.set(Task(1), Priority(15)), state.running()),
        preempted
    );
    assert_eq!((state.suspend(), state.running()), changed(0));
    let entered = (state.enter(Object(0)), state.release(Task(1)));
    assert_eq!(entered, (done(Report::Unchanged), done(Report::Unchanged)));
    assert_eq!((state.leave(Object(0)), state.running()), preempted);
    assert_eq!((state.finish(), state.running()), changed(0));
    let last = (state.finish(), state.running());
    assert_eq!(last, (done(Report::Changed), None));
}

#[test]
fn a_state_is_kept_as_bytes() {
    let (answer, beside) = State::fresh(&[33], &[]);
    assert_eq!(
        (answer, beside.clone()),
        (Answer::BadValues, State::fresh(&[1], &[]).1)
    );
    assert_eq!(State::fresh(&[], &[]), (Answer::BadCounts, beside));
    let (_, state) = State::fresh(&[7, 8], &[9]);
    assert_eq!(State::from_bytes(*state.as_bytes()), state);
    let mut unsound = State::from_bytes([0xFF; STATE_SIZE]);
    assert_eq!((unsound.is_sound(), unsound.running()), (false, None));
    assert_eq!(unsound.work(), refused(Answer::Unsound));
    assert_eq!(unsound, State::from_bytes([0xFF; STATE_SIZE]));
}

#[test]
fn a_board_is_filled_and_asked() {
    let (_, mut state) = State::fresh(&[10, 20, 10], &[]);
    assert_eq!(state.suspend(), done(Report::Changed));
    let blank = Row {
        kind: 9,
        priority: 9,
        position: 9,
    };
    let mut board = [blank; 4];
    assert_eq!(state.fill(&mut board), Answer::Done);
    let places = board.map(|row| (row.place(), row.priority, row.position));
    assert_eq!(places[0], (Some(Place::Running), 10, 0));
    assert_eq!(places[1], (Some(Place::Suspended), 20, 0));
    assert_eq!(places[2], (Some(Place::Ready), 10, 0));
    assert_eq!((board[3], blank.place()), (blank, None));
    assert_eq!(next(&board[..3]), Ok(Some(2)));
    assert_eq!(next(&board[..2]), Ok(None));
    assert_eq!(next(&[Row::default()]), Err(Answer::BadPriority));
    assert_eq!(next(&[blank; MOST_TASKS + 1]), Err(Answer::BadCounts));
    assert_eq!(state.fill(&mut board[..2]), Answer::BadCounts);
}

/// All tasks, objects and rows that there can be, and one more of each.
#[test]
fn the_most_tasks_objects_and_rows() {
    let (bases, ceilings) = ([9; MOST_TASKS + 1], [9; MOST_OBJECTS + 1]);
    let (last, object) = (MOST_TASKS as u64 - 1, MOST_OBJECTS as u64 - 1);
    let (answer, mut state) = State::fresh(&bases[1..], &ceilings[1..]);
    assert_eq!((answer, state.running()), (Answer::Done, Some(Task(0))));
    assert_eq!(State::fresh(&bases, &[]).0, Answer::BadCounts);
    assert_eq!(State::fresh(&[9], &ceilings).0, Answer::BadCounts);
    assert_eq!(state.release(Task(last)), done(Report::Unchanged));
    assert_eq!(state.release(Task(last + 1)), refused(Answer::NoSuchTask));
    assert_eq!(state.enter(Object(object)), done(Report::Unchanged));
    let outcome = state.enter(Object(object + 1));
    assert_eq!(outcome, refused(Answer::NoSuchObject));
    let mut board = [Row::default(); MOST_TASKS];
    assert_eq!(state.fill(&mut board), Answer::Done);
    assert_eq!(state.fill(&mut board[1..]), Answer::BadCounts);
    let row = board[last as usize];
    let wanted = (Some(Place::Ready), 9, last as u8 - 1);
    assert_eq!((row.place(), row.priority, row.position), wanted);
    assert_eq!(next(&board), Ok(Some(1)));
}

#[test]
fn a_roster_is_read_and_run() {
    let mut whole = bytes_of(WHOLE_CASE);
    assert_eq!(
        (roster::form(&whole), roster::check(&whole)),
        (Ok(()), Ok(()))
    );
    assert_eq!(roster::script(&whole, Task(1)), Ok(&whole[12..24]));
    assert_eq!(roster::script(&whole, Task(2)), Err(Answer::NoSuchTask));
    assert_eq!(roster::base(&whole, Task(1)), Ok(Priority(20)));
    assert_eq!(roster::ceiling(&whole, Object(0)), Ok(Priority(20)));
    assert_eq!(
        roster::ceiling(&whole, Object(1)),
        Err(Answer::NoSuchObject)
    );
    assert_eq!(roster::step_count(&whole, Task(0)), Ok(3));
    let mut buffer = [0xA5; REPLY_SIZE + 1];
    assert_eq!(
        roster::run(&whole, &[3, 0, 0, 0, 0, 0, 0, 0], &mut buffer),
        Ok(())
    );
    assert_eq!(buffer, [0, 0, 2, 0xA5]);
    whole[36] = 19;
    let refusal = Refusal {
        answer: Answer::LowCeiling,
        task: 1,
        step: 1,
    };
    assert_eq!(roster::run(&whole, &[], &mut buffer), Err(refusal));
    assert_eq!(refusal.to_string(), "refused 18 1 1");
    assert_eq!(roster::base(&[], Task(0)), Err(Answer::BadLength));
}

/// A refusal with a number of the table that names no place.
fn refusal(answer: Answer) -> Refusal {
    Refusal {
        answer,
        task: 0,
        step: 0,
    }
}

/// Exactly the written bytes are handed back, of a longer buffer too, and can be changed and read; a refusal hands back none.
#[test]
fn a_roster_is_written() {
    let whole = bytes_of(WHOLE_CASE);
    let parts = Parts {
        bases: &[10, 20],
        ceilings: &[20],
        lengths: &[3, 3],
        steps: &whole[..24],
    };
    let mut buffer = [0xA5; 50];
    let written = roster::write(&parts, &mut buffer).unwrap();
    assert_eq!(written, whole);
    assert_eq!(roster::check(written), Ok(()));
    written[36] = 19;
    assert_eq!(roster::form(&buffer[..46]), Ok(()));
    assert_eq!(buffer[46..], [0xA5; 4]);
    assert_eq!(roster::write(&parts, &mut buffer[..46]).unwrap(), whole);
    let short = refusal(Answer::ShortBuffer);
    let before = buffer;
    assert_eq!(roster::write(&parts, &mut buffer[..45]), Err(short));
    assert_eq!(roster::write_answer(&parts, 45), Err(short));
    assert_eq!(roster::write_answer(&parts, 46), Ok(()));
    assert_eq!(roster::write_answer(&parts, usize::MAX), Ok(()));
    assert_eq!(buffer, before);
}

/// One task with two Works, which is written.
const TWO_WORKS: Parts = Parts {
    bases: &[1],
    ceilings: &[],
    lengths: &[2],
    steps: &[4, 0, 0, 0, 4, 0, 0, 0],
};

#[test]
fn a_roster_is_not_written() {
    let wrong = |change: fn(&mut Parts), answer: Answer| {
        let mut parts = TWO_WORKS;
        change(&mut parts);
        assert_eq!(roster::write(&parts, &mut []), Err(refusal(answer)));
        assert_eq!(roster::write_answer(&parts, 99), Err(refusal(answer)));
    };
    wrong(|p| p.bases = &[], Answer::BadCounts);
    wrong(|p| p.bases = &[9; MOST_TASKS + 1], Answer::BadCounts);
    wrong(|p| p.ceilings = &[9; MOST_OBJECTS + 1], Answer::BadCounts);
    wrong(|p| p.lengths = &[2, 0], Answer::BadLayout);
    wrong(|p| p.lengths = &[8], Answer::BadLayout);
    wrong(|p| p.steps = &[4, 0, 0, 0, 4, 0, 0], Answer::BadLayout);
    wrong(|p| p.bases = &[33], Answer::BadValues);
    let works = Step::Work.bytes().repeat(15_000);
    let long = Parts {
        lengths: &[15_000],
        steps: &works,
        ..TWO_WORKS
    };
    let refused = roster::write_answer(&long, usize::MAX);
    assert_eq!(refused, Err(refusal(Answer::BadLength)));
}

#[test]
fn a_bad_step_is_not_written() {
    let cases = [
        ([Step::Again, Step::Work], 0),
        ([Step::Finish, Step::Work], 0),
        ([Step::Work, Step::Enter(Object(0))], 1),
        ([Step::Work, Step::Release(Task(256))], 1),
        ([Step::Work, Step::Set(Task(0), Priority(65_537))], 1),
    ];
    for (steps, step) in cases {
        let bytes = steps.map(Step::bytes);
        let parts = Parts {
            steps: bytes.as_flattened(),
            ..TWO_WORKS
        };
        let wanted = Refusal {
            step,
            ..refusal(Answer::BadStep)
        };
        let mut buffer = [0xA5; 99];
        assert_eq!(roster::write(&parts, &mut buffer), Err(wanted), "{steps:?}");
        assert_eq!(roster::write_answer(&parts, 0), Err(wanted), "{steps:?}");
        assert_eq!(buffer, [0xA5; 99], "{steps:?}");
        assert_eq!(wanted.to_string(), format!("refused 16 0 {step}"));
    }
}

/// The bytes of each step are those that it is read from; a number that does not fit is none that any roster has.
#[test]
fn every_step_has_its_bytes() {
    let plan = every_step();
    for (t, script) in plan.scripts.iter().enumerate() {
        for (k, step) in script.iter().enumerate() {
            let read = roster::step(&plan.bytes(), Task(t as u64), k as u64).unwrap();
            assert_eq!(read.bytes(), step.bytes(), "{read:?}");
        }
    }
    assert_eq!(Step::Finish.bytes(), [0; 4]);
    assert_eq!(Step::Delay(u16::MAX).bytes(), [3, 0, 255, 255]);
    for far in [255, 256, 257, 1 << 32, u64::MAX] {
        assert_eq!(Step::Enter(Object(far)).bytes(), [1, 255, 0, 0]);
        assert_eq!(Step::Leave(Object(far)).bytes(), [2, 255, 0, 0]);
        assert_eq!(Step::Release(Task(far)).bytes(), [6, 255, 0, 0]);
    }
    for far in [65_535, 65_536, 65_537, u64::MAX] {
        let set = Step::Set(Task(1), Priority(far));
        assert_eq!(set.bytes(), [7, 1, 255, 255]);
    }
}

#[test]
fn every_step_is_read() {
    let bytes = every_step().bytes();
    let steps = |t| (0..).map(move |s| roster::step(&every_step().bytes(), Task(t), s).unwrap());
    let first = [
        Step::Enter(Object(0)),
        Step::Set(Task(0), Priority(9)),
        Step::Enter(Object(1)),
        Step::Release(Task(2)),
        Step::Leave(Object(1)),
        Step::Work,
        Step::Leave(Object(0)),
        Step::Delay(300),
        Step::Again,
        Step::Finish,
    ];
    assert!(steps(0).take(10).eq(first));
    assert!(steps(1).take(2).eq([Step::Suspend, Step::Delay(0)]));
    assert_eq!(roster::step(&bytes, Task(2), u64::MAX), Ok(Step::Finish));
    assert_eq!(roster::step(&bytes, Task(3), 0), Err(Answer::NoSuchTask));
}
