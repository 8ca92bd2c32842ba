//! Each slip of document 01, and a check that forgets later Set values: the claim is refuted. Without a slip it is not.

use slips::{accepted, Case, Edit, Roster, Step};

/// Two tasks inside the object 0: tasks 0 and 1.
const BOTH_INSIDE: &str = "let e : ◌≡◌ {A = ℕ} 0 1 = \
    s.exclusive 0 1 0 (record { is = omega arith }) (record { is = omega arith }) in omega arith";

/// Task 0 is inside and preempted; task 1, whose base is the ceiling, must not enter before task 0 has left.
const PREEMPTED: Case = Case {
    roster: Roster {
        tasks: &[
            (10, &[Step::Enter(0), Step::Work, Step::Leave(0)]),
            (20, &[Step::Suspend, Step::Enter(0), Step::Leave(0)]),
            (30, &[Step::Suspend, Step::Suspend]),
        ],
        ceilings: &[20],
    },
    events: "step ∷ step ∷ step ∷ release 1 ∷ release 2 ∷ step ∷ step ∷ []",
    proof: BOTH_INSIDE,
};

#[test]
fn a_preempted_task_sent_to_the_tail() {
    let edit = Edit {
        file: "rules/specs/Moves.antt",
        old: "(t ∷ queue m (active m t))) t (with_place (task_at m t) Ready)",
        new: "(queue m (active m t) ++ (t ∷ []))) t (with_place (task_at m t) Ready)",
    };
    let (is, text) = accepted("preempted_to_tail", &[edit], &PREEMPTED);
    assert!(is, "{text}");
}

#[test]
fn a_leaver_sent_behind_its_equals_while_it_holds_an_outer_object() {
    let edit = Edit {
        file: "rules/specs/Events.antt",
        old: "settle m t = cond (inside (task_at m t)) m",
        new: "settle m t = cond (inside (task_at m t)) (become_ready (stopped m) t)",
    };
    let case = Case {
        roster: Roster {
            tasks: &[
                (
                    10,
                    &[
                        Step::Enter(0),
                        Step::Enter(1),
                        Step::Leave(1),
                        Step::Leave(0),
                    ],
                ),
                (20, &[Step::Suspend, Step::Enter(0), Step::Leave(0)]),
            ],
            ceilings: &[20, 20],
        },
        events: "step ∷ step ∷ step ∷ release 1 ∷ step ∷ step ∷ []",
        proof: BOTH_INSIDE,
    };
    let (is, text) = accepted("leaver_behind_equals", &[edit], &case);
    assert!(is, "{text}");
}

#[test]
fn a_base_changed_inside_a_protected_action() {
    let edit = Edit {
        file: "rules/specs/Events.antt",
        old: "    cond (inside (task_at m t))\n    (with_task m t (with_waiting",
        new: "    cond false\n    (with_task m t (with_waiting",
    };
    let case = Case {
        roster: Roster {
            tasks: &[
                (10, &[Step::Enter(0), Step::Set(0, 11), Step::Leave(0)]),
                (20, &[Step::Suspend, Step::Enter(0), Step::Leave(0)]),
            ],
            ceilings: &[20],
        },
        events: "step ∷ step ∷ release 1 ∷ step ∷ step ∷ []",
        proof: BOTH_INSIDE,
    };
    let (is, text) = accepted("base_changed_inside", &[edit], &case);
    assert!(is, "{text}");
}

#[test]
fn a_check_that_forgets_set_values_after_the_enter() {
    let edit = Edit {
        file: "format/specs/Check.antt",
        old: "top_at r t = top_of t (base_of r t) (script_of r t)",
        new: "top_at r t = base_of r t",
    };
    let case = Case {
        roster: Roster {
            tasks: &[(
                10,
                &[
                    Step::Enter(0),
                    Step::Leave(0),
                    Step::Set(0, 11),
                    Step::Again,
                ],
            )],
            ceilings: &[10],
        },
        events: "step ∷ step ∷ step ∷ step ∷ step ∷ []",
        // the fifth step, an Enter above the ceiling, is refused although task 0 runs
        proof: "let i = (s.refused (step ∷ step ∷ step ∷ step ∷ []) [] refl).0 \
                (record { is = λ d. let z : ◌≡◌ {A = ℕ} 0 1 = cc in omega arith }) in \
                let n = i.nobody in let z : ◌≡◌ {A = ℕ} 0 1 = cc in omega arith",
    };
    let (is, text) = accepted("later_set_values_forgotten", &[edit], &case);
    assert!(is, "{text}");
}

#[test]
fn without_a_slip_the_same_refutation_is_refused() {
    let (is, text) = accepted("no_slip", &[], &PREEMPTED);
    assert!(!is && text.contains("logic=not-proved"), "{text}");
}
