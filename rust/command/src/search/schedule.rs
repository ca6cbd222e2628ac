//! The order of the merges that give every kept gate its form.
//!
//! A gate has one form at a time, so the forms that are needed of it must lie on one path; a merge comes after the steps that give both of its
//! gates their forms, and before the next step of the gate that is merged in.
use super::forms::{Forms, Id, Step};
use super::mixing::Table;
use pmn::Call;

/// The merges in such an order, as calls; nothing where there is none.
pub fn merges(forms: &Forms, inputs: usize, gates: usize, wanted: &[Id]) -> Option<Vec<Call>> {
    let last = last_forms(forms, gates, wanted)?;
    let made: Vec<(Id, Step)> = last.iter().flat_map(|form| path(forms, *form)).collect();
    let order = in_order(&made)?;
    let signal = |form: Id| (inputs + forms.gate(form)) as u64;
    let call = |step: Step| Call::Merge { u: signal(step.u), v: signal(step.v), k: step.k.into(), l: step.l.into() };
    Some(order.into_iter().map(|place| call(made[place].1)).collect())
}

/// The steps to a form, the latest first, each with the form that it gives.
fn path(forms: &Forms, form: Id) -> impl Iterator<Item = (Id, Step)> + '_ {
    let with_step = |form: Id| forms.step(form).map(|step| (form, step));
    std::iter::successors(with_step(form), move |(_, step)| with_step(step.v))
}

/// The last form that each gate takes, where those that are needed lie on one path.
fn last_forms(forms: &Forms, gates: usize, wanted: &[Id]) -> Option<Vec<Id>> {
    let passes = |last: Id, form: Id| last == form || path(forms, last).any(|(_, step)| step.v == form);
    let mut last: Vec<Id> = (0..gates as Id).collect();
    let mut waiting = wanted.to_vec();
    while let Some(form) = waiting.pop() {
        let place = &mut last[forms.gate(form)];
        if passes(*place, form) {
            continue;
        }
        if !passes(form, *place) {
            return None;
        }
        waiting.extend(path(forms, form).take_while(|(made, _)| made != place).map(|(_, step)| step.u));
        *place = form;
    }
    Some(last)
}

/// The places of the steps in an order in which each can be done.
fn in_order(made: &[(Id, Step)]) -> Option<Vec<usize>> {
    let making: Table<Id, usize> = made.iter().enumerate().map(|(place, (form, _))| (*form, place)).collect();
    let leaving: Table<Id, usize> = made.iter().enumerate().map(|(place, (_, step))| (step.v, place)).collect();
    let mut followers: Vec<Vec<usize>> = vec![Vec::new(); made.len()];
    let mut waits_for = vec![0; made.len()];
    let mut put = |before: usize, after: usize| {
        followers[before].push(after);
        waits_for[after] += 1;
    };
    for (place, (_, step)) in made.iter().enumerate() {
        making.get(&step.u).into_iter().chain(making.get(&step.v)).for_each(|before| put(*before, place));
        leaving.get(&step.u).into_iter().for_each(|after| put(place, *after));
    }
    let mut ready: Vec<usize> = (0..made.len()).filter(|place| waits_for[*place] == 0).collect();
    let mut order = Vec::with_capacity(made.len());
    while let Some(place) = ready.pop() {
        order.push(place);
        for after in &followers[place] {
            waits_for[*after] -= 1;
            if waits_for[*after] == 0 {
                ready.push(*after);
            }
        }
    }
    (order.len() == made.len()).then_some(order)
}
