//! Services that each have one fault, to show that the comparison finds it.

mod course;
mod exact;
mod license;
mod marks;
mod moves;

use crate::cases::{Answer, Call, Lent, Memory, Service};

/// A faulty service in the place of another one, with what is wrong with it.
pub struct Fault {
    pub name: &'static str,
    pub answer: Box<dyn Fn(&Memory) -> Answer>,
}

fn fault(name: &'static str, answer: impl Fn(&Memory) -> Answer + 'static) -> Fault {
    let answer = Box::new(answer);
    Fault { name, answer }
}

/// The faults of each service that has faulty versions.
pub fn all() -> [(Service, Vec<Fault>); 5] {
    [
        (Service::Course, course::faults()),
        (Service::Moves, moves::faults()),
        (Service::Exact, exact::faults()),
        (Service::Marks, marks::faults()),
        (Service::License, license::faults()),
    ]
}

/// The faults that a service with an output can have, whatever it answers.
fn of_output(service: Service) -> [Fault; 2] {
    let right = move |lent: &Memory| {
        let numbers = [0; 4];
        let call = Call { service, numbers };
        call.by_faster(lent).unwrap_or_else(|| call.by_rules(lent))
    };
    [
        // All the other checks go first.
        fault("looks at the output last", move |lent| {
            let mut long = lent.clone();
            long.first = Lent::of(vec![0; lent.plan.len()]);
            let answer = right(&long);
            match answer.number {
                0 => right(lent),
                _ => answer,
            }
        }),
        fault("writes what it refuses", move |lent| {
            let mut answer = right(lent);
            if answer.number > 0 {
                answer.first = vec![0];
            }
            answer
        }),
    ]
}
