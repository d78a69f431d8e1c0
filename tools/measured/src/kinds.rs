//! One script for each kind of line.

use crate::group::Group;
use crate::script::{delivery, Script};

/// A kind of line: its name, the answer that every such line has, and its script.
pub struct Kind {
    pub name: &'static str,
    pub answer: &'static str,
    pub script: fn(&mut Script, &Group),
}

pub const KINDS: [Kind; 10] = [
    Kind {
        name: "tick of a coordinator",
        answer: "ok",
        script: coordinator_tick,
    },
    Kind {
        name: "tick of another box",
        answer: "ok",
        script: other_tick,
    },
    Kind {
        name: "deliver Propose",
        answer: "ok",
        script: propose,
    },
    Kind {
        name: "deliver the Ack that decides",
        answer: "ok",
        script: deciding_ack,
    },
    Kind {
        name: "deliver Decide",
        answer: "ok",
        script: decide,
    },
    Kind {
        name: "give up the view",
        answer: "ok",
        script: give_up,
    },
    Kind {
        name: "deliver Estimate of a higher view",
        answer: "ok",
        script: estimate,
    },
    Kind {
        name: "ignored delivery",
        answer: "ignored",
        script: ignored,
    },
    Kind {
        name: "delivery refused by 9",
        answer: "r9",
        script: own_frame,
    },
    Kind {
        name: "delivery refused by 10",
        answer: "r10",
        script: misdirected_ack,
    },
];

fn coordinator_tick(script: &mut Script, group: &Group) {
    script.tick(1, 0);
    fill(script, |turn| group.tick(1, turn));
}

fn other_tick(script: &mut Script, group: &Group) {
    script.tick(2, 0);
    fill(script, |turn| group.tick(2, turn));
}

/// "A repeated one is acknowledged again."
fn propose(script: &mut Script, _: &Group) {
    let proposal = script.tick(1, 0);
    script.tick(2, 0);
    fill(script, |_| delivery(2, proposal));
}

fn deciding_ack(script: &mut Script, group: &Group) {
    script.pad();
    for turn in 0..script.room() / (3 * group.majority() - 2) {
        let ack = up_to_last_ack(script, group, turn);
        script.measure(delivery(1, ack));
    }
}

fn decide(script: &mut Script, group: &Group) {
    script.pad();
    for turn in 0..script.room() / (3 * group.majority() - 1) {
        let ack = up_to_last_ack(script, group, turn);
        let decision = script.deliver(1, ack);
        script.measure(delivery(2, decision));
    }
}

/// Box 2 enters a view as its coordinator once in N lines; the other lines send an Estimate.
fn give_up(script: &mut Script, _: &Group) {
    script.tick(2, 0);
    fill(script, |_| "G 2".to_string());
}

/// Box 3 gives up view after view, and each Estimate for box 2 is delivered to it. In a group of three this is a majority: box 2 proposes.
fn estimate(script: &mut Script, group: &Group) {
    script.tick(2, 0);
    script.tick(3, 0);
    script.pad();
    let rounds = script.room() / (group.boxes + 1);
    let estimates: Vec<usize> = (1..=rounds * group.boxes)
        .map(|view| (view, script.play("G 3".to_string())))
        .filter(|(view, _)| view % group.boxes == 1)
        .map(|(_, line)| line)
        .collect();
    for sent in estimates {
        script.measure(delivery(2, sent));
    }
}

/// A Propose of the period before.
fn ignored(script: &mut Script, _: &Group) {
    let proposal = script.tick(1, 0);
    script.tick(2, 0);
    script.tick(2, 1);
    fill(script, |_| delivery(2, proposal));
}

fn own_frame(script: &mut Script, _: &Group) {
    let proposal = script.tick(1, 0);
    fill(script, |_| delivery(1, proposal));
}

fn misdirected_ack(script: &mut Script, _: &Group) {
    let proposal = script.tick(1, 0);
    script.tick(2, 0);
    let ack = script.deliver(2, proposal);
    fill(script, |_| delivery(3, ack));
}

/// Whole periods: as many boxes as a majority has take part, and nothing is lost. Document 01's example has the first of them.
pub fn normal(script: &mut Script, group: &Group, share: usize) {
    for turn in 0..script.room() / (4 * group.majority() - 3) / share {
        let ack = up_to_last_ack(script, group, turn);
        let decision = script.deliver(1, ack);
        for other in 2..=group.majority() {
            script.deliver(other, decision);
        }
    }
}

/// A period up to the Ack with which box 1 has heard a majority; that Ack's line is given.
fn up_to_last_ack(script: &mut Script, group: &Group, turn: usize) -> usize {
    let proposal = script.tick(1, turn);
    let others = 2..=group.majority();
    for other in others.clone() {
        script.tick(other, turn);
    }
    let mut acks: Vec<usize> = others
        .map(|other| script.deliver(other, proposal))
        .collect();
    let last = acks.pop().unwrap_or(proposal);
    for ack in acks {
        script.deliver(1, ack);
    }
    last
}

/// Measured lines to the script's end.
fn fill(script: &mut Script, line: impl Fn(usize) -> String) {
    script.pad();
    for turn in 1..=script.room() {
        script.measure(line(turn));
    }
}
