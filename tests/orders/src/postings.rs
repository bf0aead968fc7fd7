//! What the drill's output alone says of an honest run: nothing here knows how
//! a ledger works.

use crate::honest::Plan;
use crate::ledger::{bit, MOST_LEDGERS};

/// One step line taken apart.
#[derive(Debug, PartialEq, Eq)]
pub struct StepLine {
    pub target: u8,
    pub answer: u8,
    pub posted: Vec<u32>,
}

/// Takes a line such as `L1 A0 P9 P7` apart; none if it is no step line.
pub fn step_line(line: &str) -> Option<StepLine> {
    let mut items = line.split(' ');
    let target = items.next()?.strip_prefix('L')?.parse().ok()?;
    let answer = items.next()?.strip_prefix('A')?.parse().ok()?;
    let posted: Option<Vec<u32>> = items.map(|item| item.strip_prefix('P')?.parse().ok()).collect();
    Some(StepLine { target, answer, posted: posted? })
}

/// The lines of an output by run: each begins with its `GROUP` line, and the
/// last line of the output (`END` or `STOP`) belongs to none.
pub fn runs(output: &str) -> Vec<Vec<&str>> {
    let mut runs: Vec<Vec<&str>> = Vec::new();
    for line in output.lines() {
        if line.starts_with("GROUP ") {
            runs.push(Vec::new());
        }
        match runs.last_mut() {
            Some(run) if !line.starts_with("END ") && !line.starts_with("STOP ") => run.push(line),
            _ => {}
        }
    }
    runs
}

/// Whether an honest run came out as demand 3 wants: only 0 and 9 answered,
/// every ledger posted exactly its payments, once each, and every two ledgers
/// posted their common payments in the same order.
pub fn check(plan: &Plan, lines: &[&str]) -> Result<(), String> {
    if lines.first() != Some(&format!("GROUP {}", plan.ledgers).as_str()) {
        return Err(format!("the run does not begin with GROUP {}", plan.ledgers));
    }
    let mut posted: Vec<Vec<u32>> = vec![Vec::new(); usize::from(MOST_LEDGERS)];
    for line in &lines[1..] {
        let step = step_line(line).ok_or(format!("not a step line: {line}"))?;
        if step.answer != 0 && step.answer != 9 {
            return Err(format!("an honest run answered {}: {line}", step.answer));
        }
        if !(1..=plan.ledgers).contains(&step.target) {
            return Err(format!("no such ledger: {line}"));
        }
        posted[usize::from(step.target) - 1].extend(step.posted);
    }
    for ledger in 1..=plan.ledgers {
        check_own(plan, ledger, &posted[usize::from(ledger) - 1])?;
        for other in 1..ledger {
            check_common(plan, &posted, ledger, other)?;
        }
    }
    Ok(())
}

fn check_own(plan: &Plan, ledger: u8, posted: &[u32]) -> Result<(), String> {
    let mut wanted = numbers_to(plan, bit(ledger));
    let mut posted = posted.to_vec();
    wanted.sort();
    posted.sort();
    if wanted != posted {
        return Err(format!("ledger {ledger} posted {posted:?}, its payments are {wanted:?}"));
    }
    Ok(())
}

fn check_common(plan: &Plan, posted: &[Vec<u32>], one: u8, two: u8) -> Result<(), String> {
    let common = numbers_to(plan, bit(one) | bit(two));
    let in_order = |ledger: u8| -> Vec<u32> {
        let all = &posted[usize::from(ledger) - 1];
        all.iter().filter(|number| common.contains(number)).copied().collect()
    };
    let (first, second) = (in_order(one), in_order(two));
    if first != second {
        return Err(format!("ledger {one} posted {first:?}, ledger {two} posted {second:?}"));
    }
    Ok(())
}

/// The payments that go to all of these ledgers.
fn numbers_to(plan: &Plan, ledgers: u8) -> Vec<u32> {
    plan.payments
        .iter()
        .filter(|payment| payment.destinations & ledgers == ledgers)
        .map(|payment| payment.number)
        .collect()
}
