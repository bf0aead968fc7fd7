//! Mistakes, as switches of the plain ledger: the desks' five (M1 to M5 of the
//! rules), and two ways of holding back that are not rule 4. They show that the
//! comparison would notice such a ledger.

#[derive(Clone, Copy, PartialEq, Eq, Debug)]
pub enum Mistake {
    /// Posts what is stamped, whatever is still proposed.
    PostsWhenStamped,
    /// Sorts what it posts by times only, so that stamps can tie.
    ComparesTimesOnly,
    /// Answers 0 to a PROPOSE that overtook its MULTICAST, and keeps nothing.
    DropsEarlyProposals,
    /// Gives a retry of a payment still proposed a fresh time, and sends that.
    GivesRetriesAFreshTime,
    /// Posts no payment but the one that has just got its stamp; what was held
    /// back by it stays so.
    ForgetsTheHeldBack,
    /// Holds back at equal times too, as rule 4 had it before request 1.
    HoldsBackAtEqualTimes,
    /// Holds back at smaller times only, whatever the ledgers' numbers.
    HoldsBackAtSmallerTimesOnly,
}

pub const ALL: [Mistake; 7] = [
    Mistake::PostsWhenStamped,
    Mistake::ComparesTimesOnly,
    Mistake::DropsEarlyProposals,
    Mistake::GivesRetriesAFreshTime,
    Mistake::ForgetsTheHeldBack,
    Mistake::HoldsBackAtEqualTimes,
    Mistake::HoldsBackAtSmallerTimesOnly,
];

impl Mistake {
    /// Whether it breaks demand 3. The former rule 4 does not: it posts the
    /// same payments in the same order, some of them later.
    pub fn breaks_demand_3(self) -> bool {
        self != Mistake::HoldsBackAtEqualTimes
    }
}
