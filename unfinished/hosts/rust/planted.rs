//! Rules that can be changed on purpose in the second machine, to show that a comparison finds it.

/// Which rule is changed. `Nothing` is the machine as the docs describe it.
#[derive(Clone, Copy, PartialEq, Eq, Debug)]
pub enum Planted {
    Nothing,
    /// The step Fence does not fence.
    NoFence,
    /// Look reads the record that the index word names now, not the settled one.
    LookByIndex,
    /// After a start each worker's turns begin at 1 again.
    TurnsFromOne,
    /// Late lines may arrive ahead of the due ones.
    LateMayArrive,
    /// Leave does not send watchers to Look.
    WatchersSleep,
    /// Full is answered at 31 entries.
    FullAt31,
    /// A waiting request is served again though its turn word shows it served.
    ServedTwice,
    /// The step Mark does not ask for the line of the index.
    IndexNotAsked,
    /// A resume does not compare operation and argument.
    AnyWords,
    /// A resume of a free place takes the turn after the next too.
    TurnTooFar,
    /// After a cut and a start the lock still has its holder.
    LockOutlivesCut,
    /// The 513th call is taken too.
    OneCallMore,
    /// A number may begin with zeros.
    LeadingZeros,
}

/// All changed rules, in the order in which they are tried.
pub const ALL_PLANTED: [Planted; 13] = [
    Planted::NoFence,
    Planted::LookByIndex,
    Planted::TurnsFromOne,
    Planted::LateMayArrive,
    Planted::WatchersSleep,
    Planted::FullAt31,
    Planted::ServedTwice,
    Planted::IndexNotAsked,
    Planted::AnyWords,
    Planted::TurnTooFar,
    Planted::LockOutlivesCut,
    Planted::OneCallMore,
    Planted::LeadingZeros,
];
