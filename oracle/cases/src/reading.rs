//! The points of docs/OPEN-POINTS.md. The published Rust settles each; `Other` names what could have been read instead,
//! so that a case can be looked for on which the two readings answer differently.

/// The other reading of one point.
#[derive(Clone, Copy, Debug, Eq, PartialEq)]
pub enum Other {
    /// A source has an approach, and number 9 is judged on it.
    SourceApproachJudged,
    /// A source has an approach, and it is taken out of the blocked cells.
    SourceApproachTakenOut,
    /// A source has an approach, and no repeater stands there.
    SourceApproachForbidden,
    /// Clearances, terminals and reserved cells have keepouts, as conductors have.
    EveryListKeepsOut,
    /// A keepout is right above and beneath its cell, too.
    KeepoutAboveAndBeneath,
    /// A blocked cell counts as Solid whatever its kind.
    BlockedBears,
    /// A terminal is never joinable for its own branch, wherever it stands there.
    TerminalNeverJoinable,
    /// A repeater that faces out of the room powers the Solid outside.
    OutsideIsPowered,
    /// A net's own ends stay out of the blocked cells, whatever clearances come.
    EndsStayOpen,
    /// A vertical pair's conflict is its lower cell.
    LowerOfPair,
    /// A path's stairs are looked through from the goal on.
    StairsFromGoal,
    /// At a stair a conductor above the clearance comes before the clearance's kind.
    AboveClearanceFirst,
    /// A stair's second cell counts from the goal, so it is the one nearer to the approach.
    SecondFromGoal,
    /// Conflicts are looked for among the occupied cells.
    ConflictWithOccupied,
    /// A conflict stays blocked for the sink's later goals.
    ConflictStays,
    /// A goal's 64th search may not give its route.
    SixtyThreeSearches,
    /// Runs are planned in the order in which sinks are searched.
    RunsAsSearched,
    /// Tails are planned in the order in which sinks are searched.
    TailsAsSearched,
    /// A sink's tail follows its run, before the next sink's run.
    TailAfterRun,
    /// A tail's repeater may stand on a terminal or approach of this net: of ends the tail rule says "not the first cell"
    /// alone, and "such cell" speaks of tree neighbours and facing.
    TailOnOwnEnds,
    /// Of a cell's tree neighbours only those count that the branch has which brought it.
    NeighboursOfOneBranch,
    /// A cell's tree neighbours are counted once for each step of a branch.
    NeighboursByStep,
    /// The path from the source goes along the branches.
    PathAlongBranches,
}

/// How the open points are read.
#[derive(Clone, Copy, Debug, Eq, PartialEq)]
pub struct Reading(Option<Other>);

impl Reading {
    /// As the published Rust has it.
    pub const PUBLISHED: Self = Self(None);

    /// As the published Rust has it but for one point.
    pub const fn but(other: Other) -> Self {
        Self(Some(other))
    }

    pub fn is(self, other: Other) -> bool {
        self.0 == Some(other)
    }
}
