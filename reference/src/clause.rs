//! The clauses of the layout of the two tables, each by a name.

/// Declares the clauses with their names, in the order in which they are told.
macro_rules! clauses {
    ($($clause:ident: $name:literal,)*) => {
        /// One clause of the layout that tables can break.
        #[derive(Clone, Copy, PartialEq, Eq, PartialOrd, Ord, Debug)]
        pub enum Clause {
            $($clause,)*
        }

        impl Clause {
            /// All of them, in their order.
            pub const ALL: &'static [Clause] = &[$(Clause::$clause,)*];

            /// What is wrong where it is broken.
            pub fn name(self) -> &'static str {
                match self {
                    $(Clause::$clause => $name,)*
                }
            }
        }
    };
}

clauses! {
    LocationCount: "location count above the places",
    EdgeCount: "edge count above the places",
    LocationKind: "location: byte 0 is not 0x4c",
    LocationStatement: "location: statement not below 64",
    LocationFault: "location: fault above 3",
    FaultRest: "fault location: a byte from 3 on is not zero",
    NodeCount: "location: more than 12 nodes",
    PointerValue: "location: a pointer byte that is no value",
    SuccessorValue: "location: a successor byte that is no value",
    AbsentSuccessor: "location: a successor of an absent node is not zero",
    LocationRest: "location: a byte from 22 on is not zero",
    EdgeKind: "edge: byte 0 is not 0x45",
    SecondGuardKind: "edge: second guard of value 3",
    TopBit: "edge: bit 7 of byte 1 is set",
    SecondGuardAbsent: "edge: node of an absent second guard is not 0",
    FirstGuardKind: "edge: first guard above 2",
    FirstGuardAbsent: "edge: node of an absent first guard is not 0",
    UpdateTopBits: "edge: bit 14 or 15 of an update is set",
    UpdateConstant: "edge: constant of value 3",
    AbsentUpdate: "edge: update of an absent node is not zero",
    FaultUpdate: "edge to a fault: an update is not zero",
    EdgeFrom: "edge: from not below the location count",
    EdgeTo: "edge: to not below the location count",
    FirstGuardNode: "edge: first guard on a node that the source lacks",
    SecondGuardNode: "edge: second guard on a node that the source lacks",
    AddedNode: "edge: old counter of a node that the source lacks",
    AddedTwice: "edge: old counter added in two updates",
    BelowOne: "edge: update that could give less than 1",
}

#[cfg(test)]
mod tests {
    use super::*;

    #[test]
    fn all_in_order_with_names_of_their_own() {
        assert_eq!(Clause::ALL.len(), 28);
        assert!(Clause::ALL.is_sorted_by(|one, next| one < next));
        let mut names: Vec<&str> = Clause::ALL.iter().map(|clause| clause.name()).collect();
        names.sort();
        names.dedup();
        assert_eq!(names.len(), 28);
    }
}
