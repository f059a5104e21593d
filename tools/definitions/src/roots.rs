//! Where reading begins: the contracts of the exported calls, and the closing theorems.

/// The functions of a file whose contracts are meant.
#[derive(Clone, Copy, Debug)]
pub enum Calls {
    Named(&'static [&'static str]),
    /// The public methods of a type.
    Methods(&'static str),
    /// The functions of the C interface.
    External,
}

#[derive(Clone, Copy, Debug)]
pub enum Root {
    /// The contracts of functions in a file of `src/`.
    Contracts(&'static str, Calls),
    /// The statements of theorems in a file of `proofs/`.
    Theorems(&'static str, &'static [&'static str]),
}

/// Roots that are counted together, and beyond the groups before them.
#[derive(Clone, Copy, Debug)]
pub struct Group {
    pub title: &'static str,
    pub roots: &'static [Root],
}

/// The closing theorems: a file, and the names of those in it that close the argument.
const THEOREMS: &[Root] = &[
    Root::Theorems(
        "crates/reached/proofs/Chains.antt",
        &["is_reached_lem", "reached_is"],
    ),
    Root::Theorems(
        "crates/planner/proofs/Demands.antt",
        &[
            "accepted_realisable",
            "realisable_accepted",
            "unrealisable_refused",
            "entry_exactly",
            "entry_shortest",
            "refused_breaks",
            "accepted_rules",
            "same_table",
            "same_verdict",
            "demand_3",
            "is_never_overfull",
            "accepted_reached",
            "unreached_refused",
        ],
    ),
];

pub const GROUPS: &[Group] = &[
    Group {
        title: "the readers, and the rules on records",
        roots: &[
            Root::Contracts(
                "crates/cell/src/lib.rt",
                Calls::Named(&["read_cell", "check_cell"]),
            ),
            Root::Contracts("crates/limits/src/lib.rt", Calls::Named(&["read_limits"])),
            Root::Contracts(
                "crates/recipe/src/lib.rt",
                Calls::Named(&["read_recipe", "check_recipe"]),
            ),
            Root::Contracts(
                "crates/tables/src/lines.rt",
                Calls::Named(&["find_line", "show_line"]),
            ),
            Root::Contracts("crates/chapters/src/lib.rt", Calls::Named(&["check"])),
        ],
    },
    Group {
        title: "the run's calls",
        roots: &[
            Root::Contracts("crates/run/src/lib.rt", Calls::Methods("Run")),
            Root::Contracts("crates/run/src/lib.rt", Calls::Named(&["report_record"])),
        ],
    },
    Group {
        title: "the plan call",
        roots: &[Root::Contracts(
            "crates/planner/src/lib.rt",
            Calls::Named(&["plan"]),
        )],
    },
    Group {
        title: "the install call",
        roots: &[Root::Contracts(
            "crates/install/src/lib.rt",
            Calls::Named(&["install"]),
        )],
    },
    Group {
        title: "the C interface",
        roots: &[Root::Contracts("crates/capi/src/lib.rt", Calls::External)],
    },
    Group {
        title: "the closing theorems",
        roots: THEOREMS,
    },
];
