use std::fmt;

/// Why a call is refused: the numbers of docs/RULES.md, section 5. A refused call changes nothing.
#[derive(Clone, Copy, Debug, PartialEq, Eq, Hash)]
#[repr(u32)]
pub enum Refusal {
    /// The node has no such output.
    NoSuchOutput = 1,
    /// The table check fails. A [`Db`](crate::Db) keeps its table in order, so its calls never answer this.
    TableFails = 2,
    /// The working area is short. A [`Db`](crate::Db) keeps one that is long enough.
    WorkShort = 3,
    /// The id is not below the node count.
    NoSuchNode = 4,
    /// An unweighted demand on a general node.
    GeneralNode = 5,
    /// The literal is 0 or -2147483648, or its variable is not an input's.
    BadLiteral = 6,
    /// A multiplier outside 1 to 65,535, or equal ones that are not 1 with no general child.
    BadMultiplier = 7,
    /// A general node without any value.
    NoValue = 8,
    /// A key above 2,147,483,647.
    KeyTooLarge = 9,
    /// Depth above 64.
    TooDeep = 10,
    /// What is added does not fit the node, input or cell row or limit.
    NoRoom = 11,
    /// Variables run out.
    VariablesOut = 12,
    /// The clause row is too short.
    ClausesShort = 13,
    /// The assignment is shorter than the number of input variables.
    BadAssignment = 14,
    /// Not 1 ≤ first ≤ last + 1 ≤ 2147483648.
    BadVariables = 15,
}

impl Refusal {
    const ALL: [Refusal; 15] = [
        Refusal::NoSuchOutput,
        Refusal::TableFails,
        Refusal::WorkShort,
        Refusal::NoSuchNode,
        Refusal::GeneralNode,
        Refusal::BadLiteral,
        Refusal::BadMultiplier,
        Refusal::NoValue,
        Refusal::KeyTooLarge,
        Refusal::TooDeep,
        Refusal::NoRoom,
        Refusal::VariablesOut,
        Refusal::ClausesShort,
        Refusal::BadAssignment,
        Refusal::BadVariables,
    ];

    /// The number, 1 to 15.
    pub fn number(self) -> u32 {
        self as u32
    }

    /// The refusal with this number; none for 0, which is "done", and for numbers above 15.
    pub fn from_number(number: u32) -> Option<Refusal> {
        Self::ALL.into_iter().find(|why| why.number() == number)
    }

    /// Whether more room (nodes, inputs, cells, variables or clause words) would have let the call through; otherwise it is
    /// an argument that is at fault.
    pub fn is_lack_of_room(self) -> bool {
        matches!(
            self,
            Refusal::NoRoom | Refusal::VariablesOut | Refusal::ClausesShort | Refusal::WorkShort
        )
    }
}

impl fmt::Display for Refusal {
    fn fmt(&self, f: &mut fmt::Formatter<'_>) -> fmt::Result {
        f.write_str(match self {
            Refusal::NoSuchOutput => "no such output",
            Refusal::TableFails => "table check fails",
            Refusal::WorkShort => "working area short",
            Refusal::NoSuchNode => "node id not below the node count",
            Refusal::GeneralNode => "unweighted demand on a general node",
            Refusal::BadLiteral => "literal 0, -2147483648, or variable not an input",
            Refusal::BadMultiplier => {
                "multiplier outside 1 to 65,535, or equal and not 1 with no general child"
            }
            Refusal::NoValue => "general node without any value",
            Refusal::KeyTooLarge => "a key above the limit",
            Refusal::TooDeep => "depth above 64",
            Refusal::NoRoom => "no room for the node, input or cells",
            Refusal::VariablesOut => "variables run out",
            Refusal::ClausesShort => "clause row too short",
            Refusal::BadAssignment => "assignment too short",
            Refusal::BadVariables => "no such range of variables",
        })
    }
}

impl std::error::Error for Refusal {}
