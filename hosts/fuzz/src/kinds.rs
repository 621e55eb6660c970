//! The calls by name, with the numbers that each may answer.

macro_rules! kinds {
    ($($kind:ident $name:literal [$($answer:literal),*];)*) => {
        #[derive(Clone, Copy, PartialEq, Eq, Debug)]
        pub enum Kind { $($kind),* }

        pub const KINDS: &[Kind] = &[$(Kind::$kind),*];

        impl Kind {
            /// The border's name, without its prefix.
            pub fn name(self) -> &'static str {
                match self { $(Kind::$kind => $name),* }
            }

            /// The numbers that the paper's order of this call names.
            pub fn answers(self) -> &'static [u8] {
                match self { $(Kind::$kind => &[$($answer),*]),* }
            }
        }
    };
}

kinds! {
    NewBoard "new_board" [0, 1];
    FromColours "from_colours" [0, 1, 13, 14, 15];
    IsTrueBoard "is_true_board" [0, 1];
    Size "size" [0, 3];
    ZobristHash "zobrist_hash" [0, 3];
    NumberOfStones "number_of_stones" [0, 3];
    NumberOfChains "number_of_chains" [0, 3];
    GetColor "get_color" [0, 3, 5];
    HasLiberties "has_liberties" [0, 3, 5];
    ChainAt "chain_at" [0, 3, 5];
    ContainsLiberty "contains_liberty" [0, 3, 5];
    GetStones "get_stones" [0, 3, 14];
    GetCoordsByColor "get_coords_by_color" [0, 3, 14, 15];
    GetEmptyCoords "get_empty_coords" [0, 3, 14];
    ChainStones "chain_stones" [0, 3, 5, 14];
    ChainLiberties "chain_liberties" [0, 3, 5, 14];
    GetConnectedPoints "get_connected_points" [0, 3, 5, 14];
    GetConnectedStones "get_connected_stones" [0, 3, 5, 14];
    GetLiberties "get_liberties" [0, 3, 5, 14];
    GetConnectedGroups "get_connected_groups" [0, 3, 5, 14];
    ToVec "to_vec" [0, 3, 14];
    PrettyString "pretty_string" [0, 3, 14];
    NewGame "new_game" [0, 1, 2];
    Handicap "handicap" [0, 3, 5, 6, 12, 13];
    Stone "stone" [0, 3, 4, 5, 6, 7, 8, 9, 10, 11];
    Pass "pass" [0, 3, 4];
    Resign "resign" [0, 3, 4];
    Resume "resume" [0, 3];
    Replay "replay" [0, 3, 4, 5, 6, 7, 8, 9, 10, 11, 18];
    CheckPoint "check_point" [0, 3, 5, 6, 7, 8, 9];
    CheckPointBy "check_point_by" [0, 2, 3, 5, 6, 7, 8, 9];
    Legals "legals" [0, 3, 14];
    LegalsBy "legals_by" [0, 2, 3, 14];
    FactsOf "facts_of" [0, 3];
    IsTrueGame "is_true_game" [0, 1];
    IsTrueGameWith "is_true_game_with" [0, 1];
    EmptyPoints "empty_points" [0, 3, 14];
    BoardOf "board_of" [0, 3];
    WillCapture "will_capture" [0, 3, 5];
    IsSuicideAt "is_suicide_at" [0, 3, 5];
    IsKoAt "is_ko_at" [0, 3, 5];
    IsEyeAt "is_eye_at" [0, 3, 5];
    IsSuperkoAt "is_superko_at" [0, 3, 5];
    HandicapInPlace "handicap_in_place" [0, 3, 5, 6, 12, 13];
    StoneInPlace "stone_in_place" [0, 3, 4, 5, 6, 7, 8, 9, 10, 11];
    PassInPlace "pass_in_place" [0, 3, 4];
    ResignInPlace "resign_in_place" [0, 3, 4];
    ResumeInPlace "resume_in_place" [0, 3];
    ReplayInPlace "replay_in_place" [0, 3, 4, 5, 6, 7, 8, 9, 10, 11, 18];
}
