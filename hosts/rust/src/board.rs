//! A board by itself, and what can be asked of it.

use crate::raw::{self, MAX_AREA, PICTURE_BYTES};
use crate::refusal::accepted;
use crate::{calls, Colour, Player, Point, Points, Refusal};
use std::fmt;

/// The stones of each colour.
#[derive(Clone, Copy, Debug, Default, PartialEq, Eq, Hash)]
pub struct Stones {
    /// Black stones.
    pub black: usize,
    /// White stones.
    pub white: usize,
}

/// A chain: stones of one colour that are connected, all of them.
#[derive(Clone, Copy, Debug, PartialEq, Eq, Hash)]
pub struct Chain {
    /// Whose stones they are.
    pub player: Player,
    /// How many stones.
    pub stones: usize,
    /// How many liberties: empty points beside one of the stones.
    pub liberties: usize,
    /// Whether it has exactly one liberty.
    pub atari: bool,
    /// Its least point, which stands for the chain.
    pub origin: Point,
}

/// A board of 1 × 1 to 19 × 19 points. Each question judges the board first, and is refused as [`Damaged`](Refusal::Damaged) where it is not a true one; only
/// a board [from a stranger](Board::from_raw) can be so.
///
/// ```
/// use samtrekhu::Colour::{Black, Empty, White};
/// use samtrekhu::{Board, Player, Point};
///
/// let board = Board::from_colours(2, 3, &[Black, Black, White, Empty, White, Empty])?;
/// let chain = board.chain_at((0, 1))?.expect("a stone is there");
/// assert_eq!((chain.player, chain.stones, chain.liberties, chain.atari), (Player::Black, 2, 1, true));
/// assert_eq!(board.chain_liberties((0, 1))?.collect::<Vec<_>>(), [Point::new(1, 0)]);
/// assert_eq!(board.pretty_string()?, "●●○\n┗○┛\n");
/// # Ok::<(), samtrekhu::Refusal>(())
/// ```
#[derive(Clone)]
pub struct Board {
    state: Box<raw::Board>,
}

impl Board {
    /// An empty board. Refused: [`BadSize`](Refusal::BadSize).
    pub fn new(height: u8, width: u8) -> Result<Board, Refusal> {
        Board::placed(raw::samtrekhu_new_board(height, width))
    }

    /// The board with these colours, row by row from the top left. Refused: [`BadSize`](Refusal::BadSize), [`BadLength`](Refusal::BadLength) if there are not as
    /// many colours as points, [`NoLiberty`](Refusal::NoLiberty).
    pub fn from_colours(height: u8, width: u8, colours: &[Colour]) -> Result<Board, Refusal> {
        Board::from_bytes(height, width, &colours.iter().map(|colour| colour.number()).collect::<Vec<_>>())
    }

    /// The same from bytes: 0 empty, 1 Black, 2 White. Any other is refused, as [`BadColour`](Refusal::BadColour) before [`NoLiberty`](Refusal::NoLiberty).
    pub fn from_bytes(height: u8, width: u8, colours: &[u8]) -> Result<Board, Refusal> {
        Board::placed(calls::from_colours(height, width, colours))
    }

    fn placed(placed: raw::Placed) -> Result<Board, Refusal> {
        accepted(placed.answer)?;
        Ok(Board::from_raw(placed.board))
    }

    /// Any numbers at all as a board; the referee finds out whether they are one.
    pub fn from_raw(state: raw::Board) -> Board {
        Board { state: Box::new(state) }
    }

    /// Its numbers.
    pub fn raw(&self) -> &raw::Board {
        &self.state
    }

    /// Whether it is a true board.
    pub fn is_true(&self) -> bool {
        raw::samtrekhu_is_true_board(*self.state)
    }

    /// Its height and its width.
    pub fn size(&self) -> Result<(u8, u8), Refusal> {
        let size = raw::samtrekhu_size(*self.state);
        accepted(size.answer)?;
        Ok((size.height, size.width))
    }

    /// A number that depends on the colours alone; two boards with other colours seldom have the same.
    pub fn zobrist_hash(&self) -> Result<u64, Refusal> {
        let hashed = raw::samtrekhu_zobrist_hash(*self.state);
        accepted(hashed.answer)?;
        Ok(hashed.hash)
    }

    /// How many stones there are.
    pub fn number_of_stones(&self) -> Result<Stones, Refusal> {
        let raw::StonesAnswer { answer, black, white } = raw::samtrekhu_number_of_stones(*self.state);
        accepted(answer)?;
        Ok(Stones { black, white })
    }

    /// How many chains there are.
    pub fn number_of_chains(&self) -> Result<usize, Refusal> {
        let counted = raw::samtrekhu_number_of_chains(*self.state);
        accepted(counted.answer)?;
        Ok(counted.chains)
    }

    /// What is on a point.
    pub fn get_color(&self, point: impl Into<Point>) -> Result<Colour, Refusal> {
        let Point { row, column } = point.into();
        let raw::ColourAnswer { answer, colour } = raw::samtrekhu_get_color(*self.state, row, column);
        accepted(answer)?;
        Colour::try_from(colour)
    }

    /// Whether a point has an empty neighbour.
    pub fn has_liberties(&self, point: impl Into<Point>) -> Result<bool, Refusal> {
        let Point { row, column } = point.into();
        holds(raw::samtrekhu_has_liberties(*self.state, row, column))
    }

    /// The chain at a point, none where the point is empty.
    pub fn chain_at(&self, point: impl Into<Point>) -> Result<Option<Chain>, Refusal> {
        let Point { row, column } = point.into();
        let raw::ChainAnswer { answer, present, colour, stones, liberties, atari, origin } = raw::samtrekhu_chain_at(*self.state, row, column);
        accepted(answer)?;
        if !present {
            return Ok(None);
        }
        let player = Player::from_number(colour).ok_or(Refusal::BadColour)?;
        Ok(Some(Chain { player, stones, liberties, atari, origin: Point::at(origin, self.state.width) }))
    }

    /// Whether the second point is a liberty of the chain at the first.
    pub fn contains_liberty(&self, point: impl Into<Point>, liberty: impl Into<Point>) -> Result<bool, Refusal> {
        let (point, other) = (point.into(), liberty.into());
        holds(raw::samtrekhu_contains_liberty(*self.state, point.row, point.column, other.row, other.column))
    }

    /// The points with a stone.
    pub fn get_stones(&self) -> Result<Points, Refusal> {
        self.list(|buffer| calls::get_stones(&self.state, buffer))
    }

    /// The points of a colour.
    pub fn get_coords_by_color(&self, colour: Colour) -> Result<Points, Refusal> {
        self.list(|buffer| calls::get_coords_by_color(&self.state, colour.number(), buffer))
    }

    /// The empty points.
    pub fn get_empty_coords(&self) -> Result<Points, Refusal> {
        self.list(|buffer| calls::get_empty_coords(&self.state, buffer))
    }

    /// The stones of the chain at a point, no points where it is empty.
    pub fn chain_stones(&self, point: impl Into<Point>) -> Result<Points, Refusal> {
        let Point { row, column } = point.into();
        self.list(|buffer| calls::chain_stones(&self.state, row, column, buffer))
    }

    /// The liberties of the chain at a point, no points where it is empty.
    pub fn chain_liberties(&self, point: impl Into<Point>) -> Result<Points, Refusal> {
        let Point { row, column } = point.into();
        self.list(|buffer| calls::chain_liberties(&self.state, row, column, buffer))
    }

    /// The points beside a point.
    pub fn get_connected_points(&self, point: impl Into<Point>) -> Result<Points, Refusal> {
        let Point { row, column } = point.into();
        self.list(|buffer| calls::get_connected_points(&self.state, row, column, buffer))
    }

    /// The points with a stone beside a point.
    pub fn get_connected_stones(&self, point: impl Into<Point>) -> Result<Points, Refusal> {
        let Point { row, column } = point.into();
        self.list(|buffer| calls::get_connected_stones(&self.state, row, column, buffer))
    }

    /// The empty points beside a point.
    pub fn get_liberties(&self, point: impl Into<Point>) -> Result<Points, Refusal> {
        let Point { row, column } = point.into();
        self.list(|buffer| calls::get_liberties(&self.state, row, column, buffer))
    }

    /// The chains beside a point, each by its least point.
    pub fn get_connected_groups(&self, point: impl Into<Point>) -> Result<Points, Refusal> {
        let Point { row, column } = point.into();
        self.list(|buffer| calls::get_connected_groups(&self.state, row, column, buffer))
    }

    /// The colours of all points, row by row from the top left.
    pub fn to_vec(&self) -> Result<Vec<Colour>, Refusal> {
        let mut buffer = [0; MAX_AREA];
        let listed = calls::to_vec(&self.state, &mut buffer);
        accepted(listed.number)?;
        buffer[..listed.count].iter().map(|&colour| Colour::try_from(colour)).collect()
    }

    /// The picture: a sign for each point, a line for each row.
    pub fn pretty_string(&self) -> Result<String, Refusal> {
        let mut buffer = [0; PICTURE_BYTES];
        let listed = calls::pretty_string(&self.state, &mut buffer);
        accepted(listed.number)?;
        Ok(String::from_utf8_lossy(&buffer[..listed.count]).into_owned())
    }

    fn list(&self, call: impl FnOnce(&mut [u16]) -> raw::Listed) -> Result<Points, Refusal> {
        Points::listed(self.state.width, call)
    }
}

/// The yes or no of a test.
pub(crate) fn holds(test: raw::TestAnswer) -> Result<bool, Refusal> {
    accepted(test.answer)?;
    Ok(test.holds)
}

/// Its size; the picture shows the rest.
impl fmt::Debug for Board {
    fn fmt(&self, out: &mut fmt::Formatter<'_>) -> fmt::Result {
        let raw::Board { height, width, .. } = *self.state;
        out.debug_struct("Board").field("height", &height).field("width", &width).finish_non_exhaustive()
    }
}
