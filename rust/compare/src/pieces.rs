//! A file in pieces.

use crate::{disagree, own, Compared, Disagreement};
use kelompuris::pieces::{close, piece, start, OpenChunk, State, RECORDS};
use reference::{Answer, Mode};
use scenes::Rng;

/// Records before and behind each lent row.
const AROUND: usize = 2;

/// A row of records that hold anything, among others.
#[derive(Clone, PartialEq)]
pub struct Row(Vec<OpenChunk>);

impl Row {
    /// With this many records.
    pub fn any(records: usize, rng: &mut Rng) -> Row {
        let records = records + 2 * AROUND;
        Row((0..records).map(|_| any_record(rng)).collect())
    }

    pub fn records(&mut self) -> &mut [OpenChunk] {
        let end = self.0.len() - AROUND;
        &mut self.0[AROUND..end]
    }

    /// Whether the records around the row, and behind the first 19, are those of
    /// another.
    fn same_around(&self, other: &Row) -> bool {
        let used = AROUND..AROUND + RECORDS;
        self.0.len() == other.0.len()
            && (0..self.0.len()).all(|at| used.contains(&at) || self.0[at] == other.0[at])
    }
}

/// The state that says the same as another in the numbers that the close writes: flags are 0
/// or 1, an unknown tag is 9, an unknown kind 4, and numbers that are not in use are 0. A piece
/// may keep those that it was handed.
fn plain(state: State) -> State {
    let flag = |number: usize| usize::from(number == 1);
    let held = State {
        size: state.size,
        worth: state.worth,
        letters: state.letters,
        length: state.length,
        shut: flag(state.shut),
        depth: state.depth,
        ..State::default()
    };
    if state.kind == 3 {
        return State {
            kind: 3,
            number: state.number,
            at: state.at,
            ..held
        };
    }
    let over = State {
        kind: 4,
        version: state.version,
        slots: state.slots,
        textures: state.textures,
        brushes: state.brushes,
        own: state.own,
        told: state.told,
        below: state.below,
        nodes: state.nodes,
        meshes: state.meshes,
        vertices: state.vertices,
        sets: state.sets,
        triangles: state.triangles,
        weights: state.weights,
        lists: state.lists,
        keys: state.keys,
        ..held
    };
    if state.kind > 3 {
        return over;
    }
    let live = State {
        kind: state.kind,
        at: state.at,
        start: state.start,
        inner: OpenChunk {
            tag: state.inner.tag.min(9),
            spent: flag(state.inner.spent),
            ..state.inner
        },
        ..over
    };
    match state.kind {
        0 => State {
            fixed: flag(state.fixed),
            ..live
        },
        1 => State {
            fixed: flag(state.fixed),
            index: state.index,
            came: state.came,
            value: state.value,
            first: state.first,
            second: state.second,
            third: state.third,
            ..live
        },
        _ => live,
    }
}

/// A number: small, at an edge, or any.
pub fn any_number(rng: &mut Rng) -> usize {
    match rng.below(4) {
        0 | 1 => rng.below(20),
        2 => rng.pick(&[
            255,
            16_777_215,
            16_777_216,
            16_777_217,
            0xFFFF_FFFF,
            usize::MAX,
        ]),
        _ => rng.bits() as usize,
    }
}

pub fn any_record(rng: &mut Rng) -> OpenChunk {
    let mut number = || any_number(rng);
    OpenChunk {
        tag: number(),
        head: number(),
        end: number(),
        turn: number(),
        spent: number(),
        level: number(),
        first: number(),
        second: number(),
        third: number(),
        count: number(),
        told: number(),
    }
}

impl Compared {
    /// Hands a file over in pieces that end at these places, from a fresh state and a row
    /// that holds anything; before some of them makes calls that are refused. Holds the
    /// close to the reader of the reference, lent ample tables.
    pub fn in_pieces(
        &mut self,
        file: &[u8],
        expected: Answer,
        ends: &[usize],
        rng: &mut Rng,
    ) -> Result<(), Disagreement> {
        let mut row = Row::any(RECORDS + rng.below(3), rng);
        let begun = row.clone();
        let (mut state, mut at) = (start(), 0);
        for end in ends.iter().copied().chain([file.len()]) {
            if rng.percent(5) {
                self.refusals(file, state, &mut row, rng)?;
            }
            let fed = piece(state, row.records(), &file[at..end]);
            self.pieces += 1;
            if (fed.number, fed.place) != (0, 0) {
                let answer = (fed.number, fed.place);
                return disagree(format!("piece {at}..{end}: {answer:?}"), file);
            }
            (state, at) = (fed.state, end);
        }
        if !row.same_around(&begun) {
            return disagree(format!("{ends:?}: records outside the row changed"), file);
        }
        let before = row.clone();
        let closed = close(state, row.records());
        let about = format!("close after pieces that end at {ends:?}");
        let answer = own(closed.answer);
        self.same(&about, file, answer.number, answer, expected)?;
        let shut = State { shut: 1, ..state };
        if closed.state != shut || row != before {
            return disagree(format!("{about}: another state or record"), file);
        }
        self.refusals(file, shut, &mut row, rng)
    }

    /// Calls that are refused: after the close 15 at 0, and with fewer than 19
    /// records, closed or not, 11 at 19.
    fn refusals(
        &mut self,
        file: &[u8],
        state: State,
        row: &mut Row,
        rng: &mut Rng,
    ) -> Result<(), Disagreement> {
        let bytes = &file[..rng.below(file.len() + 1)];
        if state.shut == 1 {
            let records = RECORDS + rng.below(row.records().len() - RECORDS + 1);
            self.refused(file, state, row, records, bytes, (15, 0))?;
        }
        self.refused(file, state, row, rng.below(RECORDS), bytes, (11, 19))
    }

    /// A piece and a close, lent this many records, that are refused: state and row stay.
    fn refused(
        &mut self,
        file: &[u8],
        state: State,
        row: &mut Row,
        records: usize,
        bytes: &[u8],
        refusal: (u32, u32),
    ) -> Result<(), Disagreement> {
        let before = row.clone();
        let fed = piece(state, &mut row.records()[..records], bytes);
        let closed = close(state, &row.records()[..records]);
        let (number, place) = refusal;
        let expected = Answer {
            number,
            place,
            ..Answer::default()
        };
        self.count(fed.number);
        self.count(closed.answer.number);
        if (fed.number, fed.place) != refusal || own(closed.answer) != expected {
            let answers = (fed.number, fed.place, closed.answer);
            return disagree(
                format!("{records} records: {answers:?}, not {refusal:?}"),
                file,
            );
        }
        if (fed.state, closed.state) != (state, state) || *row != before {
            return disagree(format!("{refusal:?}: another state or record"), file);
        }
        Ok(())
    }

    /// A piece and a close of a state and a row that no calls may have led to. Whether the
    /// piece was taken; then the state that it left, for which the same holds, and the close
    /// of it is taken too.
    pub fn any_call(
        &mut self,
        state: State,
        row: &mut Row,
        bytes: &[u8],
    ) -> Result<Option<State>, Disagreement> {
        let before = row.clone();
        let fed = piece(state, row.records(), bytes);
        self.pieces += 1;
        if !row.same_around(&before) {
            return disagree(format!("{state:?}: records outside the row changed"), bytes);
        }
        match (fed.number, fed.place) {
            (0, 0) => {
                let after = row.clone();
                let closed = close(fed.state, row.records());
                let shut = State {
                    shut: 1,
                    ..plain(fed.state)
                };
                if state.shut == 1 || closed.state != shut || *row != after {
                    return disagree(format!("{state:?}: taken, then not closed"), bytes);
                }
                Ok(Some(fed.state))
            }
            (15, 0) => {
                self.count(15);
                let closed = close(state, row.records());
                let refused = (closed.answer.number, closed.answer.place) == (15, 0);
                let same = fed.state == state && closed.state == state && *row == before;
                if refused && same {
                    return Ok(None);
                }
                disagree(format!("{state:?}: refused, and changed"), bytes)
            }
            answer => disagree(format!("{state:?}: {answer:?}"), bytes),
        }
    }
}

/// What a file is answered by the reader of the reference, lent ample tables.
pub fn joined(file: &[u8]) -> Answer {
    reference::judge(Mode::Strict, file)
}
