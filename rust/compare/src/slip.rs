use crate::{Compared, Disagreement};
use reference::Slip;

impl Compared {
    /// Reads a slip; the answer of both.
    pub fn slip(&mut self, slip: &[u8]) -> Result<Slip, Disagreement> {
        self.slips += 1;
        let answer = kelompuris::read_slip(slip);
        let answer = Slip {
            number: answer.number,
            place: answer.place,
            numbers: answer.numbers,
        };
        let expected = reference::read_slip(slip);
        self.same("read a slip", slip, answer.number, answer, expected)
    }
}
