use crate::output::Lent;
use crate::{disagree, Compared, Disagreement};
use scenes::Rng;

/// Bytes of an output that would do for small files.
const ENOUGH: usize = 4000;

impl Compared {
    /// Compares two files with outputs of several sizes: empty; then, unless that is
    /// refused by another number than 11, shorter, one byte short, just enough and
    /// longer. The list, which has at most 53 bytes for each of the first file's and one
    /// for each of the second's, or the refusal.
    pub fn pair(
        &mut self,
        first: &[u8],
        second: &[u8],
        rng: &mut Rng,
    ) -> Result<Result<Vec<u8>, reference::Compared>, Disagreement> {
        self.files += 2;
        let (asked, list) = self.list(first, second, 0)?;
        if asked.number != 11 {
            let (again, same) = self.list(first, second, ENOUGH)?;
            let answer = match asked.number {
                0 => Ok(list),
                _ => Err(asked),
            };
            return match again == asked && same.is_empty() {
                true => Ok(answer),
                false => disagree(format!("{asked:?} without output, then {again:?}"), second),
            };
        }
        let size = asked.place as usize;
        if size > 53 * first.len() + second.len() {
            return disagree(format!("both answer a list of {size} bytes"), second);
        }
        for short in [rng.below(size), size - 1] {
            let (answer, _) = self.list(first, second, short)?;
            if answer != asked {
                return disagree(format!("both answer {answer:?} to {short} bytes"), second);
            }
        }
        let (exact, list) = self.list(first, second, size)?;
        let (longer, same) = self.list(first, second, size + rng.between(1, 50))?;
        let written = reference::Compared {
            size: asked.place,
            ..reference::Compared::default()
        };
        match (exact, longer) == (written, written) && list == same {
            true => Ok(Ok(list)),
            false => disagree(format!("{asked:?}, then {exact:?}, {longer:?}"), second),
        }
    }

    /// Compares by both, with an output of this size: the answer and the list.
    pub fn list(
        &mut self,
        first: &[u8],
        second: &[u8],
        size: usize,
    ) -> Result<(reference::Compared, Vec<u8>), Disagreement> {
        self.outputs += 1;
        let (mut proved, mut plain) = (Lent::new(size), Lent::new(size));
        let answer = kelompuris::compare(first, second, proved.part());
        let answer = reference::Compared {
            number: answer.number,
            place: answer.place,
            which: answer.which,
            size: answer.size,
        };
        let expected = reference::compare(first, second, plain.part());
        let about = format!("compare with {} bytes, output of {size}", first.len());
        self.same(&about, second, answer.number, answer, expected)?;
        self.bytes += proved.len();
        let written = answer.size as usize;
        match self.wrong(&proved, &plain, written) {
            None => Ok((answer, proved.written(written))),
            Some(wrong) => disagree(format!("{about}: {wrong}"), second),
        }
    }
}
