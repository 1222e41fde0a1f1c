//! Files mended, and what was mended (paper 02, E13): `walk` finds the mends, here
//! the mended file and the report are made of them.

mod walk;

use crate::groups::grouped;
use crate::limits::NONE;
use crate::refusal::Refusal;
use walk::Walk;

/// Which of the four a mend is.
#[derive(Clone, Copy, PartialEq, Eq)]
enum Which {
    /// A wrong BB3D length.
    Length = 1,
    /// A brush or texture id that names nothing.
    Id = 2,
    /// A triangle or weight with a bad vertex id.
    Item = 3,
    /// 1 to 7 bytes at the end of BB3D, NODE or MESH.
    Spare = 4,
}

/// Bytes of the given file that the mended one has otherwise, or has not.
struct Mend {
    which: Which,
    place: usize,
    size: usize,
}

impl Mend {
    /// How many bytes the mended file has in their place.
    fn mended_size(&self) -> usize {
        match self.which {
            Which::Length | Which::Id => self.size,
            Which::Item | Which::Spare => 0,
        }
    }
}

/// A mended file and the report.
pub struct Mended {
    pub file: Vec<u8>,
    pub report: Vec<u8>,
}

/// The file mended, or its first fault of another kind.
pub fn mend(file: &[u8]) -> Result<Mended, Refusal> {
    let Walk { mends, chunks, .. } = walk::walk(file)?;
    let gone = Gone::new(&mends);
    let mut mended = file.to_vec();
    for chunk in chunks {
        let length = gone.moved(chunk.end) - gone.moved(chunk.body);
        set(&mut mended, chunk.body - 4, length as u32);
    }
    for id in mends.iter().filter(|mend| mend.which == Which::Id) {
        set(&mut mended, id.place, NONE);
    }
    let mended = without(&mended, &mends);
    let mut report = Vec::new();
    for mend in &mends {
        let (size, after) = (mend.size, mend.mended_size());
        let numbers = [mend.place, mend.which as usize, size, after];
        report.extend(grouped(&numbers.map(|number| number as u32)));
        report.extend_from_slice(&file[mend.place..][..size]);
        report.extend_from_slice(&mended[gone.moved(mend.place)..][..after]);
    }
    Ok(Mended {
        file: mended,
        report,
    })
}

/// The bytes without those that mends take out.
fn without(bytes: &[u8], mends: &[Mend]) -> Vec<u8> {
    let mut left = Vec::with_capacity(bytes.len());
    let mut at = 0;
    for mend in mends.iter().filter(|mend| mend.mended_size() == 0) {
        left.extend_from_slice(&bytes[at..mend.place]);
        at = mend.place + mend.size;
    }
    left.extend_from_slice(&bytes[at..]);
    left
}

fn set(bytes: &mut [u8], place: usize, word: u32) {
    bytes[place..place + 4].copy_from_slice(&word.to_le_bytes());
}

/// The end of each part that is taken out, in order, and how many bytes are taken
/// out before that.
struct Gone(Vec<(usize, usize)>);

impl Gone {
    fn new(mends: &[Mend]) -> Gone {
        let mut ends = Vec::new();
        let mut sum = 0;
        for mend in mends {
            sum += mend.size - mend.mended_size();
            ends.push((mend.place + mend.size, sum));
        }
        Gone(ends)
    }

    /// Where in the mended file a place of the given one is that is not inside
    /// bytes taken out.
    fn moved(&self, place: usize) -> usize {
        match self.0.partition_point(|&(end, _)| end <= place) {
            0 => place,
            before => place - self.0[before - 1].1,
        }
    }
}
